/* Tests of the extension for SQLite: queries with the answers, worked by hand; how often JSON is read; bytes that are cut or damaged, each
 * in memory of its own; and each request for memory, of SQLite too, refused in turn. */
#include <sqlite3.h>

#include "../tests/tests.h"

int sqlite3_sourcemap_init(sqlite3 *db, char **words, const struct sqlite3_api_routines *api);

/* How often a map was read from JSON. */
static int reads;
uint32_t __real_smap_read_found(const char *text, size_t text_len, smap_map **out, smap_mends **mends, smap_fault *fault);
uint32_t __wrap_smap_read_found(const char *text, size_t text_len, smap_map **out, smap_mends **mends, smap_fault *fault);
uint32_t __wrap_smap_read_found(const char *text, size_t text_len, smap_map **out, smap_mends **mends, smap_fault *fault) {
    reads++;
    return __real_smap_read_found(text, text_len, out, mends, fault);
}

/* What :json, :other and :map are in a query. :map is a BLOB if it has bytes, else as :json. */
typedef struct maps {
    const char *json, *other;
    const void *bytes;
    size_t len;
} maps;

static int bind(sqlite3_stmt *query, const maps *with) {
    int json = sqlite3_bind_parameter_index(query, ":json"), other = sqlite3_bind_parameter_index(query, ":other");
    int map = sqlite3_bind_parameter_index(query, ":map"), status = SQLITE_OK;
    if (json) status = sqlite3_bind_text(query, json, with->json, -1, SQLITE_STATIC);
    if (other && status == SQLITE_OK) status = sqlite3_bind_text(query, other, with->other, -1, SQLITE_STATIC);
    if (!map || status != SQLITE_OK) return status;
    return with->bytes ? sqlite3_bind_blob64(query, map, with->bytes, with->len, SQLITE_STATIC)
                       : sqlite3_bind_text(query, map, with->json, -1, SQLITE_STATIC);
}

/* What a query answers: its rows, with `|` behind each value, and `;` behind each row; or `error: ` and the words. In memory of its own,
 * since requests may be refused. */
static char said[4096];

static void say(const char *text, size_t len) {
    size_t before = strlen(said);
    if (before + len + 1 > sizeof said) abort();
    memcpy(said + before, text, len);
    said[before + len] = 0;
}

/* Says a row, and returns whether there was memory for it. */
static int say_row(sqlite3_stmt *query) {
    for (int i = 0; i < sqlite3_column_count(query); i++) {
        int is_null = sqlite3_column_type(query, i) == SQLITE_NULL;
        const char *text = is_null ? "NULL" : (const char *)sqlite3_column_text(query, i);
        if (!text) return 0;
        say(text, is_null ? 4 : (size_t)sqlite3_column_bytes(query, i));
        say("|", 1);
    }
    say(";", 1);
    return 1;
}

static const char *run(sqlite3 *db, const char *sql, const maps *with) {
    sqlite3_stmt *query = NULL;
    said[0] = 0;
    int status = sqlite3_prepare_v2(db, sql, -1, &query, NULL);
    if (status == SQLITE_OK) status = bind(query, with);
    if (status == SQLITE_OK) status = SQLITE_ROW;
    while (status == SQLITE_ROW) {
        status = sqlite3_step(query);
        if (status == SQLITE_ROW && !say_row(query)) status = SQLITE_NOMEM;
    }
    if (status != SQLITE_DONE) {
        said[0] = 0;
        say(TEXT("error: "));
        say(TEXT(status == SQLITE_NOMEM ? "out of memory" : sqlite3_errmsg(db)));
    }
    sqlite3_finalize(query);
    return said;
}

static void answers(sqlite3 *db, const char *sql, const maps *with, const char *wanted, int row) {
    const char *given = run(db, sql, with);
    CHECK_ROW(strcmp(given, wanted) == 0, row, sql);
    if (strcmp(given, wanted) != 0) printf("    %s, not %s\n", given, wanted);
}

/* ---- queries over A, as JSON and compiled ---- */

/* Its tokens: 0:0 from a.ts 0:0, 0:3 from a.ts 0:9 with the name hi, 0:8 from nowhere, and 1:1 from b.ts 1:0 with the name größe. */
#define NAME                                                                                                                               \
    "gr\xc3\xb6\xc3\x9f"                                                                                                                   \
    "e"
#define FRAMES "WITH frames(id, line, col) AS (VALUES (1, 0, 4), (2, 1, 0), (3, 1, 7), (4, 0, 8)) "
#define MANY "WITH RECURSIVE many(i) AS (SELECT 0 UNION ALL SELECT i + 1 FROM many WHERE i < 99) "
#define BOTH "WITH m(i, map) AS (VALUES (1, :json), (2, :other)) "
#define NO_NUMBER(given) " is " given ", and has to be an INTEGER from 0 to 4294967295"
#define IS_JSON "error: a BLOB is a compiled map, and this is JSON: CAST it AS TEXT"
#define NO_MAP(given) "error: the map is " given ", and has to be TEXT (JSON) or a BLOB (compiled)"

static const struct {
    int row;
    const char *sql, *wanted;
} OF_MAP[] = {
    { __LINE__, "SELECT smap_trace(:map, 0, 0)", "{\"source\":\"a.ts\",\"line\":0,\"column\":0,\"name\":null}|;" },
    { __LINE__, "SELECT smap_trace(:map, 0, 2)", "{\"source\":\"a.ts\",\"line\":0,\"column\":0,\"name\":null}|;" },
    { __LINE__, "SELECT smap_trace(:map, 0, 3)", "{\"source\":\"a.ts\",\"line\":0,\"column\":9,\"name\":\"hi\"}|;" },
    { __LINE__, "SELECT smap_trace(:map, 0, 7)", "{\"source\":\"a.ts\",\"line\":0,\"column\":9,\"name\":\"hi\"}|;" },
    { __LINE__, "SELECT smap_trace(:map, 0, 8), smap_trace(:map, 0, 4294967295)", "NULL|NULL|;" },
    { __LINE__, "SELECT smap_trace(:map, 1, 0), smap_trace(:map, 2, 0), smap_trace(:map, 4294967295, 4294967295)", "NULL|NULL|NULL|;" },
    { __LINE__, "SELECT smap_trace(:map, 1, 1)", "{\"source\":\"b.ts\",\"line\":1,\"column\":0,\"name\":\"" NAME "\"}|;" },
    { __LINE__, "SELECT typeof(smap_trace(:map, 1, 4294967295))", "text|;" },
    /* the table */
    { __LINE__, "SELECT * FROM smap_trace_at(:map, 0, 3)", "a.ts|0|9|hi|0|;" },
    { __LINE__, "SELECT * FROM smap_trace_at(:map, 0, 2)", "a.ts|0|0|NULL|0|;" },
    { __LINE__, "SELECT * FROM smap_trace_at(:map, 1, 1)", "b.ts|1|0|" NAME "|1|;" },
    { __LINE__, "SELECT * FROM smap_trace_at(:map, 1, 0) UNION ALL SELECT * FROM smap_trace_at(:map, 0, 8)", "" },
    { __LINE__, "SELECT rowid, source FROM smap_trace_at(:map, 1, 7)", "4294967303|b.ts|;" },
    { __LINE__, "SELECT map, at_line, at_column FROM smap_trace_at(:map, 0, 3)", "NULL|NULL|NULL|;" },
    { __LINE__, FRAMES "SELECT id, source, t.line, t.\"column\" FROM frames f, smap_trace_at(:map, f.line, f.col) t ORDER BY id",
      "1|a.ts|0|9|;3|b.ts|1|0|;" },
    { __LINE__, FRAMES "SELECT id, name FROM frames f LEFT JOIN smap_trace_at(:map, f.line, f.col) t ORDER BY id",
      "1|hi|;2|NULL|;3|" NAME "|;4|NULL|;" },
    { __LINE__, "SELECT source FROM smap_trace_at(:map, 0, 3) WHERE name = 'hi' OR source = 'b.ts'", "a.ts|;" },
    { __LINE__, "SELECT source FROM smap_trace_at(:map, 0, 3) WHERE name = 'ho' OR line = 1", "" },
    { __LINE__, "SELECT name FROM smap_trace_at WHERE at_column = 3 AND map = :map AND at_line = 0", "hi|;" },
    { __LINE__, "SELECT count(*) FROM smap_trace_at(:map, 0, 3) s JOIN smap_trace_at(:map, 0, 4) t USING (source)", "1|;" },
    { __LINE__, FRAMES "SELECT id FROM smap_trace_at(:map, f.line, f.col) t, frames f ORDER BY id", "1|;3|;" },
    { __LINE__, "SELECT name FROM smap_trace_at(:map, 0, 3) WHERE map = :map", "error: no query solution" },
    { __LINE__, "SELECT name FROM smap_trace_at(:map, 0)", "error: no query solution" },
    { __LINE__, "SELECT name FROM smap_trace_at", "error: no query solution" },
    { __LINE__, "SELECT name FROM smap_trace_at WHERE map = :map AND at_line >= 0 AND at_column = 3", "error: no query solution" },
    { __LINE__,
      "SELECT name FROM smap_trace_at(:map, 0, 3) WHERE line>=0 AND line>=0 AND line>=0 AND line>=0 AND line>=0 AND line>=0 AND "
      "line>=0 AND line>=0 AND line>=0 AND line>=0 AND line>=0 AND line>=0 AND line>=0 AND line>=0 AND line>=0 AND line>=0",
      "error: no query solution" },
    /* contents */
    { __LINE__, "SELECT smap_source_content(:map, 0), smap_source_content(:map, 1)", "let hi;|NULL|;" },
    { __LINE__, "SELECT smap_source_content(:map, 2), smap_source_content(:map, 4294967295)", "NULL|NULL|;" },
    { __LINE__, FRAMES "SELECT id, smap_source_content(:map, source_id) FROM frames f, smap_trace_at(:map, f.line, f.col) ORDER BY id",
      "1|let hi;|;3|NULL|;" },
    /* compiling */
    { __LINE__, "SELECT typeof(smap_compile(:map)), smap_compile(:map) = smap_compile(smap_compile(:map))", "blob|1|;" },
    { __LINE__, "SELECT smap_trace(smap_compile(:map), 0, 3)", "{\"source\":\"a.ts\",\"line\":0,\"column\":9,\"name\":\"hi\"}|;" },
    { __LINE__, "SELECT smap_source_content(smap_compile(:map), 0)", "let hi;|;" },
    { __LINE__, "SELECT smap_compile(:map) = smap_compile(:json)", "1|;" },
    /* faults: none, of what is read and of what smap_compile makes */
    { __LINE__, "SELECT smap_fault(:map), smap_fault(smap_compile(:map)), smap_fault(:json), smap_fault(:other)", "NULL|NULL|NULL|NULL|;" },
    /* NULL */
    { __LINE__, "SELECT smap_trace(NULL, 0, 0), smap_trace(:map, NULL, 0), smap_trace(:map, 0, NULL), smap_trace('x', -1, NULL)",
      "NULL|NULL|NULL|NULL|;" },
    { __LINE__, "SELECT smap_compile(NULL), smap_source_content(NULL, 0), smap_source_content(:map, NULL)", "NULL|NULL|NULL|;" },
    { __LINE__, "SELECT smap_fault(NULL)", "NULL|;" },
    { __LINE__, "SELECT count(*) FROM smap_trace_at(NULL, 0, 0)", "0|;" },
    { __LINE__, "SELECT count(*) FROM smap_trace_at(:map, NULL, 0), smap_trace_at(:map, 0, NULL)", "0|;" },
    /* numbers */
    { __LINE__, "SELECT smap_trace(:map, -1, 0)", "error: the line" NO_NUMBER("-1") },
    { __LINE__, "SELECT smap_trace(:map, 0, -1)", "error: the column" NO_NUMBER("-1") },
    { __LINE__, "SELECT smap_trace(:map, 4294967296, 0)", "error: the line" NO_NUMBER("4294967296") },
    { __LINE__, "SELECT smap_trace(:map, 0, 4294967296)", "error: the column" NO_NUMBER("4294967296") },
    { __LINE__, "SELECT smap_trace(:map, 9223372036854775807, 0)", "error: the line" NO_NUMBER("9223372036854775807") },
    { __LINE__, "SELECT smap_trace(:map, 0, 0.0)", "error: the column" NO_NUMBER("a REAL") },
    { __LINE__, "SELECT smap_trace(:map, '0', 0)", "error: the line" NO_NUMBER("TEXT") },
    { __LINE__, "SELECT smap_trace(:map, 0, x'00')", "error: the column" NO_NUMBER("a BLOB") },
    { __LINE__, "SELECT * FROM smap_trace_at(:map, 0, -1)", "error: the column" NO_NUMBER("-1") },
    { __LINE__, "SELECT * FROM smap_trace_at(:map, '0', 0)", "error: the line" NO_NUMBER("TEXT") },
    { __LINE__, "SELECT smap_source_content(:map, -1)", "error: the source_id" NO_NUMBER("-1") },
    { __LINE__, "SELECT smap_source_content(:map, 4294967296)", "error: the source_id" NO_NUMBER("4294967296") },
    /* what a schema may call: deterministic functions, and no unsafe ones */
    { __LINE__, "PRAGMA trusted_schema=OFF", "" },
    { __LINE__, "CREATE TABLE t(map, name AS (smap_trace(map, 0, 3)), content AS (smap_source_content(smap_compile(map), 0)))", "" },
    { __LINE__, "CREATE INDEX name_of ON t(smap_trace(map, 0, 3))", "" },
    { __LINE__, "CREATE INDEX is_bad ON t(smap_fault(map))", "" },
    { __LINE__, "CREATE VIEW v AS SELECT t.name, t.content, s.name FROM t, smap_trace_at(t.map, 0, 3) s", "" },
    { __LINE__, "INSERT INTO t VALUES (:map)", "" },
    { __LINE__, "SELECT * FROM v", "{\"source\":\"a.ts\",\"line\":0,\"column\":9,\"name\":\"hi\"}|let hi;|hi|;" },
    { __LINE__, "DROP VIEW v", "" },
    { __LINE__, "DROP TABLE t", "" },
};

/* ---- other maps ---- */

#define BAD(mappings) "'{\"version\":3,\"sources\":[\"a.js\"],\"names\":[],\"mappings\":\"" mappings "\"}'"
/* A source and a name with each kind of character that JSON escapes, or that is none of ASCII, and an empty content. */
#define ODD                                                                                                                                \
    "'{\"version\":3,\"sources\":[\"\\\"a\\\\\\n\\u0000\\u001f "                                                                           \
    "\xc3\xa9\"],\"sourcesContent\":[\"\"],\"names\":[\"\\\"\"],\"mappings\":\"AAAAA\"}'"

static const struct {
    int row;
    const char *sql, *wanted;
} OF_OTHERS[] = {
    { __LINE__, "SELECT smap_trace(" ODD ", 0, 0)",
      "{\"source\":\"\\u0022a\\u005c\\u000a\\u0000\\u001f \xc3\xa9\",\"line\":0,\"column\":0,\"name\":\"\\u0022\"}|;" },
    { __LINE__, "SELECT smap_trace(" ODD ", 0, 0) = smap_trace(smap_compile(" ODD "), 0, 0)", "1|;" },
    { __LINE__, "SELECT source = char(34, 97, 92, 10, 0, 31, 32, 233), name FROM smap_trace_at(" ODD ", 0, 0)", "1|\"|;" },
    { __LINE__, "SELECT typeof(smap_source_content(" ODD ", 0)), length(smap_source_content(smap_compile(" ODD "), 0))", "text|0|;" },
    /* maps as they are found: sorted, and behind a prefix */
    { __LINE__, "SELECT smap_trace(smap_compile(" BAD("KACA,FAAA") "), 0, 6)",
      "{\"source\":\"a.js\",\"line\":1,\"column\":0,\"name\":null}|;" },
    { __LINE__, "SELECT smap_trace(:other, 0, 6)", "{\"source\":\"a.js\",\"line\":0,\"column\":0,\"name\":null}|;" },
    /* two rows of the table at once */
    { __LINE__,
      BOTH
      "SELECT s.source, t.source FROM m a, smap_trace_at(smap_compile(a.map), 0, 3) s, m b, smap_trace_at(smap_compile(b.map), 0, 3) t "
      "ORDER BY a.i, b.i",
      "a.ts|a.ts|;a.ts|a.js|;a.js|a.ts|;a.js|a.js|;" },
    /* errors */
    { __LINE__, "SELECT smap_trace(1, 0, 0)", NO_MAP("an INTEGER") },
    { __LINE__, "SELECT smap_compile(1.5)", NO_MAP("a REAL") },
    { __LINE__, "SELECT smap_source_content(7, 0)", NO_MAP("an INTEGER") },
    { __LINE__, "SELECT * FROM smap_trace_at(1, 0, 0)", NO_MAP("an INTEGER") },
    { __LINE__, "SELECT smap_trace(" BAD("A,AA") ", 0, 0)",
      "error: line 0, segment 1 (byte 2): Mapping segment had an unsupported size of 2" },
    { __LINE__, "SELECT smap_compile(" BAD("AAAA,DAAA") ")", "error: line 0, segment 1 (byte 5): a column below 0" },
    { __LINE__, "SELECT * FROM smap_trace_at(" BAD("AAAA,DAAA") ", 0, 0)", "error: line 0, segment 1 (byte 5): a column below 0" },
    { __LINE__, "SELECT smap_trace('{\"version\":7}', 0, 0)", "error: version: JSON parsing error: unsupported source map version: 7" },
    { __LINE__, "SELECT smap_trace(CAST(x'FF' AS TEXT), 0, 0)", "error: Byte 0 is not UTF-8" },
    { __LINE__, "SELECT smap_trace(x'', 0, 0)", "error: not a compiled source map" },
    { __LINE__, "SELECT smap_trace(x'736D617002000000', 0, 0)", "error: unsupported version of a compiled source map: 2" },
    { __LINE__, "SELECT smap_compile(zeroblob(200))", "error: not a compiled source map" },
    { __LINE__, "SELECT smap_source_content(x'736D6170', 0)", "error: not a compiled source map" },
    { __LINE__, "SELECT * FROM smap_trace_at(x'01', 0, 0)", "error: not a compiled source map" },
    { __LINE__, "SELECT smap_compile(CAST(smap_compile(:json) || x'00' AS BLOB))",
      "error: a compiled source map has another length than it says" },
    { __LINE__, "SELECT smap_trace(CAST(:json AS BLOB), 0, 0)", IS_JSON },
    { __LINE__, "SELECT * FROM smap_trace_at(x'7B', 0, 0)", IS_JSON },
    { __LINE__, "SELECT smap_compile(CAST(:other AS BLOB))", "error: not a compiled source map" },
    /* the same as answers */
    { __LINE__, "SELECT smap_fault(" BAD("AAAA,DAAA") ")", "line 0, segment 1 (byte 5): a column below 0|;" },
    { __LINE__, "SELECT smap_fault(" BAD("A,AA") ")", "line 0, segment 1 (byte 2): Mapping segment had an unsupported size of 2|;" },
    { __LINE__, "SELECT smap_fault(" BAD("KACA,FAAA") ")", "NULL|;" },
    { __LINE__, "SELECT smap_fault('{\"version\":7}')", "version: JSON parsing error: unsupported source map version: 7|;" },
    { __LINE__, "SELECT smap_fault(CAST(x'FF' AS TEXT))", "Byte 0 is not UTF-8|;" },
    { __LINE__, "SELECT smap_fault(x'736D617002000000')", "unsupported version of a compiled source map: 2|;" },
    { __LINE__, "SELECT smap_fault(CAST(smap_compile(:json) || x'00' AS BLOB))",
      "a compiled source map has another length than it says|;" },
    { __LINE__, "SELECT smap_fault(CAST(:json AS BLOB))", "a BLOB is a compiled map, and this is JSON: CAST it AS TEXT|;" },
    { __LINE__, "SELECT smap_fault(x''), smap_fault(zeroblob(200))", "not a compiled source map|not a compiled source map|;" },
    { __LINE__, "SELECT smap_fault(1)", "the map is an INTEGER, and has to be TEXT (JSON) or a BLOB (compiled)|;" },
    { __LINE__, "SELECT typeof(smap_fault(1.5)), typeof(smap_fault(:json))", "text|null|;" },
    { __LINE__, "SELECT smap_fault()", "error: wrong number of arguments to function smap_fault()" },
    { __LINE__, "CREATE TABLE maps(id INTEGER PRIMARY KEY, map TEXT, compiled BLOB)", "" },
    { __LINE__, "INSERT INTO maps(map) VALUES (:json), (" BAD("D") "), (:other), (NULL)", "" },
    { __LINE__, "UPDATE maps SET compiled = smap_compile(map)", "error: line 0, segment 0 (byte 0): a column below 0" },
    { __LINE__, "UPDATE maps SET compiled = smap_compile(map) WHERE smap_fault(map) IS NULL", "" },
    { __LINE__, "SELECT m.id, s.source FROM maps m LEFT JOIN smap_trace_at(m.compiled, 0, 3) s", "1|a.ts|;2|NULL|;3|a.js|;4|NULL|;" },
    { __LINE__, "SELECT id, smap_fault(map) FROM maps WHERE compiled IS NULL", "2|line 0, segment 0 (byte 0): a column below 0|;4|NULL|;" },
    { __LINE__, "DROP TABLE maps", "" },
    /* an error of one row leaves the others as they are */
    { __LINE__,
      MANY "SELECT count(*), count(source) FROM many LEFT JOIN smap_trace_at(CASE i % 3 WHEN 0 THEN :json WHEN 1 THEN :other END, 0, i)",
      "100|36|;" },
};

/* ---- how often JSON is read ---- */

static const struct {
    int row, reads;
    const char *sql, *wanted;
} READ[] = {
    { __LINE__, 1, MANY "SELECT count(smap_trace(:json, 0, i)) FROM many", "8|;" },
    { __LINE__, 1, MANY "SELECT count(smap_source_content(:json, i)) FROM many", "1|;" },
    { __LINE__, 2, MANY "SELECT count(smap_trace(:json, 0, i)), count(smap_trace(:other, 0, i)) FROM many", "8|100|;" },
    { __LINE__, 100, MANY "SELECT count(smap_trace(CASE i WHEN 200 THEN '' ELSE :json END, 0, i)) FROM many", "8|;" },
    { __LINE__, 1, MANY "SELECT count(source) FROM many, smap_trace_at(:json, 0, i)", "8|;" },
    { __LINE__, 1, MANY "SELECT count(source) FROM many, smap_trace_at(CASE i WHEN 200 THEN '' ELSE :json END, 0, i)", "8|;" },
    { __LINE__, 3, MANY "SELECT count(source) FROM many, smap_trace_at(CASE i / 25 WHEN 1 THEN :other ELSE :json END, 0, i)", "33|;" },
    { __LINE__, 1, MANY "SELECT count(*) FROM many LEFT JOIN smap_trace_at(CASE i % 2 WHEN 0 THEN :json END, 0, i)", "100|;" },
    { __LINE__, 1, MANY "SELECT count(source) FROM many, smap_trace_at(CASE i % 2 WHEN 0 THEN :json ELSE :map END, 0, i)", "8|;" },
    { __LINE__, 0, MANY "SELECT count(smap_trace(:map, 0, i)) FROM many", "8|;" },
    /* two texts of one length */
    { __LINE__, 2,
      "SELECT source FROM (VALUES (1), (2)), smap_trace_at(CASE column1 WHEN 1 THEN :json ELSE replace(:json, 'a.ts', 'c.ts') END, 0, 3)",
      "a.ts|;c.ts|;" },
};

static void reads_of(sqlite3 *db, const maps *with) {
    for (size_t i = 0; i < LEN(READ); i++) {
        reads = 0;
        answers(db, READ[i].sql, with, READ[i].wanted, READ[i].row);
        CHECK_ROW(reads == READ[i].reads, READ[i].row, "how often JSON is read");
    }
}

/* ---- bytes that are cut or damaged ---- */

static void is_answer_or_error(sqlite3 *db, const char *sql, const maps *with, int is_error) {
    int has_error = strncmp(run(db, sql, with), "error: ", 7) == 0;
    CHECK(has_error == is_error || is_error < 0);
}

static void bytes_of(sqlite3 *db, const maps *with) {
    static const char *const QUERIES[] = { "SELECT smap_trace(:map, 1, 1)", "SELECT * FROM smap_trace_at(:map, 0, 3)",
                                           "SELECT smap_source_content(:map, 0)", "SELECT smap_compile(:map)" };
    for (size_t len = 0; len < with->len; len++) {
        maps cut = { NULL, NULL, malloc(len + !len), len };
        memcpy((char *)cut.bytes, with->bytes, len);
        for (size_t i = 0; i < LEN(QUERIES); i++) is_answer_or_error(db, QUERIES[i], &cut, 1);
        free((char *)cut.bytes);
    }
    maps damaged = { NULL, NULL, malloc(with->len), with->len };
    for (size_t at = 0; at < with->len; at++) {
        for (int with_bits = 1; with_bits < 256; with_bits = with_bits * 4 + 3) {
            memcpy((char *)damaged.bytes, with->bytes, with->len);
            ((unsigned char *)damaged.bytes)[at] ^= (unsigned char)with_bits;
            for (size_t i = 0; i < LEN(QUERIES); i++) is_answer_or_error(db, QUERIES[i], &damaged, -1);
        }
    }
    free((char *)damaged.bytes);
}

/* ---- memory ---- */

/* What SQLite takes memory by: as the library, by the calls that support.c refuses. A block has its size in front. */
static void *take(int size) {
    char *at = malloc((size_t)size + 16);
    if (at) memcpy(at, &size, sizeof size);
    return at ? at + 16 : NULL;
}
static void give_back(void *at) {
    free((char *)at - 16);
}
static int size_of(void *at) {
    int size = 0;
    if (at) memcpy(&size, (char *)at - 16, sizeof size);
    return size;
}
static void *resize(void *at, int size) {
    char *made = realloc((char *)at - 16, (size_t)size + 16);
    if (made) memcpy(made, &size, sizeof size);
    return made ? made + 16 : NULL;
}
static int round_up(int size) {
    return (size + 7) & ~7;
}
static int begin(void *with) {
    (void)with;
    return SQLITE_OK;
}
static void end(void *with) {
    (void)with;
}

static const struct {
    int row;
    const char *sql, *wanted;
} REFUSED[] = {
    { __LINE__, "SELECT smap_trace(:json, 0, 3), smap_trace(:map, 1, 1)",
      "{\"source\":\"a.ts\",\"line\":0,\"column\":9,\"name\":\"hi\"}|{\"source\":\"b.ts\",\"line\":1,\"column\":0,\"name\":\"" NAME
      "\"}|;" },
    { __LINE__, MANY "SELECT count(smap_trace(:json, 0, i)) FROM many WHERE i < 3", "3|;" },
    { __LINE__, "SELECT s.name, t.name FROM smap_trace_at(:json, 0, 3) s, smap_trace_at(:map, 1, 1) t", "hi|" NAME "|;" },
    { __LINE__, MANY "SELECT count(source) FROM many, smap_trace_at(CASE i % 2 WHEN 0 THEN :json ELSE :other END, 0, i) WHERE i < 4",
      "4|;" },
    { __LINE__, "SELECT smap_source_content(:json, 0), smap_source_content(:map, 0)", "let hi;|let hi;|;" },
    { __LINE__, "SELECT smap_compile(:json) = smap_compile(:map)", "1|;" },
    { __LINE__, "SELECT length(smap_compile(:json)) > 0, smap_source_content(:map, 7)", "1|NULL|;" },
    { __LINE__, "SELECT smap_trace(" BAD("AAAA,DAAA") ", 0, 0)", "error: line 0, segment 1 (byte 5): a column below 0" },
    { __LINE__, "SELECT * FROM smap_trace_at(" BAD("AAAA,DAAA") ", 0, 0)", "error: line 0, segment 1 (byte 5): a column below 0" },
    { __LINE__, "SELECT * FROM smap_trace_at(:json, 0, -1)", "error: the column" NO_NUMBER("-1") },
    { __LINE__, "SELECT smap_trace(zeroblob(300), 0, 0)", "error: not a compiled source map" },
    { __LINE__, "SELECT smap_fault(:json), smap_fault(:map), smap_fault(:other)", "NULL|NULL|NULL|;" },
    { __LINE__, "SELECT smap_fault(" BAD("A,AA") ")", "line 0, segment 1 (byte 2): Mapping segment had an unsupported size of 2|;" },
    /* (the reason takes memory too: without it there are the words of the error) */
    { __LINE__, "SELECT smap_fault(" BAD("AAAA,DAAA") ") LIKE 'line 0, segment 1 (byte 5): %'", "1|;" },
    { __LINE__, "SELECT smap_fault(1), smap_fault(CAST(:json AS BLOB)) IS NULL",
      "the map is an INTEGER, and has to be TEXT (JSON) or a BLOB (compiled)|0|;" },
};

/* Whether this is an answer where memory is refused: the right one, or that there is no memory; of errors those in other words too, since
 * the place and the reason take memory. */
static int is_answer(const char *given, const char *wanted) {
    if (strncmp(wanted, "error: ", 7) == 0) return strncmp(given, wanted, 7) == 0;
    return strcmp(given, wanted) == 0 || strcmp(given, "error: out of memory") == 0;
}

/* Refuses the request number n, for each n, and then each with all after it. */
static void refuses(sqlite3 *db, const maps *with) {
    for (size_t i = 0; i < LEN(REFUSED); i++) {
        for (refuses_on = 0; refuses_on < 2; refuses_on++) {
            long n = 0;
            do {
                left = n++;
                const char *given = run(db, REFUSED[i].sql, with);
                int is_so = is_answer(given, REFUSED[i].wanted);
                if (!is_so) printf("    request %ld refused: %s\n", n - 1, given);
                CHECK_ROW(is_so, REFUSED[i].row, REFUSED[i].sql);
            } while (left < (refuses_on ? 1 : 0) && n < 10000);
            left = -1;
        }
    }
    refuses_on = 0;
}

static sqlite3 *opened(void) {
    sqlite3 *db;
    CHECK(sqlite3_open(":memory:", &db) == SQLITE_OK);
    CHECK(sqlite3_exec(db, "SELECT 1", NULL, NULL, NULL) == SQLITE_OK);
    return db;
}

/* The same for opening a database, which loads the extension. */
static void refuses_to_open(void) {
    sqlite3 *db;
    int status;
    long n = 0;
    do {
        left = n++;
        status = sqlite3_open(":memory:", &db);
        CHECK(status == SQLITE_OK || status == SQLITE_NOMEM || left < 0);
        CHECK(sqlite3_close(db) == SQLITE_OK);
    } while (left < 0 && n < 10000);
    left = -1;
}

int main(void) {
    sqlite3_mem_methods methods = { take, give_back, resize, size_of, round_up, begin, end, NULL };
    CHECK(sqlite3_config(SQLITE_CONFIG_MALLOC, &methods) == SQLITE_OK && sqlite3_config(SQLITE_CONFIG_LOOKASIDE, 0, 0) == SQLITE_OK);
    CHECK(sqlite3_auto_extension((void (*)(void))sqlite3_sourcemap_init) == SQLITE_OK);
    smap_map *map = read_map(A);
    smap_string *string;
    smap_text bytes;
    CHECK(smap_compile(map, strlen(A), NULL, &string, NULL) == SMAP_OK && smap_get_text(string, &bytes) == SMAP_OK);
    const maps json = { A, MARKED, NULL, 0 }, compiled = { A, MARKED, bytes.at, bytes.len };
    sqlite3 *db = opened();
    for (int utf16 = 0; utf16 < 2; utf16++) {
        if (utf16) CHECK(sqlite3_exec(db, "PRAGMA encoding='UTF-16'", NULL, NULL, NULL) == SQLITE_OK);
        for (size_t i = 0; i < LEN(OF_MAP); i++) answers(db, OF_MAP[i].sql, &json, OF_MAP[i].wanted, OF_MAP[i].row);
        for (size_t i = 0; i < LEN(OF_MAP); i++) answers(db, OF_MAP[i].sql, &compiled, OF_MAP[i].wanted, OF_MAP[i].row);
        /* (bytes that are cast to TEXT are another text in UTF-16) */
        for (size_t i = 0; i < LEN(OF_OTHERS); i++)
            if (!utf16 || !strstr(OF_OTHERS[i].sql, "CAST(")) answers(db, OF_OTHERS[i].sql, &json, OF_OTHERS[i].wanted, OF_OTHERS[i].row);
        reads_of(db, &compiled);
        refuses(db, &compiled);
        CHECK(sqlite3_close(db) == SQLITE_OK);
        db = opened();
    }
    bytes_of(db, &compiled);
    refuses_to_open();
    CHECK(sqlite3_close(db) == SQLITE_OK);
    smap_free_string(string);
    smap_free_map(map);
    sqlite3_reset_auto_extension();
    CHECK(sqlite3_shutdown() == SQLITE_OK);
    CHECK(kept == 0);
    printf("%d passed, %d failed\n", passed, failed);
    return failed != 0;
}
