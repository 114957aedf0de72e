/* A loadable extension of SQLite: source maps in queries. A map is TEXT, the JSON of a source map, or a BLOB, a compiled map.
 *
 *   smap_trace(map, line, column)        the original position of a generated one, as JSON:
 *                                        {"source":..,"line":..,"column":..,"name":..}; NULL where the map has no source for it
 *   smap_trace_at(map, line, column)     the same as a table: one row of source, line, column, name, source_id, or none
 *   smap_compile(map)                    the compiled map, a BLOB; a compiled map itself, unchanged
 *   smap_source_content(map, source_id)  the content of a source, TEXT; NULL if the map does not have it
 *   smap_fault(map)                      why a map cannot be read, TEXT, with the place; NULL if it can be read
 *
 * Numbers count from 0, columns in UTF-16 units. Sources are as the map lists them, without the source root. JSON is read as
 * smap_read_found reads it, and what that mends is not reported. With a NULL argument the result is NULL, or no row. Anything else that is
 * no map, and no INTEGER from 0 to 4294967295, is an error of the statement, with the message of the library and its place; lack of memory
 * is one of smap_fault too.
 *
 * smap_trace and smap_source_content read JSON once in a statement if it is a literal or a parameter, and otherwise in each row.
 * smap_trace_at reads it once for consecutive rows of a join with the same JSON. Compiled maps are searched where SQLite holds them. But
 * SQLite itself copies a map that is larger than a page for each row, if it is no literal and no parameter, also out of a subquery.
 *
 * Build the library first (./build c), then the extension:
 *
 *   cc -O2 -fPIC -fvisibility=hidden -shared -Itarget bindings/c/sqlite/sourcemap.c target/liboxc_sourcemap.a -Wl,--exclude-libs,ALL \
 *       -o sourcemap.so
 *
 * Load it by `.load ./sourcemap` in sqlite3, or sqlite3_load_extension, of SQLite 3.31 or newer.
 */
#include "oxc_sourcemap.h"

#include <sqlite3ext.h>
#include <string.h>

SQLITE_EXTENSION_INIT1

/* A map that is open: one that was read, or a compiled one in the bytes of a value. */
typedef struct opened {
    smap_map *map;
    smap_compiled *compiled;
} opened;

/* A call that may fail returns SQLITE_OK, SQLITE_ERROR with *words, which sqlite3_free frees, or SQLITE_NOMEM without. */
static int failed_with(char *made, char **words) {
    *words = made;
    return made ? SQLITE_ERROR : SQLITE_NOMEM;
}

/* The library's message of a fault, with its place. The text is the one that it refused, if it was one. */
static int refused(const char *text, size_t len, const smap_fault *fault, char **words) {
    char place[256], message[256];
    size_t place_len = smap_place_message(fault, place, sizeof place);
    size_t message_len = text ? smap_reason_message(text, len, fault, message, sizeof message) : 0;
    if (message_len == 0) message_len = smap_message(fault, message, sizeof message);
    if (fault->code == SMAP_OUT_OF_MEMORY || message_len == 0) return SQLITE_NOMEM;
    if (place_len == 0 && fault->place.kind != SMAP_PLACE_NONE) return SQLITE_NOMEM;
    if (place_len > sizeof place) place_len = sizeof place;
    if (message_len > sizeof message) message_len = sizeof message;
    const char *between = place_len > 0 ? ": " : "";
    return failed_with(sqlite3_mprintf("%.*s%s%.*s", (int)place_len, place, between, (int)message_len, message), words);
}

/* The type of a value that is not NULL. */
static const char *type_of(sqlite3_value *value) {
    switch (sqlite3_value_type(value)) {
    case SQLITE_INTEGER: return "an INTEGER";
    case SQLITE_FLOAT: return "a REAL";
    case SQLITE_TEXT: return "TEXT";
    default: return "a BLOB";
    }
}

static int open_map(sqlite3_value *value, opened *out, char **words) {
    smap_fault fault;
    int type = sqlite3_value_type(value);
    if (type != SQLITE_TEXT && type != SQLITE_BLOB)
        return failed_with(sqlite3_mprintf("the map is %s, and has to be TEXT (JSON) or a BLOB (compiled)", type_of(value)), words);
    /* (the length is that of the text in UTF-8; a BLOB that cannot be made of a zeroblob is NULL from then on, and has no length) */
    const char *at = type == SQLITE_TEXT ? (const char *)sqlite3_value_text(value) : NULL;
    size_t len = (size_t)sqlite3_value_bytes(value);
    if (type == SQLITE_BLOB) at = sqlite3_value_blob(value);
    if (!at && (type == SQLITE_TEXT || len > 0)) return SQLITE_NOMEM;
    if (type == SQLITE_BLOB && len > 0 && *at == '{')
        return failed_with(sqlite3_mprintf("a BLOB is a compiled map, and this is JSON: CAST it AS TEXT"), words);
    if (type == SQLITE_BLOB) {
        if (smap_open_compiled(at, len, &out->compiled, &fault) == SMAP_OK) return SQLITE_OK;
        return refused(NULL, 0, &fault, words);
    }
    return smap_read_found(at, len, &out->map, NULL, &fault) == SMAP_OK ? SQLITE_OK : refused(at, len, &fault, words);
}

static void free_map(void *map) {
    smap_free_map(map);
}

#define HAS_TO_BE "and has to be an INTEGER from 0 to 4294967295"

static int number_in(sqlite3_value *value, const char *what, uint32_t *out, char **words) {
    if (sqlite3_value_type(value) != SQLITE_INTEGER)
        return failed_with(sqlite3_mprintf("the %s is %s, " HAS_TO_BE, what, type_of(value)), words);
    sqlite3_int64 number = sqlite3_value_int64(value);
    if (number < 0 || number > UINT32_MAX) return failed_with(sqlite3_mprintf("the %s is %lld, " HAS_TO_BE, what, number), words);
    *out = (uint32_t)number;
    return SQLITE_OK;
}

static int has_null(int argc, sqlite3_value **argv) {
    for (int i = 0; i < argc; i++)
        if (sqlite3_value_type(argv[i]) == SQLITE_NULL) return 1;
    return 0;
}

/* Looks up the position that follows a map in the arguments. The map is opened if it is not. */
static int trace(sqlite3_value **argv, opened *it, smap_position *at, smap_original *out, char **words) {
    smap_fault fault = { 0 };
    int status = number_in(argv[1], "line", &at->line, words);
    if (status == SQLITE_OK) status = number_in(argv[2], "column", &at->column, words);
    if (status == SQLITE_OK && !it->map) status = open_map(argv[0], it, words);
    if (status != SQLITE_OK) return status;
    fault.code = it->compiled ? smap_compiled_trace(it->compiled, at->line, at->column, SMAP_BEFORE, out)
                              : smap_trace(it->map, at->line, at->column, SMAP_BEFORE, out, &fault);
    return fault.code == SMAP_OK ? SQLITE_OK : refused(NULL, 0, &fault, words);
}

/* ---- functions ---- */

/* The map of the first argument, if it is constant and was read for a row before. */
static opened kept_map(sqlite3_context *context) {
    opened it = { sqlite3_get_auxdata(context, 0), NULL };
    return it;
}

/* Keeps it for rows to come, if it is constant. (SQLite frees it, at once if it is not, or if memory is refused.) */
static void keep_map(sqlite3_context *context, opened *it) {
    smap_free_compiled(it->compiled);
    if (it->map && it->map != sqlite3_get_auxdata(context, 0)) sqlite3_set_auxdata(context, 0, it->map, free_map);
}

static void answer_error(sqlite3_context *context, int status, char *words) {
    if (status == SQLITE_NOMEM)
        sqlite3_result_error_nomem(context);
    else
        sqlite3_result_error(context, words, -1);
    sqlite3_free(words);
}

static void write_json(sqlite3_str *out, const smap_text *text) {
    size_t from = 0;
    sqlite3_str_appendchar(out, 1, '"');
    for (size_t i = 0; i < text->len; i++) {
        unsigned char byte = (unsigned char)text->at[i];
        if (byte >= ' ' && byte != '"' && byte != '\\') continue;
        sqlite3_str_append(out, text->at + from, (int)(i - from));
        sqlite3_str_appendf(out, "\\u%04x", byte);
        from = i + 1;
    }
    if (from < text->len) sqlite3_str_append(out, text->at + from, (int)(text->len - from));
    sqlite3_str_appendchar(out, 1, '"');
}

static void answer_json(sqlite3_context *context, const smap_original *found) {
    sqlite3_str *out = sqlite3_str_new(sqlite3_context_db_handle(context));
    sqlite3_str_appendall(out, "{\"source\":");
    write_json(out, &found->source);
    sqlite3_str_appendf(out, ",\"line\":%u,\"column\":%u,\"name\":", found->token.src_line, found->token.src_col);
    if (found->kind == SMAP_NAMED)
        write_json(out, &found->name);
    else
        sqlite3_str_appendall(out, "null");
    sqlite3_str_appendchar(out, 1, '}');
    int status = sqlite3_str_errcode(out), len = sqlite3_str_length(out);
    char *text = sqlite3_str_finish(out);
    if (status == SQLITE_OK)
        sqlite3_result_text(context, text, len, sqlite3_free);
    else
        sqlite3_result_error_code(context, status);
}

static void call_trace(sqlite3_context *context, int argc, sqlite3_value **argv) {
    char *words = NULL;
    smap_position at;
    smap_original found;
    if (has_null(argc, argv)) return;
    opened it = kept_map(context);
    int status = trace(argv, &it, &at, &found, &words);
    if (status != SQLITE_OK)
        answer_error(context, status, words);
    else if (found.kind >= SMAP_MAPPED)
        answer_json(context, &found);
    keep_map(context, &it);
}

static void call_compile(sqlite3_context *context, int argc, sqlite3_value **argv) {
    char *words = NULL;
    smap_fault fault;
    smap_text bytes;
    smap_string *made = NULL;
    opened it = { NULL, NULL };
    if (has_null(argc, argv)) return;
    int status = open_map(argv[0], &it, &words);
    if (it.map && smap_compile(it.map, (uint64_t)sqlite3_value_bytes(argv[0]), NULL, &made, &fault) != SMAP_OK)
        status = refused(NULL, 0, &fault, &words);
    if (status != SQLITE_OK)
        answer_error(context, status, words);
    else if (made && smap_get_text(made, &bytes) == SMAP_OK)
        sqlite3_result_blob64(context, bytes.at, bytes.len, SQLITE_TRANSIENT);
    else
        sqlite3_result_value(context, argv[0]);
    smap_free_string(made);
    smap_free_map(it.map);
    smap_free_compiled(it.compiled);
}

static void call_fault(sqlite3_context *context, int argc, sqlite3_value **argv) {
    char *words = NULL;
    opened it = { NULL, NULL };
    if (has_null(argc, argv)) return;
    int status = open_map(argv[0], &it, &words);
    if (status == SQLITE_ERROR)
        sqlite3_result_text(context, words, -1, sqlite3_free);
    else if (status != SQLITE_OK)
        answer_error(context, status, words);
    smap_free_map(it.map);
    smap_free_compiled(it.compiled);
}

static void call_source_content(sqlite3_context *context, int argc, sqlite3_value **argv) {
    char *words = NULL;
    uint32_t id, code = SMAP_NO_ENTRY;
    smap_text text;
    if (has_null(argc, argv)) return;
    opened it = kept_map(context);
    int status = number_in(argv[1], "source_id", &id, &words);
    if (status == SQLITE_OK && !it.map) status = open_map(argv[0], &it, &words);
    if (status != SQLITE_OK)
        answer_error(context, status, words);
    else if (it.map)
        code = smap_get_source_content(it.map, id, &text);
    else
        code = smap_compiled_get_text(it.compiled, SMAP_TEXT_SOURCE_CONTENT, id, &text);
    if (code == SMAP_OK) sqlite3_result_text64(context, text.len > 0 ? text.at : "", text.len, SQLITE_TRANSIENT, SQLITE_UTF8);
    keep_map(context, &it);
}

/* ---- the table ---- */

/* The columns from `map` on are the arguments. They are not read: xColumn has NULL for them. */
#define COLUMNS "source TEXT, line INT, \"column\" INT, name TEXT, source_id INT, map HIDDEN, at_line HIDDEN, at_column HIDDEN"
enum { SOURCE, LINE, COLUMN, NAME, SOURCE_ID, MAP };

typedef struct cursor {
    sqlite3_vtab_cursor base;
    sqlite3_value *json; /* what `map` was read from */
    smap_map *map;
    smap_position at;
    smap_original found; /* its texts are in `texts` */
    char *texts;
    int is_row;
} cursor;

static int table_connect(sqlite3 *db, void *with, int argc, const char *const *argv, sqlite3_vtab **out, char **words) {
    (void)with, (void)argc, (void)argv, (void)words;
    int status = sqlite3_declare_vtab(db, "CREATE TABLE x(" COLUMNS ")");
    if (status == SQLITE_OK) status = sqlite3_vtab_config(db, SQLITE_VTAB_INNOCUOUS);
    if (status != SQLITE_OK) return status;
    *out = sqlite3_malloc(sizeof **out);
    if (!*out) return SQLITE_NOMEM;
    memset(*out, 0, sizeof **out);
    return SQLITE_OK;
}

static int table_disconnect(sqlite3_vtab *table) {
    sqlite3_free(table);
    return SQLITE_OK;
}

/* All three arguments have to be known. SQLite leaves the comparison with them to the table, but only among its first 16 constraints. */
static int table_plan(sqlite3_vtab *table, sqlite3_index_info *info) {
    int seen = 0;
    (void)table;
    for (int i = 0; i < info->nConstraint; i++) {
        int which = info->aConstraint[i].iColumn - MAP;
        if (which < 0 || info->aConstraint[i].op != SQLITE_INDEX_CONSTRAINT_EQ) continue;
        if (!info->aConstraint[i].usable || i >= 16 || seen & 1 << which) return SQLITE_CONSTRAINT;
        info->aConstraintUsage[i].argvIndex = which + 1;
        info->aConstraintUsage[i].omit = 1;
        seen |= 1 << which;
    }
    info->estimatedCost = info->estimatedRows = 1;
    info->idxFlags = SQLITE_INDEX_SCAN_UNIQUE;
    return seen == 7 ? SQLITE_OK : SQLITE_CONSTRAINT;
}

static int table_open(sqlite3_vtab *table, sqlite3_vtab_cursor **out) {
    (void)table;
    cursor *it = sqlite3_malloc(sizeof *it);
    if (!it) return SQLITE_NOMEM;
    memset(it, 0, sizeof *it);
    *out = &it->base;
    return SQLITE_OK;
}

static int table_close(sqlite3_vtab_cursor *base) {
    cursor *it = (cursor *)base;
    smap_free_map(it->map);
    sqlite3_value_free(it->json);
    sqlite3_free(it->texts);
    sqlite3_free(it);
    return SQLITE_OK;
}

/* Whether a value is the JSON that the map of a cursor was read from. */
static int is_read(const cursor *it, sqlite3_value *value) {
    if (!it->map || sqlite3_value_type(value) != SQLITE_TEXT) return 0;
    const unsigned char *text = sqlite3_value_text(value), *before = sqlite3_value_text(it->json);
    int len = sqlite3_value_bytes(value);
    return text && before && len == sqlite3_value_bytes(it->json) && memcmp(text, before, (size_t)len) == 0;
}

/* Keeps a map that was read from a value in place of the one before. */
static int hold(cursor *it, smap_map *map, sqlite3_value *value) {
    smap_free_map(it->map);
    sqlite3_value_free(it->json);
    it->map = map;
    it->json = sqlite3_value_dup(value);
    if (it->json) return SQLITE_OK;
    smap_free_map(it->map);
    it->map = NULL;
    return SQLITE_NOMEM;
}

/* Copies the found texts, since their bytes are borrowed only until xFilter returns. */
static int copy_texts(cursor *it) {
    smap_text *source = &it->found.source, *name = &it->found.name;
    char *texts = sqlite3_realloc64(it->texts, source->len + name->len + 1);
    if (!texts) return SQLITE_NOMEM;
    it->texts = texts;
    if (source->len > 0) memcpy(texts, source->at, source->len);
    if (name->len > 0) memcpy(texts + source->len, name->at, name->len);
    source->at = texts;
    name->at = texts + source->len;
    return SQLITE_OK;
}

static int table_filter(sqlite3_vtab_cursor *base, int plan, const char *how, int argc, sqlite3_value **argv) {
    cursor *it = (cursor *)base;
    char *words = NULL;
    (void)plan, (void)how;
    it->is_row = 0;
    if (has_null(argc, argv)) return SQLITE_OK;
    opened map = { is_read(it, argv[0]) ? it->map : NULL, NULL };
    int status = trace(argv, &map, &it->at, &it->found, &words);
    if (map.map && map.map != it->map) {
        int held = hold(it, map.map, argv[0]);
        if (status == SQLITE_OK) status = held;
    }
    it->is_row = status == SQLITE_OK && it->found.kind >= SMAP_MAPPED;
    if (it->is_row) status = copy_texts(it);
    smap_free_compiled(map.compiled);
    if (words) {
        sqlite3_free(base->pVtab->zErrMsg);
        base->pVtab->zErrMsg = words;
    }
    return status;
}

static int table_next(sqlite3_vtab_cursor *base) {
    ((cursor *)base)->is_row = 0;
    return SQLITE_OK;
}

static int table_eof(sqlite3_vtab_cursor *base) {
    return !((cursor *)base)->is_row;
}

static int table_rowid(sqlite3_vtab_cursor *base, sqlite3_int64 *out) {
    const smap_position *at = &((cursor *)base)->at;
    *out = (sqlite3_int64)((uint64_t)at->line << 32 | at->column);
    return SQLITE_OK;
}

static int table_column(sqlite3_vtab_cursor *base, sqlite3_context *context, int which) {
    const smap_original *it = &((cursor *)base)->found;
    switch (which) {
    case SOURCE: sqlite3_result_text64(context, it->source.at, it->source.len, SQLITE_TRANSIENT, SQLITE_UTF8); break;
    case LINE: sqlite3_result_int64(context, it->token.src_line); break;
    case COLUMN: sqlite3_result_int64(context, it->token.src_col); break;
    case NAME:
        if (it->kind == SMAP_NAMED) sqlite3_result_text64(context, it->name.at, it->name.len, SQLITE_TRANSIENT, SQLITE_UTF8);
        break;
    case SOURCE_ID: sqlite3_result_int64(context, it->token.source_id); break;
    }
    return SQLITE_OK;
}

static const sqlite3_module TABLE = {
    .xConnect = table_connect,
    .xBestIndex = table_plan,
    .xDisconnect = table_disconnect,
    .xOpen = table_open,
    .xClose = table_close,
    .xFilter = table_filter,
    .xNext = table_next,
    .xEof = table_eof,
    .xColumn = table_column,
    .xRowid = table_rowid,
};

#ifdef _WIN32
__declspec(dllexport)
#elif defined(__GNUC__)
__attribute__((visibility("default")))
#endif
    int sqlite3_sourcemap_init(sqlite3 *db, char **words, const sqlite3_api_routines *api);

int sqlite3_sourcemap_init(sqlite3 *db, char **words, const sqlite3_api_routines *api) {
    static const struct {
        const char *name;
        int arguments;
        void (*call)(sqlite3_context *, int, sqlite3_value **);
    } CALLS[] = { { "smap_trace", 3, call_trace },
                  { "smap_compile", 1, call_compile },
                  { "smap_source_content", 2, call_source_content },
                  { "smap_fault", 1, call_fault } };
    const int how = SQLITE_UTF8 | SQLITE_DETERMINISTIC | SQLITE_INNOCUOUS;
    SQLITE_EXTENSION_INIT2(api);
    if (sqlite3_libversion_number() < 3031000) return failed_with(sqlite3_mprintf("sourcemap needs SQLite 3.31"), words);
    int status = sqlite3_create_module_v2(db, "smap_trace_at", &TABLE, NULL, NULL);
    for (size_t i = 0; i < sizeof CALLS / sizeof *CALLS && status == SQLITE_OK; i++)
        status = sqlite3_create_function_v2(db, CALLS[i].name, CALLS[i].arguments, how, NULL, CALLS[i].call, NULL, NULL, NULL);
    return status;
}
