/* Scopes: read from a map or from their text alone, refused, held and asked. */
#include "tests.h"

static smap_scopes *decoded(const char *text, size_t names) {
    smap_scopes *scopes = NULL;
    smap_fault fault = junk();
    CHECK_ROW(smap_decode_scopes(TEXT(text), names, &scopes, &fault) == SMAP_OK && is_none(&fault), (int)names, text);
    return scopes;
}

/* ---- rows, worked by hand ---- */

/* What is wanted of the structs of the header, whose fields are compared by their names. */
typedef struct place {
    uint32_t line, column;
} place;
typedef struct call_row {
    uint32_t source, line, column;
} call_row;
typedef struct scope_row {
    uint32_t source;
    place start, end;
    uint32_t name, kind, is_stack_frame, parent;
} scope_row;
typedef struct range_row {
    place start, end;
    uint32_t definition, is_stack_frame, is_hidden;
    call_row call;
    uint32_t parent;
} range_row;
typedef struct frame_row {
    uint32_t name, scope;
    call_row call;
} frame_row;
typedef struct chain_row {
    uint32_t scope, range;
} chain_row;

static int is_place(smap_position it, place wanted) {
    return it.line == wanted.line && it.column == wanted.column;
}

static int is_call(const smap_call *it, const call_row *wanted) {
    return it->source == wanted->source && it->line == wanted->line && it->column == wanted->column;
}

static int is_scope(const smap_scope *it, const scope_row *wanted) {
    return it->source == wanted->source && is_place(it->start, wanted->start) && is_place(it->end, wanted->end) &&
           it->name == wanted->name && it->kind == wanted->kind && it->is_stack_frame == wanted->is_stack_frame &&
           it->parent == wanted->parent;
}

static int is_range(const smap_range *it, const range_row *wanted) {
    return is_place(it->start, wanted->start) && is_place(it->end, wanted->end) && it->definition == wanted->definition &&
           it->is_stack_frame == wanted->is_stack_frame && it->is_hidden == wanted->is_hidden && is_call(&it->call, &wanted->call) &&
           it->parent == wanted->parent;
}

static int is_frame(const smap_frame *it, const frame_row *wanted) {
    return it->name == wanted->name && it->scope == wanted->scope && is_call(&it->call, &wanted->call);
}

#define NOWHERE                                                                                                                            \
    { NO, NO, NO }

/* global; in it outer with the variable a, and inner; and a range of each, where inner was inlined into outer. The names are n0, global,
 * outer, function, a, inner, x. */
#define INLINED "BCAAC,BHBAEE,DI,CDB,BHBAGA,CCB,CBA,ECAA,EGKC,GH,ECKC,IADE,FK,FK,FBA"
static const scope_row INLINED_SCOPES[] = {
    { 0, { 0, 0 }, { 8, 0 }, NO, 1, 0, NO },
    { 0, { 1, 0 }, { 4, 1 }, 2, 3, 1, 0 },
    { 0, { 5, 0 }, { 7, 1 }, 5, 3, 1, 0 },
};
static const range_row INLINED_RANGES[] = {
    { { 0, 0 }, { 1, 0 }, 0, 0, 0, NOWHERE, NO },
    { { 0, 10 }, { 0, 40 }, 1, 1, 0, NOWHERE, 0 },
    { { 0, 20 }, { 0, 30 }, 2, 0, 0, { 0, 3, 4 }, 1 },
};

/* A source without scopes, and one with a block. */
#define SECOND "A,BCCDA,CAG"
static const scope_row SECOND_SCOPES[] = { { 1, { 2, 3 }, { 2, 9 }, NO, 0, 0, NO } };

/* A helper. */
#define HIDDEN "ENDC,FCH"
static const range_row HIDDEN_RANGES[] = { { { 3, 2 }, { 5, 7 }, NO, 1, 1, NOWHERE, NO } };

/* A scope with the variables a and b, and its code: there a has no value, and b that of x up to 1:1, then that of y. */
#define VALUES "BAAA,DAC,CJA,ECAA,GAD,HBBBE,FCE"
static const scope_row VALUES_SCOPES[] = { { 0, { 0, 0 }, { 9, 0 }, NO, NO, 0, NO } };
static const range_row VALUES_RANGES[] = { { { 0, 0 }, { 2, 4 }, 0, 0, 0, NOWHERE, NO } };

/* A function f in each of two sources, and their code, that of the second first. */
#define TWO "BFAAA,CEA,BFBAA,CFA,EGAC,FJ,EGAD,FBC"
static const scope_row TWO_SCOPES[] = { { 0, { 0, 0 }, { 4, 0 }, 0, NO, 1, NO }, { 1, { 1, 0 }, { 6, 0 }, 0, NO, 1, NO } };
static const range_row TWO_RANGES[] = { { { 0, 0 }, { 0, 9 }, 1, 1, 0, NOWHERE, NO }, { { 0, 9 }, { 1, 2 }, 0, 1, 0, NOWHERE, NO } };

/* A function up to the last position that there is, with a block in it. */
#define FAR_AWAY "BFAAA,BABA,CBC,C9/////DA,EKAA,F//////D//////D"
static const scope_row FAR_SCOPES[] = { { 0, { 0, 0 }, { MAX, 0 }, 0, NO, 1, NO }, { 0, { 1, 0 }, { 2, 2 }, NO, NO, 0, 0 } };

static const struct {
    const char *text;
    size_t names;
    uint64_t sources;
    const scope_row *scopes;
    size_t scopes_len;
    const range_row *ranges;
    size_t ranges_len;
} ROWS[] = {
    { INLINED, 7, 1, LIST(INLINED_SCOPES), LIST(INLINED_RANGES) },
    { SECOND, 1, 2, LIST(SECOND_SCOPES), NULL, 0 },
    { HIDDEN, 0, 0, NULL, 0, LIST(HIDDEN_RANGES) },
    { VALUES, 4, 1, LIST(VALUES_SCOPES), LIST(VALUES_RANGES) },
    { TWO, 1, 2, LIST(TWO_SCOPES), LIST(TWO_RANGES) },
    { "", 0, 0, NULL, 0, NULL, 0 },
    { "A", 0, 1, NULL, 0, NULL, 0 },
};

/* Whether the scopes and ranges are those of a row, and none is past the last one. */
static void are_held(const smap_scopes *scopes, size_t row) {
    smap_scopes_counts counts;
    smap_scope scope;
    smap_range range;
    memset(&counts, 7, sizeof counts);
    CHECK_ROW(smap_scopes_get_counts(scopes, &counts) == SMAP_OK && counts.sources == ROWS[row].sources, (int)row, "sources");
    CHECK_ROW(counts.scopes == ROWS[row].scopes_len && counts.ranges == ROWS[row].ranges_len, (int)row, "counts");
    for (uint32_t i = 0; i < ROWS[row].scopes_len; i++) {
        memset(&scope, 7, sizeof scope);
        CHECK_ROW(smap_get_scope(scopes, i, &scope) == SMAP_OK && is_scope(&scope, &ROWS[row].scopes[i]), (int)i, ROWS[row].text);
    }
    for (uint32_t i = 0; i < ROWS[row].ranges_len; i++) {
        memset(&range, 7, sizeof range);
        CHECK_ROW(smap_get_range(scopes, i, &range) == SMAP_OK && is_range(&range, &ROWS[row].ranges[i]), (int)i, ROWS[row].text);
    }
    scope.source = range.definition = 77;
    for (int far = 0; far < 2; far++) {
        CHECK(smap_get_scope(scopes, far ? MAX : (uint32_t)counts.scopes, &scope) == SMAP_NO_ENTRY && scope.source == 77);
        CHECK(smap_get_range(scopes, far ? MAX : (uint32_t)counts.ranges, &range) == SMAP_NO_ENTRY && range.definition == 77);
    }
}

static void rows(void) {
    for (size_t row = 0; row < LEN(ROWS); row++) {
        smap_scopes *scopes = decoded(ROWS[row].text, ROWS[row].names);
        are_held(scopes, row);
        smap_free_scopes(scopes);
    }
    smap_scopes *none;
    CHECK(smap_decode_scopes(NULL, 0, 0, &none, NULL) == SMAP_OK);
    are_held(none, 5);
    smap_free_scopes(none);
}

/* ---- lookups ---- */

/* Whether a lookup answers this index, or that there is none where it is NO. */
static int answers(uint32_t code, uint32_t found, uint32_t wanted) {
    return wanted == NO ? code == SMAP_NO_ENTRY && found == 77 : code == SMAP_OK && found == wanted;
}

/* The innermost scope and the innermost function at a position. */
static void in_source(const smap_scopes *scopes, uint32_t source, uint32_t line, uint32_t column, uint32_t scope, uint32_t function) {
    uint32_t found = 77, code = smap_scope_at(scopes, source, line, column, &found);
    CHECK_ROW(answers(code, found, scope), (int)line, "the scope");
    found = 77, code = smap_function_at(scopes, source, line, column, &found);
    CHECK_ROW(answers(code, found, function), (int)line, "the function");
}

static void in_code(const smap_scopes *scopes, uint32_t line, uint32_t column, uint32_t range) {
    uint32_t found = 77, code = smap_range_at(scopes, line, column, &found);
    CHECK_ROW(answers(code, found, range), (int)column, "the range");
}

static void finds(void) {
    smap_scopes *scopes = decoded(INLINED, 7);
    in_source(scopes, 0, 0, 0, 0, NO);
    in_source(scopes, 0, 0, MAX, 0, NO);
    in_source(scopes, 0, 1, 0, 1, 1);
    in_source(scopes, 0, 4, 0, 1, 1);
    in_source(scopes, 0, 4, 1, 0, NO);
    in_source(scopes, 0, 5, 0, 2, 2);
    in_source(scopes, 0, 8, 0, NO, NO);
    in_source(scopes, 1, 1, 0, NO, NO);
    in_source(scopes, MAX, 1, 0, NO, NO);
    in_code(scopes, 0, 9, 0);
    in_code(scopes, 0, 10, 1);
    in_code(scopes, 0, 20, 2);
    in_code(scopes, 0, 29, 2);
    in_code(scopes, 0, 30, 1);
    in_code(scopes, 0, 40, 0);
    in_code(scopes, 1, 0, NO);
    smap_free_scopes(scopes);
    scopes = decoded(TWO, 1);
    in_source(scopes, 0, 0, 5, 0, 0);
    in_source(scopes, 1, 0, 5, NO, NO);
    in_source(scopes, 1, 4, 0, 1, 1);
    smap_free_scopes(scopes);
}

static void far_away(void) {
    smap_scopes *scopes = decoded(FAR_AWAY, 1);
    smap_scope scope;
    smap_range range;
    for (uint32_t i = 0; i < LEN(FAR_SCOPES); i++) CHECK(smap_get_scope(scopes, i, &scope) == SMAP_OK && is_scope(&scope, &FAR_SCOPES[i]));
    CHECK(smap_get_range(scopes, 0, &range) == SMAP_OK && range.end.line == MAX && range.end.column == MAX);
    CHECK(range.is_hidden == 1 && range.is_stack_frame == 0 && range.definition == 0);
    in_source(scopes, 0, 1, 7, 1, 0);
    in_source(scopes, 0, 2, 2, 0, 0);
    in_source(scopes, 0, MAX - 1, MAX, 0, 0);
    in_source(scopes, 0, MAX, 0, NO, NO);
    in_code(scopes, MAX, MAX - 1, 0);
    in_code(scopes, MAX, MAX, NO);
    smap_free_scopes(scopes);
}

/* ---- frames ---- */

/* The frames at a position, in a buffer that is too long, and in one too short for the last. */
static void frames_are(const smap_scopes *scopes, uint32_t line, uint32_t column, const frame_row *wanted, size_t len, uint32_t hidden) {
    smap_frame out[8], kept_frame;
    for (size_t room = len + 1;; room--) {
        size_t count = 77, written = room < len ? room : len;
        uint32_t is_hidden = 77;
        memset(out, 7, sizeof out), memset(&kept_frame, 7, sizeof kept_frame);
        CHECK_ROW(smap_frames_at(scopes, line, column, out, room, &count, &is_hidden) == SMAP_OK, (int)column, "frames");
        CHECK_ROW(count == len && is_hidden == hidden, (int)column, "how many frames, and whether they are hidden");
        for (size_t i = 0; i < written; i++) CHECK_ROW(is_frame(&out[i], &wanted[i]), (int)i, "a frame");
        CHECK_ROW(memcmp(&out[written], &kept_frame, sizeof *out) == 0, (int)room, "room that is not needed");
        if (room == 0) break;
    }
    size_t count = 77;
    uint32_t is_hidden = 77;
    CHECK(smap_frames_at(scopes, line, column, NULL, 0, &count, &is_hidden) == SMAP_OK && count == len && is_hidden == hidden);
    count = 77;
    CHECK(smap_frames_at(scopes, line, column, out, 8, &count, NULL) == SMAP_OK && count == len);
    count = 77;
    CHECK(smap_frames_at(scopes, line, column, NULL, 0, &count, NULL) == SMAP_OK && count == len);
}

/* Functions f, g and h of three sources: f in a helper, g inlined into f, and h into that. Behind the helper is code of none. */
#define NESTED "BFAAA,CJA,BFAAC,CJA,BFAAC,CJA,EMA,EGAA,ECAC,IACB,ECAC,IBED,FU,FF,FF,FF,EAA,FBA"

static void frames(void) {
    static const frame_row INNER[] = { { 5, 2, NOWHERE }, { 2, 1, { 0, 3, 4 } } }, OUTER[] = { { 2, 1, NOWHERE } };
    static const frame_row NAMELESS[] = { { NO, NO, NOWHERE } }, SECOND_OF_TWO[] = { { 0, 1, NOWHERE } },
                           FIRST_OF_TWO[] = { { 0, 0, NOWHERE } };
    static const frame_row DEEP[] = { { 2, 2, NOWHERE }, { 1, 1, { 1, 4, 3 } }, { 0, 0, { 0, 2, 1 } } };
    static const frame_row MIDDLE[] = { { 1, 1, NOWHERE }, { 0, 0, { 0, 2, 1 } } };
    smap_scopes *scopes = decoded(INLINED, 7);
    frames_are(scopes, 0, 25, LIST(INNER), 0);
    frames_are(scopes, 0, 15, LIST(OUTER), 0);
    frames_are(scopes, 0, 5, LIST(NAMELESS), 0);
    frames_are(scopes, 1, 0, NULL, 0, 0);
    smap_free_scopes(scopes);
    scopes = decoded(HIDDEN, 0);
    frames_are(scopes, 4, 0, LIST(NAMELESS), 1);
    frames_are(scopes, 3, 1, NULL, 0, 0);
    smap_free_scopes(scopes);
    scopes = decoded(TWO, 1);
    frames_are(scopes, 0, 8, LIST(SECOND_OF_TWO), 0);
    frames_are(scopes, 0, 9, LIST(FIRST_OF_TWO), 0);
    smap_free_scopes(scopes);
    scopes = decoded(NESTED, 3);
    frames_are(scopes, 0, 19, LIST(DEEP), 0);
    frames_are(scopes, 0, 20, LIST(MIDDLE), 0);
    frames_are(scopes, 0, 29, LIST(FIRST_OF_TWO), 0);
    frames_are(scopes, 0, 30, LIST(NAMELESS), 1);
    frames_are(scopes, 0, 35, LIST(NAMELESS), 0);
    smap_free_scopes(scopes);
    /* (a range that is hidden and no stack frame hides nothing) */
    scopes = decoded(FAR_AWAY, 1);
    frames_are(scopes, 7, 7, LIST(FIRST_OF_TWO), 0);
    smap_free_scopes(scopes);
}

/* ---- variables and their values ---- */

/* The variables of a scope, in a buffer that is too long, and in one too short for the last. */
static void variables_are(const smap_scopes *scopes, uint32_t scope, const uint32_t *wanted, size_t len) {
    uint32_t out[8];
    for (size_t room = len + 1;; room--) {
        size_t count = 77, written = room < len ? room : len;
        for (size_t i = 0; i < LEN(out); i++) out[i] = 77;
        CHECK_ROW(smap_get_variables(scopes, scope, out, room, &count) == SMAP_OK && count == len, (int)scope, "how many variables");
        for (size_t i = 0; i < written; i++) CHECK_ROW(out[i] == wanted[i], (int)i, "a variable");
        CHECK_ROW(out[written] == 77, (int)room, "room that is not needed");
        if (room == 0) break;
    }
    size_t count = 77;
    CHECK_ROW(smap_get_variables(scopes, scope, NULL, 0, &count) == SMAP_OK && count == len, (int)scope, "how many variables");
}

static void value_is(const smap_scopes *scopes, uint32_t range, uint32_t variable, uint32_t line, uint32_t column, uint32_t wanted) {
    uint32_t out = 77;
    CHECK_ROW(smap_value_at(scopes, range, variable, line, column, &out) == SMAP_OK && out == wanted, (int)column, "a value");
}

/* Three variables, which two items tell, and the code at 2:5 to 4:9. The first has the value 3, from 2:9 on 4, from 3:2 on none, and from
 * 3:5 on 5; the second 3 from 3:0 on; of the third 5 is not told anywhere. */
#define SPLIT "BAAA,DAC,DC,CJA,EDCFA,GEAG,HAAEFBCAADG,HCAAA,HBBAE,FCJ"

static void sub_ranges(void) {
    static const uint32_t OF_SPLIT[] = { 0, 1, 2 };
    static const struct {
        uint32_t variable, line, column, value;
    } IN_SPLIT[] = {
        { 0, 2, 5, 3 },  { 0, 2, 8, 3 },  { 0, 2, 9, 4 }, { 0, 2, MAX, 4 }, { 0, 3, 1, 4 }, { 0, 3, 2, NO },   { 0, 3, 4, NO }, { 0, 3, 5, 5 },
        { 0, 4, 8, 5 },  { 1, 2, 5, NO }, { 1, 3, 0, 3 }, { 1, 4, 8, 3 },   { 2, 2, 5, NO }, { 2, 4, 0, NO }, { 3, 3, 0, NO },
    };
    smap_scopes *scopes = decoded(SPLIT, 6);
    variables_are(scopes, 0, LIST(OF_SPLIT));
    for (size_t i = 0; i < LEN(IN_SPLIT); i++)
        value_is(scopes, 0, IN_SPLIT[i].variable, IN_SPLIT[i].line, IN_SPLIT[i].column, IN_SPLIT[i].value);
    smap_free_scopes(scopes);
}

static void values(void) {
    static const uint32_t OF_OUTER[] = { 4 }, OF_VALUES[] = { 0, 1 };
    smap_scopes *scopes = decoded(INLINED, 7);
    variables_are(scopes, 0, NULL, 0);
    variables_are(scopes, 1, LIST(OF_OUTER));
    variables_are(scopes, 2, NULL, 0);
    value_is(scopes, 1, 0, 0, 10, 6);
    value_is(scopes, 1, 0, 0, 39, 6);
    value_is(scopes, 1, 1, 0, 10, NO);
    value_is(scopes, 0, 0, 0, 10, NO);
    value_is(scopes, 2, 0, 0, 20, NO);
    for (int far = 0; far < 2; far++) {
        uint32_t out = 77;
        size_t count = 77;
        CHECK(smap_get_variables(scopes, far ? MAX : 3, &out, 1, &count) == SMAP_NO_ENTRY && out == 77 && count == 77);
        CHECK(smap_value_at(scopes, far ? MAX : 3, 0, 0, 20, &out) == SMAP_NO_ENTRY && out == 77);
    }
    smap_free_scopes(scopes);
    scopes = decoded(VALUES, 4);
    variables_are(scopes, 0, LIST(OF_VALUES));
    value_is(scopes, 0, 0, 1, 1, NO);
    value_is(scopes, 0, 1, 0, 0, 2);
    value_is(scopes, 0, 1, 1, 0, 2);
    value_is(scopes, 0, 1, 1, 1, 3);
    value_is(scopes, 0, 1, 2, 3, 3);
    value_is(scopes, 0, MAX, 1, 1, NO);
    smap_free_scopes(scopes);
}

/* ---- chains of scopes ---- */

static int is_entry(const smap_chain_entry *it, const chain_row *wanted) {
    return it->scope == wanted->scope && it->range == wanted->range;
}

/* Calls for the chain at a position, or for that of a frame there. */
static uint32_t ask_chain(const smap_scopes *scopes, uint32_t frame, smap_position at, smap_chain_entry *out, size_t room, size_t *count) {
    return frame == NO ? smap_scope_chain_at(scopes, at.line, at.column, out, room, count)
                       : smap_scope_chain(scopes, frame, at.line, at.column, out, room, count);
}

/* The chain, in a buffer that is too long, and in one too short for the last. */
static void chain_is(const smap_scopes *scopes, uint32_t frame, uint32_t line, uint32_t column, const chain_row *wanted, size_t len) {
    smap_chain_entry out[8], kept_entry;
    const smap_position there = at(line, column);
    for (size_t room = len + 1;; room--) {
        size_t count = 77, written = room < len ? room : len;
        memset(out, 7, sizeof out), memset(&kept_entry, 7, sizeof kept_entry);
        CHECK_ROW(ask_chain(scopes, frame, there, out, room, &count) == SMAP_OK && count == len, (int)column, "how many scopes");
        for (size_t i = 0; i < written; i++) CHECK_ROW(is_entry(&out[i], &wanted[i]), (int)i, "an entry");
        CHECK_ROW(memcmp(&out[written], &kept_entry, sizeof *out) == 0, (int)room, "room that is not needed");
        if (room == 0) break;
    }
    size_t count = 77;
    CHECK_ROW(ask_chain(scopes, frame, there, NULL, 0, &count) == SMAP_OK && count == len, (int)column, "how many scopes");
}

static void chains(void) {
    static const chain_row OF_INNER[] = { { 2, 2 }, { 0, 0 } }, OF_OUTER[] = { { 1, 1 }, { 0, 0 } };
    smap_scopes *scopes = decoded(INLINED, 7);
    smap_chain_entry entry = { 77, 77 };
    size_t count = 77;
    chain_is(scopes, NO, 0, 25, LIST(OF_INNER));
    chain_is(scopes, NO, 0, 15, LIST(OF_OUTER));
    chain_is(scopes, NO, 0, 5, &OF_OUTER[1], 1);
    chain_is(scopes, NO, 1, 0, NULL, 0);
    chain_is(scopes, 0, 0, 25, LIST(OF_INNER));
    chain_is(scopes, 1, 0, 25, LIST(OF_OUTER));
    chain_is(scopes, 0, 0, 15, LIST(OF_OUTER));
    CHECK(smap_scope_chain(scopes, 2, 0, 25, &entry, 1, &count) == SMAP_NO_ENTRY);
    CHECK(smap_scope_chain(scopes, 1, 0, 15, &entry, 1, &count) == SMAP_NO_ENTRY);
    CHECK(smap_scope_chain(scopes, 0, 1, 0, &entry, 1, &count) == SMAP_NO_ENTRY);
    CHECK(smap_scope_chain(scopes, MAX, 0, 25, &entry, 1, &count) == SMAP_NO_ENTRY);
    CHECK(entry.scope == 77 && entry.range == 77 && count == 77);
    smap_free_scopes(scopes);
    scopes = decoded(HIDDEN, 0);
    chain_is(scopes, NO, 4, 0, NULL, 0);
    smap_free_scopes(scopes);
}

/* A function, inlined into itself at columns 10 to 20; the same where the inner range is the code of none; and a block in a function, whose
 * code stands around that of the function. */
#define RECURSIVE "BFAAA,CJA,EGAA,ECKA,IABB,FK,FU"
#define OF_NONE "BFAAA,CJA,EGAA,EAK,FK,FU"
#define TURNED "BFAAA,BABA,CBC,CJA,ECAC,ECKD,FK,FU"

static void chains_of_ranges(void) {
    static const chain_row WHOLE[] = { { 0, 0 } }, INNER[] = { { 0, 1 } }, BLOCK[] = { { 1, 0 }, { 0, NO } };
    smap_scopes *scopes = decoded(RECURSIVE, 1);
    chain_is(scopes, NO, 0, 9, LIST(WHOLE));
    chain_is(scopes, NO, 0, 10, LIST(INNER));
    chain_is(scopes, NO, 0, 19, LIST(INNER));
    chain_is(scopes, 0, 0, 15, LIST(INNER));
    chain_is(scopes, 1, 0, 15, LIST(WHOLE));
    chain_is(scopes, NO, 0, 20, LIST(WHOLE));
    chain_is(scopes, NO, 0, 40, NULL, 0);
    smap_free_scopes(scopes);
    scopes = decoded(OF_NONE, 1);
    chain_is(scopes, NO, 0, 9, LIST(WHOLE));
    chain_is(scopes, NO, 0, 15, NULL, 0);
    chain_is(scopes, 0, 0, 15, NULL, 0);
    smap_free_scopes(scopes);
    scopes = decoded(TURNED, 1);
    chain_is(scopes, NO, 0, 5, LIST(BLOCK));
    chain_is(scopes, NO, 0, 15, LIST(INNER));
    smap_free_scopes(scopes);
}

/* ---- errors ---- */

static const struct {
    const char *text;
    size_t names;
    uint32_t kind;
    uint64_t byte;
    const char *message;
} REFUSED[] = {
    { "A,!", 0, SMAP_SCOPES_NOT_A_DIGIT, 2, "scopes, byte 2: a character is no base64 digit" },
    { "A ,A", 0, SMAP_SCOPES_NOT_A_DIGIT, 0, "scopes, byte 0: a character is no base64 digit" },
    { "A,Bg", 0, SMAP_SCOPES_CUT_SHORT, 2, "scopes, byte 2: the last number is cut short" },
    { "A,gggggggA", 0, SMAP_SCOPES_TOO_LARGE, 2, "scopes, byte 2: a number is too large" },
    { "BAggggggEA", 0, SMAP_SCOPES_TOO_LARGE, 0, "scopes, byte 0: a number is too large" },
    { "EAA,IggggggEAA", 0, SMAP_SCOPES_TOO_LARGE, 4, "scopes, byte 4: a number is too large" },
    { "A,,A", 0, SMAP_SCOPES_MISSING_NUMBER, 2, "scopes, byte 2: a number is missing" },
    { "BBAA", 1, SMAP_SCOPES_MISSING_NUMBER, 0, "scopes, byte 0: a number is missing" },
    { "A,BBAAC", 1, SMAP_SCOPES_BAD_INDEX, 2, "scopes, byte 2: an index leads to no name, scope or value" },
    { "A,BCAAD", 9, SMAP_SCOPES_BAD_INDEX, 2, "scopes, byte 2: an index leads to no name, scope or value" },
    { "ECAA", 9, SMAP_SCOPES_BAD_INDEX, 0, "scopes, byte 0: an index leads to no name, scope or value" },
    { "A,CAA", 0, SMAP_SCOPES_NOTHING_OPEN, 2, "scopes, byte 2: no scope or range is open" },
    { "IAAA", 0, SMAP_SCOPES_NOTHING_OPEN, 0, "scopes, byte 0: no scope or range is open" },
    { "BAAA,A", 0, SMAP_SCOPES_NOT_CLOSED, 5, "scopes, byte 5: the scopes before it are not closed" },
    { "BAAA", 0, SMAP_SCOPES_LEFT_OPEN, 4, "scopes, byte 4: a scope or a range has no end" },
    { "BAAA,CAA,EAA", 0, SMAP_SCOPES_LEFT_OPEN, 12, "scopes, byte 12: a scope or a range has no end" },
    { "EAA,GB,HABAB,HABAB", 1, SMAP_SCOPES_SPLIT_TWICE, 13, "scopes, byte 13: the value has sub-ranges already" },
};

/* A fault of scopes, and its message. */
static void is_refused(const char *text, size_t names, uint32_t kind, uint64_t byte, const char *message) {
    smap_scopes *out = (smap_scopes *)&failed;
    smap_fault fault = junk();
    char words[100];
    CHECK_ROW(smap_decode_scopes(TEXT(text), names, &out, &fault) == SMAP_BAD_SCOPES, (int)kind, message);
    CHECK_ROW(fault.code == SMAP_BAD_SCOPES && fault.field == kind && fault.detail == byte && has_no_place(&fault), (int)kind, message);
    size_t len = smap_message(&fault, words, sizeof words);
    CHECK_ROW(len == strlen(message) && memcmp(words, message, len) == 0, (int)kind, message);
    CHECK(smap_decode_scopes(TEXT(text), names, &out, NULL) == SMAP_BAD_SCOPES && out == (smap_scopes *)&failed);
}

static void errors(void) {
    CHECK(SMAP_SCOPES_NOT_A_DIGIT == 1 && SMAP_SCOPES_CUT_SHORT == 2 && SMAP_SCOPES_TOO_LARGE == 3 && SMAP_SCOPES_MISSING_NUMBER == 4);
    CHECK(SMAP_SCOPES_BAD_INDEX == 5 && SMAP_SCOPES_NOTHING_OPEN == 6 && SMAP_SCOPES_NOT_CLOSED == 7 && SMAP_SCOPES_TOO_DEEP == 8);
    CHECK(SMAP_SCOPES_LEFT_OPEN == 9 && SMAP_SCOPES_SPLIT_TWICE == 10);
    for (size_t i = 0; i < LEN(REFUSED); i++)
        is_refused(REFUSED[i].text, REFUSED[i].names, REFUSED[i].kind, REFUSED[i].byte, REFUSED[i].message);
    smap_scopes *out = (smap_scopes *)&failed;
    smap_fault fault = junk();
    CHECK(smap_decode_scopes("BA\xff", 3, 0, &out, &fault) == SMAP_NOT_UTF8 && is_fault(&fault, SMAP_NOT_UTF8, 2));
    CHECK(out == (smap_scopes *)&failed);
}

/* So many items, the same before a comma each. */
static char *repeated(const char *item, size_t count) {
    size_t len = strlen(item);
    char *text = (char *)malloc(count * (len + 1) + 1);
    for (size_t i = 0; i < count; i++) memcpy(text + i * (len + 1), item, len), text[i * (len + 1) + len] = ',';
    text[count * (len + 1)] = 0;
    return text;
}

/* 1024 scopes may be nested, and 1024 ranges. */
static void deep(void) {
    static const char *const BEGIN[2] = { "BAAA", "EAA" }, *const END[2] = { "CAB", "FB" };
    for (int of_ranges = 0; of_ranges < 2; of_ranges++) {
        const size_t len = strlen(BEGIN[of_ranges]) + 1;
        char *text = repeated(BEGIN[of_ranges], 1025), *ends = repeated(END[of_ranges], 1024);
        text[1025 * len - 1] = 0;
        is_refused(text, 0, SMAP_SCOPES_TOO_DEEP, 1024 * len,
                   of_ranges ? "scopes, byte 4096: more than 1024 scopes or ranges are nested"
                             : "scopes, byte 5120: more than 1024 scopes or ranges are nested");
        char *all = (char *)malloc(1024 * len + strlen(ends));
        memcpy(all, text, 1024 * len), memcpy(all + 1024 * len, ends, strlen(ends) - 1);
        all[1024 * len + strlen(ends) - 1] = 0;
        smap_scopes *scopes = decoded(all, 0);
        if (of_ranges)
            in_code(scopes, 0, 0, 1023), in_code(scopes, 0, 1, 1022), in_code(scopes, 0, 1023, 0);
        else
            in_source(scopes, 0, 0, 0, 1023, NO), in_source(scopes, 0, 0, 1023, 0, NO);
        smap_free_scopes(scopes);
        free(all);
        free(ends);
        free(text);
    }
}

/* ---- the member of a map ---- */

#define WITH(scopes) "{\"version\":3,\"sources\":[\"a\"],\"names\":[\"f\",\"g\"],\"mappings\":\"\"" scopes "}"

static const struct {
    const char *json;
    uint32_t code, field;
    uint64_t detail;
    uint64_t sources;
} MEMBERS[] = {
    { WITH(""), SMAP_OK, 0, 0, 0 },
    { WITH(",\"scopes\":null"), SMAP_OK, 0, 0, 0 },
    { WITH(",\"scopes\":\"\""), SMAP_OK, 0, 0, 0 },
    { WITH(",\"scopes\":\"A,A\""), SMAP_OK, 0, 0, 2 },
    { WITH(",\"scopes\":\"BBAAC,CAA\""), SMAP_OK, 0, 0, 1 },
    { WITH(",\"scopes\":\"A,BBAAE,CAA\""), SMAP_BAD_SCOPES, SMAP_SCOPES_BAD_INDEX, 2, 0 },
    { WITH(",\"scopes\":\"BAAA\""), SMAP_BAD_SCOPES, SMAP_SCOPES_LEFT_OPEN, 4, 0 },
    { WITH(",\"scopes\":7"), SMAP_SCOPES_NOT_TEXT, 0, 0, 0 },
    { WITH(",\"scopes\":[\"A\"]"), SMAP_SCOPES_NOT_TEXT, 0, 0, 0 },
    { WITH(",\"scopes\":\"A"), SMAP_JSON_READING, 0, 0, 0 },
    { "", SMAP_JSON_READING, 0, 0, 0 },
    { "[]", SMAP_OK, 0, 0, 0 },
    { "{\"scopes\":\"A\"}", SMAP_OK, 0, 0, 1 },
    { "{\"scopes\":\"BBAAA,CAA\",\"names\":null}", SMAP_BAD_SCOPES, SMAP_SCOPES_BAD_INDEX, 0, 0 },
    { "{\"version\":3,\"sections\":[{\"offset\":{\"line\":0,\"column\":0},\"map\":" WITH(",\"scopes\":\"A\"") "}]}", SMAP_SCOPES_INDEXED, 0, 0, 0 },
    { "{\"sections\":null,\"scopes\":\"A\"}", SMAP_OK, 0, 0, 1 },
};

static void members(void) {
    smap_fault fault;
    smap_scopes_counts counts;
    for (size_t i = 0; i < LEN(MEMBERS); i++) {
        smap_scopes *out = (smap_scopes *)&failed;
        fault = junk();
        uint32_t code = smap_read_scopes(TEXT(MEMBERS[i].json), &out, &fault);
        CHECK_ROW(code == MEMBERS[i].code && fault.code == code && fault.field == MEMBERS[i].field, (int)i, MEMBERS[i].json);
        CHECK_ROW(fault.detail == MEMBERS[i].detail && has_no_place(&fault), (int)i, MEMBERS[i].json);
        CHECK_ROW((out == (smap_scopes *)&failed) == (code != SMAP_OK), (int)i, MEMBERS[i].json);
        if (code) continue;
        CHECK_ROW(smap_scopes_get_counts(out, &counts) == SMAP_OK && counts.sources == MEMBERS[i].sources, (int)i, MEMBERS[i].json);
        smap_free_scopes(out);
        CHECK(smap_read_scopes(TEXT(MEMBERS[i].json), &out, NULL) == SMAP_OK);
        smap_free_scopes(out);
    }
    smap_scopes *out = (smap_scopes *)&failed;
    fault = junk();
    CHECK(smap_read_scopes("{\xff", 2, &out, &fault) == SMAP_NOT_UTF8 && is_fault(&fault, SMAP_NOT_UTF8, 1));
    CHECK(smap_read_scopes(NULL, 0, &out, NULL) == SMAP_JSON_READING && out == (smap_scopes *)&failed);
}

/* The scopes of a map need neither its text nor the map. */
static void of_a_map(void) {
    static const char JSON[] =
        "{\"version\":3,\"sources\":[\"a\"],\"names\":[\"n0\",\"global\",\"outer\",\"function\",\"a\",\"inner\",\"x\"],"
        "\"mappings\":\"AAAA\",\"scopes\":\"" INLINED "\"}";
    char *json = (char *)malloc(sizeof JSON);
    smap_scopes *scopes;
    memcpy(json, JSON, sizeof JSON);
    smap_map *map = read_map(json);
    CHECK(smap_read_scopes(json, sizeof JSON - 1, &scopes, NULL) == SMAP_OK);
    memset(json, '#', sizeof JSON);
    free(json);
    smap_free_map(map);
    are_held(scopes, 0);
    smap_free_scopes(scopes);
}

void test_scopes(void) {
    rows();
    finds();
    far_away();
    frames();
    values();
    sub_ranges();
    chains();
    chains_of_ranges();
    errors();
    deep();
    members();
    of_a_map();
}
