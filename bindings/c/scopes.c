/* The layer's calls on scopes, as oxc_sourcemap.c has those on maps. */
#include "layer.h"

uint32_t smap_read_scopes(const char *json, size_t json_len, smap_scopes **out, smap_fault *fault) {
    smap_fault own;
    proved_handle made = { NULL };
    uint32_t code = proved_read_scopes(OR(json, ""), json_len, &made, OR(fault, &own));
    if (code == SMAP_OK) *out = made.at;
    return code;
}

uint32_t smap_decode_scopes(const char *text, size_t text_len, size_t names, smap_scopes **out, smap_fault *fault) {
    smap_fault own;
    proved_handle made = { NULL };
    uint32_t code = proved_decode_scopes(OR(text, ""), text_len, names, &made, OR(fault, &own));
    if (code == SMAP_OK) *out = made.at;
    return code;
}

void smap_free_scopes(smap_scopes *scopes) {
    if (scopes) proved_free_scopes(HANDLE(scopes));
}

uint32_t smap_scopes_get_counts(const smap_scopes *scopes, smap_scopes_counts *out) {
    return proved_scopes_counts(LENT(scopes), out);
}

uint32_t smap_get_scope(const smap_scopes *scopes, uint32_t index, smap_scope *out) {
    return proved_scope(LENT(scopes), index, out);
}

uint32_t smap_get_range(const smap_scopes *scopes, uint32_t index, smap_range *out) {
    return proved_range(LENT(scopes), index, out);
}

uint32_t smap_scope_at(const smap_scopes *scopes, uint32_t source, uint32_t line, uint32_t column, uint32_t *out) {
    return proved_scope_at(LENT(scopes), source, line, column, out);
}

uint32_t smap_function_at(const smap_scopes *scopes, uint32_t source, uint32_t line, uint32_t column, uint32_t *out) {
    return proved_function_at(LENT(scopes), source, line, column, out);
}

uint32_t smap_range_at(const smap_scopes *scopes, uint32_t line, uint32_t column, uint32_t *out) {
    return proved_range_at(LENT(scopes), line, column, out);
}

uint32_t smap_frames_at(const smap_scopes *scopes, uint32_t line, uint32_t column, smap_frame *out, size_t out_len, size_t *count,
                        uint32_t *is_hidden) {
    smap_frame none;
    uint32_t own;
    return proved_frames_at(LENT(scopes), line, column, OR(out, &none), out_len, count, OR(is_hidden, &own));
}

uint32_t smap_get_variables(const smap_scopes *scopes, uint32_t scope, uint32_t *out, size_t out_len, size_t *count) {
    uint32_t none;
    return proved_variables(LENT(scopes), scope, OR(out, &none), out_len, count);
}

uint32_t smap_value_at(const smap_scopes *scopes, uint32_t range, uint32_t variable, uint32_t line, uint32_t column, uint32_t *out) {
    return proved_value_at(LENT(scopes), range, variable, line, column, out);
}

uint32_t smap_scope_chain_at(const smap_scopes *scopes, uint32_t line, uint32_t column, smap_chain_entry *out, size_t out_len,
                             size_t *count) {
    smap_chain_entry none;
    return proved_scope_chain_at(LENT(scopes), line, column, OR(out, &none), out_len, count);
}

uint32_t smap_scope_chain(const smap_scopes *scopes, uint32_t frame, uint32_t line, uint32_t column, smap_chain_entry *out,
                          size_t out_len, size_t *count) {
    smap_chain_entry none;
    return proved_scope_chain(LENT(scopes), frame, line, column, OR(out, &none), out_len, count);
}
