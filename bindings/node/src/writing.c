/* Texts of maps and of codes. */
#include "addon.h"

enum { JSON, DATA_URL, MAPPINGS, DRAWING, DRAWING_URL };

/* Writes a map in one of the first forms, in at most so many bytes. */
static uint32_t written_within(const smap_map *from, uint32_t form, size_t limit, smap_string **out, smap_fault *fault)
{
    if (form == JSON) return smap_to_json_string_within(from, limit, out, fault);
    if (form == DATA_URL) return smap_to_data_url_within(from, limit, out, fault);
    return smap_get_mappings_within(from, limit, out, fault);
}

/* Writes the map that the call names first in the form that it names next; the code is its third argument, a limit its fourth. */
static uint32_t written(Call *call, smap_string **out)
{
    const smap_map *from = map(call, 0);
    uint32_t form = word(call, 1);
    Bytes code = form >= DRAWING ? text(call, 2) : (Bytes){NULL, 0};
    size_t limit = form < DRAWING ? limit_in(call, 3) : SIZE_MAX;
    if (call->failed) return SMAP_BAD_OPTION;
    if (limit != SIZE_MAX) return written_within(from, form, limit, out, call->fault);
    switch (form) {
    case JSON: return smap_to_json_string(from, out, call->fault);
    case DATA_URL: return smap_to_data_url(from, out, call->fault);
    case MAPPINGS: return smap_get_mappings(from, out, call->fault);
    case DRAWING: return smap_visualize(from, code.at, code.len, out, call->fault);
    case DRAWING_URL: return smap_visualizer_url(from, code.at, code.len, out, call->fault);
    default: return told(call, SMAP_BAD_OPTION);
    }
}

static napi_value write_string(Call *call)
{
    smap_string *out = NULL;
    uint32_t code = written(call, &out);
    return call->failed ? NULL : string_or_code(call, code, out);
}

static napi_value write_bytes(Call *call)
{
    smap_string *out = NULL;
    uint32_t code = written(call, &out);
    return call->failed ? NULL : bytes_or_code(call, code, out);
}

static napi_value encode_mappings(Call *call)
{
    smap_string *out = NULL;
    Words all = words(call, 0);
    const smap_token *tokens = (const smap_token *)all.at;
    size_t limit = limit_in(call, 1);
    if (call->failed) return NULL;
    if (all.len % 6 != 0) return coded_alone(call, SMAP_LENGTHS);
    uint32_t code = limit == SIZE_MAX ? smap_encode_mappings(tokens, all.len / 6, &out, call->fault)
                                      : smap_encode_mappings_within(tokens, all.len / 6, limit, &out, call->fault);
    return string_or_code(call, code, out);
}

static napi_value source_mapping_url(Call *call)
{
    smap_text out = {NULL, 0};
    Bytes it = text(call, 0);
    uint32_t language = word(call, 1);
    if (call->failed) return NULL;
    uint32_t code = smap_source_mapping_url(it.at, it.len, language, &out, call->fault);
    return text_or_code(call, code, out);
}

static napi_value decode_data_url(Call *call)
{
    smap_string *out = NULL;
    Bytes url = text(call, 0);
    if (call->failed) return NULL;
    uint32_t code = smap_decode_data_url(url.at, url.len, &out, call->fault);
    return string_or_code(call, code, out);
}

const Entry WRITING_CALLS[] = {
    {"write", write_string},
    {"writeBytes", write_bytes},
    {"encodeMappings", encode_mappings},
    {"sourceMappingURL", source_mapping_url},
    {"decodeDataURL", decode_data_url},
    {NULL, NULL},
};
