/* test_cpp FILE: tries oxc_sourcemap.hpp: each call once at least, errors as they are thrown, and what is moved and freed (under
 * valgrind). It is linked so that it refuses the library memory (--wrap). FILE is written, and removed. */
#include "oxc_sourcemap.hpp"

#include <cstdio>
#include <cstdlib>
#include <fstream>
#include <sstream>
#include <type_traits>

using namespace oxc_sourcemap;

#define CHECK(condition) ((condition) ? void() : (std::printf("%s:%d: %s\n", __FILE__, __LINE__, #condition), std::exit(1)))

extern "C" {
void *__real_malloc(std::size_t);
void *__real_calloc(std::size_t, std::size_t);
void *__real_realloc(void *, std::size_t);
void __real_free(void *);
static bool refuses = false;
void *__wrap_malloc(std::size_t len) { return refuses ? nullptr : __real_malloc(len); }
void *__wrap_calloc(std::size_t count, std::size_t len) { return refuses ? nullptr : __real_calloc(count, len); }
void *__wrap_realloc(void *at, std::size_t len) { return refuses ? nullptr : __real_realloc(at, len); }
void __wrap_free(void *at) { __real_free(at); }
}

namespace {

const char *const SMALL = R"({"version":3,"sources":["a.js"],"names":["x"],"mappings":"AAAA,GAAIA"})";
/* Columns 3 and 7 of line 0, which come from columns 0 and 4. */
const char *const LATE = R"({"version":3,"sources":["a.js"],"names":["x"],"mappings":"GAAA,IAAIA"})";
const char *const BUNDLE =
    R"({"version":3,"file":"bundle.js","names":["area","box","width","height","who"],"sources":["area.js","hello.js"],"mappings":"AAAA,IAAIA,KAAO,SAAUC,GAAO,OAAOA,EAAIC,MAAQD,EAAIE,MAAQ;ACA3D,MAAM,MAASC,GAAQ,UAAUA"})";
const char *const AREA =
    R"({"version":3,"file":"area.js","sourceRoot":"","names":[],"sources":["area.ts"],"mappings":"AACA,IAAM,IAAI,GAAG,UAAC,GAAQ,IAAK,OAAA,GAAG,CAAC,KAAK,GAAG,GAAG,CAAC,MAAM,EAAtB,CAAsB,CAAC"})";
const char *const HELLO = R"({"version":3,"names":[],"sources":["hello.ts"],"mappings":"AACA,MAAM,QAAQ,CAAC,QAAc,UAAU"})";
const char *const ORIGINALS =
    R"({"version":3,"file":"bundle.js","names":["area","box","width","height","who"],"sources":["area.ts","hello.ts"],"mappings":"AACA,IAAMA,KAAO,SAACC,GAAa,OAAAA,EAAIC,MAAQD,EAAIE,MAAhB;ACA3B,MAAM,MAASC,GAAc,UAAUA"})";

/* The code of what is thrown, or 0. */
template <class Call> std::uint32_t thrown(Call call) {
    try {
        call();
    } catch (const Error &error) {
        return error.code();
    }
    return SMAP_OK;
}

bool is(const std::optional<Original> &found, std::uint32_t index, std::string_view source, std::uint32_t line, std::uint32_t column) {
    return found && found->index == index && found->source == source && found->token.src_line == line && found->token.src_col == column;
}

void reads_and_asks() {
    auto map = SourceMap::from_json(SMALL);
    CHECK(is(map.trace(0, 3), 1, "a.js", 0, 4) && map.trace(0, 3)->name == "x" && !map.trace(0, 2)->name);
    CHECK(!map.trace(1, 0) && !map.trace(0, 4, Bias::After) && is(map.trace(0, 1, Bias::After), 1, "a.js", 0, 4));
    auto all = map.trace_all({{0, 9}, {7, 0}});
    CHECK(all.size() == 2 && is(all[0], 1, "a.js", 0, 4) && !all[1]);
    CHECK((map.find_all({{0, 9}, {7, 0}, {0, 0}}, Bias::Clamped) == std::vector<std::uint32_t>{1, SMAP_NO_ID, 0}));
    CHECK(map.pieces({0, 1}, {0, 3}).size() == 1);
    auto late = SourceMap::from_json(LATE);
    CHECK(!late.trace(0, 0) && is(late.trace(0, 0, Bias::Clamped), 0, "a.js", 0, 0) && is(late.trace(0, 4, Bias::After), 1, "a.js", 0, 4));
    CHECK(!late.trace_all({{0, 0}})[0] && late.trace_all({{0, 0}}, Bias::Clamped)[0]->index == 0 && late.trace_all({{0, 4}}, Bias::After)[0]->index == 1);
    CHECK(late.find_all({{0, 0}})[0] == SMAP_NO_ID && late.find_all({{0, 0}}, Bias::Clamped)[0] == 0 && late.find_all({{0, 4}}, Bias::After)[0] == 1);
    auto pieces = map.pieces({0, 1}, {0, 9});
    CHECK(pieces.size() == 2 && pieces[0].index == 0 && pieces[1].begin.column == 3 && pieces[1].end.column == 9);
    CHECK(thrown([&] { map.generated(0, 0, 4); }) == SMAP_NO_INDEX);
    map.index_sources();
    CHECK(map.generated(0, 0, 4)->first == 1 && map.generated(0, 0, 4)->second.dst_col == 3 && !map.generated(0, 0, 5));
    CHECK(map.generated(0, 0, 1, Direction::From)->first == 1 && map.all_generated(0, 0, 4) == std::vector<std::uint32_t>{1});
    CHECK(map.all_generated(0, 1, 0, Direction::OnLine).empty() && map.all_generated(1, 0, 0, Direction::OnLine).empty());
    CHECK(map.generated(0, 0, 9, Direction::For)->first == 1 && map.all_generated(0, 0, 0, Direction::OnLine).size() == 2);
    CHECK(!map.first_difference(map.clone()) && map.first_difference(SourceMap::from_json(BUNDLE))->column == 0);
}

void holds() {
    auto map = SourceMap::from_json(SMALL);
    CHECK(map.counts().tokens == 2 && map.counts().lines == 1 && map.is_sorted() && map.is_sound());
    CHECK(!map.file() && !map.source_root() && !map.debug_id() && !map.ignore_list() && !map.source_content(0));
    map.set_file("a.min.js"), map.set_source_root("src"), map.set_debug_id("1-2"), map.set_ignore_list({0});
    map.set_source_contents({""}), map.set_sources({"b.js"});
    CHECK(map.file() == "a.min.js" && map.source_root() == "src" && map.debug_id() == "1-2" && map.source_content(0) == "");
    CHECK(*map.ignore_list() == std::vector<std::uint32_t>{0} && map.source(0) == "b.js" && !map.source(1) && map.name(0) == "x");
    map.apply_source_root();
    CHECK(map.sources() == std::vector<std::string_view>{"src/b.js"} && map.names().size() == 1 && map.token(1)->name_id == 0 && !map.token(2));
    CHECK(map.source_contents()[0] == "" && map.tokens()[1].src_col == 4);
    map.set_source_contents({std::nullopt});
    CHECK(map.source_contents().size() == 1 && !map.source_contents()[0]);
    auto back = SourceMap::from_tokens({{0, 3, 0, 0, 0, SMAP_NO_ID}, {0, 0, 0, 0, SMAP_NO_ID, SMAP_NO_ID}}, {"y"}, {"c.js"}, {"c"}, {0});
    CHECK(!back.is_sorted() && back.source_content(0) == "c" && *back.ignore_list() == std::vector<std::uint32_t>{0});
    back.set_sources(std::vector<std::string>{"d.js"}), back.set_source_contents(std::array<std::string_view, 1>{"d"});
    CHECK(back.source(0) == "d.js" && back.source_content(0) == "d");
    back.set_sources({"c.js"}), back.set_file({});
    CHECK(back.file() == "" && thrown([&] { back.set_file("\xff"); }) == SMAP_NOT_UTF8 && back.file() == "");
    back.sort(), back.simplify();
    CHECK(back.is_sorted() && back.names().empty() && !back.trace(0, 0)->source && is(back.trace(0, 3), 1, "c.js", 0, 0));
}

void shares() {
    auto map = SourceMap::from_json(SMALL);
    CHECK(thrown([&] { (void)map.retain(); }) == SMAP_NOT_SHARED && thrown([] { (void)SourceMap().retain(); }) == SMAP_NULL_HANDLE);
    map.index_sources(), map.share(), map.share();
    auto other = map.retain();
    CHECK(thrown([&] { map.set_file("\xff"); }) == SMAP_SHARED && thrown([&] { other.sort(); }) == SMAP_SHARED && !other.file());
    map = other.clone(), map.set_file("a.js");
    CHECK(map.file() == "a.js" && is(other.trace(0, 3), 1, "a.js", 0, 4) && other.generated(0, 0, 4)->first == 1);
}

void writes() {
    auto map = SourceMap::from_json(SMALL);
    CHECK(map.mappings().view() == "AAAA,GAAIA" && encode_mappings(map.tokens()).str() == "AAAA,GAAIA");
    CHECK(SourceMap::decode_mappings("AAAA,GAAIA", 1, 1).tokens().size() == 2);
    CHECK(thrown([] { SourceMap::decode_mappings("AAAAA", 0, 1); }) == SMAP_BAD_NAME_REFERENCE);
    CHECK(thrown([] { SourceMap::decode_mappings("AAAAA", 1, 0); }) == SMAP_BAD_SOURCE_REFERENCE);
    CHECK(thrown([&] { encode_mappings(map.tokens(), 9); }) == SMAP_TOO_LARGE && thrown([&] { map.to_data_url(9); }) == SMAP_TOO_LARGE);
    CHECK(thrown([] { decode_data_url("data:application/json;base64,!"); }) == SMAP_BAD_BASE64 && map.mappings() == "AAAA,GAAIA");
    std::ostringstream shown;
    shown << map.mappings();
    CHECK(shown.str() == "AAAA,GAAIA" && map.mappings().size() == 10 && map.mappings().data()[0] == 'A');
    CHECK(thrown([&] { map.to_json(3); }) == SMAP_TOO_LARGE && thrown([&] { map.mappings(9); }) == SMAP_TOO_LARGE && map.mappings(10).view().size() == 10);
    CHECK(decode_data_url(map.to_data_url())->view() == map.to_json().view() && !decode_data_url("a.js.map"));
    CHECK(source_mapping_url("x\n//# sourceMappingURL=a.js.map\n") == "a.js.map" && !source_mapping_url("x"));
    CHECK(source_mapping_url("x\n/*# sourceMappingURL=a.css.map */", Language::Css) == "a.css.map" && !source_mapping_url("x\n//# sourceMappingURL=a", Language::Css));
    map.set_sources({"a.js"}), map.set_source_contents({"    x"});
    CHECK(map.visualize("   x").view().find("a.js") != std::string_view::npos && map.visualizer_url("   x").view().substr(0, 6) == "https:");
    CHECK(!(map.visualize("   x") == map.visualize("   y").view()) && !(map.visualizer_url("   x") == map.visualizer_url("   y").view()));
    SourceMapBuilder builder;
    builder.set_file("file");
    auto source = builder.add_source_and_content("baz.js", "");
    builder.add_tokens({{0, 0, 0, 0, source, builder.add_name("x")}});
    CHECK(builder.add_source("baz.js") == source && builder.add_source("other.js") == 1);
    CHECK(builder.finish().to_json().view().substr(0, 62) == R"({"version":3,"file":"file","names":["x"],"sources":["baz.js",")");
    CHECK(builder.finish().tokens().empty());
    builder.add_source_and_content("c.js", "c"), builder.add_token({0, 0, 0, 0, 5, SMAP_NO_ID});
    auto unsound = builder.finish();
    CHECK(unsound.source_content(0) == "c" && unsound.is_sorted() && !unsound.is_sound() && thrown([&] { builder.add_name("\xff"); }) == SMAP_NOT_UTF8);
}

void makes_of_others() {
    auto bundle = SourceMap::from_json(BUNDLE), area = SourceMap::from_json(AREA), hello = SourceMap::from_json(HELLO);
    auto remapped = bundle.remap({{"area.js", area}, {"hello.js", hello}});
    CHECK(remapped.to_json().view() == ORIGINALS && is(remapped.trace(1, 12), remapped.trace(1, 12)->index, "hello.ts", 1, 15));
    CHECK(SourceMap::evaluate({"remap", "@0", "2", "area.js", "@1", "hello.js", "@2"}, {BUNDLE, AREA, HELLO}).to_json().view() == ORIGINALS);
    auto joined = SourceMap::join({{area, {0, 0}}, {hello, {1, 4}}});
    CHECK(is(joined.trace(1, 4), joined.trace(1, 4)->index, "hello.ts", 1, 0) && !joined.trace(1, 3) && joined.sources().size() == 2);
    SourceMapJoin one_by_one;
    one_by_one.add(area.clone(), {0, 0}), one_by_one.add(hello.clone(), {1, 4});
    CHECK(one_by_one.finish().to_json() == joined.to_json().view() && one_by_one.finish().tokens().empty());
    auto small = SourceMap::from_json(SMALL);
    auto input = SourceMap::from_json(R"({"version":3,"sources":["b.ts"],"names":[],"mappings":"IAEA"})");
    CHECK(is(small.compose(input).trace(0, 3), 1, "b.ts", 2, 0));
    auto found = SourceMap::read_found(std::string("\xef\xbb\xbf") + SMALL);
    CHECK(found.mends.size() == 1 && found.mends[0].kind == SMAP_MEND_BYTE_ORDER_MARK && message(found.mends[0]).find("byte order mark") != std::string::npos);
    CHECK(found.map.to_json().view() == small.to_json().view() && SourceMap::read_found(SMALL).mends.empty());
}

void compiles(const std::string &path) {
    std::array<unsigned char, 32> stamp{};
    stamp[31] = 7;
    auto map = SourceMap::from_json(SMALL);
    map.set_ignore_list({0}), map.set_file("a.min.js"), map.set_source_root("src"), map.set_debug_id("1-2"), map.set_source_contents({"c"});
    auto bytes = map.compile(5, stamp);
    auto compiled = CompiledMap::open(bytes);
    CHECK(compiled.counts().tokens == 2 && compiled.counts().text_length == 5 && compiled.stamp() == stamp && compiled.is_ignored(0) && !compiled.is_ignored(1));
    CHECK(is(compiled.trace(0, 3), 1, "a.js", 0, 4) && compiled.trace(0, 3)->name == "x" && !compiled.trace(9, 0));
    CHECK(is(compiled.trace_all({{0, 9}})[0], 1, "a.js", 0, 4) && compiled.find_all({{0, 2}}, Bias::After)[0] == 1);
    CHECK(compiled.token(1)->src_col == 4 && !compiled.token(2) && compiled.name(0) == "x" && compiled.source(0) == "a.js" && compiled.source_content(0) == "c");
    CHECK(compiled.file() == "a.min.js" && compiled.source_root() == "src" && compiled.debug_id() == "1-2" && !compiled.name(1));
    auto late_bytes = SourceMap::from_json(LATE).compile();
    auto late = CompiledMap::open(late_bytes);
    CHECK(!late.trace(0, 0) && late.trace(0, 0, Bias::Clamped)->index == 0 && late.trace_all({{0, 0}}, Bias::Clamped)[0]->index == 0);
    CHECK(!late.source_root() && late.find_all({{0, 0}})[0] == SMAP_NO_ID && late.find_all({{0, 0}}, Bias::Clamped)[0] == 0);
    std::string damaged = late_bytes.str();
    damaged[damaged.find("a.js")] = '\xff';
    CHECK(!CompiledMap::open(damaged).decompile());
    CHECK(compiled.decompile()->to_json().view() == map.to_json().view());
    CHECK(thrown([] { CompiledMap::open("smap"); }) == SMAP_NOT_COMPILED);
    std::ofstream(path, std::ios::binary) << bytes.view();
    {
        CompiledFile file(path);
        CompiledFile moved(std::move(file));
        CHECK(is(moved->trace(0, 3), 1, "a.js", 0, 4) && moved.map().counts().sources == 1);
        CompiledFile other(path);
        other = std::move(moved);
        CHECK(is(other->trace(0, 3), 1, "a.js", 0, 4));
    }
    CHECK(thrown([&] { CompiledFile file(path + '\0' + "x"); }) == SMAP_NO_FILE);
    std::remove(path.c_str());
    CHECK(thrown([&] { CompiledFile file(path); }) == SMAP_NO_FILE);
}

/* inner was inlined into outer, at columns 20 to 30. */
const char *const INLINED = R"({"version":3,"sources":["a.js"],"names":["n0","global","outer","function","a","inner","x"],)"
                            R"("mappings":"AAAA","scopes":"BCAAC,BHBAEE,DI,CDB,BHBAGA,CCB,CBA,ECAA,EGKC,GH,ECKC,IADE,FK,FK,FBA"})";

bool is(const Frame &frame, std::uint32_t name, std::uint32_t scope, std::uint32_t source, std::uint32_t line, std::uint32_t column) {
    return frame.name == name && frame.scope == scope && frame.call.source == source && frame.call.line == line && frame.call.column == column;
}

void scopes() {
    auto scopes = Scopes::read(INLINED);
    CHECK(scopes.counts().sources == 1 && scopes.counts().scopes == 3 && scopes.counts().ranges == 3);
    auto outer = *scopes.scope(1);
    CHECK(outer.source == 0 && outer.start.line == 1 && outer.start.column == 0 && outer.end.line == 4 && outer.end.column == 1);
    CHECK(outer.name == 2 && outer.kind == 3 && outer.is_stack_frame == 1 && outer.parent == 0 && scopes.scope(0)->parent == SMAP_NO_ID);
    auto inlined = *scopes.range(2);
    CHECK(inlined.start.column == 20 && inlined.end.column == 30 && inlined.definition == 2 && inlined.parent == 1 && !scopes.range(3));
    CHECK(inlined.call.source == 0 && inlined.call.line == 3 && inlined.call.column == 4 && !inlined.is_stack_frame && !inlined.is_hidden);
    CHECK(scopes.scope_at(0, 4, 0) == 1u && scopes.scope_at(0, 4, 1) == 0u && !scopes.scope_at(0, 8, 0) && !scopes.scope_at(1, 4, 0));
    CHECK(scopes.function_at(0, 5, 0) == 2u && !scopes.function_at(0, 4, 1) && !scopes.scope(3));
    CHECK(scopes.range_at(0, 29) == 2u && scopes.range_at(0, 30) == 1u && !scopes.range_at(1, 0));
    auto found = scopes.frames_at(0, 25);
    CHECK(found.frames.size() == 2 && is(found.frames[0], 5, 2, SMAP_NO_ID, SMAP_NO_ID, SMAP_NO_ID) && is(found.frames[1], 2, 1, 0, 3, 4));
    CHECK(!found.is_hidden && SourceMap::from_json(INLINED).name(found.frames[1].name) == "outer" && scopes.frames_at(1, 0).frames.empty());
    auto helper = Scopes::decode("ENDC,FCH", 0);
    CHECK(helper.frames_at(4, 0).is_hidden && !helper.frames_at(5, 7).is_hidden && helper.range(0)->is_hidden == 1 && helper.range(0)->is_stack_frame == 1);
    CHECK(Scopes::decode("A,A", 0).counts().sources == 2 && Scopes::decode({}, 0).counts().sources == 0 && Scopes::read("{}").counts().scopes == 0);
    try {
        Scopes::decode("A,BBAAC", 1);
        CHECK(false);
    } catch (const Error &error) {
        CHECK(error.code() == SMAP_BAD_SCOPES && error.fault().field == SMAP_SCOPES_BAD_INDEX && error.detail() == 2 && error.place().empty());
        CHECK(error.what() == std::string_view("scopes, byte 2: an index leads to no name, scope or value"));
    }
    CHECK(Scopes::decode("BBAAC,CAA", 2).scope(0)->name == 1 && thrown([] { Scopes::read(R"({"scopes":1})"); }) == SMAP_SCOPES_NOT_TEXT);
    CHECK(thrown([] { Scopes::read("{"); }) == SMAP_JSON_READING && thrown([] { Scopes::decode("\xff", 0); }) == SMAP_NOT_UTF8);
    bool is_refused = false;
    refuses = true;
    try {
        scopes.frames_at(0, 25);
    } catch (const std::bad_alloc &) {
        is_refused = true;
    }
    refuses = false;
    CHECK(is_refused);
    auto moved = std::move(scopes);
    CHECK(thrown([&] { scopes.counts(); }) == SMAP_NULL_HANDLE && thrown([&] { scopes.frames_at(0, 0); }) == SMAP_NULL_HANDLE);
    CHECK(moved.get() && !scopes.get() && moved.counts().scopes == 3);
}

bool is(const ChainEntry &entry, std::uint32_t scope, std::uint32_t range) {
    return entry.scope == scope && entry.range == range;
}

/* Variables, their values, and the scopes around a position. */
void values() {
    auto scopes = Scopes::read(INLINED);
    CHECK(scopes.variables(1) == std::vector<std::uint32_t>{4} && scopes.variables(0)->empty() && !scopes.variables(3));
    CHECK(scopes.value_at(1, 0, 0, 10) == 6u && !scopes.value_at(1, 1, 0, 10) && !scopes.value_at(2, 0, 0, 20) && !scopes.value_at(3, 0, 0, 20));
    auto split = Scopes::decode("BAAA,DAC,CJA,ECAA,GAD,HBBBE,FCE", 4);
    CHECK(split.variables(0) == std::vector<std::uint32_t>({0, 1}) && !split.value_at(0, 0, 1, 1));
    CHECK(split.value_at(0, 1, 1, 0) == 2u && split.value_at(0, 1, 1, 1) == 3u);
    auto chain = scopes.scope_chain_at(0, 25);
    CHECK(chain.size() == 2 && is(chain[0], 2, 2) && is(chain[1], 0, 0) && scopes.scope_chain_at(1, 0).empty());
    auto of_outer = *scopes.scope_chain(1, 0, 25), of_inner = *scopes.scope_chain(0, 0, 25);
    CHECK(of_outer.size() == 2 && is(of_outer[0], 1, 1) && is(of_outer[1], 0, 0) && !scopes.scope_chain(2, 0, 25));
    CHECK(of_inner.size() == 2 && is(of_inner[0], 2, 2) && is(of_inner[1], 0, 0));
    auto moved = std::move(scopes);
    CHECK(thrown([&] { scopes.variables(0); }) == SMAP_NULL_HANDLE && thrown([&] { scopes.value_at(0, 0, 0, 0); }) == SMAP_NULL_HANDLE);
    CHECK(thrown([&] { scopes.scope_chain_at(0, 0); }) == SMAP_NULL_HANDLE && thrown([&] { scopes.scope_chain(0, 0, 0); }) == SMAP_NULL_HANDLE);
    bool is_refused = false;
    refuses = true;
    try {
        moved.scope_chain_at(0, 25);
    } catch (const std::bad_alloc &) {
        is_refused = true;
    }
    refuses = false;
    CHECK(is_refused);
}

void fails() {
    try {
        SourceMap::from_json(R"({"version":3,"sources":["a.js"],"names":[],"mappings":"AAAA,DAAA"})");
        CHECK(false);
    } catch (const Error &error) {
        CHECK(error.code() == SMAP_BAD_SEGMENT_SIZE && error.detail() == 0 && error.place() == "line 0, segment 1 (byte 5)");
        CHECK(error.fault().place.kind == SMAP_PLACE_SEGMENT && error.name() == std::string_view("SMAP_BAD_SEGMENT_SIZE"));
        CHECK(std::string_view(error.what()).find("size of 0") != std::string_view::npos && error.reason(R"({"version":3,"sources":["a.js"],"names":[],"mappings":"AAAA,DAAA"})") == "a column below 0");
    }
    CHECK(thrown([] { SourceMap::from_json("{"); }) == SMAP_JSON_READING && thrown([] { SourceMap::from_json({}); }) == SMAP_JSON_READING);
    bool is_refused = false;
    refuses = true;
    try {
        SourceMap::from_json(SMALL);
    } catch (const std::bad_alloc &) {
        is_refused = true;
    }
    smap_fault fault{};
    fault.code = SMAP_JSON_READING;
    CHECK(is_refused && !std::string_view(Error(fault).what()).empty());
    refuses = false;
    SourceMap none;
    CHECK(thrown([&] { none.tokens(); }) == SMAP_NULL_HANDLE && version() == SMAP_VERSION);
    none = SourceMap::from_json(SMALL);
    smap_free_map(none.release());
    CHECK(!none.get());
    auto map = SourceMap::from_json(SMALL);
    CHECK(thrown([&] { map.trace(0, 0, static_cast<Bias>(9)); }) == SMAP_BAD_OPTION);
    auto moved = std::move(map);
    CHECK(thrown([&] { map.counts(); }) == SMAP_NULL_HANDLE && thrown([&] { map.ignore_list(); }) == SMAP_NULL_HANDLE && moved.counts().tokens == 2);
    map = std::move(moved);
    CHECK(map.counts().tokens == 2 && Error(smap_fault{}).place().empty());
}

/* What would dangle is refused. */
template <class Bytes, class = decltype(CompiledMap::open(std::declval<Bytes>()))> std::true_type opens(int);
template <class> std::false_type opens(...);
static_assert(decltype(opens<const Text &>(0))::value && !decltype(opens<Text>(0))::value && !decltype(opens<std::string>(0))::value);
static_assert(!std::is_constructible_v<JoinPart, SourceMap, Position> && !std::is_constructible_v<RemapInput, const char *, SourceMap>);
static_assert(!std::is_copy_constructible_v<SourceMap> && std::is_nothrow_move_constructible_v<SourceMap>);
static_assert(!std::is_copy_constructible_v<Scopes> && std::is_nothrow_move_constructible_v<Scopes>);
static_assert(std::is_nothrow_move_constructible_v<CompiledFile> && std::is_nothrow_copy_constructible_v<Error>);

} // namespace

int main(int, char **words) {
    reads_and_asks();
    holds();
    shares();
    writes();
    makes_of_others();
    compiles(words[1]);
    scopes();
    values();
    fails();
    std::puts("passed");
}
