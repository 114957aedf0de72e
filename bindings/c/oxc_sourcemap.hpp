/* oxc_sourcemap.hpp: oxc_sourcemap.h for C++17, in this header alone.
 *
 *     auto map = oxc_sourcemap::SourceMap::from_json(json);
 *     if (auto found = map.trace(0, 3); found && found->source) std::cout << *found->source << ':' << found->token.src_line + 1 << '\n';
 *
 * oxc_sourcemap.h describes what each call does and when it fails. Here an error is thrown as an Error, no memory as std::bad_alloc, and
 * what has no entry is nullopt. Each object owns one handle, is moved and not copied, and frees it. A text that a call returns
 * (std::string_view) is borrowed from the object: it is valid until the map that the object owns is changed or freed, and stays in place
 * if the object is moved. Any number of threads may call const members of one object. A moved-from object has no handle, nor has an object
 * constructed without one: its calls throw SMAP_NULL_HANDLE. Lines, columns, ids and indices count from 0; columns are in UTF-16 code
 * units. */
#ifndef OXC_SOURCEMAP_HPP
#define OXC_SOURCEMAP_HPP

#include "oxc_sourcemap.h"

#include <algorithm>
#include <array>
#include <cstddef>
#include <cstdint>
#include <memory>
#include <new>
#include <optional>
#include <stdexcept>
#include <string>
#include <string_view>
#include <type_traits>
#include <utility>
#include <vector>

/* What a member returns is borrowed from its object; some compilers check that. */
#if defined(__has_cpp_attribute)
#if __has_cpp_attribute(clang::lifetimebound)
#define SMAP_LENT [[clang::lifetimebound]]
#endif
#endif
#ifndef SMAP_LENT
#define SMAP_LENT
#endif

namespace oxc_sourcemap {

using Token = smap_token;
using Position = smap_position;
using Piece = smap_piece;
using Mend = smap_mend;
using Counts = smap_counts;
using CompiledCounts = smap_compiled_counts;
using ScopesCounts = smap_scopes_counts;
using Scope = smap_scope;
using Range = smap_range;
using Call = smap_call;
using Frame = smap_frame;
using ChainEntry = smap_chain_entry;

enum class Bias : std::uint32_t { Before = SMAP_BEFORE, Clamped = SMAP_CLAMPED, After = SMAP_AFTER };
enum class Direction : std::uint32_t { At = SMAP_AT, For = SMAP_FOR, From = SMAP_FROM, OnLine = SMAP_ON_LINE };
enum class Language : std::uint32_t { JavaScript = SMAP_JAVASCRIPT, Css = SMAP_CSS };

namespace detail {

/* The text that a call writes into room for `out_len` characters. */
template <class Call> std::string written(Call call) {
    std::string out(call(nullptr, std::size_t{0}), '\0');
    out.resize(std::min(out.size(), call(out.data(), out.size())));
    return out;
}

inline std::string_view view(const smap_text &text) { return {text.len ? text.at : "", text.len}; }

inline smap_text lent(std::string_view text) { return {text.data(), text.size()}; }
inline smap_text lent(const std::string &text) { return {text.data(), text.size()}; }

/* A text that is known even if it is empty, and one that may be unknown. */
inline smap_text lent(const std::optional<std::string_view> &text) {
    if (!text) return {nullptr, 0};
    return {text->data() ? text->data() : "", text->size()};
}

template <class Texts> std::vector<smap_text> all_lent(const Texts &texts) {
    std::vector<smap_text> all;
    all.reserve(texts.size());
    for (const auto &text : texts) all.push_back(lent(text));
    return all;
}

template <class Option> constexpr std::uint32_t number(Option option) { return static_cast<std::uint32_t>(option); }

template <auto FREE> struct Frees {
    template <class Handle> void operator()(Handle *handle) const noexcept { FREE(handle); }
};

template <class Handle, auto FREE> using Owner = std::unique_ptr<Handle, Frees<FREE>>;

} // namespace detail

/* An error of the library: its code (SMAP_..), message and place in the input. (SMAP_OUT_OF_MEMORY is std::bad_alloc. Without memory for
 * the message, the message is the name of the code.) */
class Error : public std::runtime_error {
  public:
    explicit Error(const smap_fault &fault)
        : std::runtime_error(words(fault)), fault_(fault) {}

    std::uint32_t code() const noexcept { return fault_.code; }
    const char *name() const noexcept { return smap_code_name(fault_.code); }
    std::uint64_t detail() const noexcept { return fault_.detail; }
    const smap_fault &fault() const noexcept { return fault_; }

    /* Where the fault is, as `line 0, segment 3 (byte 12)`; empty if there is no place. */
    std::string place() const {
        auto words = detail::written([&](char *out, std::size_t len) { return smap_place_message(&fault_, out, len); });
        if (words.empty() && fault_.place.kind != SMAP_PLACE_NONE) throw std::bad_alloc();
        return words;
    }

    /* The actual cause there, in the text that was refused; empty where the message is exact. */
    std::string reason(std::string_view text) const {
        return detail::written(
            [&](char *out, std::size_t len) { return smap_reason_message(text.data(), text.size(), &fault_, out, len); });
    }

  private:
    static std::string words(const smap_fault &fault) {
        auto words = detail::written([&](char *out, std::size_t len) { return smap_message(&fault, out, len); });
        return words.empty() ? smap_code_name(fault.code) : words;
    }

    smap_fault fault_;
};

namespace detail {

[[noreturn]] inline void fail(const smap_fault &fault) {
    if (fault.code == SMAP_OUT_OF_MEMORY) throw std::bad_alloc();
    throw Error(fault);
}

/* Throws what a call that has no fault returned. */
inline void check(std::uint32_t code) {
    if (code == SMAP_OK) return;
    smap_fault fault{};
    fault.code = code;
    fail(fault);
}

/* Calls with a fault, and throws it. */
template <class Call> void called(Call call) {
    smap_fault fault{};
    if (call(&fault) != SMAP_OK) fail(fault);
}

/* As `called`, but false where there is no entry. */
template <class Call> bool has_entry(Call call) {
    smap_fault fault{};
    std::uint32_t code = call(&fault);
    if (code == SMAP_NO_ENTRY) return false;
    if (code != SMAP_OK) fail(fault);
    return true;
}

/* What a call writes to its output; nullopt where there is no entry. */
template <class T, class Call> std::optional<T> entry(Call call) {
    T out{};
    std::uint32_t code = call(&out);
    if (code == SMAP_NO_ENTRY) return std::nullopt;
    check(code);
    return out;
}

template <class Call> std::optional<std::string_view> text_entry(Call call) {
    auto text = entry<smap_text>(call);
    if (!text) return std::nullopt;
    return view(*text);
}

/* A list that a call writes; it is counted first. */
template <class T, class Call> std::vector<T> list(Call call) {
    std::size_t count = 0;
    check(call(nullptr, std::size_t{0}, &count));
    std::vector<T> out(count);
    check(call(out.data(), out.size(), &count));
    return out;
}

/* The object that a call makes. */
template <class Object, class Handle, class Call> Object made(Call call) {
    Handle *handle = nullptr;
    called([&](smap_fault *fault) { return call(&handle, fault); });
    return Object(handle);
}

} // namespace detail

/* A text that the library made, or the bytes of a compiled map. */
class Text {
  public:
    Text() noexcept = default;
    explicit Text(smap_string *handle) noexcept : own_(handle) {}

    std::string_view view() const SMAP_LENT {
        smap_text text{};
        detail::check(smap_get_text(own_.get(), &text));
        return detail::view(text);
    }
    operator std::string_view() const SMAP_LENT { return view(); }
    const char *data() const SMAP_LENT { return view().data(); }
    std::size_t size() const { return view().size(); }
    std::string str() const { return std::string(view()); }
    smap_string *release() noexcept { return own_.release(); }

    friend bool operator==(const Text &one, std::string_view other) { return one.view() == other; }
    template <class Stream> friend auto operator<<(Stream &to, const Text &text) -> decltype(to << std::string_view()) {
        return to << text.view();
    }

  private:
    detail::Owner<smap_string, smap_free_string> own_;
};

/* What a lookup finds: a token, its index, and the texts that it points to. Without a source the position is unmapped. */
struct Original {
    Token token;
    std::uint32_t index;
    std::optional<std::string_view> source;
    std::optional<std::string_view> name;
};

namespace detail {

inline std::optional<Original> original(const smap_original &found) {
    if (found.kind == SMAP_NOTHING) return std::nullopt;
    Original original{found.token, found.index, std::nullopt, std::nullopt};
    if (found.kind != SMAP_UNMAPPED) original.source = view(found.source);
    if (found.kind == SMAP_NAMED) original.name = view(found.name);
    return original;
}

inline std::vector<std::optional<Original>> originals(const std::vector<smap_original> &found) {
    std::vector<std::optional<Original>> all;
    all.reserve(found.size());
    for (const auto &one : found) all.push_back(original(one));
    return all;
}

} // namespace detail

class SourceMap;

/* A map to join, which must live until `join`, and where its code begins there. */
struct JoinPart {
    JoinPart(const SourceMap &part, Position begin) noexcept : map(&part), at(begin) {}
    JoinPart(const SourceMap &&, Position) = delete;

    const SourceMap *map;
    Position at;
};

/* The map of the source with this path. Both have to live until the call of `remap`. */
struct RemapInput {
    RemapInput(std::string_view source, const SourceMap &input) noexcept : path(source), map(&input) {}
    RemapInput(std::string_view, const SourceMap &&) = delete;

    std::string_view path;
    const SourceMap *map;
};

struct Found;

/* A source map. */
class SourceMap {
  public:
    SourceMap() noexcept = default;
    explicit SourceMap(smap_map *handle) noexcept : own_(handle) {}

    /* The handle, for calls of oxc_sourcemap.h; `release` passes it to the caller, who frees it. */
    const smap_map *get() const noexcept { return own_.get(); }
    smap_map *get() noexcept { return own_.get(); }
    smap_map *release() noexcept { return own_.release(); }

    static SourceMap from_json(std::string_view json) {
        return made([&](smap_map **out, smap_fault *fault) { return smap_from_json_string(json.data(), json.size(), out, fault); });
    }

    /* A map as it is found, sorted and sound, and what was mended for that. */
    static Found read_found(std::string_view text);

    static SourceMap from_tokens(const std::vector<Token> &tokens, const std::vector<std::string_view> &names,
                                 const std::vector<std::string_view> &sources,
                                 const std::vector<std::optional<std::string_view>> &contents = {},
                                 const std::vector<std::uint32_t> &ignore_list = {}) {
        auto lent_names = detail::all_lent(names), lent_sources = detail::all_lent(sources), lent_contents = detail::all_lent(contents);
        return made([&](smap_map **out, smap_fault *fault) {
            return smap_from_tokens(tokens.data(), tokens.size(), lent_names.data(), lent_names.size(), lent_sources.data(),
                                    lent_sources.size(), lent_contents.data(), lent_contents.size(), ignore_list.data(),
                                    ignore_list.size(), out, fault);
        });
    }

    static SourceMap join(const std::vector<JoinPart> &parts) {
        std::vector<const smap_map *> maps;
        std::vector<Position> positions;
        maps.reserve(parts.size()), positions.reserve(parts.size());
        for (const auto &part : parts) maps.push_back(part.map->get()), positions.push_back(part.at);
        return made([&](smap_map **out, smap_fault *fault) {
            return smap_join_all(maps.data(), maps.size(), positions.data(), positions.size(), out, fault);
        });
    }

    /* The map of a plan: words over JSON texts, as smap_evaluate has them. */
    static SourceMap evaluate(const std::vector<std::string_view> &words, const std::vector<std::string_view> &texts) {
        auto lent_words = detail::all_lent(words), lent_texts = detail::all_lent(texts);
        return made([&](smap_map **out, smap_fault *fault) {
            return smap_evaluate(lent_words.data(), lent_words.size(), lent_texts.data(), lent_texts.size(), out, fault);
        });
    }

    /* The tokens of a mappings text alone, whose ids are below these numbers. */
    static SourceMap decode_mappings(std::string_view mappings, std::size_t names, std::size_t sources) {
        return made([&](smap_map **out, smap_fault *fault) {
            return smap_decode_mappings(mappings.data(), mappings.size(), names, sources, out, fault);
        });
    }

    [[nodiscard]] SourceMap clone() const {
        return made([&](smap_map **out, smap_fault *fault) { return smap_clone(get(), out, fault); });
    }
    /* Makes the map shared: no call changes it any more, and `retain` makes more objects of it, in any thread, without copying it. */
    void share() { change([&](smap_fault *fault) { return smap_share_map(get(), fault); }); }
    [[nodiscard]] SourceMap retain() const {
        return made([&](smap_map **out, smap_fault *fault) { return smap_retain_map(get(), out, fault); });
    }
    [[nodiscard]] SourceMap compose(const SourceMap &input) const {
        return made([&](smap_map **out, smap_fault *fault) { return smap_compose(get(), input.get(), out, fault); });
    }
    [[nodiscard]] SourceMap remap(const std::vector<RemapInput> &inputs) const {
        std::vector<smap_text> paths;
        std::vector<const smap_map *> maps;
        paths.reserve(inputs.size()), maps.reserve(inputs.size());
        for (const auto &input : inputs) paths.push_back(detail::lent(input.path)), maps.push_back(input.map->get());
        return made([&](smap_map **out, smap_fault *fault) {
            return smap_remap(get(), paths.data(), paths.size(), maps.data(), maps.size(), out, fault);
        });
    }

    /* ---- what it holds ---- */

    Counts counts() const { return *detail::entry<Counts>([&](Counts *out) { return smap_get_counts(get(), out); }); }
    bool is_sorted() const { return flag(smap_is_sorted); }
    bool is_sound() const { return flag(smap_is_sound); }

    std::optional<std::string_view> file() const SMAP_LENT { return text(smap_get_file); }
    std::optional<std::string_view> source_root() const SMAP_LENT { return text(smap_get_source_root); }
    std::optional<std::string_view> debug_id() const SMAP_LENT { return text(smap_get_debug_id); }
    std::optional<std::string_view> name(std::uint32_t id) const SMAP_LENT { return text_of(smap_get_name, id); }
    std::optional<std::string_view> source(std::uint32_t id) const SMAP_LENT { return text_of(smap_get_source, id); }
    std::optional<std::string_view> source_content(std::uint32_t id) const SMAP_LENT { return text_of(smap_get_source_content, id); }
    std::optional<Token> token(std::uint32_t index) const {
        return detail::entry<Token>([&](Token *out) { return smap_get_token(get(), index, out); });
    }

    std::vector<Token> tokens() const { return list<Token>(smap_get_tokens); }
    std::vector<std::string_view> names() const SMAP_LENT { return texts(smap_get_names); }
    std::vector<std::string_view> sources() const SMAP_LENT { return texts(smap_get_sources); }
    std::vector<std::optional<std::string_view>> source_contents() const SMAP_LENT {
        std::vector<std::optional<std::string_view>> contents;
        for (const auto &it : list<smap_text>(smap_get_source_contents))
            contents.push_back(it.at ? std::optional(detail::view(it)) : std::nullopt);
        return contents;
    }
    std::optional<std::vector<std::uint32_t>> ignore_list() const {
        std::size_t count = 0;
        if (smap_get_ignore_list(get(), nullptr, 0, &count) == SMAP_NO_ENTRY) return std::nullopt;
        return list<std::uint32_t>(smap_get_ignore_list);
    }

    /* ---- lookups ---- */

    std::optional<Original> trace(std::uint32_t line, std::uint32_t column, Bias bias = Bias::Before) const SMAP_LENT {
        smap_original found{};
        detail::called([&](smap_fault *fault) { return smap_trace(get(), line, column, detail::number(bias), &found, fault); });
        return detail::original(found);
    }
    std::vector<std::optional<Original>> trace_all(const std::vector<Position> &positions, Bias bias = Bias::Before) const SMAP_LENT {
        std::vector<smap_original> found(positions.size());
        detail::called([&](smap_fault *fault) {
            return smap_trace_all(get(), positions.data(), positions.size(), detail::number(bias), found.data(), found.size(), fault);
        });
        return detail::originals(found);
    }

    /* The index of the token that answers for each position, or SMAP_NO_ID. */
    std::vector<std::uint32_t> find_all(const std::vector<Position> &positions, Bias bias = Bias::Before) const {
        std::vector<std::uint32_t> found(positions.size());
        detail::called([&](smap_fault *fault) {
            return smap_find_all(get(), positions.data(), positions.size(), detail::number(bias), found.data(), found.size(), fault);
        });
        return found;
    }
    std::vector<Piece> pieces(Position begin, Position end) const {
        return detail::list<Piece>([&](Piece *out, std::size_t len, std::size_t *count) { return smap_pieces(get(), begin, end, out, len, count); });
    }
    std::optional<Position> first_difference(const SourceMap &other) const {
        return detail::entry<Position>([&](Position *out) { return smap_first_difference(get(), other.get(), out); });
    }

    /* Makes the index that the next two calls need, if there is none. */
    void index_sources() { change([&](smap_fault *fault) { return smap_index_sources(get(), fault); }); }
    std::optional<std::pair<std::uint32_t, Token>> generated(std::uint32_t source_id, std::uint32_t line, std::uint32_t column,
                                                             Direction direction = Direction::At) const {
        return detail::entry<std::pair<std::uint32_t, Token>>([&](auto *out) {
            return smap_generated(get(), source_id, line, column, detail::number(direction), &out->first, &out->second);
        });
    }
    std::vector<std::uint32_t> all_generated(std::uint32_t source_id, std::uint32_t line, std::uint32_t column,
                                             Direction direction = Direction::At) const {
        return detail::list<std::uint32_t>([&](std::uint32_t *out, std::size_t len, std::size_t *count) {
            return smap_all_generated(get(), source_id, line, column, detail::number(direction), out, len, count);
        });
    }

    /* ---- changing ---- */

    void set_file(std::string_view file) { set(smap_set_file, file); }
    void set_source_root(std::string_view root) { set(smap_set_source_root, root); }
    void set_debug_id(std::string_view id) { set(smap_set_debug_id, id); }
    void set_ignore_list(const std::vector<std::uint32_t> &ids) {
        change([&](smap_fault *fault) { return smap_set_ignore_list(get(), ids.data(), ids.size(), fault); });
    }
    /* Take any sized list of std::string_view or std::string; contents may also be std::optional. */
    template <class Texts = std::vector<std::string_view>> void set_sources(const Texts &sources) {
        auto lent = detail::all_lent(sources);
        change([&](smap_fault *fault) { return smap_set_sources(get(), lent.data(), lent.size(), fault); });
    }
    template <class Texts = std::vector<std::optional<std::string_view>>> void set_source_contents(const Texts &contents) {
        auto lent = detail::all_lent(contents);
        change([&](smap_fault *fault) { return smap_set_source_contents(get(), lent.data(), lent.size(), fault); });
    }
    void apply_source_root() { change([&](smap_fault *fault) { return smap_apply_source_root(get(), fault); }); }
    void sort() { change([&](smap_fault *fault) { return smap_sort(get(), fault); }); }
    void simplify() { change([&](smap_fault *fault) { return smap_simplify(get(), fault); }); }

    /* ---- writing: of at most `limit` bytes, else SMAP_TOO_LARGE ---- */

    Text to_json(std::size_t limit = SIZE_MAX) const { return written(smap_to_json_string_within, limit); }
    Text to_data_url(std::size_t limit = SIZE_MAX) const { return written(smap_to_data_url_within, limit); }
    Text mappings(std::size_t limit = SIZE_MAX) const { return written(smap_get_mappings_within, limit); }
    Text visualize(std::string_view code) const { return shown(smap_visualize, code); }
    Text visualizer_url(std::string_view code) const { return shown(smap_visualizer_url, code); }

    /* The bytes of the compiled map, which CompiledMap opens. */
    [[nodiscard]] Text compile(std::uint64_t text_length = 0, const std::array<unsigned char, 32> &stamp = {}) const {
        return detail::made<Text, smap_string>(
            [&](smap_string **out, smap_fault *fault) { return smap_compile(get(), text_length, stamp.data(), out, fault); });
    }

  private:
    template <class Call> static SourceMap made(Call call) { return detail::made<SourceMap, smap_map>(call); }
    template <class Call> void change(Call call) { detail::called(call); }
    template <class Call> void set(Call call, std::string_view text) {
        change([&](smap_fault *fault) { return call(get(), text.data(), text.size(), fault); });
    }
    template <class Call> bool flag(Call call) const {
        std::uint32_t is = 0;
        detail::check(call(get(), &is));
        return is != 0;
    }
    template <class Call> std::optional<std::string_view> text(Call call) const {
        return detail::text_entry([&](smap_text *out) { return call(get(), out); });
    }
    template <class Call> std::optional<std::string_view> text_of(Call call, std::uint32_t id) const {
        return detail::text_entry([&](smap_text *out) { return call(get(), id, out); });
    }
    template <class T, class Call> std::vector<T> list(Call call) const {
        return detail::list<T>([&](T *out, std::size_t len, std::size_t *count) { return call(get(), out, len, count); });
    }
    template <class Call> std::vector<std::string_view> texts(Call call) const {
        auto lent = list<smap_text>(call);
        std::vector<std::string_view> all;
        all.reserve(lent.size());
        for (const auto &it : lent) all.push_back(detail::view(it));
        return all;
    }
    template <class Call> Text written(Call call, std::size_t limit) const {
        return detail::made<Text, smap_string>([&](smap_string **out, smap_fault *fault) { return call(get(), limit, out, fault); });
    }
    template <class Call> Text shown(Call call, std::string_view code) const {
        return detail::made<Text, smap_string>(
            [&](smap_string **out, smap_fault *fault) { return call(get(), code.data(), code.size(), out, fault); });
    }

    detail::Owner<smap_map, smap_free_map> own_;
};

/* A map as it was found, and what was mended, in the order in which the parts were checked. */
struct Found {
    SourceMap map;
    std::vector<Mend> mends;
};

inline Found SourceMap::read_found(std::string_view text) {
    smap_mends *told = nullptr;
    auto map = made([&](smap_map **out, smap_fault *fault) { return smap_read_found(text.data(), text.size(), out, &told, fault); });
    detail::Owner<smap_mends, smap_free_mends> mends(told);
    auto all = detail::list<Mend>(
        [&](Mend *out, std::size_t len, std::size_t *count) { return smap_get_mends(mends.get(), out, len, count); });
    return {std::move(map), std::move(all)};
}

/* A mend as words. */
inline std::string message(const Mend &mend) {
    return detail::written([&](char *out, std::size_t len) { return smap_mend_message(&mend, out, len); });
}

/* Builds a map token by token. */
class SourceMapBuilder {
  public:
    SourceMapBuilder() : SourceMapBuilder(detail::made<SourceMapBuilder, smap_builder>(smap_builder_new)) {}
    explicit SourceMapBuilder(smap_builder *handle) noexcept : own_(handle) {}

    std::uint32_t add_name(std::string_view name) {
        return added([&](std::uint32_t *id, smap_fault *fault) { return smap_builder_add_name(own_.get(), name.data(), name.size(), id, fault); });
    }
    std::uint32_t add_source(std::string_view path) {
        return added([&](std::uint32_t *id, smap_fault *fault) { return smap_builder_add_source(own_.get(), path.data(), path.size(), id, fault); });
    }
    std::uint32_t add_source_and_content(std::string_view path, std::string_view content) {
        return added([&](std::uint32_t *id, smap_fault *fault) {
            return smap_builder_add_source_and_content(own_.get(), path.data(), path.size(), content.data(), content.size(), id, fault);
        });
    }
    void add_tokens(const Token *tokens, std::size_t len) {
        detail::called([&](smap_fault *fault) { return smap_builder_add_tokens(own_.get(), tokens, len, fault); });
    }
    void add_tokens(const std::vector<Token> &tokens) { add_tokens(tokens.data(), tokens.size()); }
    void add_token(const Token &token) { add_tokens(&token, 1); }
    void set_file(std::string_view file) {
        detail::called([&](smap_fault *fault) { return smap_builder_set_file(own_.get(), file.data(), file.size(), fault); });
    }

    /* The map that was built. The builder is then empty, like a new one. */
    [[nodiscard]] SourceMap finish() {
        return detail::made<SourceMap, smap_map>([&](smap_map **out, smap_fault *fault) { return smap_builder_finish(own_.get(), out, fault); });
    }

  private:
    template <class Call> std::uint32_t added(Call call) {
        std::uint32_t id = 0;
        detail::called([&](smap_fault *fault) { return call(&id, fault); });
        return id;
    }

    detail::Owner<smap_builder, smap_free_builder> own_;
};

/* Joins maps one by one, which need not live on. */
class SourceMapJoin {
  public:
    SourceMapJoin() : SourceMapJoin(detail::made<SourceMapJoin, smap_join>(smap_join_new)) {}
    explicit SourceMapJoin(smap_join *handle) noexcept : own_(handle) {}

    /* Adds a map whose code begins at this position of the joined code. */
    void add(const SourceMap &map, Position at) {
        detail::called([&](smap_fault *fault) { return smap_join_add(own_.get(), map.get(), at.line, at.column, fault); });
    }

    /* The joined map. The join is then empty, like a new one. */
    [[nodiscard]] SourceMap finish() {
        return detail::made<SourceMap, smap_map>([&](smap_map **out, smap_fault *fault) { return smap_join_finish(own_.get(), out, fault); });
    }

  private:
    detail::Owner<smap_join, smap_free_join> own_;
};

/* A compiled map, opened in bytes that have to stay where they are, unchanged, as long as it lives. */
class CompiledMap {
  public:
    CompiledMap() noexcept = default;
    explicit CompiledMap(smap_compiled *handle) noexcept : own_(handle) {}

    static CompiledMap open(std::string_view bytes) {
        return detail::made<CompiledMap, smap_compiled>(
            [&](smap_compiled **out, smap_fault *fault) { return smap_open_compiled(bytes.data(), bytes.size(), out, fault); });
    }
    template <class Bytes, std::enable_if_t<std::is_same_v<Bytes, Text> || std::is_same_v<Bytes, std::string>, int> = 0>
    static CompiledMap open(const Bytes &&) = delete; /* (its bytes would be gone) */

    CompiledCounts counts() const {
        return *detail::entry<CompiledCounts>([&](CompiledCounts *out) { return smap_compiled_get_counts(get(), out); });
    }
    std::optional<Original> trace(std::uint32_t line, std::uint32_t column, Bias bias = Bias::Before) const SMAP_LENT {
        smap_original found{};
        detail::check(smap_compiled_trace(get(), line, column, detail::number(bias), &found));
        return detail::original(found);
    }
    std::vector<std::optional<Original>> trace_all(const std::vector<Position> &positions, Bias bias = Bias::Before) const SMAP_LENT {
        std::vector<smap_original> found(positions.size());
        detail::check(smap_compiled_trace_all(get(), positions.data(), positions.size(), detail::number(bias), found.data(),
                                              found.size()));
        return detail::originals(found);
    }
    std::vector<std::uint32_t> find_all(const std::vector<Position> &positions, Bias bias = Bias::Before) const {
        std::vector<std::uint32_t> found(positions.size());
        detail::check(smap_compiled_find_all(get(), positions.data(), positions.size(), detail::number(bias), found.data(),
                                             found.size()));
        return found;
    }
    std::optional<Token> token(std::uint32_t index) const {
        return detail::entry<Token>([&](Token *out) { return smap_compiled_get_token(get(), index, out); });
    }
    std::optional<std::string_view> name(std::uint32_t id) const SMAP_LENT { return text(SMAP_TEXT_NAME, id); }
    std::optional<std::string_view> source(std::uint32_t id) const SMAP_LENT { return text(SMAP_TEXT_SOURCE, id); }
    std::optional<std::string_view> source_content(std::uint32_t id) const SMAP_LENT { return text(SMAP_TEXT_SOURCE_CONTENT, id); }
    std::optional<std::string_view> file() const SMAP_LENT { return text(SMAP_TEXT_FILE, 0); }
    std::optional<std::string_view> source_root() const SMAP_LENT { return text(SMAP_TEXT_SOURCE_ROOT, 0); }
    std::optional<std::string_view> debug_id() const SMAP_LENT { return text(SMAP_TEXT_DEBUG_ID, 0); }

    /* The 32 bytes that `compile` was given. */
    std::array<unsigned char, 32> stamp() const {
        auto text = detail::text_entry([&](smap_text *out) { return smap_compiled_get_stamp(get(), out); });
        std::array<unsigned char, 32> stamp{};
        std::copy_n(text->data(), std::min(text->size(), stamp.size()), stamp.begin());
        return stamp;
    }
    bool is_ignored(std::uint32_t id) const {
        return *detail::entry<std::uint32_t>([&](std::uint32_t *out) { return smap_compiled_is_ignored(get(), id, out); }) != 0;
    }

    /* The original map; nullopt if a text is not UTF-8, or perhaps in bytes that no `compile` made. */
    std::optional<SourceMap> decompile() const {
        smap_map *map = nullptr;
        if (!detail::has_entry([&](smap_fault *fault) { return smap_decompile(get(), &map, fault); })) return std::nullopt;
        return SourceMap(map);
    }

    const smap_compiled *get() const noexcept { return own_.get(); }

  private:
    std::optional<std::string_view> text(std::uint32_t kind, std::uint32_t id) const {
        return detail::text_entry([&](smap_text *out) { return smap_compiled_get_text(get(), kind, id, out); });
    }

    detail::Owner<smap_compiled, smap_free_compiled> own_;
};

/* A compiled map in a file, which the system maps into memory. Replace files by renaming new ones over them. */
class CompiledFile {
  public:
    explicit CompiledFile(const std::string &path) : CompiledFile(mapped(path)) {}

    CompiledFile(CompiledFile &&) noexcept = default;
    CompiledFile &operator=(CompiledFile &&other) noexcept {
        map_ = std::move(other.map_); /* (what is open in a file is freed before the file) */
        file_ = std::move(other.file_);
        return *this;
    }

    const CompiledMap &map() const noexcept { return map_; }
    const CompiledMap *operator->() const noexcept { return &map_; }

  private:
    using Owner = detail::Owner<smap_file, smap_free_file>;

    explicit CompiledFile(std::pair<Owner, std::string_view> file) : file_(std::move(file.first)), map_(CompiledMap::open(file.second)) {}

    static std::pair<Owner, std::string_view> mapped(const std::string &path) {
        smap_file *file = nullptr;
        smap_text bytes{};
        if (path.find('\0') != std::string::npos) detail::check(SMAP_NO_FILE);
        detail::called([&](smap_fault *fault) { return smap_map_file(path.c_str(), &file, &bytes, fault); });
        return {Owner(file), detail::view(bytes)};
    }

    Owner file_; /* (freed after the map that is open in it) */
    CompiledMap map_;
};

/* The frames of the source that a position of the generated code stands for, from the inside out, and whether the source lacks them. */
struct Frames {
    std::vector<Frame> frames;
    bool is_hidden;
};

/* The scopes of a map, which have the functions of its sources, what was inlined where, and the values of variables. A missing id is
 * SMAP_NO_ID.
 *
 *     auto scopes = oxc_sourcemap::Scopes::read(json);
 *     for (const auto &frame : scopes.frames_at(0, 25).frames) std::cout << map.name(frame.name).value_or("anonymous") << '\n';
 */
class Scopes {
  public:
    Scopes() noexcept = default;
    explicit Scopes(smap_scopes *handle) noexcept : own_(handle) {}

    /* By the JSON text of the map. */
    static Scopes read(std::string_view json) {
        return detail::made<Scopes, smap_scopes>(
            [&](smap_scopes **out, smap_fault *fault) { return smap_read_scopes(json.data(), json.size(), out, fault); });
    }

    /* From its member `scopes` alone, and its number of names. */
    static Scopes decode(std::string_view text, std::size_t names) {
        return detail::made<Scopes, smap_scopes>(
            [&](smap_scopes **out, smap_fault *fault) { return smap_decode_scopes(text.data(), text.size(), names, out, fault); });
    }

    ScopesCounts counts() const {
        return *detail::entry<ScopesCounts>([&](ScopesCounts *out) { return smap_scopes_get_counts(get(), out); });
    }
    std::optional<Scope> scope(std::uint32_t index) const {
        return detail::entry<Scope>([&](Scope *out) { return smap_get_scope(get(), index, out); });
    }
    std::optional<Range> range(std::uint32_t index) const {
        return detail::entry<Range>([&](Range *out) { return smap_get_range(get(), index, out); });
    }

    /* Indices. */
    std::optional<std::uint32_t> scope_at(std::uint32_t source, std::uint32_t line, std::uint32_t column) const {
        return detail::entry<std::uint32_t>([&](std::uint32_t *out) { return smap_scope_at(get(), source, line, column, out); });
    }
    std::optional<std::uint32_t> function_at(std::uint32_t source, std::uint32_t line, std::uint32_t column) const {
        return detail::entry<std::uint32_t>([&](std::uint32_t *out) { return smap_function_at(get(), source, line, column, out); });
    }
    std::optional<std::uint32_t> range_at(std::uint32_t line, std::uint32_t column) const {
        return detail::entry<std::uint32_t>([&](std::uint32_t *out) { return smap_range_at(get(), line, column, out); });
    }

    /* The frames at a position of the generated code: none where no range contains it. The first is at the position that the map's `trace`
     * returns. */
    Frames frames_at(std::uint32_t line, std::uint32_t column) const {
        std::uint32_t is_hidden = 0;
        auto frames = detail::list<Frame>([&](Frame *out, std::size_t len, std::size_t *count) {
            return smap_frames_at(get(), line, column, out, len, count, &is_hidden);
        });
        return {std::move(frames), is_hidden != 0};
    }

    /* The variables of a scope, as ids of names. */
    std::optional<std::vector<std::uint32_t>> variables(std::uint32_t scope) const {
        if (!this->scope(scope)) return std::nullopt;
        return detail::list<std::uint32_t>(
            [&](std::uint32_t *out, std::size_t len, std::size_t *count) { return smap_get_variables(get(), scope, out, len, count); });
    }

    /* The value of a variable, by its place in `variables`, in a range at a position of the generated code: the id of the name that is
     * the expression for it. */
    std::optional<std::uint32_t> value_at(std::uint32_t range, std::uint32_t variable, std::uint32_t line, std::uint32_t column) const {
        auto id = detail::entry<std::uint32_t>(
            [&](std::uint32_t *out) { return smap_value_at(get(), range, variable, line, column, out); });
        return id == SMAP_NO_ID ? std::nullopt : id;
    }

    /* The scopes that a position of the generated code is in, from the inside out, each with the range that has its values; and those of
     * a frame there, by its index in `frames_at`: nullopt past the last one. Where no range contains the position, the list is empty, and
     * frame 0 is nullopt, as there is none. */
    std::vector<ChainEntry> scope_chain_at(std::uint32_t line, std::uint32_t column) const {
        return detail::list<ChainEntry>([&](ChainEntry *out, std::size_t len, std::size_t *count) {
            return smap_scope_chain_at(get(), line, column, out, len, count);
        });
    }
    std::optional<std::vector<ChainEntry>> scope_chain(std::uint32_t frame, std::uint32_t line, std::uint32_t column) const {
        std::size_t none;
        if (smap_scope_chain(get(), frame, line, column, nullptr, 0, &none) == SMAP_NO_ENTRY) return std::nullopt;
        return detail::list<ChainEntry>([&](ChainEntry *out, std::size_t len, std::size_t *count) {
            return smap_scope_chain(get(), frame, line, column, out, len, count);
        });
    }

    const smap_scopes *get() const noexcept { return own_.get(); }

  private:
    detail::Owner<smap_scopes, smap_free_scopes> own_;
};

/* The mappings text of tokens. */
inline Text encode_mappings(const std::vector<Token> &tokens, std::size_t limit = SIZE_MAX) {
    return detail::made<Text, smap_string>([&](smap_string **out, smap_fault *fault) {
        return smap_encode_mappings_within(tokens.data(), tokens.size(), limit, out, fault);
    });
}

/* The URL that a code names for its map, as a part of the code; nullopt if it names none. */
inline std::optional<std::string_view> source_mapping_url(std::string_view code, Language language = Language::JavaScript) {
    smap_text url{};
    if (!detail::has_entry([&](smap_fault *fault) {
            return smap_source_mapping_url(code.data(), code.size(), detail::number(language), &url, fault);
        }))
        return std::nullopt;
    return detail::view(url);
}

/* The text in a data URL of JSON; nullopt if it is none. */
inline std::optional<Text> decode_data_url(std::string_view url) {
    smap_string *text = nullptr;
    if (!detail::has_entry([&](smap_fault *fault) { return smap_decode_data_url(url.data(), url.size(), &text, fault); }))
        return std::nullopt;
    return Text(text);
}

/* The version of the interface of the library; SMAP_VERSION is that of its header. */
inline std::uint32_t version() { return smap_version(); }

} // namespace oxc_sourcemap

#undef SMAP_LENT
#endif
