//! Getters, setters, iterators and views of maps; tokens.
use crate::helpers::{is_text, same};
use crate::rows::map_of;
use oxc_sourcemap::{OwnedSourceMap, Result, SourceMap, SourceMapParts, SourceViewToken, Token};
use std::alloc::Global;
use std::borrow::CowStr;
use std::process::Abort;

/// A map with every field.
const TEXT: &str =
    r#"{"version":3,"file":"out.js","sourceRoot":"root","names":["n0","n1"],"sources":["a.js","b.js"],"sourcesContent":["A",null],"ignoreList":[1],"mappings":"AAAAA,CCACC,C","debugId":"dbg"}"#;

/// An id, and what it names in that map: a name, a source, its content, and both of these.
const NAMED: &[(
    Option<u32>,
    Option<&str>,
    Option<&str>,
    Option<&str>,
    Option<(&str, &str)>,
)] = &[
    (
        Some(0),
        Some("n0"),
        Some("a.js"),
        Some("A"),
        Some(("a.js", "A")),
    ),
    (Some(1), Some("n1"), Some("b.js"), None, None),
    (Some(2), None, None, None, None),
    (Some(4294967294), None, None, None, None),
    (None, None, None, None, None),
];

fn getters_answer_the_fields(rt: &impl Abort, map: &SourceMap<'_>) {
    let texts = [map.get_file(), map.get_source_root(), map.get_debug_id()];
    same(
        rt,
        "texts",
        texts,
        [Some("out.js"), Some("root"), Some("dbg")],
    );
    let named = [
        map.get_name(1),
        map.get_name(2),
        map.get_source(1),
        map.get_source(4294967295),
    ];
    same(rt, "ids", named, [Some("n1"), None, Some("b.js"), None]);
    let ignored: [u32; 1] = [1];
    same(
        rt,
        "ignored",
        map.get_ignore_list(),
        Some(ignored.as_slice()),
    );
}

fn contents_are_got_with_their_source(rt: &impl Abort, map: &SourceMap<'_>) {
    for (id, content, both) in [
        (0, Some("A"), Some(("a.js", "A"))),
        (1, None, None),
        (2, None, None),
    ] {
        same(rt, "content", map.get_source_content(id), content);
        same(rt, "both", map.get_source_and_content(id), both);
    }
}

fn iterators_give_the_items_and_end(rt: &impl Abort, map: &SourceMap<'_>) {
    let mut names = map.get_names();
    let given = [names.next(), names.next(), names.next(), names.next()];
    same(rt, "names", given, [Some("n0"), Some("n1"), None, None]);
    let mut sources = map.get_sources();
    let given = [sources.next(), sources.next(), sources.next()];
    same(rt, "sources", given, [Some("a.js"), Some("b.js"), None]);
    let mut contents = map.get_source_contents();
    let given = [contents.next(), contents.next(), contents.next()];
    same(rt, "contents", given, [Some(Some("A")), Some(None), None]);
}

fn iterators_tell_how_many_are_left(rt: &impl Abort, map: &SourceMap<'_>) {
    let mut names = map.get_names();
    let _ = names.next();
    same(rt, "size hint", names.size_hint(), (1, Some(1)));
    let lengths = [
        names.len(),
        map.get_sources().len(),
        map.get_source_contents().len(),
        map.get_tokens().len(),
        map.get_source_view_tokens().len(),
    ];
    same(rt, "lengths", lengths, [1, 2, 2, 3, 3]);
}

fn tokens_are_given_plain_and_as_views(rt: &impl Abort, map: &SourceMap<'_>) {
    let second = Token::new(0, 1, 0, 1, Some(1), Some(1));
    same(rt, "token", map.get_tokens().nth(1), Some(second));
    let Some(view) = map.get_source_view_tokens().nth(1) else {
        return assert!(rt; false, "a view");
    };
    same(
        rt,
        "view",
        view.to_tuple(),
        (Some("b.js"), 0, 1, Some("n1")),
    );
}

fn views_look_up_what_ids_name(rt: &impl Abort, map: &SourceMap<'_>) {
    for (id, name, source, content, both) in NAMED {
        let view = SourceViewToken::new(Token::new(0, 0, 0, 0, *id, *id), map);
        let texts = [
            view.get_name(),
            view.get_source(),
            view.get_source_content(),
        ];
        same(rt, "texts", texts, [*name, *source, *content]);
        same(rt, "both", view.get_source_and_content(), *both);
    }
}

#[test]
fn a_map_shows_its_fields_and_items(rt: HostRuntime) -> Result<()> {
    let map = SourceMap::from_json_string(rt.alloc(), TEXT)?;
    getters_answer_the_fields(&rt, &map);
    contents_are_got_with_their_source(&rt, &map);
    iterators_give_the_items_and_end(&rt, &map);
    iterators_tell_how_many_are_left(&rt, &map);
    tokens_are_given_plain_and_as_views(&rt, &map);
    views_look_up_what_ids_name(&rt, &map);
    Ok(())
}

#[test]
fn tokens_have_their_numbers(rt: HostRuntime) {
    let token = Token::new(1, 2, 3, 4, Some(5), Some(6));
    let numbers = [
        token.get_dst_line(),
        token.get_dst_col(),
        token.get_src_line(),
        token.get_src_col(),
    ];
    same(&rt, "numbers", numbers, [1, 2, 3, 4]);
    let ids = (token.get_source_id(), token.get_name_id());
    same(&rt, "ids", ids, (Some(5), Some(6)));
    let bare = Token::new(0, 0, 0, 0, None, None);
    let ids = (bare.get_source_id(), bare.get_name_id());
    same(&rt, "no ids", ids, (None, None));
    // An id of 4294967295 is none.
    let last = Token::new(0, 0, 0, 0, Some(4294967295), None);
    same(&rt, "last id", last.get_source_id(), None);
    same(&rt, "last token", last, bare);
}

fn views_have_the_numbers_of_their_token(rt: &impl Abort, map: &SourceMap<'_>) {
    let view = SourceViewToken::new(Token::new(2, 3, 4, 5, Some(6), None), map);
    let numbers = [
        view.get_dst_line(),
        view.get_dst_col(),
        view.get_src_line(),
        view.get_src_col(),
    ];
    same(rt, "numbers", numbers, [2, 3, 4, 5]);
    let ids = (view.get_source_id(), view.get_name_id());
    same(rt, "ids", ids, (Some(6), None));
}

fn tokens_are_got_by_their_index(rt: &impl Abort, map: &SourceMap<'_>, token: Token) {
    for (index, wanted) in [(0, Some(token)), (1, None), (4294967295, None)] {
        same(rt, "token", map.get_token(index), wanted);
        let is_viewed = map.get_source_view_token(index).is_some();
        same(rt, "view", is_viewed, wanted.is_some());
    }
}

fn a_source_without_any_content_has_no_pair(rt: &impl Abort, map: &SourceMap<'_>) {
    same(rt, "source", map.get_source(0), Some("a.js"));
    same(rt, "both", map.get_source_and_content(0), None);
}

/// Without sources the map still has its token, whose view then has no source.
fn sources_are_set_and_tokens_are_kept(
    rt: &impl Abort,
    alloc: Global,
    map: &mut SourceMap<'_>,
    token: Token,
) -> Result<()> {
    let none: [&str; 0] = [];
    map.set_sources(alloc, none.iter())?;
    same(rt, "token", map.get_token(0), Some(token));
    let Some(view) = map.get_source_view_token(0) else {
        return Ok(assert!(rt; false, "a view"));
    };
    same(rt, "view", view.to_tuple(), (None, 3, 4, None));
    Ok(())
}

#[test]
fn a_map_of_one_token_is_looked_at_and_changed(rt: HostRuntime) -> Result<()> {
    let row = (1, 2, 3, 4, Some(0), None);
    let token = Token::new(1, 2, 3, 4, Some(0), None);
    let mut map = map_of(rt.alloc(), &["name"], &["a.js"], &[], &[row])?;
    views_have_the_numbers_of_their_token(&rt, &map);
    tokens_are_got_by_their_index(&rt, &map, token);
    a_source_without_any_content_has_no_pair(&rt, &map);
    sources_are_set_and_tokens_are_kept(&rt, rt.alloc(), &mut map, token)
}

/// A view finds a content that is listed past the last source, although its source id names nothing.
fn a_content_past_the_sources_is_viewed(rt: &impl Abort, map: &SourceMap<'_>) {
    let view = SourceViewToken::new(Token::new(0, 0, 0, 0, Some(1), None), map);
    same(rt, "source", view.get_source(), None);
    same(rt, "content", view.get_source_content(), Some("X"));
    same(rt, "both", view.get_source_and_content(), None);
}

#[test]
fn contents_past_the_sources_are_found(rt: HostRuntime) -> Result<()> {
    let contents = [Some("A"), Some("X")];
    let map = map_of(rt.alloc(), &[], &["a.js"], contents.as_slice(), &[])?;
    a_content_past_the_sources_is_viewed(&rt, &map);
    Ok(())
}

/// Sets fields of a map, and writes it.
fn text_with_fields(alloc: Global, map: &mut SourceMap<'_>) -> Result<String> {
    map.set_file(alloc, "index.js")?;
    map.set_source_root(alloc, "src")?;
    map.set_debug_id(alloc, "id")?;
    map.set_sources(alloc, ["foo.js", "bar.js"].into_iter())?;
    map.set_source_contents(alloc, vec![in alloc; None, Some("foo")]?)?;
    map.set_ignore_list(vec![in alloc; 7u32]?);
    map.to_json_string(alloc)
}

#[test]
fn setters_set_their_field(rt: HostRuntime) -> Result<()> {
    let mut map = SourceMap::empty(rt.alloc())?;
    is_text(
        &rt,
        "text",
        &text_with_fields(rt.alloc(), &mut map),
        Ok(
            r#"{"version":3,"file":"index.js","sourceRoot":"src","names":[],"sources":["foo.js","bar.js"],"sourcesContent":[null,"foo"],"ignoreList":[7],"mappings":"","debugId":"id"}"#,
        ),
    );
    Ok(())
}

#[test]
fn an_ignore_list_of_nothing_is_written(rt: HostRuntime) -> Result<()> {
    let mut map = SourceMap::empty(rt.alloc())?;
    map.set_ignore_list(Vec::new(rt.alloc()));
    let text = r#"{"version":3,"names":[],"sources":[],"ignoreList":[],"mappings":""}"#;
    is_text(&rt, "text", &map.to_json_string(rt.alloc()), Ok(text));
    Ok(())
}

/// The text of a clone.
fn text_of_clone(alloc: Global, map: &SourceMap<'_>) -> Result<String> {
    map.clone(alloc)?.to_json_string(alloc)
}

/// The text of the owned map of a copy of these parts.
fn text_of_parts(alloc: Global, parts: &SourceMapParts<'_>) -> Result<String> {
    let map = SourceMap::from_parts(parts.clone(alloc)?);
    map.into_owned_sourcemap(alloc)?.to_json_string(alloc)
}

/// The parts of a map, owned.
fn owned_parts(alloc: Global, text: &str) -> Result<SourceMapParts<'static>> {
    let map = SourceMap::from_json_string(alloc, text)?;
    Ok(map.into_owned(alloc)?.into_parts())
}

#[test]
fn clones_are_equal(rt: HostRuntime) -> Result<()> {
    let map = SourceMap::from_json_string(rt.alloc(), TEXT)?;
    is_text(&rt, "clone", &text_of_clone(rt.alloc(), &map), Ok(TEXT));
    Ok(())
}

#[test]
fn owned_maps_of_copied_parts_are_equal(rt: HostRuntime) -> Result<()> {
    let parts = owned_parts(rt.alloc(), TEXT)?;
    is_text(&rt, "copy", &text_of_parts(rt.alloc(), &parts), Ok(TEXT));
    Ok(())
}

/// A map that borrows a text as its file, a name and a content.
fn borrowing(alloc: Global, text: &str) -> Result<SourceMap<'_>> {
    let mut parts = SourceMapParts::empty(alloc)?;
    parts.file = Some(CowStr::Borrowed(text));
    parts.names = vec![in alloc; CowStr::Borrowed(text)]?;
    parts.source_contents = vec![in alloc; None, Some(CowStr::Borrowed(text))]?;
    Ok(SourceMap::from_parts(parts))
}

fn is_borrowed(text: Option<&CowStr<'_>>) -> bool {
    matches!(text, Some(CowStr::Borrowed(_)))
}

#[test]
fn a_clone_borrows_what_the_map_borrows(rt: HostRuntime) -> Result<()> {
    let text = String::from_str(rt.alloc(), "text")?;
    let map = borrowing(rt.alloc(), text.as_str())?;
    let parts = map.clone(rt.alloc())?.into_parts();
    let content = match parts.source_contents.get(1) {
        Some(content) => content.as_ref(),
        None => None,
    };
    let texts = [parts.file.as_ref(), parts.names.first(), content];
    same(&rt, "borrowed", texts.map(is_borrowed), [true; 3]);
    Ok(())
}

/// A map that outlives the text which it borrowed.
fn detached(alloc: Global, text: &str) -> Result<OwnedSourceMap> {
    borrowing(alloc, text)?.into_owned_sourcemap(alloc)
}

/// A map that borrowed a text which is gone.
fn detached_from(alloc: Global, mut text: String) -> Result<OwnedSourceMap> {
    let map = detached(alloc, text.as_str());
    text.clear();
    map
}

fn texts_are_kept(rt: &impl Abort, map: &OwnedSourceMap) {
    let texts = [
        map.get_file(),
        map.get_name(0),
        map.get_source_content(0),
        map.get_source_content(1),
    ];
    let wanted = [Some("text"), Some("text"), None, Some("text")];
    same(rt, "texts", texts, wanted);
}

#[test]
fn borrowed_texts_are_copied(rt: HostRuntime) -> Result<()> {
    let text = String::from_str(rt.alloc(), "text")?;
    texts_are_kept(&rt, &detached_from(rt.alloc(), text)?);
    Ok(())
}
