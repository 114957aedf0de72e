//! The owned map.
use crate::helpers::{is_text, same};
use oxc_sourcemap::{OwnedSourceMap, Result, SourceMap};
use std::alloc::Global;
use std::process::Abort;

/// A map with every field.
const TEXT: &str =
    r#"{"version":3,"file":"out.js","sourceRoot":"root","names":["n0"],"sources":["a.js"],"sourcesContent":["AC"],"ignoreList":[0],"mappings":"AAAAA","debugId":"dbg"}"#;

fn getters_answer_the_fields(rt: &impl Abort, map: &OwnedSourceMap) {
    let texts = [map.get_file(), map.get_source_root(), map.get_debug_id()];
    same(
        rt,
        "texts",
        texts,
        [Some("out.js"), Some("root"), Some("dbg")],
    );
    let named = [
        map.get_name(0),
        map.get_source(0),
        map.get_source_content(0),
    ];
    same(rt, "ids", named, [Some("n0"), Some("a.js"), Some("AC")]);
    same(
        rt,
        "both",
        map.get_source_and_content(0),
        Some(("a.js", "AC")),
    );
    let ignored: [u32; 1] = [0];
    same(
        rt,
        "ignored",
        map.get_ignore_list(),
        Some(ignored.as_slice()),
    );
}

fn iterators_give_the_items_and_end(rt: &impl Abort, map: &OwnedSourceMap) {
    let mut names = map.get_names();
    same(
        rt,
        "names",
        [names.next(), names.next()],
        [Some("n0"), None],
    );
    let mut sources = map.get_sources();
    same(
        rt,
        "sources",
        [sources.next(), sources.next()],
        [Some("a.js"), None],
    );
    let mut contents = map.get_source_contents();
    let given = [contents.next(), contents.next()];
    same(rt, "contents", given, [Some(Some("AC")), None]);
}

fn iterators_tell_how_many_are_left(rt: &impl Abort, map: &OwnedSourceMap) {
    let lengths = [
        map.get_names().len(),
        map.get_sources().len(),
        map.get_source_contents().len(),
        map.get_tokens().len(),
        map.get_source_view_tokens().len(),
    ];
    same(rt, "lengths", lengths, [1, 1, 1, 1, 1]);
    assert!(rt; map.get_token(0).is_some() && map.get_source_view_token(0).is_some());
    // By `Deref`.
    assert!(rt; map.is_sound() && map.is_sorted());
}

fn it_is_written_as_the_map_inside(
    rt: &impl Abort,
    alloc: Global,
    map: &OwnedSourceMap,
) -> Result<()> {
    same(rt, "text", map.to_json_string(alloc)?.as_str(), TEXT);
    let url = map.as_source_map().to_data_url(alloc)?;
    same(rt, "url", map.to_data_url(alloc)?.as_str(), url.as_str());
    Ok(())
}

#[test]
fn a_map_shows_its_fields_and_is_written(rt: HostRuntime) -> Result<()> {
    let map = OwnedSourceMap::from_json_string(rt.alloc(), TEXT)?;
    getters_answer_the_fields(&rt, &map);
    iterators_give_the_items_and_end(&rt, &map);
    iterators_tell_how_many_are_left(&rt, &map);
    it_is_written_as_the_map_inside(&rt, rt.alloc(), &map)
}

/// The text of a clone.
fn text_of_clone(alloc: Global, map: &OwnedSourceMap) -> Result<String> {
    map.clone(alloc)?.to_json_string(alloc)
}

/// The text of a clone of the map that is read from what a map is written as.
fn text_read_back(alloc: Global, map: &OwnedSourceMap) -> Result<String> {
    let back = OwnedSourceMap::from_json(alloc, map.to_json(alloc)?)?;
    text_of_clone(alloc, &back)
}

#[test]
fn a_clone_of_what_is_read_back_is_equal(rt: HostRuntime) -> Result<()> {
    let map = OwnedSourceMap::from_json_string(rt.alloc(), TEXT)?;
    is_text(&rt, "text", &text_read_back(rt.alloc(), &map), Ok(TEXT));
    Ok(())
}

/// Sets fields of a map, and writes it.
fn text_with_fields(alloc: Global, map: &mut OwnedSourceMap) -> Result<String> {
    map.set_file(alloc, "new.js")?;
    map.set_source_root(alloc, "new root")?;
    map.set_sources(alloc, ["b.js"].into_iter())?;
    map.set_source_contents(alloc, vec![in alloc; Some("new content")]?)?;
    map.set_ignore_list(Vec::new(alloc));
    map.set_debug_id(alloc, "newdbg")?;
    map.to_json_string(alloc)
}

#[test]
fn setters_set_their_field(rt: HostRuntime) -> Result<()> {
    let mut map = OwnedSourceMap::from_json_string(rt.alloc(), TEXT)?;
    is_text(
        &rt,
        "text",
        &text_with_fields(rt.alloc(), &mut map),
        Ok(
            r#"{"version":3,"file":"new.js","sourceRoot":"new root","names":["n0"],"sources":["b.js"],"sourcesContent":["new content"],"ignoreList":[],"mappings":"AAAAA","debugId":"newdbg"}"#,
        ),
    );
    Ok(())
}

fn what_is_written_to_the_map_inside_is_kept(
    rt: &impl Abort,
    alloc: Global,
    map: &mut OwnedSourceMap,
) -> Result<()> {
    map.as_source_map_mut().set_file(alloc, "z.js")?;
    same(rt, "file", map.get_file(), Some("z.js"));
    let inside: &mut SourceMap<'static> = &mut *map;
    inside.set_file(alloc, "deref.js")?;
    same(rt, "file", map.get_file(), Some("deref.js"));
    Ok(())
}

#[test]
fn the_map_inside_is_lent(rt: HostRuntime) -> Result<()> {
    let mut map = OwnedSourceMap::empty(rt.alloc())?;
    what_is_written_to_the_map_inside_is_kept(&rt, rt.alloc(), &mut map)
}

/// A map that is wrapped and unwrapped again, in each way.
fn rewrapped(map: SourceMap<'static>) -> SourceMap<'static> {
    let parts = OwnedSourceMap::new(map).into_parts();
    let inner = OwnedSourceMap::from_parts(parts).into_inner();
    SourceMap::from(OwnedSourceMap::from(inner))
}

fn it_is_the_map_that_was_wrapped(
    rt: &impl Abort,
    alloc: Global,
    map: &OwnedSourceMap,
) -> Result<()> {
    same(rt, "text", map.to_json_string(alloc)?.as_str(), TEXT);
    let inside: &SourceMap<'static> = map;
    same(rt, "file", inside.get_file(), Some("out.js"));
    Ok(())
}

#[test]
fn maps_are_wrapped_and_unwrapped(rt: HostRuntime) -> Result<()> {
    let map = rewrapped(SourceMap::from_json_string(rt.alloc(), TEXT)?);
    let owned = map.into_owned_sourcemap(rt.alloc())?;
    it_is_the_map_that_was_wrapped(&rt, rt.alloc(), &owned)
}
