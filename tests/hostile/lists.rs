//! The lists of hostile maps: their iterators, and what ids name in them.
use crate::helpers::{Seen, gives, same, seen};
use crate::hostile::maps::{Hostile, each_hostile, hostile_map};
use crate::rows::tokens_of;
use oxc_sourcemap::{Result, SourceMap, Token};
use std::alloc::Global;
use std::process::Abort;

/// Ids and indices that the rows have, and some that name nothing.
pub const IDS: &[u32] = &[0, 1, 2, 5, 7, 4294967294, 4294967295];

/// The item with this id.
fn at<T: Copy>(list: &[T], id: Option<u32>) -> Option<T> {
    list.get(id? as usize).copied()
}

fn both<'t>(source: Option<&'t str>, content: Option<&'t str>) -> Option<(&'t str, &'t str)> {
    Some((source?, content?))
}

/// What a view of this token has to show.
pub fn wanted(hostile: &Hostile, token: Token) -> Seen<'static> {
    let source = at(hostile.sources, token.get_source_id());
    let content = at(hostile.contents, token.get_source_id()).flatten();
    let name = at(hostile.names, token.get_name_id());
    (token, [name, source, content], both(source, content))
}

/// What views of all tokens have to show.
pub fn all_wanted(alloc: Global, hostile: &Hostile) -> Result<Vec<Seen<'static>>> {
    let mut all = Vec::new(alloc);
    for token in tokens_of(alloc, hostile.rows)?.as_slice() {
        all.push(wanted(hostile, *token))?;
    }
    Ok(all)
}

fn iterators_give_the_items_and_end(
    rt: &impl Abort,
    alloc: Global,
    map: &SourceMap<'_>,
    hostile: &Hostile,
) -> Result<()> {
    gives(rt, "names", map.get_names(), hostile.names);
    gives(rt, "sources", map.get_sources(), hostile.sources);
    gives(rt, "contents", map.get_source_contents(), hostile.contents);
    let tokens = tokens_of(alloc, hostile.rows)?;
    gives(rt, "tokens", map.get_tokens(), tokens.as_slice());
    let views = all_wanted(alloc, hostile)?;
    gives(
        rt,
        "views",
        map.get_source_view_tokens().map(seen),
        views.as_slice(),
    );
    Ok(())
}

fn ids_name_what_is_listed(rt: &impl Abort, map: &SourceMap<'_>, hostile: &Hostile) {
    for id in IDS {
        let source = at(hostile.sources, Some(*id));
        let content = at(hostile.contents, Some(*id)).flatten();
        same(rt, "name", map.get_name(*id), at(hostile.names, Some(*id)));
        same(rt, "source", map.get_source(*id), source);
        same(rt, "content", map.get_source_content(*id), content);
        same(
            rt,
            "both",
            map.get_source_and_content(*id),
            both(source, content),
        );
    }
}

fn its_first_token_is_viewed(rt: &impl Abort, map: &SourceMap<'_>, hostile: &Hostile) {
    let origin = map.get_source_view_token(0).map(|view| view.to_tuple());
    same(rt, "origin", origin, Some(hostile.origin));
}

fn tokens_are_got_by_their_index(
    rt: &impl Abort,
    alloc: Global,
    map: &SourceMap<'_>,
    hostile: &Hostile,
) -> Result<()> {
    let views = all_wanted(alloc, hostile)?;
    for index in IDS {
        let view = at(views.as_slice(), Some(*index));
        same(rt, "token", map.get_token(*index), view.map(|view| view.0));
        same(
            rt,
            "view",
            map.get_source_view_token(*index).map(seen),
            view,
        );
    }
    Ok(())
}

#[test]
fn lists_are_walked_and_read(rt: HostRuntime) -> Result<()> {
    each_hostile(|hostile| {
        let map = hostile_map(rt.alloc(), hostile)?;
        iterators_give_the_items_and_end(&rt, rt.alloc(), &map, hostile)?;
        ids_name_what_is_listed(&rt, &map, hostile);
        its_first_token_is_viewed(&rt, &map, hostile);
        tokens_are_got_by_their_index(&rt, rt.alloc(), &map, hostile)
    })
}
