//! Joins.
use crate::helpers::{is_text, same};
use crate::rows::{Row, chunks_of, map_of, tokens_of};
use oxc_sourcemap::{ConcatSourceMapBuilder, Error, Result, SourceMap, Token};
use std::alloc::Global;
use std::process::Abort;

/// The JSON texts of maps, each with the line and the column that it is joined at; the JSON text of the joined map; and its
/// chunks, their numbers in the order of `TokenChunk::new`.
type Join = (Texts, &'static str, Chunks);
type Texts = &'static [(&'static str, u32, u32)];
type Chunks = &'static [[u32; 8]];

/// Names, sources, contents and ignore lists.
#[rattlefmt::skip]
const FIELDS: &[Join] = &[
    (&[],
     r#"{"version":3,"names":[],"sources":[],"mappings":""}"#,
     &[]),
    (&[(r#"{"version":3,"sources":["a.js"],"mappings":""}"#, 0, 0),
       (r#"{"version":3,"sources":["b.js"],"sourcesContent":["B"],"mappings":""}"#, 1, 0)],
     r#"{"version":3,"names":[],"sources":["a.js","b.js"],"sourcesContent":[null,"B"],"mappings":""}"#,
     &[[0; 8], [0; 8]]),
    (&[(r#"{"version":3,"sources":["a.js"],"sourcesContent":["A","EXTRA"],"mappings":""}"#, 0, 0),
       (r#"{"version":3,"sources":["b.js"],"sourcesContent":["B"],"mappings":""}"#, 1, 0)],
     r#"{"version":3,"names":[],"sources":["a.js","b.js"],"sourcesContent":["A","B"],"mappings":""}"#,
     &[[0; 8], [0; 8]]),
    (&[(r#"{"version":3,"names":["name_a"],"sources":["a.js"],"sourcesContent":["a content"],"mappings":"AAAAA"}"#, 0, 0),
       (r#"{"version":3,"names":["name_b"],"sources":["b.js"],"sourcesContent":["b content"],"mappings":"AAAAA"}"#, 5, 0)],
     r#"{"version":3,"names":["name_a","name_b"],"sources":["a.js","b.js"],"sourcesContent":["a content","b content"],"mappings":"AAAAA;;;;;ACAAC"}"#,
     &[[0, 1, 0, 0, 0, 0, 0, 0], [1, 2, 0, 0, 0, 0, 0, 0]]),
    (&[(r#"{"version":3,"sources":["a.js"],"sourcesContent":["a content"],"mappings":""}"#, 0, 0),
       (r#"{"version":3,"sources":["b.js"],"sourcesContent":["b content"],"mappings":"AAAA"}"#, 0, 0)],
     r#"{"version":3,"names":[],"sources":["a.js","b.js"],"sourcesContent":["a content","b content"],"mappings":"ACAA"}"#,
     &[[0; 8], [0, 1, 0, 0, 0, 0, 0, 0]]),
    (&[(r#"{"version":3,"sources":["a.js"],"mappings":"AAAA"}"#, 0, 0),
       (r#"{"version":3,"sources":["b.js"],"sourcesContent":["b content"],"mappings":"AAAA"}"#, 1, 0)],
     r#"{"version":3,"names":[],"sources":["a.js","b.js"],"sourcesContent":[null,"b content"],"mappings":"AAAA;ACAA"}"#,
     &[[0, 1, 0, 0, 0, 0, 0, 0], [1, 2, 0, 0, 0, 0, 0, 0]]),
    (&[(r#"{"version":3,"sources":["a.js"],"ignoreList":[0],"mappings":""}"#, 0, 0),
       (r#"{"version":3,"sources":["b.js","c.js"],"ignoreList":[1],"mappings":""}"#, 0, 0)],
     r#"{"version":3,"names":[],"sources":["a.js","b.js","c.js"],"ignoreList":[0,2],"mappings":""}"#,
     &[[0; 8], [0; 8]]),
    (&[(r#"{"version":3,"sources":["a.js"],"mappings":""}"#, 0, 0),
       (r#"{"version":3,"sources":["b.js"],"mappings":""}"#, 0, 0)],
     r#"{"version":3,"names":[],"sources":["a.js","b.js"],"mappings":""}"#,
     &[[0; 8], [0; 8]]),
    (&[(r#"{"version":3,"sources":["a.js"],"ignoreList":[],"mappings":""}"#, 0, 0),
       (r#"{"version":3,"sources":["b.js"],"mappings":""}"#, 0, 0)],
     r#"{"version":3,"names":[],"sources":["a.js","b.js"],"ignoreList":[],"mappings":""}"#,
     &[[0; 8], [0; 8]]),
    (&[(r#"{"version":3,"sources":["a.js"],"mappings":""}"#, 0, 0),
       (r#"{"version":3,"sources":["b.js"],"ignoreList":[0,0],"mappings":""}"#, 0, 0)],
     r#"{"version":3,"names":[],"sources":["a.js","b.js"],"ignoreList":[1,1],"mappings":""}"#,
     &[[0; 8], [0; 8]]),
];

/// Tokens at their lines, with and without sources.
#[rattlefmt::skip]
const LINES: &[Join] = &[
    (&[(r#"{"version":3,"names":["foo","foo2"],"sources":["s0"],"mappings":";CACCA"}"#, 0, 0),
       (r#"{"version":3,"names":["bar"],"sources":["s1"],"mappings":";CACCA"}"#, 2, 0),
       (r#"{"version":3,"names":["abc"],"sources":["s2"],"mappings":";EAEEA"}"#, 2, 0)],
     r#"{"version":3,"names":["foo","foo2","bar","abc"],"sources":["s0","s1","s2"],"mappings":";CACCA;;CCAAE,CCCCC"}"#,
     &[[0, 1, 0, 0, 0, 0, 0, 0], [1, 2, 1, 1, 1, 1, 0, 0], [2, 3, 3, 1, 1, 1, 2, 1]]),
    (&[(r#"{"version":3,"sources":["a"],"mappings":"AAKG,I"}"#, 0, 0),
       (r#"{"version":3,"sources":["b"],"mappings":"AAOC"}"#, 1, 0)],
     r#"{"version":3,"names":[],"sources":["a","b"],"mappings":"AAKG,I;ACEF"}"#,
     &[[0, 2, 0, 0, 0, 0, 0, 0], [2, 3, 0, 4, 5, 3, 0, 0]]),
    (&[(r#"{"version":3,"sources":[],"mappings":"A;;G"}"#, 0, 0),
       (r#"{"version":3,"sources":[],"mappings":"G;S"}"#, 2, 0)],
     r#"{"version":3,"names":[],"sources":[],"mappings":"A;;G;S"}"#,
     &[[0, 2, 0, 0, 0, 0, 0, 0], [2, 3, 2, 3, 0, 0, 0, 0]]),
];

/// Where one map ends and the next one begins.
#[rattlefmt::skip]
const SEAMS: &[Join] = &[
    (&[(r#"{"version":3,"sources":["a"],"mappings":"AAKG"}"#, 0, 0),
       (r#"{"version":3,"sources":["b"],"mappings":""}"#, 0, 0),
       (r#"{"version":3,"sources":["c"],"mappings":"EACC"}"#, 1, 0)],
     r#"{"version":3,"names":[],"sources":["a","b","c"],"mappings":"AAKG;EEJF"}"#,
     &[[0, 1, 0, 0, 0, 0, 0, 0], [1, 1, 0, 0, 5, 3, 0, 0], [1, 2, 0, 0, 5, 3, 0, 0]]),
    (&[(r#"{"version":3,"names":["p","q","r"],"sources":["a"],"mappings":"AAAAA,C"}"#, 0, 0),
       (r#"{"version":3,"names":["s"],"sources":["b"],"mappings":"AAAAA"}"#, 1, 0)],
     r#"{"version":3,"names":["p","q","r","s"],"sources":["a","b"],"mappings":"AAAAA,C;ACAAG"}"#,
     &[[0, 2, 0, 0, 0, 0, 0, 0], [2, 3, 0, 1, 0, 0, 0, 0]]),
    (&[(r#"{"version":3,"sources":[],"mappings":"A"}"#, 0, 0),
       (r#"{"version":3,"sources":[],"mappings":"A"}"#, 0, 0)],
     r#"{"version":3,"names":[],"sources":[],"mappings":"A"}"#,
     &[[0, 1, 0, 0, 0, 0, 0, 0], [1, 1, 0, 0, 0, 0, 0, 0]]),
    (&[(r#"{"version":3,"names":["name1"],"sources":["file1.js"],"mappings":";CACCA;KACIA"}"#, 0, 0),
       (r#"{"version":3,"names":["name2"],"sources":["file2.js"],"mappings":";;KAEKA;UACKA"}"#, 0, 0)],
     r#"{"version":3,"names":["name1","name2"],"sources":["file1.js","file2.js"],"mappings":";CACCA;KACIA,ACAAC;UACKA"}"#,
     &[[0, 2, 0, 0, 0, 0, 0, 0], [2, 4, 2, 5, 2, 5, 0, 0]]),
];

/// Maps beside each other on one line.
#[rattlefmt::skip]
const SIDE_BY_SIDE: &[Join] = &[
    (&[(r#"{"version":3,"sources":["a.js"],"mappings":"AAAA,IAAI"}"#, 0, 0),
       (r#"{"version":3,"sources":["b.js"],"mappings":"AAAA;AACA"}"#, 0, 10)],
     r#"{"version":3,"names":[],"sources":["a.js","b.js"],"mappings":"AAAA,IAAI,MCAJ;AACA"}"#,
     &[[0, 2, 0, 0, 0, 0, 0, 0], [2, 4, 0, 4, 0, 4, 0, 0]]),
    (&[(r#"{"version":3,"sources":["a.js"],"mappings":"AAAA,IAAI"}"#, 0, 0),
       (r#"{"version":3,"sources":["b.js"],"mappings":"AAAA;AACA"}"#, 0, 4)],
     r#"{"version":3,"names":[],"sources":["a.js","b.js"],"mappings":"AAAA,IAAI,ACAJ;AACA"}"#,
     &[[0, 2, 0, 0, 0, 0, 0, 0], [2, 4, 0, 4, 0, 4, 0, 0]]),
];

/// Maps whose last one is past the greatest column. The joined map is that of the others.
#[rattlefmt::skip]
const TOO_FAR: &[Join] = &[
    (&[(r#"{"version":3,"sources":["a.js"],"mappings":"AAAA,IAAI"}"#, 0, 0),
       (r#"{"version":3,"sources":["b.js"],"mappings":"C"}"#, 0, 4294967295)],
     r#"{"version":3,"names":[],"sources":["a.js"],"mappings":"AAAA,IAAI"}"#,
     &[[0, 2, 0, 0, 0, 0, 0, 0]]),
];

/// A map, and the line and the column that it is joined at.
type Placed = (SourceMap<'static>, u32, u32);

fn maps_of_texts(alloc: Global, texts: Texts) -> Result<Vec<Placed>> {
    let mut maps = Vec::new(alloc);
    for (text, line, column) in texts {
        let map = SourceMap::from_json_string(alloc, text)?;
        maps.push((map, *line, *column))?;
    }
    Ok(maps)
}

/// What a joined map has to be, and the error of the maps that are left out of it.
#[derive(Clone, Copy)]
struct Wanted<'w> {
    text: &'w str,
    tokens: &'w [Token],
    chunks: Chunks,
    error: Option<Error>,
}

fn is_joined(
    rt: &impl Abort,
    alloc: Global,
    way: &str,
    joined: Result<SourceMap<'_>>,
    wanted: Wanted<'_>,
) -> Result<()> {
    let joined = joined?;
    is_text(rt, way, &joined.to_json_string(alloc), Ok(wanted.text));
    let parts = joined.into_parts();
    same(rt, way, parts.tokens.as_slice(), wanted.tokens);
    let chunks = chunks_of(alloc, &Some(wanted.chunks))?;
    same(rt, way, &parts.token_chunks, &chunks);
    Ok(())
}

/// The join of maps that are borrowed one by one, and the first error.
fn lent_each<'m>(
    alloc: Global,
    maps: &'m [Placed],
    add: impl Fn(
        &mut ConcatSourceMapBuilder<'m>,
        &'m SourceMap<'static>,
        u32,
        u32,
    ) -> Result<()>,
) -> Result<(SourceMap<'m>, Option<Error>)> {
    let mut builder: ConcatSourceMapBuilder<'m> = ConcatSourceMapBuilder::empty(alloc);
    let mut error = None;
    for (map, line, column) in maps {
        error = error.or(add(&mut builder, map, *line, *column).err());
    }
    Ok((builder.into_sourcemap()?, error))
}

/// The same of maps that are moved.
fn moved_each(
    alloc: Global,
    maps: Vec<Placed>,
    add: impl Fn(
        &mut ConcatSourceMapBuilder<'static>,
        SourceMap<'static>,
        u32,
        u32,
    ) -> Result<()>,
) -> Result<(SourceMap<'static>, Option<Error>)> {
    let mut builder: ConcatSourceMapBuilder<'static> = ConcatSourceMapBuilder::with_capacity(
        alloc, 1, 1, 1, 1,
    )?;
    let mut error = None;
    for (map, line, column) in maps {
        error = error.or(add(&mut builder, map, line, column).err());
    }
    Ok((builder.into_owned_sourcemap()?.into_inner(), error))
}

/// Asserts what is joined by the calls that take a line and a column.
fn are_joined_at(
    rt: &impl Abort,
    alloc: Global,
    make: impl Fn() -> Result<Vec<Placed>>,
    wanted: Wanted<'_>,
) -> Result<()> {
    let maps = make()?;
    let (joined, error) = lent_each(alloc, maps.as_slice(), |builder, map, line, column| {
        builder.add_sourcemap_at(map, line, column)
    })?;
    same(rt, "lent to a column", error, wanted.error);
    is_joined(rt, alloc, "lent to a column", Ok(joined), wanted)?;
    let (joined, error) = lent_each(alloc, maps.as_slice(), |builder, map, line, column| {
        builder.add_sourcemap_copied_at(map, line, column)
    })?;
    same(rt, "copied to a column", error, wanted.error);
    is_joined(rt, alloc, "copied to a column", Ok(joined), wanted)?;
    let (joined, error) = moved_each(alloc, maps, |builder, map, line, column| {
        builder.add_sourcemap_owned_at(map, line, column)
    })?;
    same(rt, "moved to a column", error, wanted.error);
    is_joined(rt, alloc, "moved to a column", Ok(joined), wanted)
}

/// Asserts what is joined by those that take a line.
fn are_joined_below(
    rt: &impl Abort,
    alloc: Global,
    make: impl Fn() -> Result<Vec<Placed>>,
    wanted: Wanted<'_>,
) -> Result<()> {
    let maps = make()?;
    let (joined, error) = lent_each(alloc, maps.as_slice(), |builder, map, line, _| {
        builder.add_sourcemap(map, line)
    })?;
    same(rt, "lent", error, wanted.error);
    is_joined(rt, alloc, "lent", Ok(joined), wanted)?;
    let (joined, error) = moved_each(alloc, maps, |builder, map, line, _| {
        builder.add_sourcemap_owned(map, line)
    })?;
    same(rt, "moved", error, wanted.error);
    is_joined(rt, alloc, "moved", Ok(joined), wanted)
}

/// The join of maps that are borrowed at once.
fn lent_at_once(alloc: Global, maps: &[Placed]) -> Result<SourceMap<'static>> {
    let mut lent_maps = Vec::new(alloc);
    for (map, line, _) in maps {
        lent_maps.push((map, *line))?;
    }
    let builder = ConcatSourceMapBuilder::from_sourcemaps(alloc, lent_maps.as_slice())?;
    Ok(builder.into_owned_sourcemap()?.into_inner())
}

/// The same of maps that are moved.
fn moved_at_once(alloc: Global, maps: Vec<Placed>) -> Result<SourceMap<'static>> {
    let mut moved_maps = Vec::new(alloc);
    for (map, line, _) in maps {
        moved_maps.push((map, line))?;
    }
    ConcatSourceMapBuilder::from_owned_sourcemaps(alloc, moved_maps)?.into_sourcemap()
}

/// Asserts what is joined at once: a map, or why there is none.
fn are_joined_at_once(
    rt: &impl Abort,
    alloc: Global,
    make: impl Fn() -> Result<Vec<Placed>>,
    wanted: Wanted<'_>,
) -> Result<()> {
    let maps = make()?;
    let lent = lent_at_once(alloc, maps.as_slice());
    let moved = moved_at_once(alloc, maps);
    if wanted.error.is_some() {
        same(rt, "at once", [lent.err(), moved.err()], [wanted.error; 2]);
        return Ok(());
    }
    is_joined(rt, alloc, "lent at once", lent, wanted)?;
    is_joined(rt, alloc, "moved at once", moved, wanted)
}

/// Asserts what the maps of texts are joined to. The tokens are those that the text of the joined map reads as.
fn texts_are_joined(
    rt: &impl Abort,
    alloc: Global,
    join: &Join,
    error: Option<Error>,
) -> Result<()> {
    let (texts, text, chunks) = *join;
    let read = SourceMap::from_json_string(alloc, text)?;
    let tokens = read.get_tokens().as_slice();
    let wanted = Wanted { text, tokens, chunks, error };
    let make = || maps_of_texts(alloc, texts);
    are_joined_at(rt, alloc, make, wanted)?;
    if texts.iter().all(|(_, _, column)| *column == 0) {
        are_joined_below(rt, alloc, make, wanted)?;
        are_joined_at_once(rt, alloc, make, wanted)?;
    }
    Ok(())
}

#[test]
fn maps_are_joined(rt: HostRuntime) -> Result<()> {
    for rows in [FIELDS, LINES, SEAMS, SIDE_BY_SIDE] {
        for join in rows {
            texts_are_joined(&rt, rt.alloc(), join, None)?;
        }
    }
    Ok(())
}

#[test]
fn maps_past_the_greatest_column_are_left_out(rt: HostRuntime) -> Result<()> {
    for join in TOO_FAR {
        texts_are_joined(&rt, rt.alloc(), join, Some(Error::TooLarge))?;
    }
    Ok(())
}

/// Names, sources, tokens and ignore list of a map that no JSON text gives, and the line that it is joined at.
type Part = (
    &'static [&'static str],
    &'static [&'static str],
    &'static [Row],
    Option<&'static [u32]>,
    u32,
);

/// Such maps; the tokens of the joined map, its JSON text, and its chunks.
type PartsJoin = (&'static [Part], &'static [Row], &'static str, Chunks);

#[rattlefmt::skip]
const PARTS: &[PartsJoin] = &[
    // An unmapped token has no source position, and stays so.
    (&[(&[], &["a"], &[(0, 0, 5, 3, Some(0), None), (0, 4, 0, 0, None, None)], None, 0),
       (&[], &["b"], &[(0, 0, 7, 1, Some(0), None)], None, 1)],
     &[(0, 0, 5, 3, Some(0), None), (0, 4, 0, 0, None, None), (1, 0, 7, 1, Some(1), None)],
     r#"{"version":3,"names":[],"sources":["a","b"],"mappings":"AAKG,I;ACEF"}"#,
     &[[0, 2, 0, 0, 0, 0, 0, 0], [2, 3, 0, 4, 5, 3, 0, 0]]),
    // The name of an unmapped token is not written, and does not count for the chunk behind it.
    (&[(&["p", "q", "r"], &["a"], &[(0, 0, 0, 0, Some(0), Some(0)), (0, 1, 0, 0, None, Some(2))], None, 0),
       (&["s"], &["b"], &[(0, 0, 0, 0, Some(0), Some(0))], None, 1)],
     &[(0, 0, 0, 0, Some(0), Some(0)), (0, 1, 0, 0, None, Some(2)), (1, 0, 0, 0, Some(1), Some(3))],
     r#"{"version":3,"names":["p","q","r","s"],"sources":["a","b"],"mappings":"AAAAA,C;ACAAG"}"#,
     &[[0, 2, 0, 0, 0, 0, 0, 0], [2, 3, 0, 1, 0, 0, 0, 0]]),
    // Two source ids, each within the limit, whose bits taken together are above it.
    (&[(&[], &["s"], &[], None, 0),
       (&[], &[], &[(0, 0, 0, 0, Some(2147483646), None), (0, 1, 0, 0, Some(2147483649), None)], None, 0)],
     &[(0, 0, 0, 0, Some(2147483647), None), (0, 1, 0, 0, Some(2147483650), None)],
     r#"{"version":3,"names":[],"sources":["s"],"mappings":"A+/////DAA,CGAA"}"#,
     &[[0; 8], [0, 2, 0, 0, 0, 0, 0, 0]]),
];

/// Maps whose last one is too large, for a line, a source id or an id of its ignore list. The joined map is that of the others.
#[rattlefmt::skip]
const TOO_LARGE: &[PartsJoin] = &[
    (&[(&[], &[], &[(4294967295, 0, 0, 0, None, None)], None, 1)],
     &[],
     r#"{"version":3,"names":[],"sources":[],"mappings":""}"#,
     &[]),
    // The second token is too large, after a first one that is not.
    (&[(&[], &[], &[(0, 5, 0, 0, None, None)], None, 0), (&[], &[], &[(0, 0, 0, 0, None, None), (4294967295, 0, 0, 0, None, None)], None, 1)],
     &[(0, 5, 0, 0, None, None)],
     r#"{"version":3,"names":[],"sources":[],"mappings":"K"}"#,
     &[[0, 1, 0, 0, 0, 0, 0, 0]]),
    (&[(&[], &["s"], &[], None, 0), (&[], &[], &[(0, 0, 0, 0, Some(4294967294), None)], None, 0)],
     &[],
     r#"{"version":3,"names":[],"sources":["s"],"mappings":""}"#,
     &[[0; 8]]),
    (&[(&[], &["a.js"], &[], Some(&[0]), 0), (&[], &["b.js"], &[], Some(&[4294967294]), 0)],
     &[],
     r#"{"version":3,"names":[],"sources":["a.js"],"ignoreList":[0],"mappings":""}"#,
     &[[0; 8]]),
];

fn maps_of_parts(alloc: Global, parts: &[Part]) -> Result<Vec<Placed>> {
    let mut maps = Vec::new(alloc);
    for (names, sources, rows, ignored, line) in parts {
        let mut map = map_of(alloc, *names, *sources, &[], *rows)?;
        if let Some(ids) = ignored {
            map.set_ignore_list(ids.to_vec(alloc)?);
        }
        maps.push((map, *line, 0))?;
    }
    Ok(maps)
}

/// Asserts what these maps are joined to.
fn parts_are_joined(
    rt: &impl Abort,
    alloc: Global,
    join: &PartsJoin,
    error: Option<Error>,
) -> Result<()> {
    let (parts, rows, text, chunks) = *join;
    let tokens = tokens_of(alloc, rows)?;
    let wanted = Wanted { text, tokens: tokens.as_slice(), chunks, error };
    let make = || maps_of_parts(alloc, parts);
    are_joined_at(rt, alloc, make, wanted)?;
    are_joined_below(rt, alloc, make, wanted)?;
    are_joined_at_once(rt, alloc, make, wanted)
}

#[test]
fn maps_that_no_text_gives_are_joined(rt: HostRuntime) -> Result<()> {
    for join in PARTS {
        parts_are_joined(&rt, rt.alloc(), join, None)?;
    }
    Ok(())
}

#[test]
fn maps_past_a_limit_are_left_out(rt: HostRuntime) -> Result<()> {
    for join in TOO_LARGE {
        parts_are_joined(&rt, rt.alloc(), join, Some(Error::TooLarge))?;
    }
    Ok(())
}

/// The data URL of the join of no maps.
const URL: &str =
    "data:application/json;charset=utf-8;base64,eyJ2ZXJzaW9uIjozLCJuYW1lcyI6W10sInNvdXJjZXMiOltdLCJtYXBwaW5ncyI6IiJ9";

#[test]
fn the_join_of_no_maps_has_a_url(rt: HostRuntime) -> Result<()> {
    let joined = moved_at_once(rt.alloc(), Vec::new(rt.alloc()))?;
    is_text(&rt, "url", &joined.to_data_url(rt.alloc()), Ok(URL));
    Ok(())
}

/// A map without tokens, of 1000 names and 100 sources.
fn large_map(alloc: Global) -> Result<SourceMap<'static>> {
    let names = vec![in alloc; "name"; 1000]?;
    let sources = vec![in alloc; "source"; 100]?;
    map_of(alloc, names.as_slice(), sources.as_slice(), &[], &[])
}

#[test]
fn tokens_after_a_large_map_are_moved(rt: HostRuntime) -> Result<()> {
    let rows = [(1, 2, 3, 4, Some(5), Some(6)), (2, 0, 0, 0, None, None)];
    let map = map_of(rt.alloc(), &[], &[], &[], rows.as_slice())?;
    let mut builder = ConcatSourceMapBuilder::empty(rt.alloc());
    builder.add_sourcemap_owned(large_map(rt.alloc())?, 7)?;
    builder.add_sourcemap(&map, 10)?;
    let joined = builder.into_sourcemap()?;
    let first = Token::new(11, 2, 3, 4, Some(105), Some(1006));
    same(&rt, "first", joined.get_token(0), Some(first));
    let second = Token::new(12, 0, 0, 0, None, None);
    same(&rt, "second", joined.get_token(1), Some(second));
    Ok(())
}
