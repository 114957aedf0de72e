//! Remapping of maps, plain and owned.
use crate::helpers::{has_text, has_tokens_of, same};
use crate::rows::{Row, map_of};
use oxc_sourcemap::{Error, OwnedSourceMap, Result, SourceMap};
use std::alloc::Global;
use std::process::Abort;

/// The JSON text of a map, those of its inputs, each with the source that it is for, and that of the remapped map.
type Remapping = (
    &'static str,
    &'static [(&'static str, &'static str)],
    &'static str,
);

#[rattlefmt::skip]
const REMAPPINGS: &[Remapping] = &[
    // Two sources with an input each. File and debug id are those of the bundle.
    (r#"{"version":3,"file":"out.js","names":[],"sources":["a.js","b.js"],"mappings":"AAAA,IACE;ACDF,MAAK","debugId":"out"}"#,
     &[("a.js", r#"{"version":3,"file":"a.js","names":[],"sources":["a.ts"],"sourcesContent":["A"],"mappings":"AAEA;AAGI","debugId":"a"}"#),
       ("b.js", r#"{"version":3,"file":"b.js","names":[],"sources":["b.ts","c.ts"],"sourcesContent":["B","C"],"mappings":"ACOC,GDCC"}"#)],
     r#"{"version":3,"file":"out.js","names":[],"sources":["a.ts","b.ts","c.ts"],"sourcesContent":["A","B","C"],"mappings":"AAEA,IAGI;AEEH,MDCC","debugId":"out"}"#),
    // A source without an input stays, with its content.
    (r#"{"version":3,"names":[],"sources":["a.js","b.js"],"sourcesContent":["a","b"],"mappings":"AAAA;ACGE"}"#,
     &[("a.js", r#"{"version":3,"file":"a.js","names":[],"sources":["a.ts"],"sourcesContent":["A"],"mappings":"AAEA;AAGI","debugId":"a"}"#)],
     r#"{"version":3,"names":[],"sources":["a.ts","b.js"],"sourcesContent":["A","b"],"mappings":"AAEA;ACCE"}"#),
    // No inputs: the source root goes.
    (r#"{"version":3,"sourceRoot":"lib","names":[],"sources":["a.js"],"sourcesContent":["a"],"mappings":"AAAA"}"#,
     &[],
     r#"{"version":3,"names":[],"sources":["a.js"],"sourcesContent":["a"],"mappings":"AAAA"}"#),
    // A mapping whose module has nothing on that line, one that leads to an unmapped mapping, and one that is unmapped.
    (r#"{"version":3,"names":["x"],"sources":["a.js"],"mappings":"AACA,EADGA,E,EAAH"}"#,
     &[("a.js", r#"{"version":3,"names":[],"sources":["a.ts"],"mappings":"AAIA,E"}"#)],
     r#"{"version":3,"names":[],"sources":["a.ts"],"mappings":"A,E,E,EAIA"}"#),
    // Names: of the module's map; of the bundle where that has none; each once, in the order of need.
    (r#"{"version":3,"names":["p","q","r"],"sources":["a.js","b.js"],"mappings":"AAAAA,EAAQA,ECARC,EAAA,EDAQC"}"#,
     &[("a.js", r#"{"version":3,"names":["unused","q"],"sources":["a.ts"],"mappings":"AAAAC,QACA"}"#)],
     r#"{"version":3,"names":["q","p","r"],"sources":["a.ts","b.js"],"mappings":"AAAAA,EACAC,ECDAD,EAAA,EDCAE"}"#),
    // A position before the first mapping of its line.
    (r#"{"version":3,"names":[],"sources":["a.js"],"mappings":"AAAA"}"#,
     &[("a.js", r#"{"version":3,"names":[],"sources":["a.ts"],"mappings":"IACE"}"#)],
     r#"{"version":3,"names":[],"sources":["a.ts"],"mappings":"AACE"}"#),
    // One path twice: the sources of its input stand twice, and mappings lead to theirs.
    (r#"{"version":3,"names":[],"sources":["a.js","a.js"],"mappings":"AAAA,KCAA"}"#,
     &[("a.js", r#"{"version":3,"names":[],"sources":["a.ts","b.ts"],"mappings":"ACGA"}"#)],
     r#"{"version":3,"names":[],"sources":["a.ts","b.ts","a.ts","b.ts"],"mappings":"ACGA,KEAA"}"#),
    // Of two inputs for a source the first counts, and one that is for no source is not used.
    (r#"{"version":3,"names":[],"sources":["a.js"],"mappings":"AAAA"}"#,
     &[("A.js", r#"{"version":3,"names":[],"sources":["no.ts"],"mappings":"AASS"}"#),
       ("a.js", r#"{"version":3,"names":[],"sources":["first.ts"],"mappings":"AACC"}"#),
       ("a.js", r#"{"version":3,"names":[],"sources":["second.ts"],"mappings":"AAEE"}"#)],
     r#"{"version":3,"names":[],"sources":["first.ts"],"mappings":"AACC"}"#),
    // Ignore lists: of a source that stays, of one that is replaced, and of inputs, one of them empty.
    (r#"{"version":3,"names":[],"sources":["a.js","b.js","c.js","d.js"],"ignoreList":[1,0],"mappings":"AGAA"}"#,
     &[("a.js", r#"{"version":3,"names":[],"sources":["a1.ts","a2.ts"],"mappings":""}"#),
       ("c.js", r#"{"version":3,"names":[],"sources":["c1.ts","c2.ts","c3.ts"],"ignoreList":[2,0],"mappings":""}"#),
       ("d.js", r#"{"version":3,"names":[],"sources":["d.ts"],"ignoreList":[],"mappings":"AAAA"}"#)],
     r#"{"version":3,"names":[],"sources":["a1.ts","a2.ts","b.js","c1.ts","c2.ts","c3.ts","d.ts"],"ignoreList":[2,3,5],"mappings":"AMAA"}"#),
    // An ignore list without entries is left out.
    (r#"{"version":3,"names":[],"sources":["a.js"],"ignoreList":[0],"mappings":"AAAA"}"#,
     &[("a.js", r#"{"version":3,"names":[],"sources":["a.ts"],"mappings":"AAAA"}"#)],
     r#"{"version":3,"names":[],"sources":["a.ts"],"mappings":"AAAA"}"#),
    // Contents that are not known, and more than there are sources.
    (r#"{"version":3,"names":[],"sources":["a.js","b.js","c.js"],"sourcesContent":["a",null,"c","extra"],"mappings":"AAAA"}"#,
     &[("a.js", r#"{"version":3,"names":[],"sources":["a1.ts","a2.ts"],"sourcesContent":["A1"],"mappings":"ACAA"}"#),
       ("c.js", r#"{"version":3,"names":[],"sources":["c.ts"],"sourcesContent":["C","more"],"mappings":""}"#)],
     r#"{"version":3,"names":[],"sources":["a1.ts","a2.ts","b.js","c.ts"],"sourcesContent":["A1",null,null,"C"],"mappings":"ACAA"}"#),
    // A module without sources, one whose source has a map in turn, and source roots of inputs, which are dropped.
    (r#"{"version":3,"names":[],"sources":["a.js","b.js"],"mappings":"AAAA,GCAA"}"#,
     &[("a.js", r#"{"version":3,"names":[],"sources":[],"mappings":"A"}"#),
       ("b.js", r#"{"version":3,"sourceRoot":"src","names":[],"sources":["a.js"],"mappings":"AAEA"}"#)],
     r#"{"version":3,"names":[],"sources":["a.js"],"mappings":"A,GAEA"}"#),
];

/// Inputs, each lent.
fn lent<'m, M>(alloc: Global, inputs: &'m [(&'static str, M)]) -> Result<Vec<(&'m str, &'m M)>> {
    let mut all = Vec::new(alloc);
    for (path, map) in inputs {
        all.push((*path, map))?;
    }
    Ok(all)
}

/// Inputs, read.
fn read(
    alloc: Global,
    texts: &[(&'static str, &'static str)],
) -> Result<Vec<(&'static str, SourceMap<'static>)>> {
    let mut all = Vec::new(alloc);
    for (path, text) in texts {
        all.push((*path, SourceMap::from_json_string(alloc, text)?))?;
    }
    Ok(all)
}

fn read_owned(
    alloc: Global,
    texts: &[(&'static str, &'static str)],
) -> Result<Vec<(&'static str, OwnedSourceMap)>> {
    let mut all = Vec::new(alloc);
    for (path, text) in texts {
        all.push((*path, OwnedSourceMap::from_json_string(alloc, text)?))?;
    }
    Ok(all)
}

/// Asserts what a map is remapped to, twice, as nothing is taken.
fn is_remapped(rt: &impl Abort, alloc: Global, remapping: &Remapping) -> Result<()> {
    let (text, inputs, wanted) = *remapping;
    let map = SourceMap::from_json_string(alloc, text)?;
    let inputs = read(alloc, inputs)?;
    for _ in 0..2 {
        let remapped = {
            let lent = lent(alloc, inputs.as_slice())?;
            map.remap(alloc, lent.as_slice())
        };
        has_text(rt, alloc, "plain", &remapped, Ok(wanted));
        has_tokens_of(rt, alloc, &remapped?, wanted)?;
    }
    Ok(())
}

/// The same of owned maps; the inputs are gone when the remapped map is read.
fn is_remapped_owned(rt: &impl Abort, alloc: Global, remapping: &Remapping) -> Result<()> {
    let (text, inputs, wanted) = *remapping;
    let remapped = {
        let map = OwnedSourceMap::from_json_string(alloc, text)?;
        let inputs = read_owned(alloc, inputs)?;
        let lent = lent(alloc, inputs.as_slice())?;
        map.remap(alloc, lent.as_slice())?
    };
    has_tokens_of(rt, alloc, &remapped, wanted)?;
    has_text(rt, alloc, "owned", &Ok(remapped.into_inner()), Ok(wanted));
    Ok(())
}

#[test]
fn maps_are_remapped(rt: HostRuntime) -> Result<()> {
    for remapping in REMAPPINGS {
        is_remapped(&rt, rt.alloc(), remapping)?;
        is_remapped_owned(&rt, rt.alloc(), remapping)?;
    }
    Ok(())
}

/// A map whose tokens go back in lines, and one whose tokens do not.
const BACK: &[Row] = &[(1, 0, 0, 0, None, None), (0, 0, 0, 0, None, None)];
const ORDERED: &[Row] = &[(0, 0, 0, 0, None, None), (1, 0, 0, 0, None, None)];

/// Asserts the error of a map of the source a.js with inputs for these paths, of these tokens.
fn is_refused(
    rt: &impl Abort,
    alloc: Global,
    inputs: &[(&str, &[Row])],
    error: Error,
) -> Result<()> {
    let map = map_of(alloc, &[], &["a.js"], &[], ORDERED)?;
    let mut maps = Vec::new(alloc);
    for (path, rows) in inputs {
        maps.push((*path, map_of(alloc, &[], &[], &[], rows)?))?;
    }
    let mut lent = Vec::new(alloc);
    for (path, map) in maps.as_slice() {
        lent.push((*path, map))?;
    }
    same(rt, "plain", map.remap(alloc, lent.as_slice()).err(), Some(error));
    Ok(())
}

#[test]
fn the_first_input_whose_lines_go_back_is_reported(rt: HostRuntime) -> Result<()> {
    let alloc = rt.alloc();
    is_refused(&rt, alloc, &[("a.js", BACK)], Error::InputLineOrder(0))?;
    is_refused(&rt, alloc, &[("b.js", ORDERED), ("a.js", BACK), ("c.js", BACK)], Error::InputLineOrder(1))?;
    // One that is not used, as another is for that source, and one that is for no source.
    is_refused(&rt, alloc, &[("a.js", ORDERED), ("a.js", BACK)], Error::InputLineOrder(1))?;
    is_refused(&rt, alloc, &[("a.js", ORDERED), ("b.js", ORDERED), ("c.js", BACK)], Error::InputLineOrder(2))
}

#[test]
fn lines_of_an_owned_input_go_back(rt: HostRuntime) -> Result<()> {
    let input = OwnedSourceMap::new(map_of(rt.alloc(), &[], &[], &[], BACK)?);
    let good = OwnedSourceMap::empty(rt.alloc())?;
    let remapped = good.remap(rt.alloc(), &[("a.js", &good), ("a.js", &input)]);
    same(&rt, "owned", remapped.err(), Some(Error::InputLineOrder(1)));
    Ok(())
}

/// A map of the source a.js, this many times.
fn map_of_repeats(alloc: Global, count: usize) -> Result<SourceMap<'static>> {
    let mut sources = Vec::with_capacity(alloc, count)?;
    for _ in 0..count {
        sources.push("a.js")?;
    }
    let mut map = SourceMap::empty(alloc)?;
    map.set_sources(alloc, sources.into_iter())?;
    Ok(map)
}

/// In place of each of 65536 equal sources stand 65536: one more than there may be.
#[test]
fn there_are_more_sources_than_ids(rt: HostRuntime) -> Result<()> {
    let map = map_of_repeats(rt.alloc(), 65536)?;
    let remapped = map.remap(rt.alloc(), &[("a.js", &map)]);
    same(&rt, "sources", remapped.err(), Some(Error::TooLarge));
    let back = map_of(rt.alloc(), &[], &[], &[], BACK)?;
    let remapped = map.remap(rt.alloc(), &[("a.js", &map), ("b.js", &back)]);
    same(&rt, "lines are looked at before", remapped.err(), Some(Error::InputLineOrder(1)));
    Ok(())
}
