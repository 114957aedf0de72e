//! Worked examples of plans: by their words and texts, and as values.
use crate::helpers::same;
use crate::program::{answers, answers_line, strings};
use oxc_sourcemap::{
    Error, JsonFault, Plan, PlanError, SourceMapParts, Token, TokenChunk, evaluate,
};
use smap_run::{RunError, inputs_of, read_plan};
use std::alloc::{AllocError, Global};
use std::process::Abort;

/// Two maps, and their join, the second one a line down.
const A: &str = r#"{"version":3,"sources":["a.js"],"mappings":"AAKG,I"}"#;
const B: &str = r#"{"version":3,"sources":["b.js"],"mappings":"AAOC"}"#;
const JOIN: &str = r#"{"version":3,"names":[],"sources":["a.js","b.js"],"mappings":"AAKG,I;ACEF"}"#;

/// Tokens at the columns 0 and 4 of line 0, and tokens at column 0 of the lines 0 and 1.
const LEFT: &str = r#"{"version":3,"sources":["a.js"],"mappings":"AAAA,IAAI"}"#;
const RIGHT: &str = r#"{"version":3,"sources":["b.js"],"mappings":"AAAA;AACA"}"#;

const UNSORTED: &str = r#"{"version":3,"sources":[],"mappings":"G,D"}"#;

/// A bundle of two modules, and a map of each: the second one has two sources, of which it ignores one.
const BUNDLE: &str = r#"{"version":3,"names":["x","y"],"sources":["a.js","b.js"],"mappings":"AAAAA,IAAIC;ACCA,KAAK"}"#;
const OF_A: &str = r#"{"version":3,"names":["add"],"sources":["a.ts"],"sourcesContent":["let a"],"mappings":"AACEA,IAAE"}"#;
const OF_B: &str = r#"{"version":3,"sources":["b.ts","c.ts"],"ignoreList":[1],"mappings":";ACGC,K"}"#;
/// The bundle, traced through both maps.
const ORIGINALS: &str = r#"{"version":3,"names":["add","y"],"sources":["a.ts","b.ts","c.ts"],"sourcesContent":["let a",null,null],"ignoreList":[2],"mappings":"AACEA,IAAEC;AEEH,K"}"#;
/// A map of the source of `OF_A`, and the bundle, traced through both of these.
const OF_A_TS: &str = r#"{"version":3,"sources":["a.coffee"],"mappings":";AAIA"}"#;
const COFFEE: &str = r#"{"version":3,"names":["add","y"],"sources":["a.coffee","b.js"],"mappings":"AAIAA,IAAAC;ACHI,KAAK"}"#;

/// Maps with source roots, whose sources are relative, absolute, or URLs.
const ROOTED: &str = r#"{"version":3,"sourceRoot":"pkg/a/src","sources":["index.ts","/abs.ts","http://x/y.ts"],"mappings":"AAAA,CCAA,CCAA"}"#;
const ROOTED_TOO: &str = r#"{"version":3,"sourceRoot":"pkg/b/src/","sources":["index.ts"],"mappings":"AAAA"}"#;
/// A map whose source has the path `lib/a.js`.
const ROOTED_JS: &str = r#"{"version":3,"sourceRoot":"lib","sources":["a.js"],"mappings":"AAAA"}"#;

/// The words of a plan, its texts, and the JSON text or the error that is answered.
type PlanRow = (
    &'static str,
    &'static [&'static str],
    Result<&'static str, RunError>,
);

/// Plans of a map.
#[rattlefmt::skip]
const MADE: &[PlanRow] = &[
    ("compose @0 @1",
     &[r#"{"version":3,"names":["x"],"sources":["m.js"],"mappings":"AAAAA,GAASA"}"#,
       r#"{"version":3,"names":["y"],"sources":["o.ts"],"mappings":"AAIIA,QACC"}"#],
     Ok(r#"{"version":3,"names":["y","x"],"sources":["o.ts"],"mappings":"AAIIA,GACCC"}"#)),
    ("join 2 @0 0 @1 1", &[A, B], Ok(JOIN)),
    ("rewrite join 2 @0 0 @1 1", &[A, B], Ok(JOIN)),
    ("join 2 @0 0 join 1 @1 1 0", &[A, B], Ok(JOIN)),
    ("join 2 @0 0 @1 1",
     &[r#"{"version":3,"sources":["a.js"],"mappings":"AAAA","ignoreList":[0]}"#,
       r#"{"version":3,"sources":["b.js","c.js"],"mappings":"ACAA","ignoreList":[1]}"#],
     Ok(r#"{"version":3,"names":[],"sources":["a.js","b.js","c.js"],"ignoreList":[0,2],"mappings":"AAAA;AEAA"}"#)),
    ("joinat 2 @0 0 0 @1 0 10",
     &[LEFT, RIGHT],
     Ok(r#"{"version":3,"names":[],"sources":["a.js","b.js"],"mappings":"AAAA,IAAI,MCAJ;AACA"}"#)),
    ("join 0", &[], Ok(r#"{"version":3,"names":[],"sources":[],"mappings":""}"#)),
];

/// A map whose columns go back, with two tokens at one column, and the same sorted.
const BACK: &str = r#"{"version":3,"sources":["a.js"],"mappings":"GAAA,HACA,GACA"}"#;
const SORTED: &str = r#"{"version":3,"names":[],"sources":["a.js"],"mappings":"AACA,GADA,AAEA"}"#;

/// Plans that sort maps.
#[rattlefmt::skip]
const SORTS: &[PlanRow] = &[
    ("sort @0", &[UNSORTED], Ok(r#"{"version":3,"names":[],"sources":[],"mappings":"E,C"}"#)),
    ("sort @0", &[BACK], Ok(SORTED)),
    ("sort @0", &[JOIN], Ok(JOIN)),
    ("rewrite sort @0", &[BACK], Ok(SORTED)),
    ("join 2 sort @0 0 sort @1 1",
     &[UNSORTED, B],
     Ok(r#"{"version":3,"names":[],"sources":["b.js"],"mappings":"E,C;AAOC"}"#)),
    // The second section begins before the greatest column of the first one.
    ("sort @0",
     &[r#"{"version":3,"file":"f","sections":[{"offset":{"line":0,"column":0},"map":{"version":3,"sources":["a.js"],"mappings":"GAAA,HACA"}},{"offset":{"line":0,"column":1},"map":{"version":3,"sources":["b.js"],"mappings":"AAOC"}}]}"#],
     Ok(r#"{"version":3,"file":"f","names":[],"sources":["a.js","b.js"],"mappings":"AACA,CCMC,EDPD"}"#)),
    ("sort @0", &["{"], Err(RunError::Plan(PlanError::Map(Error::BadJson(JsonFault::Reading))))),
    ("sort @0",
     &[r#"{"version":3,"sections":[{"offset":{"line":1,"column":0},"map":{"version":3,"sources":[],"mappings":""}},{"offset":{"line":0,"column":0},"map":{"version":3,"sources":[],"mappings":""}}]}"#],
     Err(RunError::Plan(PlanError::Map(Error::SectionOrder(1))))),
    ("join 2 sort @0 0 @0 1", &[UNSORTED], Err(RunError::Plan(PlanError::Unsorted))),
    ("sort", &["{}"], Err(RunError::Arguments)),
    ("sort @1", &["{}"], Err(RunError::NoText(1))),
    ("sort join 0", &["{}"], Err(RunError::Arguments)),
    ("sort sort @0", &["{}"], Err(RunError::Arguments)),
    ("sort @0 @0", &["{}"], Err(RunError::Arguments)),
];

/// Plans that remap maps and apply source roots.
#[rattlefmt::skip]
const REMADE: &[PlanRow] = &[
    ("remap @0 2 a.js @1 b.js @2", &[BUNDLE, OF_A, OF_B], Ok(ORIGINALS)),
    ("remap @0 2 b.js @2 a.js @1", &[BUNDLE, OF_A, OF_B], Ok(ORIGINALS)),
    ("remap @0 0", &[BUNDLE], Ok(BUNDLE)),
    ("remap @0 1 c.js @1", &[BUNDLE, OF_A], Ok(BUNDLE)),
    // Of inputs for one path the first counts.
    ("remap @0 3 a.js @1 b.js @2 a.js @2", &[BUNDLE, OF_A, OF_B], Ok(ORIGINALS)),
    // Paths are taken as they are, also if they are words of plans.
    ("remap @0 2 rewrite @1 @1 @2",
     &[r#"{"version":3,"sources":["rewrite","@1"],"mappings":"AAAA;ACAA"}"#, OF_A, OF_B],
     Ok(r#"{"version":3,"names":["add"],"sources":["a.ts","b.ts","c.ts"],"sourcesContent":["let a",null,null],"ignoreList":[2],"mappings":"AACEA;A"}"#)),
    ("remap remap @0 1 a.js @1 1 a.ts @2", &[BUNDLE, OF_A, OF_A_TS], Ok(COFFEE)),
    ("remap @0 1 a.js remap @1 1 a.ts @2", &[BUNDLE, OF_A, OF_A_TS], Ok(COFFEE)),
    ("remap join 2 @0 0 @0 3 1 a.js @1",
     &[BUNDLE, OF_A],
     Ok(r#"{"version":3,"names":["add","y"],"sources":["a.ts","b.js","a.ts","b.js"],"sourcesContent":["let a",null,"let a",null],"mappings":"AACEA,IAAEC;ACAA,KAAK;;ACAPD,IAAEC;ACAA,KAAK"}"#)),
    // A module that stands for two sources, and one that stays, each with its content.
    ("remap @0 1 a.js @1",
     &[r#"{"version":3,"sources":["a.js","b.js","a.js"],"sourcesContent":[null,"let b"],"mappings":"AAAA,ICAA,ICAA"}"#, OF_A],
     Ok(r#"{"version":3,"names":["add"],"sources":["a.ts","b.js","a.ts"],"sourcesContent":["let a","let b","let a"],"mappings":"AACEA,ICDF,ICCEA"}"#)),
    ("root @0",
     &[ROOTED],
     Ok(r#"{"version":3,"names":[],"sources":["pkg/a/src/index.ts","/abs.ts","http://x/y.ts"],"mappings":"AAAA,CCAA,CCAA"}"#)),
    ("root @0", &[A], Ok(r#"{"version":3,"names":[],"sources":["a.js"],"mappings":"AAKG,I"}"#)),
    // A join drops source roots that are not applied.
    ("join 2 root @0 0 root @1 1",
     &[ROOTED, ROOTED_TOO],
     Ok(r#"{"version":3,"names":[],"sources":["pkg/a/src/index.ts","/abs.ts","http://x/y.ts","pkg/b/src/index.ts"],"mappings":"AAAA,CCAA,CCAA;ACAA"}"#)),
    ("join 2 @0 0 @1 1",
     &[ROOTED, ROOTED_TOO],
     Ok(r#"{"version":3,"names":[],"sources":["index.ts","/abs.ts","http://x/y.ts","index.ts"],"mappings":"AAAA,CCAA,CCAA;ACAA"}"#)),
    // Inputs are for the paths as they stand.
    ("remap root @0 1 lib/a.js @1",
     &[ROOTED_JS, OF_A],
     Ok(r#"{"version":3,"names":["add"],"sources":["a.ts"],"sourcesContent":["let a"],"mappings":"AACEA"}"#)),
    ("remap @0 1 lib/a.js @1",
     &[ROOTED_JS, OF_A],
     Ok(r#"{"version":3,"names":[],"sources":["a.js"],"mappings":"AAAA"}"#)),
];

/// A map with tokens, names and sources that its traces do not need, and the same without them.
const FULL: &str = r#"{"version":3,"file":"out.js","sourceRoot":"lib","names":["x","y","x"],"sources":["a.js","b.js","a.js"],"sourcesContent":["let a",null,"let a"],"ignoreList":[2],"mappings":"AACEA,IEAAE,G,E;AAEF"}"#;
const SIMPLE: &str = r#"{"version":3,"file":"out.js","sourceRoot":"lib","names":["x"],"sources":["a.js","a.js"],"sourcesContent":["let a","let a"],"ignoreList":[1],"mappings":"AACEA,O;ACEF"}"#;

/// Plans that simplify maps; what they answer is by `tests/reference/simplified.py`.
#[rattlefmt::skip]
const SIMPLIFIED: &[PlanRow] = &[
    ("simplify @0", &[FULL], Ok(SIMPLE)),
    ("simplify simplify @0", &[FULL], Ok(SIMPLE)),
    ("simplify rewrite @0", &[FULL], Ok(SIMPLE)),
    ("simplify @0", &[A], Ok(r#"{"version":3,"names":[],"sources":["a.js"],"mappings":"AAKG,I"}"#)),
    // The first token at column 5 goes, and the second one moves.
    ("simplify @0",
     &[r#"{"version":3,"sources":["a.js"],"mappings":"AACA,KAAA,AACA"}"#],
     Ok(r#"{"version":3,"names":[],"sources":["a.js"],"mappings":"AACA,MACA"}"#)),
    // It would move past the last column.
    ("simplify @0",
     &[r#"{"version":3,"sources":["a.js"],"mappings":"AACA,+/////HAAA,AACA"}"#],
     Err(RunError::Plan(PlanError::Map(Error::TooLarge)))),
    // A join lists the sources of each part, and so does a join of simplified parts.
    ("simplify join 2 @0 0 @0 2",
     &[FULL],
     Ok(r#"{"version":3,"names":["x"],"sources":["a.js","a.js"],"sourcesContent":["let a","let a"],"ignoreList":[1],"mappings":"AACEA,O;ACEF;ADFEA,O;ACEF"}"#)),
    ("join 2 simplify @0 0 simplify @0 2",
     &[FULL],
     Ok(r#"{"version":3,"names":["x","x"],"sources":["a.js","a.js","a.js","a.js"],"sourcesContent":["let a","let a","let a","let a"],"ignoreList":[1,3],"mappings":"AACEA,O;ACEF;ACFEC,O;ACEF"}"#)),
    ("simplify remap @0 2 a.js @1 b.js @2",
     &[BUNDLE, OF_A, OF_B],
     Ok(r#"{"version":3,"names":["add","y"],"sources":["a.ts","c.ts"],"sourcesContent":["let a",null],"ignoreList":[1],"mappings":"AACEA,IAAEC;ACEH,K"}"#)),
    // A map that is not sorted has its error before it is simplified.
    ("simplify sort @0", &[BACK], Ok(SORTED)),
    ("simplify @0", &[BACK], Err(RunError::Plan(PlanError::Unsorted))),
    ("simplify @0", &["{"], Err(RunError::Plan(PlanError::Map(Error::BadJson(JsonFault::Reading))))),
    ("simplify compose @0 @1",
     &[FULL, BACK],
     Err(RunError::Plan(PlanError::Unsorted))),
    ("simplify compose @0 @0", &[FULL], Err(RunError::Plan(PlanError::Map(Error::SeveralSources(3))))),
    ("simplify", &["{}"], Err(RunError::Arguments)),
    ("simplify @1", &["{}"], Err(RunError::NoText(1))),
    ("simplify @0 @0", &["{}"], Err(RunError::Arguments)),
];

/// Plans whose maps have an error.
#[rattlefmt::skip]
const FAULTY: &[PlanRow] = &[
    ("joinat 2 @0 0 0 @1 0 3", &[LEFT, RIGHT], Err(RunError::Plan(PlanError::Unsorted))),
    ("joinat 1 @0 0 4294967295",
     &[r#"{"version":3,"sources":[],"mappings":"C"}"#],
     Err(RunError::Plan(PlanError::Map(Error::TooLarge)))),
    ("@0", &[UNSORTED], Err(RunError::Plan(PlanError::Unsorted))),
    ("join 2 @0 1 @1 0", &[A, B], Err(RunError::Plan(PlanError::Unsorted))),
    // The first part of a remapping comes before its inputs, and these in order, also one that is for no source.
    ("remap @0 1 a.js @1", &[UNSORTED, "{"], Err(RunError::Plan(PlanError::Unsorted))),
    ("remap @0 2 a.js @1 b.js @2", &[BUNDLE, UNSORTED, "{"], Err(RunError::Plan(PlanError::Unsorted))),
    ("remap @0 2 a.js @2 b.js @1",
     &[BUNDLE, UNSORTED, "{"],
     Err(RunError::Plan(PlanError::Map(Error::BadJson(JsonFault::Reading))))),
    ("remap @0 1 c.js @1",
     &[BUNDLE, "{"],
     Err(RunError::Plan(PlanError::Map(Error::BadJson(JsonFault::Reading))))),
    ("root @0", &[UNSORTED], Err(RunError::Plan(PlanError::Unsorted))),
    ("compose @0 @0",
     &[r#"{"version":3,"sources":["a","b"],"mappings":""}"#],
     Err(RunError::Plan(PlanError::Map(Error::SeveralSources(2))))),
    ("join 1 @0 4294967295",
     &[r#"{"version":3,"sources":[],"mappings":";A"}"#],
     Err(RunError::Plan(PlanError::Map(Error::TooLarge)))),
    // All parts of a join are evaluated before the first is added.
    ("join 2 @0 4294967295 @1 0",
     &[r#"{"version":3,"sources":[],"mappings":";A"}"#, "{"],
     Err(RunError::Plan(PlanError::Map(Error::BadJson(JsonFault::Reading))))),
];

/// Words and inputs that are no plan.
#[rattlefmt::skip]
const MISREAD: &[PlanRow] = &[
    ("joinat 1 @0 0", &[LEFT, RIGHT], Err(RunError::Arguments)),
    // A line of three dashes and a carriage return parts no texts.
    ("@1", &["{}\n---\r\n{}"], Err(RunError::NoText(1))),
    ("@1", &[UNSORTED], Err(RunError::NoText(1))),
    ("join 1 @0", &[UNSORTED], Err(RunError::Arguments)),
    ("@0 @0", &["{}"], Err(RunError::Arguments)),
    ("@", &["{}"], Err(RunError::Arguments)),
    ("", &["{}"], Err(RunError::Arguments)),
    ("root", &["{}"], Err(RunError::Arguments)),
    ("remap @0", &["{}"], Err(RunError::Arguments)),
    ("remap @0 1", &["{}"], Err(RunError::Arguments)),
    ("remap @0 1 a.js", &["{}"], Err(RunError::Arguments)),
    ("remap @0 a.js @0", &["{}"], Err(RunError::Arguments)),
    ("remap @0 1 @0 a.js", &["{}"], Err(RunError::Arguments)),
    ("remap @0 1 a.js @1 @0", &["{}"], Err(RunError::NoText(1))),
    ("remap @0 1 a.js @0 b.js @0", &["{}"], Err(RunError::Arguments)),
];

fn plans() -> [&'static [PlanRow]; 6] {
    [MADE, SORTS, REMADE, SIMPLIFIED, FAULTY, MISREAD]
}

/// The input of these texts.
fn input_of(alloc: Global, texts: &[&str]) -> Result<String, AllocError> {
    let mut input = String::new(alloc);
    for text in texts {
        if !input.is_empty() {
            input.push_str("\n---\n")?;
        }
        input.push_str(text)?;
    }
    Ok(input)
}

/// The words before the first plan, and those of the plan.
fn words_of<'w>(
    alloc: Global,
    first: &[&'w str],
    plan: &'w str,
) -> Result<Vec<&'w str>, AllocError> {
    let mut words = first.to_vec(alloc)?;
    if !plan.is_empty() {
        for word in plan.split(' ') {
            words.push(word)?;
        }
    }
    Ok(words)
}

/// The JSON text of the map of the plan that words name.
fn evaluated(alloc: Global, words: &[String], input: &str) -> Result<String, RunError> {
    let texts = inputs_of(alloc, input)?;
    let plan = read_plan(alloc, texts.as_slice(), words)?;
    Ok(evaluate(alloc, &plan)?.to_json_string(alloc)?)
}

fn is_evaluated(rt: &impl Abort, alloc: Global, row: &PlanRow) -> Result<(), AllocError> {
    let (plan, texts, want) = *row;
    let words = words_of(alloc, &[], plan)?;
    let words = strings(alloc, words.as_slice())?;
    let input = input_of(alloc, texts)?;
    match &evaluated(alloc, words.as_slice(), input.as_str()) {
        Ok(text) => same(rt, plan, Ok(text.as_str()), want),
        Err(error) => same(rt, plan, Err(*error), want),
    }
    Ok(())
}

#[test]
fn plans_are_evaluated(rt: HostRuntime) -> Result<(), AllocError> {
    for rows in plans() {
        for row in rows {
            is_evaluated(&rt, rt.alloc(), row)?;
        }
    }
    Ok(())
}

/// The program is run with the words after `plan`.
fn is_run(rt: &impl Abort, alloc: Global, row: &PlanRow) -> Result<(), AllocError> {
    let (plan, texts, want) = *row;
    let words = words_of(alloc, &["plan"], plan)?;
    let input = input_of(alloc, texts)?;
    match want {
        Ok(text) => answers_line(rt, alloc, words.as_slice(), input.as_str(), text),
        Err(error) => answers(rt, alloc, words.as_slice(), input.as_bytes(), Err(error)),
    }
    Ok(())
}

#[test]
fn plans_are_run(rt: HostRuntime) -> Result<(), AllocError> {
    for rows in plans() {
        for row in rows {
            is_run(&rt, rt.alloc(), row)?;
        }
    }
    Ok(())
}

/// The words of a plan that begins so, with so many steps of one part before a text that is not there.
fn steps(
    alloc: Global,
    first: &[&'static str],
    step: &'static str,
    count: u32,
) -> Result<Vec<&'static str>, AllocError> {
    let mut words = vec![in alloc; "plan"]?;
    for word in first {
        words.push(*word)?;
    }
    for _ in 0..count {
        words.push(step)?;
    }
    words.push("@9")?;
    Ok(words)
}

#[test]
fn a_plan_is_at_most_64_deep(rt: HostRuntime) -> Result<(), AllocError> {
    let deep = RunError::Plan(PlanError::TooDeep);
    for (first, step, count, error) in [
        ([].as_slice(), "rewrite", 63, RunError::NoText(9)),
        (&[], "rewrite", 64, deep),
        (&[], "root", 63, RunError::NoText(9)),
        (&[], "root", 64, deep),
        (&["remap"], "rewrite", 62, RunError::NoText(9)),
        (&["remap"], "rewrite", 63, deep),
        (&["remap", "@0", "1", "a.js"], "root", 62, RunError::NoText(9)),
        (&["remap", "@0", "1", "a.js"], "root", 63, deep),
    ] {
        let words = steps(rt.alloc(), first, step, count)?;
        answers(&rt, rt.alloc(), words.as_slice(), b"{}", Err(error));
    }
    Ok(())
}

/// A remapping by one input: so many times a source root is applied to the first part, and to the input.
fn deep_remap(alloc: Global, first: u32, input: u32) -> Result<Plan<'static>, AllocError> {
    let mut map = Plan::Read(A);
    for _ in 0..first {
        map = Plan::ApplyRoot(Box::new(alloc, map)?);
    }
    let mut deep = Plan::Read(B);
    for _ in 0..input {
        deep = Plan::ApplyRoot(Box::new(alloc, deep)?);
    }
    Ok(Plan::Remap(Box::new(alloc, map)?, vec![in alloc; ("a.js", deep)]?))
}

#[test]
fn a_remapping_is_as_deep_as_its_deepest_part(rt: HostRuntime) -> Result<(), PlanError> {
    let alloc = rt.alloc();
    for (first, input, is_deep) in [(62, 62, false), (63, 0, true), (0, 63, true)] {
        let made = evaluate(alloc, &deep_remap(alloc, first, input)?);
        let error = made.err();
        same(&rt, "deep", error, if is_deep { Some(PlanError::TooDeep) } else { None });
    }
    Ok(())
}

#[test]
fn the_input_of_a_plan_is_read_before_its_words(rt: HostRuntime) {
    let words = ["plan", "part"];
    answers(
        &rt,
        rt.alloc(),
        words.as_slice(),
        b"\xff",
        Err(RunError::Utf8),
    );
}

/// A map with a mapped token, joined on line 0, and one with an unmapped token, on line 1.
fn mixed_join(alloc: Global) -> Result<Plan<'static>, AllocError> {
    let mapped = Plan::Read(r#"{"version":3,"sources":["a.js"],"mappings":"AAKG"}"#);
    let unmapped = Plan::Read(r#"{"version":3,"sources":[],"mappings":"A"}"#);
    Ok(Plan::Join(vec![in alloc; (mapped, 0), (unmapped, 1)]?))
}

/// The parts of the map of a plan.
fn parts_of(alloc: Global, plan: &Plan<'_>) -> Result<SourceMapParts<'static>, PlanError> {
    Ok(evaluate(alloc, plan)?.into_parts())
}

fn has_bare_unmapped_tokens_and_chunks(rt: &impl Abort, parts: &SourceMapParts<'_>) {
    let tokens = [
        Token::new(0, 0, 5, 3, Some(0), None),
        Token::new(1, 0, 0, 0, None, None),
    ];
    same(rt, "tokens", &parts.tokens[..], &tokens[..]);
    let wanted = [
        TokenChunk::new(0, 1, 0, 0, 0, 0, 0, 0),
        TokenChunk::new(1, 2, 0, 0, 5, 3, 0, 0),
    ];
    match &parts.token_chunks {
        Some(chunks) => same(rt, "chunks", chunks.as_slice(), &wanted[..]),
        None => assert!(rt; false, "chunks"),
    }
}

#[test]
fn joined_map_has_bare_unmapped_tokens_and_chunks(rt: HostRuntime) -> Result<(), PlanError> {
    let plan = mixed_join(rt.alloc())?;
    has_bare_unmapped_tokens_and_chunks(&rt, &parts_of(rt.alloc(), &plan)?);
    Ok(())
}

fn has_the_tokens_of_its_text_and_no_chunks(rt: &impl Abort, parts: &SourceMapParts<'_>) {
    let tokens = [
        Token::new(0, 0, 5, 3, Some(0), None),
        Token::new(1, 0, 5, 3, None, None),
    ];
    same(rt, "tokens", &parts.tokens[..], &tokens[..]);
    assert!(rt; parts.token_chunks.is_none());
}

#[test]
fn rewritten_map_has_the_tokens_of_its_text_and_no_chunks(
    rt: HostRuntime,
) -> Result<(), PlanError> {
    let plan = Plan::Rewrite(Box::new(rt.alloc(), mixed_join(rt.alloc())?)?);
    has_the_tokens_of_its_text_and_no_chunks(&rt, &parts_of(rt.alloc(), &plan)?);
    Ok(())
}
