//! The scopes of a map: what their texts mean, the first fault of each that means nothing, and the frames at a position. The rows are
//! worked by hand from the rules. tools/compare/scopes compares random texts with another implementation.
use crate::helpers::same;
use oxc_sourcemap::{CallSite, GeneratedRange, OriginalScope, ScopeChainEntry, ScopeFrame, Scopes, ScopesError, ScopesFault};
use oxc_sourcemap::{ScopesFaultKind, decode_scopes};
use oxc_sourcemap::read_scopes;
use std::alloc::Global;
use std::process::Abort;

const MAX: u32 = 4294967295;

/// A position: a line and a column.
type At = (u32, u32);

/// A source, a line and a column.
type Place = (u32, u32, u32);

/// A scope: its source, start and end, the indices of its name and its kind, whether it is a stack frame, and its parent.
type Scope = (u32, At, At, (Option<u32>, Option<u32>, bool), Option<usize>);

/// A range: its start and end, its definition, whether it is a stack frame and hidden, its call site, and its parent.
type Range = (At, At, (Option<u32>, bool, bool), Option<Place>, Option<usize>);

/// A text, how many names there are, how many sources, their scopes, and the ranges.
type Row = (&'static str, usize, u32, &'static [Scope], &'static [Range]);

/// A range that is said nothing of.
const PLAIN: (Option<u32>, bool, bool) = (None, false, false);

/// A scope that is said nothing of.
const BARE: (Option<u32>, Option<u32>, bool) = (None, None, false);

const INLINED: &str = "BCAAC,BHBAEE,DI,CDB,BHBAGA,CCB,CBA,ECAA,EGKC,GH,ECKC,IADE,FK,FK,FBA";

const ROWS: &[Row] = &[
    (
        INLINED,
        7,
        1,
        &[
            (0, (0, 0), (8, 0), (None, Some(1), false), None),
            (0, (1, 0), (4, 1), (Some(2), Some(3), true), Some(0)),
            (0, (5, 0), (7, 1), (Some(5), Some(3), true), Some(0)),
        ],
        &[
            ((0, 0), (1, 0), (Some(0), false, false), None, None),
            ((0, 10), (0, 40), (Some(1), true, false), None, Some(0)),
            ((0, 20), (0, 30), (Some(2), false, false), Some((0, 3, 4)), Some(1)),
        ],
    ),
    ("A,BCCDA,CAG", 1, 2, &[(1, (2, 3), (2, 9), (None, Some(0), false), None)], &[]),
    ("ENDC,FCH", 0, 0, &[], &[((3, 2), (5, 7), (None, true, true), None, None)]),
    (
        "BAAA,DAC,CJA,ECAA,GAD,HBBBE,FCE",
        4,
        1,
        &[(0, (0, 0), (9, 0), BARE, None)],
        &[((0, 0), (2, 4), (Some(0), false, false), None, None)],
    ),
    (
        "BFAAA,CEA,BFBAA,CFA,EGAC,FJ,EGAD,FBC",
        1,
        2,
        &[(0, (0, 0), (4, 0), (Some(0), None, true), None), (1, (1, 0), (6, 0), (Some(0), None, true), None)],
        &[((0, 0), (0, 9), (Some(1), true, false), None, None), ((0, 9), (1, 2), (Some(0), true, false), None, None)],
    ),
    ("", 0, 0, &[], &[]),
    ("A", 0, 1, &[], &[]),
    ("A,A,A", 0, 3, &[], &[]),
    // Further numbers of an item are passed over, and items of other tags: 9, 31, 32 and 99.
    ("AB,BAAAAAC,CAAB", 0, 2, &[(1, (0, 0), (0, 0), BARE, None)], &[]),
    ("EAACC,FABC,J,A,fAB,gB,jDA", 0, 1, &[], &[((0, 0), (0, 1), PLAIN, None, None)]),
    // Digits that add nothing.
    ("gA,BgAhAgA,CgggggAgB", 0, 2, &[(1, (1, 0), (1, 32), BARE, None)], &[]),
    // Columns run on along a line, and count from 0 on a later one.
    (
        "BABC,BAAB,CAB,BAAB,CAD,CBC",
        0,
        1,
        &[(0, (1, 2), (2, 2), BARE, None), (0, (1, 3), (1, 4), BARE, Some(0)), (0, (1, 5), (1, 8), BARE, Some(0))],
        &[],
    ),
    ("EAC,FC,EAC,FBA", 0, 0, &[], &[((0, 2), (0, 4), PLAIN, None, None), ((0, 6), (1, 0), PLAIN, None, None)]),
    // A line may be told that is the same.
    ("EAC,FB,EBAB,FAB", 0, 0, &[], &[((0, 2), (0, 3), PLAIN, None, None), ((0, 4), (0, 5), PLAIN, None, None)]),
    // Ranges run on while a source ends, and may be told of before all scopes are.
    (
        "BAAC,EAC,CAC,FC,BAAC,ECAC,FC,CAC",
        0,
        2,
        &[(0, (0, 2), (0, 4), BARE, None), (1, (0, 2), (0, 4), BARE, None)],
        &[((0, 2), (0, 4), PLAIN, None, None), ((0, 4), (0, 6), (Some(1), false, false), None, None)],
    ),
    // Names, kinds and definitions are relative to the last of their own sort, also where others have none.
    (
        "BDAAEC,BAAA,CAA,CAB,BDAADC,CAB",
        4,
        2,
        &[
            (0, (0, 0), (0, 1), (Some(2), Some(1), false), None),
            (0, (0, 0), (0, 0), BARE, Some(0)),
            (1, (0, 0), (0, 1), (Some(1), Some(2), false), None),
        ],
        &[],
    ),
    (
        "BAAA,BAAA,CAA,CAA,ECAC,FA,EAA,FA,ECAA,FA,ECAD,FA",
        0,
        1,
        &[(0, (0, 0), (0, 0), BARE, None), (0, (0, 0), (0, 0), BARE, Some(0))],
        &[
            ((0, 0), (0, 0), (Some(1), false, false), None, None),
            ((0, 0), (0, 0), PLAIN, None, None),
            ((0, 0), (0, 0), (Some(1), false, false), None, None),
            ((0, 0), (0, 0), (Some(0), false, false), None, None),
        ],
    ),
    // Of two call sites the later one is kept; a range that has ended has no part in them.
    (
        "EAA,EAA,IAAA,IBCD,FB,IDEF,FB",
        0,
        0,
        &[],
        &[((0, 0), (0, 2), PLAIN, Some((3, 4, 5)), None), ((0, 0), (0, 1), PLAIN, Some((1, 2, 3)), Some(0))],
    ),
    // The greatest positions.
    (
        "BA//////D//////D,CAA,EB//////D//////D,I+/////D//////D//////D,FA",
        0,
        1,
        &[(0, (MAX, MAX), (MAX, MAX), BARE, None)],
        &[((MAX, MAX), (MAX, MAX), PLAIN, Some((MAX - 1, MAX, MAX)), None)],
    ),
    // The greatest index.
    ("BBAA8/////H,CAA", usize::MAX, 1, &[(0, (0, 0), (0, 0), (Some(MAX - 1), None, false), None)], &[]),
];

fn call_of(call: CallSite) -> Place {
    (call.source, call.line, call.column)
}

fn scope_of(it: OriginalScope) -> Scope {
    let (start, end) = ((it.start.line, it.start.column), (it.end.line, it.end.column));
    (it.source, start, end, (it.name, it.kind, it.is_stack_frame), it.parent)
}

fn range_of(it: GeneratedRange) -> Range {
    let (start, end) = ((it.start.line, it.start.column), (it.end.line, it.end.column));
    (start, end, (it.definition, it.is_stack_frame, it.is_hidden), it.call_site.map(call_of), it.parent)
}

#[test]
fn texts_mean(rt: HostRuntime) -> Result<(), ScopesError> {
    for (text, names, sources, wanted_scopes, wanted_ranges) in ROWS {
        let scopes = decode_scopes(rt.alloc(), *text, *names)?;
        same(&rt, *text, scopes.source_count(), *sources);
        same(&rt, *text, (scopes.scope_count(), scopes.range_count()), (wanted_scopes.len(), wanted_ranges.len()));
        for (i, wanted) in wanted_scopes.iter().enumerate() {
            same(&rt, *text, scopes.get_scope(i).map(scope_of), Some(*wanted));
        }
        for (i, wanted) in wanted_ranges.iter().enumerate() {
            same(&rt, *text, scopes.get_range(i).map(range_of), Some(*wanted));
        }
        for past in [0, 1, usize::MAX - wanted_scopes.len() - wanted_ranges.len()] {
            same(&rt, *text, scopes.get_scope(wanted_scopes.len() + past).map(scope_of), None);
            same(&rt, *text, scopes.get_range(wanted_ranges.len() + past).map(range_of), None);
        }
    }
    Ok(())
}

use ScopesFaultKind::{BadIndex, CutShort, LeftOpen, MissingNumber, NotADigit, NotClosed, NothingOpen, SplitTwice, TooDeep, TooLarge};

/// A text, how many names there are, and its first fault.
const FAULTS: &[(&str, usize, ScopesFaultKind, usize)] = &[
    ("B!AA", 0, NotADigit, 0),
    ("A,A A", 0, NotADigit, 2),
    ("A,Aé,A", 0, NotADigit, 2),
    ("A,A-,A", 0, NotADigit, 2),
    ("A;A", 0, NotADigit, 0),
    ("A=", 0, NotADigit, 0),
    // What is passed over has numbers too.
    ("A,J_", 0, NotADigit, 2),
    ("A,DAg", 0, CutShort, 2),
    ("EAA,GAg,FA", 0, CutShort, 4),
    ("g", 0, CutShort, 0),
    ("A,g,A", 0, CutShort, 2),
    ("BAAg", 0, CutShort, 0),
    ("A,ggggggg", 0, CutShort, 2),
    ("A,AgggggggA", 0, TooLarge, 2),
    ("A,gggggggg", 0, TooLarge, 2),
    ("BAggggggEA,CAA", 0, TooLarge, 0),
    ("BAA//////E,CAA", 0, TooLarge, 0),
    ("BA//////DA,CBA", 0, TooLarge, 11),
    ("BAA//////D,CAB", 0, TooLarge, 11),
    ("EAggggggE,FA", 0, TooLarge, 0),
    ("EBggggggEA,FA", 0, TooLarge, 0),
    ("EA//////D,FB", 0, TooLarge, 10),
    ("EB//////DA,FBA", 0, TooLarge, 11),
    ("EAA,IggggggEAA,FA", 0, TooLarge, 4),
    ("EAA,I//////DAA,FA", 0, TooLarge, 4),
    ("EAA,IAggggggEA,FA", 0, TooLarge, 4),
    ("EAA,IAAggggggE,FA", 0, TooLarge, 4),
    (",", 0, MissingNumber, 0),
    ("A,", 0, MissingNumber, 2),
    ("A,,A", 0, MissingNumber, 2),
    ("B", 0, MissingNumber, 0),
    ("A,BA", 0, MissingNumber, 2),
    ("BAA", 0, MissingNumber, 0),
    ("BBAA", 1, MissingNumber, 0),
    ("BCAA", 1, MissingNumber, 0),
    ("BDAAA", 1, MissingNumber, 0),
    ("BAAA,C", 0, MissingNumber, 5),
    ("BAAA,CA", 0, MissingNumber, 5),
    ("E", 0, MissingNumber, 0),
    ("EA", 0, MissingNumber, 0),
    ("EBA", 0, MissingNumber, 0),
    ("BAAA,CAA,ECA", 0, MissingNumber, 9),
    ("BAAA,CAA,EDAA", 0, MissingNumber, 9),
    ("EAA,F", 0, MissingNumber, 4),
    ("EAA,I", 0, MissingNumber, 4),
    ("EAA,IA", 0, MissingNumber, 4),
    ("EAA,IAA", 0, MissingNumber, 4),
    ("BBAAA", 0, BadIndex, 0),
    ("BBAA+/////H,CAA", usize::MAX, BadIndex, 0),
    ("BBAAE,CAA", 2, BadIndex, 0),
    ("BBAAC,CAA,BBAAF", 2, BadIndex, 10),
    ("BCAAC", 1, BadIndex, 0),
    ("BCAAD", 1, BadIndex, 0),
    ("ECAA", 0, BadIndex, 0),
    ("BAAA,CAA,ECAC", 0, BadIndex, 9),
    ("BAAA,CAA,ECAD", 0, BadIndex, 9),
    // The names of variables and of values.
    ("BAAA,DC,CAA", 1, BadIndex, 5),
    ("BAAA,DD,CAA", 1, BadIndex, 5),
    ("BAAA,DCCC,CAA", 3, BadIndex, 5),
    ("BAAA,DCFE,CAA", 3, BadIndex, 5),
    ("BAAA,D+/////H,CAA", usize::MAX, BadIndex, 5),
    ("EAA,GB,FA", 0, BadIndex, 4),
    ("EAA,GC,FA", 1, BadIndex, 4),
    ("EAA,GAABC,FA", 1, BadIndex, 4),
    ("EAA,GggggggE,FA", usize::MAX, BadIndex, 4),
    // A scope that starts later is none yet.
    ("BAAA,CAA,ECAC,FA,BAAA,CAA", 0, BadIndex, 9),
    ("CAA", 0, NothingOpen, 0),
    ("A,CAA", 0, NothingOpen, 2),
    ("BAAA,CAA,CAA", 0, NothingOpen, 9),
    ("EAA,CAA,FA", 0, NothingOpen, 4),
    ("FA", 0, NothingOpen, 0),
    ("EAA,FA,FA", 0, NothingOpen, 7),
    ("BAAA,FA,CAA", 0, NothingOpen, 5),
    ("IAAA", 0, NothingOpen, 0),
    ("EAA,FA,IAAA", 0, NothingOpen, 7),
    // Sub-ranges of a variable that has no value yet, or has some already; and their numbers.
    ("EAA,HA,FB", 1, BadIndex, 4),
    ("EAA,GB,HB,FB", 1, BadIndex, 7),
    ("EAA,HAAAB,GA,FB", 1, BadIndex, 4),
    ("EAA,GB,HA,HA,FB", 1, SplitTwice, 10),
    ("EAA,GB,HAACB,HAADB,FB", 1, SplitTwice, 13),
    ("EAA,GB,HAAAC,FB", 1, BadIndex, 7),
    ("EAA,GB,H,FB", 1, MissingNumber, 7),
    ("EAA,GB,HAA,FB", 1, MissingNumber, 7),
    ("EAA,GB,HAAB,FB", 1, MissingNumber, 7),
    ("EAA,GB,HAggggggEAA,FB", 1, TooLarge, 7),
    ("HA", 1, NothingOpen, 0),
    ("EAA,GB,FB,HA", 1, NothingOpen, 10),
    ("DA", 1, NothingOpen, 0),
    ("BAAA,CAA,D", 1, NothingOpen, 9),
    ("EAA,DA,FA", 1, NothingOpen, 4),
    ("GA", 1, NothingOpen, 0),
    ("EAA,FA,G", 1, NothingOpen, 7),
    ("BAAA,GA,CAA", 1, NothingOpen, 5),
    ("BAAA,A,CAA", 0, NotClosed, 5),
    ("BAAA", 0, LeftOpen, 4),
    ("BAAA,BAAA,CAA", 0, LeftOpen, 13),
    ("EAA", 0, LeftOpen, 3),
    ("A,EAA,FA,EAA", 0, LeftOpen, 12),
    // The first of two faults.
    ("B,!", 0, MissingNumber, 0),
    ("CAA,FA", 0, NothingOpen, 0),
    ("EAA,g", 0, CutShort, 4),
];

#[test]
fn faults_are_named(rt: HostRuntime) {
    for (text, names, kind, byte) in FAULTS {
        let wanted = ScopesError::Fault(ScopesFault { kind: *kind, byte: *byte });
        match decode_scopes(rt.alloc(), *text, *names) {
            Ok(_) => same(&rt, *text, None, Some(wanted)),
            Err(error) => same(&rt, *text, error, wanted),
        }
    }
}

#[test]
fn faults_are_written(rt: HostRuntime) -> std::result::Result<(), std::test::Fail> {
    let error = ScopesError::Fault(ScopesFault { kind: BadIndex, byte: 9 });
    let text = format!(in rt.alloc(); "{error}")?;
    same(&rt, "message", text.as_str(), "scopes, byte 9: an index leads to no name, scope or value");
    let text = format!(in rt.alloc(); "{}, {}, {}", ScopesError::NotJson, ScopesError::Indexed, ScopesError::NotText)?;
    same(&rt, "messages", text.as_str(), "the text is not JSON, the scopes of an indexed map are not read, `scopes` is no text");
    Ok(())
}

/// The JSON text of a map, and how many sources, scopes and ranges it has, or the error of reading its scopes.
const MAPS: &[(&str, Result<(u32, usize, usize), ScopesError>)] = &[
    (r#"{"scopes":"A,BCCDA,CAG","names":["block"]}"#, Ok((2, 1, 0))),
    (r#"{"version":3,"sources":["a.js"],"mappings":"!","names":["f"],"scopes":"BFAAA,CEA,EGAA,FJ"}"#, Ok((1, 1, 1))),
    (r#"{"scopes":"ENDC,FCH"}"#, Ok((0, 0, 1))),
    (r#"{"scopes":""}"#, Ok((0, 0, 0))),
    (r#"{"scopes":null,"names":["f"]}"#, Ok((0, 0, 0))),
    (r#"{"version":3,"sources":[],"names":[],"mappings":""}"#, Ok((0, 0, 0))),
    // The last of members of one name counts.
    (r#"{"scopes":"!","scopes":"A"}"#, Ok((1, 0, 0))),
    ("[]", Ok((0, 0, 0))),
    // Names that are not there: none, no list, too few.
    (r#"{"scopes":"BBAAA,CAA"}"#, Err(ScopesError::Fault(ScopesFault { kind: BadIndex, byte: 0 }))),
    (r#"{"scopes":"BBAAA,CAA","names":{"0":"f"}}"#, Err(ScopesError::Fault(ScopesFault { kind: BadIndex, byte: 0 }))),
    (r#"{"scopes":"A,BBAAC,CAA","names":["f"]}"#, Err(ScopesError::Fault(ScopesFault { kind: BadIndex, byte: 2 }))),
    // An escape is read before the item.
    (r#"{"scopes":"\u0041,A!"}"#, Err(ScopesError::Fault(ScopesFault { kind: NotADigit, byte: 2 }))),
    (r#"{"sections":[],"scopes":["A"]}"#, Err(ScopesError::Indexed)),
    (r#"{"sections":0}"#, Err(ScopesError::Indexed)),
    (r#"{"sections":null,"scopes":"A"}"#, Ok((1, 0, 0))),
    (r#"{"scopes":["A"]}"#, Err(ScopesError::NotText)),
    (r#"{"scopes":0}"#, Err(ScopesError::NotText)),
    (r#"{"scopes":true}"#, Err(ScopesError::NotText)),
    (r#"{"scopes":{}}"#, Err(ScopesError::NotText)),
    ("", Err(ScopesError::NotJson)),
    (r#"{"scopes":"A"#, Err(ScopesError::NotJson)),
    (r#"{"scopes":"A"},"#, Err(ScopesError::NotJson)),
];

#[test]
fn maps_have_scopes(rt: HostRuntime) {
    for (json, wanted) in MAPS {
        let read = read_scopes(rt.alloc(), *json);
        let found = read.map(|it| (it.source_count(), it.scope_count(), it.range_count()));
        same(&rt, *json, found, *wanted);
    }
}

/// A text, how many names there are, the variables of each scope, and the values in each range.
type Bound = (&'static str, usize, &'static [&'static [u32]], &'static [&'static [Option<u32>]]);

const BOUND: &[Bound] = &[
    (INLINED, 7, &[&[], &[4], &[]], &[&[], &[Some(6)], &[]]),
    ("BAAA,DAC,CJA,ECAA,GAD,FCE", 4, &[&[0, 1]], &[&[None, Some(2)]]),
    // Of several items the variables add up, also around those of another scope; all are relative to the last one, over all sources.
    ("BAAA,DC,BAAA,DCD,CAA,DA,CBA,BAAA,DEF,CAB", 5, &[&[1, 1], &[2, 1], &[3, 1]], &[]),
    // So do values, which are not relative. There may be more than variables, or none.
    ("EAA,GBA,EAA,GCAD,FB,GD,FB", 3, &[], &[&[Some(0), None, Some(2)], &[Some(1), None, Some(2)]]),
    ("BAAA,D,DAA,CAA", 1, &[&[0, 0]], &[]),
    ("EAA,G,FB", 0, &[], &[&[]]),
    ("EAA,GB,FA", 1, &[], &[&[Some(0)]]),
    // A name and a variable are each relative to the last of their own sort.
    ("BBAAC,DAA,CAA,BBAAA,DC,CAA", 2, &[&[0, 0], &[1]], &[]),
    // The greatest index.
    ("BAAA,D8/////H,CAA,EAA,G//////D,FA", usize::MAX, &[&[MAX - 1]], &[&[Some(MAX - 1)]]),
];

#[test]
fn variables_have_values(rt: HostRuntime) -> Result<(), ScopesError> {
    for (text, names, variables, values) in BOUND {
        let scopes = decode_scopes(rt.alloc(), *text, *names)?;
        same(&rt, *text, (scopes.scope_count(), scopes.range_count()), (variables.len(), values.len()));
        for (i, wanted) in variables.iter().enumerate() {
            same(&rt, *text, scopes.get_variables(i), Some(*wanted));
        }
        for (i, wanted) in values.iter().enumerate() {
            same(&rt, *text, scopes.value_count(i), wanted.len());
            for (k, wanted) in wanted.iter().enumerate() {
                same(&rt, *text, scopes.get_value(i, k), *wanted);
            }
            same(&rt, *text, scopes.get_value(i, wanted.len()), None);
        }
        same(&rt, *text, scopes.get_variables(variables.len()), None);
        same(&rt, *text, scopes.get_variables(usize::MAX), None);
        same(&rt, *text, (scopes.value_count(values.len()), scopes.get_value(values.len(), 0)), (0, None));
    }
    Ok(())
}

/// A text, how many names there are, a range, a variable, a position, and the value there.
const PIECES: &[(&str, usize, usize, usize, At, Option<u32>)] = &[
    ("BAAA,DAC,CJA,ECAA,GAD,HBBBE,FCE", 4, 0, 0, (1, 1), None),
    ("BAAA,DAC,CJA,ECAA,GAD,HBBBE,FCE", 4, 0, 1, (0, 0), Some(2)),
    ("BAAA,DAC,CJA,ECAA,GAD,HBBBE,FCE", 4, 0, 1, (1, 0), Some(2)),
    ("BAAA,DAC,CJA,ECAA,GAD,HBBBE,FCE", 4, 0, 1, (1, 1), Some(3)),
    ("BAAA,DAC,CJA,ECAA,GAD,HBBBE,FCE", 4, 0, 1, (2, 3), Some(3)),
    ("EAC,GBC,HBACAADA,HAACD,FK", 3, 0, 0, (0, 3), Some(0)),
    ("EAC,GBC,HBACAADA,HAACD,FK", 3, 0, 0, (0, 4), Some(2)),
    ("EAC,GBC,HBACAADA,HAACD,FK", 3, 0, 1, (0, 3), Some(1)),
    ("EAC,GBC,HBACAADA,HAACD,FK", 3, 0, 1, (0, 4), None),
    ("EAC,GBC,HBACAADA,HAACD,FK", 3, 0, 1, (0, 7), None),
    ("EAC,GBC,HBACAADA,HAACD,FK", 3, 0, 2, (0, 4), None),
    ("EAC,GBC,HBACAADA,HAACD,FK", 3, 1, 0, (0, 4), None),
    // Around another range, and from its start on.
    ("EAC,GAA,HABAB,EAA,GA,HAAAB,FB,HBACC,FCA", 3, 0, 0, (0, 9), None),
    ("EAC,GAA,HABAB,EAA,GA,HAAAB,FB,HBACC,FCA", 3, 0, 0, (1, 0), Some(0)),
    ("EAC,GAA,HABAB,EAA,GA,HAAAB,FB,HBACC,FCA", 3, 0, 1, (0, 3), None),
    ("EAC,GAA,HABAB,EAA,GA,HAAAB,FB,HBACC,FCA", 3, 0, 1, (0, 4), Some(1)),
    ("EAC,GAA,HABAB,EAA,GA,HAAAB,FB,HBACC,FCA", 3, 1, 0, (0, 2), Some(0)),
    ("EAA,GB,HA,FB", 1, 0, 0, (0, 0), Some(0)),
];

#[test]
fn values_have_pieces(rt: HostRuntime) -> Result<(), ScopesError> {
    for (text, names, range, variable, (line, column), wanted) in PIECES {
        let scopes = decode_scopes(rt.alloc(), *text, *names)?;
        same(&rt, *text, scopes.value_at(*range, *variable, *line, *column), *wanted);
    }
    Ok(())
}

/// A frame: the scope that names it, and its call site.
type Frame = (Option<usize>, Option<Place>);

/// A text, how many names there are, a position, whether the frame is hidden, the innermost range, and the frames.
type Asked = (&'static str, usize, At, bool, Option<usize>, &'static [Frame]);

/// f in a source, g and in it h in another; ranges of f, and in it g and h inlined, and in that a block.
const TWICE: &str = "BFAAA,CCA,BFAAC,BFBAC,CBA,CBA,EGAA,ECCC,IABE,ECCC,IBCA,ECCA,FC,FC,FC,FC";

const IN_H: &[Frame] = &[(Some(2), None), (Some(1), Some((1, 2, 0))), (Some(0), Some((0, 1, 4)))];
const IN_G: &[Frame] = &[(Some(1), None), (Some(0), Some((0, 1, 4)))];
const IN_INNER: &[Frame] = &[(Some(2), None), (Some(1), Some((0, 3, 4)))];

const FRAMES: &[Asked] = &[
    ("", 0, (0, 0), false, None, &[]),
    (INLINED, 7, (0, 0), false, Some(0), &[(None, None)]),
    (INLINED, 7, (0, 9), false, Some(0), &[(None, None)]),
    (INLINED, 7, (0, 10), false, Some(1), &[(Some(1), None)]),
    (INLINED, 7, (0, 15), false, Some(1), &[(Some(1), None)]),
    (INLINED, 7, (0, 19), false, Some(1), &[(Some(1), None)]),
    (INLINED, 7, (0, 20), false, Some(2), IN_INNER),
    (INLINED, 7, (0, 25), false, Some(2), IN_INNER),
    (INLINED, 7, (0, 29), false, Some(2), IN_INNER),
    (INLINED, 7, (0, 30), false, Some(1), &[(Some(1), None)]),
    (INLINED, 7, (0, 40), false, Some(0), &[(None, None)]),
    (INLINED, 7, (0, MAX), false, Some(0), &[(None, None)]),
    (INLINED, 7, (1, 0), false, None, &[]),
    (INLINED, 7, (MAX, MAX), false, None, &[]),
    (TWICE, 3, (0, 1), false, Some(0), &[(Some(0), None)]),
    (TWICE, 3, (0, 2), false, Some(1), IN_G),
    (TWICE, 3, (0, 5), false, Some(2), IN_H),
    (TWICE, 3, (0, 7), false, Some(3), IN_H),
    (TWICE, 3, (0, 8), false, Some(2), IN_H),
    (TWICE, 3, (0, 11), false, Some(1), IN_G),
    (TWICE, 3, (0, 13), false, Some(0), &[(Some(0), None)]),
    (TWICE, 3, (0, 14), false, None, &[]),
    // A helper; one that holds a frame, and a range in it that is none.
    ("ENDC,FCH", 0, (3, 1), false, None, &[]),
    ("ENDC,FCH", 0, (3, 2), true, Some(0), &[(None, None)]),
    ("ENDC,FCH", 0, (4, 0), true, Some(0), &[(None, None)]),
    ("ENDC,FCH", 0, (5, 7), false, None, &[]),
    ("EMA,EEA,FB,EAA,FB,FB", 0, (0, 0), false, Some(1), &[(None, None)]),
    ("EMA,EEA,FB,EAA,FB,FB", 0, (0, 1), true, Some(2), &[(None, None)]),
    ("EMA,EEA,FB,EAA,FB,FB", 0, (0, 2), true, Some(0), &[(None, None)]),
    // It is hidden, and no frame of the stack.
    ("EIA,FB", 0, (0, 0), false, Some(0), &[(None, None)]),
    // The call site of a frame of the stack is not looked at; without a frame of the stack all are.
    ("EEA,IAAA,FB", 0, (0, 0), false, Some(0), &[(None, None)]),
    ("EAA,IAAA,EAA,IABC,FB,FB", 0, (0, 0), false, Some(1), &[(None, None), (None, Some((0, 1, 2))), (None, Some((0, 0, 0)))]),
    // A source that is not there, and a scope whose function is around it.
    ("EAA,IFAA,FB", 0, (0, 0), false, Some(0), &[(None, None), (None, Some((5, 0, 0)))]),
    ("BEAA,BAAB,CAB,CAB,ECAC,IAAB,FB", 0, (0, 0), false, Some(0), &[(Some(0), None), (Some(0), Some((0, 0, 1)))]),
    // A range without a place contains none, and of two that meet the later has the place.
    ("EAA,FA", 0, (0, 0), false, None, &[]),
    ("EAA,FC,EAA,FC", 0, (0, 2), false, Some(1), &[(None, None)]),
    ("EAA,EAA,FB,FA,EAA,FA", 0, (0, 0), false, Some(1), &[(None, None)]),
];

fn frame_of(frame: ScopeFrame) -> Frame {
    (frame.scope, frame.call_site.map(call_of))
}

#[test]
fn positions_stand_for_frames(rt: HostRuntime) -> Result<(), ScopesError> {
    for (text, names, (line, column), is_hidden, range, wanted) in FRAMES {
        let scopes = decode_scopes(rt.alloc(), *text, *names)?;
        let what = format!(in rt.alloc(); "{text} at {line}:{column}").unwrap_or(String::new(rt.alloc()));
        let what = what.as_str();
        same(&rt, what, scopes.range_at(*line, *column), *range);
        let found = scopes.frames_at(rt.alloc(), *line, *column)?;
        same(&rt, what, (found.frames.len(), found.is_hidden), (wanted.len(), *is_hidden));
        for (frame, wanted) in found.frames.iter().zip(*wanted) {
            same(&rt, what, frame_of(*frame), *wanted);
        }
    }
    Ok(())
}

/// A text, how many names there are, a place of a source, the innermost scope, and the function.
const PLACES: &[(&str, usize, Place, Option<usize>, Option<usize>)] = &[
    ("", 0, (0, 0, 0), None, None),
    (INLINED, 7, (0, 0, 0), Some(0), None),
    (INLINED, 7, (0, 1, 0), Some(1), Some(1)),
    (INLINED, 7, (0, 4, 0), Some(1), Some(1)),
    (INLINED, 7, (0, 4, 1), Some(0), None),
    (INLINED, 7, (0, 5, 0), Some(2), Some(2)),
    (INLINED, 7, (0, 7, 1), Some(0), None),
    (INLINED, 7, (0, 7, MAX), Some(0), None),
    (INLINED, 7, (0, 8, 0), None, None),
    (INLINED, 7, (1, 1, 0), None, None),
    (INLINED, 7, (MAX, 0, 0), None, None),
    (TWICE, 3, (0, 1, 0), Some(0), Some(0)),
    (TWICE, 3, (0, 2, 0), None, None),
    (TWICE, 3, (1, 1, 0), Some(2), Some(2)),
    (TWICE, 3, (1, 2, 0), Some(1), Some(1)),
    ("A,BCCDA,CAG", 1, (0, 2, 3), None, None),
    ("A,BCCDA,CAG", 1, (1, 2, 2), None, None),
    ("A,BCCDA,CAG", 1, (1, 2, 3), Some(0), None),
    ("A,BCCDA,CAG", 1, (1, 2, 9), None, None),
    // A block in a function, two scopes that start as one, two that meet, and one without a place.
    ("BEAA,BAAB,CAB,CAB", 0, (0, 0, 1), Some(1), Some(0)),
    ("BAAA,BAAA,CAB,CAB", 0, (0, 0, 0), Some(1), None),
    ("BAAA,BEAA,CAB,BEAA,CAB,CAA", 0, (0, 0, 1), Some(2), Some(2)),
    ("BAAA,BEAA,CAA,CAB", 0, (0, 0, 0), Some(0), None),
];

#[test]
fn places_are_in_scopes(rt: HostRuntime) -> Result<(), ScopesError> {
    for (text, names, (source, line, column), scope, function) in PLACES {
        let scopes = decode_scopes(rt.alloc(), *text, *names)?;
        let found = (scopes.scope_at(*source, *line, *column), scopes.function_at(*source, *line, *column));
        same(&rt, *text, found, (*scope, *function));
    }
    Ok(())
}

/// One more is the most that may be nested.
const DEPTH: usize = 1023;

/// The same item many times, each behind a comma.
fn repeat(text: &mut String, item: &str, times: usize) -> Result<(), ScopesError> {
    for _ in 0..times {
        text.push_str(item)?;
    }
    Ok(())
}

/// Each scope and each range starts a column after the one around it, and ends a column before that does. The outermost scope is a
/// function, and each range is the body of a call in it.
fn deep(alloc: Global) -> Result<Scopes, ScopesError> {
    let mut text = String::new(alloc);
    text.push_str("A,BEAA")?;
    repeat(&mut text, ",BAAB", DEPTH)?;
    repeat(&mut text, ",CAB", DEPTH)?;
    text.push_str(",CAB")?;
    repeat(&mut text, ",ECBA,IBAA", DEPTH)?;
    repeat(&mut text, ",FB", DEPTH)?;
    decode_scopes(alloc, text.as_str(), 0)
}

#[test]
fn deep_trees_are_read(rt: HostRuntime) -> Result<(), ScopesError> {
    let scopes = deep(rt.alloc())?;
    let count = DEPTH as u32;
    same(&rt, "counts", (scopes.source_count(), scopes.scope_count(), scopes.range_count()), (2, DEPTH + 1, DEPTH));
    same(&rt, "outermost", scopes.get_scope(0).map(scope_of), Some((1, (0, 0), (0, 2 * count + 1), (None, None, true), None)));
    let innermost = (1, (0, count), (0, count + 1), BARE, Some(DEPTH - 1));
    same(&rt, "innermost", scopes.get_scope(DEPTH).map(scope_of), Some(innermost));
    for i in [0, 1, 2, count / 2, count - 1, count] {
        same(&rt, "scope", scopes.scope_at(1, 0, i), Some(i as usize));
        same(&rt, "scope after", scopes.scope_at(1, 0, 2 * count - i), Some(i as usize));
        same(&rt, "function", scopes.function_at(1, 0, i), Some(0));
    }
    same(&rt, "past", (scopes.scope_at(1, 0, 2 * count + 1), scopes.scope_at(0, 0, 0)), (None, None));
    let found = scopes.frames_at(rt.alloc(), 0, count)?;
    same(&rt, "frames", (found.frames.len(), found.is_hidden), (DEPTH + 1, false));
    for frame in found.frames.iter().skip(1) {
        same(&rt, "caller", frame_of(*frame), (Some(0), Some((1, 0, 0))));
    }
    Ok(())
}

/// The fault of a text that begins with an item, and has another many times.
fn fault_of(alloc: Global, first: &str, item: &str, times: usize) -> Result<Option<ScopesFault>, ScopesError> {
    let mut text = String::new(alloc);
    text.push_str(first)?;
    repeat(&mut text, item, times)?;
    match decode_scopes(alloc, text.as_str(), 0) {
        Err(ScopesError::Fault(fault)) => Ok(Some(fault)),
        Err(error) => Err(error),
        Ok(_) => Ok(None),
    }
}

/// A text of any depth ends without a deep stack, at the first item past the limit.
#[test]
fn deeper_trees_are_refused(rt: HostRuntime) -> Result<(), ScopesError> {
    let open = fault_of(rt.alloc(), "BAAA", ",BAAB", DEPTH)?;
    same(&rt, "open", open, Some(ScopesFault { kind: LeftOpen, byte: 4 + 5 * DEPTH }));
    let scopes = fault_of(rt.alloc(), "BAAA", ",BAAB", 100000)?;
    same(&rt, "scopes", scopes, Some(ScopesFault { kind: TooDeep, byte: 5 * (DEPTH + 1) }));
    let ranges = fault_of(rt.alloc(), "EAA", ",EAA", 100000)?;
    same(&rt, "ranges", ranges, Some(ScopesFault { kind: TooDeep, byte: 4 * (DEPTH + 1) }));
    Ok(())
}

/// The entries of a chain: the index of a scope, and that of a range.
type Chain = &'static [(usize, Option<usize>)];

/// Three scopes, one in another; the outer one has a range, and in it the inner one.
const SKIPPED: &str = "BAAA,BABA,BABA,CBA,CBA,CBA,ECAA,ECFE,FF,FK";

/// A range of the inner of two scopes, in another one of it; then one of the outer; then one of none.
const REPEATED: &str = "BAAA,BABA,CBA,CBA,ECAC,ECFA,FF,FK,ECAD,FB,EAA,FB";

/// A text, how many names there are, a position, and the chain there.
const CHAINS: &[(&str, usize, At, Chain)] = &[
    (INLINED, 7, (0, 25), &[(2, Some(2)), (0, Some(0))]),
    (INLINED, 7, (0, 20), &[(2, Some(2)), (0, Some(0))]),
    (INLINED, 7, (0, 30), &[(1, Some(1)), (0, Some(0))]),
    (INLINED, 7, (0, 15), &[(1, Some(1)), (0, Some(0))]),
    (INLINED, 7, (0, 5), &[(0, Some(0))]),
    (INLINED, 7, (1, 0), &[]),
    (SKIPPED, 0, (0, 7), &[(2, Some(1)), (1, None), (0, Some(0))]),
    (SKIPPED, 0, (0, 12), &[(0, Some(0))]),
    // The innermost range of a scope counts.
    (REPEATED, 0, (0, 7), &[(1, Some(1)), (0, None)]),
    (REPEATED, 0, (0, 12), &[(1, Some(0)), (0, None)]),
    (REPEATED, 0, (0, 20), &[(0, Some(2))]),
    (REPEATED, 0, (0, 21), &[]),
    ("", 0, (0, 0), &[]),
];

fn same_chain(rt: &impl Abort, text: &str, found: Vec<ScopeChainEntry>, wanted: Chain) {
    same(rt, text, found.len(), wanted.len());
    for (entry, wanted) in found.iter().zip(wanted) {
        same(rt, text, (entry.scope, entry.range), *wanted);
    }
}

#[test]
fn chains_lead_outward(rt: HostRuntime) -> Result<(), ScopesError> {
    for (text, names, (line, column), wanted) in CHAINS {
        let scopes = decode_scopes(rt.alloc(), *text, *names)?;
        same_chain(&rt, *text, scopes.scope_chain_at(rt.alloc(), *line, *column)?, *wanted);
    }
    // The frame of a call that was inlined has the scopes at its place.
    let scopes = decode_scopes(rt.alloc(), INLINED, 7)?;
    same_frame_chain(&rt, rt.alloc(), &scopes, 0, (0, 25), Some(&[(2, Some(2)), (0, Some(0))]))?;
    same_frame_chain(&rt, rt.alloc(), &scopes, 1, (0, 25), Some(&[(1, Some(1)), (0, Some(0))]))?;
    same_frame_chain(&rt, rt.alloc(), &scopes, 2, (0, 25), None)?;
    same_frame_chain(&rt, rt.alloc(), &scopes, 0, (0, 15), Some(&[(1, Some(1)), (0, Some(0))]))?;
    same_frame_chain(&rt, rt.alloc(), &scopes, 1, (0, 15), None)?;
    same_frame_chain(&rt, rt.alloc(), &scopes, 0, (1, 0), None)?;
    // A function that was inlined in itself: the outer frame does not see the values of the inner one.
    let scopes = decode_scopes(rt.alloc(), "BFAAA,DC,CJA,EGAA,GD,ECFA,GE,IAFA,FF,FK", 4)?;
    same_frame_chain(&rt, rt.alloc(), &scopes, 0, (0, 7), Some(&[(0, Some(1))]))?;
    same_frame_chain(&rt, rt.alloc(), &scopes, 1, (0, 7), Some(&[(0, Some(0))]))?;
    same(&rt, "inner", scopes.value_at(1, 0, 0, 7), Some(3));
    same(&rt, "outer", scopes.value_at(0, 0, 0, 7), Some(2));
    // A call from where no scope is, and one further out.
    let scopes = decode_scopes(rt.alloc(), "BFAAA,CJA,EGAA,ECFA,IABA,EAB,IBAA,FB,FB,FF", 1)?;
    same_frame_chain(&rt, rt.alloc(), &scopes, 0, (0, 6), Some(&[]))?;
    same_frame_chain(&rt, rt.alloc(), &scopes, 1, (0, 6), Some(&[]))?;
    same_frame_chain(&rt, rt.alloc(), &scopes, 2, (0, 6), Some(&[(0, Some(0))]))?;
    same_frame_chain(&rt, rt.alloc(), &scopes, 3, (0, 6), None)?;
    Ok(())
}

fn same_frame_chain(rt: &impl Abort, alloc: Global, scopes: &Scopes, frame: usize, (line, column): At, wanted: Option<Chain>) -> Result<(), ScopesError> {
    let found = scopes.scope_chain(alloc, frame, line, column)?;
    same(rt, "frame", found.is_some(), wanted.is_some());
    if let (Some(found), Some(wanted)) = (found, wanted) {
        same_chain(rt, "frame", found, wanted);
    }
    Ok(())
}
