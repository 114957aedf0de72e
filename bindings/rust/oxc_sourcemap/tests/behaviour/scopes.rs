//! Scopes, by rows worked by hand; and each fault of their text.

use oxc_sourcemap::{
    CallSite, Error, Frames, GeneratedRange, JsonFault, OriginalScope, Position, ScopeChainEntry, ScopeFrame, Scopes,
    ScopesFault, ScopesFaultKind as Kind, SourceMap,
};

/// global; in it outer, and inner, which was inlined into outer at columns 20 to 30.
const INLINED: &str = "BCAAC,BHBAEE,DI,CDB,BHBAGA,CCB,CBA,ECAA,EGKC,GH,ECKC,IADE,FK,FK,FBA";
const NAMES: &str = r#"["n0","global","outer","function","a","inner","x"]"#;

fn decoded(text: &str, names: usize) -> Scopes {
    Scopes::decode(text, names).unwrap()
}

/// Source, start, end, name, kind, whether it is a function, parent.
type ScopeRow = (u32, (u32, u32), (u32, u32), Option<u32>, Option<u32>, bool, Option<u32>);
/// Start, end, definition, whether it is a frame, and hidden, the call, parent.
type RangeRow = ((u32, u32), (u32, u32), Option<u32>, bool, bool, Option<(u32, u32, u32)>, Option<u32>);

fn pair(at: Position) -> (u32, u32) {
    (at.line, at.column)
}

fn call(it: CallSite) -> (u32, u32, u32) {
    (it.source, it.line, it.column)
}

fn scope_row(it: OriginalScope) -> ScopeRow {
    (it.source, pair(it.start), pair(it.end), it.name, it.kind, it.is_stack_frame, it.parent)
}

fn range_row(it: GeneratedRange) -> RangeRow {
    let (start, end) = (pair(it.start), pair(it.end));
    (start, end, it.definition, it.is_stack_frame, it.is_hidden, it.call_site.map(call), it.parent)
}

fn are(text: &str, names: usize, sources: usize, scopes: &[ScopeRow], ranges: &[RangeRow]) {
    let it = decoded(text, names);
    assert_eq!(
        (it.source_count(), it.scope_count(), it.range_count()),
        (sources, scopes.len(), ranges.len()),
        "{text}"
    );
    assert_eq!(it.get_scopes().map(scope_row).collect::<Vec<_>>(), scopes, "{text}");
    assert_eq!(it.get_ranges().map(range_row).collect::<Vec<_>>(), ranges, "{text}");
    assert_eq!((it.get_scopes().len(), it.get_ranges().len()), (scopes.len(), ranges.len()));
    assert_eq!((it.get_scope(scopes.len() as u32), it.get_range(ranges.len() as u32)), (None, None), "{text}");
}

#[test]
fn rows_have_their_scopes_and_ranges() {
    are(
        INLINED,
        7,
        1,
        &[
            (0, (0, 0), (8, 0), None, Some(1), false, None),
            (0, (1, 0), (4, 1), Some(2), Some(3), true, Some(0)),
            (0, (5, 0), (7, 1), Some(5), Some(3), true, Some(0)),
        ],
        &[
            ((0, 0), (1, 0), Some(0), false, false, None, None),
            ((0, 10), (0, 40), Some(1), true, false, None, Some(0)),
            ((0, 20), (0, 30), Some(2), false, false, Some((0, 3, 4)), Some(1)),
        ],
    );
    are("A,BCCDA,CAG", 1, 2, &[(1, (2, 3), (2, 9), None, Some(0), false, None)], &[]);
    are("ENDC,FCH", 0, 0, &[], &[((3, 2), (5, 7), None, true, true, None, None)]);
    are(
        "BFAAA,CEA,BFBAA,CFA,EGAC,FJ,EGAD,FBC",
        1,
        2,
        &[(0, (0, 0), (4, 0), Some(0), None, true, None), (1, (1, 0), (6, 0), Some(0), None, true, None)],
        &[((0, 0), (0, 9), Some(1), true, false, None, None), ((0, 9), (1, 2), Some(0), true, false, None, None)],
    );
    are("", 0, 0, &[], &[]);
}

#[test]
fn the_innermost_is_found() {
    let it = decoded(INLINED, 7);
    let scopes = [(0, 0), (1, 0), (4, 0), (4, 1), (5, 0), (8, 0)].map(|(line, column)| it.scope_at(0, line, column));
    assert_eq!(scopes, [Some(0), Some(1), Some(1), Some(0), Some(2), None]);
    let functions = [(0, 0), (4, 0), (4, 1), (5, 0)].map(|(line, column)| it.function_at(0, line, column));
    assert_eq!(functions, [None, Some(1), None, Some(2)]);
    let ranges = [(0, 9), (0, 10), (0, 29), (0, 30), (1, 0)].map(|(line, column)| it.range_at(line, column));
    assert_eq!(ranges, [Some(0), Some(1), Some(2), Some(1), None]);
    assert_eq!((it.scope_at(1, 1, 0), it.function_at(1, 1, 0)), (None, None));
}

/// Name, scope, the call.
type FrameRow = (Option<u32>, Option<u32>, Option<(u32, u32, u32)>);

fn frame(name: u32, scope: u32, at: Option<(u32, u32, u32)>) -> FrameRow {
    (Some(name), Some(scope), at)
}

fn rows(frames: &[ScopeFrame]) -> Vec<FrameRow> {
    frames.iter().map(|it| (it.name, it.scope, it.call_site.map(call))).collect()
}

#[test]
fn frames_are_those_of_the_source() {
    let json = format!(r#"{{"version":3,"sources":["a.js"],"names":{NAMES},"mappings":"AAAA","scopes":"{INLINED}"}}"#);
    let (it, map) = (Scopes::read(json.as_bytes()).unwrap(), SourceMap::from_json_string(&json).unwrap());
    let inner = it.frames_at(0, 25).unwrap();
    assert_eq!((rows(&inner.frames), inner.is_hidden), (vec![frame(5, 2, None), frame(2, 1, Some((0, 3, 4)))], false));
    let names: Vec<_> = inner.frames.iter().map(|it| map.get_name(it.name.unwrap()).unwrap()).collect();
    assert_eq!(names, ["inner", "outer"]);
    assert_eq!(rows(&it.frames_at(0, 15).unwrap().frames), [frame(2, 1, None)]);
    assert_eq!(rows(&it.frames_at(0, 5).unwrap().frames), [(None, None, None)]);
    assert_eq!(it.frames_at(1, 0).unwrap(), Frames::default());
    let helper = decoded("ENDC,FCH", 0).frames_at(4, 0).unwrap();
    assert_eq!((rows(&helper.frames), helper.is_hidden), (vec![(None, None, None)], true));
}

/// A scope with three variables, of which two items tell, and its code from 2:5 to 4:9. The first is 3, from 2:9 on 4, from 3:2 on nothing,
/// and from 3:5 on 5; the second 3 from 3:0 on.
const SPLIT: &str = "BAAA,DAC,DC,CJA,EDCFA,GEAG,HAAEFBCAADG,HCAAA,HBBAE,FCJ";

#[test]
fn variables_have_their_values() {
    let it = decoded(INLINED, 7);
    let listed = [0, 1, 2, 3, u32::MAX].map(|scope| it.get_variables(scope));
    assert_eq!(listed, [Some(vec![]), Some(vec![4]), Some(vec![]), None, None]);
    assert_eq!([10, 39].map(|column| it.value_at(1, 0, 0, column)), [Some(6), Some(6)]);
    let none = [(1, 1, 10), (1, u32::MAX, 10), (0, 0, 10), (2, 0, 20), (3, 0, 20), (u32::MAX, 0, 20)];
    assert_eq!(none.map(|(range, variable, column)| it.value_at(range, variable, 0, column)), [None; 6]);
    let values = decoded("BAAA,DAC,CJA,ECAA,GAD,HBBBE,FCE", 4);
    assert_eq!(values.get_variables(0), Some(vec![0, 1]));
    let at =
        |variable| [(0, 0), (1, 0), (1, 1), (2, 3)].map(|(line, column)| values.value_at(0, variable, line, column));
    assert_eq!((at(0), at(1)), ([None; 4], [Some(2), Some(2), Some(3), Some(3)]));
}

#[test]
fn sub_ranges_have_their_values() {
    let it = decoded(SPLIT, 6);
    assert_eq!(it.get_variables(0), Some(vec![0, 1, 2]));
    let places = [(2, 5), (2, 8), (2, 9), (2, u32::MAX), (3, 0), (3, 1), (3, 2), (3, 4), (3, 5), (4, 8)];
    let at = |variable| places.map(|(line, column)| it.value_at(0, variable, line, column));
    let (three, four, five) = (Some(3), Some(4), Some(5));
    assert_eq!(at(0), [three, three, four, four, four, four, None, None, five, five]);
    assert_eq!(at(1), [None, None, None, None, three, three, three, three, three, three]);
    assert_eq!((at(2), at(3)), ([None; 10], [None; 10]));
}

fn pairs(chain: Result<Vec<ScopeChainEntry>, Error>) -> Vec<(u32, Option<u32>)> {
    chain.unwrap().iter().map(|it| (it.scope, it.range)).collect()
}

fn of_frame(scopes: &Scopes, frame: u32, column: u32) -> Option<Vec<(u32, Option<u32>)>> {
    scopes.scope_chain(frame, 0, column).unwrap().map(|chain| pairs(Ok(chain)))
}

#[test]
fn chains_lead_from_the_inside_out() {
    let it = decoded(INLINED, 7);
    let (inner, outer, whole) = ((2, Some(2)), (1, Some(1)), (0, Some(0)));
    for (column, chain) in [(10, [outer, whole]), (15, [outer, whole]), (20, [inner, whole]), (25, [inner, whole])] {
        assert_eq!(pairs(it.scope_chain_at(0, column)), chain, "{column}");
    }
    assert_eq!([9, 40].map(|column| pairs(it.scope_chain_at(0, column))), [[whole], [whole]]);
    assert_eq!(it.scope_chain_at(1, 0).unwrap(), []);
    assert_eq!(of_frame(&it, 0, 25), Some(vec![inner, whole]));
    assert_eq!(of_frame(&it, 1, 25), Some(vec![outer, whole]));
    assert_eq!(of_frame(&it, 0, 15), Some(vec![outer, whole]));
    assert_eq!(
        [(2, 25), (u32::MAX, 25), (1, 15)].map(|(frame, column)| of_frame(&it, frame, column)),
        [None, None, None]
    );
    assert!(it.scope_chain(0, 1, 0).unwrap().is_none());
}

#[test]
fn the_innermost_of_nested_ranges_counts() {
    // A function, inlined into itself at columns 10 to 20.
    let it = decoded("BFAAA,CJA,EGAA,ECKA,IABB,FK,FU", 1);
    for (column, range) in [(9, 0), (10, 1), (19, 1), (20, 0)] {
        assert_eq!(pairs(it.scope_chain_at(0, column)), [(0, Some(range))], "{column}");
        assert_eq!(of_frame(&it, 0, column), Some(vec![(0, Some(range))]), "{column}");
    }
    assert_eq!((of_frame(&it, 1, 15), of_frame(&it, 1, 9)), (Some(vec![(0, Some(0))]), None));
    // The inner range is the code of none.
    let it = decoded("BFAAA,CJA,EGAA,EAK,FK,FU", 1);
    assert_eq!([9, 15].map(|column| pairs(it.scope_chain_at(0, column))), [vec![(0, Some(0))], vec![]]);
    assert_eq!(of_frame(&it, 0, 15), Some(vec![]));
    // A block in a function, whose code stands around that of the function.
    let it = decoded("BFAAA,BABA,CBC,CJA,ECAC,ECKD,FK,FU", 1);
    assert_eq!(pairs(it.scope_chain_at(0, 5)), [(1, Some(0)), (0, None)]);
    assert_eq!(pairs(it.scope_chain_at(0, 15)), [(0, Some(1))]);
}

#[test]
fn each_fault_has_its_kind_and_byte() {
    let deep = vec!["BAAA"; 1025].join(",");
    let rows = [
        ("A,!", 0, Kind::NotADigit, 2, "scopes, byte 2: a character is no base64 digit"),
        ("A,Bg", 0, Kind::CutShort, 2, "scopes, byte 2: the last number is cut short"),
        ("A,gggggggA", 0, Kind::TooLarge, 2, "scopes, byte 2: a number is too large"),
        ("A,,A", 0, Kind::MissingNumber, 2, "scopes, byte 2: a number is missing"),
        ("BBAAC", 1, Kind::BadIndex, 0, "scopes, byte 0: an index leads to no name, scope or value"),
        ("A,CAA", 0, Kind::NothingOpen, 2, "scopes, byte 2: no scope or range is open"),
        ("BAAA,A", 0, Kind::NotClosed, 5, "scopes, byte 5: the scopes before it are not closed"),
        (&deep, 0, Kind::TooDeep, 5120, "scopes, byte 5120: more than 1024 scopes or ranges are nested"),
        ("BAAA", 0, Kind::LeftOpen, 4, "scopes, byte 4: a scope or a range has no end"),
        ("EAA,GB,HABAB,HABAB", 1, Kind::SplitTwice, 13, "scopes, byte 13: the value has sub-ranges already"),
    ];
    for (text, names, kind, byte, message) in rows {
        let error = Scopes::decode(text, names).unwrap_err();
        assert_eq!(error, Error::BadScopes(ScopesFault { kind, byte }));
        assert_eq!(error.to_string(), message);
    }
}

#[test]
fn a_member_that_is_missing_or_wrong() {
    assert_eq!(format!("{:?}", Scopes::read(b"{}").unwrap()), "Scopes { sources: 0, scopes: 0, ranges: 0, .. }");
    assert_eq!(format!("{:?}", decoded(INLINED, 7)), "Scopes { sources: 1, scopes: 3, ranges: 3, .. }");
    assert_eq!(Scopes::read(br#"{"scopes":null}"#).unwrap().source_count(), 0);
    assert_eq!(Scopes::read(br#"{"scopes":7}"#).unwrap_err(), Error::ScopesNotText);
    assert_eq!(Scopes::read(br#"{"sections":[],"scopes":"A"}"#).unwrap_err(), Error::ScopesIndexed);
    assert_eq!(Scopes::read(b"{").unwrap_err(), Error::BadJson(JsonFault::Reading));
    assert_eq!(Scopes::read(b"{\xff").unwrap_err(), Error::NotUtf8(1));
    let fault = ScopesFault { kind: Kind::BadIndex, byte: 0 };
    assert_eq!(Scopes::read(br#"{"scopes":"BBAAC,CAA","names":["f"]}"#).unwrap_err(), Error::BadScopes(fault));
}
