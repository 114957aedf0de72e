//! Where faults are. tests/reference/fault_places.py has the places of sections, and the numbers of the random texts.
use crate::helpers::same;
use oxc_sourcemap::{
    FaultPlace, FaultReason, FaultSpot, Field, Plan, SegmentPlace, SegmentReason, decode_from_string, decode_mappings, evaluate, fault_reason,
    found_fault_at, json_fault_at, json_fault_reason, mappings_fault_at, mappings_fault_reason, plan_fault_at,
};
use std::alloc::{AllocError, Global};
use std::process::Abort;
use std::test::Fail;

fn place(byte: usize, line: u32, segment: usize) -> Option<SegmentPlace> {
    Some(SegmentPlace {
        byte,
        line,
        segment,
    })
}

#[test]
fn mappings_have_faults(rt: HostRuntime) {
    // A text, the counts of names and sources, and where the first fault is: byte, line, and number on the line.
    for (text, names, sources, wanted) in [
        ("", 0, 0, None),
        ("AAAA", 0, 1, None),
        ("AAAA", 0, 0, place(0, 0, 0)),
        ("AAAA;AACA,AA", 0, 1, place(10, 1, 1)),
        // Empty segments do not count.
        (",,;A,,A,D", 0, 0, place(8, 1, 2)),
        ("A,C;;A,gggggggggggggg", 0, 0, place(7, 2, 1)),
        ("A;g", 0, 0, place(2, 1, 0)),
        ("A,,,;;;,D,,D", 0, 0, place(8, 3, 0)),
        // A byte past ASCII is a digit, so a segment of one ends in a digit that goes on.
        ("A,é", 0, 0, place(2, 0, 1)),
        ("AAAAC", 1, 1, place(0, 0, 0)),
        ("AAAAC", 2, 1, None),
        ("A;;A,;,AAAA,CAAAC,CAAAD,CAAAD", 2, 1, place(24, 3, 3)),
    ] {
        same(&rt, text, mappings_fault_at(text, names, sources), wanted);
    }
}

const PIECES: [&str; 17] = [
    "A", "C", "AAAA", "CACA", "AAAAA", "CAAAC", "KAAAD", "gBAAA", "", "", ";", ";,;", "IAAA", "CCAA", "D", "AA", "é",
];

#[test]
fn random_mappings_have_faults(rt: HostRuntime) -> std::result::Result<(), Fail> {
    let (mut seed, mut faults, mut sum) = (1u32, 0u32, 0u32);
    for _ in 0..5000 {
        let mut text = String::new(rt.alloc());
        for _ in 0..14 {
            seed = seed.wrapping_mul(1103515245).wrapping_add(12345) % 2147483648;
            text.push_str(PIECES[((seed >> 16) % 17) as usize])?;
            text.push(',')?;
        }
        let found = mappings_fault_at(text.as_str(), 2, 2);
        same(&rt, text.as_str(), found.is_some(), decode_mappings(rt.alloc(), text.as_str(), 2, 2).is_err());
        let number = match found {
            Some(place) => (place.byte as u32).wrapping_mul(10007).wrapping_add(place.line.wrapping_mul(101)).wrapping_add(place.segment as u32),
            None => 7,
        };
        faults += u32::from(found.is_some());
        sum = sum.wrapping_mul(31).wrapping_add(number);
    }
    same(&rt, "faults", (faults, sum), (4811, 1734738861));
    Ok(())
}

fn reading(line: usize, column: usize, byte: usize) -> Option<FaultSpot> {
    Some(FaultSpot::Reading { line, column, byte })
}

#[test]
fn texts_have_faults(rt: HostRuntime) {
    for (text, wanted) in [
        (r#"{"version":3,"sources":["a"],"mappings":"AAAA"}"#, None),
        // Not JSON: the token that cannot be read. The column counts bytes.
        ("", reading(0, 0, 0)),
        ("{\n\"a\":", reading(1, 4, 6)),
        ("{}\n}", reading(1, 0, 3)),
        ("<!doctype html>\n<html>", reading(0, 0, 0)),
        ("{\n\n  \"é\": tru\n}", reading(2, 8, 11)),
        // A line ends in a line feed alone, which is on the line that it ends.
        ("{\r\"a\":\r\n1\r2}", reading(1, 2, 10)),
        ("{\n\"a\": \"b\nc\"}", reading(1, 5, 7)),
        // The value, and its members in order.
        ("[]", Some(FaultSpot::Member(Field::Object))),
        (r#"{"version":2,"sources":[1]}"#, Some(FaultSpot::Member(Field::Version))),
        (r#"{"version":3,"sources":[]}"#, Some(FaultSpot::Member(Field::Mappings))),
        (r#"{"version":3,"mappings":""}"#, Some(FaultSpot::Member(Field::Sources))),
        (r#"{"version":3,"mappings":"","sources":{}}"#, Some(FaultSpot::Member(Field::Sources))),
        // The first entry of the wrong type.
        (r#"{"version":3,"mappings":"","sources":["a","b",null,1]}"#, Some(FaultSpot::Entry(Field::Sources, 2))),
        (r#"{"version":3,"mappings":"","sources":[],"names":[[]]}"#, Some(FaultSpot::Entry(Field::Names, 0))),
        (r#"{"version":3,"mappings":"","sources":[],"sourcesContent":["a",null,3]}"#, Some(FaultSpot::Entry(Field::SourcesContent, 2))),
        (r#"{"version":3,"mappings":"","sources":["a"],"ignoreList":[0,0.5]}"#, Some(FaultSpot::Entry(Field::IgnoreList, 1))),
        (r#"{"version":3,"mappings":"","sources":["a"],"x_google_ignoreList":[-1]}"#, Some(FaultSpot::Entry(Field::GoogleIgnoreList, 0))),
        // The entries of the ignore list come before the mappings.
        (r#"{"version":3,"mappings":"A,A,AA","sources":["a"],"ignoreList":[0,1]}"#, Some(FaultSpot::Entry(Field::IgnoreList, 1))),
        (r#"{"version":3,"mappings":"","sources":["a"],"ignoreList":null,"x_google_ignoreList":[0,9]}"#, Some(FaultSpot::Entry(Field::GoogleIgnoreList, 1))),
        (r#"{"version":3,"mappings":"","sources":["a"],"ignoreList":[7],"x_google_ignoreList":[0]}"#, Some(FaultSpot::Entry(Field::IgnoreList, 0))),
        (r#"{"version":3,"mappings":"A,A;A,AA","sources":["a"],"ignoreList":[0]}"#, Some(FaultSpot::Segment(SegmentPlace { byte: 6, line: 1, segment: 1 }))),
        (r#"{"version":3,"mappings":"AAAAA","sources":["a"],"names":["n"]}"#, None),
        (r#"{"version":3,"mappings":"AAAAA","sources":["a"],"names":[]}"#, Some(FaultSpot::Segment(SegmentPlace { byte: 0, line: 0, segment: 0 }))),
    ] {
        let place = json_fault_at(rt.alloc(), text).ok().flatten();
        same(&rt, text, place.map(|place| place.spot), wanted);
        same(&rt, text, place.and_then(|place| place.section), None);
    }
}

#[test]
fn sections_have_faults(rt: HostRuntime) -> std::result::Result<(), Fail> {
    for (text, wanted) in [
        (r#"{"version":3,"sections":[]}"#, None),
        (r#"{"version":3,"sections":{}}"#, Some("sections")),
        (r#"{"sections":{}}"#, Some("version")),
        (r#"{"version":2,"sections":{}}"#, Some("version")),
        (r#"{"version":3,"file":3,"sections":[3]}"#, Some("file")),
        (r#"{"version":3,"file":null,"sections":[3]}"#, Some("entry 0 of sections")),
        (r#"{"version":3,"sections":[{"offset":{"line":0,"column":0},"map":{"version":3,"sources":["a"],"mappings":""}},3,{}]}"#, Some("entry 1 of sections")),
        (r#"{"version":3,"sections":[{}]}"#, Some("section 0, offset")),
        (r#"{"version":3,"sections":[{"map":{"version":3,"sources":["a"],"mappings":"A,AA"}}]}"#, Some("section 0, offset")),
        (r#"{"version":3,"sections":[{"offset":{"line":0},"map":{"version":3,"sources":["a"],"mappings":"A,AA"}}]}"#, Some("section 0, offset")),
        (r#"{"version":3,"sections":[{"offset":{"line":0,"column":-1},"map":{"version":3,"sources":["a"],"mappings":"A,AA"}}]}"#, Some("section 0, offset")),
        (r#"{"version":3,"sections":[{"offset":{"line":0,"column":0},"map":{"version":3,"sources":["a"],"mappings":""}},{"offset":{"line":0,"column":0},"map":{"version":3,"sources":["a"],"mappings":";A,AA"}}]}"#, Some("section 1, line 1, segment 1 (byte 3)")),
        (r#"{"version":3,"sections":[{"offset":{"line":0,"column":0},"map":{"sections":[]}}]}"#, Some("section 0, map")),
        (r#"{"version":3,"sections":[{"offset":{"line":0,"column":0},"map":[]}]}"#, Some("section 0, map")),
        (r#"{"version":3,"sections":[{"offset":{"line":0,"column":0},"map":{"version":3,"sources":[0],"mappings":""}}]}"#, Some("section 0, entry 0 of sources")),
        (r#"{"version":3,"sections":[{"offset":{"line":1,"column":0},"map":{"version":3,"sources":["a"],"mappings":""}},{"offset":{"line":0,"column":5},"map":{"version":3,"sources":["a"],"mappings":""}}]}"#, Some("section 1, offset")),
        (r#"{"version":3,"sections":[{"offset":{"line":0,"column":0},"map":{"version":3,"sources":["a"],"mappings":"AAAA,IAAI"}},{"offset":{"line":0,"column":4},"map":{"version":3,"sources":["a"],"mappings":""}}]}"#, None),
        (r#"{"version":3,"sections":[{"offset":{"line":0,"column":0},"map":{"version":3,"sources":["a"],"mappings":"AAAA,IAAI"}},{"offset":{"line":0,"column":1},"map":{"version":3,"sources":["a"],"mappings":""}},7]}"#, Some("section 1, offset")),
        (r#"{"version":3,"sections":[{"offset":{"line":0,"column":0},"map":{"version":3,"sources":["a"],"mappings":"A"}},{"offset":{"line":4294967295,"column":0},"map":{"version":3,"sources":["a"],"mappings":";A"}},{"offset":{"line":0,"column":0},"map":{"version":3,"sources":["a"],"mappings":""}}]}"#, Some("section 1, map")),
        (r#"{"version":3,"sections":[{"offset":{"line":0,"column":4294967295},"map":{"version":3,"sources":["a"],"mappings":"C"}}]}"#, Some("section 0, map")),
        (r#"{"version":3,"sections":null,"sources":[0],"mappings":""}"#, Some("entry 0 of sources")),
        (r#"{"version":3,"sections":[{"offset":{"line":0,"column":0},"map":{"version":3,"sources":["a"],"mappings":""}},{"offset":{"line":0,"column":0},"url":"b.map"}]}"#, Some("section 1, map")),
    ] {
        match json_fault_at(rt.alloc(), text)? {
            Some(place) => {
                let found = place.in_text(7).to_string(rt.alloc())?;
                same(&rt, text, found.as_str().strip_prefix("text 7, "), wanted);
            }
            None => same(&rt, text, None, wanted),
        }
    }
    Ok(())
}

/// Of tests/reference/fault_places.py.
const MAPS: [&str; 9] = [
    r#"{"version":3,"sources":["a"],"mappings":"AAAA,C"}"#,
    r#"{"version":3,"sources":["a"],"mappings":";C"}"#,
    r#"{"version":3,"sources":["a"],"mappings":""}"#,
    r#"{"version":3,"sources":["a"],"mappings":"A,AA"}"#,
    r#"{"version":3,"sources":["a",0],"mappings":"A"}"#,
    r#"{"version":3,"sources":["a"],"mappings":"A","ignoreList":[0,1]}"#,
    r#"{"version":2}"#,
    r#"{"version":3,"sections":[]}"#,
    "7",
];

const OFFSETS: [(u32, u32); 12] = [
    (0, 0), (0, 1), (0, 2), (1, 0), (1, 1), (2, 0), (3, 4294967295), (4294967295, 0), (5, 0), (6, 0), (7, 0), (8, 0),
];

/// Section `k` of an indexed map, by a number.
fn push_section(alloc: Global, k: u32, seed: u32, text: &mut String) -> std::result::Result<(), AllocError> {
    let (pick, other) = ((seed >> 16) % 101, (seed >> 8) % 64);
    if pick == 98 {
        return Ok(text.push('7')?);
    }
    let (line, column) = OFFSETS[(if pick < 90 { (other % 3 + 2 * k) % 12 } else { other % 12 }) as usize];
    let offset = if pick == 99 {
        format!(in alloc; "{{\"line\":{line}}}")?
    } else {
        format!(in alloc; "{{\"line\":{line},\"column\":{column}}}")?
    };
    let map = MAPS[(if pick < 85 { pick % 3 } else { pick % 9 }) as usize];
    let section = format!(in alloc; "{{\"offset\":{offset},\"map\":{map}}}")?;
    text.push_str(section.as_str())?;
    Ok(())
}

#[test]
fn random_sections_have_faults(rt: HostRuntime) -> std::result::Result<(), Fail> {
    let alloc = rt.alloc();
    let (mut seed, mut faults, mut sum) = (1u32, 0u32, 0u32);
    for _ in 0..3000 {
        let mut text = String::from_str(alloc, r#"{"version":3,"sections":["#)?;
        for k in 0..4 {
            seed = seed.wrapping_mul(1103515245).wrapping_add(12345) % 2147483648;
            push_section(alloc, k, seed, &mut text)?;
            text.push_str(if k < 3 { "," } else { "]}" })?;
        }
        let place = json_fault_at(alloc, text.as_str())?;
        same(&rt, text.as_str(), place.is_some(), decode_from_string(alloc, text.as_str()).is_err());
        let told = match place {
            Some(place) => place.to_string(alloc)?,
            None => String::from_str(alloc, "none")?,
        };
        faults += u32::from(place.is_some());
        for byte in told.as_bytes() {
            sum = sum.wrapping_mul(31).wrapping_add(u32::from(*byte));
        }
    }
    same(&rt, "faults", (faults, sum), (2399, 3288360559));
    Ok(())
}

const FINE: &str = r#"{"version":3,"sources":["a.js"],"mappings":"AAAA"}"#;
const BAD: &str = r#"{"version":3,"sources":["a.js"],"mappings":"AAAA;A,AA"}"#;
const TWO: &str = r#"{"version":3,"sources":["a.js","b.js"],"mappings":""}"#;

/// Asserts the place of the error of a plan.
fn plan_fails_at(rt: &impl Abort, alloc: Global, plan: &Plan<'_>, wanted: Option<&str>) -> std::result::Result<(), Fail> {
    let Err(error) = evaluate(alloc, plan) else {
        same(rt, "plan", None, Some(wanted));
        return Ok(());
    };
    match plan_fault_at(alloc, plan, error)? {
        Some(place) => same(rt, "place", Some(place.to_string(alloc)?.as_str()), wanted),
        None => same(rt, "place", None, wanted),
    }
    Ok(())
}

#[test]
fn plans_have_faults(rt: HostRuntime) -> std::result::Result<(), Fail> {
    let alloc = rt.alloc();
    let boxed = |text| Box::new(alloc, Plan::Read(text));
    let joined = Plan::Join(vec![in alloc; (Plan::Read(FINE), 0), (Plan::ReadSorted(BAD), 1), (Plan::Read("{"), 2)]?);
    plan_fails_at(&rt, alloc, &joined, Some("text 1, line 1, segment 1 (byte 7)"))?;
    let composed = Plan::Compose(boxed(FINE)?, boxed("[]")?);
    plan_fails_at(&rt, alloc, &composed, Some("text 1, the value"))?;
    let inputs = vec![in alloc; ("a.js", Plan::Rewrite(boxed(FINE)?)), ("b.js", Plan::ApplyRoot(boxed(BAD)?))]?;
    plan_fails_at(&rt, alloc, &Plan::Remap(boxed(TWO)?, inputs), Some("text 2, line 1, segment 1 (byte 7)"))?;
    let at = Plan::JoinAt(vec![in alloc; (Plan::Read("{"), 0, 0), (Plan::Read(BAD), 1, 0)]?);
    plan_fails_at(&rt, alloc, &at, Some("text 0, line 0, column 1 (byte 1)"))?;
    // An error of a step: both texts are read, or the next is not.
    plan_fails_at(&rt, alloc, &Plan::Compose(boxed(TWO)?, boxed(FINE)?), None)?;
    let unsorted = Plan::Join(vec![in alloc; (Plan::Read(FINE), 1), (Plan::Read(FINE), 0)]?);
    plan_fails_at(&rt, alloc, &Plan::Compose(Box::new(alloc, unsorted)?, boxed(BAD)?), None)?;
    Ok(())
}

#[test]
fn places_are_texts(rt: HostRuntime) -> std::result::Result<(), Fail> {
    let segment = FaultSpot::Segment(SegmentPlace { byte: 12, line: 0, segment: 3 });
    for (text, section, spot, wanted) in [
        (Some(700), None, segment, "text 700, line 0, segment 3 (byte 12)"),
        (Some(1), Some(2), segment, "text 1, section 2, line 0, segment 3 (byte 12)"),
        (None, Some(0), FaultSpot::Entry(Field::Sources, 2), "section 0, entry 2 of sources"),
        (None, None, FaultSpot::Member(Field::GoogleIgnoreList), "x_google_ignoreList"),
        (None, None, FaultSpot::Member(Field::Object), "the value"),
        (None, None, FaultSpot::Reading { line: 4, column: 0, byte: 99 }, "line 4, column 0 (byte 99)"),
    ] {
        let found = FaultPlace { text, section, spot }.to_string(rt.alloc())?;
        same(&rt, wanted, found.as_str(), wanted);
    }
    Ok(())
}

#[test]
fn segments_have_reasons(rt: HostRuntime) {
    // A text, of 2 names and 2 sources, and what its error does not tell.
    for (text, wanted) in [
        ("AAAA,DAAA", Some(SegmentReason::ColumnBelowZero)),
        ("G,F;D", Some(SegmentReason::ColumnBelowZero)),
        ("ACEG,ADFHA", None),
        ("ACEG,ADHA", Some(SegmentReason::SourceLineBelowZero)),
        ("ACEG,ADFJ", Some(SegmentReason::SourceColumnBelowZero)),
        // Of two that are below 0 the first that is read.
        ("DADA", Some(SegmentReason::ColumnBelowZero)),
        ("ADDD", Some(SegmentReason::SourceIdBelowZero)),
        ("AADD", Some(SegmentReason::SourceLineBelowZero)),
        ("DA", Some(SegmentReason::ColumnBelowZero)),
        ("AAAA;ACAA,AFAA", Some(SegmentReason::SourceIdBelowZero)),
        ("AAAAC,AAAAF", Some(SegmentReason::NameIdBelowZero)),
        // The error has the id before, and of a name 32 bits.
        ("ACAA,AEAA", Some(SegmentReason::SourceId(3))),
        ("AEAA", Some(SegmentReason::SourceId(2))),
        ("AAAAE", None),
        ("AAAAggggggI", Some(SegmentReason::NameId(4294967296))),
        // 4294967295 and 1 more: the error tells that a number is too large.
        ("+/////H,C", None),
        ("A+/////HA", None),
        ("AA", None),
        ("AAAg", None),
        ("A,gggggggggggggg", None),
        // Bytes that are no digits, of the segment at fault alone.
        (" AAAA", Some(SegmentReason::NoDigit(32))),
        ("AAAA\n", Some(SegmentReason::NoDigit(10))),
        ("A,A-_=,é", Some(SegmentReason::NoDigit(45))),
        ("A;é", Some(SegmentReason::NoDigit(195))),
        ("AA, ", None),
        (" A,DAAA", Some(SegmentReason::NoDigit(32))),
        ("AAAA", None),
    ] {
        same(&rt, text, mappings_fault_reason(text, 2, 2), wanted);
    }
}

/// What is really wrong with a text that is read as it is found, or else exactly.
fn reason_of(alloc: Global, text: &str) -> std::result::Result<Option<FaultReason>, Fail> {
    let exact = json_fault_at(alloc, text)?;
    let Some(place) = found_fault_at(alloc, text)?.or(exact) else {
        return Ok(None);
    };
    let reason = fault_reason(alloc, text, &place)?;
    // The number of a text does not count.
    if fault_reason(alloc, text, &place.in_text(3))? != reason {
        return Ok(None);
    }
    if exact == Some(place) && json_fault_reason(alloc, text, &place)? != reason {
        return Ok(None);
    }
    Ok(reason)
}

#[test]
fn texts_have_reasons(rt: HostRuntime) -> std::result::Result<(), Fail> {
    for (text, wanted) in [
        (r#"{"version":3,"sources":["a"],"mappings":"AAAA,DAAA"}"#, Some("a column below 0")),
        (r#"{"version":3,"sources":["a"],"mappings":"AAAA,AA"}"#, None),
        (r#"{"version":3,"sources":["a"],"mappings":"ADAA"}"#, Some("a source id below 0")),
        (r#"{"version":3,"sources":["a"],"mappings":"ACAA"}"#, Some("the source id is 1")),
        (r#"{"version":3,"sources":["a"],"names":["n"],"mappings":"AAAAD"}"#, Some("a name id below 0")),
        (r#"{"version":3,"sources":["a"],"mappings":"AADA"}"#, Some("a source line below 0")),
        (r#"{"version":3,"sources":["a"],"mappings":"AAAD"}"#, Some("a source column below 0")),
        (r#"{"version":3,"sources":["a"],"mappings":"AAAAggggggI","names":[]}"#, Some("the name id is 4294967296")),
        (r#"{"version":3,"sources":["a"],"mappings":"AAAA\n"}"#, Some("a byte that is no digit: 0xa")),
        (")]}'\n{\"version\":\"3\",\"sources\":[null],\"mappings\":\"A,D\"}", Some("a column below 0")),
        // A section.
        (r#"{"version":3,"sections":[{"offset":{"line":0,"column":0},"map":{"version":3,"sources":["a"],"mappings":"A"}},{"offset":{"line":1,"column":0},"map":{"version":3,"sources":["a"],"mappings":"D"}}]}"#, Some("a column below 0")),
        (r#"{"version":3,"sections":[{"offset":{"line":-1,"column":0},"map":{"version":3,"sources":["a"],"mappings":""}}]}"#, Some("a number below 0")),
        (r#"{"version":3,"sections":[{"offset":{"line":0,"column":0.0},"map":{"version":3,"sources":["a"],"mappings":""}}]}"#, Some("a whole number that is not written in digits alone")),
        (r#"{"version":3,"sections":[{"offset":{"line":0,"column":1.5},"map":{"version":3,"sources":["a"],"mappings":""}}]}"#, Some("a number that is not whole")),
        (r#"{"version":3,"sections":[{"offset":{"column":-1},"map":{"version":3,"sources":["a"],"mappings":""}}]}"#, None),
        (r#"{"version":3,"sections":[{"offset":{"line":"0","column":0},"map":{"version":3,"sources":["a"],"mappings":""}}]}"#, None),
        // Numbers.
        (r#"{"version":3.0,"sources":[],"mappings":""}"#, Some("a whole number that is not written in digits alone")),
        (r#"{"version":3e0,"sources":[],"mappings":""}"#, Some("a whole number that is not written in digits alone")),
        (r#"{"version":-3,"sources":[],"mappings":""}"#, Some("a number below 0")),
        (r#"{"version":3.5,"sources":[],"mappings":""}"#, Some("a number that is not whole")),
        (r#"{"version":4294967296,"sources":[],"mappings":""}"#, Some("a number above 4294967295")),
        (r#"{"version":2,"sources":[],"mappings":""}"#, None),
        (r#"{"version":"3","sources":[],"mappings":""}"#, None),
        (r#"{"version":3,"sources":["a"],"mappings":"","ignoreList":[0,-1]}"#, Some("a number below 0")),
        (r#"{"version":3,"sources":["a"],"mappings":"","x_google_ignoreList":[0.0]}"#, Some("a whole number that is not written in digits alone")),
        (r#"{"version":3,"sources":["a"],"mappings":"","ignoreList":[7]}"#, None),
        (r#"{"version":3,"sources":["a",1.5],"mappings":""}"#, None),
        (r#"{"version":3,"file":1.5,"sources":["a"],"mappings":""}"#, None),
        // What is JSON and is not read.
        (r#"{"version":3,"sources":["\ud800"],"mappings":""}"#, Some("a lone surrogate")),
        (r#"{"version":3,"sources":["a\"\ud83d\ude00\\\udc00"],"mappings":""}"#, Some("a lone surrogate")),
        (r#"{"version":3,"sources":["\ud800\u0041"],"mappings":""}"#, Some("a lone surrogate")),
        (r#"{"version":3,"sources":["\u00e9\q"],"mappings":""}"#, None),
        ("{\"version\":3,\"sources\":[\"a\tb\"],\"mappings\":\"\"}", None),
        (r#"{"\udfff":3}"#, Some("a lone surrogate")),
        (r#"{"version":1e999}"#, Some("a number too large for a float")),
        (r#"{"x":[1,-2e400 , {"a":3}],"version":3}"#, Some("a number too large for a float")),
        ("1e999", Some("a number too large for a float")),
        (r#"{"x":1e308,}"#, None),
        (r#"{"version":03}"#, None),
        (r#"{"version":NaN}"#, None),
        ("[[\"", None),
        ("<html>", None),
        ("", None),
        ("data:application/json,%7B%22a%22:%22%5Cud800%22%7D", Some("a lone surrogate")),
        (")]}'[[[\n{\"a\":1e999}", Some("a number too large for a float")),
    ] {
        match reason_of(rt.alloc(), text)? {
            Some(reason) => same(&rt, text, Some(reason.to_string(rt.alloc())?.as_str()), wanted),
            None => same(&rt, text, None, wanted),
        }
    }
    Ok(())
}

/// An array in an array, and so on, as a member.
fn nested(alloc: Global, depth: usize) -> std::result::Result<String, AllocError> {
    let mut text = String::from_str(alloc, r#"{"version":3,"sources":["[[["],"mappings":"","x":"#)?;
    for _ in 0..depth {
        text.push('[')?;
    }
    for _ in 0..depth {
        text.push(']')?;
    }
    text.push('}')?;
    Ok(text)
}

#[test]
fn depth_is_a_reason(rt: HostRuntime) -> std::result::Result<(), Fail> {
    let alloc = rt.alloc();
    let (fine, deep, deeper) = (nested(alloc, 126)?, nested(alloc, 127)?, nested(alloc, 5000)?);
    same(&rt, "fine", decode_from_string(alloc, fine.as_str()).is_ok(), true);
    same(&rt, "deep", reason_of(alloc, deep.as_str())?, Some(FaultReason::TooDeep));
    same(&rt, "deeper", reason_of(alloc, deeper.as_str())?, Some(FaultReason::TooDeep));
    // A place of another text.
    let place = json_fault_at(alloc, deep.as_str())?;
    same(&rt, "other", place.and_then(|place| fault_reason(alloc, fine.as_str(), &place).ok().flatten()), None);
    Ok(())
}
