//! Maps as they are found. The answers are those of tests/reference/found.py, the places are worked by hand.
use crate::helpers::{has_text, same};
use oxc_sourcemap::{Found, Result, SourceMap, found_fault_at, read_found};
use std::alloc::Global;
use std::process::Abort;

/// A text, and the JSON text of the map that is found in it and the lines of its mends, or the text of the error.
type Row = (&'static str, &'static str);

/// Maps of the shapes that tools write and the exact reader refuses.
#[rattlefmt::skip]
const OF_TOOLS: &[Row] = &[
    // Sources that are null.
    (r#"{"version":3,"sources":[null,"b.js"],"names":[],"mappings":"AAAA,CCAA"}"#,
     "{\"version\":3,\"names\":[],\"sources\":[\"\",\"b.js\"],\"mappings\":\"AAAA,CCAA\"}\nsource 0 is null, and is read as an empty text"),
    // The version as a text, and as a float.
    (r#"{"version":"3","sources":["a.js"],"names":[],"mappings":"AAAA"}"#,
     "{\"version\":3,\"names\":[],\"sources\":[\"a.js\"],\"mappings\":\"AAAA\"}\nversion is 3.0 or the text 3, and is read as 3"),
    (r#"{"version":3.0,"sources":["a.js"],"names":[],"mappings":"AAAA"}"#,
     "{\"version\":3,\"names\":[],\"sources\":[\"a.js\"],\"mappings\":\"AAAA\"}\nversion is 3.0 or the text 3, and is read as 3"),
    // Names that are null.
    (r#"{"version":3,"sources":["a.js"],"names":null,"mappings":"AAAA"}"#,
     "{\"version\":3,\"names\":[],\"sources\":[\"a.js\"],\"mappings\":\"AAAA\"}\nnames is null, and is read as missing"),
    // Ids out of range: of sources, and of names.
    (r#"{"version":3,"sources":["a.js"],"names":["x"],"mappings":"AAAAA,CAAAC,CCAA,CDAAD"}"#,
     "{\"version\":3,\"names\":[\"x\"],\"sources\":[\"a.js\"],\"mappings\":\"AAAAA,CAAA,C,CAAAA\"}\ntokens with a source id out of range, which are read as unmapped: 1\ntokens with a name id out of range, which are read without a name: 1"),
    // Columns that go back.
    (r#"{"version":3,"sources":["a.js"],"names":[],"mappings":"GAAA,HACA,GACA"}"#,
     "{\"version\":3,\"names\":[],\"sources\":[\"a.js\"],\"mappings\":\"AACA,GADA,AAEA\"}\nthe tokens are not in order, and are sorted"),
];

/// What else is mended, and what is refused.
#[rattlefmt::skip]
const OTHERS: &[Row] = &[
    // Nothing to mend.
    (r#"{"version":3,"file":"f","names":["x"],"sources":["a.js"],"sourcesContent":["A",null],"ignoreList":[0],"mappings":"AAAAA","debugId":"d"}"#,
     "{\"version\":3,\"file\":\"f\",\"names\":[\"x\"],\"sources\":[\"a.js\"],\"sourcesContent\":[\"A\",null],\"ignoreList\":[0],\"mappings\":\"AAAAA\",\"debugId\":\"d\"}"),
    // All lists at once; entries count from 0.
    (r#"{"version":3,"sources":[null,"b",null],"sourcesContent":[1,null,"t",true],"ignoreList":["a",0,3,2.0,2,-1],"mappings":""}"#,
     "{\"version\":3,\"names\":[],\"sources\":[\"\",\"b\",\"\"],\"sourcesContent\":[null,null,\"t\",null],\"ignoreList\":[0,2],\"mappings\":\"\"}\nsource 0 is null, and is read as an empty text\nsource 2 is null, and is read as an empty text\ncontent 0 is neither a text nor null, and is read as null\ncontent 3 is neither a text nor null, and is read as null\nentry 0 of ignoreList is no id of a source, and is left out\nentry 2 of ignoreList is no id of a source, and is left out\nentry 3 of ignoreList is no id of a source, and is left out\nentry 5 of ignoreList is no id of a source, and is left out"),
    // No list at all: the older ignore list counts.
    (r#"{"version":3,"sources":["a"],"sourcesContent":"A","ignoreList":{},"x_google_ignoreList":[0,1,null],"mappings":""}"#,
     "{\"version\":3,\"names\":[],\"sources\":[\"a\"],\"ignoreList\":[0],\"mappings\":\"\"}\nsourcesContent is no list, and is read as missing\nignoreList is no list, and is read as missing\nentry 1 of x_google_ignoreList is no id of a source, and is left out\nentry 2 of x_google_ignoreList is no id of a source, and is left out"),
    (r#"{"version":3,"sources":["a"],"ignoreList":0,"x_google_ignoreList":"a","mappings":""}"#,
     "{\"version\":3,\"names\":[],\"sources\":[\"a\"],\"mappings\":\"\"}\nignoreList is no list, and is read as missing\nx_google_ignoreList is no list, and is read as missing"),
    // The older list is not looked at beside an `ignoreList`.
    (r#"{"version":3,"sources":["a"],"ignoreList":[0],"x_google_ignoreList":[7,"a"],"mappings":""}"#,
     "{\"version\":3,\"names\":[],\"sources\":[\"a\"],\"ignoreList\":[0],\"mappings\":\"\"}"),
    // Missing sources; then no id of a source is in range.
    (r#"{"version":3,"names":["x"],"mappings":"AAAAA,I","ignoreList":[0]}"#,
     "{\"version\":3,\"names\":[\"x\"],\"sources\":[],\"ignoreList\":[],\"mappings\":\"A,I\"}\nsources is missing, and is read as an empty list\nentry 0 of ignoreList is no id of a source, and is left out\ntokens with a source id out of range, which are read as unmapped: 1"),
    // What is refused as by the exact reader.
    ("",
     "error: JSON parsing error: the text is not JSON"),
    ("[]",
     "error: JSON parsing error: the value is not an object"),
    ("3",
     "error: JSON parsing error: the value is not an object"),
    ("{}",
     "error: JSON parsing error: field version is missing or has the wrong type"),
    (r#"{"version":2,"sources":[null],"mappings":""}"#,
     "error: JSON parsing error: unsupported source map version: 2"),
    (r#"{"version":"4","mappings":""}"#,
     "error: JSON parsing error: field version is missing or has the wrong type"),
    (r#"{"version":3.5,"mappings":""}"#,
     "error: JSON parsing error: field version is missing or has the wrong type"),
    (r#"{"version":3,"sources":null,"mappings":""}"#,
     "error: JSON parsing error: field sources is missing or has the wrong type"),
    (r#"{"version":3,"sources":[1],"mappings":""}"#,
     "error: JSON parsing error: field sources is missing or has the wrong type"),
    (r#"{"version":3,"names":[null],"mappings":""}"#,
     "error: JSON parsing error: field names is missing or has the wrong type"),
    (r#"{"version":3}"#,
     "error: JSON parsing error: field mappings is missing or has the wrong type"),
    (r#"{"version":3,"mappings":null}"#,
     "error: JSON parsing error: field mappings is missing or has the wrong type"),
    (r#"{"version":3,"file":1,"mappings":""}"#,
     "error: JSON parsing error: field file is missing or has the wrong type"),
    (r#"{"version":3,"sources":["a"],"mappings":"AA"}"#,
     "error: Mapping segment had an unsupported size of 2"),
    (r#"{"version":3,"sources":["a"],"mappings":"g"}"#,
     "error: VLQ string was malformed and data was left over"),
    (r#"{"version":3,"sources":["a"],"mappings":"ADAA"}"#,
     "error: Reference to non-existing source at position 0"),
    (r#"{"version":3,"sources":["a"],"mappings":"A+/////HAA"}"#,
     "error: Reference to non-existing source at position 0"),
];

/// What is passed over and opened in front of the JSON text.
#[rattlefmt::skip]
const OPENED: &[Row] = &[
    // A byte order mark, the line that keeps a script from running a text, and both; the mark comes first.
    ("\u{feff}{\"version\":3,\"sources\":[\"a.js\"],\"names\":[],\"mappings\":\"AAAA\"}",
     "{\"version\":3,\"names\":[],\"sources\":[\"a.js\"],\"mappings\":\"AAAA\"}\nthe byte order mark in front is passed over"),
    (")]}'\n{\"version\":3,\"sources\":[\"a.js\"],\"names\":[],\"mappings\":\"AAAA\"}",
     "{\"version\":3,\"names\":[],\"sources\":[\"a.js\"],\"mappings\":\"AAAA\"}\nthe first line, which begins with )]}', is passed over"),
    (")]}', while(1);\r\n{\"version\":3,\"sources\":[\"a.js\"],\"names\":[],\"mappings\":\"AAAA\"}",
     "{\"version\":3,\"names\":[],\"sources\":[\"a.js\"],\"mappings\":\"AAAA\"}\nthe first line, which begins with )]}', is passed over"),
    ("\u{feff})]}'\n{\"version\":3,\"sources\":[\"a.js\"],\"names\":null,\"mappings\":\"AAAA\"}",
     "{\"version\":3,\"names\":[],\"sources\":[\"a.js\"],\"mappings\":\"AAAA\"}\nthe byte order mark in front is passed over\nthe first line, which begins with )]}', is passed over\nnames is null, and is read as missing"),
    // Data URLs: percent-encoded, base64, with a charset, without padding, behind a line.
    ("data:application/json,%7B%22version%22:3,%22sources%22:[%22a.js%22],%22mappings%22:%22AAAA%22%7D",
     "{\"version\":3,\"names\":[],\"sources\":[\"a.js\"],\"mappings\":\"AAAA\"}\nthe text is a data URL, and the text in it is read"),
    ("data:application/json;base64,eyJ2ZXJzaW9uIjozLCJzb3VyY2VzIjpbbnVsbF0sIm1hcHBpbmdzIjoiQUFBQSJ9",
     "{\"version\":3,\"names\":[],\"sources\":[\"\"],\"mappings\":\"AAAA\"}\nthe text is a data URL, and the text in it is read\nsource 0 is null, and is read as an empty text"),
    ("DATA:Application/JSON;charset=utf-8;BASE64,eyJ2ZXJzaW9uIjozLCJzb3VyY2VzIjpbXSwibWFwcGluZ3MiOiIifQ#x",
     "{\"version\":3,\"names\":[],\"sources\":[],\"mappings\":\"\"}\nthe text is a data URL, and the text in it is read"),
    (")]}'\ndata:text/json,{\"version\":3,\"sources\":[],\"mappings\":\"\"}",
     "{\"version\":3,\"names\":[],\"sources\":[],\"mappings\":\"\"}\nthe first line, which begins with )]}', is passed over\nthe text is a data URL, and the text in it is read"),
    // Nothing of this is passed over twice, nor in another order, nor inside of a URL.
    ("\u{feff}\u{feff}{\"version\":3,\"sources\":[],\"mappings\":\"\"}",
     "error: JSON parsing error: the text is not JSON"),
    (")]}'\n\u{feff}{\"version\":3,\"sources\":[],\"mappings\":\"\"}",
     "error: JSON parsing error: the text is not JSON"),
    (")]}'\n)]}'\n{\"version\":3,\"sources\":[],\"mappings\":\"\"}",
     "error: JSON parsing error: the text is not JSON"),
    (")]}'\r{\"version\":3,\"sources\":[],\"mappings\":\"\"}",
     "error: JSON parsing error: the text is not JSON"),
    (")]}'{\"version\":3,\"sources\":[],\"mappings\":\"\"}",
     "error: JSON parsing error: the text is not JSON"),
    (" )]}'\n{\"version\":3,\"sources\":[],\"mappings\":\"\"}",
     "error: JSON parsing error: the text is not JSON"),
    (")]}\n{\"version\":3,\"sources\":[],\"mappings\":\"\"}",
     "error: JSON parsing error: the text is not JSON"),
    ("\u{feff}",
     "error: JSON parsing error: the text is not JSON"),
    ("data:application/json,data:application/json,{\"version\":3,\"sources\":[],\"mappings\":\"\"}",
     "error: JSON parsing error: the text is not JSON"),
    ("data:application/json,\u{feff}{\"version\":3,\"sources\":[],\"mappings\":\"\"}",
     "error: JSON parsing error: the text is not JSON"),
    // A data URL of another type, of no JSON, and whose data are no text.
    ("data:text/plain,{\"version\":3,\"sources\":[],\"mappings\":\"\"}",
     "error: JSON parsing error: the text is not JSON"),
    ("data:application/json,a.js",
     "error: JSON parsing error: the text is not JSON"),
    ("data:application/json;base64,e3*0",
     "error: JSON parsing error: the text is not JSON"),
    ("data:application/json,%ff",
     "error: JSON parsing error: the text is not JSON"),
    ("data:application/json;base64,e30=\n",
     "error: JSON parsing error: the text is not JSON"),
    ("data:",
     "error: JSON parsing error: the text is not JSON"),
];

/// Sections of indexed maps.
#[rattlefmt::skip]
const SECTIONS: &[Row] = &[
    // Each section is mended as a map by itself; ids are ids of its own lists.
    (r#"{"version":3,"sections":[{"offset":{"line":0,"column":0},"map":{"version":3,"sources":[null],"mappings":"AAAAA,CCAA"}},{"offset":{"line":1,"column":0},"map":{"version":"3","names":null,"mappings":"AAAA"}}]}"#,
     "{\"version\":3,\"names\":[],\"sources\":[\"\"],\"mappings\":\"AAAA,C;A\"}\nsection 0: source 0 is null, and is read as an empty text\nsection 0: tokens with a source id out of range, which are read as unmapped: 1\nsection 0: tokens with a name id out of range, which are read without a name: 1\nsection 1: version is 3.0 or the text 3, and is read as 3\nsection 1: sources is missing, and is read as an empty list\nsection 1: names is null, and is read as missing\nsection 1: tokens with a source id out of range, which are read as unmapped: 1"),
    (r#"{"version":3,"sections":[{"offset":{"line":0,"column":0},"map":{"version":3,"sources":["a.js"],"mappings":"GAAA,HACA"}},{"offset":{"line":0,"column":9},"map":{"version":3,"sources":["b.js"],"sourcesContent":[1],"ignoreList":[0,1],"mappings":"AAAA"}}]}"#,
     "{\"version\":3,\"names\":[],\"sources\":[\"a.js\",\"b.js\"],\"ignoreList\":[1],\"mappings\":\"AACA,GADA,MCAA\"}\nsection 1: content 0 is neither a text nor null, and is read as null\nsection 1: entry 1 of ignoreList is no id of a source, and is left out\nthe tokens are not in order, and are sorted"),
    (r#"{"version":3.0,"file":"f","names":7,"sections":[{"offset":{"line":0,"column":0},"map":{"version":3,"sources":["a.js"],"mappings":"AAAA"}}]}"#,
     "{\"version\":3,\"file\":\"f\",\"names\":[],\"sources\":[\"a.js\"],\"mappings\":\"AAAA\"}\nversion is 3.0 or the text 3, and is read as 3"),
    // A section that reaches into the next is cut; a token where that begins stays.
    (r#"{"version":3,"sections":[{"offset":{"line":0,"column":0},"map":{"version":3,"sources":["a.js"],"mappings":"AAAA,IAAI,CAAC"}},{"offset":{"line":0,"column":4},"map":{"version":3,"sources":["b.js"],"mappings":"AAAA"}}]}"#,
     "{\"version\":3,\"names\":[],\"sources\":[\"a.js\",\"b.js\"],\"mappings\":\"AAAA,IAAI,ACAJ\"}\nsection 0: tokens behind the beginning of the next section, which are left out: 1"),
    (r#"{"version":3,"sections":[{"offset":{"line":0,"column":0},"map":{"version":3,"sources":["a.js"],"mappings":"AAAA;EAAA;;EAAA"}},{"offset":{"line":1,"column":2},"map":{"version":3,"sources":[],"mappings":""}},{"offset":{"line":1,"column":3},"map":{"version":3,"sources":["b.js"],"mappings":"AAAA"}}]}"#,
     "{\"version\":3,\"names\":[],\"sources\":[\"a.js\",\"b.js\"],\"mappings\":\"AAAA;EAAA,CCAA\"}\nsection 0: tokens behind the beginning of the next section, which are left out: 1"),
    (r#"{"version":3,"sections":[{"offset":{"line":2,"column":5},"map":{"version":3,"sources":["a.js"],"mappings":"AAAA,EAAE;AAAA"}},{"offset":{"line":2,"column":6},"map":{"version":3,"sources":["b.js"],"mappings":"AAAA"}}]}"#,
     "{\"version\":3,\"names\":[],\"sources\":[\"a.js\",\"b.js\"],\"mappings\":\";;KAAA,CCAA\"}\nsection 0: tokens behind the beginning of the next section, which are left out: 2"),
    // One whose last token does not reach into the next is not, wherever its other tokens are: the exact reader reads it.
    (r#"{"version":3,"sections":[{"offset":{"line":0,"column":0},"map":{"version":3,"sources":["a.js"],"mappings":"UAAA,RAAA"}},{"offset":{"line":0,"column":5},"map":{"version":3,"sources":["b.js"],"mappings":"AAAA"}},{"offset":{"line":0,"column":5},"map":{"version":3,"sources":["c.js"],"mappings":"CAAA"}}]}"#,
     "{\"version\":3,\"names\":[],\"sources\":[\"a.js\",\"b.js\",\"c.js\"],\"mappings\":\"EAAA,GCAA,CCAA,IFAA\"}\nthe tokens are not in order, and are sorted"),
    (r#"{"version":3,"sections":[{"offset":{"line":0,"column":0},"map":{"version":3,"sources":["a.js"],"mappings":"IAAA,HAAA,DAAA,GAAA"}},{"offset":{"line":0,"column":2},"map":{"version":3,"sources":["b.js"],"mappings":"AAAA"}}]}"#,
     "{\"version\":3,\"names\":[],\"sources\":[\"a.js\",\"b.js\"],\"mappings\":\"AAAA,CAAA,CCAA\"}\nsection 0: tokens behind the beginning of the next section, which are left out: 2\nthe tokens are not in order, and are sorted"),
    (r#"{"version":3,"sections":[{"offset":{"line":0,"column":0},"map":{"version":3,"sources":["a.js"],"mappings":"IAAA,HAAA,EAAA"}},{"offset":{"line":0,"column":2},"map":{"version":3,"sources":["b.js"],"mappings":"AAAA"}}]}"#,
     "{\"version\":3,\"names\":[],\"sources\":[\"a.js\",\"b.js\"],\"mappings\":\"CAAA,CCAA\"}\nsection 0: tokens behind the beginning of the next section, which are left out: 2"),
    (r#"{"version":3,"sections":[{"offset":{"line":0,"column":4294967295},"map":{"version":3,"sources":["a.js"],"mappings":"CAAA"}},{"offset":{"line":0,"column":4294967295},"map":{"version":3,"sources":[],"mappings":"A"}}]}"#,
     "{\"version\":3,\"names\":[],\"sources\":[\"a.js\"],\"mappings\":\"+/////H\"}\nsection 0: tokens behind the beginning of the next section, which are left out: 1"),
    // What is refused as by the exact reader: the order of offsets, offsets, no map, an inner indexed map, mappings; the limits come last.
    (r#"{"version":3,"sections":[{"offset":{"line":0,"column":4},"map":{"version":3,"sources":["a.js"],"mappings":""}},{"offset":{"line":0,"column":3},"map":3}]}"#,
     "error: Section 1 begins before the end of what is in front of it"),
    (r#"{"version":3,"sections":[{"offset":{"line":0},"map":3}]}"#,
     "error: JSON parsing error: field offset is missing or has the wrong type"),
    (r#"{"version":3,"sections":[3]}"#,
     "error: JSON parsing error: field sections is missing or has the wrong type"),
    (r#"{"version":3,"sections":[{"offset":{"line":0,"column":0}}]}"#,
     "error: JSON parsing error: field map is missing or has the wrong type"),
    (r#"{"version":3,"sections":[{"offset":{"line":0,"column":0},"map":{"version":3,"sections":[],"mappings":""}}]}"#,
     "error: JSON parsing error: field map is missing or has the wrong type"),
    (r#"{"version":3,"sections":[{"offset":{"line":0,"column":0},"map":{"version":3,"sources":["a.js"],"mappings":"AA"}}]}"#,
     "error: Mapping segment had an unsupported size of 2"),
    (r#"{"version":3,"sections":[{"offset":{"line":0,"column":0},"map":{"version":3,"sources":[]}}]}"#,
     "error: JSON parsing error: field mappings is missing or has the wrong type"),
    (r#"{"version":4,"sections":[]}"#,
     "error: JSON parsing error: unsupported source map version: 4"),
    (r#"{"version":3,"sections":{}}"#,
     "error: JSON parsing error: field sections is missing or has the wrong type"),
    (r#"{"version":3,"sections":[{"offset":{"line":0,"column":4294967295},"map":{"version":3,"sources":["a.js"],"mappings":"CAAA"}}]}"#,
     "error: A line, an id or a count is too large"),
    (r#"{"version":3,"sections":[{"offset":{"line":0,"column":4294967295},"map":{"version":3,"sources":["a.js"],"mappings":"CAAA"}},{"offset":{"line":1,"column":0},"map":{"version":3,"sources":["a.js"],"mappings":"AA"}}]}"#,
     "error: Mapping segment had an unsupported size of 2"),
];

/// What is found, as a row has it.
fn answer(alloc: Global, text: &str) -> Result<String> {
    let found = match read_found(alloc, text) {
        Ok(found) => found,
        Err(error) => return Ok(format!(in alloc; "error: {error}")?),
    };
    let mut out = found.map.to_json_string(alloc)?;
    for mend in &found.mends {
        let line = format!(in alloc; "\n{mend}")?;
        out.push_str(line.as_str())?;
    }
    Ok(out)
}

fn are_found(rt: &(impl Abort + AllocGlobal), rows: &[Row]) -> Result<()> {
    for (text, wanted) in rows {
        let found = answer(rt.alloc(), text)?;
        same(rt, text, found.as_str(), *wanted);
        // A place is told of each error, but not of a join that passes a limit.
        let place = found_fault_at(rt.alloc(), text)?;
        same(rt, text, place.is_some(), wanted.starts_with("error: ") && !wanted.ends_with("too large"));
    }
    Ok(())
}

#[test]
fn maps_of_tools_are_read(rt: HostRuntime) -> Result<()> {
    are_found(&rt, OF_TOOLS)
}

#[test]
fn what_is_not_mended_is_refused(rt: HostRuntime) -> Result<()> {
    are_found(&rt, OTHERS)
}

#[test]
fn what_is_in_front_is_passed_over(rt: HostRuntime) -> Result<()> {
    are_found(&rt, OPENED)
}

#[test]
fn sections_are_mended_and_cut(rt: HostRuntime) -> Result<()> {
    are_found(&rt, SECTIONS)
}

/// Texts that are refused, and where.
#[rattlefmt::skip]
const PLACES: &[Row] = &[
    ("{\"version\": x}", "line 0, column 12 (byte 12)"),
    ("\u{feff}{\"version\": x}", "line 0, column 15 (byte 15)"),
    (")]}'\n{\n \"version\": x}", "line 2, column 12 (byte 19)"),
    (")]}' no line feed", "line 0, column 17 (byte 17)"),
    ("data:application/json,{x}", "line 0, column 1 (byte 1)"),
    (")]}'\n[]", "the value"),
    (r#"{"version":2,"sources":[],"mappings":""}"#, "version"),
    (r#"{"version":3,"sources":[null,1],"mappings":""}"#, "entry 1 of sources"),
    (r#"{"version":3,"sources":["a"],"mappings":"AEAA;A,AA"}"#, "line 1, segment 1 (byte 7)"),
    (r#"{"version":"3","file":1,"sections":[]}"#, "file"),
    (r#"{"version":"3","sections":{}}"#, "sections"),
    (r#"{"version":3,"sections":[7]}"#, "entry 0 of sections"),
    (r#"{"version":3,"sections":[{"offset":{"line":1,"column":0},"map":{"version":3,"mappings":""}},{"offset":{"line":0,"column":9},"map":{"version":3,"mappings":""}}]}"#,
     "section 1, offset"),
    (r#"{"version":3,"sections":[{"offset":{"line":0,"column":0},"map":{"version":3,"sections":[]}}]}"#, "section 0, map"),
    (r#"{"version":3,"sections":[{"offset":{"line":0,"column":0},"map":{"version":3,"mappings":""}},{"offset":{"line":1,"column":0},"map":{"version":"3","sources":[null],"mappings":";AA"}}]}"#,
     "section 1, line 1, segment 0 (byte 1)"),
];

#[test]
fn what_is_refused_has_its_place(rt: HostRuntime) -> Result<()> {
    for (text, wanted) in PLACES {
        let place = found_fault_at(rt.alloc(), text)?;
        let told = match place {
            Some(place) => place.to_string(rt.alloc())?,
            None => String::new(rt.alloc()),
        };
        same(&rt, text, told.as_str(), *wanted);
    }
    Ok(())
}

/// A map that the exact reader reads, and that is sorted, is read as the same.
#[test]
fn exact_maps_are_found_as_they_are(rt: HostRuntime) -> Result<()> {
    let text = r#"{"version":3,"sections":[
        {"offset":{"line":0,"column":0},"map":{"version":3,"sources":["a.js"],"mappings":"AAAA"}},
        {"offset":{"line":2,"column":0},"map":{"version":3,"sources":["b.js"],"mappings":"AAAA"}}]}"#;
    let map = SourceMap::from_json_string(rt.alloc(), text)?.to_json_string(rt.alloc())?;
    let Found { map: found, mends } = read_found(rt.alloc(), text)?;
    has_text(&rt, rt.alloc(), "indexed", &Ok(found), Ok(map.as_str()));
    same(&rt, "mends", mends.len(), 0);
    Ok(())
}
