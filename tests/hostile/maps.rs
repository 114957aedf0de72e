//! Maps that `new` and `from_parts` let through, and what each call has to answer to them.
use crate::rows::{Row, chunks_of, map_of};
use oxc_sourcemap::{Error, Result, SourceMap};
use std::alloc::Global;

/// A map, and what calls answer to it.
pub struct Hostile {
    pub names: &'static [&'static str],
    pub sources: &'static [&'static str],
    pub contents: &'static [Option<&'static str>],
    pub rows: &'static [Row],
    pub chunks: Option<&'static [[u32; 8]]>,
    pub ignored: Option<&'static [u32]>,
    pub is_sorted: bool,
    pub is_sound: bool,
    /// Its JSON text.
    pub text: Result<&'static str>,
    /// Why that is not written, or not read back.
    pub reading: Option<Error>,
    /// The index of the first of its chunks that does not fit.
    pub misfit: Option<usize>,
    /// What each of its chunks is written as.
    pub pieces: &'static [Result<&'static str>],
    /// How many slices its lookup table has.
    pub lines: Result<usize>,
    /// Source, source line and column, and name of its first token.
    pub origin: (Option<&'static str>, u32, u32, Option<&'static str>),
    /// The JSON text of its join with `INPUT`, one line down.
    pub joined: Result<&'static str>,
    /// The JSON text of the join of `INPUT` with it, one line down and one column to the right.
    pub behind: Result<&'static str>,
    /// The JSON text of its composition with `INPUT`.
    pub first: Result<&'static str>,
    /// The JSON text of the composition of `FIRST` with it.
    pub second: Result<&'static str>,
    /// The visual text beside the code `ab` with a line feed.
    pub shown: &'static str,
}

/// What a row has of the fields that it does not name. Each row names the five JSON texts.
const USUAL: Hostile = Hostile {
    names: &[],
    sources: &[],
    contents: &[],
    rows: &[],
    chunks: None,
    ignored: None,
    is_sorted: true,
    is_sound: false,
    text: Ok(""),
    reading: None,
    misfit: None,
    pieces: &[],
    lines: Ok(1),
    origin: (None, 0, 0, None),
    joined: Ok(""),
    behind: Ok(""),
    first: Ok(""),
    second: Ok(""),
    shown: "[no source contents]\n",
};

/// Names, sources and tokens of a map that others are joined and composed with.
pub type Parts = (
    &'static [&'static str],
    &'static [&'static str],
    &'static [Row],
);

pub const INPUT: Parts = (&["n"], &["in.js"], &[(0, 0, 7, 7, Some(0), None)]);

pub const FIRST: Parts = (
    &["p"],
    &["m.js"],
    &[
        (0, 0, 0, 0, Some(0), Some(0)),
        (0, 9, 4294967295, 4294967295, Some(0), None),
    ],
);

/// The map of these names, sources and tokens.
pub fn map_of_parts(alloc: Global, parts: Parts) -> Result<SourceMap<'static>> {
    map_of(alloc, parts.0, parts.1, &[], parts.2)
}

/// The map of a row of the tables below.
pub fn hostile_map(alloc: Global, hostile: &Hostile) -> Result<SourceMap<'static>> {
    let map = map_of(
        alloc,
        hostile.names,
        hostile.sources,
        hostile.contents,
        hostile.rows,
    )?;
    let mut parts = map.into_parts();
    parts.token_chunks = chunks_of(alloc, &hostile.chunks)?;
    if let Some(ids) = hostile.ignored {
        parts.ignore_list = Some(ids.to_vec(alloc)?);
    }
    Ok(SourceMap::from_parts(parts))
}

/// Lines and columns that go back or are the greatest.
const ORDERS: &[Hostile] = &[
    // Lines that go back.
    Hostile {
        rows: &[(1, 0, 0, 0, None, None), (0, 0, 0, 0, None, None)],
        is_sorted: false,
        text: Err(Error::LineOrder(1)),
        reading: Some(Error::LineOrder(1)),
        lines: Err(Error::LineOrder(1)),
        joined: Err(Error::LineOrder(1)),
        behind: Err(Error::LineOrder(2)),
        first: Err(Error::LineOrder(1)),
        second: Err(Error::LineOrder(1)),
        ..USUAL
    },
    // Lines that go back, in chunks that fit.
    Hostile {
        rows: &[(1, 0, 0, 0, None, None), (0, 0, 0, 0, None, None)],
        chunks: Some(&[[0, 1, 0, 0, 0, 0, 0, 0], [1, 2, 1, 0, 0, 0, 0, 0]]),
        is_sorted: false,
        text: Err(Error::LineOrder(1)),
        reading: Some(Error::LineOrder(1)),
        pieces: &[Ok(";A"), Err(Error::LineOrder(1))],
        lines: Err(Error::LineOrder(1)),
        joined: Err(Error::LineOrder(1)),
        behind: Err(Error::LineOrder(2)),
        first: Err(Error::LineOrder(1)),
        second: Err(Error::LineOrder(1)),
        ..USUAL
    },
    // Columns that go back.
    Hostile {
        rows: &[(0, 3, 0, 0, None, None), (0, 2, 0, 0, None, None)],
        is_sorted: false,
        text: Ok(r#"{"version":3,"names":[],"sources":[],"mappings":"G,D"}"#),
        joined: Ok(r#"{"version":3,"names":["n"],"sources":["in.js"],"mappings":"G,D;AAOO"}"#),
        behind: Ok(r#"{"version":3,"names":["n"],"sources":["in.js"],"mappings":"AAOO;I,D"}"#),
        first: Ok(r#"{"version":3,"names":["n"],"sources":["in.js"],"mappings":"G,D"}"#),
        second: Ok(r#"{"version":3,"names":[],"sources":[],"mappings":"A,S"}"#),
        ..USUAL
    },
    // Columns that go back, on two lines.
    Hostile {
        rows: &[
            (0, 9, 0, 0, None, None),
            (0, 0, 0, 0, None, None),
            (0, 9, 0, 0, None, None),
            (0, 4, 0, 0, None, None),
            (1, 3, 0, 0, None, None),
            (1, 1, 0, 0, None, None),
        ],
        is_sorted: false,
        text: Ok(r#"{"version":3,"names":[],"sources":[],"mappings":"S,T,S,L;G,F"}"#),
        lines: Ok(2),
        joined: Ok(
            r#"{"version":3,"names":["n"],"sources":["in.js"],"mappings":"S,T,S,L;G,F,DAOO"}"#,
        ),
        behind: Ok(
            r#"{"version":3,"names":["n"],"sources":["in.js"],"mappings":"AAOO;U,T,S,L;G,F"}"#,
        ),
        first: Ok(r#"{"version":3,"names":["n"],"sources":["in.js"],"mappings":"S,T,S,L;G,F"}"#),
        second: Ok(r#"{"version":3,"names":[],"sources":[],"mappings":"A,S"}"#),
        ..USUAL
    },
    // The greatest columns and source line.
    Hostile {
        sources: &["a.js"],
        rows: &[(0, 4294967295, 4294967295, 4294967295, Some(0), None)],
        is_sound: true,
        text: Ok(
            r#"{"version":3,"names":[],"sources":["a.js"],"mappings":"+/////HA+/////H+/////H"}"#,
        ),
        origin: (Some("a.js"), 4294967295, 4294967295, None),
        joined: Ok(
            r#"{"version":3,"names":["n"],"sources":["a.js","in.js"],"mappings":"+/////HA+/////H+/////H;ACx/////Hx/////H"}"#,
        ),
        behind: Err(Error::TooLarge),
        first: Ok(r#"{"version":3,"names":["n"],"sources":["in.js"],"mappings":"+/////H"}"#),
        second: Ok(
            r#"{"version":3,"names":["p"],"sources":["a.js"],"mappings":"AA+/////H+/////HA,S"}"#,
        ),
        ..USUAL
    },
    // The greatest column, after the one before it.
    Hostile {
        rows: &[
            (0, 4294967294, 0, 0, None, None),
            (0, 4294967295, 0, 0, None, None),
        ],
        is_sound: true,
        text: Ok(r#"{"version":3,"names":[],"sources":[],"mappings":"8/////H,C"}"#),
        joined: Ok(
            r#"{"version":3,"names":["n"],"sources":["in.js"],"mappings":"8/////H,C;AAOO"}"#,
        ),
        behind: Err(Error::TooLarge),
        first: Ok(r#"{"version":3,"names":["n"],"sources":["in.js"],"mappings":"8/////H,C"}"#),
        second: Ok(r#"{"version":3,"names":[],"sources":[],"mappings":"A,S"}"#),
        ..USUAL
    },
];

/// Ids that are out of range, without a source, or the greatest.
const IDS: &[Hostile] = &[
    // A source id that is out of range.
    Hostile {
        sources: &["a.js"],
        rows: &[(0, 0, 0, 0, Some(5), None)],
        text: Ok(r#"{"version":3,"names":[],"sources":["a.js"],"mappings":"AKAA"}"#),
        reading: Some(Error::BadSourceReference(0)),
        joined: Ok(
            r#"{"version":3,"names":["n"],"sources":["a.js","in.js"],"mappings":"AKAA;AJOO"}"#,
        ),
        behind: Ok(
            r#"{"version":3,"names":["n"],"sources":["in.js","a.js"],"mappings":"AAOO;CMPP"}"#,
        ),
        first: Ok(r#"{"version":3,"names":["n"],"sources":["in.js"],"mappings":"AAOO"}"#),
        second: Ok(r#"{"version":3,"names":["p"],"sources":["a.js"],"mappings":"AKAAA,S"}"#),
        ..USUAL
    },
    // A name id that is out of range.
    Hostile {
        sources: &["a.js"],
        contents: &[Some("ab")],
        rows: &[(0, 0, 0, 1, Some(0), Some(7))],
        text: Ok(
            r#"{"version":3,"names":[],"sources":["a.js"],"sourcesContent":["ab"],"mappings":"AAACO"}"#,
        ),
        reading: Some(Error::BadNameReference(7)),
        origin: (Some("a.js"), 0, 1, None),
        joined: Ok(
            r#"{"version":3,"names":["n"],"sources":["a.js","in.js"],"sourcesContent":["ab",null],"mappings":"AAACO;ACOM"}"#,
        ),
        behind: Ok(
            r#"{"version":3,"names":["n"],"sources":["in.js","a.js"],"sourcesContent":[null,"ab"],"mappings":"AAOO;CCPNQ"}"#,
        ),
        first: Ok(r#"{"version":3,"names":["n"],"sources":["in.js"],"mappings":"AAOO"}"#),
        second: Ok(
            r#"{"version":3,"names":[],"sources":["a.js"],"sourcesContent":["ab"],"mappings":"AAACO,S"}"#,
        ),
        shown: "- a.js\n(0:1) \"b\" --> (0:0) \"ab\\n\"\n",
        ..USUAL
    },
    // A name id without a source.
    Hostile {
        names: &["x"],
        rows: &[(0, 0, 3, 4, None, Some(7))],
        text: Ok(r#"{"version":3,"names":["x"],"sources":[],"mappings":"A"}"#),
        origin: (None, 3, 4, None),
        joined: Ok(r#"{"version":3,"names":["x","n"],"sources":["in.js"],"mappings":"A;AAOO"}"#),
        behind: Ok(r#"{"version":3,"names":["n","x"],"sources":["in.js"],"mappings":"AAOO;C"}"#),
        first: Ok(r#"{"version":3,"names":["n"],"sources":["in.js"],"mappings":"A"}"#),
        second: Ok(r#"{"version":3,"names":["x"],"sources":[],"mappings":"A,S"}"#),
        ..USUAL
    },
    // The greatest ids.
    Hostile {
        names: &["x"],
        sources: &["a.js"],
        rows: &[(0, 0, 0, 0, Some(4294967294), Some(4294967294))],
        text: Ok(
            r#"{"version":3,"names":["x"],"sources":["a.js"],"mappings":"A8/////HAA8/////H"}"#,
        ),
        reading: Some(Error::BadSourceReference(0)),
        joined: Ok(
            r#"{"version":3,"names":["x","n"],"sources":["a.js","in.js"],"mappings":"A8/////HAA8/////H;A7/////HOO"}"#,
        ),
        behind: Err(Error::TooLarge),
        first: Ok(r#"{"version":3,"names":["n"],"sources":["in.js"],"mappings":"AAOO"}"#),
        second: Ok(
            r#"{"version":3,"names":["x"],"sources":["a.js"],"mappings":"A8/////HAA8/////H,S"}"#,
        ),
        ..USUAL
    },
];

/// Chunks that do not fit.
const CHUNKS: &[Hostile] = &[
    // A chunk that ends past the tokens.
    Hostile {
        rows: &[(0, 0, 0, 0, None, None), (0, 1, 0, 0, None, None)],
        chunks: Some(&[[0, 3, 0, 0, 0, 0, 0, 0]]),
        text: Err(Error::BadChunks(0)),
        reading: Some(Error::BadChunks(0)),
        misfit: Some(0),
        pieces: &[Err(Error::BadChunks(0))],
        joined: Ok(r#"{"version":3,"names":["n"],"sources":["in.js"],"mappings":"A,C;AAOO"}"#),
        behind: Ok(r#"{"version":3,"names":["n"],"sources":["in.js"],"mappings":"AAOO;C,C"}"#),
        first: Ok(r#"{"version":3,"names":["n"],"sources":["in.js"],"mappings":"A,C"}"#),
        second: Ok(r#"{"version":3,"names":[],"sources":[],"mappings":"A,S"}"#),
        ..USUAL
    },
    // A chunk that begins before the end of the one in front.
    Hostile {
        rows: &[(0, 0, 0, 0, None, None), (0, 1, 0, 0, None, None)],
        chunks: Some(&[[0, 2, 0, 0, 0, 0, 0, 0], [1, 2, 0, 0, 0, 0, 0, 0]]),
        text: Err(Error::BadChunks(1)),
        reading: Some(Error::BadChunks(1)),
        misfit: Some(1),
        pieces: &[Ok("A,C"), Ok(",C")],
        joined: Ok(r#"{"version":3,"names":["n"],"sources":["in.js"],"mappings":"A,C;AAOO"}"#),
        behind: Ok(r#"{"version":3,"names":["n"],"sources":["in.js"],"mappings":"AAOO;C,C"}"#),
        first: Ok(r#"{"version":3,"names":["n"],"sources":["in.js"],"mappings":"A,C"}"#),
        second: Ok(r#"{"version":3,"names":[],"sources":[],"mappings":"A,S"}"#),
        ..USUAL
    },
    // A chunk that ends before it begins, and one of the greatest numbers.
    Hostile {
        rows: &[(0, 0, 0, 0, None, None), (0, 1, 0, 0, None, None)],
        chunks: Some(&[
            [0, 2, 0, 0, 0, 0, 0, 0],
            [2, 1, 0, 1, 0, 0, 0, 0],
            [
                4294967295, 4294967295, 4294967295, 4294967295, 4294967295, 4294967295, 4294967295,
                4294967295,
            ],
        ]),
        text: Err(Error::BadChunks(1)),
        reading: Some(Error::BadChunks(1)),
        misfit: Some(1),
        pieces: &[
            Ok("A,C"),
            Err(Error::BadChunks(0)),
            Err(Error::BadChunks(0)),
        ],
        joined: Ok(r#"{"version":3,"names":["n"],"sources":["in.js"],"mappings":"A,C;AAOO"}"#),
        behind: Ok(r#"{"version":3,"names":["n"],"sources":["in.js"],"mappings":"AAOO;C,C"}"#),
        first: Ok(r#"{"version":3,"names":["n"],"sources":["in.js"],"mappings":"A,C"}"#),
        second: Ok(r#"{"version":3,"names":[],"sources":[],"mappings":"A,S"}"#),
        ..USUAL
    },
    // A chunk with a false header.
    Hostile {
        sources: &["a.js"],
        rows: &[(0, 0, 0, 0, Some(0), None), (1, 1, 0, 1, Some(0), None)],
        chunks: Some(&[[0, 1, 0, 0, 0, 0, 0, 0], [1, 2, 0, 0, 9, 9, 9, 9]]),
        text: Err(Error::BadChunks(1)),
        reading: Some(Error::BadChunks(1)),
        misfit: Some(1),
        pieces: &[Ok("AAAA"), Ok(";CTTR")],
        lines: Ok(2),
        origin: (Some("a.js"), 0, 0, None),
        joined: Ok(
            r#"{"version":3,"names":["n"],"sources":["a.js","in.js"],"mappings":"AAAA;CAAC,DCOM"}"#,
        ),
        behind: Ok(
            r#"{"version":3,"names":["n"],"sources":["in.js","a.js"],"mappings":"AAOO;CCPP;CAAC"}"#,
        ),
        first: Ok(r#"{"version":3,"names":["n"],"sources":["in.js"],"mappings":"AAOO;CAAA"}"#),
        second: Ok(r#"{"version":3,"names":["p"],"sources":["a.js"],"mappings":"AAAAA,S"}"#),
        ..USUAL
    },
    // The greatest numbers in a header, and a header on a later line.
    Hostile {
        names: &["x"],
        sources: &["a.js"],
        rows: &[
            (0, 0, 0, 0, Some(0), Some(0)),
            (1, 1, 0, 1, Some(0), Some(0)),
        ],
        chunks: Some(&[
            [
                0, 1, 0, 4294967295, 4294967295, 4294967295, 4294967295, 4294967295,
            ],
            [1, 2, 2, 0, 0, 0, 0, 0],
        ]),
        text: Err(Error::BadChunks(0)),
        reading: Some(Error::BadChunks(0)),
        misfit: Some(0),
        pieces: &[
            Ok("//////H//////H//////H//////H//////H"),
            Err(Error::LineOrder(1)),
        ],
        lines: Ok(2),
        origin: (Some("a.js"), 0, 0, Some("x")),
        joined: Ok(
            r#"{"version":3,"names":["x","n"],"sources":["a.js","in.js"],"mappings":"AAAAA;CAACA,DCOM"}"#,
        ),
        behind: Ok(
            r#"{"version":3,"names":["n","x"],"sources":["in.js","a.js"],"mappings":"AAOO;CCPPC;CAACA"}"#,
        ),
        first: Ok(
            r#"{"version":3,"names":["n","x"],"sources":["in.js"],"mappings":"AAOOC;CAAAA"}"#,
        ),
        second: Ok(r#"{"version":3,"names":["x"],"sources":["a.js"],"mappings":"AAAAA,S"}"#),
        ..USUAL
    },
    // No chunk for the tokens.
    Hostile {
        sources: &["a.js"],
        rows: &[(0, 0, 0, 0, Some(0), None)],
        chunks: Some(&[]),
        text: Err(Error::BadChunks(0)),
        reading: Some(Error::BadChunks(0)),
        misfit: Some(0),
        origin: (Some("a.js"), 0, 0, None),
        joined: Ok(
            r#"{"version":3,"names":["n"],"sources":["a.js","in.js"],"mappings":"AAAA;ACOO"}"#,
        ),
        behind: Ok(
            r#"{"version":3,"names":["n"],"sources":["in.js","a.js"],"mappings":"AAOO;CCPP"}"#,
        ),
        first: Ok(r#"{"version":3,"names":["n"],"sources":["in.js"],"mappings":"AAOO"}"#),
        second: Ok(r#"{"version":3,"names":["p"],"sources":["a.js"],"mappings":"AAAAA,S"}"#),
        ..USUAL
    },
];

/// Contents and ignored sources that do not fit the sources.
const LISTS: &[Hostile] = &[
    // More contents than sources.
    Hostile {
        sources: &["a.js"],
        contents: &[Some("A"), Some("X")],
        rows: &[(0, 0, 0, 0, Some(0), None)],
        is_sound: true,
        text: Ok(
            r#"{"version":3,"names":[],"sources":["a.js"],"sourcesContent":["A","X"],"mappings":"AAAA"}"#,
        ),
        origin: (Some("a.js"), 0, 0, None),
        joined: Ok(
            r#"{"version":3,"names":["n"],"sources":["a.js","in.js"],"sourcesContent":["A",null],"mappings":"AAAA;ACOO"}"#,
        ),
        behind: Ok(
            r#"{"version":3,"names":["n"],"sources":["in.js","a.js"],"sourcesContent":[null,"A"],"mappings":"AAOO;CCPP"}"#,
        ),
        first: Ok(r#"{"version":3,"names":["n"],"sources":["in.js"],"mappings":"AAOO"}"#),
        second: Ok(
            r#"{"version":3,"names":["p"],"sources":["a.js"],"sourcesContent":["A","X"],"mappings":"AAAAA,S"}"#,
        ),
        shown: "- a.js\n(0:0) \"A\" --> (0:0) \"ab\\n\"\n",
        ..USUAL
    },
    // Fewer contents than sources.
    Hostile {
        sources: &["a.js", "b.js"],
        contents: &[Some("A")],
        rows: &[(0, 0, 0, 0, Some(1), None)],
        is_sound: true,
        text: Ok(
            r#"{"version":3,"names":[],"sources":["a.js","b.js"],"sourcesContent":["A"],"mappings":"ACAA"}"#,
        ),
        origin: (Some("b.js"), 0, 0, None),
        joined: Ok(
            r#"{"version":3,"names":["n"],"sources":["a.js","b.js","in.js"],"sourcesContent":["A",null,null],"mappings":"ACAA;ACOO"}"#,
        ),
        behind: Ok(
            r#"{"version":3,"names":["n"],"sources":["in.js","a.js","b.js"],"sourcesContent":[null,"A",null],"mappings":"AAOO;CEPP"}"#,
        ),
        first: Err(Error::SeveralSources(2)),
        second: Ok(
            r#"{"version":3,"names":["p"],"sources":["a.js","b.js"],"sourcesContent":["A"],"mappings":"ACAAA,S"}"#,
        ),
        shown: "",
        ..USUAL
    },
    // An ignored source that is out of range.
    Hostile {
        sources: &["a.js"],
        rows: &[(0, 0, 0, 0, Some(0), None)],
        ignored: Some(&[3]),
        text: Ok(
            r#"{"version":3,"names":[],"sources":["a.js"],"ignoreList":[3],"mappings":"AAAA"}"#,
        ),
        reading: Some(Error::BadSourceReference(3)),
        origin: (Some("a.js"), 0, 0, None),
        joined: Ok(
            r#"{"version":3,"names":["n"],"sources":["a.js","in.js"],"ignoreList":[3],"mappings":"AAAA;ACOO"}"#,
        ),
        behind: Ok(
            r#"{"version":3,"names":["n"],"sources":["in.js","a.js"],"ignoreList":[4],"mappings":"AAOO;CCPP"}"#,
        ),
        first: Ok(r#"{"version":3,"names":["n"],"sources":["in.js"],"mappings":"AAOO"}"#),
        second: Ok(
            r#"{"version":3,"names":["p"],"sources":["a.js"],"ignoreList":[3],"mappings":"AAAAA,S"}"#,
        ),
        ..USUAL
    },
    // The greatest ignored source.
    Hostile {
        sources: &["a.js"],
        contents: &[None],
        rows: &[(0, 0, 0, 0, Some(0), None)],
        ignored: Some(&[4294967295]),
        text: Ok(
            r#"{"version":3,"names":[],"sources":["a.js"],"ignoreList":[4294967295],"mappings":"AAAA"}"#,
        ),
        reading: Some(Error::BadSourceReference(4294967295)),
        origin: (Some("a.js"), 0, 0, None),
        joined: Err(Error::TooLarge),
        behind: Err(Error::TooLarge),
        first: Ok(r#"{"version":3,"names":["n"],"sources":["in.js"],"mappings":"AAOO"}"#),
        second: Ok(
            r#"{"version":3,"names":["p"],"sources":["a.js"],"ignoreList":[4294967295],"mappings":"AAAAA,S"}"#,
        ),
        shown: "",
        ..USUAL
    },
];

fn each_of<F: FnMut(&Hostile) -> Result<()>>(rows: &[Hostile], call: &mut F) -> Result<()> {
    for hostile in rows {
        call(hostile)?;
    }
    Ok(())
}

/// Calls a function with each of the rows.
pub fn each_hostile<F: FnMut(&Hostile) -> Result<()> + Drop>(mut call: F) -> Result<()> {
    for rows in [ORDERS, IDS, CHUNKS, LISTS] {
        each_of(rows, &mut call)?;
    }
    Ok(())
}
