//! Reading and writing the `mappings` text.
mod long;
mod numbers;
pub mod pieces;
mod random;

use crate::helpers::same;
use crate::rows::{Row, chunks_of, tokens_of};
use oxc_sourcemap::{
    Error, Result, Token, TokenChunk, chunk_fault, decode_mappings, encode_mappings,
};
use std::alloc::Global;
use std::process::Abort;

/// A text, counts of names and sources, and what it reads as.
type Reading = (&'static str, usize, usize, Result<&'static [Row]>);

/// Texts that are read.
const READ: &[Reading] = &[
    ("", 0, 0, Ok(&[])),
    (
        "AAAA,GAAIA,GAAI,EACR,IAAIA,GAAK,EAAG,CACVC,MAAM",
        2,
        1,
        Ok(&[
            (0, 0, 0, 0, Some(0), None),
            (0, 3, 0, 4, Some(0), Some(0)),
            (0, 6, 0, 8, Some(0), None),
            (0, 8, 1, 0, Some(0), None),
            (0, 12, 1, 4, Some(0), Some(0)),
            (0, 15, 1, 9, Some(0), None),
            (0, 17, 1, 12, Some(0), None),
            (0, 18, 2, 2, Some(0), Some(1)),
            (0, 24, 2, 8, Some(0), None),
        ]),
    ),
    (
        "gD,!C",
        0,
        0,
        Ok(&[(0, 48, 0, 0, None, None), (0, 1, 0, 0, None, None)]),
    ),
    ("+/////H", 0, 0, Ok(&[(0, 4294967295, 0, 0, None, None)])),
    ("B", 0, 0, Ok(&[(0, 0, 0, 0, None, None)])),
    ("gA", 0, 0, Ok(&[(0, 0, 0, 0, None, None)])),
    (
        ",,A,;,C",
        0,
        0,
        Ok(&[(0, 0, 0, 0, None, None), (1, 1, 0, 0, None, None)]),
    ),
    ("A;;", 0, 0, Ok(&[(0, 0, 0, 0, None, None)])),
    (
        "G,,D",
        0,
        0,
        Ok(&[(0, 3, 0, 0, None, None), (0, 2, 0, 0, None, None)]),
    ),
    (
        "G,D",
        0,
        0,
        Ok(&[(0, 3, 0, 0, None, None), (0, 2, 0, 0, None, None)]),
    ),
    (
        "+/////H,D",
        0,
        0,
        Ok(&[
            (0, 4294967295, 0, 0, None, None),
            (0, 4294967294, 0, 0, None, None),
        ]),
    ),
    (
        "ggggB,éC",
        0,
        0,
        Ok(&[(0, 524288, 0, 0, None, None), (0, 522753, 0, 0, None, None)]),
    ),
    (
        "AAKG,I;ACEF",
        0,
        2,
        Ok(&[
            (0, 0, 5, 3, Some(0), None),
            (0, 4, 5, 3, None, None),
            (1, 0, 7, 1, Some(1), None),
        ]),
    ),
    (
        "CCEGI;CDCDD,C;EAAA",
        6,
        2,
        Ok(&[
            (0, 1, 2, 3, Some(1), Some(4)),
            (1, 1, 3, 2, Some(0), Some(3)),
            (1, 2, 3, 2, None, None),
            (2, 2, 3, 2, Some(0), None),
        ]),
    ),
    (
        "AAAAC,CAAA,CAAAC",
        3,
        1,
        Ok(&[
            (0, 0, 0, 0, Some(0), Some(1)),
            (0, 1, 0, 0, Some(0), None),
            (0, 2, 0, 0, Some(0), Some(2)),
        ]),
    ),
    (
        "A8/////HAA8/////H",
        4294967296,
        4294967296,
        Ok(&[(0, 0, 0, 0, Some(4294967294), Some(4294967294))]),
    ),
];

/// Texts with a number that does not end or is too large.
const BAD_NUMBERS: &[Reading] = &[
    ("AAAAAg", 0, 0, Err(Error::VlqLeftover)),
    ("ggggggggggggg,A", 0, 0, Err(Error::VlqLeftover)),
    ("gggggggggggggg", 0, 0, Err(Error::VlqOverflow)),
    ("hgggggggggggI", 0, 0, Err(Error::VlqOverflow)),
    ("/////////////", 0, 0, Err(Error::VlqOverflow)),
    ("ggggggI", 0, 0, Err(Error::VlqOverflow)),
    ("AAAAg", 1, 1, Err(Error::VlqLeftover)),
    ("AAAA!", 1, 1, Err(Error::VlqLeftover)),
    ("AAAAgg", 1, 1, Err(Error::VlqLeftover)),
    ("AAAg", 0, 1, Err(Error::VlqLeftover)),
    ("+/////H,C", 0, 0, Err(Error::VlqOverflow)),
    ("AA+/////HA,AACA", 0, 1, Err(Error::VlqOverflow)),
    ("ggggggggggggggAg", 0, 0, Err(Error::VlqOverflow)),
    ("ggggggIA", 0, 0, Err(Error::VlqOverflow)),
    ("AAggggggID", 0, 1, Err(Error::VlqOverflow)),
    ("AAAAhggggggggggggH", 1, 1, Err(Error::VlqOverflow)),
];

/// Texts with a segment of another size, or with an id that names nothing.
const BAD_SEGMENTS: &[Reading] = &[
    ("AA", 0, 0, Err(Error::BadSegmentSize(2))),
    ("AAAAAA", 0, 0, Err(Error::BadSegmentSize(6))),
    ("DA", 0, 0, Err(Error::BadSegmentSize(0))),
    ("hgggggggggggH", 0, 0, Err(Error::BadSegmentSize(0))),
    ("AAAAA", 0, 1, Err(Error::BadNameReference(0))),
    ("AAAAD", 1, 1, Err(Error::BadNameReference(4294967295))),
    ("AAAAggggggI", 1, 1, Err(Error::BadNameReference(0))),
    ("ACAA", 1, 1, Err(Error::BadSourceReference(0))),
    ("AAA", 0, 1, Err(Error::BadSegmentSize(3))),
    ("AAAAAA", 1, 1, Err(Error::BadSegmentSize(6))),
    ("AAAAAAA", 1, 1, Err(Error::BadSegmentSize(7))),
    ("DAAA", 0, 1, Err(Error::BadSegmentSize(0))),
    ("DCAA", 0, 1, Err(Error::BadSegmentSize(0))),
    ("AADggggggI", 0, 1, Err(Error::BadSegmentSize(0))),
    ("AAADD", 1, 1, Err(Error::BadSegmentSize(0))),
    ("ADDD", 0, 1, Err(Error::BadSourceReference(0))),
    ("ACAA,ACAA", 0, 2, Err(Error::BadSourceReference(1))),
    (
        "A+/////HAA",
        0,
        4294967296,
        Err(Error::BadSourceReference(0)),
    ),
    ("AAAAF", 1, 1, Err(Error::BadNameReference(4294967294))),
    ("AAAAE,AAAAC", 3, 1, Err(Error::BadNameReference(3))),
    ("AAAAqggggggI", 1, 1, Err(Error::BadNameReference(5))),
    (
        "AAAA+/////H",
        4294967296,
        1,
        Err(Error::BadNameReference(4294967295)),
    ),
    ("AAAA////////////H", 1, 1, Err(Error::BadNameReference(1))),
];

/// All of these.
const READINGS: [&[Reading]; 3] = [READ, BAD_NUMBERS, BAD_SEGMENTS];

/// A list of tokens, with chunks or none, and how it is written.
pub type Writing = (
    &'static [Row],
    Option<&'static [[u32; 8]]>,
    Result<&'static str>,
);

/// Lists without chunks.
const LISTS: &[Writing] = &[
    (&[], None, Ok("")),
    (
        &[
            (0, 0, 0, 0, Some(0), None),
            (0, 3, 0, 4, Some(0), Some(0)),
            (0, 6, 0, 8, Some(0), None),
            (0, 8, 1, 0, Some(0), None),
            (0, 12, 1, 4, Some(0), Some(0)),
            (0, 15, 1, 9, Some(0), None),
            (0, 17, 1, 12, Some(0), None),
            (0, 18, 2, 2, Some(0), Some(1)),
            (0, 24, 2, 8, Some(0), None),
        ],
        None,
        Ok("AAAA,GAAIA,GAAI,EACR,IAAIA,GAAK,EAAG,CACVC,MAAM"),
    ),
    (
        &[(0, 48, 0, 0, None, None), (0, 1, 0, 0, None, None)],
        None,
        Ok("gD,/C"),
    ),
    (
        &[
            (0, 15, 15, 15, Some(0), Some(0)),
            (0, 30, 0, 0, Some(0), None),
            (0, 46, 16, 16, Some(0), Some(0)),
            (0, 47, 0, 0, Some(0), Some(0)),
            (1, 1, 1, 1, Some(0), Some(0)),
            (1, 2, 1, 1, None, None),
        ],
        None,
        Ok("eAeeA,eAff,gBAgBgBA,CAhBhBA;CACCA,C"),
    ),
    (&[(0, 0, 0, 0, None, None)], None, Ok("A")),
    (
        &[(0, 0, 0, 0, None, None), (1, 1, 0, 0, None, None)],
        None,
        Ok("A;C"),
    ),
    (
        &[(0, 3, 0, 0, None, None), (0, 2, 0, 0, None, None)],
        None,
        Ok("G,D"),
    ),
    (
        &[
            (0, 4294967295, 4294967295, 4294967295, Some(0), None),
            (1, 0, 0, 0, Some(0), None),
        ],
        None,
        Ok("+/////HA+/////H+/////H;AA//////H//////H"),
    ),
    (
        &[(1, 0, 0, 0, None, None), (0, 0, 0, 0, None, None)],
        None,
        Err(Error::LineOrder(1)),
    ),
    (
        &[
            (0, 0, 4, 4, Some(0), Some(0)),
            (0, 3, 5, 5, Some(0), Some(1)),
        ],
        None,
        Ok("AAIIA,GACCC"),
    ),
    (
        &[(0, 524288, 0, 0, None, None), (0, 522753, 0, 0, None, None)],
        None,
        Ok("ggggB,//C"),
    ),
    (
        &[
            (0, 0, 5, 3, Some(0), Some(1)),
            (0, 4, 9, 9, None, Some(7)),
            (0, 6, 7, 1, Some(1), None),
            (0, 7, 7, 1, Some(1), Some(3)),
        ],
        None,
        Ok("AAKGC,I,ECEF,CAAAE"),
    ),
    (&[(0, 0, 0, 0, Some(5), None)], None, Ok("AKAA")),
    (&[(0, 0, 3, 4, None, Some(7))], None, Ok("A")),
];

/// Lists with chunks that fit.
const CHUNKED: &[Writing] = &[
    (
        &[
            (1, 1, 1, 1, Some(0), Some(0)),
            (3, 1, 1, 1, Some(1), Some(2)),
            (3, 2, 2, 2, Some(2), Some(3)),
        ],
        Some(&[
            [0, 1, 0, 0, 0, 0, 0, 0],
            [1, 2, 1, 1, 1, 1, 0, 0],
            [2, 3, 3, 1, 1, 1, 2, 1],
        ]),
        Ok(";CACCA;;CCAAE,CCCCC"),
    ),
    (
        &[
            (0, 0, 5, 3, Some(0), None),
            (0, 4, 0, 0, None, None),
            (1, 0, 7, 1, Some(1), None),
        ],
        Some(&[[0, 2, 0, 0, 0, 0, 0, 0], [2, 3, 0, 4, 5, 3, 0, 0]]),
        Ok("AAKG,I;ACEF"),
    ),
    (
        &[
            (0, 0, 0, 0, None, None),
            (2, 3, 0, 0, None, None),
            (3, 9, 0, 0, None, None),
        ],
        Some(&[[0, 2, 0, 0, 0, 0, 0, 0], [2, 3, 2, 3, 0, 0, 0, 0]]),
        Ok("A;;G;S"),
    ),
    (
        &[],
        Some(&[[0, 0, 0, 0, 0, 0, 0, 0], [0, 0, 0, 0, 0, 0, 0, 0]]),
        Ok(""),
    ),
    (
        &[(0, 0, 5, 3, Some(0), None), (1, 2, 1, 1, Some(2), None)],
        Some(&[
            [0, 1, 0, 0, 0, 0, 0, 0],
            [1, 1, 0, 0, 5, 3, 0, 0],
            [1, 2, 0, 0, 5, 3, 0, 0],
        ]),
        Ok("AAKG;EEJF"),
    ),
    (
        &[
            (0, 0, 0, 0, Some(0), Some(0)),
            (0, 1, 0, 0, None, Some(2)),
            (1, 0, 0, 0, Some(1), Some(3)),
        ],
        Some(&[[0, 2, 0, 0, 0, 0, 0, 0], [2, 3, 0, 1, 0, 0, 0, 0]]),
        Ok("AAAAA,C;ACAAG"),
    ),
    (
        &[(0, 0, 0, 0, None, None)],
        Some(&[[0, 1, 0, 0, 0, 0, 0, 0], [1, 1, 0, 0, 0, 0, 0, 0]]),
        Ok("A"),
    ),
];

/// Lists with chunks that do not fit.
const MISFITS: &[Writing] = &[
    (
        &[(0, 0, 0, 0, None, None), (0, 1, 0, 0, None, None)],
        Some(&[[0, 1, 0, 0, 0, 0, 0, 0]]),
        Err(Error::BadChunks(1)),
    ),
    (
        &[
            (1, 1, 1, 1, Some(0), Some(0)),
            (3, 1, 1, 1, Some(1), Some(2)),
            (3, 2, 2, 2, Some(2), Some(3)),
        ],
        Some(&[
            [0, 1, 0, 0, 0, 0, 0, 0],
            [1, 2, 1, 1, 1, 1, 0, 0],
            [2, 3, 3, 1, 1, 1, 1, 1],
        ]),
        Err(Error::BadChunks(2)),
    ),
    (
        &[(0, 0, 0, 0, None, None), (0, 1, 0, 0, None, None)],
        Some(&[]),
        Err(Error::BadChunks(0)),
    ),
    (
        &[(0, 0, 0, 0, None, None), (0, 1, 0, 0, None, None)],
        Some(&[[0, 3, 0, 0, 0, 0, 0, 0]]),
        Err(Error::BadChunks(0)),
    ),
    (
        &[(0, 0, 0, 0, None, None), (0, 1, 0, 0, None, None)],
        Some(&[[0, 2, 0, 0, 0, 0, 0, 0], [1, 2, 0, 0, 0, 0, 0, 0]]),
        Err(Error::BadChunks(1)),
    ),
    (
        &[(1, 0, 0, 0, None, None), (0, 0, 0, 0, None, None)],
        Some(&[]),
        Err(Error::LineOrder(1)),
    ),
];

/// All of these.
pub const WRITINGS: [&[Writing]; 3] = [LISTS, CHUNKED, MISFITS];

/// What stands in front of a text: nothing, or unmapped tokens, which move no sum.
const FRONTS: [(&str, &[Row]); 2] = [
    ("", &[]),
    ("A,A,A,A,A,A,A,A,A,", &[(0, 0, 0, 0, None, None); 9]),
];

/// Empty segments and lines, which may stand behind any text. A reader can look at 16 bytes at once only where there are so
/// many left.
const BEHIND: [&str; 4] = ["", ";;;", ",,,,,,,,,,,,,,,,,,,,", ";;;;;;;;;;;;;;;;;;;;"];

/// Segments that are not read behind a fault.
const BEHIND_FAULT: [&str; 2] = [",A,A,A,A,A,A,A,A,A,A", ",AAAAA,AAAAA,AAAAA,AAAAA"];

/// Asserts what a text reads as.
fn it_reads_as(
    rt: &impl Abort,
    alloc: Global,
    text: &str,
    names: usize,
    sources: usize,
    want: Result<&[Token]>,
) {
    match &decode_mappings(alloc, text, names, sources) {
        Ok(tokens) => same(rt, text, Ok(tokens.as_slice()), want),
        Err(error) => same(rt, text, Err(*error), want),
    }
}

/// Asserts what the text of a row reads as behind this text, which reads as these rows, and in front of each of those.
fn it_reads_behind(
    rt: &impl Abort,
    alloc: Global,
    reading: &Reading,
    front: (&str, &[Row]),
    behind: &[&str],
) -> Result<()> {
    let (text, names, sources, want) = *reading;
    let mut tokens = tokens_of(alloc, front.1)?;
    tokens.append(&mut tokens_of(alloc, want.unwrap_or(&[]))?)?;
    for end in behind {
        let whole = [front.0, text, *end].as_slice().concat(alloc)?;
        let want = want.map(|_| tokens.as_slice());
        it_reads_as(rt, alloc, whole.as_str(), names, sources, want);
    }
    Ok(())
}

fn a_text_reads_as_its_tokens(rt: &impl Abort, alloc: Global, reading: &Reading) -> Result<()> {
    for front in FRONTS {
        it_reads_behind(rt, alloc, reading, front, BEHIND.as_slice())?;
        if reading.3.is_err() {
            it_reads_behind(rt, alloc, reading, front, BEHIND_FAULT.as_slice())?;
        }
    }
    Ok(())
}

#[test]
fn texts_read_as_their_tokens(rt: HostRuntime) -> Result<()> {
    for rows in READINGS {
        for reading in rows {
            a_text_reads_as_its_tokens(&rt, rt.alloc(), reading)?;
        }
    }
    Ok(())
}

/// Nothing is added to the text where there is an error.
fn a_list_is_written_as_its_text(
    rt: &impl Abort,
    alloc: Global,
    tokens: &[Token],
    chunks: Option<&[TokenChunk]>,
    want: Result<&str>,
) -> Result<()> {
    let mut out = String::from_str(alloc, "kept;")?;
    let written = encode_mappings(tokens, chunks, &mut out);
    same(rt, "error", written.err(), want.err());
    let added = out.as_str().strip_prefix("kept;");
    same(rt, "text", added, Some(want.unwrap_or("")));
    Ok(())
}

fn a_chunk_that_does_not_fit_is_told(
    rt: &impl Abort,
    tokens: &[Token],
    chunks: &[TokenChunk],
    want: Result<&str>,
) {
    let told = match want {
        Err(Error::BadChunks(k)) => Some(k),
        // Lines that go back are reported first, whatever the chunks are.
        Err(_) => return,
        Ok(_) => None,
    };
    same(rt, "chunk", chunk_fault(tokens, chunks), told);
}

/// Where two lists first differ, which is told in place of long texts.
fn difference<T: PartialEq>(found: &[T], wanted: &[T]) -> Option<usize> {
    if found == wanted {
        return None;
    }
    let common = found.len().min(wanted.len());
    let at = found
        .iter()
        .zip(wanted)
        .position(|(one, other)| one != other);
    Some(at.unwrap_or(common))
}

/// Asserts that tokens are written as a text, which reads as them, alone and with lines behind it.
fn they_are_written_and_read(
    rt: &impl Abort,
    alloc: Global,
    tokens: &[Token],
    text: &str,
) -> Result<()> {
    let beginning = text.get(..99).unwrap_or(text);
    let mut out = String::new(alloc);
    encode_mappings(tokens, None, &mut out)?;
    same(
        rt,
        beginning,
        difference(out.as_bytes(), text.as_bytes()),
        None,
    );
    for end in ["", ";;;;;;;;;;;;;;;;;;;;"] {
        let whole = [text, end].as_slice().concat(alloc)?;
        let read = decode_mappings(alloc, whole.as_str(), 4294967295, 4294967295)?;
        same(rt, beginning, difference(read.as_slice(), tokens), None);
    }
    Ok(())
}

/// Asserts how the tokens of a row are written.
fn a_row_is_written(rt: &impl Abort, alloc: Global, writing: &Writing) -> Result<()> {
    let (rows, chunk_rows, want) = *writing;
    let tokens = tokens_of(alloc, rows)?;
    let tokens = tokens.as_slice();
    match &chunks_of(alloc, &chunk_rows)? {
        Some(chunks) => {
            a_chunk_that_does_not_fit_is_told(rt, tokens, chunks.as_slice(), want);
            a_list_is_written_as_its_text(rt, alloc, tokens, Some(chunks.as_slice()), want)
        }
        None => a_list_is_written_as_its_text(rt, alloc, tokens, None, want),
    }
}

#[test]
fn lists_are_written_as_their_text(rt: HostRuntime) -> Result<()> {
    for rows in WRITINGS {
        for writing in rows {
            a_row_is_written(&rt, rt.alloc(), writing)?;
        }
    }
    Ok(())
}
