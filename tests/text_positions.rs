//! Positions in a text, and offsets.
use crate::helpers::same;
use oxc_sourcemap::{PositionError, Result, TextPositions};
use std::alloc::Global;

const PAST_TEXT: std::result::Result<(u32, u32), PositionError> = Err(PositionError::PastText);
const INSIDE: std::result::Result<(u32, u32), PositionError> = Err(PositionError::InsidePair);

/// A text, and the position of each offset, that after the end too.
type Text = (&'static str, &'static [std::result::Result<(u32, u32), PositionError>]);

const TEXTS: &[Text] = &[
    ("", &[Ok((0, 0)), PAST_TEXT]),
    ("ab", &[Ok((0, 0)), Ok((0, 1)), Ok((0, 2)), PAST_TEXT]),
    // A text that ends in a line end has an empty last line.
    ("a\n", &[Ok((0, 0)), Ok((0, 1)), Ok((1, 0)), PAST_TEXT]),
    ("a\r", &[Ok((0, 0)), Ok((0, 1)), Ok((1, 0)), PAST_TEXT]),
    // A carriage return and a line feed are one line end, and two columns of their line.
    ("\r\nb", &[Ok((0, 0)), Ok((0, 1)), Ok((1, 0)), Ok((1, 1)), PAST_TEXT]),
    ("\r\r\n", &[Ok((0, 0)), Ok((1, 0)), Ok((1, 1)), Ok((2, 0)), PAST_TEXT]),
    ("\n\r", &[Ok((0, 0)), Ok((1, 0)), Ok((2, 0)), PAST_TEXT]),
    // Two units for a character past U+FFFF, one for others.
    ("é😀x", &[Ok((0, 0)), Ok((0, 1)), INSIDE, Ok((0, 3)), Ok((0, 4)), PAST_TEXT]),
    ("😀\r😀", &[Ok((0, 0)), INSIDE, Ok((0, 2)), Ok((1, 0)), INSIDE, Ok((1, 2)), PAST_TEXT]),
    // The last character of one unit, and the first and the last of two.
    ("\u{ffff}\u{10000}\u{10ffff}", &[Ok((0, 0)), Ok((0, 1)), INSIDE, Ok((0, 3)), INSIDE, Ok((0, 5)), PAST_TEXT]),
    ("\u{2028}a\u{2029}", &[Ok((0, 0)), Ok((1, 0)), Ok((1, 1)), Ok((2, 0)), PAST_TEXT]),
    // No line ends in JavaScript.
    ("\u{b}\u{c}\u{85}", &[Ok((0, 0)), Ok((0, 1)), Ok((0, 2)), Ok((0, 3)), PAST_TEXT]),
];

#[test]
fn offsets_have_positions(rt: HostRuntime) -> Result<()> {
    for (text, rows) in TEXTS {
        let positions = TextPositions::new(rt.alloc(), *text)?;
        for (offset, wanted) in rows.iter().enumerate() {
            same(&rt, *text, positions.position(offset as u32), *wanted);
            if let Ok((line, col)) = *wanted {
                same(&rt, *text, positions.offset(line, col), Ok(offset as u32));
            }
        }
    }
    Ok(())
}

/// A text, a line and a column that it does not have.
const MISSING: &[(&str, u32, u32, PositionError)] = &[
    ("", 0, 1, PositionError::PastLine),
    ("", 1, 0, PositionError::NoLine),
    ("a\nbc", 0, 2, PositionError::PastLine),
    ("a\nbc", 1, 3, PositionError::PastLine),
    ("a\nbc", 2, 0, PositionError::NoLine),
    ("a\r\nbc", 0, 3, PositionError::PastLine),
    ("a\n", 1, 1, PositionError::PastLine),
    ("\n😀", 1, 1, PositionError::InsidePair),
    ("\n😀", 4294967295, 4294967295, PositionError::NoLine),
    ("\n😀", 1, 4294967295, PositionError::PastLine),
    ("\n😀", 0, 4294967295, PositionError::PastLine),
];

#[test]
fn positions_are_missing(rt: HostRuntime) -> Result<()> {
    for (text, line, col, error) in MISSING {
        let positions = TextPositions::new(rt.alloc(), *text)?;
        same(&rt, *text, positions.offset(*line, *col), Err(*error));
        same(&rt, *text, positions.position(4294967295), PAST_TEXT);
    }
    Ok(())
}

/// What tests/reference/text_positions.py prints.
const UNITS: u32 = 10982;
const LINES: u32 = 2488;
const PAIRS: u32 = 467;
const CHECKSUM: u64 = 4062714729;

/// Its text.
fn mixed(alloc: Global) -> Result<String> {
    const PIECES: [&str; 10] =
        ["a", "é", "😀", "\n", "\r", "\r\n", "\u{2028}", "\u{2029}", "日本", "let x = 1;"];
    let mut text = String::new(alloc);
    let mut seed = 1u64;
    for _ in 0..5000 {
        seed = (seed * 1103515245 + 12345) % 2147483648;
        text.push_str(PIECES[((seed >> 16) % 10) as usize])?;
    }
    Ok(text)
}

#[test]
fn mixed_text_has_positions(rt: HostRuntime) -> Result<()> {
    let text = mixed(rt.alloc())?;
    let positions = TextPositions::new(rt.alloc(), text.as_str())?;
    let (mut checksum, mut pairs, mut last) = (0u64, 0u32, 0u32);
    for offset in 0..UNITS + 1 {
        let number = match positions.position(offset) {
            Ok((line, col)) => {
                same(&rt, "offset", positions.offset(line, col), Ok(offset));
                last = line;
                u64::from(line) * 65537 + u64::from(col)
            }
            Err(error) => {
                same(&rt, "error", error, PositionError::InsidePair);
                pairs += 1;
                7
            }
        };
        checksum = (checksum * 31 + number) % 4294967296;
    }
    same(&rt, "past", positions.position(UNITS + 1), PAST_TEXT);
    same(&rt, "lines", last + 1, LINES);
    same(&rt, "pairs", pairs, PAIRS);
    same(&rt, "checksum", checksum, CHECKSUM);
    Ok(())
}

#[test]
fn errors_have_messages(rt: HostRuntime) -> Result<()> {
    for (error, message) in [
        (PositionError::PastText, "The offset is past the end of the text"),
        (PositionError::NoLine, "The text has no such line"),
        (PositionError::PastLine, "The column is past the end of its line"),
        (PositionError::InsidePair, "The position is inside a surrogate pair"),
    ] {
        same(&rt, "message", format!(in rt.alloc(); "{error}")?.as_str(), message);
    }
    Ok(())
}
