//! Numbers of each length and sign in each field, and bytes that are no letters.
use super::{it_reads_as, they_are_written_and_read};
use crate::rows::{Row, tokens_of};
use oxc_sourcemap::{Result, Token};
use std::alloc::{AllocError, Global};
use std::process::Abort;

/// A number, its text, and that of its negative.
type Number = (u32, &'static str, &'static str);

/// Numbers around each further digit, and the greatest id and the greatest number.
const NUMBERS: &[Number] = &[
    (0, "A", "A"),
    (1, "C", "D"),
    (2, "E", "F"),
    (15, "e", "f"),
    (16, "gB", "hB"),
    (511, "+f", "/f"),
    (512, "ggB", "hgB"),
    (16383, "+/f", "//f"),
    (16384, "gggB", "hggB"),
    (524287, "+//f", "///f"),
    (524288, "ggggB", "hgggB"),
    (16777215, "+///f", "////f"),
    (16777216, "gggggB", "hggggB"),
    (536870911, "+////f", "/////f"),
    (536870912, "ggggggB", "hgggggB"),
    (4294967294, "8/////H", "9/////H"),
    (4294967295, "+/////H", "//////H"),
];

/// The numbers that a field can have: ids end at 4294967294.
fn numbers_of(field: usize) -> &'static [Number] {
    let is_id = field == 1 || field == 4;
    &NUMBERS[..NUMBERS.len() - usize::from(is_id)]
}

/// Segments of each size, whose fields are 0.
const ZEROS: [&str; 3] = ["A", "AAAA", "AAAAA"];

/// The row of a segment of this size on line 0, whose fields are 0 but for this one.
fn row_of(size: usize, field: usize, number: u32) -> Row {
    let mut values = [0u32; 5];
    values[field] = number;
    let [dst_col, source, src_line, src_col, name] = values;
    let source = if size > 1 { Some(source) } else { None };
    let name = if size > 4 { Some(name) } else { None };
    (0, dst_col, src_line, src_col, source, name)
}

/// Asserts how a field that goes from 0 to each number and back is written and read.
fn a_field_goes_and_comes_back(
    rt: &impl Abort,
    alloc: Global,
    zeros: &str,
    field: usize,
) -> Result<()> {
    let size = zeros.len();
    let (left, right) = (&zeros[..field], &zeros[field + 1..]);
    for (number, plus, minus) in numbers_of(field) {
        let at_zero = row_of(size, field, 0);
        let rows = [at_zero, row_of(size, field, *number), at_zero];
        let pieces = [zeros, ",", left, *plus, right, ",", left, *minus, right];
        let tokens = tokens_of(alloc, rows.as_slice())?;
        let text = pieces.as_slice().concat(alloc)?;
        they_are_written_and_read(rt, alloc, tokens.as_slice(), text.as_str())?;
    }
    Ok(())
}

#[test]
fn each_field_has_numbers_of_each_length(rt: HostRuntime) -> Result<()> {
    for zeros in ZEROS {
        for field in 0..zeros.len() {
            a_field_goes_and_comes_back(&rt, rt.alloc(), zeros, field)?;
        }
    }
    Ok(())
}

const LETTERS: &[u8; 64] = b"ABCDEFGHIJKLMNOPQRSTUVWXYZabcdefghijklmnopqrstuvwxyz0123456789+/";

/// Adds the text of a number, which is given doubled, and one more where it is negative.
pub fn push_number(text: &mut String, raw: usize) -> std::result::Result<(), AllocError> {
    let mut rest = raw;
    while rest > 31 {
        text.push(char::from(LETTERS[rest % 32 + 32]))?;
        rest /= 32;
    }
    text.push(char::from(LETTERS[rest]))
}

/// Adds a segment of five such numbers.
fn push_segment(text: &mut String, raw: usize) -> std::result::Result<(), AllocError> {
    if !text.is_empty() {
        text.push(',')?;
    }
    for _ in 0..5 {
        push_number(text, raw)?;
    }
    Ok(())
}

/// All fields go to each number and back. Up to 4095, each letter comes as the last of a number and as another.
#[test]
fn each_small_number_is_written_and_read(rt: HostRuntime) -> Result<()> {
    let mut tokens = Vec::new(rt.alloc());
    let mut text = String::new(rt.alloc());
    for number in 1..4096u32 {
        tokens.push(Token::new(0, number, number, number, Some(number), Some(number)))?;
        push_segment(&mut text, number as usize * 2)?;
        tokens.push(Token::new(0, 0, 0, 0, Some(0), Some(0)))?;
        push_segment(&mut text, number as usize * 2 + 1)?;
    }
    they_are_written_and_read(&rt, rt.alloc(), tokens.as_slice(), text.as_str())
}

/// The column after 16777216 and a number of so many digits 63 and `C`.
const COLUMNS_AFTER: [u32; 4] = [16777169, 16775681, 16728065, 15204353];

/// Asserts that each byte of a character is a digit 63.
fn a_character_reads_as_digits(rt: &impl Abort, alloc: Global, character: char) -> Result<()> {
    let mut text = String::from_str(alloc, "gggggBAAA,")?;
    text.push(character)?;
    text.push_str("CAAA")?;
    let column = COLUMNS_AFTER[character.len_utf8() - 1];
    let rows = [
        (0, 16777216, 0, 0, Some(0), None),
        (0, column, 0, 0, Some(0), None),
    ];
    let tokens = tokens_of(alloc, rows.as_slice())?;
    it_reads_as(rt, alloc, text.as_str(), 0, 1, Ok(tokens.as_slice()));
    text.push_str(";;;;;;;;;;;;")?;
    it_reads_as(rt, alloc, text.as_str(), 0, 1, Ok(tokens.as_slice()));
    Ok(())
}

/// Each character of one or two bytes, and one with each first byte of more.
#[test]
fn other_characters_read_as_digits_of_63(rt: HostRuntime) -> Result<()> {
    let longer = (2048..1114112u32).step_by(2048);
    for code in (0..2048u32).chain(longer) {
        if let Some(character) = char::from_u32(code) {
            if !character.is_ascii_alphanumeric() && !"+,;".contains(character) {
                a_character_reads_as_digits(&rt, rt.alloc(), character)?;
            }
        }
    }
    Ok(())
}
