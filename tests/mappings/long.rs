//! Texts with many lines, and texts around the end of the buffer of 1024 bytes in which the library gathers them.
use super::they_are_written_and_read;
use oxc_sourcemap::{Result, Token};
use std::alloc::Global;
use std::process::Abort;

/// A segment whose numbers are the greatest, and one that leads back to 0.
const FAR: &str = "+/////H8/////H+/////H+/////H8/////H,//////H9/////H//////H//////H9/////H";

/// Their tokens, on this line.
fn far_tokens(line: u32) -> [Token; 2] {
    let far = Token::new(
        line,
        4294967295,
        4294967295,
        4294967295,
        Some(4294967294),
        Some(4294967294),
    );
    [far, Token::new(line, 0, 0, 0, Some(0), Some(0))]
}

/// Writes tokens on two lines, the first and the second of which lie below so many others.
fn lines_are_written_and_read(rt: &impl Abort, alloc: Global, gap: u32) -> Result<()> {
    let [first, second] = far_tokens(gap);
    let [third, last] = far_tokens(gap * 2);
    let tokens = [first, second, third, last];
    let lines = ";".repeat(alloc, gap as usize)?;
    let pieces = [lines.as_str(), FAR, lines.as_str(), FAR];
    let text = pieces.as_slice().concat(alloc)?;
    they_are_written_and_read(rt, alloc, tokens.as_slice(), text.as_str())
}

#[test]
fn lines_without_tokens_are_written_and_read(rt: HostRuntime) -> Result<()> {
    for gap in [1, 2, 7, 8, 9, 10, 629, 100000] {
        lines_are_written_and_read(&rt, rt.alloc(), gap)?;
    }
    Ok(())
}

/// So many of a segment.
fn segments(alloc: Global, segment: &str, count: usize) -> Result<String> {
    let all = [segment].as_slice().repeat(alloc, count)?;
    Ok(all.as_slice().join(alloc, ",")?)
}

/// What a text ends in, how many lines that counts, and how many tokens.
type End = (&'static str, u32, usize);

const ENDS: [End; 6] = [
    ("", 0, 0),
    (",+/////H8/////H+/////H+/////H8/////H", 0, 1),
    (";;;;;;;+/////H8/////H+/////H+/////H8/////H", 7, 1),
    (";;;;;;;;+/////H8/////H+/////H+/////H8/////H", 8, 1),
    (
        ";;;;;;;;+/////H8/////H+/////H+/////H8/////H,//////H9/////H//////H//////H9/////H",
        8,
        2,
    ),
    (
        ";;;;;;;;;+/////H8/////H+/////H+/////H8/////H,//////H9/////H//////H//////H9/////H",
        9,
        2,
    ),
];

/// Writes 935 bytes of far segments, and on a line further down so many near ones and an end.
fn a_long_text_is_written_and_read(
    rt: &impl Abort,
    alloc: Global,
    line: u32,
    near: usize,
    end: End,
) -> Result<()> {
    let (last, lines, count) = end;
    let mut tokens = far_tokens(0).as_slice().repeat(alloc, 13)?;
    let near_token = [Token::new(line, 0, 0, 0, None, None)];
    tokens.append(&mut near_token.as_slice().repeat(alloc, near)?)?;
    let last_tokens = far_tokens(line + lines);
    tokens.append(&mut last_tokens[..count].repeat(alloc, 1)?)?;
    let mut text = segments(alloc, FAR, 13)?;
    text.push_str(";".repeat(alloc, line as usize)?.as_str())?;
    text.push_str(segments(alloc, "A", near)?.as_str())?;
    text.push_str(last)?;
    they_are_written_and_read(rt, alloc, tokens.as_slice(), text.as_str())
}

fn they_are_written(rt: &impl Abort, alloc: Global, line: u32, near: usize) -> Result<()> {
    for end in ENDS {
        a_long_text_is_written_and_read(rt, alloc, line, near, end)?;
    }
    Ok(())
}

/// The ends follow on 971 to 992 bytes: there a token of 43 bytes fills the buffer, or is the first that does not fit.
#[test]
fn texts_end_around_the_end_of_the_buffer(rt: HostRuntime) -> Result<()> {
    for near in 18..29 {
        they_are_written(&rt, rt.alloc(), 1, near)?;
        they_are_written(&rt, rt.alloc(), 2, near)?;
    }
    Ok(())
}
