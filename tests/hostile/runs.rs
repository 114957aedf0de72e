//! Each command over readers and writers that break at each call in turn.
use crate::helpers::same;
use crate::hostile::streams::{BreakingReader, BreakingWriter};
use crate::program::{run_command, strings};
use smap_run::{Command, Port, RunError, read_words, run};
use std::alloc::Global;
use std::process::Abort;

/// The words of a command, an input, and what is written.
type Run = (&'static [&'static str], &'static str, &'static str);

const RUNS: &[Run] = &[
    (
        &["mappings", "1", "1"],
        "AAAA,GAAIA;EACA\n",
        "AAAA,GAAIA;EACA\n",
    ),
    (
        &["normalise"],
        "{\"version\":3,\"sources\":[\"é.js\"],\"names\":[\"x\"],\"mappings\":\"gD,!C,AAAAA\"}",
        "{\"version\":3,\"names\":[\"x\"],\"sources\":[\"é.js\"],\"mappings\":\"gD,/C,AAAAA\"}\n",
    ),
    (
        &["url"],
        "{\"version\":3,\"sources\":[],\"mappings\":\"\"}",
        "data:application/json;charset=utf-8;base64,eyJ2ZXJzaW9uIjozLCJuYW1lcyI6W10sInNvdXJjZXMiOltdLCJtYXBwaW5ncyI6IiJ9\n",
    ),
    (
        &["trace", "0", "3"],
        "{\"version\":3,\"sources\":[\"é.js\"],\"names\":[\"x\"],\"mappings\":\"AAAA,GAAIA\"}",
        "\"é.js\":0:4 \"x\"\n",
    ),
    (
        &["plan", "join", "1", "@1", "2"],
        "{}\n---\n{\"version\":3,\"sources\":[\"a\"],\"mappings\":\"A\"}",
        "{\"version\":3,\"names\":[],\"sources\":[\"a\"],\"mappings\":\";;A\"}\n",
    ),
];

/// Asserts that a command ends like this and writes this, with a reader that breaks.
fn a_reader_breaks(
    rt: &impl Abort,
    alloc: Global,
    command: &Command<'_>,
    reader: BreakingReader<'_>,
    wanted: Result<(), RunError>,
    text: &[u8],
) {
    let mut reader = Port::new(reader);
    let mut writer = Port::new(Vec::new(alloc));
    let ran = run(alloc, command, &mut reader, &mut writer);
    same(rt, "ran", ran, wanted);
    same(rt, "reader", reader.failed(), wanted == Err(RunError::Read));
    same(rt, "writer", writer.failed(), false);
    let written = writer.into_inner();
    same(rt, "written", written.as_slice(), text);
}

/// The read after the last byte is the last one.
fn each_read_fails(
    rt: &impl Abort,
    alloc: Global,
    command: &Command<'_>,
    input: &[u8],
    answer: &[u8],
) {
    let reads = input.len() as u64 + 1;
    for breaks_at in 0..reads + 1 {
        let reader = BreakingReader {
            rest: input,
            calls: 0,
            breaks_at,
            fails: true,
        };
        let (wanted, text) = if breaks_at < reads {
            (Err(RunError::Read), &answer[..0])
        } else {
            (Ok(()), answer)
        };
        a_reader_breaks(rt, alloc, command, reader, wanted, text);
    }
}

#[test]
fn a_failed_read_is_told_and_nothing_is_written(rt: HostRuntime) -> Result<(), RunError> {
    for (words, input, answer) in RUNS {
        let words = strings(rt.alloc(), words)?;
        let command = read_words(words.as_slice())?;
        each_read_fails(
            &rt,
            rt.alloc(),
            &command,
            input.as_bytes(),
            answer.as_bytes(),
        );
    }
    Ok(())
}

/// A read that gives none ends the input: the answer is that to what was read before.
fn each_read_gives_none(
    rt: &impl Abort,
    alloc: Global,
    command: &Command<'_>,
    input: &[u8],
) -> Result<(), RunError> {
    for end in 0..input.len() {
        let beginning = &input[..end];
        let reader = BreakingReader {
            rest: input,
            calls: 0,
            breaks_at: end as u64,
            fails: false,
        };
        let mut text = Vec::new(alloc);
        let wanted = run_command(alloc, command, beginning, &mut text);
        a_reader_breaks(rt, alloc, command, reader, wanted, text.as_slice());
    }
    Ok(())
}

#[test]
fn a_read_that_gives_none_ends_the_input(rt: HostRuntime) -> Result<(), RunError> {
    for (words, input, _) in RUNS {
        let words = strings(rt.alloc(), words)?;
        let command = read_words(words.as_slice())?;
        each_read_gives_none(&rt, rt.alloc(), &command, input.as_bytes())?;
    }
    Ok(())
}

/// Nothing is written after the call that failed or took none.
fn a_write_breaks(
    rt: &impl Abort,
    alloc: Global,
    command: &Command<'_>,
    input: &[u8],
    writer: BreakingWriter,
    answer: &[u8],
) {
    let breaks_at = writer.breaks_at;
    let is_broken = breaks_at < answer.len() as u64;
    let mut reader = Port::new(input);
    let mut writer = Port::new(writer);
    let ran = run(alloc, command, &mut reader, &mut writer);
    let wanted = if is_broken {
        Err(RunError::Write)
    } else {
        Ok(())
    };
    same(rt, "ran", ran, wanted);
    same(rt, "reader", reader.failed(), false);
    same(rt, "writer", writer.failed(), is_broken);
    let taken = writer.into_inner().taken;
    let wanted = answer.get(..taken.len());
    same(rt, "a beginning", Some(taken.as_slice()), wanted);
    let count = breaks_at.min(answer.len() as u64);
    same(rt, "its length", taken.len() as u64, count);
}

fn each_write_breaks(
    rt: &impl Abort,
    alloc: Global,
    command: &Command<'_>,
    input: &[u8],
    answer: &[u8],
    fails: bool,
) {
    for breaks_at in 0..answer.len() as u64 + 1 {
        let writer = BreakingWriter {
            taken: Vec::new(alloc),
            calls: 0,
            breaks_at,
            fails,
        };
        a_write_breaks(rt, alloc, command, input, writer, answer);
    }
}

#[test]
fn a_failed_write_is_told_and_a_beginning_stands(rt: HostRuntime) -> Result<(), RunError> {
    for fails in [true, false] {
        for (words, input, answer) in RUNS {
            let words = strings(rt.alloc(), words)?;
            let command = read_words(words.as_slice())?;
            let (input, answer) = (input.as_bytes(), answer.as_bytes());
            each_write_breaks(&rt, rt.alloc(), &command, input, answer, fails);
        }
    }
    Ok(())
}

#[test]
fn input_is_utf8(rt: HostRuntime) -> Result<(), RunError> {
    for (words, _, _) in RUNS {
        let words = strings(rt.alloc(), words)?;
        let command = read_words(words.as_slice())?;
        for input in [&b"\xff"[..], b"{\"a\":\"\xed\xa0\x80\"}", b"A\xc3"] {
            let mut written = Vec::new(rt.alloc());
            let ran = run_command(rt.alloc(), &command, input, &mut written);
            same(&rt, "ran", ran, Err(RunError::Utf8));
            same(&rt, "written", written.len(), 0);
        }
    }
    Ok(())
}
