//! Random lists of tokens, each beside the text that a plain writer makes of it.
use super::numbers::push_number;
use super::they_are_written_and_read;
use oxc_sourcemap::{Result, Token};
use std::alloc::Global;

const LISTS: u32 = 10_000;

const TOKENS: usize = 12;

/// How far a number may lie from the one before it: around each length that a text of one has.
const STEPS: [u32; 12] = [0, 0, 1, 15, 16, 17, 511, 512, 513, 16383, 16384, 4294967295];

/// How many lines a token may lie below the one before it.
const LINES: [u32; 8] = [0, 0, 0, 0, 0, 1, 2, 9];

/// Marsaglia's xorshift generator with the shifts 13, 7 and 17.
#[derive(Drop)]
struct XorShift(u64);

impl XorShift {
    fn next(&mut self) -> usize {
        self.0 ^= self.0 << 13;
        self.0 ^= self.0 >> 7;
        self.0 ^= self.0 << 17;
        (self.0 >> 40) as usize
    }

    /// One of these numbers.
    fn one_of<const N: usize>(&mut self, numbers: &[u32; N]) -> u32 {
        numbers[self.next() % N]
    }

    /// A number of at most `most`, a step from this one; or this one, where the step leads out.
    fn near(&mut self, from: u32, most: u32) -> u32 {
        let step = self.one_of(&STEPS);
        let to = if self.next() % 2 == 0 {
            from.checked_add(step)
        } else {
            from.checked_sub(step)
        };
        to.unwrap_or(from).min(most)
    }
}

/// What the numbers of the next token are written against.
#[derive(Clone, Copy, Drop)]
struct Last {
    line: u32,
    column: u32,
    source_id: u32,
    source_line: u32,
    source_column: u32,
    name_id: u32,
}

/// A list of tokens and its text.
#[derive(Drop)]
struct List {
    tokens: Vec<Token>,
    text: String,
    last: Last,
}

impl List {
    fn new(alloc: Global) -> List {
        let last = Last {
            line: 0,
            column: 0,
            source_id: 0,
            source_line: 0,
            source_column: 0,
            name_id: 0,
        };
        List {
            tokens: Vec::new(alloc),
            text: String::new(alloc),
            last,
        }
    }

    fn push_separator(&mut self, lines: u32) -> Result<()> {
        if lines == 0 && !self.tokens.is_empty() {
            self.text.push(',')?;
        }
        for _ in 0..lines {
            self.text.push(';')?;
        }
        Ok(())
    }

    /// Adds the text of a number, and returns the number.
    fn push_step(&mut self, from: u32, to: u32) -> Result<u32> {
        let raw = from.abs_diff(to) as usize * 2 + usize::from(to < from);
        push_number(&mut self.text, raw)?;
        Ok(to)
    }

    fn push_source(&mut self, random: &mut XorShift) -> Result<()> {
        let last = self.last;
        self.last.source_id =
            self.push_step(last.source_id, random.near(last.source_id, 4294967294))?;
        self.last.source_line =
            self.push_step(last.source_line, random.near(last.source_line, u32::MAX))?;
        self.last.source_column =
            self.push_step(last.source_column, random.near(last.source_column, u32::MAX))?;
        Ok(())
    }

    /// Adds a token: one of three has a source position alone, one a name too, one neither.
    fn push(&mut self, random: &mut XorShift) -> Result<()> {
        let lines = random.one_of(&LINES);
        self.push_separator(lines)?;
        self.last.line += lines;
        let column = if lines == 0 { self.last.column } else { 0 };
        self.last.column = self.push_step(column, random.near(column, u32::MAX))?;
        let kind = random.next() % 3;
        if kind > 0 {
            self.push_source(random)?;
        }
        if kind > 1 {
            let name_id = self.last.name_id;
            self.last.name_id = self.push_step(name_id, random.near(name_id, 4294967294))?;
        }
        let last = self.last;
        self.tokens.push(Token::new(
            last.line,
            last.column,
            last.source_line,
            last.source_column,
            (kind > 0).then_some(last.source_id),
            (kind > 1).then_some(last.name_id),
        ))?;
        Ok(())
    }
}

#[test]
fn random_lists_are_written_and_read(rt: HostRuntime) -> Result<()> {
    let mut random = XorShift(0x9E37_79B9_7F4A_7C15);
    for _ in 0..LISTS {
        let mut list = List::new(rt.alloc());
        for _ in 0..TOKENS {
            list.push(&mut random)?;
        }
        they_are_written_and_read(&rt, rt.alloc(), list.tokens.as_slice(), list.text.as_str())?;
    }
    Ok(())
}
