//! Answers requests about maps and texts, each a line of standard input, by a line. tools/compare/asking.py asks.
//!
//! A line that sets what the requests after it are about has no answer:
//!
//!     json TEXT            the map that a JSON text reads as
//!     tokens NUMBERS       a map of these tokens: six numbers each, in the order of `Token::new`, `-` for no id
//!     text STRING          a text, as a JSON string
//!
//! The requests, in words; S is a source id, L a line, C a column. Tokens are printed as six numbers between colons.
//!
//!     at|for|from|all_for|all_from S L C  and  line S L      reverse lookups
//!     find|near|after L C                                    lookups: the token, and its index
//!     sort                                                   the tokens of the map, sorted
//!     position N  and  offset L C                            of the text
//!     found ANSWER                                           whether this is the map that is found in the text, and what was mended
#![tactic(auto)]

mod fault;
mod found;
mod maps;
mod texts;

use crate::fault::Fault;
use crate::maps::{answer_map, map_of_tokens};
use crate::texts::answer_text;
use oxc_sourcemap::SourceMap;
use std::io::Read;
use std::process::ExitCode;

/// The first word of a line, and what follows.
pub(crate) fn cut(line: &str) -> (&str, &str) {
    line.split_once(' ').unwrap_or((line, ""))
}

/// Whether a line sets what is asked about.
fn is_subject(line: &str) -> bool {
    matches!(cut(line).0, "json" | "tokens" | "text")
}

/// Answers requests about what a line sets.
fn answer_about(rt: &HostRuntime, line: &str, requests: &[&str]) -> Result<(), Fault> {
    let (kind, what) = cut(line);
    match kind {
        "json" => answer_map(rt, &SourceMap::from_json_string(rt.alloc(), what)?, requests),
        "tokens" => answer_map(rt, &map_of_tokens(rt.alloc(), what)?, requests),
        "text" => answer_text(rt, what, requests),
        _ => Err(Fault::Request),
    }
}

fn ask(rt: &HostRuntime) -> Result<(), Fault> {
    let mut input = String::new(rt.alloc());
    rt.stdin().read_to_string(&mut input)?;
    let lines: Vec<&str> = input.lines().collect(rt.alloc())?;
    let mut rest = lines.as_slice();
    while let Some((line, others)) = rest.split_first() {
        let count = others.iter().take_while(|it| !is_subject(*it)).count();
        let (requests, after) = others.split_at(count);
        answer_about(rt, *line, requests)?;
        rest = after;
    }
    Ok(())
}

fn main(rt: HostRuntime) -> ExitCode {
    match ask(&rt) {
        Ok(()) => ExitCode::SUCCESS,
        Err(fault) => {
            let _ = eprintln!(rt; "ask: {fault}");
            ExitCode::FAILURE
        }
    }
}
