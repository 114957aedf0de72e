//! Calls of the program's library.
use crate::helpers::same;
use crate::program::strings;
use super::fixtures::is_map;
use super::memory::{nothing, refuse_each, refuse_each_change, takes_none};
use oxc_sourcemap::{Error, Plan, Result};
use smap_run::{Command, Port, RunError, run};
use std::alloc::{AllocError, Global};
use std::process::Abort;

/// The text of a map.
const INPUT: &str = r#"{"version":3,"names":["x"],"sources":["a.js"],"mappings":"AAAA,GAAIA"}"#;

const URL: &str =
    "data:application/json;charset=utf-8;base64,eyJ2ZXJzaW9uIjozLCJuYW1lcyI6WyJ4Il0sInNvdXJjZXMiOlsiYS5qcyJdLCJtYXBwaW5ncyI6IkFBQUEsR0FBSUEifQ==";

/// A map of its source, and both as the input of a plan.
const OF_SOURCE: &str = r#"{"version":3,"sourceRoot":"src","names":["y"],"sources":["a.ts","b.ts"],"sourcesContent":["let a",null],"ignoreList":[1],"mappings":"AAAA,IACIA"}"#;
const INPUTS: &str = r#"{"version":3,"names":["x"],"sources":["a.js"],"mappings":"AAAA,GAAIA"}
---
{"version":3,"sourceRoot":"src","names":["y"],"sources":["a.ts","b.ts"],"sourcesContent":["let a",null],"ignoreList":[1],"mappings":"AAAA,IACIA"}"#;

/// The words of a plan with each kind of part, and the text of its map.
const PLAN: &[&str] = &[
    "join", "3", "compose", "@0", "rewrite", "simplify", "@0", "0", "joinat", "2", "@0", "0", "2", "@0", "0", "9", "1", "remap", "@0", "1", "a.js", "root", "@1", "2",
];
const PLANNED: &str = r#"{"version":3,"names":["x","x","x","y"],"sources":["a.js","a.js","a.js","src/a.ts","src/b.ts"],"sourcesContent":[null,null,null,"let a",null],"ignoreList":[4],"mappings":"AAAA,GAAIA;ECAJ,GAAIC,ICAJ,GAAIC;ACAJ,GACIC"}"#;

/// A reader and a writer.
type Ports = (Port<&'static [u8]>, Port<Vec<u8>>);

/// The input, and a writer that has room for the answer.
fn ports(alloc: Global, input: &'static str) -> Result<(Ports, ())> {
    let writer = Port::new(Vec::with_capacity(alloc, 4096)?);
    Ok(((Port::new(input.as_bytes()), writer), ()))
}

/// Asserts that no port has failed, and that this line is written, or nothing.
fn has_written(rt: &impl Abort, ports: Ports, has_run: bool, line: &str) {
    let (reader, writer) = ports;
    same(rt, "failed", [reader.failed(), writer.failed()], [false; 2]);
    let written = writer.into_inner();
    let wanted = if has_run { Some((&b'\n', line.as_bytes())) } else { None };
    same(rt, "written", written.as_slice().split_last(), wanted);
}

/// Asserts what a command writes.
fn writes(rt: &(impl Abort + AllocGlobal), command: &Command<'_>, input: &'static str, line: &str) {
    refuse_each_change(rt, |alloc| ports(alloc, input), |alloc, (reader, writer), ()| run(alloc, command, reader, writer), |ports, has_run| has_written(rt, ports, has_run, line));
}

#[test]
fn run_mappings(rt: HostRuntime) {
    writes(&rt, &Command::Mappings(1, 1), "AAAA,GAAIA", "AAAA,GAAIA");
}

#[test]
fn run_normalise(rt: HostRuntime) {
    writes(&rt, &Command::Normalise, INPUT, INPUT);
}

#[test]
fn run_url(rt: HostRuntime) {
    writes(&rt, &Command::Url, INPUT, URL);
}

#[test]
fn run_trace(rt: HostRuntime) {
    writes(&rt, &Command::Trace(0, 3), INPUT, "\"a.js\":0:4 \"x\"");
}

#[test]
fn run_plan(rt: HostRuntime) -> Result<()> {
    let words = strings(rt.alloc(), PLAN)?;
    writes(&rt, &Command::Plan(words.as_slice()), INPUTS, PLANNED);
    Ok(())
}

#[test]
fn inputs_of(rt: HostRuntime) {
    refuse_each(&rt, nothing, |alloc, ()| smap_run::inputs_of(alloc, "a\nb\n---\nc"), |texts| same(&rt, "texts", texts.as_slice(), &["a\nb", "c"]));
}

fn is_planned(rt: &(impl Abort + AllocGlobal), plan: &Plan<'_>) {
    let map = oxc_sourcemap::evaluate(rt.alloc(), plan).expect(rt, "a map");
    is_map(rt, &map, PLANNED);
}

#[test]
fn read_plan(rt: HostRuntime) -> Result<()> {
    let words = strings(rt.alloc(), PLAN)?;
    refuse_each(&rt, nothing, |alloc, ()| smap_run::read_plan(alloc, &[INPUT, OF_SOURCE], words.as_slice()), |plan| is_planned(&rt, &plan));
    Ok(())
}

#[test]
fn trace(rt: HostRuntime) {
    refuse_each(&rt, nothing, |alloc, ()| smap_run::trace(alloc, INPUT, 0, 3), |line| same(&rt, "line", line.as_str(), "\"a.js\":0:4 \"x\""));
}

#[test]
fn read_words(rt: HostRuntime) -> Result<()> {
    let words = strings(rt.alloc(), &["plan", "join", "1", "@0", "0"])?;
    takes_none(&rt, nothing, |_, ()| smap_run::read_words(words.as_slice()), |read| match read {
        Ok(Command::Plan(plan)) => same(&rt, "words", plan.len(), 4),
        _ => assert!(rt; false, "no plan"),
    });
    Ok(())
}

fn a_port_gives_what_is_inside(rt: &impl Abort) {
    let port = Port::new(b"text".as_slice());
    same(rt, "failed", port.failed(), false);
    same(rt, "inside", port.into_inner(), b"text".as_slice());
    same(rt, "status", RunError::from(Error::from(AllocError)).status(), 1);
}

#[test]
fn ports_and_status(rt: HostRuntime) {
    takes_none(&rt, nothing, |_, ()| a_port_gives_what_is_inside(&rt), |()| ());
}
