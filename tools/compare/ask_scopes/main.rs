//! Answers requests about texts of scopes, each two lines of standard input, by a line. tools/compare/scopes asks.
//!
//! A request is a count of names, a text and positions, in words: `L:C` of the generated code, or `S:L:C` of a source; and, on a
//! second line, the answer that is wanted, for which `=` is printed, since the output may not be long. The answer is a fault; or,
//! with bars between them, the count of sources, each scope with its variables, each range with its values, and what is at each
//! position: the range and the frames, then the chain of scopes of each frame, with the values there; or the scope and the function.
//! `-` is none.
#![tactic(auto)]

use oxc_sourcemap_scopes::{CallSite, ScopeChainEntry, ScopesError, Scopes, decode_scopes};
use std::alloc::{AllocError, AllocFailed, Global};
use std::fmt;
use std::io::Read;
use std::process::ExitCode;

/// Why there is no answer.
#[derive(Clone, Copy, Debug)]
enum Fault {
    Memory,
    Request,
    Other,
}

impl From<AllocError> for Fault {
    fn from(_: AllocError) -> Fault {
        Fault::Memory
    }
}

impl<T: Drop> From<AllocFailed<T>> for Fault {
    fn from(_: AllocFailed<T>) -> Fault {
        Fault::Memory
    }
}

impl From<fmt::Error> for Fault {
    fn from(_: fmt::Error) -> Fault {
        Fault::Other
    }
}

impl From<std::io::Error> for Fault {
    fn from(_: std::io::Error) -> Fault {
        Fault::Other
    }
}

fn write_index(index: Option<usize>, out: &mut String) -> Result<(), Fault> {
    match index {
        Some(index) => write!(out, " {index}")?,
        None => write!(out, " -")?,
    }
    Ok(())
}

fn write_call(call: Option<CallSite>, out: &mut String) -> Result<(), Fault> {
    match call {
        Some(call) => write!(out, " {}:{}:{}", call.source, call.line, call.column)?,
        None => write!(out, " -")?,
    }
    Ok(())
}

fn write_flag(flag: bool, out: &mut String) -> Result<(), Fault> {
    write!(out, " {}", u32::from(flag))?;
    Ok(())
}

fn write_scope(scopes: &Scopes, i: usize, out: &mut String) -> Result<(), Fault> {
    let Some(it) = scopes.get_scope(i) else {
        return Err(Fault::Other);
    };
    write!(out, "|S {} {}:{}", it.source, it.start.line, it.start.column)?;
    write!(out, " {}:{}", it.end.line, it.end.column)?;
    write_index(it.name.map(|n| n as usize), out)?;
    write_index(it.kind.map(|n| n as usize), out)?;
    write_flag(it.is_stack_frame, out)?;
    write_index(it.parent, out)?;
    for variable in scopes.get_variables(i).unwrap_or(&[]) {
        write_index(Some(*variable as usize), out)?;
    }
    Ok(())
}

fn write_range(scopes: &Scopes, i: usize, out: &mut String) -> Result<(), Fault> {
    let Some(it) = scopes.get_range(i) else {
        return Err(Fault::Other);
    };
    write!(out, "|R {}:{}", it.start.line, it.start.column)?;
    write!(out, " {}:{}", it.end.line, it.end.column)?;
    write_index(it.definition.map(|n| n as usize), out)?;
    write_flag(it.is_stack_frame, out)?;
    write_flag(it.is_hidden, out)?;
    write_call(it.call_site, out)?;
    write_index(it.parent, out)?;
    for k in 0..scopes.value_count(i) {
        write_index(scopes.get_value(i, k).map(|n| n as usize), out)?;
    }
    Ok(())
}

fn write_values_at(scopes: &Scopes, range: usize, line: u32, column: u32, out: &mut String) -> Result<(), Fault> {
    for k in 0..scopes.value_count(range) {
        write_index(scopes.value_at(range, k, line, column).map(|n| n as usize), out)?;
    }
    Ok(())
}

fn write_chain(scopes: &Scopes, chain: &[ScopeChainEntry], line: u32, column: u32, out: &mut String) -> Result<(), Fault> {
    write!(out, "|C")?;
    for entry in chain {
        write!(out, "; {}", entry.scope)?;
        write_index(entry.range, out)?;
        if let Some(range) = entry.range {
            write_values_at(scopes, range, line, column, out)?;
        }
    }
    Ok(())
}

fn write_chains(alloc: Global, scopes: &Scopes, line: u32, column: u32, out: &mut String) -> Result<(), Fault> {
    let chain = scopes.scope_chain_at(alloc, line, column)?;
    write_chain(scopes, chain.as_slice(), line, column, out)?;
    for frame in 1..usize::MAX {
        match scopes.scope_chain(alloc, frame, line, column)? {
            Some(chain) => write_chain(scopes, chain.as_slice(), line, column, out)?,
            None => break,
        }
    }
    Ok(())
}

fn write_frames(alloc: Global, scopes: &Scopes, line: u32, column: u32, out: &mut String) -> Result<(), Fault> {
    let found = scopes.frames_at(alloc, line, column)?;
    write!(out, "|F")?;
    write_index(scopes.range_at(line, column), out)?;
    write_flag(found.is_hidden, out)?;
    for frame in &found.frames {
        write_index(frame.scope, out)?;
        write_call(frame.call_site, out)?;
    }
    Ok(())
}

fn write_position(alloc: Global, scopes: &Scopes, position: &[u32], out: &mut String) -> Result<(), Fault> {
    match position {
        [line, column] => {
            write_frames(alloc, scopes, *line, *column, out)?;
            write_chains(alloc, scopes, *line, *column, out)?;
        }
        [source, line, column] => {
            write!(out, "|A")?;
            write_index(scopes.scope_at(*source, *line, *column), out)?;
            write_index(scopes.function_at(*source, *line, *column), out)?;
        }
        _ => return Err(Fault::Request),
    }
    Ok(())
}

fn write_answer(alloc: Global, names: usize, text: &str, positions: &[&str], out: &mut String) -> Result<(), Fault> {
    let scopes = match decode_scopes(alloc, text, names) {
        Ok(scopes) => scopes,
        Err(ScopesError::OutOfMemory) => return Err(Fault::Memory),
        Err(ScopesError::Fault(fault)) => {
            write!(out, "{:?} {}", fault.kind, fault.byte)?;
            return Ok(());
        }
        Err(_) => return Err(Fault::Other),
    };
    write!(out, "{}", scopes.source_count())?;
    for i in 0..scopes.scope_count() {
        write_scope(&scopes, i, out)?;
    }
    for i in 0..scopes.range_count() {
        write_range(&scopes, i, out)?;
    }
    for position in positions {
        let mut numbers = Vec::new(alloc);
        for word in (*position).split(':') {
            numbers.push(word.parse::<u32>().map_err(|_| Fault::Request)?)?;
        }
        write_position(alloc, &scopes, numbers.as_slice(), out)?;
    }
    Ok(())
}

fn ask(rt: &HostRuntime) -> Result<(), Fault> {
    let alloc = rt.alloc();
    let mut input = String::new(alloc);
    rt.stdin().read_to_string(&mut input)?;
    let lines: Vec<&str> = input.lines().collect(alloc)?;
    let mut rest = lines.as_slice();
    while let [line, wanted, others @ ..] = rest {
        rest = others;
        let words: Vec<&str> = (*line).split(' ').collect(alloc)?;
        let [names, text, positions @ ..] = words.as_slice() else {
            return Err(Fault::Request);
        };
        let names = (*names).parse::<usize>().map_err(|_| Fault::Request)?;
        let mut out = String::new(alloc);
        write_answer(alloc, names, *text, positions, &mut out)?;
        if out.as_str() == *wanted {
            println!(rt; "=")?;
        } else {
            println!(rt; "{out}")?;
        }
    }
    Ok(())
}

fn main(rt: HostRuntime) -> ExitCode {
    match ask(&rt) {
        Ok(()) => ExitCode::SUCCESS,
        Err(fault) => {
            let _ = eprintln!(rt; "ask_scopes: {fault:?}");
            ExitCode::FAILURE
        }
    }
}
