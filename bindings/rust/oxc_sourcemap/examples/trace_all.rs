//! trace_all [--compiled] FILE.map: answers each line `LINE COLUMN` of standard input with two lines, what the map says of the position
//! and what it says clamped: `nothing`, `unmapped`, or `SOURCE:LINE:COLUMN`, then a space and the name if there is one. With --compiled
//! it says what the compiled map says. Ends with status 1 and a message if a call is refused or the map is not sorted.

use oxc_sourcemap::{Bias, CompiledMap, SourceMap, Traced};
use std::error::Error;
use std::io::{self, BufRead, Write};
use std::process::ExitCode;

fn print(out: &mut impl Write, traced: Traced<'_>) -> io::Result<()> {
    match traced {
        Traced::Nothing => writeln!(out, "nothing"),
        Traced::Unmapped(_) => writeln!(out, "unmapped"),
        Traced::Mapped(it) => match it.name {
            None => writeln!(out, "{}:{}:{}", it.source, it.line(), it.column()),
            Some(name) => writeln!(out, "{}:{}:{} {name}", it.source, it.line(), it.column()),
        },
    }
}

/// Answers what `trace` says.
fn answer_by<'m>(trace: impl Fn(u32, u32, Bias) -> Result<Traced<'m>, Box<dyn Error>>) -> Result<(), Box<dyn Error>> {
    let mut out = io::BufWriter::new(io::stdout().lock());
    for text in io::stdin().lock().lines() {
        let text = text?;
        let (line, column) = text.split_once(' ').ok_or("a line is no position")?;
        let (line, column) = (line.parse()?, column.parse()?);
        print(&mut out, trace(line, column, Bias::Before)?)?;
        print(&mut out, trace(line, column, Bias::Clamped)?)?;
    }
    Ok(())
}

fn answer() -> Result<(), Box<dyn Error>> {
    let words: Vec<String> = std::env::args().skip(1).collect();
    let path = words.last().ok_or("no map is named")?;
    let map = SourceMap::read(&std::fs::read(path)?).map_err(|fault| fault.error())?;
    if !map.is_sorted() {
        return Err("Tokens are not in order of line and column".into());
    }
    if words[0] != "--compiled" {
        return answer_by(|line, column, bias| Ok(map.trace(line, column, bias)?));
    }
    let bytes = map.compile(0, &[0; 32])?;
    let compiled = CompiledMap::open(&bytes)?;
    answer_by(|line, column, bias| Ok(compiled.trace(line, column, bias)))
}

fn main() -> ExitCode {
    match answer() {
        Ok(()) => ExitCode::SUCCESS,
        Err(error) => {
            eprintln!("{error}");
            ExitCode::FAILURE
        }
    }
}
