//! Resolves a JavaScript stack trace.
//!
//!     resolve_stack DIRECTORY < stack.txt
//!
//! Every position FILE:LINE:COLUMN at the end of a line of the input, as V8, Firefox and Safari print it, is looked up in the map
//! DIRECTORY/NAME.map, where NAME is the last part of FILE, and replaced by the original position. All else is copied.

use oxc_sourcemap::{Bias, OwnedSourceMap, SourceMap};
use std::collections::HashMap;
use std::fs;
use std::io::{self, Read, Write};
use std::path::{Path, PathBuf};

/// The maps of a directory, each read when it is first asked for. None stands for a map that cannot be read.
pub struct Maps {
    directory: PathBuf,
    maps: HashMap<String, Option<OwnedSourceMap>>,
}

impl Maps {
    pub fn new(directory: &Path) -> Maps {
        Maps { directory: directory.to_path_buf(), maps: HashMap::new() }
    }

    fn get(&mut self, name: &str) -> Option<&OwnedSourceMap> {
        if !self.maps.contains_key(name) {
            let map = read_map(&self.directory.join(format!("{name}.map")));
            self.maps.insert(name.to_string(), map);
        }
        self.maps.get(name)?.as_ref()
    }
}

fn read_map(path: &Path) -> Option<OwnedSourceMap> {
    let text = fs::read(path).ok()?;
    match SourceMap::read_found(&text) {
        Ok((map, _)) => Some(map.into()),
        Err(fault) => {
            eprintln!("{}: {fault}", path.display());
            None
        }
    }
}

/// The number at the end of a text behind a colon, and the text before that.
fn number_at_end(text: &str) -> Option<(&str, u32)> {
    let (before, number) = text.rsplit_once(':')?;
    let is_plain = !number.is_empty() && number.bytes().all(|byte| byte.is_ascii_digit());
    is_plain.then_some((before, number.parse().ok()?))
}

/// The original position of FILE:LINE:COLUMN, where lines and columns are counted from 1.
fn original(maps: &mut Maps, place: &str) -> Option<String> {
    let (rest, column) = number_at_end(place)?;
    let (file, line) = number_at_end(rest)?;
    let map = maps.get(file.rsplit('/').next()?)?;
    let found = map.trace(line.checked_sub(1)?, column.checked_sub(1)?, Bias::Before).ok()?.original()?;
    Some(format!("{}:{}:{}", found.source, found.line() + 1, found.column() + 1))
}

/// Where the file of a line begins: in the parentheses at its end, behind `at`, behind a function and `@`, or at the last word.
fn start_of(line: &str) -> usize {
    let behind = |at: Option<usize>| at.map(|at| at + 1);
    if line.ends_with(')') {
        return behind(line.rfind('(')).unwrap_or(0);
    }
    if let Some(rest) = line.trim_start().strip_prefix("at ") {
        return line.len() - rest.strip_prefix("async ").unwrap_or(rest).len();
    }
    let at = line.match_indices('@').map(|(at, _)| at).find(|at| !line[..*at].ends_with('/'));
    behind(at.or(line.rfind(' '))).unwrap_or(0)
}

/// A line with its position resolved.
pub fn resolved(maps: &mut Maps, line: &str) -> String {
    let inner = line.strip_suffix(')').unwrap_or(line);
    let start = start_of(line);
    match original(maps, &inner[start..]) {
        Some(place) => format!("{}{place}{}", &line[..start], &line[inner.len()..]),
        None => line.to_string(),
    }
}

#[allow(dead_code)]
fn main() -> io::Result<()> {
    let Some(directory) = std::env::args_os().nth(1) else {
        eprintln!("usage: resolve_stack DIRECTORY < stack.txt");
        std::process::exit(2);
    };
    let (mut maps, mut stack) = (Maps::new(Path::new(&directory)), String::new());
    io::stdin().read_to_string(&mut stack)?;
    let mut out = io::stdout().lock();
    stack.lines().try_for_each(|line| writeln!(out, "{}", resolved(&mut maps, line)))
}
