//! Which lines of the originals ran, by V8's block coverage of a generated code and the code's map.
//!
//!     coverage CODE..
//!
//! For each CODE: the file is read, its map CODE.map, and its coverage CODE.coverage.json, an entry of what node writes for
//! NODE_V8_COVERAGE. It prints how many original lines with code ran and how many did not, and for each source which did not, lines
//! counted from 1. A line ran if a UTF-16 unit of it ran; white space and `( ) [ ] { } , : ;` count for no line.

use oxc_sourcemap::{Piece, Position, SourceMap};
use std::cmp::Reverse;
use std::collections::{BTreeMap, BinaryHeap};
use std::error::Error;
use std::fmt::Write;
use std::fs;
use std::path::Path;

type Result<T> = std::result::Result<T, Box<dyn Error>>;

/// For each original line with code, by its source id and its number: whether some of its code ran.
type Lines = BTreeMap<(u32, u32), bool>;

/// How often the code between two offsets ran. Of two ranges one is in the other, or they do not overlap.
struct Range {
    start: usize,
    end: usize,
    count: u64,
}

/// The ranges of a coverage, as V8 writes them: `{"startOffset":0,"endOffset":9,"count":1}`.
fn ranges_of(json: &str) -> Result<Vec<Range>> {
    let mut ranges = Vec::new();
    for part in json.split("{\"startOffset\":").skip(1) {
        let mut numbers = part.split(|c: char| !c.is_ascii_digit()).filter(|number| !number.is_empty());
        let mut number = || numbers.next().ok_or("a range has no number");
        ranges.push(Range { start: number()?.parse()?, end: number()?.parse()?, count: number()?.parse()? });
    }
    Ok(ranges)
}

/// The parts of a code in which no range begins or ends, and whether they ran: by the innermost range around each, the shortest, and
/// of equal ones the last.
fn blocks_of(ranges: &[Range]) -> Vec<(usize, usize, bool)> {
    let mut cuts: Vec<usize> = ranges.iter().flat_map(|range| [range.start, range.end]).collect();
    cuts.sort_unstable();
    cuts.dedup();
    let mut begins: Vec<usize> = (0..ranges.len()).collect();
    begins.sort_by_key(|at| ranges[*at].start);
    let (mut begins, mut around) = (begins.into_iter().peekable(), BinaryHeap::new());
    let block = |cut: &[usize]| {
        while let Some(at) = begins.next_if(|at| ranges[*at].start == cut[0]) {
            around.push((Reverse(ranges[at].end.saturating_sub(cut[0])), at));
        }
        while around.peek().is_some_and(|(_, at)| ranges[*at].end <= cut[0]) {
            around.pop();
        }
        around.peek().map(|(_, at)| (cut[0], cut[1], ranges[*at].count > 0))
    };
    cuts.windows(2).filter_map(block).collect()
}

/// A code in UTF-16 units, and the offsets at which its lines begin.
struct Code {
    units: Vec<u16>,
    lines: Vec<usize>,
}

impl Code {
    fn new(text: &str) -> Code {
        let units: Vec<u16> = text.encode_utf16().collect();
        let is_end = |at: usize| match units[at] {
            0x0d => units.get(at + 1) != Some(&0x0a),
            unit => matches!(unit, 0x0a | 0x2028 | 0x2029),
        };
        let lines = std::iter::once(0).chain((0..units.len()).filter(|at| is_end(*at)).map(|at| at + 1)).collect();
        Code { units, lines }
    }

    fn position(&self, offset: usize) -> Position {
        let line = self.lines.partition_point(|start| *start <= offset) - 1;
        Position::new(line as u32, (offset - self.lines[line]) as u32)
    }

    fn offset(&self, position: Position) -> usize {
        let start = self.lines.get(position.line as usize).copied().unwrap_or(self.units.len());
        self.units.len().min(start + position.column as usize)
    }

    /// Whether there is more in a piece than what generators put in or leave out.
    fn is_code(&self, piece: &Piece) -> bool {
        let is_space = |unit: &u16| matches!(unit, 9..=13 | 32 | 0xa0 | 0x2028 | 0x2029 | 0xfeff);
        let is_mark = |unit: &u16| b"()[]{},:;".iter().any(|mark| u16::from(*mark) == *unit);
        let units = &self.units[self.offset(piece.begin)..self.offset(piece.end)];
        units.iter().any(|unit| !is_space(unit) && !is_mark(unit))
    }
}

/// The lines of the originals that have code.
fn lines_of(code: &Code, map: &SourceMap<'_>, blocks: &[(usize, usize, bool)]) -> Lines {
    let mut lines = Lines::new();
    for (start, end, ran) in blocks {
        for piece in map.pieces(code.position(*start), code.position(*end)) {
            let token = piece.index.and_then(|index| map.get_token(index)).filter(|_| code.is_code(&piece));
            if let Some((token, source)) = token.and_then(|token| Some((token, token.get_source_id()?))) {
                *lines.entry((source, token.get_src_line())).or_default() |= ran;
            }
        }
    }
    lines
}

/// What is printed for a code in a folder.
pub fn covered(folder: &Path, name: &str) -> Result<String> {
    let read = |ending: &str| fs::read_to_string(folder.join(format!("{name}{ending}")));
    let (text, json, coverage) = (read("")?, read(".map")?, read(".coverage.json")?);
    let map = SourceMap::from_json_string(&json)?;
    let lines = lines_of(&Code::new(&text), &map, &blocks_of(&ranges_of(&coverage)?));
    let ran = lines.values().filter(|ran| **ran).count();
    let mut out = String::new();
    writeln!(out, "{name}: {ran} lines ran, {} did not", lines.len() - ran)?;
    for (id, source) in (0..).zip(map.get_sources()) {
        let of = |wanted: bool| lines.range((id, 0)..=(id, u32::MAX)).filter(move |(_, ran)| **ran == wanted);
        let idle: Vec<u64> = of(false).map(|(key, _)| u64::from(key.1) + 1).collect();
        writeln!(out, "  {source}: {} lines ran, {} did not: {idle:?}", of(true).count(), idle.len())?;
    }
    Ok(out)
}

#[allow(dead_code)]
fn main() -> Result<()> {
    for name in std::env::args().skip(1) {
        print!("{}", covered(Path::new(""), &name)?);
    }
    Ok(())
}
