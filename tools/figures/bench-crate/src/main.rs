//! Times the calls of the Rust crate on what standard input has, in the form of tools/figures/bench: the text of a map; texts of a
//! pipeline, separated by lines `---`, the first nearest to the sources; or those of modules, separated by lines `+++`.
//! Prints a line of JSON for each stage. Arguments STAGE RUNS run that stage alone, so many times.

use std::hint::black_box;
use std::io::Read;
use std::time::{Duration, Instant};

use oxc_sourcemap::{ConcatSourceMapBuilder, Error, JSONSourceMap, SourceMap, SourceMapBuilder, Token};

const MOST_RUNS: u32 = 20;
const LEAST_RUNS: u32 = 3;
const BUDGET: Duration = Duration::from_secs(5);
const LOOKUPS: u32 = 100_000;
const COLUMNS: u32 = 200;
const COPIES: u32 = 10;
/// How many lines below the one before it a module begins.
const LINES: u32 = 100;
const SEED: u64 = 0x9E37_79B9_7F4A_7C15;

/// Marsaglia's xorshift generator with the shifts 13, 7 and 17: the same positions as those of tools/figures/bench.
struct XorShift(u64);

impl XorShift {
    fn next(&mut self) -> u64 {
        self.0 ^= self.0 << 13;
        self.0 ^= self.0 >> 7;
        self.0 ^= self.0 << 17;
        self.0
    }

    fn below(&mut self, n: u32) -> u32 {
        ((self.next() >> 32) as u32).checked_rem(n).unwrap_or(0)
    }
}

struct Asked {
    stage: Option<String>,
    runs: Option<u32>,
}

impl Asked {
    /// Times a stage, if it is asked for, and prints its line. Neither `before` nor the drop of what is made counts.
    fn time<S, T>(&self, name: &str, tokens: usize, before: impl Fn() -> S, run: impl Fn(S) -> T) {
        if self.stage.as_ref().is_some_and(|stage| stage != name) {
            return;
        }
        let begin = Instant::now();
        let mut best = Duration::MAX;
        for done in 0..self.runs.unwrap_or(MOST_RUNS) {
            if done >= self.runs.unwrap_or(LEAST_RUNS) && begin.elapsed() >= BUDGET {
                break;
            }
            let given = before();
            let start = Instant::now();
            let made = black_box(run(black_box(given)));
            best = best.min(start.elapsed());
            drop(made);
        }
        println!("{{\"stage\":\"{name}\",\"ns\":{},\"tokens\":{tokens}}}", best.as_nanos());
    }
}

fn read(text: &str) -> Result<SourceMap<'static>, Error> {
    Ok(SourceMap::from_json_string(text)?.into_owned())
}

/// A value that has the `mappings` text, and as many names and sources, but nothing else.
fn bare_json(json: &JSONSourceMap) -> JSONSourceMap {
    JSONSourceMap {
        version: 3,
        file: None,
        mappings: json.mappings.clone(),
        source_root: None,
        sources: vec![String::new(); json.sources.len()],
        sources_content: None,
        names: vec![String::new(); json.names.len()],
        debug_id: None,
        ignore_list: None,
    }
}

/// A map with the tokens of this one, and nothing else.
fn bare_map(map: &SourceMap<'_>) -> SourceMap<'static> {
    let tokens: Vec<Token> = map.get_tokens().collect();
    SourceMap::new(None, vec![], None, vec![], vec![], tokens.into_boxed_slice(), None)
}

fn rebuilt<'m>(map: &'m SourceMap<'_>) -> SourceMap<'m> {
    let mut builder = SourceMapBuilder::default();
    for name in map.get_names() {
        builder.add_name(name);
    }
    for token in map.get_tokens() {
        builder.add_token(
            token.get_dst_line(),
            token.get_dst_col(),
            token.get_src_line(),
            token.get_src_col(),
            token.get_source_id(),
            token.get_name_id(),
        );
    }
    builder.into_sourcemap()
}

fn time_map(asked: &Asked, text: &str) -> Result<(), Error> {
    let map = SourceMap::from_json_string(text)?;
    let tokens = map.get_tokens().len();
    asked.time("parse", tokens, || (), |()| SourceMap::from_json_string(text));
    asked.time("serialize", tokens, || (), |()| map.to_json_string());
    asked.time("table", tokens, || (), |()| map.generate_lookup_table());
    let json = map.to_json();
    asked.time("decode", tokens, || bare_json(&json), SourceMap::from_json);
    let bare = bare_map(&map);
    asked.time("encode", tokens, || (), |()| bare.to_json_string());
    asked.time("build", tokens, || (), |()| rebuilt(&map));
    let table = map.generate_lookup_table();
    let mut random = XorShift(SEED);
    let positions: Vec<(u32, u32)> =
        (0..LOOKUPS).map(|_| (random.below(table.len() as u32), random.below(COLUMNS))).collect();
    let sum = |()| {
        let found = positions.iter().filter_map(|(line, column)| map.lookup_token(&table, *line, *column));
        found.fold(0, |sum: usize, token| sum.wrapping_add(token.get_src_line() as usize + 1))
    };
    asked.time("lookup", tokens, || (), sum);
    let sum_of_texts = |()| {
        let found = positions.iter().filter_map(|(line, column)| map.lookup_source_view_token(&table, *line, *column));
        found.fold(0, |sum: usize, token| {
            let texts = token.get_source().map_or(0, str::len).wrapping_add(token.get_name().map_or(0, str::len));
            sum.wrapping_add(token.get_src_line() as usize).wrapping_add(texts)
        })
    };
    asked.time("lookup_texts", tokens, || (), sum_of_texts);
    let held = Held { map: &map, table: &table };
    let answer_all = |()| {
        let answer: extern "C" fn(&Held<'_, '_>, u32, u32, &mut Found) -> u32 = black_box(answer);
        let mut found = Found::default();
        positions.iter().fold(0, |sum: usize, (line, column)| {
            let kind = answer(&held, *line, *column, &mut found);
            sum.wrapping_add(kind as usize).wrapping_add(found.source[1])
        })
    };
    asked.time("lookup_by_c", tokens, || (), answer_all);
    let copies: Vec<_> = (0..COPIES).map(|i| (&map, i * table.len() as u32)).collect();
    let join = |()| ConcatSourceMapBuilder::from_sourcemaps(&copies).into_sourcemap();
    asked.time("join", tokens, || (), join);
    Ok(())
}

/// What a lookup gives to C: the fields of `smap_original` but for the index, which the crate does not tell. There is no bias, no fault
/// and no test for null.
#[repr(C)]
#[derive(Default)]
struct Found {
    kind: u32,
    token: [u32; 6],
    source: [usize; 2],
    name: [usize; 2],
}

/// What a handle of such a library would hold.
struct Held<'m, 't> {
    map: &'m SourceMap<'t>,
    table: &'m [&'m [Token]],
}

/// A text as C has it: where its bytes begin, and how many they are.
fn bytes_of(text: Option<&str>) -> [usize; 2] {
    text.map_or([0, 0], |text| [text.as_ptr() as usize, text.len()])
}

/// A lookup as a library for C would give it: by a call, into memory of the caller.
#[inline(never)]
extern "C" fn answer(held: &Held<'_, '_>, line: u32, column: u32, out: &mut Found) -> u32 {
    let Some(token) = held.map.lookup_source_view_token(held.table, line, column) else {
        *out = Found::default();
        return 0;
    };
    let (source, name) = (token.get_source(), token.get_name());
    *out = Found {
        kind: 1 + u32::from(source.is_some()) + u32::from(name.is_some()),
        token: [
            token.get_dst_line(),
            token.get_dst_col(),
            token.get_src_line(),
            token.get_src_col(),
            token.get_source_id().unwrap_or(u32::MAX),
            token.get_name_id().unwrap_or(u32::MAX),
        ],
        source: bytes_of(source),
        name: bytes_of(name),
    };
    out.kind
}

/// The composition of maps, the first of which is nearest to the sources.
fn composed(maps: Vec<SourceMap<'static>>) -> Option<SourceMap<'static>> {
    maps.into_iter().reduce(|below, map| map.compose(below))
}

fn time_pipeline(asked: &Asked, texts: &[&str]) -> Result<(), Error> {
    let maps = texts.iter().map(|text| read(text)).collect::<Result<Vec<_>, _>>()?;
    let last = maps.last().expect("a text at least");
    if last.get_sources().len() <= 1 {
        asked.time("compose", last.get_tokens().len(), || maps.clone(), composed);
    }
    Ok(())
}

fn time_modules(asked: &Asked, texts: &[&str]) -> Result<(), Error> {
    let maps = texts.iter().map(|text| read(text)).collect::<Result<Vec<_>, _>>()?;
    let tokens = maps.iter().map(|map| map.get_tokens().len()).sum();
    let read_all = |()| texts.iter().map(|text| SourceMap::from_json_string(text)).collect::<Result<Vec<_>, _>>();
    asked.time("parse_each", tokens, || (), read_all);
    let modules: Vec<_> = maps.iter().zip(0..).map(|(map, i)| (map, i * LINES)).collect();
    let join = |()| ConcatSourceMapBuilder::from_sourcemaps(&modules).into_sourcemap();
    asked.time("join_each", tokens, || (), join);
    let join_owned = |()| ConcatSourceMapBuilder::from_sourcemaps(&modules).into_sourcemap().into_owned();
    asked.time("join_each_owned", tokens, || (), join_owned);
    let read_owned = |()| texts.iter().map(|text| read(text)).collect::<Result<Vec<_>, _>>();
    asked.time("parse_each_owned", tokens, || (), read_owned);
    Ok(())
}

fn main() -> Result<(), Box<dyn std::error::Error>> {
    let mut words = std::env::args().skip(1);
    let (stage, runs) = (words.next(), words.next().map(|runs| runs.parse()).transpose()?);
    let asked = Asked { stage, runs };
    let mut text = String::new();
    std::io::stdin().read_to_string(&mut text)?;
    let parts = |separator| text.split(separator).collect::<Vec<&str>>();
    match &text {
        text if text.is_empty() => {}
        text if text.contains("\n---\n") => time_pipeline(&asked, &parts("\n---\n"))?,
        text if text.contains("\n+++\n") => time_modules(&asked, &parts("\n+++\n"))?,
        text => time_map(&asked, text)?,
    }
    Ok(())
}
