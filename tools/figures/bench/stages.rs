//! The stages that are timed.

use super::fault::Fault;
use super::timing::{Asked, Run, best};
use oxc_sourcemap::{
    ConcatSourceMapBuilder, JSONSourceMap, Result as MapResult, SourceIndex, SourceMap,
    SourceMapBuilder, Token,
};
use std::alloc::Global;
use std::time::Instant;

/// What stands between the maps of two steps of a pipeline.
pub(crate) const STEP: &str = "\n---\n";

/// What stands between the maps of two modules.
pub(crate) const MODULE: &str = "\n+++\n";

/// How many lines below the one before it a module begins.
const LINES: u32 = 100;

const LOOKUPS: u32 = 100_000;

const COLUMNS: u32 = 200;

const SEED: u64 = 0x9E37_79B9_7F4A_7C15;

const COPIES: u32 = 10;

/// Marsaglia's xorshift generator with the shifts 13, 7 and 17.
#[derive(Drop)]
struct XorShift(u64);

impl XorShift {
    fn next(&mut self) -> u64 {
        self.0 ^= self.0 << 13;
        self.0 ^= self.0 >> 7;
        self.0 ^= self.0 << 17;
        self.0
    }

    /// A number below `n`, or 0 if `n` is 0.
    fn below(&mut self, n: u32) -> u32 {
        ((self.next() >> 32) as u32).checked_rem(n).unwrap_or(0)
    }
}

/// A call that is timed, on what was made for it before. To make what a call consumes, and to drop its result, is not part
/// of the time.
#[derive(Clone, Copy)]
pub(crate) enum Stage<'s, 'd> {
    /// Reads a JSON text.
    Parse(&'s str),
    /// Reads JSON texts.
    ParseEach(&'s [&'s str]),
    /// Writes a map as JSON text.
    Serialize(&'s SourceMap<'d>),
    /// Simplifies a map.
    Simplify(&'s SourceMap<'d>),
    /// Makes the lookup table.
    Table(&'s SourceMap<'d>),
    /// Reads a `mappings` text, for so many names and sources.
    Decode(&'s str, usize, usize),
    /// Adds each name and each token of a map to a builder.
    Build(&'s SourceMap<'d>),
    /// Looks up positions, by the table of the map.
    Lookup(&'s SourceMap<'d>, &'s [&'s [Token]], &'s [(u32, u32)]),
    /// Makes the index by original positions.
    Index(&'s SourceMap<'d>),
    /// Looks up original positions: source ids, lines and columns.
    Back(&'s SourceIndex<'s>, &'s [(u32, u32, u32)]),
    /// Joins maps.
    Join(&'s [(&'s SourceMap<'d>, u32)]),
    /// Composes maps, the first of which is nearest to the sources.
    Compose(&'s [SourceMap<'static>]),
    /// Remaps a map by inputs.
    Remap(&'s SourceMap<'d>, &'s [(&'s str, &'s SourceMap<'d>)]),
}

impl Stage<'_, '_> {
    /// Runs the call once.
    pub(crate) fn run(&self, rt: &HostRuntime) -> Result<Run, Fault> {
        match *self {
            Stage::Parse(text) => parse(rt, text),
            Stage::ParseEach(texts) => parse_each(rt, texts),
            Stage::Serialize(map) => serialize(rt, map),
            Stage::Simplify(map) => simplify(rt, map),
            Stage::Table(map) => table(rt, map),
            Stage::Decode(mappings, names, sources) => decode(rt, mappings, names, sources),
            Stage::Build(map) => build(rt, map),
            Stage::Lookup(map, table, positions) => lookup(rt, map, table, positions),
            Stage::Index(map) => index(rt, map),
            Stage::Back(index, places) => back(rt, index, places),
            Stage::Join(copies) => join(rt, copies),
            Stage::Compose(maps) => compose(rt, maps),
            Stage::Remap(map, inputs) => remap(rt, map, inputs),
        }
    }
}

/// Times a stage, if it is asked for, and prints its line.
fn time(
    rt: &HostRuntime,
    asked: &Asked,
    name: &str,
    stage: Stage<'_, '_>,
    tokens: usize,
) -> Result<(), Fault> {
    if !asked.has(name) {
        return Ok(());
    }
    let timed = best(rt, &stage, asked.runs)?;
    let nanoseconds = timed.best.as_nanos();
    let made = timed.made;
    println!(rt;
        "{{\"stage\":\"{name}\",\"ns\":{nanoseconds},\"tokens\":{tokens},\"made\":{made}}}"
    )?;
    Ok(())
}

fn parse(rt: &HostRuntime, text: &str) -> Result<Run, Fault> {
    let start = Instant::now(rt)?;
    let map = SourceMap::from_json_string(rt.alloc(), text)?;
    Run::ended(rt, start, map.get_tokens().len())
}

fn parse_each(rt: &HostRuntime, texts: &[&str]) -> Result<Run, Fault> {
    let start = Instant::now(rt)?;
    let maps = read_maps(rt.alloc(), texts)?;
    Run::ended(rt, start, maps.len())
}

fn serialize(rt: &HostRuntime, map: &SourceMap<'_>) -> Result<Run, Fault> {
    let start = Instant::now(rt)?;
    let text = map.to_json_string(rt.alloc())?;
    Run::ended(rt, start, text.len())
}

fn simplify(rt: &HostRuntime, map: &SourceMap<'_>) -> Result<Run, Fault> {
    let mut simplified = map.clone(rt.alloc())?;
    let start = Instant::now(rt)?;
    simplified.simplify(rt.alloc())?;
    Run::ended(rt, start, simplified.get_tokens().len())
}

fn table(rt: &HostRuntime, map: &SourceMap<'_>) -> Result<Run, Fault> {
    let start = Instant::now(rt)?;
    let table = map.generate_lookup_table(rt.alloc())?;
    Run::ended(rt, start, table.len())
}

fn empty_texts(alloc: Global, count: usize) -> MapResult<Vec<String>> {
    let mut texts = Vec::with_capacity(alloc, count)?;
    for _ in 0..count {
        texts.push(String::new(alloc))?;
    }
    Ok(texts)
}

/// A value that has the `mappings` text, and as many names and sources, but nothing else.
fn bare_json(
    alloc: Global,
    mappings: &str,
    names: usize,
    sources: usize,
) -> MapResult<JSONSourceMap> {
    let mappings = String::from_str(alloc, mappings)?;
    let names = empty_texts(alloc, names)?;
    let sources = empty_texts(alloc, sources)?;
    Ok(JSONSourceMap {
        version: 3,
        file: None,
        mappings,
        source_root: None,
        sources,
        sources_content: None,
        names,
        debug_id: None,
        ignore_list: None,
    })
}

fn decode(rt: &HostRuntime, mappings: &str, names: usize, sources: usize) -> Result<Run, Fault> {
    let json = bare_json(rt.alloc(), mappings, names, sources)?;
    let start = Instant::now(rt)?;
    let map = SourceMap::from_json(rt.alloc(), json)?;
    Run::ended(rt, start, map.get_tokens().len())
}

fn add_names<'m>(builder: &mut SourceMapBuilder<'m>, map: &'m SourceMap<'_>) -> MapResult<()> {
    for name in map.get_names() {
        builder.add_name(name)?;
    }
    Ok(())
}

fn add_tokens(builder: &mut SourceMapBuilder<'_>, map: &SourceMap<'_>) -> MapResult<()> {
    for token in map.get_tokens() {
        builder.add_token(
            token.get_dst_line(),
            token.get_dst_col(),
            token.get_src_line(),
            token.get_src_col(),
            token.get_source_id(),
            token.get_name_id(),
        )?;
    }
    Ok(())
}

fn add_all<'m>(builder: &mut SourceMapBuilder<'m>, map: &'m SourceMap<'_>) -> MapResult<()> {
    add_names(builder, map)?;
    add_tokens(builder, map)
}

/// A map with the names and the tokens of this one, each added to a builder.
fn rebuilt<'m>(alloc: Global, map: &'m SourceMap<'_>) -> MapResult<SourceMap<'m>> {
    let mut builder = SourceMapBuilder::empty(alloc);
    add_all(&mut builder, map)?;
    builder.into_sourcemap()
}

fn build(rt: &HostRuntime, map: &SourceMap<'_>) -> Result<Run, Fault> {
    let start = Instant::now(rt)?;
    let map = rebuilt(rt.alloc(), map)?;
    Run::ended(rt, start, map.get_tokens().len())
}

/// Positions on these lines, the same ones in each run.
fn some_positions(alloc: Global, lines: u32) -> MapResult<Vec<(u32, u32)>> {
    let mut random = XorShift(SEED);
    let mut positions = Vec::new(alloc);
    for _ in 0..LOOKUPS {
        let line = random.below(lines);
        let column = random.below(COLUMNS);
        positions.push((line, column))?;
    }
    Ok(positions)
}

/// The sum of the source lines that are found, each plus 1.
fn sum_of_lookups(map: &SourceMap<'_>, table: &[&[Token]], positions: &[(u32, u32)]) -> usize {
    let mut sum: usize = 0;
    for (line, column) in positions {
        if let Some(token) = map.lookup_token(table, *line, *column) {
            sum = sum.wrapping_add(token.get_src_line() as usize + 1);
        }
    }
    sum
}

fn lookup(
    rt: &HostRuntime,
    map: &SourceMap<'_>,
    table: &[&[Token]],
    positions: &[(u32, u32)],
) -> Result<Run, Fault> {
    let start = Instant::now(rt)?;
    let sum = sum_of_lookups(map, table, positions);
    Run::ended(rt, start, sum)
}

fn index(rt: &HostRuntime, map: &SourceMap<'_>) -> Result<Run, Fault> {
    let start = Instant::now(rt)?;
    let index = SourceIndex::new(rt.alloc(), map)?;
    Run::ended(rt, start, index.generated_at(0, 0, 0).len())
}

/// Places that tokens point to, or up to three columns behind, the same ones in each run.
fn some_places(alloc: Global, tokens: &[Token]) -> MapResult<Vec<(u32, u32, u32)>> {
    let mut random = XorShift(SEED);
    let mut places = Vec::new(alloc);
    for _ in 0..LOOKUPS {
        let i = random.below(u32::try_from(tokens.len()).unwrap_or(u32::MAX));
        let columns = random.below(4);
        if let Some(token) = tokens.get(i as usize) {
            let source_id = token.get_source_id().unwrap_or(u32::MAX);
            let col = token.get_src_col().saturating_add(columns);
            places.push((source_id, token.get_src_line(), col))?;
        }
    }
    Ok(places)
}

/// The sum of the generated lines that are found, each plus 1.
fn sum_of_places(index: &SourceIndex<'_>, places: &[(u32, u32, u32)]) -> usize {
    let mut sum: usize = 0;
    for (source_id, line, col) in places {
        if let Some(token) = index.generated_for(*source_id, *line, *col) {
            sum = sum.wrapping_add(token.get_dst_line() as usize + 1);
        }
    }
    sum
}

fn back(
    rt: &HostRuntime,
    index: &SourceIndex<'_>,
    places: &[(u32, u32, u32)],
) -> Result<Run, Fault> {
    let start = Instant::now(rt)?;
    let sum = sum_of_places(index, places);
    Run::ended(rt, start, sum)
}

fn join(rt: &HostRuntime, copies: &[(&SourceMap<'_>, u32)]) -> Result<Run, Fault> {
    let start = Instant::now(rt)?;
    let map = ConcatSourceMapBuilder::from_sourcemaps(rt.alloc(), copies)?.into_sourcemap()?;
    Run::ended(rt, start, map.get_tokens().len())
}

/// The texts that stand between separators.
fn split<'t>(alloc: Global, text: &'t str, separator: &str) -> MapResult<Vec<&'t str>> {
    let mut texts = Vec::new(alloc);
    for text in text.split(separator) {
        texts.push(text)?;
    }
    Ok(texts)
}

fn read_maps(alloc: Global, texts: &[&str]) -> MapResult<Vec<SourceMap<'static>>> {
    let mut maps = Vec::with_capacity(alloc, texts.len())?;
    for text in texts {
        maps.push(SourceMap::from_json_string(alloc, text)?)?;
    }
    Ok(maps)
}

fn copies_of(alloc: Global, maps: &[SourceMap<'static>]) -> MapResult<Vec<SourceMap<'static>>> {
    let mut copies = Vec::with_capacity(alloc, maps.len())?;
    for map in maps {
        copies.push(map.clone(alloc)?)?;
    }
    Ok(copies)
}

/// The composition of maps, the first of which is nearest to the sources.
fn composed(alloc: Global, maps: Vec<SourceMap<'static>>) -> MapResult<SourceMap<'static>> {
    let mut maps = maps.into_iter();
    let mut result = match maps.next() {
        Some(map) => map,
        None => SourceMap::empty(alloc)?,
    };
    for map in maps {
        result = map.compose(alloc, result)?;
    }
    Ok(result)
}

fn compose(rt: &HostRuntime, maps: &[SourceMap<'static>]) -> Result<Run, Fault> {
    let copies = copies_of(rt.alloc(), maps)?;
    let start = Instant::now(rt)?;
    let map = composed(rt.alloc(), copies)?;
    Run::ended(rt, start, map.get_tokens().len())
}

fn remap(
    rt: &HostRuntime,
    map: &SourceMap<'_>,
    inputs: &[(&str, &SourceMap<'_>)],
) -> Result<Run, Fault> {
    let start = Instant::now(rt)?;
    let map = map.remap(rt.alloc(), inputs)?;
    Run::ended(rt, start, map.get_tokens().len())
}

/// Copies of a map of so many lines, each with the line where it begins.
fn copies_below<'m, 'd>(
    alloc: Global,
    map: &'m SourceMap<'d>,
    lines: u32,
) -> MapResult<Vec<(&'m SourceMap<'d>, u32)>> {
    let mut copies = Vec::new(alloc);
    for i in 0..COPIES {
        copies.push((map, i.wrapping_mul(lines)))?;
    }
    Ok(copies)
}

/// A map with the tokens of this one, and nothing else.
fn bare_map(alloc: Global, map: &SourceMap<'_>) -> MapResult<SourceMap<'static>> {
    let tokens = map
        .get_tokens()
        .as_slice()
        .to_vec(alloc)?
        .into_boxed_slice();
    Ok(SourceMap::new(
        None,
        Vec::new(alloc),
        None,
        Vec::new(alloc),
        Vec::new(alloc),
        tokens,
        None,
    ))
}

/// The reading of this `mappings` text, for as many names and sources as are here.
fn decoding(json: &JSONSourceMap) -> Stage<'_, 'static> {
    Stage::Decode(json.mappings.as_str(), json.names.len(), json.sources.len())
}

fn time_decode(rt: &HostRuntime, asked: &Asked, map: &SourceMap<'_>) -> Result<(), Fault> {
    let json = map.to_json(rt.alloc())?;
    let tokens = map.get_tokens().len();
    time(rt, asked, "decode", decoding(&json), tokens)
}

fn time_encode(rt: &HostRuntime, asked: &Asked, map: &SourceMap<'_>) -> Result<(), Fault> {
    let bare = bare_map(rt.alloc(), map)?;
    let tokens = map.get_tokens().len();
    time(rt, asked, "encode", Stage::Serialize(&bare), tokens)
}

fn time_lookup(
    rt: &HostRuntime,
    asked: &Asked,
    map: &SourceMap<'_>,
    table: &[&[Token]],
) -> Result<(), Fault> {
    let lines = u32::try_from(table.len()).unwrap_or(u32::MAX);
    let positions = some_positions(rt.alloc(), lines)?;
    let stage = Stage::Lookup(map, table, positions.as_slice());
    time(rt, asked, "lookup", stage, map.get_tokens().len())
}

/// Times the join of copies of a map of so many lines, one below the other.
fn time_join(
    rt: &HostRuntime,
    asked: &Asked,
    map: &SourceMap<'_>,
    lines: usize,
) -> Result<(), Fault> {
    let lines = u32::try_from(lines).unwrap_or(u32::MAX);
    let copies = copies_below(rt.alloc(), map, lines)?;
    let stage = Stage::Join(copies.as_slice());
    time(rt, asked, "join", stage, map.get_tokens().len())
}

/// Times the stages that need the lookup table.
fn time_lookups(rt: &HostRuntime, asked: &Asked, map: &SourceMap<'_>) -> Result<(), Fault> {
    let table = map.generate_lookup_table(rt.alloc())?;
    time_lookup(rt, asked, map, table.as_slice())?;
    time_join(rt, asked, map, table.len())
}

/// Times the index by original positions, and lookups in it.
fn time_index(rt: &HostRuntime, asked: &Asked, map: &SourceMap<'_>) -> Result<(), Fault> {
    let tokens = map.get_tokens().len();
    time(rt, asked, "index", Stage::Index(map), tokens)?;
    let index = SourceIndex::new(rt.alloc(), map)?;
    let places = some_places(rt.alloc(), map.get_tokens().as_slice())?;
    time(rt, asked, "back", Stage::Back(&index, places.as_slice()), tokens)
}

/// Times each stage on the map that a text reads as.
fn time_stages(
    rt: &HostRuntime,
    asked: &Asked,
    text: &str,
    map: &SourceMap<'_>,
) -> Result<(), Fault> {
    let tokens = map.get_tokens().len();
    time(rt, asked, "parse", Stage::Parse(text), tokens)?;
    time(rt, asked, "serialize", Stage::Serialize(map), tokens)?;
    if map.is_sorted() {
        time(rt, asked, "simplify", Stage::Simplify(map), tokens)?;
    }
    time(rt, asked, "table", Stage::Table(map), tokens)?;
    time_decode(rt, asked, map)?;
    time_encode(rt, asked, map)?;
    time(rt, asked, "build", Stage::Build(map), tokens)?;
    time_lookups(rt, asked, map)?;
    time_index(rt, asked, map)
}

/// Times each stage on one map.
pub(crate) fn time_map(rt: &HostRuntime, asked: &Asked, text: &str) -> Result<(), Fault> {
    let map = SourceMap::from_json_string(rt.alloc(), text)?;
    time_stages(rt, asked, text, &map)
}

/// The maps of modules, each with the line where its code begins.
fn modules_below<'m>(
    alloc: Global,
    maps: &'m [SourceMap<'static>],
) -> MapResult<Vec<(&'m SourceMap<'static>, u32)>> {
    let mut modules = Vec::with_capacity(alloc, maps.len())?;
    let mut line: u32 = 0;
    for map in maps {
        modules.push((map, line))?;
        line = line.wrapping_add(LINES);
    }
    Ok(modules)
}

/// Times the reading of the maps of modules, and their join.
pub(crate) fn time_modules(rt: &HostRuntime, asked: &Asked, text: &str) -> Result<(), Fault> {
    let texts = split(rt.alloc(), text, MODULE)?;
    let texts = texts.as_slice();
    let maps = read_maps(rt.alloc(), texts)?;
    let mut tokens: usize = 0;
    for map in &maps {
        tokens = tokens.wrapping_add(map.get_tokens().len());
    }
    let modules = modules_below(rt.alloc(), maps.as_slice())?;
    time(rt, asked, "parse_each", Stage::ParseEach(texts), tokens)?;
    time(rt, asked, "join_each", Stage::Join(modules.as_slice()), tokens)
}

/// The sources of a map, each with the map of the same number, while there are both.
fn inputs_of<'m>(
    alloc: Global,
    map: &'m SourceMap<'_>,
    maps: &'m [SourceMap<'static>],
) -> MapResult<Vec<(&'m str, &'m SourceMap<'static>)>> {
    let mut inputs = Vec::new(alloc);
    let mut maps = maps.iter();
    for path in map.get_sources() {
        if let Some(input) = maps.next() {
            inputs.push((path, input))?;
        }
    }
    Ok(inputs)
}

/// Times the remapping of a map by maps for its sources, in order.
fn time_remap(
    rt: &HostRuntime,
    asked: &Asked,
    map: &SourceMap<'static>,
    maps: &[SourceMap<'static>],
) -> Result<(), Fault> {
    let inputs = inputs_of(rt.alloc(), map, maps)?;
    let stage = Stage::Remap(map, inputs.as_slice());
    time(rt, asked, "remap", stage, map.get_tokens().len())
}

/// Times the composition of maps, and the remapping of the last one by the composition of the others; if the last one has
/// several sources, its remapping by the others alone.
pub(crate) fn time_pipeline(rt: &HostRuntime, asked: &Asked, text: &str) -> Result<(), Fault> {
    let texts = split(rt.alloc(), text, STEP)?;
    let maps = read_maps(rt.alloc(), texts.as_slice())?;
    let Some((last, others)) = maps.as_slice().split_last() else {
        return Ok(());
    };
    if last.get_sources().len() > 1 {
        return time_remap(rt, asked, last, others);
    }
    let tokens = last.get_tokens().len();
    time(rt, asked, "compose", Stage::Compose(maps.as_slice()), tokens)?;
    let input = composed(rt.alloc(), copies_of(rt.alloc(), others)?)?;
    time_remap(rt, asked, last, &[input])
}
