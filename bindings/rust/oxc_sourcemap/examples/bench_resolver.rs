//! bench_resolver [SECONDS]: what the resolver takes: frames a second of traces whose maps are held, by 1, 2 and 4 threads, each for
//! SECONDS (1) and the best of five; and the first answer of a map that is not held, from its compiled form and without one.
//! bench_resolver.py in bindings/python and bench/resolver.js in bindings/node have the same jobs.

use oxc_sourcemap::resolver::{Cache, FolderStore, Frame, Options, Resolver};
use oxc_sourcemap::{SourceMap, SourceMapParts, Token};
use std::error::Error;
use std::fmt::Write;
use std::fs::{self, File};
use std::path::Path;
use std::thread;
use std::time::{Duration, Instant, SystemTime};

const H: &str = "https://example.com/";

/// A map of 50 tokens a line, at columns 0, 7, 14 .., whose sources have this content.
fn map_of(lines: u32, content: &str) -> String {
    let tokens = (0..lines).flat_map(|line| {
        let original = move |at| ((line * 50 + at) / 8, at, Some(line % 20), (at % 4 == 0).then_some(at));
        (0..50).map(move |at| {
            let (src_line, src_col, source, name) = original(at);
            Token::new(line, 7 * at, src_line, src_col, source, name)
        })
    });
    let parts = SourceMapParts {
        names: (0..500).map(|it| format!("name{it}").into()).collect(),
        sources: (0..20).map(|it| format!("src/module{it}.ts").into()).collect(),
        source_contents: (0..20).map(|_| Some(content.into())).collect(),
        tokens: tokens.collect(),
        ..SourceMapParts::default()
    };
    SourceMap::from_parts(parts).to_json_string()
}

/// Writes a map as of a while ago: of one that is newer than two seconds the hash is compared.
fn write(room: &Path, name: &str, map: &str) -> std::io::Result<()> {
    let path = room.join(format!("{name}.map"));
    fs::write(&path, map)?;
    File::options().write(true).open(path)?.set_modified(SystemTime::UNIX_EPOCH + Duration::from_secs(1_000_000_000))
}

/// A trace of 30 frames, of these codes, at numbers that look random.
fn trace_of(names: &[&str], lines: usize, seed: &mut usize) -> String {
    let mut below = |most: usize| {
        *seed = seed.wrapping_mul(6_364_136_223_846_793_005).wrapping_add(1_442_695_040_888_963_407);
        (*seed >> 33) % most
    };
    let mut text = String::from("Error: x\n");
    for at in 0..30 {
        let (name, line, column) = (names[below(names.len())], below(lines) + 1, 7 * below(50) + 1);
        // (a String takes all that is written)
        let _ = writeln!(text, "    at f{at} ({H}{name}:{line}:{column})");
    }
    text
}

fn resolver(room: &Path, cache: Cache) -> Result<Resolver, Box<dyn Error>> {
    let options = Options { cache, beside_first: true, ..Options::default() };
    Ok(Resolver::new(FolderStore::new(room)?, H, options)?)
}

fn frames(room: &Path, time: Duration) -> Result<(), Box<dyn Error>> {
    let names = ["a.js", "b.js", "c.js"];
    let map = map_of(2000, "");
    names.iter().try_for_each(|it| write(room, it, &map))?;
    let (found, mut seed) = (resolver(room, Cache::Beside)?, 7);
    let traces: Vec<_> = (0..200).map(|_| trace_of(&names, 2000, &mut seed)).collect();
    let run = || {
        let (start, mut count) = (Instant::now(), 0);
        for it in traces.iter().cycle() {
            if start.elapsed() >= time {
                break;
            }
            count += found.resolve_text(it).map_or(0, |_| 30);
        }
        f64::from(count) / start.elapsed().as_secs_f64()
    };
    run();
    for threads in [1, 2, 4] {
        let once = || {
            thread::scope(|scope| {
                let running: Vec<_> = (0..threads).map(|_| scope.spawn(run)).collect();
                running.into_iter().filter_map(|it| it.join().ok()).sum::<f64>()
            })
        };
        let best = (0..5).map(|_| once()).fold(0.0, f64::max);
        println!("frames a second, {threads} threads: {best:.0}");
    }
    Ok(())
}

/// The median time of the first answer of new resolvers, in milliseconds.
fn median(room: &Path, cache: &Cache) -> Result<f64, Box<dyn Error>> {
    let mut times = Vec::new();
    for _ in 0..15 {
        let start = Instant::now();
        resolver(room, cache.clone())?.resolve_frame(Frame::new(format!("{H}first.js"), 100, 50)).original?;
        times.push(1000.0 * start.elapsed().as_secs_f64());
    }
    times.sort_by(f64::total_cmp);
    Ok(times[times.len() / 2])
}

fn first(room: &Path) -> Result<(), Box<dyn Error>> {
    let content = "const value = call(first, second);\n".repeat(4500);
    for (lines, content) in [(400, ""), (4000, ""), (12_000, content.as_str())] {
        let map = map_of(lines, content);
        write(room, "first.js", &map)?;
        let compiled = room.join("first.js.map.smc");
        let _ = fs::remove_file(&compiled);
        let without = median(room, &Cache::Nowhere)?;
        resolver(room, Cache::Beside)?.resolve_frame(Frame::new(format!("{H}first.js"), 1, 1));
        let (own, with) = (fs::metadata(compiled)?.len(), median(room, &Cache::Nowhere)?);
        let (size, own) = (map.len() as f64 / 1e6, own as f64 / 1e6);
        println!("first answer, {size:.1} MB: {without:.2} ms; from its compiled form, {own:.1} MB: {with:.2} ms");
    }
    Ok(())
}

fn main() -> Result<(), Box<dyn Error>> {
    let seconds = std::env::args().nth(1).map_or(Ok(1.0), |it| it.parse())?;
    let room = std::env::temp_dir().join(format!("oxc_sourcemap-bench-{}", std::process::id()));
    fs::create_dir_all(&room)?;
    let ran = frames(&room, Duration::try_from_secs_f64(seconds)?).and_then(|()| first(&room));
    fs::remove_dir_all(room)?;
    ran
}
