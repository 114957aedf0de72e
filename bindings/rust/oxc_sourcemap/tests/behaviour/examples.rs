//! The examples, whose output is compared with that of the repository's other bindings.

use std::fs;
use std::path::{Path, PathBuf};

#[path = "../../examples/bundler.rs"]
mod bundler;
#[path = "../../examples/coverage.rs"]
mod coverage;
#[path = "../../examples/resolve_stack.rs"]
mod resolve_stack;

/// A file or a folder of the repository.
fn at(path: &str) -> PathBuf {
    Path::new(env!("CARGO_MANIFEST_DIR")).join("../../..").join(path)
}

fn text(path: &str) -> String {
    fs::read_to_string(at(path)).unwrap()
}

#[test]
fn modules_are_bundled() {
    let modules = ["greet.js", "main.js", "tail.js"].map(|name| at("bindings/c/examples/bundle").join(name));
    let (code, map) = bundler::bundle("bundle.js", &modules).unwrap();
    assert_eq!(code, text("bindings/c/examples/bundle/expected/bundle.js"));
    assert_eq!(map, text("bindings/c/examples/bundle/expected/bundle.js.map"));
}

#[test]
fn a_stack_is_resolved() {
    let mut maps = resolve_stack::Maps::new(&at("bindings/c/examples/stack/maps"));
    let stack = text("bindings/c/examples/stack/stack.txt");
    let resolved: String = stack.lines().map(|line| resolve_stack::resolved(&mut maps, line) + "\n").collect();
    assert_eq!(resolved, text("bindings/c/examples/stack/resolved.txt"));
}

/// A new folder with these files.
fn folder(name: &str, files: &[(&str, String)]) -> PathBuf {
    let folder = std::env::temp_dir().join(format!("oxc_sourcemap-{name}-{}", std::process::id()));
    fs::create_dir_all(&folder).unwrap();
    files.iter().for_each(|(name, text)| fs::write(folder.join(name), text).unwrap());
    folder
}

#[test]
fn a_stack_is_resolved_by_maps_as_they_are_found() {
    let map = "\u{feff}{\"version\":\"3\",\"sources\":[\"a.ts\",null],\"mappings\":\"AAEA\"}";
    let folder = folder("found", &[("a.js.map", map.to_string())]);
    let mut maps = resolve_stack::Maps::new(&folder);
    assert_eq!(resolve_stack::resolved(&mut maps, "    at f (/x/a.js:1:5)"), "    at f (a.ts:3:1)");
    fs::remove_dir_all(folder).unwrap();
}

#[test]
fn lines_of_many_functions_are_counted() {
    // Each on a line of its own, and every other one does not run.
    let count = 8000;
    let range = |start: usize, end: usize, count: usize| {
        format!("{{\"startOffset\":{start},\"endOffset\":{end},\"count\":{count}}}")
    };
    let functions: Vec<_> = (0..count).map(|at| range(15 * at, 15 * at + 14, at % 2)).collect();
    let coverage = format!("[{},{}]", range(0, 15 * count, 1), functions.join(","));
    let map = format!(r#"{{"version":3,"sources":["a.ts"],"mappings":"AAAA{}"}}"#, ";AACA".repeat(count - 1));
    let code = "function f(){}\n".repeat(count);
    let folder = folder("many", &[("a.js", code), ("a.js.map", map), ("a.js.coverage.json", coverage)]);
    let idle: Vec<_> = (1..=count).step_by(2).collect();
    let wanted = format!("a.js: 4000 lines ran, 4000 did not\n  a.ts: 4000 lines ran, 4000 did not: {idle:?}\n");
    assert_eq!(coverage::covered(&folder, "a.js").unwrap(), wanted);
    fs::remove_dir_all(folder).unwrap();
}

#[test]
fn lines_that_ran_are_counted() {
    let folder = at("tests/coverage");
    let covered = ["bundle.js", "bundle.min.js"].map(|name| coverage::covered(&folder, name).unwrap());
    assert_eq!(covered.concat(), text("tests/coverage/covered.txt"));
}
