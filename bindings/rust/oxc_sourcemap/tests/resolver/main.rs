//! The resolver of stack traces: frames, stores, compiled maps, what is held, limits, threads. Expected places are those of hand-worked
//! maps, and of the stored runs of the program `sourcemap`.

mod compiling;
mod finding;
mod forms;
mod held;
mod server;
mod soak;
mod threads;

use oxc_sourcemap::resolver::{
    Bases, Cache, Counts, Error, FolderStore, Frame, Limits, MOST_URL, Options, Reason, Resolved, Resolver, Store,
    frames_in,
};
use oxc_sourcemap::{CompiledMap, SourceMap};
use std::collections::HashMap;
use std::fs::{self, File};
use std::io;
use std::path::{Path, PathBuf};
use std::sync::atomic::{AtomicBool, AtomicU64, AtomicUsize, Ordering};
use std::sync::{Arc, Condvar, Mutex};
use std::thread;
use std::time::{Duration, Instant, SystemTime};

// By hand: generated 0:0 is a.ts 0:0, 0:13 is a.ts 1:2 with the name run, 1:0 is b.ts 4:0, and 1:4 is unmapped.
const MAP: &str =
    r#"{"version":3,"sourceRoot":"src","sources":["a.ts","b.ts"],"names":["run"],"mappings":"AAAA,aACEA;ACGF,I"}"#;
// As long as MAP; 0:0 is c.ts 0:0.
const OTHER: &str =
    r#"{"version":3,"sourceRoot":"src","sources":["c.ts","d.ts"],"names":["run"],"mappings":"AAAA,aACEA;ACGF,I"}"#;
// By `sha256sum`: of MAP, of OTHER, and of MAP with a space behind it.
const MAP_HASH: &str = "dca351a5c5683a15b5e696753f0d63b327b6af769d574cb42667e541615b29fc";
const OTHER_HASH: &str = "3d03f3f820506f1139c40cd6dc7e0cc9c69f457764ab0b23a84b691333cb3422";
const LONGER_HASH: &str = "a5292546efaee0148bc29bbb6e49dd8f0b356761ad16b69a1801fe177bdea2b8";
const CODE: &str = "function f() {throw 1}\nf();\n//# sourceMappingURL=app.js.map\n";
const H: &str = "http://h/";
const OLD: u64 = 1_000_000_000;

/// A file of the repository.
fn at(path: &str) -> PathBuf {
    Path::new(env!("CARGO_MANIFEST_DIR")).join("../../..").join(path)
}

/// A new folder, which is gone when this is dropped; it has a folder `dist` with a code and its map.
struct Room(PathBuf);

impl Room {
    fn new() -> Room {
        static MADE: AtomicUsize = AtomicUsize::new(0);
        let number = MADE.fetch_add(1, Ordering::Relaxed);
        let room = std::env::temp_dir().join(format!("oxc_sourcemap-resolver-{}-{number}", std::process::id()));
        fs::create_dir_all(&room).unwrap();
        let room = Room(room.canonicalize().unwrap());
        room.write("dist/app.js", CODE, OLD);
        room.write("dist/app.js.map", MAP, OLD);
        room
    }

    fn at(&self, name: &str) -> PathBuf {
        self.0.join(name)
    }

    /// A file, written at a time, in seconds.
    fn write(&self, name: &str, data: impl AsRef<[u8]>, seconds: u64) {
        let path = self.at(name);
        fs::create_dir_all(path.parent().unwrap()).unwrap();
        fs::write(&path, data).unwrap();
        let time = SystemTime::UNIX_EPOCH + Duration::from_secs(seconds);
        File::options().write(true).open(&path).unwrap().set_modified(time).unwrap();
    }

    fn store(&self) -> FolderStore {
        FolderStore::new(self.at("dist")).unwrap()
    }

    fn names(&self, folder: &str) -> Vec<String> {
        let entries = fs::read_dir(self.at(folder)).unwrap();
        let mut names: Vec<_> = entries.map(|it| it.unwrap().file_name().into_string().unwrap()).collect();
        names.sort();
        names
    }

    /// What a new resolver says of 0:0, and how many compiled maps were used, stale, damaged and made.
    fn place(&self, options: Options) -> (Option<String>, [u64; 4]) {
        let found = Resolver::new(self.store(), H, options).unwrap();
        let place = found.resolve_frame(Frame::new("http://h/app.js", 1, 1)).place();
        let counts = found.counts();
        (place, [counts.compiled_used, counts.compiled_stale, counts.compiled_damaged, counts.compiled_made])
    }
}

impl Drop for Room {
    fn drop(&mut self) {
        let _ = fs::remove_dir_all(&self.0);
    }
}

fn memory<N: Into<String>, D: AsRef<[u8]>>(files: impl IntoIterator<Item = (N, D)>) -> HashMap<String, Vec<u8>> {
    files.into_iter().map(|(name, data)| (name.into(), data.as_ref().to_vec())).collect()
}

fn resolver(store: impl Store + 'static, base: impl Into<Bases>) -> Resolver {
    Resolver::new(store, base, patient()).unwrap()
}

fn limited(store: impl Store + 'static, limits: Limits) -> Resolver {
    Resolver::new(store, "", Options { limits, beside_first: true, ..patient() }).unwrap()
}

/// Limits with time enough for a slow machine.
fn patient_limits() -> Limits {
    Limits { time: Duration::from_secs(3600), ..Limits::default() }
}

fn patient() -> Options {
    Options { limits: patient_limits(), ..Options::default() }
}

fn beside() -> Options {
    Options { cache: Cache::Beside, ..patient() }
}

/// The reason and the detail of a frame that is not resolved.
fn why(found: Resolved) -> String {
    found.original.unwrap_err().to_string()
}

/// A store that counts what it is asked for.
#[derive(Default)]
struct Counting {
    files: Mutex<HashMap<String, Vec<u8>>>,
    asked: Mutex<Vec<String>>,
}

impl Counting {
    fn new(files: HashMap<String, Vec<u8>>) -> Arc<Counting> {
        Arc::new(Counting { files: Mutex::new(files), asked: Mutex::default() })
    }
}

impl Store for Counting {
    fn get(&self, name: &str) -> io::Result<Option<Vec<u8>>> {
        self.asked.lock().unwrap().push(name.to_string());
        Ok(self.files.lock().unwrap().get(name).cloned())
    }
}

/// A store that does what a function does.
struct By<F>(F);

impl<F: Fn(&str) -> io::Result<Option<Vec<u8>>> + Send + Sync> Store for By<F> {
    fn get(&self, name: &str) -> io::Result<Option<Vec<u8>>> {
        (self.0)(name)
    }
}

const A: Option<&str> = Some("src/a.ts:1:1");
const C: Option<&str> = Some("src/c.ts:1:1");

/// The compiled map of a text, which says that it is of as many bytes and of this hash.
fn compiled(map: &str, length: usize, hash: &str) -> Vec<u8> {
    let stamp = std::array::from_fn(|at| u8::from_str_radix(&hash[2 * at..2 * at + 2], 16).unwrap());
    SourceMap::from_json_string(map).unwrap().compile(length as u64, &stamp).unwrap()
}

/// Numbers that look random, by a linear generator.
struct Chosen(u64);

impl Chosen {
    fn below(&mut self, most: usize) -> usize {
        self.0 = self.0.wrapping_mul(6_364_136_223_846_793_005).wrapping_add(1_442_695_040_888_963_407);
        (self.0 >> 33) as usize % most
    }
}
