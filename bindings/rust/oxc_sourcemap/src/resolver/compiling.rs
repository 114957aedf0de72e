//! The compiled maps of a resolver: which are taken, and how they are made.

use std::collections::HashMap;
use std::fs::{File, Metadata};
use std::path::{Path, PathBuf};
use std::sync::{Arc, Mutex, PoisonError};
use std::time::{Duration, SystemTime};

use super::answers::Reason;
use super::counts::{Counted, Totals};
use super::sha256::{sha256, sha256_hex};
use super::stores::{FolderStore, Opened, opened, replace_file};
use super::table::{Missing, Weighed};
use crate::{CompiledMap, Error, Fault, SourceMap, SourceMapParts};

const ENDING: &str = ".smc";
/// Files that were written last by less than this before they were read may be written again in the same tick of the clock.
const RECENT: Duration = Duration::from_secs(2);
/// A compiled map has less than so many times the bytes of its map.
const MOST_TIMES: u64 = 16;

/// A source with the source root before it, as the library puts it there.
fn rooted(root: &str, source: &str) -> Result<String, Error> {
    let mut map = SourceMap::try_from_parts(SourceMapParts {
        sources: vec![source.into()],
        source_root: Some(root.into()),
        ..SourceMapParts::default()
    })?;
    map.apply_source_root()?;
    Ok(map.get_source(0).unwrap_or(source).to_string())
}

/// A compiled map that is ready for lookups, and the name of its map in the store.
pub(super) struct Held {
    pub name: String,
    pub debug_id: Option<String>,
    pub stamp: [u8; 32],
    bytes: Vec<u8>,
    text_length: u64,
    root: Option<String>,
    /// The sources that were asked for, with the root before them, by their ids.
    sources: Mutex<HashMap<u32, Arc<str>>>,
}

impl Weighed for Held {
    fn size(&self) -> u64 {
        self.bytes.len() as u64 + 2048
    }
}

impl Held {
    fn new(name: &str, bytes: Vec<u8>) -> Result<Held, Error> {
        let map = CompiledMap::open(&bytes)?;
        let debug_id = map.get_debug_id().map(str::to_string);
        let root = map.get_source_root().filter(|it| !it.is_empty()).map(str::to_string);
        let (stamp, text_length) = (map.stamp(), map.text_length());
        drop(map);
        Ok(Held { name: name.to_string(), debug_id, stamp, bytes, text_length, root, sources: Mutex::default() })
    }

    /// The map, which is opened in constant time. Fails only for lack of memory.
    pub fn map(&self) -> Result<CompiledMap<'_>, Missing> {
        CompiledMap::open(&self.bytes).map_err(|it| Missing::failed(&it))
    }

    /// A source as the map lists it, with the source root before it.
    pub fn source(&self, id: u32, listed: &str) -> Result<String, Missing> {
        let Some(root) = &self.root else {
            return Ok(listed.to_string());
        };
        let sources = || self.sources.lock().unwrap_or_else(PoisonError::into_inner);
        if let Some(found) = sources().get(&id) {
            return Ok(found.to_string());
        }
        let made = rooted(root, listed).map_err(|it| Missing::failed(&it))?;
        sources().insert(id, made.as_str().into());
        Ok(made)
    }
}

/// The text of a map that a store has: its name, the system's record of its file (None if it is not one, or changes), and its bytes, which
/// are read when they are first asked for.
pub(super) struct MapText {
    name: String,
    status: Option<Metadata>,
    file: Option<Opened>,
    limit: u64,
    data: Vec<u8>,
}

impl MapText {
    pub fn new(name: &str, data: Vec<u8>) -> MapText {
        MapText { name: name.to_string(), status: None, file: None, limit: 0, data }
    }

    /// That of a file, of at most so many bytes.
    pub fn of_file(name: &str, file: Opened, limit: u64) -> MapText {
        let status = Some(file.status.clone());
        MapText { name: name.to_string(), status, file: Some(file), limit, data: Vec::new() }
    }

    /// Reads the bytes, if they are not read yet. Fails if there are too many, or they cannot be read.
    fn read(&mut self) -> Result<(), Missing> {
        if let Some(mut it) = self.file.take() {
            let data = it.read_within(&self.name, self.limit)?;
            let after = it.file.metadata().map_err(|it| Missing::failed(&it))?;
            if after.len() != data.len() as u64 || modified(&after) != modified(&it.status) {
                // (it is written meanwhile: what was read is compiled for now alone)
                self.status = None;
            }
            self.data = data;
        }
        Ok(())
    }
}

fn modified(status: &Metadata) -> Option<SystemTime> {
    status.modified().ok()
}

/// The time of the file of a compiled map: that of its map, or, if this may yet change within a tick of the clock, an earlier one, by
/// which the compiled map counts as older, so that its hash is compared.
fn time_for(status: Option<&Metadata>, now: SystemTime) -> SystemTime {
    match status.and_then(modified) {
        None => now,
        Some(it) if now.duration_since(it).is_ok_and(|age| age >= RECENT) => it,
        Some(it) => it.checked_sub(Duration::from_secs(1)).unwrap_or(it),
    }
}

/// Gives a compiled map the time of its map, so that no hash is needed next time.
fn touch(path: &Path, status: &Metadata) {
    // (if it cannot be, the hash is compared again)
    let _ = File::open(path).and_then(|it| it.set_modified(time_for(Some(status), SystemTime::now())));
}

/// A file that may be the compiled map of a map.
struct Candidate {
    path: PathBuf,
    /// Whether it is the resolver's own.
    is_own: bool,
    /// Whether its time is that of the map, as the resolver leaves it, or any later one, as `sourcemap compile` does.
    is_exact: bool,
}

/// What opens compiled maps beside those of a store and in a cache folder, and makes those that lack: beside their maps, in the cache
/// folder, or in memory alone.
pub(super) struct Compiler {
    pub cache: Option<PathBuf>,
    pub writes_beside: bool,
    pub always_hashes: bool,
    pub map_bytes: u64,
    pub totals: Arc<Totals>,
}

impl Compiler {
    /// The file of a map in the cache folder: by a hash, so that any name is one, and stores may share the folder.
    fn cache_path(&self, folder: Option<&FolderStore>, name: &str) -> Option<PathBuf> {
        let mut key = folder.map_or(Vec::new(), |it| it.path().as_os_str().as_encoded_bytes().to_vec());
        key.push(0);
        key.extend_from_slice(name.as_bytes());
        Some(self.cache.as_ref()?.join(sha256_hex(&key)[..40].to_string() + ENDING))
    }

    fn candidates(&self, folder: Option<&FolderStore>, name: &str) -> Vec<Candidate> {
        let cached = self.cache_path(folder, name).map(|path| Candidate { path, is_own: true, is_exact: true });
        // (none if a link resolves outside of the folder)
        let beside = folder.and_then(|it| it.path_of(&format!("{name}{ENDING}")).ok());
        let is_own = self.writes_beside;
        cached.into_iter().chain(beside.map(|path| Candidate { path, is_own, is_exact: false })).collect()
    }

    /// The compiled map of a map, if one was made of it: by its length and the time of its file, or by its bytes and their SHA-256.
    fn fresh(&self, folder: Option<&FolderStore>, text: &mut MapText) -> Result<Option<Held>, Missing> {
        for it in self.candidates(folder, &text.name) {
            let Some((held, own)) = self.opened(&it.path, &text.name) else { continue };
            if self.is_fresh(&held, &own, &it, text)? {
                self.totals.add(Counted::CompiledUsed, 1);
                return Ok(Some(held));
            }
            self.totals.add(Counted::CompiledStale, 1);
        }
        Ok(None)
    }

    /// A compiled map, and the system's record of its file; None if there is none, or it is damaged.
    fn opened(&self, path: &Path, name: &str) -> Option<(Held, Metadata)> {
        let mut file = match opened(path) {
            Ok(file) => file?,
            Err(error) if error.kind() == std::io::ErrorKind::NotFound => return None,
            Err(_) => return self.damaged(),
        };
        let limit = self.map_bytes.saturating_mul(MOST_TIMES).saturating_add(1 << 20);
        let held = file.read_within(name, limit).ok().and_then(|it| Held::new(name, it).ok());
        held.map(|it| (it, file.status)).or_else(|| self.damaged())
    }

    fn damaged<T>(&self) -> Option<T> {
        self.totals.add(Counted::CompiledDamaged, 1);
        None
    }

    fn is_fresh(&self, held: &Held, own: &Metadata, it: &Candidate, text: &mut MapText) -> Result<bool, Missing> {
        let status = text.status.clone();
        if status.as_ref().is_some_and(|it| it.len() != held.text_length) {
            return Ok(false);
        }
        let times = status.as_ref().and_then(modified).zip(modified(own));
        let is_by_time = times.is_some_and(|(map, own)| if it.is_exact { own == map } else { own >= map });
        if is_by_time && !self.always_hashes {
            return Ok(true);
        }
        text.read()?;
        let is_of_text = held.text_length == text.data.len() as u64 && held.stamp == sha256(&text.data);
        if let Some(status) = status.filter(|_| is_of_text && it.is_own) {
            touch(&it.path, &status);
        }
        Ok(is_of_text)
    }

    /// The map of a text, by a compiled one that is there, or one that is made. Fails if the bytes are no map, or cannot be read.
    pub fn compiled(&self, folder: Option<&FolderStore>, mut text: MapText) -> Result<Held, Missing> {
        if let Some(held) = self.fresh(folder, &mut text)? {
            return Ok(held);
        }
        text.read()?;
        let read = SourceMap::read_found(&text.data);
        let (map, _) = read.map_err(|it| bad_map(&text.name, it.error(), Some(it)))?;
        let made = map.compile(text.data.len() as u64, &sha256(&text.data));
        let bytes = made.map_err(|it| bad_map(&text.name, it, None))?;
        self.totals.add(Counted::CompiledMade, 1);
        if self.write(folder, &text, &bytes).is_none() {
            self.totals.add(Counted::CompiledUnwritten, 1);
        }
        Held::new(&text.name, bytes).map_err(|it| Missing::failed(&it))
    }

    /// Writes a compiled map where it is kept, if it is kept; None if that fails.
    fn write(&self, folder: Option<&FolderStore>, text: &MapText, bytes: &[u8]) -> Option<()> {
        let path = match (self.cache_path(folder, &text.name), folder) {
            (Some(path), _) => path,
            (None, Some(folder)) if self.writes_beside && text.status.is_some() => {
                folder.place_of(&format!("{}{ENDING}", text.name)).ok()?
            }
            _ => return Some(()),
        };
        replace_file(&path, bytes, text.status.as_ref(), time_for(text.status.as_ref(), SystemTime::now())).ok()
    }
}

/// That a text is no map, and where it is none; or that memory for it is refused.
fn bad_map(name: &str, error: Error, fault: Option<Fault>) -> Missing {
    if error == Error::OutOfMemory {
        return Missing::failed(&error);
    }
    let place = fault.and_then(|it| it.place_text()).map_or(String::new(), |it| format!(", at {it}"));
    Missing::held(Reason::BadMap, format!("{name}: {error}{place}"))
}

#[cfg(test)]
mod tests {
    use super::*;
    use std::fs;

    const MAP: &str = r#"{"version":3,"sources":["a.ts"],"names":[],"mappings":"AAAA"}"#;

    #[test]
    fn a_recent_map_gives_an_earlier_time() {
        let path = std::env::temp_dir().join(format!("oxc_sourcemap-time-{}", std::process::id()));
        let (then, ms) = (SystemTime::UNIX_EPOCH + Duration::from_secs(1_000_000_000), Duration::from_millis);
        File::create(&path).unwrap().set_modified(then).unwrap();
        let status = fs::metadata(&path).unwrap();
        let ages = [ms(0), ms(1999), ms(2000), ms(9000)].map(|it| time_for(Some(&status), then + it));
        assert_eq!(ages, [then - ms(1000), then - ms(1000), then, then]);
        assert_eq!(time_for(Some(&status), then - ms(9000)), then - ms(1000));
        assert_eq!(time_for(None, then), then);
        fs::remove_file(path).unwrap();
    }

    #[test]
    fn a_map_that_is_written_while_it_is_read_is_not_kept() {
        let path = std::env::temp_dir().join(format!("oxc_sourcemap-compiling-{}", std::process::id()));
        fs::create_dir_all(&path).unwrap();
        let store = FolderStore::new(&path).unwrap();
        let totals = Arc::new(Totals::default());
        let compiler = Compiler { cache: None, writes_beside: true, always_hashes: false, map_bytes: 100, totals };
        for (changes, wanted) in [(true, 1), (false, 2)] {
            fs::write(path.join("a.js.map"), MAP).unwrap();
            let opened = store.open("a.js.map").unwrap().unwrap();
            if changes {
                let later = SystemTime::now() + Duration::from_secs(9);
                File::options().write(true).open(path.join("a.js.map")).unwrap().set_modified(later).unwrap();
            }
            let text = MapText::of_file("a.js.map", opened, 100);
            assert_eq!(compiler.compiled(Some(&store), text).unwrap_or_else(|_| panic!()).name, "a.js.map");
            assert_eq!(fs::read_dir(&path).unwrap().count(), wanted);
        }
        fs::remove_dir_all(&path).unwrap();
    }
}
