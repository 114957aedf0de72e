//! A resolver of stack traces for servers: codes and maps of a store, compiled and held within bounds, for any number of threads.
//!
//! ```
//! use std::collections::HashMap;
//! use oxc_sourcemap::resolver::{Options, Resolver};
//! let map = br#"{"version":3,"sources":["a.ts"],"names":["run"],"mappings":"AAAA,aACEA"}"#.to_vec();
//! let store = HashMap::from([("app.js.map".to_string(), map)]);
//! let resolver = Resolver::new(store, "https://example.com/", Options::default())?;
//! let text = resolver.resolve_text("Error: x\n    at t (https://example.com/app.js:1:14)")?;
//! assert_eq!(text, "Error: x\n    at t (a.ts:2:3)");
//! # Ok::<(), oxc_sourcemap::resolver::Error>(())
//! ```
//!
//! A frame's own line and column count from 1, as traces print them. All else counts from 0, and columns are in UTF-16 code units. The
//! answers of lookups are those of the library, which are proved; the resolver itself is tested.
#![forbid(unsafe_code)]

mod answers;
mod compiling;
mod contexts;
mod counts;
mod finding;
mod frames;
mod names;
mod sha256;
mod stores;
mod table;

use std::collections::HashMap;
use std::fmt;
use std::path::PathBuf;
use std::sync::Arc;
use std::time::{Duration, Instant};

pub use answers::{Error, Origin, Reason, Resolved, Unresolved, replace_frames};
pub use contexts::Context;
pub use counts::Counts;
pub use frames::{Frame, MOST_URL, frames_in};
pub use names::{Bases, Refused};
pub use stores::{FolderStore, Store};

use crate::{Bias, Traced};
use answers::replace_in_bytes;
use compiling::{Compiler, Held};
use contexts::Lines;
use counts::{Counted, Totals};
use finding::{Finder, debug_id_of, outside};
use frames::places_in;
use names::Folders;
use stores::of_path;
use table::{Bounds, Missing, Table};

/// The maps that are in use for one trace at most, beside those that are held.
const MOST_KNOWN: usize = 64;

/// A clock: the time since any moment, which never goes back.
pub type Clock = Arc<dyn Fn() -> Duration + Send + Sync>;

/// Where compiled maps are kept.
///
/// A file `X.map.smc` beside `X.map` is taken wherever they are kept, if it was made of as many bytes as `X.map` has, and its file is no
/// older or its SHA-256 is that of `X.map`.
#[derive(Clone, Debug, Default, PartialEq, Eq)]
pub enum Cache {
    /// In memory alone.
    #[default]
    Nowhere,
    /// Beside their maps, as `X.map.smc`. The store is then a folder that can be written.
    Beside,
    /// In this folder, which is made if it is not there.
    Folder(PathBuf),
}

/// What a resolver takes and holds. A trace above its limit of bytes is refused; frames past the other limits stay as they are.
///
/// ```
/// use oxc_sourcemap::resolver::Limits;
/// assert_eq!(Limits { frames: 100, ..Limits::default() }.held_maps, 256);
/// ```
#[derive(Clone, Debug, PartialEq, Eq)]
pub struct Limits {
    /// Bytes of a trace: 1 MiB, if not set.
    pub trace_bytes: usize,
    /// Frames of a trace that are looked up: 1000.
    pub frames: usize,
    /// Time for a trace: 10 seconds. What is begun (one map that is read) ends, and is held for the next trace.
    pub time: Duration,
    /// Bytes of a code, which is read for the comment that names its map: 64 MiB.
    pub code_bytes: u64,
    /// Bytes of the text of a map: 256 MiB.
    pub map_bytes: u64,
    /// Bytes of compiled maps that are held: 256 MiB.
    pub held_bytes: u64,
    /// Compiled maps that are held: 256. Up to 64 more are in use for each trace that is resolved.
    pub held_maps: usize,
    /// Codes that are known to have no map: 4096.
    pub held_missing: usize,
    /// Time after which held maps, and held results that there is no map, are searched again: 60 seconds.
    pub held_time: Duration,
    /// Bytes of contents that are held, with their lines: 32 MiB.
    pub held_context_bytes: u64,
}

impl Default for Limits {
    fn default() -> Limits {
        Limits {
            trace_bytes: 1 << 20,
            frames: 1000,
            time: Duration::from_secs(10),
            code_bytes: 64 << 20,
            map_bytes: 256 << 20,
            held_bytes: 256 << 20,
            held_maps: 256,
            held_missing: 4096,
            held_time: Duration::from_secs(60),
            held_context_bytes: 32 << 20,
        }
    }
}

/// How a resolver finds maps, keeps them, and reads the time.
///
/// ```
/// use oxc_sourcemap::resolver::{Cache, Options};
/// let options = Options { cache: Cache::Beside, beside_first: true, ..Options::default() };
/// assert_eq!(options.debug_id_name, "{}.map");
/// ```
#[derive(Clone)]
pub struct Options {
    /// Where compiled maps are kept.
    pub cache: Cache,
    /// What is taken and held.
    pub limits: Limits,
    /// Whether the map with the name of a code and `.map` is taken, if it exists, without reading the code for its comment.
    pub beside_first: bool,
    /// The name of the map of a debug id, in which `{}` stands for the id in lower case.
    pub debug_id_name: String,
    /// Whether the SHA-256 of a map is compared in any case, whatever the time of its file is.
    pub always_hashes: bool,
    /// The clock by which time is limited.
    pub clock: Clock,
}

impl Default for Options {
    fn default() -> Options {
        let start = Instant::now();
        Options {
            cache: Cache::Nowhere,
            limits: Limits::default(),
            beside_first: false,
            debug_id_name: "{}.map".into(),
            always_hashes: false,
            clock: Arc::new(move || start.elapsed()),
        }
    }
}

impl fmt::Debug for Options {
    fn fmt(&self, f: &mut fmt::Formatter<'_>) -> fmt::Result {
        f.debug_struct("Options")
            .field("cache", &self.cache)
            .field("limits", &self.limits)
            .field("beside_first", &self.beside_first)
            .field("debug_id_name", &self.debug_id_name)
            .field("always_hashes", &self.always_hashes)
            .finish_non_exhaustive()
    }
}

/// By what a map is held: the name of its code or, of one that is outside, its URL, and the debug id.
#[derive(Clone, PartialEq, Eq, Hash)]
struct Key {
    name: Option<String>,
    url: Option<String>,
    debug_id: Option<String>,
}

/// By what a content is held: the name of its map, the SHA-256 of that, and the id of the source.
type ContentKey = (String, [u8; 32], u32);

/// What is known of the codes of a trace: by their URLs and debug ids their maps, or why there are none.
type Known = HashMap<(String, Option<String>), Result<Arc<Held>, Missing>>;

/// A resolver over a store.
///
/// A code's map is the one that its last comment `sourceMappingURL` names, in the store or as a data URL, else the one with its name and
/// `.map`. With a debug id it is the one of the name [`Options::debug_id_name`], else that of the URL, if its debug id is not another
/// one. A query or fragment of a URL does not count, and neither does the case of its host; `file:` URLs are paths. The resolver never uses
/// a network.
///
/// Threads share a resolver. Two that ask for one map read it once, and no thread waits for a map that it does not ask for.
///
/// ```
/// use std::collections::HashMap;
/// use oxc_sourcemap::resolver::{Frame, Options, Reason, Resolver};
/// let map = br#"{"version":3,"sources":["a.ts"],"names":["run"],"mappings":"AAAA,aACEA"}"#.to_vec();
/// let store = HashMap::from([("js/app.js.map".to_string(), map)]);
/// let resolver = Resolver::new(store, [("https://example.com/static/", "js")], Options::default())?;
/// let found = resolver.resolve_frame(Frame::new("https://example.com/static/app.js?v=1", 1, 14));
/// assert_eq!(found.place().as_deref(), Some("a.ts:2:3"));
/// let climbs = resolver.resolve_frame(Frame::new("https://example.com/static/../passwd", 1, 1));
/// assert_eq!(climbs.reason(), Some(Reason::Refused));
/// # Ok::<(), oxc_sourcemap::resolver::Error>(())
/// ```
pub struct Resolver {
    limits: Limits,
    clock: Clock,
    totals: Arc<Totals>,
    finder: Finder,
    maps: Table<Key, Held>,
    contents: Table<ContentKey, Lines>,
}

impl Resolver {
    /// A resolver over a store, for the URLs and paths below a base, or below several of which each has a folder of the store; of these
    /// the longest counts.
    ///
    /// Fails with [`Error::Base`] of a base that is refused, with [`Error::NoFolder`] if compiled maps are to be kept beside those of a
    /// store that is no folder, and with [`Error::Cache`].
    ///
    /// ```
    /// use oxc_sourcemap::resolver::{Cache, Error, Options, Resolver};
    /// let options = Options { cache: Cache::Beside, ..Options::default() };
    /// let made = Resolver::new(std::collections::HashMap::new(), "https://example.com/", options);
    /// assert!(matches!(made, Err(Error::NoFolder)));
    /// ```
    pub fn new(store: impl Store + 'static, base: impl Into<Bases>, options: Options) -> Result<Resolver, Error> {
        let (limits, clock, totals) = (options.limits, options.clock, Arc::new(Totals::default()));
        let cache = match options.cache {
            Cache::Beside if store.folder().is_none() => return Err(Error::NoFolder),
            Cache::Nowhere | Cache::Beside => None,
            Cache::Folder(ref folder) => Some(folder.clone()),
        };
        if let Some(folder) = &cache {
            std::fs::create_dir_all(folder).map_err(|it| Error::Cache(of_path(&it, folder.display())))?;
        }
        let compiler = Compiler {
            cache,
            writes_beside: options.cache == Cache::Beside,
            always_hashes: options.always_hashes,
            map_bytes: limits.map_bytes,
            totals: Arc::clone(&totals),
        };
        let finder = Finder {
            store: Box::new(store),
            folders: Folders::new(&base.into()).map_err(Error::Base)?,
            compiler,
            code_bytes: limits.code_bytes,
            map_bytes: limits.map_bytes,
            beside_first: options.beside_first,
            debug_id_name: options.debug_id_name,
        };
        let (missing, time) = (limits.held_missing, limits.held_time);
        let of_maps = Bounds { size: limits.held_bytes, entries: limits.held_maps, missing, time };
        let of_contents = Bounds { size: limits.held_context_bytes, entries: 4096, missing: 0, time: Duration::MAX };
        let maps = Table::new(of_maps, Arc::clone(&clock));
        let contents = Table::new(of_contents, Arc::clone(&clock));
        Ok(Resolver { limits, clock, totals, finder, maps, contents })
    }

    // ---- one frame ----

    /// The time at which a trace that begins now has to end.
    fn end(&self) -> Duration {
        (self.clock)().saturating_add(self.limits.time)
    }

    /// The map of the code of a frame.
    fn held(&self, url: &str, debug_id: Option<&str>, end: Duration) -> Result<Arc<Held>, Missing> {
        let debug_id = debug_id.filter(|it| !it.is_empty()).map(debug_id_of).transpose()?;
        let name = match self.finder.folders.name_of(url) {
            Err(refused) if debug_id.is_none() => return Err(refused.into()),
            Ok(None) if debug_id.is_none() => return Err(outside(url)),
            found => found.ok().flatten(),
        };
        let url_of_key = if name.is_none() { Some(url.to_string()) } else { None };
        let key = Key { name, url: url_of_key, debug_id };
        let time = end.saturating_sub((self.clock)());
        self.maps.get(&key, time, || self.finder.find(key.name.as_deref(), url, key.debug_id.as_deref()))
    }

    /// What a map has for a frame.
    fn looked_up(&self, frame: Frame, held: &Held) -> Resolved {
        let map = Some(held.name.clone());
        let is_within = |it: u64| (1..=u64::from(u32::MAX)).contains(&it);
        if !is_within(frame.line) || !is_within(frame.column) {
            let words = "lines and columns of frames are numbers from 1 to 4294967295";
            return Resolved { map, ..Resolved::not(frame, Reason::Position, words) };
        }
        let (line, column) = ((frame.line - 1) as u32, (frame.column - 1) as u32);
        match origin(held, line, column) {
            Ok(origin) => Resolved { frame, original: Ok(origin), map },
            Err(missing) => Resolved { map, ..Resolved::not(frame, missing.reason, missing.detail) },
        }
    }

    /// What a frame resolves to. What is known of the codes of its trace is asked once.
    fn resolved(&self, frame: Frame, end: Duration, known: &mut Known) -> Resolved {
        if (self.clock)() > end {
            return Resolved::not(frame, Reason::Time, format!("the trace took longer than {:?}", self.limits.time));
        }
        let code = (frame.url, frame.debug_id);
        let found = known.get(&code).cloned().unwrap_or_else(|| {
            if known.len() >= MOST_KNOWN {
                known.clear();
            }
            let found = self.held(&code.0, code.1.as_deref(), end);
            known.insert(code.clone(), found.clone());
            found
        });
        let frame = Frame { url: code.0, debug_id: code.1, ..frame };
        match found {
            Ok(held) => self.looked_up(frame, &held),
            Err(missing) => Resolved::not(frame, missing.reason, missing.detail),
        }
    }

    /// What a place in a code resolves to.
    ///
    /// ```
    /// use oxc_sourcemap::resolver::{Frame, Options, Reason, Resolver};
    /// let resolver = Resolver::new(std::collections::HashMap::new(), "", Options::default())?;
    /// assert_eq!(resolver.resolve_frame(Frame::new("app.js", 1, 14)).reason(), Some(Reason::NotThere));
    /// # Ok::<(), oxc_sourcemap::resolver::Error>(())
    /// ```
    pub fn resolve_frame(&self, frame: Frame) -> Resolved {
        let found = self.resolved(frame, self.end(), &mut Known::new());
        self.totals.add_frames(std::slice::from_ref(&found));
        found
    }

    // ---- traces ----

    /// What each frame resolves to, in order. The limits of frames and of time are those of all together.
    ///
    /// ```
    /// use oxc_sourcemap::resolver::{Frame, Options, Resolver};
    /// let resolver = Resolver::new(std::collections::HashMap::new(), "", Options::default())?;
    /// let found = resolver.resolve([Frame::new("app.js", 1, 14), Frame::new("app.js", 2, 1)]);
    /// assert_eq!(found.iter().map(|it| it.frame.line).collect::<Vec<_>>(), [1, 2]);
    /// # Ok::<(), oxc_sourcemap::resolver::Error>(())
    /// ```
    pub fn resolve(&self, frames: impl IntoIterator<Item = Frame>) -> Vec<Resolved> {
        self.resolve_all(frames.into_iter().map(Ok))
    }

    /// The same for frames of which some have a URL that is not UTF-8.
    fn resolve_all(&self, frames: impl Iterator<Item = Result<Frame, Frame>>) -> Vec<Resolved> {
        let (end, limit, mut known, mut found) = (self.end(), self.limits.frames, Known::new(), Vec::new());
        for frame in frames {
            found.push(match frame {
                Ok(frame) | Err(frame) if found.len() >= limit => {
                    Resolved::not(frame, Reason::Frames, format!("the trace has more than {limit} frames"))
                }
                Ok(frame) => self.resolved(frame, end, &mut known),
                Err(frame) => Resolved::not(frame, Reason::Refused, "a path that is not UTF-8"),
            });
        }
        self.totals.add_frames(&found);
        found
    }

    fn within(&self, length: usize) -> Result<(), Error> {
        let limit = self.limits.trace_bytes;
        if length > limit {
            self.totals.add(Counted::TracesRefused, 1);
            return Err(Error::TooLarge { length, limit });
        }
        self.totals.add(Counted::Traces, 1);
        Ok(())
    }

    /// What each frame of a trace resolves to, in order. `debug_ids` has the debug ids of codes by their URLs, as frames name them.
    ///
    /// Fails with [`Error::TooLarge`] if the trace has more bytes than the limit.
    ///
    /// ```
    /// use std::collections::HashMap;
    /// use oxc_sourcemap::resolver::{Options, Reason, Resolver};
    /// let resolver = Resolver::new(HashMap::new(), "", Options::default())?;
    /// let found = resolver.resolve_trace("f@app.js:1:14", &HashMap::new())?;
    /// assert_eq!((found.len(), found[0].reason()), (1, Some(Reason::NotThere)));
    /// # Ok::<(), oxc_sourcemap::resolver::Error>(())
    /// ```
    pub fn resolve_trace(&self, text: &str, debug_ids: &HashMap<String, String>) -> Result<Vec<Resolved>, Error> {
        self.within(text.len())?;
        Ok(self.resolve(frames_in(text).map(|it| Frame { debug_id: debug_ids.get(&it.url).cloned(), ..it })))
    }

    /// A trace with the place of each frame that is resolved replaced by the original one, `SOURCE:LINE:COLUMN`, which count from 1; all
    /// else stays. Extract a trace from a JSON text first.
    ///
    /// Fails with [`Error::TooLarge`] if the trace has more bytes than the limit.
    ///
    /// ```
    /// use oxc_sourcemap::resolver::{Options, Resolver};
    /// let resolver = Resolver::new(std::collections::HashMap::new(), "", Options::default())?;
    /// assert_eq!(resolver.resolve_text("f@app.js:1:14\n")?, "f@app.js:1:14\n");
    /// # Ok::<(), oxc_sourcemap::resolver::Error>(())
    /// ```
    pub fn resolve_text(&self, text: &str) -> Result<String, Error> {
        Ok(replace_frames(text, &self.resolve_trace(text, &HashMap::new())?))
    }

    /// The same for bytes that need not be UTF-8, which stay to the byte.
    ///
    /// Fails with [`Error::TooLarge`] if there are more bytes than the limit.
    ///
    /// ```
    /// use oxc_sourcemap::resolver::{Options, Resolver};
    /// let resolver = Resolver::new(std::collections::HashMap::new(), "", Options::default())?;
    /// assert_eq!(resolver.resolve_bytes(b"f@app.js:1:14 \xff")?, b"f@app.js:1:14 \xff");
    /// # Ok::<(), oxc_sourcemap::resolver::Error>(())
    /// ```
    pub fn resolve_bytes(&self, text: &[u8]) -> Result<Vec<u8>, Error> {
        self.within(text.len())?;
        let is_text = |url: &[u8]| std::str::from_utf8(url).is_ok();
        let frames = places_in(text).map(|it| if is_text(it.url) { Ok(it.frame()) } else { Err(it.frame()) });
        Ok(replace_in_bytes(text, &self.resolve_all(frames)))
    }

    /// One line of a log or a trace, as [`resolve_text`](Self::resolve_text) has it in any text around it: lines do not change each
    /// other. Limits are for the line alone, and it counts as no trace.
    ///
    /// Fails with [`Error::TooLarge`] if the line has more bytes than the limit.
    ///
    /// ```
    /// use oxc_sourcemap::resolver::{Options, Resolver};
    /// let resolver = Resolver::new(std::collections::HashMap::new(), "", Options::default())?;
    /// assert_eq!(resolver.resolve_line("    at f (app.js:1:14)")?, "    at f (app.js:1:14)");
    /// # Ok::<(), oxc_sourcemap::resolver::Error>(())
    /// ```
    pub fn resolve_line(&self, line: &str) -> Result<String, Error> {
        let (length, limit) = (line.len(), self.limits.trace_bytes);
        if length > limit {
            return Err(Error::TooLarge { length, limit });
        }
        Ok(replace_frames(line, &self.resolve(frames_in(line))))
    }

    /// The line of a resolved frame in its source, with up to so many lines before and behind it; None if the frame is not resolved, or
    /// the map has no content of the source or no such line, or has changed.
    ///
    /// ```
    /// use std::collections::HashMap;
    /// use oxc_sourcemap::resolver::{Frame, Options, Resolver};
    /// let map = br#"{"version":3,"sources":["a.ts"],"sourcesContent":["let a\nf()\n"],"names":[],"mappings":"AAAA,aACE"}"#;
    /// let resolver = Resolver::new(HashMap::from([("app.js.map".into(), map.to_vec())]), "", Options::default())?;
    /// let found = resolver.resolve_frame(Frame::new("app.js", 1, 14));
    /// let context = resolver.context(&found, 1).unwrap();
    /// assert_eq!((context.first, context.line, context.lines.join("|").as_str()), (0, 1, "let a|f()|"));
    /// # Ok::<(), oxc_sourcemap::resolver::Error>(())
    /// ```
    pub fn context(&self, found: &Resolved, lines: usize) -> Option<Context> {
        let (origin, end) = (found.original.as_ref().ok()?, self.end());
        let held = self.held(&found.frame.url, found.frame.debug_id.as_deref(), end).ok()?;
        let (map, id) = (held.map().ok()?, origin.source_id);
        if held.source(id, map.get_source(id)?).ok()? != origin.source {
            return None;
        }
        let none = Missing { holds: false, ..Missing::held(Reason::Nothing, "") };
        let load = || map.get_source_content(id).map(Lines::new).ok_or(none);
        let key = (held.name.clone(), held.stamp, id);
        self.contents.get(&key, self.limits.time, load).ok()?.around(origin.line, lines)
    }

    // ---- what it holds ----

    /// Counts since the resolver was made, and what it holds.
    pub fn counts(&self) -> Counts {
        self.totals.told(self.maps.counts(), self.contents.counts().bytes_held)
    }

    /// Releases all that is held: later requests search again.
    ///
    /// ```
    /// use oxc_sourcemap::resolver::{Options, Resolver};
    /// let resolver = Resolver::new(std::collections::HashMap::new(), "", Options::default())?;
    /// resolver.clear();
    /// assert_eq!(resolver.counts().held, 0);
    /// # Ok::<(), oxc_sourcemap::resolver::Error>(())
    /// ```
    pub fn clear(&self) {
        self.maps.clear();
        self.contents.clear();
    }
}

impl fmt::Debug for Resolver {
    fn fmt(&self, f: &mut fmt::Formatter<'_>) -> fmt::Result {
        f.debug_struct("Resolver").field("limits", &self.limits).field("counts", &self.counts()).finish_non_exhaustive()
    }
}

/// What a map has at a position, which counts from 0.
fn origin(held: &Held, line: u32, column: u32) -> Result<Origin, Missing> {
    let name = &held.name;
    match held.map()?.trace(line, column, Bias::Before) {
        Traced::Nothing => {
            Err(Missing::held(Reason::Nothing, format!("{name} has no mapping in the line up to this column")))
        }
        Traced::Unmapped(_) => Err(Missing::held(Reason::Unmapped, format!("the mapping in {name} has no source"))),
        Traced::Mapped(found) => {
            let source_id = found.token.get_source_id().unwrap_or(u32::MAX);
            Ok(Origin {
                source: held.source(source_id, found.source)?,
                line: found.line(),
                column: found.column(),
                name: found.name.map(str::to_string),
                source_id,
            })
        }
    }
}
