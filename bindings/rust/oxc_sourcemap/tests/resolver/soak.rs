//! Resolvers under random maps, sizes, threads and faults: for five seconds, or for SOAK seconds, as
//! `SOAK=3600 cargo test --test resolver soak -- --nocapture`.
//!
//! Threads resolve traces of random frames, over a folder with compiled maps beside and over a store that answers late or by an error.
//! Another one puts new maps in place of old ones, takes maps away, and damages and dates compiled maps. Each map names its number and
//! version as its source, so that each answer can be told to be right, and no older than a resolver may hold it. It fails if a frame is
//! lost or wrong, or if what is held passes its limits; and, where SOAK is set, so that nothing else runs, if memory or descriptors grow.

use super::*;

const MAPS: usize = 60;
/// Of how many maps the frames are that each resolver is asked for: more than it holds, and fewer, which it lets go of by their time.
const ASKED: [usize; 2] = [MAPS, 20];
const LINES: usize = 40;
const THREADS: u64 = 6;
const HELD: Duration = Duration::from_millis(200);
/// For how long a version may be answered with once another one is in its place: as long as it is held, and a thread waits for its turn.
const SLACK: Duration = Duration::from_millis(1700);

fn soaked_limits() -> Limits {
    Limits {
        trace_bytes: 20_000,
        frames: 200,
        time: Duration::from_secs(5),
        held_bytes: 400_000,
        held_maps: 25,
        held_missing: 10,
        held_time: HELD,
        held_context_bytes: 200_000,
        ..Limits::default()
    }
}

/// Which version each map has now, and when the others went.
struct Versions {
    current: Vec<u64>,
    gone: Vec<HashMap<u64, Instant>>,
}

/// How many traces, frames and resolved frames the threads had.
#[derive(Default)]
struct Done([AtomicU64; 3]);

impl Done {
    fn add(&self, counts: [usize; 3]) {
        for (sum, count) in self.0.iter().zip(counts) {
            sum.fetch_add(count as u64, Ordering::Relaxed);
        }
    }
}

struct Soak {
    room: Room,
    resolvers: [Resolver; 2],
    versions: Mutex<Versions>,
    faults: Mutex<Vec<String>>,
    done: Done,
    ends: AtomicBool,
}

/// A file in place of another one, at once.
fn replace(path: &Path, data: &[u8], time: SystemTime) {
    let new = path.with_extension("new");
    fs::write(&new, data).unwrap();
    File::options().write(true).open(&new).unwrap().set_modified(time).unwrap();
    fs::rename(new, path).unwrap();
}

/// A store that fails now and then, or is late.
fn faulty(folder: PathBuf) -> impl Store {
    let chosen = Mutex::new(Chosen(5));
    By(move |name: &str| {
        let kind = chosen.lock().unwrap().below(1000);
        if kind < 20 {
            return Err(io::Error::other("a fault of the soak"));
        }
        if kind < 300 {
            thread::sleep(Duration::from_millis(kind as u64 % 5));
        }
        match fs::read(folder.join(name)) {
            Err(error) if error.kind() == io::ErrorKind::NotFound => Ok(None),
            found => found.map(Some),
        }
    })
}

impl Soak {
    fn new() -> Soak {
        let room = Room::new();
        let options = |cache| Options { cache, limits: soaked_limits(), ..Options::default() };
        let resolvers = [
            Resolver::new(room.store(), H, options(Cache::Beside)).unwrap(),
            Resolver::new(faulty(room.at("dist")), H, options(Cache::Nowhere)).unwrap(),
        ];
        let versions = Versions { current: vec![0; MAPS], gone: vec![HashMap::new(); MAPS] };
        let (faults, done, ends) = (Mutex::default(), Done::default(), AtomicBool::new(false));
        Soak { room, resolvers, versions: Mutex::new(versions), faults, done, ends }
    }

    fn fault(&self, words: String) {
        self.faults.lock().unwrap().push(words);
    }

    // ---- what is written ----

    fn path(&self, map: usize) -> PathBuf {
        self.room.at(&format!("dist/{map}.js.map"))
    }

    /// Notes that the version which a map has goes, and which one is there then.
    fn note(&self, map: usize, next: u64) {
        let versions = &mut *self.versions.lock().unwrap();
        versions.gone[map].insert(versions.current[map], Instant::now());
        versions.current[map] = next;
    }

    /// A new version of a map: generated line L, column 2 C is line L + C of its source, column C. All versions have as many bytes.
    fn put(&self, map: usize) {
        let version = self.versions.lock().unwrap().current[map] + 1;
        let line = |at| (if at == 0 { "AAAA" } else { "AAvCxC" }).to_string() + &",EACC".repeat(LINES);
        let mappings = (0..LINES).map(line).collect::<Vec<_>>().join(";");
        let content = "x\\n".repeat(50 * (map % 9));
        let value = format!(
            r#"{{"version":3,"sources":["{map}-{version:09}.ts"],"names":[],"sourcesContent":["{content}"],"mappings":"{mappings}"}}"#
        );
        replace(&self.path(map), value.as_bytes(), SystemTime::now());
        self.note(map, version);
    }

    fn change(&self, chosen: &mut Chosen) {
        let (map, kind) = (chosen.below(MAPS), chosen.below(100));
        let compiled = self.room.at(&format!("dist/{map}.js.map.smc"));
        if kind < 60 {
            return self.put(map);
        }
        if kind < 70 {
            let now = self.versions.lock().unwrap().current[map];
            self.note(map, now);
            let _ = fs::remove_file(self.path(map));
            return;
        }
        let Ok(data) = fs::read(&compiled) else { return };
        // (a whole one never gets a later time, by which it would count as that of the map that is there now)
        let before = fs::metadata(&compiled).unwrap().modified().unwrap();
        match kind {
            70..85 => replace(&compiled, &data[..chosen.below(data.len())], SystemTime::now()),
            85..93 => replace(&compiled, &data, SystemTime::UNIX_EPOCH),
            _ => replace(&compiled, &data, before),
        }
    }

    // ---- what is asked ----

    /// Whether an answer is that of a version that was there, or may still be held.
    fn is_right(&self, found: &Resolved, map: usize, start: Instant) -> bool {
        let origin = match &found.original {
            Ok(origin) => origin,
            Err(why) => return [Reason::Store, Reason::NotThere, Reason::Time].contains(&why.reason),
        };
        let said = origin.source.strip_suffix(".ts").and_then(|it| it.split_once('-'));
        let Some((name, version)) = said.and_then(|(a, b)| Some((a, b.parse::<u64>().ok()?))) else { return false };
        let column = ((found.frame.column - 1) / 2).min(LINES as u64);
        let place = (u64::from(origin.line), u64::from(origin.column));
        let versions = self.versions.lock().unwrap();
        let is_young = versions.gone[map].get(&version).is_none_or(|gone| *gone + SLACK > start);
        name == map.to_string()
            && version <= versions.current[map] + 1
            && place == (found.frame.line - 1 + column, column)
            && is_young
    }

    fn trace(&self, which: usize, chosen: &mut Chosen) {
        let resolver = &self.resolvers[which];
        let count = [1, 5, 30, 250, 2000][chosen.below(5)];
        let frame = |_| (chosen.below(ASKED[which]), 1 + chosen.below(LINES), 1 + chosen.below(3 * LINES));
        let frames: Vec<_> = (0..count).map(frame).collect();
        let line = |(map, line, column): &(usize, usize, usize)| format!("    at f ({H}{map}.js:{line}:{column})\n");
        let text: String = frames.iter().map(line).collect();
        let (start, limits) = (Instant::now(), soaked_limits());
        let found = match resolver.resolve_trace(&text, &HashMap::new()) {
            Ok(found) => found,
            Err(_) if text.len() > limits.trace_bytes => return,
            Err(error) => return self.fault(format!("a trace within the limit: {error}")),
        };
        if found.len() != count || text.len() > limits.trace_bytes {
            self.fault(format!("{count} frames, {} bytes, {} answers", text.len(), found.len()));
        }
        for (at, (it, (map, ..))) in found.iter().zip(&frames).enumerate() {
            let is_past = at >= limits.frames && it.reason() == Some(Reason::Frames);
            if !is_past && (at >= limits.frames || !self.is_right(it, *map, start)) {
                self.fault(format!("wrong: {it:?}"));
            }
        }
        resolver.context(&found[chosen.below(count)], 2);
        self.done.add([1, count, found.iter().filter(|it| it.original.is_ok()).count()]);
    }

    // ---- what is held ----

    fn check(&self) {
        let limits = soaked_limits();
        for it in self.resolvers.iter().map(Resolver::counts) {
            let held = [it.bytes_held, it.held, it.missing_held, it.context_bytes_held];
            let most =
                [limits.held_bytes, limits.held_maps as u64, limits.held_missing as u64, limits.held_context_bytes];
            if held.iter().zip(most).any(|(held, most)| *held > most) {
                self.fault(format!("more is held than the limits: {it:?}"));
            }
        }
    }

    /// What was counted, which sums up.
    fn check_counts(&self) {
        let counts = self.resolvers.each_ref().map(Resolver::counts);
        let sums = [|it: &Counts| it.traces, |it: &Counts| it.frames, |it: &Counts| it.resolved];
        let told = sums.map(|of| counts.iter().map(of).sum::<u64>());
        let done = self.done.0.each_ref().map(|it| it.load(Ordering::Relaxed));
        if told != done {
            self.fault(format!("other counts: {told:?}, not {done:?}"));
        }
        for it in &counts {
            let reasons = [Reason::Store, Reason::NotThere, Reason::Time, Reason::Frames];
            if it.frames != it.resolved + reasons.iter().map(|reason| it.not_resolved(*reason)).sum::<u64>() {
                self.fault(format!("reasons do not sum up: {it:?}"));
            }
        }
        println!("{done:?} traces, frames and resolved frames\n{counts:?}");
    }
}

/// The memory of this process, in kB, and how many descriptors it has.
fn used() -> (u64, usize) {
    let status = fs::read_to_string("/proc/self/status").unwrap_or_default();
    let resident = status.lines().find_map(|it| it.strip_prefix("VmRSS:")?.trim().strip_suffix(" kB")?.parse().ok());
    (resident.unwrap_or(0), fs::read_dir("/proc/self/fd").map_or(0, Iterator::count))
}

#[test]
fn soak() {
    let asked = std::env::var("SOAK").ok().map(|it| it.parse().expect("SOAK is a number of seconds"));
    let time = Duration::from_secs_f64(asked.unwrap_or(5.0));
    let (soak, begin, mut seen) = (Soak::new(), Instant::now(), Vec::new());
    (0..MAPS).for_each(|map| soak.put(map));
    thread::scope(|scope| {
        let repeat = |mut call: Box<dyn FnMut() + Send>| {
            while !soak.ends.load(Ordering::Relaxed) {
                call()
            }
        };
        for seed in 0..THREADS {
            let (soak, mut chosen) = (&soak, Chosen(seed));
            scope.spawn(move || repeat(Box::new(move || soak.trace(seed as usize % 2, &mut chosen))));
        }
        let (writer, mut chosen) = (&soak, Chosen(99));
        scope.spawn(move || {
            repeat(Box::new(move || {
                writer.change(&mut chosen);
                thread::sleep(Duration::from_millis(25));
            }))
        });
        while begin.elapsed() < time && soak.faults.lock().unwrap().is_empty() {
            thread::sleep((time / 8).min(Duration::from_secs(1)));
            soak.check();
            seen.push(used());
        }
        soak.ends.store(true, Ordering::Relaxed);
    });
    soak.check_counts();
    let (early, late) = (seen[seen.len() / 4], seen[seen.len() - 1]);
    println!("{early:?}, then {late:?} kB and descriptors");
    if asked.is_some() && (late.0 > early.0 * 13 / 10 + 20_000 || late.1 > early.1 + 100) {
        soak.fault(format!("memory or descriptors grow: {early:?}, then {late:?}"));
    }
    let faults = soak.faults.into_inner().unwrap();
    assert!(faults.is_empty(), "{} faults: {:#?}", faults.len(), &faults[..faults.len().min(5)]);
}
