//! A table of what is read once and held for a time, within bounds, by any number of threads.

use std::collections::{BTreeMap, HashMap};
use std::hash::Hash;
use std::sync::{Arc, Condvar, Mutex, MutexGuard, PoisonError};
use std::time::Duration;

use super::Clock;
use super::answers::Reason;

/// Why there is nothing to hold, which is held itself if `holds` is true.
#[derive(Clone, Debug, PartialEq, Eq)]
pub(super) struct Missing {
    pub reason: Reason,
    pub detail: String,
    pub holds: bool,
}

impl Missing {
    pub fn held(reason: Reason, detail: impl Into<String>) -> Missing {
        Missing { reason, detail: detail.into(), holds: true }
    }

    /// Of what failed, and may be there another time.
    pub fn failed(error: &dyn std::fmt::Display) -> Missing {
        Missing { reason: Reason::Store, detail: error.to_string(), holds: false }
    }
}

/// How much a table holds: bytes, entries, keys that nothing was found for, and for how long each.
#[derive(Clone, Copy)]
pub(super) struct Bounds {
    pub size: u64,
    pub entries: usize,
    pub missing: usize,
    pub time: Duration,
}

/// What has a size in bytes.
pub(super) trait Weighed {
    fn size(&self) -> u64;
}

/// Entries with the time at which they expire, in the order in which they were asked for.
struct Recent<K, V> {
    entries: HashMap<K, (V, Duration, u64)>,
    order: BTreeMap<u64, K>,
    next: u64,
}

impl<K: Clone + Eq + Hash, V> Recent<K, V> {
    fn new() -> Recent<K, V> {
        Recent { entries: HashMap::new(), order: BTreeMap::new(), next: 0 }
    }

    /// An entry, put behind all others, or, where it has expired, taken out.
    fn get(&mut self, key: &K, now: Duration) -> Option<Result<&V, V>> {
        if self.entries.get(key)?.1 <= now {
            return self.remove(key).map(Err);
        }
        let entry = self.entries.get_mut(key)?;
        if let Some(key) = self.order.remove(&entry.2) {
            entry.2 = self.next;
            self.order.insert(self.next, key);
            self.next += 1;
        }
        Some(Ok(&entry.0))
    }

    fn put(&mut self, key: K, value: V, end: Duration) {
        self.order.insert(self.next, key.clone());
        self.entries.insert(key, (value, end, self.next));
        self.next += 1;
    }

    fn remove(&mut self, key: &K) -> Option<V> {
        let (value, _, at) = self.entries.remove(key)?;
        self.order.remove(&at);
        Some(value)
    }

    /// Takes out the entry that was asked for longest ago.
    fn pop(&mut self) -> Option<V> {
        let (_, key) = self.order.pop_first()?;
        self.entries.remove(&key).map(|it| it.0)
    }
}

/// What one thread loads, and others wait for.
struct Flight<V> {
    found: Mutex<Option<Result<Arc<V>, Missing>>>,
    is_there: Condvar,
}

struct State<K, V> {
    held: Recent<K, Arc<V>>,
    missing: Recent<K, Missing>,
    loading: HashMap<K, Arc<Flight<V>>>,
    size: u64,
    counts: TableCounts,
}

/// Counts of a table so far, and what it holds.
#[derive(Clone, Copy, Default)]
pub(super) struct TableCounts {
    pub hits: u64,
    pub misses: u64,
    pub waits: u64,
    pub missing_hits: u64,
    pub expired: u64,
    pub evictions: u64,
    pub bytes_held: u64,
    pub held: u64,
    pub missing_held: u64,
}

/// What `load` calls return, by their keys. What was not asked for longest goes first. The lock is held for the table alone: calls run
/// outside of it, and threads that ask for what another one loads wait for that.
pub(super) struct Table<K: Clone + Eq + Hash, V: Weighed> {
    bounds: Bounds,
    clock: Clock,
    state: Mutex<State<K, V>>,
}

/// What is locked, also after a thread panicked: nothing here is left half changed.
fn locked<T>(mutex: &Mutex<T>) -> MutexGuard<'_, T> {
    mutex.lock().unwrap_or_else(PoisonError::into_inner)
}

/// What a table has for a key.
enum Step<V> {
    Found(Result<Arc<V>, Missing>),
    Wait(Arc<Flight<V>>),
    Load(Arc<Flight<V>>),
}

impl<K: Clone + Eq + Hash, V: Weighed> Table<K, V> {
    pub fn new(bounds: Bounds, clock: Clock) -> Table<K, V> {
        let (held, missing) = (Recent::new(), Recent::new());
        let state = State { held, missing, loading: HashMap::new(), size: 0, counts: TableCounts::default() };
        Table { bounds, clock, state: Mutex::new(state) }
    }

    /// The value of a key. Fails with what `load` fails with, and with `Reason::Time` if another thread loads it for longer than this
    /// time.
    pub fn get(&self, key: &K, time: Duration, load: impl FnOnce() -> Result<V, Missing>) -> Result<Arc<V>, Missing> {
        // (what is let go is freed once the lock is not held any more)
        let mut gone = Vec::new();
        let step = self.step(key, &mut gone);
        match step {
            Step::Found(found) => found,
            Step::Wait(flight) => awaited(&flight, time),
            Step::Load(flight) => {
                let mut landing = Landing { table: self, key, flight, found: None };
                let found = load().map(Arc::new);
                landing.found = Some(found.clone());
                found
            }
        }
    }

    fn step(&self, key: &K, gone: &mut Vec<Arc<V>>) -> Step<V> {
        let now = (self.clock)();
        let mut guard = locked(&self.state);
        let state = &mut *guard;
        match state.held.get(key, now) {
            Some(Ok(value)) => {
                state.counts.hits += 1;
                return Step::Found(Ok(Arc::clone(value)));
            }
            Some(Err(value)) => {
                state.size -= value.size();
                state.counts.expired += 1;
                gone.push(value);
            }
            None => {}
        }
        match state.missing.get(key, now) {
            Some(Ok(missing)) => {
                state.counts.missing_hits += 1;
                return Step::Found(Err(missing.clone()));
            }
            Some(Err(_)) => state.counts.expired += 1,
            None => {}
        }
        if let Some(flight) = state.loading.get(key) {
            state.counts.waits += 1;
            return Step::Wait(Arc::clone(flight));
        }
        state.counts.misses += 1;
        let flight = Arc::new(Flight { found: Mutex::new(None), is_there: Condvar::new() });
        state.loading.insert(key.clone(), Arc::clone(&flight));
        Step::Load(flight)
    }

    /// Holds what was loaded. The lock is held.
    fn put(&self, state: &mut State<K, V>, key: &K, found: &Result<Arc<V>, Missing>, gone: &mut Vec<Arc<V>>) {
        let end = (self.clock)().saturating_add(self.bounds.time);
        match found {
            Ok(value) if value.size() > self.bounds.size => state.counts.evictions += 1,
            Ok(value) => {
                state.held.put(key.clone(), Arc::clone(value), end);
                state.size += value.size();
            }
            Err(missing) if missing.holds => state.missing.put(key.clone(), missing.clone(), end),
            Err(_) => {}
        }
        while state.size > self.bounds.size || state.held.entries.len() > self.bounds.entries {
            let Some(value) = state.held.pop() else { break };
            state.size -= value.size();
            state.counts.evictions += 1;
            gone.push(value);
        }
        while state.missing.entries.len() > self.bounds.missing {
            state.missing.pop();
        }
    }

    /// Releases all that is held.
    pub fn clear(&self) {
        let mut guard = locked(&self.state);
        let gone = std::mem::replace(&mut guard.held, Recent::new());
        guard.missing = Recent::new();
        guard.size = 0;
        drop(guard);
        drop(gone);
    }

    pub fn counts(&self) -> TableCounts {
        let state = locked(&self.state);
        TableCounts {
            bytes_held: state.size,
            held: state.held.entries.len() as u64,
            missing_held: state.missing.entries.len() as u64,
            ..state.counts
        }
    }
}

fn awaited<V>(flight: &Flight<V>, time: Duration) -> Result<Arc<V>, Missing> {
    let found = locked(&flight.found);
    let waited = flight.is_there.wait_timeout_while(found, time, |it| it.is_none());
    let (found, _) = waited.unwrap_or_else(PoisonError::into_inner);
    let late = || Missing { holds: false, ..Missing::held(Reason::Time, "another thread still reads the map") };
    found.clone().unwrap_or_else(|| Err(late()))
}

/// Ends a flight, also if what loads panics.
struct Landing<'t, K: Clone + Eq + Hash, V: Weighed> {
    table: &'t Table<K, V>,
    key: &'t K,
    flight: Arc<Flight<V>>,
    found: Option<Result<Arc<V>, Missing>>,
}

impl<K: Clone + Eq + Hash, V: Weighed> Drop for Landing<'_, K, V> {
    fn drop(&mut self) {
        let found = self.found.take().unwrap_or_else(|| Err(Missing::failed(&"a thread panicked")));
        let mut gone = Vec::new();
        let mut state = locked(&self.table.state);
        state.loading.remove(self.key);
        self.table.put(&mut state, self.key, &found, &mut gone);
        drop(state);
        *locked(&self.flight.found) = Some(found);
        self.flight.is_there.notify_all();
    }
}

#[cfg(test)]
mod tests {
    use super::*;
    use std::sync::atomic::{AtomicU64, Ordering};
    use std::thread;

    struct Block(u64);

    impl Weighed for Block {
        fn size(&self) -> u64 {
            self.0
        }
    }

    /// A table of blocks by letters, what was loaded, and its clock in seconds.
    struct Tried {
        table: Table<char, Block>,
        loaded: Mutex<String>,
        now: Arc<AtomicU64>,
    }

    impl Tried {
        fn new(size: u64, entries: usize) -> Tried {
            let (now, time) = (Arc::new(AtomicU64::new(0)), Duration::from_secs(60));
            let clock = Arc::clone(&now);
            let clock = Arc::new(move || Duration::from_secs(clock.load(Ordering::Relaxed)));
            let table = Table::new(Bounds { size, entries, missing: 2, time }, clock);
            Tried { table, loaded: Mutex::default(), now }
        }

        fn get(&self, key: char, load: Result<u64, Missing>) -> Result<u64, Missing> {
            let load = || {
                locked(&self.loaded).push(key);
                load.map(Block)
            };
            self.table.get(&key, Duration::from_secs(1), load).map(|it| it.0)
        }

        fn loads(&self, keys: &str) -> String {
            locked(&self.loaded).clear();
            keys.chars().for_each(|it| assert_eq!(self.get(it, Ok(40)), Ok(40)));
            locked(&self.loaded).clone()
        }
    }

    #[test]
    fn what_was_asked_for_longest_ago_goes_first() {
        let tried = Tried::new(100, 9);
        assert_eq!(tried.loads("abac"), "abc");
        let counts = tried.table.counts();
        assert_eq!((counts.hits, counts.misses, counts.evictions), (1, 3, 1));
        assert_eq!((counts.bytes_held, counts.held, counts.missing_held), (80, 2, 0));
        assert_eq!(tried.loads("ac"), "");
        assert_eq!(tried.loads("bca"), "ba");
        assert_eq!(tried.get('h', Ok(101)), Ok(101));
        assert_eq!((tried.table.counts().bytes_held, tried.table.counts().evictions), (80, 4));
        assert_eq!(tried.loads("ac"), "");
        assert_eq!(Tried::new(1000, 3).loads("abcdbcda"), "abcda");
    }

    #[test]
    fn what_is_missing_is_held_and_bounded() {
        let tried = Tried::new(100, 9);
        let none = |key: char| Err(Missing::held(Reason::NoMap, key));
        "abacab".chars().for_each(|it| assert_eq!(tried.get(it, none(it)), none(it)));
        assert_eq!(*locked(&tried.loaded), "abcb");
        assert_eq!((tried.table.counts().missing_hits, tried.table.counts().missing_held), (2, 2));
        let failed = Missing::failed(&"it failed");
        assert_eq!(tried.get('f', Err(failed.clone())), Err(failed));
        assert_eq!(tried.get('f', Ok(1)), Ok(1));
    }

    #[test]
    fn what_is_held_expires() {
        let tried = Tried::new(100, 9);
        let none = || Err(Missing::held(Reason::NoMap, ""));
        assert_eq!((tried.loads("a"), tried.get('b', none())), ("a".to_string(), none()));
        tried.now.store(59, Ordering::Relaxed);
        assert_eq!((tried.loads("a"), tried.get('b', Ok(1))), (String::new(), none()));
        tried.now.store(60, Ordering::Relaxed);
        assert_eq!(tried.loads("ab"), "ab");
        assert_eq!((tried.table.counts().expired, tried.table.counts().bytes_held), (2, 80));
        tried.table.clear();
        assert_eq!(tried.table.counts().bytes_held, 0);
        assert_eq!((tried.loads("a"), tried.table.counts().bytes_held), ("a".to_string(), 40));
    }

    #[test]
    fn what_one_thread_fails_with_is_told_to_all() {
        let (tried, gate) = (Tried::new(100, 9), std::sync::Barrier::new(2));
        thread::scope(|scope| {
            scope.spawn(|| {
                let load = || {
                    gate.wait();
                    while tried.table.counts().waits == 0 {
                        thread::yield_now();
                    }
                    Err::<Block, _>(Missing::failed(&"it failed"))
                };
                assert!(tried.table.get(&'a', Duration::ZERO, load).is_err());
            });
            gate.wait();
            let load = || panic!("it is loaded by another thread");
            let found = tried.table.get(&'a', Duration::from_secs(60), load);
            assert_eq!(found.map(|it| it.0), Err(Missing::failed(&"it failed")));
        });
        assert_eq!(tried.loads("a"), "a");
    }

    type Watch = Mutex<Option<Arc<Table<char, Watched>>>>;

    /// What asks its table whether the lock is held when it is freed.
    struct Watched(Arc<Watch>);

    impl Weighed for Watched {
        fn size(&self) -> u64 {
            40
        }
    }

    impl Drop for Watched {
        fn drop(&mut self) {
            if let Some(table) = &*locked(&self.0) {
                assert!(table.state.try_lock().is_ok());
            }
        }
    }

    #[test]
    fn what_is_let_go_is_freed_outside_of_the_lock() {
        let (now, watch) = (Arc::new(AtomicU64::new(0)), Arc::new(Watch::default()));
        let (clock, time) = (Arc::clone(&now), Duration::from_secs(60));
        let clock = Arc::new(move || Duration::from_secs(clock.load(Ordering::Relaxed)));
        let table = Arc::new(Table::new(Bounds { size: 100, entries: 9, missing: 0, time }, clock));
        *locked(&watch) = Some(Arc::clone(&table));
        let get = |key| drop(table.get(&key, time, || Ok(Watched(Arc::clone(&watch)))));
        "abcd".chars().for_each(get);
        now.store(60, Ordering::Relaxed);
        get('d');
        table.clear();
        assert_eq!((Arc::strong_count(&watch), table.counts().evictions), (1, 2));
        *locked(&watch) = None;
    }

    #[test]
    fn many_threads() {
        let tried = Tried::new(2000, 50);
        thread::scope(|scope| {
            for seed in [3, 7, 11, 13] {
                let table = &tried.table;
                scope.spawn(move || {
                    for round in 0..4000 {
                        let number = (round * seed) % 101;
                        let key = char::from_u32(number).unwrap();
                        let found = table.get(&key, Duration::from_secs(60), || Ok(Block(number.into())));
                        assert_eq!(found.unwrap().0, u64::from(number));
                    }
                });
            }
        });
        let (counts, state) = (tried.table.counts(), locked(&tried.table.state));
        assert_eq!(counts.hits + counts.misses + counts.waits, 16_000);
        assert_eq!(counts.bytes_held, state.held.entries.values().map(|it| it.0.0).sum::<u64>());
        assert_eq!(state.held.entries.len(), state.held.order.len());
        assert!(counts.bytes_held <= 2000 && counts.held <= 50 && state.loading.is_empty());
    }
}
