//! Threads that share a resolver.

use super::*;

#[test]
fn resolvers_are_send_and_sync() {
    fn is_shared<T: Send + Sync>() {}
    is_shared::<Resolver>();
    is_shared::<Error>();
    is_shared::<Resolved>();
}

/// A map whose source has its number, and a trace of random frames in eight such maps.
fn numbered(number: usize) -> String {
    MAP.replace("a.ts", &format!("a{number}.ts"))
}

fn random_trace(chosen: &mut Chosen, maps: usize) -> String {
    let frame = |chosen: &mut Chosen| (chosen.below(maps + 1), chosen.below(4), chosen.below(20));
    let frames = (0..40).map(|_| frame(chosen));
    frames.map(|(map, line, column)| format!("    at f (http://h/{map}.js:{line}:{column})\n")).collect()
}

#[test]
fn eight_threads_share_a_resolver_that_holds_little() {
    let room = Room::new();
    (0..12).for_each(|it| room.write(&format!("dist/{it}.js.map"), numbered(it), OLD));
    let mut chosen = Chosen(7);
    let traces: Vec<_> = (0..50).map(|_| random_trace(&mut chosen, 12)).collect();
    let one = resolver(room.store(), H);
    let wanted: Vec<_> = traces.iter().map(|it| one.resolve_text(it).unwrap()).collect();
    assert!(wanted.iter().all(|it| it.contains("src/a")));
    let size = 2048 + compiled(&numbered(1), 0, MAP_HASH).len() as u64;
    let limits = Limits { held_bytes: 3 * size + size / 2, held_missing: 1, ..patient_limits() };
    let found = Resolver::new(room.store(), H, Options { limits, ..beside() }).unwrap();
    thread::scope(|scope| {
        for seed in 0..8 {
            let (found, traces, wanted) = (&found, &traces, &wanted);
            scope.spawn(move || {
                for round in 0..100 {
                    let at = (round * 7 + seed * 13) % traces.len();
                    assert_eq!(found.resolve_text(&traces[at]).unwrap(), wanted[at]);
                    assert!(found.counts().bytes_held <= 3 * size + size / 2);
                }
            });
        }
    });
    let counts = found.counts();
    let (sum, one) = (one.counts(), counts.clone());
    assert_eq!((one.traces, one.frames, counts.held), (800, 32_000, 3));
    assert_eq!(one.resolved * sum.frames, sum.resolved * one.frames);
    assert!(
        one.evictions > 100 && one.compiled_made >= 12 && one.compiled_damaged + one.compiled_stale == 0,
        "{one:?}"
    );
}

#[test]
fn threads_read_a_map_once() {
    let names: Vec<_> = (0..8).map(|it| format!("{it}.js")).collect();
    let store = Counting::new(memory(names.iter().map(|it| (format!("{it}.map"), MAP))));
    let found = limited(Arc::clone(&store), patient_limits());
    let trace: String = names.iter().map(|it| format!("f@{it}:1:14\ng@{it}:2:1\n")).collect();
    let wanted = "f@src/a.ts:2:3\ng@src/b.ts:5:1\n".repeat(8);
    thread::scope(|scope| {
        for _ in 0..6 {
            scope.spawn(|| (0..50).for_each(|_| assert_eq!(found.resolve_text(&trace).unwrap(), wanted)));
        }
    });
    let mut asked = store.asked.lock().unwrap().clone();
    asked.sort();
    assert_eq!(asked, names.iter().map(|it| format!("{it}.map")).collect::<Vec<_>>());
    let counts = found.counts();
    assert_eq!((counts.frames, counts.resolved, counts.traces), (4800, 4800, 300));
    // (each trace asks once for each code)
    assert_eq!((counts.hits + counts.misses + counts.waits, counts.misses), (2400, 8));
}

/// A gate that threads wait at until it is opened.
#[derive(Default)]
struct Gate(Mutex<bool>, Condvar);

impl Gate {
    fn open(&self) {
        *self.0.lock().unwrap() = true;
        self.1.notify_all();
    }

    fn pass(&self) {
        let waited = self.1.wait_timeout_while(self.0.lock().unwrap(), Duration::from_secs(60), |it| !*it).unwrap();
        assert!(!waited.1.timed_out());
    }
}

#[test]
fn a_slow_map_does_not_stop_others() {
    let (inside, go) = (Arc::new(Gate::default()), Arc::new(Gate::default()));
    let (entered, leave) = (Arc::clone(&inside), Arc::clone(&go));
    let store = By(move |name: &str| {
        if name == "slow.js.map" {
            entered.open();
            leave.pass();
        }
        Ok(Some(MAP.into()))
    });
    let found = limited(store, Limits { time: Duration::from_secs(2), ..patient_limits() });
    let frame = |name: &str| found.resolve_frame(Frame::new(name, 1, 1));
    thread::scope(|scope| {
        let slow = scope.spawn(|| frame("slow.js"));
        inside.pass();
        // (one that is held, one that is not, and all that is counted)
        assert_eq!(frame("a.js").place().as_deref(), A);
        assert_eq!(frame("b.js").place().as_deref(), A);
        assert_eq!(frame("a.js").place().as_deref(), A);
        assert_eq!(why(frame("slow.js")), "time: another thread still reads the map");
        assert_eq!((found.counts().misses, found.counts().waits, found.counts().held), (3, 1, 2));
        go.open();
        assert_eq!(slow.join().unwrap().place().as_deref(), A);
    });
    assert_eq!(frame("slow.js").place().as_deref(), A);
    assert_eq!(found.counts().misses, 3);
}

#[test]
fn a_store_that_panics_stops_nobody() {
    let calls = Arc::new(AtomicUsize::new(0));
    let counted = Arc::clone(&calls);
    let store = By(move |_: &str| {
        assert!(counted.fetch_add(1, Ordering::Relaxed) > 0, "the first call of a test that wants it");
        Ok(Some(MAP.into()))
    });
    let found = limited(store, patient_limits());
    let frame = || found.resolve_frame(Frame::new("app.js", 1, 1));
    thread::scope(|scope| assert!(scope.spawn(frame).join().is_err()));
    assert_eq!(frame().place().as_deref(), A);
    assert_eq!(calls.load(Ordering::Relaxed), 2);
}

#[test]
fn a_compiled_map_says_what_its_map_says() {
    let room = Room::new();
    room.place(beside());
    let bytes = fs::read(room.at("dist/app.js.map.smc")).unwrap();
    let map = CompiledMap::open(&bytes).unwrap();
    assert_eq!((map.text_length(), map.get_source(1)), (MAP.len() as u64, Some("b.ts")));
}
