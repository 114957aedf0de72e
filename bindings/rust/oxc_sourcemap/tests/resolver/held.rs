//! What is held, limits, contexts, counts.

use super::*;

#[test]
fn maps_held() {
    let names: Vec<_> = (0..6).map(|it| format!("{it}.js")).collect();
    let store = Counting::new(memory(names.iter().map(|it| (format!("{it}.map"), MAP))));
    let found = limited(Arc::clone(&store), Limits { held_maps: 3, held_missing: 2, ..patient_limits() });
    let asked: Vec<_> = names.iter().map(String::as_str).chain(["5.js", "4.js", "3.js", "0.js"]).collect();
    for name in &asked {
        assert_eq!(found.resolve_frame(Frame::new(*name, 1, 1)).place().as_deref(), A);
    }
    let wanted: Vec<_> = names.iter().map(|it| format!("{it}.map")).chain(["0.js.map".to_string()]).collect();
    assert_eq!(*store.asked.lock().unwrap(), wanted);
    let counts = found.counts();
    assert_eq!((counts.hits, counts.misses, counts.evictions, counts.held), (3, 7, 4, 3));
    assert_eq!((counts.frames, counts.resolved), (10, 10));
    assert_eq!(counts.bytes_held, 3 * (2048 + compiled(MAP, MAP.len(), MAP_HASH).len() as u64));
    found.clear();
    assert_eq!((found.counts().bytes_held, found.counts().held), (0, 0));
}

#[test]
fn maps_in_use_for_a_trace_are_bounded() {
    let names: Vec<_> = (0..70).map(|it| format!("{it}.js")).collect();
    let store = Counting::new(memory(names.iter().map(|it| (format!("{it}.map"), MAP))));
    let found = limited(Arc::clone(&store), Limits { held_maps: 2, ..patient_limits() });
    let trace: String = names.iter().chain([&names[0]]).map(|it| format!("f@{it}:1:1\n")).collect();
    assert_eq!(found.resolve_text(&trace).unwrap(), "f@src/a.ts:1:1\n".repeat(71));
    // (the first one is let go of, and read again)
    assert_eq!(store.asked.lock().unwrap().iter().filter(|it| *it == "0.js.map").count(), 2);
}

#[test]
fn what_is_new_is_seen_once_time_is_over() {
    let (room, now) = (Room::new(), Arc::new(AtomicU64::new(0)));
    let (limits, clock) = (Limits { held_time: Duration::from_secs(5), ..patient_limits() }, Arc::clone(&now));
    let clock = Arc::new(move || Duration::from_secs(clock.load(Ordering::Relaxed)));
    let found = Resolver::new(room.store(), H, Options { limits, clock, ..patient() }).unwrap();
    let places = || ["app.js", "b.js"].map(|it| found.resolve_frame(Frame::new(format!("{H}{it}"), 1, 1)).place());
    assert_eq!(places().each_ref().map(Option::as_deref), [A, None]);
    room.write("dist/app.js.map", OTHER, OLD);
    room.write("dist/b.js.map", MAP, OLD);
    now.store(4, Ordering::Relaxed);
    assert_eq!(places().each_ref().map(Option::as_deref), [A, None]);
    now.store(5, Ordering::Relaxed);
    assert_eq!(places().each_ref().map(Option::as_deref), [C, A]);
    assert_eq!(found.counts().expired, 2);
}

#[test]
fn what_cannot_be_a_resolver() {
    assert!(matches!(Resolver::new(memory([("a", "")]), "http://h/..", patient()), Err(Error::Base(_))));
    assert!(matches!(Resolver::new(memory([("a", "")]), "", beside()), Err(Error::NoFolder)));
    let room = Room::new();
    let cache = Cache::Folder(room.at("dist/app.js/cache"));
    let made = Resolver::new(room.store(), "", Options { cache, ..patient() });
    assert!(made.unwrap_err().to_string().starts_with("the folder for compiled maps: "));
}

#[test]
fn bytes_of_a_trace() {
    let found = limited(memory([("a", "")]), Limits { trace_bytes: 8, ..patient_limits() });
    assert_eq!(found.resolve_text("üüüü").unwrap(), "üüüü");
    let errors = [found.resolve_text("üüüüx").unwrap_err(), found.resolve_bytes(b"123456789").unwrap_err()];
    for error in errors.into_iter().chain([found.resolve_line("üüüüx").unwrap_err()]) {
        assert!(matches!(error, Error::TooLarge { length: 9, limit: 8 }), "{error}");
    }
    assert_eq!((found.counts().traces, found.counts().traces_refused), (1, 2));
}

#[test]
fn a_line_of_a_megabyte() {
    let found =
        limited(memory([("app.js.map", MAP)]), Limits { trace_bytes: 4 << 20, frames: 50_000, ..patient_limits() });
    let frames = "at app.js:1:14 (at app.js:1:14)".repeat((1 << 20) / 31);
    let text = found.resolve_line(&frames).unwrap();
    assert_eq!(text.matches("src/a.ts:2:3").count() as u64, found.counts().resolved);
    assert!(found.counts().resolved > 30_000);
    let long = format!("f@{}app.js:1:14\nf@app.js:1:14", "a/".repeat(1 << 19));
    assert_eq!(found.resolve_text(&long).unwrap(), long.replace("\nf@app.js:1:14", "\nf@src/a.ts:2:3"));
}

#[test]
fn frames_of_a_trace() {
    let found = limited(memory([("app.js.map", MAP)]), Limits { frames: 2, ..patient_limits() });
    let text = found.resolve_text(&"f@app.js:1:1\n".repeat(4)).unwrap();
    assert_eq!(text, "f@src/a.ts:1:1\n".repeat(2) + &"f@app.js:1:1\n".repeat(2));
    let counts = found.counts();
    assert_eq!((counts.frames, counts.resolved, counts.not_resolved(Reason::Frames), counts.misses), (4, 2, 2, 1));
    let frames = found.resolve((1..4).map(|it| Frame::new("app.js", it, 1)));
    assert_eq!(frames.iter().map(Resolved::reason).collect::<Vec<_>>(), [None, None, Some(Reason::Frames)]);
    assert_eq!(why(frames[2].clone()), "frames: the trace has more than 2 frames");
}

#[test]
fn time_of_a_trace() {
    let now = Arc::new(AtomicU64::new(0));
    let clock = Arc::clone(&now);
    let store = By(move |_: &str| {
        now.fetch_add(3, Ordering::Relaxed);
        Ok(Some(MAP.into()))
    });
    let (limits, clock) = (Limits { time: Duration::from_secs(5), ..patient_limits() }, clock);
    let clock = Arc::new(move || Duration::from_secs(clock.load(Ordering::Relaxed)));
    let found = Resolver::new(store, "", Options { limits, beside_first: true, clock, ..patient() }).unwrap();
    let trace = found.resolve_trace("f@a.js:1:1\nf@b.js:1:1\nf@c.js:1:1\nf@a.js:1:1", &HashMap::new()).unwrap();
    let (reasons, late): (Vec<_>, _) = (trace.iter().map(Resolved::reason).collect(), Some(Reason::Time));
    assert_eq!(reasons, [None, None, late, late]);
    assert_eq!(why(trace[2].clone()), "time: the trace took longer than 5s");
    assert_eq!(found.resolve_text("f@a.js:1:1").unwrap(), "f@src/a.ts:1:1");
}

#[test]
fn a_store_that_fails_is_asked_again() {
    let fails = Arc::new(AtomicBool::new(true));
    let is_failing = Arc::clone(&fails);
    let store = By(move |name: &str| match name {
        _ if is_failing.load(Ordering::Relaxed) => Err(io::Error::other("it failed")),
        "app.js.map" => Ok(Some(MAP.into())),
        _ => Ok(None),
    });
    let found = resolver(store, "");
    let frame = || found.resolve_frame(Frame::new("app.js", 1, 1));
    assert_eq!((why(frame()), why(frame())), ("store: it failed".to_string(), "store: it failed".to_string()));
    assert_eq!((found.counts().missing_held, found.counts().not_resolved(Reason::Store)), (0, 2));
    fails.store(false, Ordering::Relaxed);
    assert_eq!(frame().place().as_deref(), A);
}

#[test]
fn contexts() {
    let value = MAP.replace("3,", r#"3,"sourcesContent":["one\ntwo\nthree",null],"#);
    let store = Counting::new(memory([("app.js.map", &value)]));
    let found = resolver(Arc::clone(&store), "");
    let of = |line, column| found.resolve_frame(Frame::new("app.js", line, column));
    let frame = of(1, 14);
    let context = found.context(&frame, 1).unwrap();
    assert_eq!((context.first, context.line, context.lines.join("|").as_str()), (0, 1, "one|two|three"));
    assert_eq!(found.context(&frame, 0).unwrap().lines, ["two"]);
    assert_eq!(found.context(&of(2, 1), 1), None);
    assert_eq!(found.context(&found.resolve_frame(Frame::new("no.js", 1, 1)), 1), None);
    assert_eq!(found.counts().context_bytes_held, 13 + 16 * 3);
    // Another map in its place.
    let other = value.replace("a.ts", "c.ts").into_bytes();
    store.files.lock().unwrap().insert("app.js.map".into(), other);
    found.clear();
    assert_eq!((found.context(&frame, 1), found.counts().context_bytes_held), (None, 0));
}

#[test]
fn counts_as_text() {
    let found = resolver(memory([("app.js.map", MAP)]), "");
    found.resolve_text("f@app.js:1:1\nf@app.js:3:1\nf@b.js:1:1").unwrap();
    let (counts, text) = (found.counts(), found.counts().prometheus());
    for it in [
        "# HELP resolver_frames_total Frames, resolved or not.\n# TYPE resolver_frames_total counter\nresolver_frames_total 3\n",
        "# HELP resolver_held Compiled maps that are held.\n# TYPE resolver_held gauge\nresolver_held 1\n",
        "# TYPE resolver_not_resolved_total counter\nresolver_not_resolved_total{reason=\"outside\"} 0\n",
        "\nresolver_not_resolved_total{reason=\"not there\"} 1\n",
        "\nresolver_not_resolved_total{reason=\"nothing\"} 1\n",
        "\nresolver_traces_total 1\n",
        "\nresolver_resolved_total 1\n",
    ] {
        assert!(text.contains(it), "{it} {text}");
    }
    // Of each name the samples stand together, below a line that says what it is, and one with its type.
    let families: Vec<_> = text.split("# HELP ").skip(1).map(family).collect();
    let samples: Vec<_> = families.iter().map(|it| it.1.len()).collect();
    assert_eq!((samples.len(), samples.iter().sum::<usize>()), (20, 32));
    let (name, missing) = families.last().unwrap();
    assert_eq!((*name, missing.iter().sum::<u64>() + counts.resolved), ("resolver_not_resolved_total", counts.frames));
}

/// The name of a family of counts, and its samples.
fn family(text: &str) -> (&str, Vec<u64>) {
    let mut lines = text.lines();
    let name = lines.next().unwrap().split_once(' ').unwrap().0;
    let kind = if name.ends_with("_total") { "counter" } else { "gauge" };
    assert_eq!(lines.next().unwrap(), format!("# TYPE {name} {kind}"));
    let samples = lines.map(|it| it.strip_prefix(name).and_then(|it| it.rsplit_once(' ')).unwrap().1);
    (name, samples.map(|it| it.parse().unwrap()).collect())
}

#[test]
fn the_example_of_the_document() -> Result<(), Box<dyn std::error::Error>> {
    let text = fs::read_to_string(at("docs/resolving-at-scale.md"))?;
    let code = text.split("```rust\n").nth(1).and_then(|it| it.split("```").next()).unwrap();
    for line in code.lines().skip(1) {
        assert!(include_str!("held.rs").contains(&line.replace("\"dist\"", "&dist")), "{line}");
    }
    let (room, wanted) = (Room::new(), "    at t (src/a.ts:2:3)");
    let dist = room.at("dist");
    let options = Options { cache: Cache::Beside, ..Options::default() };
    let resolver = Resolver::new(FolderStore::new(&dist)?, "https://example.com/static/", options)?;
    println!("{}", resolver.resolve_text("    at t (https://example.com/static/app.js:1:14)")?);
    assert_eq!(resolver.resolve_text("    at t (https://example.com/static/app.js:1:14)")?, wanted);
    Ok(())
}
