//! The frames of lines.

use super::*;

/// The texts of a line of JSON that has no numbers: keys and values in turn.
fn texts_of(line: &str) -> Vec<String> {
    let (mut found, mut open, mut chars) = (Vec::new(), None::<String>, line.chars());
    while let Some(it) = chars.next() {
        match (it, &mut open) {
            ('"', None) => open = Some(String::new()),
            ('"', Some(_)) => found.extend(open.take()),
            ('\\', Some(text)) => match chars.next().unwrap() {
                'n' => text.push('\n'),
                't' => text.push('\t'),
                'u' => {
                    let code: String = chars.by_ref().take(4).collect();
                    text.push(char::from_u32(u32::from_str_radix(&code, 16).unwrap()).unwrap());
                }
                other => text.push(other),
            },
            (it, Some(text)) => text.push(it),
            (_, None) => {}
        }
    }
    found
}

/// The rows of tests/sourcemap/frames.json without words for the program: the engine, the line and what is wanted of it.
fn stored_rows() -> Vec<HashMap<String, String>> {
    let text = fs::read_to_string(at("tests/sourcemap/frames.json")).unwrap();
    let lines = text.lines().filter(|it| it.trim_start().starts_with('{') && !it.contains("\"words\":"));
    let pairs = |line| texts_of(line).chunks_exact(2).map(|it| (it[0].clone(), it[1].clone())).collect();
    lines.map(pairs).collect()
}

#[test]
fn forms_that_the_program_has() {
    // (colour codes, strings, React's and escaped URLs that climb are the program's alone, as is that it looks for folders)
    let alone = ["\x1b", "\"", "'", "rsc:", "about:", "..", "%2e", "other/", "my%20", "quote"];
    let mut rows = stored_rows();
    rows.retain(|row| !alone.iter().any(|it| row["line"].contains(it)));
    assert!(rows.len() > 90, "{}", rows.len());
    let codes = ["app.js", "(group)/app.js", "node_modules/@scope/app.js", "@vite/app.js", "index.android.bundle"];
    let plain = MAP.replace(r#"["run"]"#, "[]").replace("AACEA", "AACE");
    let hosts = ["http://localhost:8080", "https://example.com", "http://h", "https://h", "chrome-extension://abcdef"];
    let folders = ["moz-extension://abcdef", "/srv/build/dist", "/Users/me/dist", "C:\\build\\dist", ""];
    let bases: Bases = hosts.iter().chain(&folders).map(|it| (*it, "")).collect();
    let found = resolver(memory(codes.map(|it| (format!("{it}.map"), &plain))), bases);
    for row in rows {
        // (that a position is past the end of the code is found by the program alone)
        if !row.get("why").is_some_and(|it| it.contains("past the end")) {
            let (line, wanted) = (&row["line"], &row["wanted"]);
            assert_eq!(found.resolve_text(line).unwrap(), *wanted, "{}", row["engine"]);
            assert_eq!(found.resolve_line(line).unwrap(), *wanted, "{}", row["engine"]);
            assert_eq!(found.resolve_bytes(line.as_bytes()).unwrap(), wanted.as_bytes(), "{}", row["engine"]);
        }
    }
}

#[test]
fn lines_with_other_brackets_and_words() {
    // (what `sourcemap resolve` makes of them)
    let rows = [
        ("loaded (app.js:1:14)", "loaded (app.js:1:14)"),
        ("what (app.js:1:14)", "what (app.js:1:14)"),
        ("Started at noon:30:15", "Started at noon:30:15"),
        ("    at f (g( (app.js:1:14)", "    at f (g( (src/a.ts:2:3)"),
        ("    at f (g( ((group)/app.js:1:14)", "    at f (g( (src/a.ts:2:3)"),
        ("x at f (a (b) c (app.js:1:14)", "x at f (a (b) c (src/a.ts:2:3)"),
        ("at app.js:1:14, app.js:2:1", "at src/a.ts:2:3, app.js:2:1"),
        ("at f (app.js:1:14) app.js:2:1)", "at f (src/a.ts:2:3) app.js:2:1)"),
    ];
    let found = resolver(memory([("app.js.map", MAP), ("(group)/app.js.map", MAP)]), "");
    for (line, wanted) in rows {
        assert_eq!(found.resolve_text(line).unwrap(), wanted);
    }
    let apart: String = rows.iter().map(|it| found.resolve_line(it.0).unwrap() + "\n").collect();
    assert_eq!(found.resolve_text(&rows.map(|it| it.0.to_string() + "\n").concat()).unwrap(), apart);
    assert_eq!(frames_in("loaded (app.js:1:14)").chain(frames_in("Started at noon:30:15")).count(), 0);
}

#[test]
fn numbers_of_frames() {
    let numbers = |text| frames_in(text).map(|it| (it.line, it.column)).collect::<Vec<_>>();
    assert_eq!(numbers("f@a.js:9999999999:9999999999"), [(9_999_999_999, 9_999_999_999)]);
    assert_eq!(numbers("f@a.js:1:10000000000"), []);
    assert_eq!(numbers("f@a.js:10000000000:1"), []);
    assert_eq!(numbers("f@a.js:1:2:3"), [(2, 3)]);
    assert_eq!(numbers("f@a.js:1:2:"), []);
    assert_eq!(numbers("f@a.js:1:2\u{a0}"), [(1, 2)]);
    assert_eq!(numbers("f@a.js:1:2é"), []);
    assert_eq!(numbers("at f (address at a.bundle:1:130)"), [(1, 131)]);
    let long = |length| format!("f@{}.js:1:1", "a".repeat(length - 3));
    assert_eq!((numbers(&long(MOST_URL)).len(), numbers(&long(MOST_URL + 1)).len()), (1, 0));
}

#[test]
fn frames_lie_apart() {
    let parts = ["at ", "(", ")", " ", "a.js:1:1", "f", ":2:3", "@", "h://", "\n", "❯ ", ",", "{", "é", "\u{a0}"];
    let mut chosen = Chosen(1);
    for round in 0..40_000 {
        let few = if round % 2 == 0 { 5 } else { parts.len() };
        let text: String = (0..10).map(|_| parts[chosen.below(few)]).collect();
        let mut last = 0;
        for it in frames_in(&text) {
            assert!(last <= it.span.start, "{text:?}");
            assert_eq!(text[it.span.clone()], format!("{}:{}:{}", it.url, it.line, it.column));
            last = it.span.end;
        }
    }
}

#[test]
fn bytes_that_stay() {
    let found = resolver(memory([("app.js.map", MAP)]), H);
    let trace = b"\xff\xfe\r\n    at \xc3\xbc (http://h/app.js:1:14)\r\nf@http://h/app.js:2:1\r\n\0\n\xc3";
    let wanted = b"\xff\xfe\r\n    at \xc3\xbc (src/a.ts:2:3)\r\nf@src/b.ts:5:1\r\n\0\n\xc3";
    assert_eq!(found.resolve_bytes(trace).unwrap(), wanted);
    let odd = b"f@http://h/\xffapp.js:1:1";
    assert_eq!(found.resolve_bytes(odd).unwrap(), odd);
    assert_eq!((found.counts().not_resolved(Reason::Refused), found.counts().frames), (1, 3));
}

#[test]
fn sources_that_would_forge_a_trace() {
    let map = r#"{"version":3,"sources":["a\"\n\u202e\u009b\\.ts"],"names":[],"mappings":"AAAA"}"#;
    let text = resolver(memory([("app.js.map", map)]), "").resolve_text("f@app.js:1:1").unwrap();
    assert_eq!(text, r#"f@"a\"\n\u202e\u009b\\.ts":1:1"#);
    let each =
        [("\"", "\\\""), ("\x7f", "\\u007f"), ("\u{61c}", "\\u061c"), ("\u{2069}", "\\u2069"), ("\u{85}", "\\u0085")];
    for (odd, wanted) in each {
        let map = r#"{"version":3,"sources":["ODD"],"names":[],"mappings":"AAAA"}"#;
        let map = map.replace("ODD", if odd == "\"" { "\\\"" } else { odd });
        let text = resolver(memory([("app.js.map", map)]), "").resolve_text("f@app.js:1:1").unwrap();
        assert_eq!(text, format!("f@\"{wanted}\":1:1"));
    }
    let plain = resolver(memory([("app.js.map", MAP.replace("a.ts", "é\\\\ \u{200c}.ts"))]), "");
    assert_eq!(plain.resolve_text("f@app.js:1:1").unwrap(), "f@src/é\\ \u{200c}.ts:1:1");
}

/// The time that this thread ran, where the system tells it, or else any time that went by.
fn used(start: Instant) -> Duration {
    let told = fs::read_to_string("/proc/thread-self/schedstat").ok();
    let ran = told.and_then(|it| it.split(' ').next()?.parse().ok());
    ran.map_or(start.elapsed(), Duration::from_nanos)
}

#[test]
fn time_is_linear() {
    let bad = [
        ":1:1",
        "(:1:1)",
        "at (",
        "at a:1:1 ",
        ") at x(",
        "@",
        "     :1:1",
        "f@:/",
        "((((:1:1",
        "{ :1:1",
        "at x (a.js:1:1) ",
        "❯ a:1:1 ",
        "a:1:1x",
        "1:1:",
        "(:1:1x",
    ];
    for part in bad {
        let (text, spaces) = (part.repeat(400_000 / part.len()), " ".repeat(400_000));
        let (start, before) = (Instant::now(), used(Instant::now()));
        let _ = frames_in(&text).count();
        let _ = frames_in(&format!("{text}\n{spaces}:1:1{{{spaces}x")).count();
        assert!(used(start) - before < Duration::from_secs(20), "{part}");
    }
}

#[test]
fn columns_and_lines_count_from_1() {
    let found = resolver(memory([("app.js.map", MAP)]), H);
    let frame = |line, column| found.resolve_frame(Frame::new("http://h/app.js", line, column));
    let places = [1, 13, 14].map(|it| frame(1, it).place().unwrap());
    assert_eq!(places, ["src/a.ts:1:1", "src/a.ts:1:1", "src/a.ts:2:3"]);
    let origin = frame(1, 14).original.unwrap();
    assert_eq!((origin.source.as_str(), origin.line, origin.column), ("src/a.ts", 1, 2));
    assert_eq!((origin.name.as_deref(), origin.source_id), (Some("run"), 0));
    let reasons = [(0, 1), (1, 0), (1 << 32, 1), (1, 1 << 32), (3, 1), (2, 5)].map(|it| frame(it.0, it.1).reason());
    let position = Some(Reason::Position);
    assert_eq!(reasons[..4], [position; 4]);
    assert_eq!(reasons[4..], [Some(Reason::Nothing), Some(Reason::Unmapped)]);
    assert_eq!(why(frame(0, 1)), "position: lines and columns of frames are numbers from 1 to 4294967295");
    assert_eq!(why(frame(3, 1)), "nothing: app.js.map has no mapping in the line up to this column");
    assert_eq!(why(frame(2, 5)), "unmapped: the mapping in app.js.map has no source");
    assert_eq!(frame(1, (1 << 32) - 1).place().as_deref(), Some("src/a.ts:2:3"));
    assert_eq!(frame(3, 1).map.as_deref(), Some("app.js.map"));
}
