//! How the map of a code is found, and what is refused.

use super::*;

#[test]
fn urls() {
    let room = Room::new();
    let bases = Bases::from([(H, ""), ("http://h/v2/", "dist"), ("/srv/app", "dist"), ("C:\\app", "dist")]);
    let found = resolver(FolderStore::new(&room.0).unwrap(), bases);
    let reason = |url: &str| found.resolve_frame(Frame::new(url, 2, 1));
    let inside = ["dist/app.js", "v2//./app.js?x=1:2#y", "v2/%61pp.js"].map(|it| format!("{H}{it}"));
    let files = ["http://H/dist/app.js", "file:///srv/app/app.js", "/srv/app/app.js", "C:/app/app.js"];
    for url in inside.iter().map(String::as_str).chain(files) {
        assert_eq!(reason(url).place().as_deref(), Some("src/b.ts:5:1"), "{url}");
    }
    let out = ["http://g/dist/app.js", "https://h/dist/app.js", "/srv/ap/app.js", "/srv/apps/app.js", "dist/app.js"];
    for url in out.into_iter().chain(["http://h:80/dist/app.js", "http://h"]) {
        assert_eq!(reason(url).reason(), Some(Reason::Outside), "{url}");
    }
    assert_eq!(why(reason("http://h/v2/b.js")), "not there: there is no dist/b.js, and no dist/b.js.map");
}

#[cfg(unix)]
#[test]
fn what_leads_out_is_refused() {
    use std::os::unix::fs::symlink;
    let room = Room::new();
    room.write("distant.js.map", MAP, OLD);
    room.write("secret/a.js.map", MAP, OLD);
    let links = [
        ("out.js.map", "../distant.js.map"),
        ("gone", "../secret"),
        ("loop.js.map", "loop.js.map"),
        ("in.js.map", "app.js.map"),
        ("self", "."),
        ("root", "/"),
    ];
    links.iter().for_each(|it| symlink(it.1, room.at("dist").join(it.0)).unwrap());
    let made = std::process::Command::new("mkfifo").arg(room.at("dist/pipe.js.map")).status().unwrap();
    assert!(made.success());
    let found = Resolver::new(room.store(), H, beside()).unwrap();
    let of = |name: &str| found.resolve_frame(Frame::new(format!("{H}{name}"), 1, 1));
    let root = format!("root{}/distant.js", room.0.display());
    let long = "abc/".repeat(300) + "a.js";
    let parts = ["..", "%2e%2e", ".%2E"].map(|it| format!("{it}/distant.js"));
    let odd = ["..%2fdistant.js", "x/../../distant.js", "a%00.js", "a%0a.js", "a%ff.js", "a\\b.js", "%2fetc/passwd.js"];
    let paths = parts.iter().map(String::as_str).chain(odd).chain(["out.js", "gone/a.js", &root, &long]);
    for name in paths.chain([("a".repeat(256) + ".js").as_str()]) {
        assert_eq!(of(name).reason(), Some(Reason::Refused), "{name}");
    }
    assert_eq!(of("loop.js").reason(), Some(Reason::Store));
    assert_eq!(of("pipe.js").reason(), Some(Reason::NotThere));
    for name in ["in.js", "self/in.js"] {
        assert_eq!(of(name).place().as_deref(), Some("src/a.ts:1:1"));
    }
    assert_eq!(room.names("."), ["dist", "distant.js.map", "secret"]);
    assert_eq!(room.names("secret"), ["a.js.map"]);
    for name in ["../distant.js.map", "/etc/passwd", "a//b", "./a", "", "out.js.map", "gone/a.js.map", "a\0"] {
        assert_eq!(room.store().get(name).unwrap_err().kind(), io::ErrorKind::InvalidInput, "{name}");
    }
    assert_eq!(room.store().get("app.js.map/x").unwrap(), None);
    assert_eq!(FolderStore::new(room.at("dist/app.js")).unwrap_err().kind(), io::ErrorKind::NotADirectory);
}

#[test]
fn comments() {
    let place = |url: &[u8], beside_first: bool| {
        let code = [b"//# sourceMappingURL=", url].concat();
        let files = [("a/c.js", code), ("maps/c.map", MAP.into()), ("a/c.js.map", OTHER.into())];
        let options = Options { beside_first, ..patient() };
        let found = Resolver::new(memory(files), [("http://h/x", "")], options).unwrap();
        let found = found.resolve_frame(Frame::new("http://h/x/a/c.js", 1, 1));
        found.place().ok_or(found.reason())
    };
    let data = MAP.replace('{', "%7B").replace('"', "%22");
    let data = format!("data:application/json,{data}");
    let named =
        ["../maps/c.map", "http://h/x/maps/c.map", "/x/maps/c.map", "//h/x/maps/c.map?v=1", "./..//maps/%63.map#x"];
    for url in named.into_iter().chain([data.as_str()]) {
        assert_eq!(place(url.as_bytes(), false).as_deref(), Ok("src/a.ts:1:1"), "{url}");
    }
    for url in [&b"../maps/d.map"[..], b"http://g/x/maps/c.map", b"/maps/c.map", b"http://[", b"\xff", b"."] {
        assert_eq!(place(url, false).as_deref(), Ok("src/c.ts:1:1"), "{url:?}");
    }
    assert_eq!(place(b"../../maps/c.map", false), Err(Some(Reason::Refused)));
    assert_eq!(place(b"data:application/json,{", false), Err(Some(Reason::BadMap)));
    assert_eq!(place(b"../maps/c.map", true).as_deref(), Ok("src/c.ts:1:1"));
}

#[test]
fn why_not() {
    let bad = r#"{"version":3,"sources":[],"mappings":"A;A,AA"}"#;
    let files =
        [("a.js", String::new()), ("b.js.map", bad.into()), ("c.js", " ".repeat(99)), ("d.js.map", " ".repeat(200))];
    let limits = Limits { code_bytes: 98, map_bytes: 199, ..patient_limits() };
    let options = Options { limits, ..patient() };
    let found = Resolver::new(memory(files), "", options.clone()).unwrap();
    let reasons = [
        ("a.js", "no map: a.js names no map that is there, and there is no a.js.map"),
        ("b.js", "bad map: b.js.map: Mapping segment had an unsupported size of 2, at line 1, segment 1 (byte 4)"),
        ("c.js", "too large: c.js has 99 bytes, and the limit is 98"),
        ("d.js", "too large: d.js.map has 200 bytes, and the limit is 199"),
        ("e.js", "not there: there is no e.js, and no e.js.map"),
    ];
    for (name, wanted) in reasons {
        assert_eq!(why(found.resolve_frame(Frame::new(name, 1, 1))), wanted);
    }
    let counts = found.counts();
    let reasons = [Reason::NoMap, Reason::BadMap, Reason::TooLarge, Reason::NotThere].map(|it| counts.not_resolved(it));
    assert_eq!((reasons, counts.missing_held, counts.misses), ([1, 1, 2, 1], 5, 5));
    let url = format!("//# sourceMappingURL=data:application/json,{}", "%20".repeat(20));
    let limits = Limits { map_bytes: 19, ..patient_limits() };
    let inline = Resolver::new(memory([("a.js", url)]), "", Options { limits, ..patient() }).unwrap();
    let wanted = "too large: the map in a.js has 20 bytes, and the limit is 19";
    assert_eq!(why(inline.resolve_frame(Frame::new("a.js", 1, 1))), wanted);
    let room = Room::new();
    room.write("dist/d.js.map", " ".repeat(200), OLD);
    room.write("dist/c.js", " ".repeat(99), OLD);
    let folder = Resolver::new(room.store(), "", options).unwrap();
    assert_eq!(
        why(folder.resolve_frame(Frame::new("d.js", 1, 1))),
        "too large: d.js.map has 200 bytes, and the limit is 199"
    );
    assert_eq!(
        why(folder.resolve_frame(Frame::new("c.js", 1, 1))),
        "too large: c.js has 99 bytes, and the limit is 98"
    );
}

#[cfg(unix)]
#[test]
fn errors_of_folders_name_them() {
    let room = Room::new();
    let said = |name: &str| FolderStore::new(room.at(name)).unwrap_err().to_string();
    let of = |name: &str, words: &str| format!("{}: {words}", room.at(name).display());
    assert_eq!(said("none"), of("none", "No such file or directory (os error 2)"));
    assert_eq!(said("dist/app.js"), of("dist/app.js", "not a directory"));
    let options = Options { cache: Cache::Folder(room.at("dist/app.js")), ..patient() };
    let error = Resolver::new(room.store(), "", options).unwrap_err().to_string();
    assert_eq!(error, format!("the folder for compiled maps: {}", of("dist/app.js", "File exists (os error 17)")));
    std::os::unix::fs::symlink("turns.js", room.at("dist/turns.js")).unwrap();
    let wanted = "turns.js: Too many levels of symbolic links (os error 40)";
    assert_eq!(room.store().get("turns.js").unwrap_err().to_string(), wanted);
    let found = resolver(room.store(), "").resolve_frame(Frame::new("turns.js", 1, 1));
    assert_eq!(why(found), format!("store: {wanted}"));
}

#[test]
fn debug_ids() {
    let (one, two) = ("85314830-023f-4cf1-a267-535f4e37bb17", "00000000-0000-4000-8000-000000000000");
    let named = MAP.replace("3,", &format!("3,\"debugId\":\"{}\",", one.to_uppercase()));
    let files = [(format!("ids/{one}.map"), named.as_str()), ("b.js.map".into(), &named), ("c.js.map".into(), OTHER)];
    let options = Options { debug_id_name: "ids/{}.map".into(), ..patient() };
    let found = Resolver::new(memory(files), H, options).unwrap();
    let of = |url: &str, id: &str| found.resolve_frame(Frame::new(url, 1, 1).with_debug_id(id));
    assert_eq!(of("https://cdn/x.js", &one.replace('-', "")).place().as_deref(), Some("src/a.ts:1:1"));
    assert_eq!(of("https://cdn/x.js", two).reason(), Some(Reason::Outside));
    assert_eq!(of("http://h/../x.js", one).place().as_deref(), Some("src/a.ts:1:1"));
    let ids = HashMap::from([("http://h/b.js".to_string(), one.to_string())]);
    let trace = found.resolve_trace("f@http://h/b.js:1:1", &ids).unwrap();
    assert_eq!((trace[0].map.as_deref(), trace.len()), (Some(format!("ids/{one}.map").as_str()), 1));
    assert_eq!(of("http://h/b.js", two).reason(), Some(Reason::OtherBuild));
    assert_eq!(of("http://h/b.js", "").place().as_deref(), Some("src/a.ts:1:1"));
    assert_eq!(of("http://h/c.js", two).place().as_deref(), Some("src/c.ts:1:1"));
    assert_eq!(of("http://h/c.js", "../x").reason(), Some(Reason::Refused));
}
