//! Compiled maps: which are taken, and where they are kept.

use super::*;

fn told(found: &(Option<String>, [u64; 4])) -> (Option<&str>, [u64; 4]) {
    (found.0.as_deref(), found.1)
}

#[test]
fn compiled_once_beside_the_map() {
    let room = Room::new();
    assert_eq!(told(&room.place(beside())), (A, [0, 0, 0, 1]));
    assert_eq!(fs::read(room.at("dist/app.js.map.smc")).unwrap(), compiled(MAP, MAP.len(), MAP_HASH));
    assert_eq!(told(&room.place(beside())), (A, [1, 0, 0, 0]));
    assert_eq!(told(&room.place(patient())), (A, [1, 0, 0, 0]));
    assert_eq!(room.names("dist"), ["app.js", "app.js.map", "app.js.map.smc"]);
    let modes = ["dist/app.js.map", "dist/app.js.map.smc"].map(|it| fs::metadata(room.at(it)).unwrap().permissions());
    assert_eq!(modes[0], modes[1]);
}

#[test]
fn which_is_taken() {
    let room = Room::new();
    let (own, other) = (compiled(OTHER, MAP.len(), MAP_HASH), compiled(OTHER, OTHER.len(), OTHER_HASH));
    let longer = compiled(OTHER, MAP.len() + 1, LONGER_HASH);
    let (used, remade, damaged) = ((C, [1, 0, 0, 0]), (A, [0, 1, 0, 1]), (A, [0, 0, 1, 1]));
    let rows: [(&[u8], i64, bool, _); 11] = [
        // (of a map of this text, written so many seconds after the map: taken by its time, or its hash)
        (&other, 0, false, used),
        (&own, 9, false, used),
        (&own, -9, false, used),
        (&other, 9, false, used),
        (&other, -9, false, remade),
        (&other, 9, true, remade),
        (&own, 9, true, used),
        (&longer, 9, false, remade),
        (&own[..own.len() - 1], 9, false, damaged),
        (&own[..9], 9, false, damaged),
        (b"", 9, false, damaged),
    ];
    for (data, later, always_hashes, wanted) in rows {
        room.write("dist/app.js.map.smc", data, OLD.wrapping_add_signed(later));
        let found = room.place(Options { always_hashes, ..patient() });
        assert_eq!(told(&found), wanted, "{later} {always_hashes}");
    }
}

#[test]
fn one_that_is_told_by_its_hash_gets_the_time_of_its_map() {
    let room = Room::new();
    for (options, seconds) in [(patient(), OLD - 9), (beside(), OLD)] {
        room.write("dist/app.js.map.smc", compiled(MAP, MAP.len(), MAP_HASH), OLD - 9);
        assert_eq!(told(&room.place(options)), (A, [1, 0, 0, 0]));
        let time = fs::metadata(room.at("dist/app.js.map.smc")).unwrap().modified().unwrap();
        assert_eq!(time, SystemTime::UNIX_EPOCH + Duration::from_secs(seconds));
    }
}

#[test]
fn a_map_that_is_too_large_is_not_taken_as_compiled() {
    let room = Room::new();
    room.place(beside());
    let most = |map_bytes| Options { limits: Limits { map_bytes, ..patient_limits() }, ..patient() };
    assert_eq!(room.place(most(MAP.len() as u64 - 1)).0, None);
    assert_eq!(room.place(most(MAP.len() as u64)).0.as_deref(), A);
}

#[test]
fn cache_folder() {
    let room = Room::new();
    let cached = || Options { cache: Cache::Folder(room.at("cache/deep")), ..patient() };
    assert_eq!(told(&room.place(cached())), (A, [0, 0, 0, 1]));
    assert_eq!(told(&room.place(cached())), (A, [1, 0, 0, 0]));
    let names = room.names("cache/deep");
    // A map of as many bytes in its place, which is older, as a copy that keeps times leaves it.
    room.write("dist/app.js.map", OTHER, OLD - 9);
    assert_eq!(told(&room.place(cached())), (C, [0, 1, 0, 1]));
    assert_eq!((room.names("cache/deep"), names.len()), (names, 1));
    assert_eq!(told(&room.place(cached())), (C, [1, 0, 0, 0]));
    assert_eq!(room.names("dist"), ["app.js", "app.js.map"]);
    // Stores may share it, also such that are no folders, whose bytes are compared.
    room.write("other/app.js.map", MAP, OLD - 9);
    let other = Resolver::new(FolderStore::new(room.at("other")).unwrap(), "", cached()).unwrap();
    assert_eq!(other.resolve_frame(Frame::new("app.js", 1, 1)).place().as_deref(), A);
    for (map, wanted) in [(MAP, A), (MAP, A), (OTHER, C)] {
        let found = Resolver::new(memory([("app.js.map", map)]), "", cached()).unwrap();
        assert_eq!(found.resolve_frame(Frame::new("app.js", 1, 1)).place().as_deref(), wanted);
    }
    assert_eq!(room.names("cache/deep").len(), 3);
}

#[test]
fn a_map_that_was_written_just_now_is_told_by_its_hash() {
    let room = Room::new();
    // (a later time counts as now, however slow this is)
    let now = SystemTime::now().duration_since(SystemTime::UNIX_EPOCH).unwrap().as_secs() + 3600;
    room.write("dist/app.js.map", MAP, now);
    let cached = Options { cache: Cache::Folder(room.at("cache")), ..patient() };
    let options = [beside(), cached];
    options.iter().for_each(|it| assert_eq!(room.place(it.clone()).0.as_deref(), A));
    fs::remove_file(room.at("dist/app.js.map.smc")).unwrap();
    assert_eq!(room.place(beside()).0.as_deref(), A);
    room.write("dist/app.js.map", OTHER, now);
    options.iter().for_each(|it| assert_eq!(room.place(it.clone()).0.as_deref(), C));
}

#[test]
fn a_folder_that_takes_no_files() {
    let room = Room::new();
    let options = Options { cache: Cache::Folder(room.at("cache")), ..patient() };
    let found = Resolver::new(room.store(), H, options).unwrap();
    fs::remove_dir(room.at("cache")).unwrap();
    assert_eq!(found.resolve_frame(Frame::new("http://h/app.js", 1, 1)).place().as_deref(), A);
    assert_eq!((found.counts().compiled_made, found.counts().compiled_unwritten), (1, 1));
}

#[cfg(unix)]
#[test]
fn links_of_compiled_maps_and_of_maps() {
    use std::os::unix::fs::symlink;
    let room = Room::new();
    let data = compiled(OTHER, MAP.len(), MAP_HASH);
    room.write("x.smc", &data, OLD + 9);
    symlink("../x.smc", room.at("dist/app.js.map.smc")).unwrap();
    assert_eq!(told(&room.place(patient())), (A, [0, 0, 0, 1]));
    assert_eq!(told(&room.place(beside())), (A, [0, 0, 0, 1]));
    assert_eq!(fs::read(room.at("x.smc")).unwrap(), data);
    assert!(!fs::symlink_metadata(room.at("dist/app.js.map.smc")).unwrap().is_symlink());
    room.write("dist/sub/b.js.map", MAP, OLD);
    symlink("sub/b.js.map", room.at("dist/b.js.map")).unwrap();
    for wanted in [(1, 0), (0, 1)] {
        let found = Resolver::new(room.store(), H, beside()).unwrap();
        assert_eq!(found.resolve_frame(Frame::new("http://h/b.js", 1, 1)).place().as_deref(), A);
        assert_eq!((found.counts().compiled_made, found.counts().compiled_used), wanted);
    }
    assert_eq!(room.names("dist/sub"), ["b.js.map"]);
}
