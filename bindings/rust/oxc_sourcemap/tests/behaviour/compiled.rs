//! Compiled maps: their answers are those of the map that was compiled, also where bytes are damaged they have some, and files.

use super::{Row, json, map_of, read, token};
use oxc_sourcemap::{
    Bias, CompiledError, CompiledFile, CompiledMap, Error, Position, SourceMap, SourceMapParts, Traced, compile,
};
use std::path::PathBuf;
use std::sync::Arc;
use std::{fs, thread};

const FULL: &str = r#"{"version":3,"file":"out.js","sourceRoot":"src/","names":["hi","größe"],"sources":["a.ts","ü/b.ts","c.ts"],"sourcesContent":["let hi;",null,""],"ignoreList":[2,0,0,2],"mappings":"AAAA,GAASA,K;;CCCTC,ECAA","debugId":"d-1"}"#;
const BIASES: [Bias; 3] = [Bias::Before, Bias::Clamped, Bias::After];
const STAMP: [u8; 32] = *b"0123456789abcdef0123456789ABCDEF";

fn compiled(map: &SourceMap<'_>) -> Vec<u8> {
    map.compile(0, &[0; 32]).unwrap()
}

fn full() -> SourceMap<'static> {
    read(FULL)
}

/// Numbers that follow from a seed.
struct Chosen(u64);

impl Chosen {
    fn below(&mut self, most: u32) -> u32 {
        self.0 = self.0.wrapping_mul(6364136223846793005).wrapping_add(1442695040888963407);
        ((self.0 >> 33) as u32) % most
    }
}

/// Up to 300 tokens on some lines, sorted, some without a source or a name; numbers are small, or up to the largest.
fn random_map(seed: u64) -> SourceMap<'static> {
    let mut chosen = Chosen(seed);
    let (most, lines) = ([3, 40, u32::MAX][chosen.below(3) as usize], 1 + chosen.below(9));
    let count = chosen.below(300);
    let rows = (0..count).map(|_| {
        let id = |chosen: &mut Chosen| [None, Some(0), Some(1)][chosen.below(3) as usize];
        let (line, col, src_line, src_col) =
            (chosen.below(lines), chosen.below(most), chosen.below(most), chosen.below(most));
        (line, col, src_line, src_col, id(&mut chosen), id(&mut chosen))
    });
    let mut rows: Vec<Row> = rows.collect();
    rows.sort_by_key(|row| (row.0, row.1));
    map_of(&["p", "q"], &["a.ts", "b.ts"], &rows)
}

/// Each position of a token, and those around it.
fn positions_of(map: &SourceMap<'_>) -> Vec<Position> {
    let around = |at: u32| [at.saturating_sub(1), at, at.saturating_add(1)];
    let tokens = map.tokens().iter();
    let mut all: Vec<_> =
        tokens.flat_map(|it| around(it.get_dst_col()).map(|column| Position::new(it.get_dst_line(), column))).collect();
    all.extend([(0, 0), (9, 0), (u32::MAX, u32::MAX), (2, u32::MAX)].map(Position::from));
    all
}

fn says_the_same(map: &SourceMap<'_>) {
    let bytes = compiled(map);
    let compiled = CompiledMap::open(&bytes).unwrap();
    let (positions, table) = (positions_of(map), map.generate_lookup_table());
    for bias in BIASES {
        let traced = map.trace_all(&positions, bias).unwrap();
        assert_eq!(compiled.trace_all(&positions, bias).unwrap(), traced);
        assert_eq!(compiled.find_all(&positions, bias).unwrap(), map.find_all(&positions, bias).unwrap());
        for (at, wanted) in positions.iter().zip(traced) {
            assert_eq!(compiled.trace(at.line, at.column, bias), wanted, "{at:?} {bias:?}");
        }
    }
    for Position { line, column } in positions {
        assert_eq!(compiled.lookup_token(line, column), map.lookup_token(&table, line, column));
        assert_eq!(compiled.lookup_token_approx(line, column), map.lookup_token_approx(&table, line, column));
        let after = map.find_all(&[Position::new(line, column)], Bias::After).unwrap()[0];
        assert_eq!(compiled.lookup_token_after(line, column), after.and_then(|it| map.get_token(it)));
    }
    for index in 0..map.tokens().len() as u32 + 2 {
        assert_eq!(compiled.get_token(index), map.get_token(index));
    }
    assert_eq!(compiled.token_count(), map.tokens().len());
}

#[test]
fn lookups_answer_as_the_map_does() {
    says_the_same(&SourceMap::default());
    says_the_same(&full());
    (0..60).for_each(|seed| says_the_same(&random_map(seed)));
}

#[test]
fn texts_and_numbers_are_those_of_the_map() {
    let map = full();
    let bytes = map.compile(u64::MAX - 7, &STAMP).unwrap();
    let compiled = CompiledMap::open(&bytes).unwrap();
    assert_eq!((compiled.get_file(), map.get_file()), (Some("out.js"), Some("out.js")));
    assert_eq!((compiled.get_source_root(), map.get_source_root()), (Some("src/"), Some("src/")));
    assert_eq!((compiled.get_debug_id(), map.get_debug_id()), (Some("d-1"), Some("d-1")));
    for id in 0..5 {
        assert_eq!(compiled.get_source(id), map.get_source(id));
        assert_eq!(compiled.get_source_content(id), map.get_source_content(id));
        assert_eq!(compiled.get_name(id), map.get_name(id));
        assert_eq!(compiled.is_ignored(id), map.get_ignore_list().unwrap().contains(&id));
    }
    assert!(
        compiled.get_names().eq(map.get_names().map(Some)) && compiled.get_sources().eq(map.get_sources().map(Some))
    );
    assert!(
        compiled.get_source_contents().eq((0..map.get_sources().count() as u32).map(|id| map.get_source_content(id)))
    );
    let counts = (compiled.token_count(), compiled.source_count(), compiled.name_count(), compiled.ignored_count());
    assert_eq!(counts, (5, 3, 2, Some(4)));
    assert_eq!((compiled.text_length(), compiled.stamp()), (u64::MAX - 7, STAMP));
    let shown = format!("{compiled:?}");
    assert_eq!(shown, r#"CompiledMap { file: Some("out.js"), tokens: 5, sources: 3, names: 2, .. }"#);
}

#[test]
fn what_is_not_there_is_none() {
    let bytes = compiled(&SourceMap::default());
    let map = CompiledMap::open(&bytes).unwrap();
    assert_eq!((map.get_file(), map.get_source_root(), map.get_debug_id()), (None, None, None));
    assert_eq!(
        (map.get_source(0), map.get_source_content(0), map.get_name(0), map.get_token(0)),
        (None, None, None, None)
    );
    assert_eq!((map.ignored_count(), map.is_ignored(0), map.text_length(), map.stamp()), (None, false, 0, [0; 32]));
    assert_eq!(map.trace(0, 0, Bias::Clamped), Traced::Nothing);
    assert_eq!(map.trace_all(&[], Bias::Before).unwrap(), []);
    let empty = read(
        r#"{"version":3,"file":"","sourceRoot":"","debugId":"","sources":[""],"sourcesContent":[""],"ignoreList":[],"mappings":""}"#,
    );
    let bytes = compiled(&empty);
    let map = CompiledMap::open(&bytes).unwrap();
    assert_eq!((map.get_file(), map.get_source_root(), map.get_debug_id()), (Some(""), Some(""), Some("")));
    assert_eq!((map.get_source(0), map.get_source_content(0), map.ignored_count()), (Some(""), Some(""), Some(0)));
}

#[test]
fn a_list_of_another_length_is_refused() {
    let bytes = compiled(&full());
    let map = CompiledMap::open(&bytes).unwrap();
    let mut out = [7; 2];
    assert_eq!(map.find_all_into(&[Position::new(0, 0)], Bias::Before, &mut out), Err(Error::Lengths));
    assert_eq!(out, [7; 2]);
    assert_eq!(map.find_all_into(&[(0, 4).into(), (1, 0).into()], Bias::Before, &mut out), Ok(()));
    assert_eq!(out, [1, u32::MAX]);
}

#[test]
fn a_map_comes_back() {
    for map in [full(), SourceMap::default(), random_map(7)] {
        let bytes = compiled(&map);
        let back = CompiledMap::open(&bytes).unwrap().decompile().unwrap().unwrap();
        drop(bytes);
        assert_eq!(back.to_json_string(), map.to_json_string());
    }
    // A content past the last source is dropped.
    let mut map = full();
    map.set_source_contents(vec![Some("A"), None, None, Some("D")]);
    let back = CompiledMap::open(&compiled(&map)).unwrap().decompile().unwrap().unwrap();
    assert_eq!(back.get_source_contents().collect::<Vec<_>>(), [Some("A"), None, None]);
}

#[test]
fn parts_are_compiled_as_their_map() {
    let loose = SourceMapParts { tokens: [token((0, 0, 0, 0, Some(9), Some(9)))].into(), ..SourceMapParts::default() };
    for parts in [full().into_parts(), SourceMapParts::default(), loose] {
        let bytes = compile(&parts, 77, &STAMP).unwrap();
        assert_eq!(bytes, SourceMap::from_parts(parts).compile(77, &STAMP).unwrap());
    }
    let back = [token((1, 0, 0, 0, None, None)), token((0, 0, 0, 0, None, None))];
    let parts = SourceMapParts { tokens: back.into(), ..SourceMapParts::default() };
    assert_eq!(compile(&parts, 0, &STAMP), Err(Error::Unsorted));
}

fn refused(bytes: &[u8]) -> CompiledError {
    match CompiledMap::open(bytes) {
        Err(Error::Compiled(error)) => error,
        other => panic!("{other:?}"),
    }
}

#[test]
fn other_bytes_are_refused() {
    let bytes = compiled(&full());
    let with = |at: usize, byte: u8| {
        let mut changed = bytes.clone();
        changed[at] = byte;
        changed
    };
    assert_eq!(refused(b""), CompiledError::NotCompiled);
    assert_eq!(refused(FULL.as_bytes()), CompiledError::NotCompiled);
    assert_eq!(refused(&with(0, b'S')), CompiledError::NotCompiled);
    assert_eq!(refused(&with(4, 7)), CompiledError::Version(7));
    assert_eq!(refused(&with(67, 0xff)), CompiledError::Sizes);
    for len in 0..bytes.len() {
        let wanted = if len < 8 { CompiledError::NotCompiled } else { CompiledError::Length };
        assert_eq!(refused(&bytes[..len]), wanted);
    }
    assert_eq!(refused(&[&bytes[..], &[0]].concat()), CompiledError::Length);
}

/// The bytes with one run of them replaced by another of the same length.
fn replaced(bytes: &[u8], old: &[u8], new: &[u8]) -> Vec<u8> {
    let at = bytes.windows(old.len()).position(|it| it == old).unwrap();
    [&bytes[..at], new, &bytes[at + old.len()..]].concat()
}

#[test]
fn texts_that_are_not_utf8_are_none() {
    let bytes = replaced(&compiled(&full()), b"a.ts", b"\xff.ts");
    let map = CompiledMap::open(&bytes).unwrap();
    assert_eq!((map.get_source(0), map.get_source(1)), (None, Some("ü/b.ts")));
    // A token without its source points nowhere.
    let Traced::Unmapped(found) = map.trace(0, 4, Bias::Before) else { panic!() };
    assert_eq!((found.index, Some(found.token)), (1, full().get_token(1)));
    assert_eq!(map.trace_all(&[(0, 4).into()], Bias::Before).unwrap(), [Traced::Unmapped(found)]);
    assert!(map.decompile().unwrap().is_none());
    for (old, new) in
        [(&b"out.js"[..], &b"out\xedjs"[..]), (b"src/", b"sr\xf8/"), (b"d-1", b"\x80-1"), (b"let hi;", b"let hi\xc3")]
    {
        let bytes = replaced(&compiled(&full()), old, new);
        let map = CompiledMap::open(&bytes).unwrap();
        let texts = [map.get_file(), map.get_source_root(), map.get_debug_id(), map.get_source_content(0)];
        assert_eq!(texts.iter().flatten().count(), 3, "{texts:?}");
    }
}

#[test]
fn a_name_that_is_not_utf8_is_none() {
    let map = map_of(&["nnnn"], &["a.ts"], &[(0, 0, 5, 6, Some(0), Some(0))]);
    let bytes = replaced(&compiled(&map), b"nnnn", b"nn\xffn");
    let compiled = CompiledMap::open(&bytes).unwrap();
    let original = compiled.trace(0, 9, Bias::Before).original().unwrap();
    assert_eq!((original.source, original.name, original.line(), original.column()), ("a.ts", None, 5, 6));
    assert_eq!(compiled.get_name(0), None);
}

#[test]
fn no_map_is_made_of_lines_that_go_back() {
    let bytes = compiled(&full());
    assert!(CompiledMap::open(&bytes).unwrap().decompile().unwrap().is_some());
    // The first line begins behind the second, or the last one ends before it begins.
    for (at, start) in [(88, full().counts().tokens as u8), (96, 2)] {
        let mut bytes = bytes.clone();
        bytes[at] = start;
        assert!(CompiledMap::open(&bytes).unwrap().decompile().unwrap().is_none(), "{at}");
    }
}

/// All that a compiled map says, which only has to end.
fn asked(map: &CompiledMap<'_>) -> String {
    let positions = positions_of(&full());
    let traced = BIASES.map(|bias| map.trace_all(&positions, bias).unwrap());
    let texts: Vec<_> = (0..4)
        .map(|id| (map.get_source(id), map.get_source_content(id), map.get_name(id), map.is_ignored(id)))
        .collect();
    let tokens: Vec<_> = (0..9).map(|index| map.get_token(index)).collect();
    let back = map.decompile().unwrap().map(|it| it.counts());
    format!("{map:?} {traced:?} {texts:?} {tokens:?} {back:?} {:?}", (map.get_source_root(), map.get_debug_id()))
}

#[test]
fn damaged_bytes_have_answers() {
    let bytes = compiled(&full());
    let mut opened = 0;
    for at in 0..bytes.len() {
        for flip in [1, 0x80, 0xff] {
            let mut damaged = bytes.clone();
            damaged[at] ^= flip;
            if let Ok(map) = CompiledMap::open(&damaged) {
                opened += usize::from(!asked(&map).is_empty());
            }
        }
    }
    assert!(opened > bytes.len());
}

/// A map of a longer life is one of a shorter one.
fn shortened<'a>(map: CompiledMap<'static>) -> CompiledMap<'a> {
    map
}

#[test]
fn eight_threads_read_one_compiled_map() {
    let bytes: &'static [u8] = compiled(&full()).leak();
    let map = Arc::new(shortened(CompiledMap::open(bytes).unwrap()));
    let wanted = asked(&map);
    let reader = |map: Arc<CompiledMap<'static>>| {
        let wanted = wanted.clone();
        thread::spawn(move || (0..50).for_each(|_| assert_eq!(asked(&map), wanted)))
    };
    let map = Arc::new(CompiledMap::open(bytes).unwrap());
    let readers: Vec<_> = (0..8).map(|_| reader(Arc::clone(&map))).collect();
    readers.into_iter().for_each(|it| it.join().unwrap());
}

fn path(word: &str) -> PathBuf {
    std::env::temp_dir().join(format!("{}-{word}.smap", std::process::id()))
}

fn open(path: impl AsRef<std::path::Path>) -> Result<CompiledFile, Error> {
    // SAFETY: nobody changes a file that is open; others are renamed over it.
    unsafe { CompiledFile::open(path) }
}

#[test]
fn a_file_stays_when_another_is_renamed_over_it() {
    let (old, new) = (path("old"), path("new"));
    fs::write(&old, compiled(&full())).unwrap();
    fs::write(&new, compiled(&map_of(&[], &["new.ts"], &[]))).unwrap();
    let file = open(&old).unwrap();
    let said = asked(file.map());
    fs::rename(&new, &old).unwrap();
    let other = open(&old).unwrap();
    assert_eq!((other.map().get_source(0), other.map().source_count()), (Some("new.ts"), 1));
    fs::remove_file(&old).unwrap();
    // It may be asked, and freed, by another thread.
    let again = thread::spawn(move || asked(file.map())).join().unwrap();
    let bytes = compiled(&full());
    assert_eq!((&again, &said), (&said, &asked(&CompiledMap::open(&bytes).unwrap())));
    assert!(format!("{other:?}").starts_with("CompiledFile(CompiledMap { file: None, tokens: 0"));
}

#[test]
fn files_that_are_refused() {
    assert_eq!(open("/no/such/file").unwrap_err(), Error::NoFile(2));
    assert_eq!(open(std::env::temp_dir()).unwrap_err(), Error::NoFile(0));
    assert_eq!(open("a\0b").unwrap_err(), Error::NoFile(22));
    let file = path("refused");
    for (bytes, wanted) in [(&b""[..], CompiledError::NotCompiled), (b"smap\x01\0\0\0", CompiledError::Length)] {
        fs::write(&file, bytes).unwrap();
        assert_eq!(open(&file).unwrap_err(), Error::Compiled(wanted));
    }
    fs::remove_file(&file).unwrap();
    let text = json(r#""sources":[],"mappings":"""#);
    assert_eq!(refused(text.as_bytes()), CompiledError::NotCompiled);
}
