//! Nothing is left behind, and want of memory is an error: the memory that the library takes is counted and refused here, by a
//! malloc of this program that knows the memory of Rust from that of the library.
#![cfg(all(target_os = "linux", target_env = "gnu"))]

use oxc_sourcemap::*;
use std::alloc::{GlobalAlloc, Layout};
use std::cell::Cell;
use std::ffi::c_void;

unsafe extern "C" {
    fn __libc_malloc(size: usize) -> *mut c_void;
    fn __libc_calloc(count: usize, size: usize) -> *mut c_void;
    fn __libc_realloc(at: *mut c_void, size: usize) -> *mut c_void;
    fn __libc_memalign(align: usize, size: usize) -> *mut c_void;
    fn __libc_free(at: *mut c_void);
}

/// Rust's memory, which is not counted.
struct Uncounted;

// SAFETY: these are the calls of the C library, whose rules are those of the trait.
unsafe impl GlobalAlloc for Uncounted {
    unsafe fn alloc(&self, layout: Layout) -> *mut u8 {
        // SAFETY: an alignment is a power of two.
        unsafe { __libc_memalign(layout.align().max(16), layout.size()).cast() }
    }

    unsafe fn dealloc(&self, at: *mut u8, _: Layout) {
        // SAFETY: `alloc` made it.
        unsafe { __libc_free(at.cast()) }
    }
}

#[global_allocator]
static UNCOUNTED: Uncounted = Uncounted;

thread_local! {
    /// How many blocks this thread holds of what it took by malloc, and after how many requests one is refused.
    static LIVE: Cell<isize> = const { Cell::new(0) };
    static LEFT: Cell<usize> = const { Cell::new(usize::MAX) };
    static REFUSED: Cell<usize> = const { Cell::new(0) };
}

/// Whether this request is refused.
fn is_refused() -> bool {
    let left = LEFT.get();
    LEFT.set(left.wrapping_sub(1));
    if left == 0 {
        REFUSED.set(REFUSED.get() + 1);
    }
    left == 0
}

fn taken(at: *mut c_void) -> *mut c_void {
    LIVE.set(LIVE.get() + isize::from(!at.is_null()));
    at
}

#[unsafe(no_mangle)]
extern "C" fn malloc(size: usize) -> *mut c_void {
    // SAFETY: any size may be asked for.
    if is_refused() { std::ptr::null_mut() } else { taken(unsafe { __libc_malloc(size) }) }
}

#[unsafe(no_mangle)]
extern "C" fn calloc(count: usize, size: usize) -> *mut c_void {
    // SAFETY: any size may be asked for.
    if is_refused() { std::ptr::null_mut() } else { taken(unsafe { __libc_calloc(count, size) }) }
}

/// # Safety
///
/// As for realloc of C.
#[unsafe(no_mangle)]
unsafe extern "C" fn realloc(at: *mut c_void, size: usize) -> *mut c_void {
    if is_refused() {
        return std::ptr::null_mut();
    }
    // SAFETY: as the caller states.
    let moved = unsafe { __libc_realloc(at, size) };
    if at.is_null() { taken(moved) } else { moved }
}

/// # Safety
///
/// As for free of C.
#[unsafe(no_mangle)]
unsafe extern "C" fn free(at: *mut c_void) {
    LIVE.set(LIVE.get() - isize::from(!at.is_null()));
    // SAFETY: as the caller states.
    unsafe { __libc_free(at) }
}

const TEXT: &str = r#"{"version":3,"file":"f","sourceRoot":"r","names":["n","m"],"sources":["a.ts","b.ts"],"sourcesContent":["A",null],"ignoreList":[1],"mappings":"AAAAA,GCCEC;A","debugId":"d"}"#;

const SCOPED: &str = r#"{"names":["f","g"],"scopes":"BFAAA,DAC,BFCAC,CCA,CFA,EGAA,GCB,HBAFA,ECKC,IAFC,FK,FU"}"#;

fn map() -> SourceMap<'static> {
    SourceMap::from_json_string(TEXT).unwrap()
}

fn back() -> SourceMap<'static> {
    let token = |line| Token::new(line, 0, 0, 0, Some(0), None);
    SourceMap::new(None, vec![], None, vec!["a".into()], vec![], Box::new([token(1), token(0)]), None)
}

/// A map whose ids are in no list, which is made by another way.
fn loose() -> Result<SourceMap<'static>> {
    let mut builder = SourceMapBuilder::default();
    builder.add_source_and_content("a.ts", "A");
    builder.add_token(0, 0, 0, 0, Some(9), Some(9));
    builder.try_into_sourcemap()
}

fn compiled() -> Vec<u8> {
    map().compile(0, &[0; 32]).unwrap()
}

/// A file with that map, whose path has this word.
fn file(word: &str) -> std::path::PathBuf {
    let path = std::env::temp_dir().join(format!("{}-{word}.smap", std::process::id()));
    std::fs::write(&path, compiled()).unwrap();
    path
}

/// Does a thing, and counts the blocks that it leaves. What is done before is done once, to pass over what is taken only once.
fn leaves(mut act: impl FnMut()) -> isize {
    act();
    let before = LIVE.get();
    act();
    LIVE.get() - before
}

macro_rules! leave_nothing {
    ($($act:expr;)*) => {$(
        assert_eq!(leaves(|| { let _ = $act; }), 0, "{} leaves memory behind", stringify!($act));
    )*};
}

#[test]
fn memory_is_counted() {
    let before = LIVE.get();
    let one = map();
    assert!(LIVE.get() > before);
    drop(one);
    assert_eq!(LIVE.get(), before);
    assert!(leaves(|| std::mem::forget(map())) > 0);
}

#[test]
fn nothing_is_left_behind() {
    leave_nothing! {
        map();
        map().clone();
        map().into_parts();
        SourceMap::from_parts(map().into_parts());
        back();
        loose();
        SourceMap::default();
        map().into_owned_sourcemap().into_inner();
        SourceMap::read(b"{");
        SourceMap::read(TEXT.replace("GCCEC", "GCCEG").as_bytes());
        SourceMap::read_found(TEXT.as_bytes());
        SourceMap::read_found(br#"{"version":"3","sources":[null],"mappings":"AAAA"}"#);
        SourceMap::read_found(b"{");
        SourceMap::from_json(map().to_json());
        map().to_json_string();
        map().to_data_url();
        map().get_mappings();
        back().try_to_json_string();
        back().try_to_data_url();
        back().get_mappings();
        map().to_json_string_within(9);
        map().to_data_url_within(9);
        map().get_mappings_within(9);
        encode_mappings_within(&[Token::new(9, 0, 0, 0, None, None)], 9);
        format!("{:?}", map());
        map().generate_lookup_table().len();
        map().trace_all(&[Position::default(); 9], Bias::Before).map(|all| all.len());
        map().find_all(&[Position::default(); 9], Bias::After);
        map().pieces(Position::default(), Position::new(9, 9));
        map().first_difference(&back());
        SourceMap::default().compose(map());
        map().try_compose(&map());
        map().remap([("a.ts", &map())]);
        map().remap([("a.ts", &back())]);
        SourceMap::join([(&map(), Position::default()), (&map(), Position::new(u32::MAX, 0))]);
        SourceMap::join([(&map(), Position::default()), (&map(), Position::new(1, 1))]);
        SourceMap::evaluate(&["join", "2", "@0", "0", "@0", "3"], &[TEXT]);
        SourceMap::evaluate(&["compose", "@0", "@0"], &[TEXT]);
        ConcatSourceMapBuilder::default();
        ConcatSourceMapBuilder::from_sourcemaps(&[(&map(), 0), (&map(), 3)]).into_sourcemap();
        ConcatSourceMapBuilder::from_sourcemaps(&[(&map(), 0), (&map(), 3)]);
        ConcatSourceMapBuilder::from_owned_sourcemaps(vec![(map(), 0), (map(), 3)]).into_owned_sourcemap();
        SourcemapVisualizer::new("code", &map()).get_text();
        SourcemapVisualizer::new("code", &map()).get_url();
        encode_mappings(&[Token::new(0, 0, 0, 0, None, None)]);
        decode_mappings("AAAA", 0, 1);
        decode_mappings("AAAA", 0, 0);
        source_mapping_url("//# sourceMappingURL=a", Language::JavaScript);
        decode_data_url("data:application/json,{}");
        decode_data_url("data:application/json,%ff");
        Error::LineOrder(7).to_string();
    }
}

#[test]
fn nothing_is_left_behind_by_compiled_maps_and_scopes() {
    leave_nothing! {
        map().compile(7, &[7; 32]);
        back().compile(7, &[7; 32]);
        compile(&map().into_parts(), 7, &[7; 32]);
        CompiledMap::open(&compiled()).map(|it| it.token_count());
        CompiledMap::open(b"smap").map(|it| it.token_count());
        CompiledMap::open(&compiled()).map(|it| it.decompile());
    }
}

#[test]
fn scopes_leave_nothing_behind() {
    leave_nothing! {
        Scopes::read(SCOPED.as_bytes()).map(|it| it.frames_at(0, 12));
        Scopes::read(SCOPED.as_bytes()).map(|it| (it.get_variables(0), it.scope_chain_at(0, 12), it.scope_chain(0, 0, 12)));
        Scopes::read(b"{\"scopes\":7}");
        Scopes::decode("BFAAA,CJA", 1).map(|it| it.get_scopes().len());
        Scopes::decode("BFAAA", 1);
    }
}

#[test]
fn files_leave_nothing_behind() {
    let path = file("kept");
    // SAFETY: nobody changes the file while it is open.
    let open = || unsafe { CompiledFile::open(&path) };
    leave_nothing! {
        open();
        open().map(|it| it.map().decompile());
        // SAFETY: there is no such file.
        unsafe { CompiledFile::open("/no/such/file") };
    }
    std::fs::write(&path, b"{}").unwrap();
    leave_nothing! {
        open();
    }
    std::fs::remove_file(&path).unwrap();
}

#[test]
fn changes_leave_nothing_behind() {
    let mut one = map();
    leave_nothing! {
        one.set_file("another file");
        one.set_source_root("another root");
        one.set_debug_id("another id");
        one.set_ignore_list(vec![0, 1]);
        one.set_sources(["x.ts", "y.ts"]);
        one.set_source_contents(vec![Some("X"), Some("Y"), None]);
        one.apply_source_root();
        one.sort();
        one.simplify();
        one.index_sources();
        one.generated(0, 0, 0, Direction::At);
        one.all_generated(0, 0, 0, Direction::OnLine);
    }
}

/// Refuses each request for memory in turn, until none is refused. Each time the call fails with `OutOfMemory` and leaves nothing.
fn refuse<T>(name: &str, act: impl Fn() -> Result<T, Error>) {
    drop(act());
    for nth in 0.. {
        let (before, refused) = (LIVE.get(), REFUSED.get());
        LEFT.set(nth);
        let result = act();
        LEFT.set(usize::MAX);
        let was_refused = REFUSED.get() > refused;
        let error = result.map(drop).err();
        assert_eq!(LIVE.get(), before, "{name}, request {nth}: leaves memory behind");
        if !was_refused {
            assert_eq!(error, None, "{name}");
            assert!(nth > 0, "{name} asks for no memory");
            return;
        }
        assert_eq!(error, Some(Error::OutOfMemory), "{name}, request {nth}");
    }
}

macro_rules! refuse_each {
    ($($act:expr;)*) => {$(
        refuse(stringify!($act), || $act);
    )*};
}

#[test]
fn want_of_memory_is_an_error() {
    let (one, other) = (map(), map());
    let input = SourceMap::from_json_string(r#"{"version":3,"sources":["o.ts"],"mappings":"AAAA"}"#).unwrap();
    refuse_each! {
        SourceMap::from_json_string(TEXT);
        SourceMap::read_found(TEXT.as_bytes()).map_err(Error::from);
        SourceMap::evaluate(&["join", "2", "@0", "0", "@0", "3"], &[TEXT]).map_err(Error::from);
        loose();
        one.try_clone();
        one.try_to_json_string();
        one.try_to_data_url();
        one.get_mappings();
        one.to_json_string_within(999);
        one.to_data_url_within(999);
        one.get_mappings_within(999);
        encode_mappings_within(one.tokens(), 999);
        input.try_compose(&other);
        one.remap([("a.ts", &input)]);
        SourceMap::join([(&one, Position::default()), (&other, Position::new(4, 4))]);
        encode_mappings(one.tokens());
        decode_mappings("AAAA,C", 0, 1).map_err(Error::from);
        decode_data_url("data:application/json;base64,e30=");
        SourcemapVisualizer::new("code", &one).try_get_text();
        SourcemapVisualizer::new("code", &one).try_get_url();
        one.compile(0, &[0; 32]);
    }
}

#[test]
fn want_of_memory_is_an_error_of_compiled_maps() {
    let (bytes, path) = (compiled(), file("refused"));
    let one = CompiledMap::open(&bytes).unwrap();
    refuse_each! {
        CompiledMap::open(&bytes);
        one.decompile();
        // SAFETY: nobody changes the file.
        unsafe { CompiledFile::open(&path) };
    }
    std::fs::remove_file(&path).unwrap();
}

/// Scopes are read, or not: that they are read all the same where a request is refused that the library can do without, is right too.
#[test]
fn want_of_memory_is_an_error_of_scopes() {
    let scopes = Scopes::read(SCOPED.as_bytes()).unwrap();
    refuse_each! {
        scopes.frames_at(0, 12);
        scopes.scope_chain_at(0, 12);
        scopes.scope_chain(0, 0, 12);
    }
    let mut refused = 0;
    for nth in 0..40 {
        let before = LIVE.get();
        LEFT.set(nth);
        let result = Scopes::read(SCOPED.as_bytes());
        LEFT.set(usize::MAX);
        refused += usize::from(result.is_err());
        assert!(result.map_or_else(|error| error == Error::OutOfMemory, |it| it.range_count() == 2), "request {nth}");
        assert_eq!(LIVE.get(), before, "request {nth}");
    }
    assert!(refused > 9);
}

#[test]
fn a_failed_change_changes_nothing() {
    let mut one = map();
    one.set_source_root("root");
    type Change = fn(&mut SourceMap<'_>) -> Result<()>;
    let changes: [(&str, Change); 3] = [
        ("apply_source_root", |map| map.apply_source_root()),
        ("simplify", |map| map.simplify()),
        ("index", |map| map.index_sources()),
    ];
    for (name, change) in changes {
        let text = one.to_json_string();
        LEFT.set(0);
        let result = change(&mut one);
        LEFT.set(usize::MAX);
        assert_eq!((result, one.to_json_string()), (Err(Error::OutOfMemory), text), "{name}");
        assert_eq!(change(&mut one), Ok(()), "{name}");
    }
}

#[test]
fn a_failed_add_changes_nothing() {
    let one = map();
    let mut builder = ConcatSourceMapBuilder::default();
    builder.add_sourcemap(&one, 0);
    LEFT.set(0);
    let result = builder.try_add_sourcemap(&one, Position::new(9, 0));
    LEFT.set(usize::MAX);
    assert_eq!(result, Err(Error::OutOfMemory));
    assert_eq!(builder.into_sourcemap().get_mappings(), one.get_mappings());
}
