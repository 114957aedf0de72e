//! What the safe crate does not do, or not by itself: null handles and texts, options that are none, lists of other lengths, outputs
//! that may be null, counts without a list, and the builder.

use oxc_sourcemap_sys::*;
use std::ffi::{CStr, c_char};
use std::ptr::{null, null_mut};

const JSON: &str = r#"{"version":3,"names":["n"],"sources":["a.ts","b.ts"],"mappings":"AAAAA,IACA;EAAA"}"#;

fn at(text: &str) -> *const c_char {
    text.as_ptr().cast()
}

fn text(text: &str) -> smap_text {
    smap_text { at: at(text), len: text.len() }
}

/// # Safety
///
/// The text was lent, and its handle is still as it was.
unsafe fn lent(text: smap_text) -> String {
    // SAFETY: as the caller states.
    let bytes = unsafe { std::slice::from_raw_parts(text.at.cast::<u8>(), text.len) };
    String::from_utf8(bytes.to_vec()).unwrap()
}

fn read(json: &str) -> *mut smap_map {
    let mut map = null_mut();
    // SAFETY: pointer and length are those of a live text, and the output is ours.
    assert_eq!(unsafe { smap_from_json_string(at(json), json.len(), &mut map, null_mut()) }, SMAP_OK);
    map
}

fn mappings_of(map: *const smap_map) -> String {
    let (mut string, mut out) = (null_mut(), smap_text { at: null(), len: 0 });
    // SAFETY: the map is live, and so is the string until its text is copied.
    unsafe {
        assert_eq!(smap_get_mappings(map, &mut string, null_mut()), SMAP_OK);
        assert_eq!(smap_get_text(string, &mut out), SMAP_OK);
        let mappings = lent(out);
        smap_free_string(string);
        mappings
    }
}

#[test]
fn versions_agree() {
    // SAFETY: the call takes nothing.
    assert_eq!(unsafe { smap_version() }, SMAP_VERSION);
}

/// What calls write to. One that gets a null handle writes its fault alone.
struct Outputs {
    map: *mut smap_map,
    string: *mut smap_string,
    mapped: smap_original,
    number: u32,
    count: usize,
    lent: smap_text,
    counts: smap_counts,
    position: smap_position,
    token: smap_token,
    fault: smap_fault,
}

fn outputs() -> Outputs {
    Outputs {
        map: null_mut(),
        string: null_mut(),
        mapped: smap_original { kind: 7, index: 7, token: smap_token::default(), source: text(""), name: text("") },
        number: 7,
        count: 7,
        lent: text("x"),
        counts: smap_counts::default(),
        position: smap_position::default(),
        token: smap_token::default(),
        fault: smap_fault::default(),
    }
}

/// The codes of calls that got these outputs, and a null handle each.
fn are_of_null_handles(codes: &[u32], out: &Outputs) {
    for (nth, &code) in codes.iter().enumerate() {
        assert_eq!(code, SMAP_NULL_HANDLE, "call {nth}");
    }
    assert_eq!((out.number, out.count, out.mapped.kind), (7, 7, 7));
    assert!(out.map.is_null() && out.string.is_null());
}

const NOWHERE: smap_position = smap_position { line: 0, column: 0 };

#[test]
fn readers_tell_null_handles() {
    let mut out = outputs();
    // SAFETY: pointers are null or to live values, and lengths are theirs.
    let codes = unsafe {
        [
            smap_get_mends(null(), null_mut(), 0, &mut out.count),
            smap_get_counts(null(), &mut out.counts),
            smap_is_sorted(null(), &mut out.number),
            smap_is_sound(null(), &mut out.number),
            smap_get_name(null(), 0, &mut out.lent),
            smap_get_source(null(), 0, &mut out.lent),
            smap_get_source_content(null(), 0, &mut out.lent),
            smap_get_file(null(), &mut out.lent),
            smap_get_source_root(null(), &mut out.lent),
            smap_get_debug_id(null(), &mut out.lent),
            smap_get_token(null(), 0, &mut out.token),
            smap_get_tokens(null(), null_mut(), 0, &mut out.count),
            smap_get_names(null(), null_mut(), 0, &mut out.count),
            smap_get_sources(null(), null_mut(), 0, &mut out.count),
            smap_get_source_contents(null(), null_mut(), 0, &mut out.count),
            smap_get_ignore_list(null(), null_mut(), 0, &mut out.count),
            smap_get_text(null(), &mut out.lent),
        ]
    };
    are_of_null_handles(&codes, &out);
}

#[test]
fn lookups_tell_null_handles_first() {
    let mut out = outputs();
    let live = read(JSON);
    // SAFETY: pointers are null or to live values, and lengths are theirs.
    let codes = unsafe {
        [
            smap_trace(null(), 0, 0, 99, &mut out.mapped, &mut out.fault),
            smap_trace_all(null(), &NOWHERE, 1, 99, null_mut(), 0, &mut out.fault),
            smap_find_all(null(), &NOWHERE, 1, 99, null_mut(), 0, &mut out.fault),
            smap_pieces(null(), NOWHERE, NOWHERE, null_mut(), 0, &mut out.count),
            smap_first_difference(null(), live, &mut out.position),
            smap_first_difference(live, null(), &mut out.position),
            smap_generated(null(), 0, 0, 0, 99, &mut out.number, &mut out.token),
            smap_all_generated(null(), 0, 0, 0, 99, null_mut(), 0, &mut out.count),
        ]
    };
    are_of_null_handles(&codes, &out);
    assert_eq!(out.fault.code, SMAP_NULL_HANDLE);
    // SAFETY: the map is live, and used no more.
    unsafe { smap_free_map(live) };
}

#[test]
fn changes_tell_null_handles_first() {
    let mut out = outputs();
    // SAFETY: pointers are null or to live values, and lengths are theirs.
    let codes = unsafe {
        [
            smap_index_sources(null_mut(), &mut out.fault),
            smap_set_file(null_mut(), at("\u{ff}"), 1, &mut out.fault),
            smap_set_source_root(null_mut(), at(""), 0, &mut out.fault),
            smap_set_debug_id(null_mut(), at(""), 0, &mut out.fault),
            smap_set_ignore_list(null_mut(), null(), 0, &mut out.fault),
            smap_set_sources(null_mut(), null(), 0, &mut out.fault),
            smap_set_source_contents(null_mut(), null(), 0, &mut out.fault),
            smap_apply_source_root(null_mut(), &mut out.fault),
            smap_sort(null_mut(), &mut out.fault),
            smap_simplify(null_mut(), &mut out.fault),
            smap_share_map(null_mut(), &mut out.fault),
        ]
    };
    are_of_null_handles(&codes, &out);
    assert_eq!(out.fault.code, SMAP_NULL_HANDLE);
}

#[test]
fn makers_of_maps_tell_null_handles_first() {
    let mut out = outputs();
    let live = read(JSON);
    // SAFETY: pointers are null or to live values, and lengths are theirs.
    let codes = unsafe {
        [
            smap_clone(null(), &mut out.map, &mut out.fault),
            smap_retain_map(null(), &mut out.map, &mut out.fault),
            smap_compose(null(), live, &mut out.map, &mut out.fault),
            smap_compose(live, null(), &mut out.map, &mut out.fault),
            smap_remap(null(), null(), 0, null(), 0, &mut out.map, &mut out.fault),
            smap_remap(live, &text(""), 1, [null()].as_ptr(), 1, &mut out.map, &mut out.fault),
            smap_join_all([null()].as_ptr(), 1, &NOWHERE, 1, &mut out.map, &mut out.fault),
            smap_join_add(null_mut(), live, 0, 0, &mut out.fault),
            smap_join_finish(null_mut(), &mut out.map, &mut out.fault),
        ]
    };
    are_of_null_handles(&codes, &out);
    assert_eq!(out.fault.code, SMAP_NULL_HANDLE);
    // SAFETY: the map is live, and used no more.
    unsafe { smap_free_map(live) };
}

#[test]
fn builders_tell_null_handles_first() {
    let mut out = outputs();
    // SAFETY: pointers are null or to live values, and lengths are theirs.
    let codes = unsafe {
        [
            smap_builder_add_name(null_mut(), at(""), 0, &mut out.number, &mut out.fault),
            smap_builder_add_source_and_content(null_mut(), at(""), 0, at(""), 0, &mut out.number, &mut out.fault),
            smap_builder_add_source(null_mut(), at(""), 0, &mut out.number, &mut out.fault),
            smap_builder_add_tokens(null_mut(), null(), 0, &mut out.fault),
            smap_builder_set_file(null_mut(), at(""), 0, &mut out.fault),
            smap_builder_finish(null_mut(), &mut out.map, &mut out.fault),
        ]
    };
    are_of_null_handles(&codes, &out);
    assert_eq!(out.fault.code, SMAP_NULL_HANDLE);
}

#[test]
fn writers_tell_null_handles_first() {
    let mut out = outputs();
    // SAFETY: pointers are null or to live values, and lengths are theirs.
    let codes = unsafe {
        [
            smap_to_json_string(null(), &mut out.string, &mut out.fault),
            smap_to_data_url(null(), &mut out.string, &mut out.fault),
            smap_get_mappings(null(), &mut out.string, &mut out.fault),
            smap_to_json_string_within(null(), 9, &mut out.string, &mut out.fault),
            smap_to_data_url_within(null(), 9, &mut out.string, &mut out.fault),
            smap_get_mappings_within(null(), 9, &mut out.string, &mut out.fault),
            smap_visualize(null(), at(""), 0, &mut out.string, &mut out.fault),
            smap_visualizer_url(null(), at(""), 0, &mut out.string, &mut out.fault),
        ]
    };
    are_of_null_handles(&codes, &out);
    assert_eq!(out.fault.code, SMAP_NULL_HANDLE);
}

#[test]
fn compiled_maps_tell_null_handles_first() {
    let mut out = outputs();
    let mut counts = smap_compiled_counts { rest: 7, ..smap_compiled_counts::default() };
    // SAFETY: pointers are null or to live values, and lengths are theirs.
    let codes = unsafe {
        [
            smap_compiled_get_counts(null(), &mut counts),
            smap_compiled_trace(null(), 0, 0, 99, &mut out.mapped),
            smap_compiled_trace_all(null(), &NOWHERE, 1, 99, null_mut(), 0),
            smap_compiled_find_all(null(), &NOWHERE, 1, 99, null_mut(), 0),
            smap_compiled_get_token(null(), 0, &mut out.token),
            smap_compiled_get_text(null(), 99, 0, &mut out.lent),
            smap_compiled_get_stamp(null(), &mut out.lent),
            smap_compiled_is_ignored(null(), 0, &mut out.number),
            smap_compile(null(), 0, null(), &mut out.string, &mut out.fault),
            smap_decompile(null(), &mut out.map, &mut out.fault),
        ]
    };
    are_of_null_handles(&codes, &out);
    assert_eq!((out.fault.code, counts.rest), (SMAP_NULL_HANDLE, 7));
}

#[test]
fn a_compiled_map_says_what_it_was_made_of() {
    let (map, mut string, mut compiled, mut out) = (read(JSON), null_mut(), null_mut(), text(""));
    let mut mapped =
        smap_original { kind: 7, index: 7, token: smap_token::default(), source: text(""), name: text("") };
    let (mut found, positions, mut stamp) = ([7, 7], [smap_position::default(); 2], text(""));
    // SAFETY: pointers are null or to live values, lengths are theirs, and handles are freed once, that of the bytes last.
    unsafe {
        // (a stamp that is null stands for zero bytes)
        assert_eq!(smap_compile(map, 0, null(), &mut string, null_mut()), SMAP_OK);
        assert_eq!(smap_get_text(string, &mut out), SMAP_OK);
        assert_eq!(smap_open_compiled(out.at.cast(), out.len, &mut compiled, null_mut()), SMAP_OK);
        assert_eq!((smap_compiled_get_stamp(compiled, &mut stamp), lent(stamp)), (SMAP_OK, "\0".repeat(32)));
        assert_eq!((smap_compiled_trace(compiled, 0, 5, SMAP_BEFORE, &mut mapped), mapped.index), (SMAP_OK, 1));
        assert_eq!(smap_compiled_trace(compiled, 0, 5, 3, &mut mapped), SMAP_BAD_OPTION);
        let at = positions.as_ptr();
        assert_eq!(smap_compiled_trace_all(compiled, at, 2, 3, &mut mapped, 1), SMAP_LENGTHS);
        assert_eq!(smap_compiled_trace_all(compiled, at, 1, 3, &mut mapped, 1), SMAP_BAD_OPTION);
        assert_eq!(smap_compiled_find_all(compiled, at, 1, 3, found.as_mut_ptr(), 2), SMAP_LENGTHS);
        assert_eq!(smap_compiled_find_all(compiled, at, 2, 3, found.as_mut_ptr(), 2), SMAP_BAD_OPTION);
        assert_eq!(smap_compiled_get_text(compiled, 6, 0, &mut out), SMAP_BAD_OPTION);
        assert_eq!(smap_compiled_get_text(compiled, SMAP_TEXT_SOURCE, 2, &mut out), SMAP_NO_ENTRY);
        assert_eq!((found, mapped.index), ([7, 7], 1));
        smap_free_compiled(compiled);
        smap_free_string(string);
        smap_free_map(map);
    }
}

#[test]
fn scopes_tell_null_handles_first() {
    let mut out = outputs();
    let mut counts = smap_scopes_counts { scopes: 7, ..smap_scopes_counts::default() };
    let (mut scope, mut range) = (smap_scope::default(), smap_range::default());
    let mut frame = smap_frame { name: 7, ..smap_frame::default() };
    let mut entry = smap_chain_entry { scope: 7, range: 7 };
    // SAFETY: pointers are null or to live values, and lengths are theirs.
    let codes = unsafe {
        [
            smap_scopes_get_counts(null(), &mut counts),
            smap_get_scope(null(), 0, &mut scope),
            smap_get_range(null(), 0, &mut range),
            smap_scope_at(null(), 0, 0, 0, &mut out.number),
            smap_function_at(null(), 0, 0, 0, &mut out.number),
            smap_range_at(null(), 0, 0, &mut out.number),
            smap_frames_at(null(), 0, 0, &mut frame, 1, &mut out.count, &mut out.number),
            smap_frames_at(null(), 0, 0, null_mut(), 0, &mut out.count, null_mut()),
            smap_get_variables(null(), 0, &mut out.number, 1, &mut out.count),
            smap_value_at(null(), 0, 0, 0, 0, &mut out.number),
            smap_scope_chain_at(null(), 0, 0, &mut entry, 1, &mut out.count),
            smap_scope_chain(null(), 0, 0, 0, &mut entry, 1, &mut out.count),
        ]
    };
    are_of_null_handles(&codes, &out);
    assert_eq!((counts.scopes, frame.name, entry), (7, 7, smap_chain_entry { scope: 7, range: 7 }));
    assert_eq!((scope, range), (smap_scope::default(), smap_range::default()));
}

#[test]
fn variables_and_chains_are_counted_without_a_list_and_fit_into_a_short_one() {
    // The value of the first variable is none, that of the second x, and from 1:1 on y.
    let member = "BAAA,DAC,CJA,ECAA,GAD,HBBBE,FCE";
    let (mut scopes, mut count, mut number, mut entry) = (null_mut(), 7, 7, smap_chain_entry { scope: 7, range: 7 });
    // SAFETY: pointers are null or to live values, lengths are theirs, and the scopes are freed once.
    unsafe {
        assert_eq!(smap_decode_scopes(at(member), member.len(), 4, &mut scopes, null_mut()), SMAP_OK);
        assert_eq!((smap_get_variables(scopes, 0, null_mut(), 0, &mut count), count), (SMAP_OK, 2));
        assert_eq!((smap_get_variables(scopes, 0, &mut number, 1, &mut count), count, number), (SMAP_OK, 2, 0));
        assert_eq!((smap_value_at(scopes, 0, 0, 1, 0, &mut number), number), (SMAP_OK, SMAP_NO_ID));
        assert_eq!((smap_value_at(scopes, 0, 1, 1, 0, &mut number), number), (SMAP_OK, 2));
        assert_eq!((smap_value_at(scopes, 0, 1, 1, 1, &mut number), number), (SMAP_OK, 3));
        assert_eq!((smap_scope_chain_at(scopes, 1, 0, null_mut(), 0, &mut count), count), (SMAP_OK, 1));
        assert_eq!((smap_scope_chain_at(scopes, 1, 0, &mut entry, 1, &mut count), count), (SMAP_OK, 1));
        assert_eq!(entry, smap_chain_entry { scope: 0, range: 0 });
        entry = smap_chain_entry { scope: 7, range: 7 };
        assert_eq!((smap_scope_chain(scopes, 0, 1, 0, &mut entry, 1, &mut count), count), (SMAP_OK, 1));
        assert_eq!(entry, smap_chain_entry { scope: 0, range: 0 });
        assert_eq!(smap_scope_chain(scopes, 1, 1, 0, &mut entry, 1, &mut count), SMAP_NO_ENTRY);
        assert_eq!(smap_scope_chain(scopes, 0, 9, 0, &mut entry, 1, &mut count), SMAP_NO_ENTRY);
        smap_free_scopes(scopes);
    }
}

#[test]
fn frames_are_counted_without_a_list_and_fit_into_a_short_one() {
    let (mut scopes, mut fault, mut count, mut is_hidden) = (null_mut(), smap_fault::default(), 7, 7);
    let (member, mut frame) = ("BFAAA,BFCAC,CCA,CFA,EGAA,ECKC,IAFC,FK,FU", smap_frame::default());
    let none = smap_call { source: SMAP_NO_ID, line: SMAP_NO_ID, column: SMAP_NO_ID };
    // SAFETY: pointers are null or to live values, lengths are theirs, and the scopes are freed once.
    unsafe {
        assert_eq!(smap_decode_scopes(at(member), member.len(), 1, &mut scopes, &mut fault), SMAP_BAD_SCOPES);
        assert_eq!((fault.code, fault.field, fault.detail), (SMAP_BAD_SCOPES, SMAP_SCOPES_BAD_INDEX, 6));
        assert_eq!(smap_read_scopes(at("7"), 1, &mut scopes, null_mut()), SMAP_OK);
        smap_free_scopes(scopes);
        assert_eq!(smap_decode_scopes(at(member), member.len(), 2, &mut scopes, null_mut()), SMAP_OK);
        assert_eq!(smap_frames_at(scopes, 0, 12, null_mut(), 0, &mut count, &mut is_hidden), SMAP_OK);
        assert_eq!((count, is_hidden), (2, 0));
        assert_eq!(smap_frames_at(scopes, 0, 12, &mut frame, 1, &mut count, null_mut()), SMAP_OK);
        assert_eq!((count, frame), (2, smap_frame { name: 1, scope: 1, call: none }));
        smap_free_scopes(scopes);
    }
}

#[test]
fn a_file_that_is_there_and_one_that_is_not() {
    let (mut file, mut bytes, mut fault) = (null_mut(), text("x"), smap_fault::default());
    // SAFETY: paths end with a zero byte, pointers are null or to live values, and the file is freed once.
    unsafe {
        assert_eq!(smap_map_file(c"/no/such/file".as_ptr(), &mut file, &mut bytes, &mut fault), SMAP_NO_FILE);
        assert_eq!((fault.code, fault.detail, file.is_null(), bytes.len), (SMAP_NO_FILE, 2, true, 1));
        assert_eq!(smap_map_file(c"/".as_ptr(), &mut file, &mut bytes, &mut fault), SMAP_NO_FILE);
        assert_eq!(fault.detail, 0);
        assert_eq!(smap_map_file(c"/proc/self/cmdline".as_ptr(), &mut file, &mut bytes, null_mut()), SMAP_OK);
        assert_eq!(bytes.len, 0);
        smap_free_file(file);
    }
}

#[test]
fn nothing_is_freed_of_null() {
    // SAFETY: null may be freed.
    unsafe {
        smap_free_map(null_mut());
        smap_free_string(null_mut());
        smap_free_builder(null_mut());
        smap_free_join(null_mut());
        smap_free_mends(null_mut());
        smap_free_compiled(null_mut());
        smap_free_scopes(null_mut());
        smap_free_file(null_mut());
    }
}

#[test]
fn null_with_length_0_is_the_empty_text() {
    let (mut map, mut fault, mut url) = (null_mut(), smap_fault::default(), text("x"));
    // SAFETY: pointers are null with length 0, or to live values.
    unsafe {
        assert_eq!(smap_from_json_string(null(), 0, &mut map, &mut fault), SMAP_JSON_READING);
        assert_eq!((fault.place.kind, fault.place.byte), (SMAP_PLACE_READING, 0));
        assert_eq!(smap_read_found(null(), 0, &mut map, null_mut(), null_mut()), SMAP_JSON_READING);
        assert_eq!(smap_source_mapping_url(null(), 0, SMAP_CSS, &mut url, null_mut()), SMAP_NO_ENTRY);
        assert_eq!(smap_decode_mappings(null(), 0, 0, 0, &mut map, null_mut()), SMAP_OK);
        assert_eq!(smap_set_file(map, null(), 0, null_mut()), SMAP_OK);
        assert_eq!((smap_get_file(map, &mut url), url.len), (SMAP_OK, 0));
        smap_free_map(map);
    }
}

#[test]
fn options_and_lengths() {
    let map = read(JSON);
    let (mut number, mut count, mut url, mut out, mut fault) = (7, 7, text(""), null_mut(), smap_fault::default());
    let (mut found, mut token) = ([7, 7], smap_token::default());
    let mut mapped = smap_original { kind: 7, index: 7, token, source: text(""), name: text("") };
    let positions = [smap_position::default(); 2];
    // SAFETY: pointers are null or to live values, and lengths are theirs.
    unsafe {
        let at_positions = positions.as_ptr();
        assert_eq!(smap_trace(map, 0, 0, 3, &mut mapped, &mut fault), SMAP_BAD_OPTION);
        assert_eq!(smap_trace_all(map, at_positions, 2, 0, &mut mapped, 1, &mut fault), SMAP_LENGTHS);
        assert_eq!(smap_trace_all(map, at_positions, 1, 3, &mut mapped, 1, &mut fault), SMAP_BAD_OPTION);
        assert_eq!(smap_find_all(map, at_positions, 1, 0, found.as_mut_ptr(), 2, &mut fault), SMAP_LENGTHS);
        assert_eq!(smap_find_all(map, at_positions, 2, 3, found.as_mut_ptr(), 2, &mut fault), SMAP_BAD_OPTION);
        assert_eq!(smap_generated(map, 0, 0, 0, 0, &mut number, &mut token), SMAP_NO_INDEX);
        assert_eq!(smap_index_sources(map, null_mut()), SMAP_OK);
        assert_eq!(smap_generated(map, 0, 0, 0, 4, &mut number, &mut token), SMAP_BAD_OPTION);
        assert_eq!(smap_all_generated(map, 0, 0, 0, 4, null_mut(), 0, &mut count), SMAP_BAD_OPTION);
        assert_eq!(smap_source_mapping_url(at(""), 0, 2, &mut url, &mut fault), SMAP_BAD_OPTION);
        let maps = [map.cast_const(), map.cast_const()];
        assert_eq!(smap_join_all(maps.as_ptr(), 2, at_positions, 1, &mut out, &mut fault), SMAP_LENGTHS);
        assert_eq!(smap_remap(map, &text("a.ts"), 1, maps.as_ptr(), 2, &mut out, &mut fault), SMAP_LENGTHS);
        assert_eq!((number, count, found, mapped.kind), (7, 7, [7, 7], 7));
        assert!(out.is_null());
        smap_free_map(map);
    }
}

#[test]
fn texts_that_are_not_utf8() {
    let (map, bad) = (read(JSON), b"ab\xff");
    let (mut made, mut string, mut url, mut fault) = (null_mut(), null_mut(), text(""), smap_fault::default());
    let (first, len) = (bad.as_ptr().cast(), bad.len());
    let list = [text("a"), smap_text { at: first, len }];
    // SAFETY: pointers are null or to live values, and lengths are theirs.
    unsafe {
        macro_rules! refused {
            ($($call:ident($($word:expr),*);)*) => {$(
                assert_eq!(($call($($word,)* &mut fault), fault.code, fault.detail), (SMAP_NOT_UTF8, SMAP_NOT_UTF8, 2));
                fault = smap_fault::default();
            )*};
        }
        refused! {
            smap_from_json_string(first, len, &mut made);
            smap_read_found(first, len, &mut made, null_mut());
            smap_set_file(map, first, len);
            smap_set_source_root(map, first, len);
            smap_set_debug_id(map, first, len);
            smap_set_sources(map, list.as_ptr(), 2);
            smap_set_source_contents(map, list.as_ptr(), 2);
            smap_evaluate(list.as_ptr(), 2, null(), 0, &mut made);
            smap_decode_mappings(first, len, 0, 0, &mut made);
            smap_visualize(map, first, len, &mut string);
            smap_visualizer_url(map, first, len, &mut string);
            smap_source_mapping_url(first, len, SMAP_JAVASCRIPT, &mut url);
            smap_decode_data_url(first, len, &mut string);
        }
        assert!(made.is_null() && string.is_null());
        smap_free_map(map);
    }
}

#[test]
fn a_builder_builds_and_is_new_again() {
    let (mut builder, mut map, mut id, mut fault) = (null_mut(), null_mut(), 7, smap_fault::default());
    let mut out = text("");
    let token =
        |dst_col, source_id, name_id| smap_token { dst_line: 0, dst_col, src_line: 1, src_col: 2, source_id, name_id };
    let tokens = [token(0, 0, 0), token(4, 1, SMAP_NO_ID), token(9, SMAP_NO_ID, SMAP_NO_ID)];
    // SAFETY: pointers are null or to live values, lengths are theirs, and handles are freed once.
    unsafe {
        assert_eq!(smap_builder_new(&mut builder, null_mut()), SMAP_OK);
        for (name, wanted) in [("x", 0), ("y", 1), ("x", 0)] {
            assert_eq!(smap_builder_add_name(builder, at(name), name.len(), &mut id, null_mut()), SMAP_OK);
            assert_eq!(id, wanted);
        }
        assert_eq!(smap_builder_add_name(builder, at("y"), 1, null_mut(), null_mut()), SMAP_OK);
        for (path, content, wanted) in [("a.ts", "A", 0), ("b.ts", "B", 1), ("a.ts", "other", 0)] {
            let (at_path, at_content) = (at(path), at(content));
            let code = smap_builder_add_source_and_content(
                builder,
                at_path,
                path.len(),
                at_content,
                content.len(),
                &mut id,
                null_mut(),
            );
            assert_eq!((code, id), (SMAP_OK, wanted));
        }
        assert_eq!((smap_builder_add_source(builder, at("c.ts"), 4, &mut id, null_mut()), id), (SMAP_OK, 2));
        assert_eq!((smap_builder_add_source(builder, at("b.ts"), 4, &mut id, null_mut()), id), (SMAP_OK, 1));
        assert_eq!(smap_builder_set_file(builder, at("out.js"), 6, null_mut()), SMAP_OK);
        assert_eq!(smap_builder_set_file(builder, b"\xff".as_ptr().cast(), 1, &mut fault), SMAP_NOT_UTF8);
        assert_eq!(smap_builder_add_tokens(builder, tokens.as_ptr(), 3, null_mut()), SMAP_OK);
        assert_eq!(smap_builder_finish(builder, &mut map, null_mut()), SMAP_OK);
        let mut string = null_mut();
        assert_eq!(smap_to_json_string(map, &mut string, null_mut()), SMAP_OK);
        assert_eq!(smap_get_text(string, &mut out), SMAP_OK);
        let wanted = r#"{"version":3,"file":"out.js","names":["x","y"],"sources":["a.ts","b.ts","c.ts"],"sourcesContent":["A","B",null],"mappings":"AACEA,ICAA,K"}"#;
        assert_eq!(lent(out), wanted);
        smap_free_string(string);
        smap_free_map(map);
        assert_eq!(smap_builder_finish(builder, &mut map, null_mut()), SMAP_OK);
        assert_eq!((mappings_of(map).as_str(), smap_get_file(map, &mut out)), ("", SMAP_NO_ENTRY));
        smap_free_map(map);
        smap_free_builder(builder);
    }
}

#[test]
fn a_join_joins_and_is_new_again() {
    let (map, mut join, mut out) = (read(JSON), null_mut(), null_mut());
    // SAFETY: pointers are null or to live values, and handles are freed once.
    unsafe {
        assert_eq!(smap_join_new(&mut join, null_mut()), SMAP_OK);
        assert_eq!(smap_join_add(join, map, 0, 0, null_mut()), SMAP_OK);
        assert_eq!(smap_join_add(join, map, 1, 9, null_mut()), SMAP_OK);
        assert_eq!(smap_join_add(join, map, u32::MAX, 0, null_mut()), SMAP_TOO_LARGE);
        assert_eq!(smap_join_finish(join, &mut out, null_mut()), SMAP_OK);
        assert_eq!(mappings_of(out), "AAAAA,IACA;EAAA,OEDAC,IACA;EAAA");
        smap_free_map(out);
        assert_eq!(smap_join_finish(join, &mut out, null_mut()), SMAP_OK);
        assert_eq!(mappings_of(out), "");
        smap_free_map(out);
        smap_free_join(join);
        smap_free_map(map);
    }
}

#[test]
fn a_list_is_counted_and_cut() {
    let (map, mut count, mut ids) = (read(JSON), 7, [7; 2]);
    let mut tokens = [smap_token::default(); 2];
    // SAFETY: pointers are null or to live values, and lengths are theirs.
    unsafe {
        assert_eq!(smap_set_ignore_list(map, [1, 0, 1].as_ptr(), 3, null_mut()), SMAP_OK);
        assert_eq!((smap_get_ignore_list(map, null_mut(), 0, &mut count), count), (SMAP_OK, 3));
        assert_eq!((smap_get_ignore_list(map, ids.as_mut_ptr(), 2, &mut count), count), (SMAP_OK, 3));
        assert_eq!(ids, [1, 0]);
        assert_eq!((smap_get_tokens(map, tokens.as_mut_ptr(), 2, &mut count), count), (SMAP_OK, 3));
        assert_eq!((tokens[0].name_id, tokens[1].dst_col, tokens[1].src_line), (0, 4, 1));
        smap_free_map(map);
    }
}

#[test]
fn messages_and_names() {
    let (mut map, mut fault, mut bytes) = (null_mut(), smap_fault::default(), [b'#'; 8]);
    let json = r#"{"version":7}"#;
    // SAFETY: pointers are null or to live values, and lengths are theirs.
    unsafe {
        assert_eq!(smap_message(&fault, null_mut(), 0), 0);
        assert_eq!(smap_from_json_string(at(json), json.len(), &mut map, &mut fault), SMAP_JSON_VERSION);
        let message = "JSON parsing error: unsupported source map version: 7";
        assert_eq!(smap_message(&fault, bytes.as_mut_ptr().cast(), 4), message.len());
        assert_eq!(&bytes, b"JSON####");
        assert_eq!(smap_place_message(&fault, bytes.as_mut_ptr().cast(), 8), "version".len());
        assert_eq!(&bytes, b"version#");
        assert_eq!(CStr::from_ptr(smap_code_name(fault.code)).to_str(), Ok("SMAP_JSON_VERSION"));
        assert_eq!(CStr::from_ptr(smap_code_name(999)).to_str(), Ok("SMAP_UNKNOWN"));
    }
}

/// Codes are called by their names.
#[test]
fn each_code_has_its_name() {
    macro_rules! named {
        ($($code:ident)*) => {$(
            // SAFETY: the call gives a constant that ends with a zero byte.
            assert_eq!(unsafe { CStr::from_ptr(smap_code_name($code)) }.to_str(), Ok(stringify!($code)));
        )*};
    }
    named! {
        SMAP_OK SMAP_VLQ_LEFTOVER SMAP_VLQ_NO_VALUES SMAP_VLQ_OVERFLOW SMAP_JSON_READING SMAP_JSON_SHAPE SMAP_JSON_VERSION
        SMAP_BAD_SEGMENT_SIZE SMAP_BAD_SOURCE_REFERENCE SMAP_BAD_NAME_REFERENCE SMAP_OUT_OF_MEMORY SMAP_TOO_LARGE SMAP_LINE_ORDER
        SMAP_BAD_CHUNKS SMAP_SEVERAL_SOURCES SMAP_UNSORTED SMAP_TOO_DEEP SMAP_WORDS SMAP_NO_TEXT SMAP_SECTION_ORDER
        SMAP_INPUT_LINE_ORDER SMAP_BAD_BASE64 SMAP_BAD_DATA_UTF8 SMAP_NOT_COMPILED SMAP_COMPILED_VERSION
        SMAP_COMPILED_LENGTH SMAP_COMPILED_SIZES SMAP_BAD_SCOPES SMAP_SCOPES_NOT_TEXT SMAP_SCOPES_INDEXED SMAP_NULL_HANDLE SMAP_NOT_UTF8 SMAP_LENGTHS
        SMAP_NO_ENTRY SMAP_NO_INDEX SMAP_BAD_OPTION SMAP_NO_FILE SMAP_SHARED SMAP_NOT_SHARED
    }
}
