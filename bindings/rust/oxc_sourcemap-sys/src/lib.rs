//! The declarations of `oxc_sourcemap.h`, version 1, for Rust. The header describes each call and what its caller has to keep;
//! the crate `oxc_sourcemap` beside this one is the safe way to use them.
//!
//! `build.rs` finds the library, and its head lists where: a packed crate has it in `lib/TARGET`. `OXC_SOURCEMAP_LINK` sets how it is
//! linked, `static` or `dynamic`; without it the link is static where the folder has an archive. A program that is linked dynamically has
//! to find the library when it runs, as by `LD_LIBRARY_PATH`.
//!
//! ```
//! use oxc_sourcemap_sys::*;
//! use std::ptr::{null, null_mut};
//!
//! let json = r#"{"version":3,"sources":["a.ts"],"mappings":"AAAA,GAASA"}"#;
//! let mut map = null_mut();
//! let mut fault = smap_fault::default();
//! // SAFETY: pointers are null or to live values, and lengths are theirs; the map is freed once.
//! unsafe {
//!     let code = smap_from_json_string(json.as_ptr().cast(), json.len(), &mut map, &mut fault);
//!     assert_eq!((code, fault.code), (SMAP_BAD_NAME_REFERENCE, SMAP_BAD_NAME_REFERENCE));
//!     assert_eq!((fault.place.kind, fault.place.column, fault.place.byte), (SMAP_PLACE_SEGMENT, 1, 5));
//!     assert_eq!(map, null_mut());
//!     assert_eq!(smap_from_tokens(null(), 0, null(), 0, null(), 0, null(), 0, null(), 0, &mut map, null_mut()), SMAP_OK);
//!     smap_free_map(map);
//! }
//! ```
#![no_std]
#![allow(non_camel_case_types)]
#![deny(unsafe_op_in_unsafe_fn)]

use core::ffi::{c_char, c_void};
use core::marker::{PhantomData, PhantomPinned};

/// The version of the interface that is declared here.
pub const SMAP_VERSION: u32 = 2;
/// Stands for no id.
pub const SMAP_NO_ID: u32 = u32::MAX;
/// Stands for no text and no section in a place.
pub const SMAP_NOT_TOLD: u64 = u64::MAX;

// The codes of errors.
pub const SMAP_OK: u32 = 0;
pub const SMAP_VLQ_LEFTOVER: u32 = 1;
pub const SMAP_VLQ_NO_VALUES: u32 = 2;
pub const SMAP_VLQ_OVERFLOW: u32 = 3;
pub const SMAP_JSON_READING: u32 = 4;
pub const SMAP_JSON_SHAPE: u32 = 5;
pub const SMAP_JSON_VERSION: u32 = 6;
pub const SMAP_BAD_SEGMENT_SIZE: u32 = 7;
pub const SMAP_BAD_SOURCE_REFERENCE: u32 = 8;
pub const SMAP_BAD_NAME_REFERENCE: u32 = 9;
pub const SMAP_OUT_OF_MEMORY: u32 = 10;
pub const SMAP_TOO_LARGE: u32 = 11;
pub const SMAP_LINE_ORDER: u32 = 12;
pub const SMAP_BAD_CHUNKS: u32 = 13;
pub const SMAP_SEVERAL_SOURCES: u32 = 14;
pub const SMAP_UNSORTED: u32 = 15;
pub const SMAP_TOO_DEEP: u32 = 16;
pub const SMAP_WORDS: u32 = 17;
pub const SMAP_NO_TEXT: u32 = 18;
pub const SMAP_SECTION_ORDER: u32 = 19;
pub const SMAP_INPUT_LINE_ORDER: u32 = 20;
pub const SMAP_BAD_BASE64: u32 = 21;
pub const SMAP_BAD_DATA_UTF8: u32 = 22;
pub const SMAP_NOT_COMPILED: u32 = 23;
pub const SMAP_COMPILED_VERSION: u32 = 24;
pub const SMAP_COMPILED_LENGTH: u32 = 25;
pub const SMAP_COMPILED_SIZES: u32 = 26;
pub const SMAP_BAD_SCOPES: u32 = 27;
pub const SMAP_SCOPES_NOT_TEXT: u32 = 28;
pub const SMAP_SCOPES_INDEXED: u32 = 29;
pub const SMAP_NULL_HANDLE: u32 = 100;
pub const SMAP_NOT_UTF8: u32 = 101;
pub const SMAP_LENGTHS: u32 = 102;
pub const SMAP_NO_ENTRY: u32 = 103;
pub const SMAP_NO_INDEX: u32 = 104;
pub const SMAP_BAD_OPTION: u32 = 105;
pub const SMAP_NO_FILE: u32 = 106;
pub const SMAP_SHARED: u32 = 107;
pub const SMAP_NOT_SHARED: u32 = 108;

// Fields of JSON maps.
pub const SMAP_FIELD_OBJECT: u32 = 0;
pub const SMAP_FIELD_VERSION: u32 = 1;
pub const SMAP_FIELD_FILE: u32 = 2;
pub const SMAP_FIELD_MAPPINGS: u32 = 3;
pub const SMAP_FIELD_SOURCE_ROOT: u32 = 4;
pub const SMAP_FIELD_SOURCES: u32 = 5;
pub const SMAP_FIELD_SOURCES_CONTENT: u32 = 6;
pub const SMAP_FIELD_NAMES: u32 = 7;
pub const SMAP_FIELD_DEBUG_ID: u32 = 8;
pub const SMAP_FIELD_IGNORE_LIST: u32 = 9;
pub const SMAP_FIELD_GOOGLE_IGNORE_LIST: u32 = 10;
pub const SMAP_FIELD_SECTIONS: u32 = 11;
pub const SMAP_FIELD_OFFSET: u32 = 12;
pub const SMAP_FIELD_MAP: u32 = 13;

// What is wrong in a text of scopes.
pub const SMAP_SCOPES_NOT_A_DIGIT: u32 = 1;
pub const SMAP_SCOPES_CUT_SHORT: u32 = 2;
pub const SMAP_SCOPES_TOO_LARGE: u32 = 3;
pub const SMAP_SCOPES_MISSING_NUMBER: u32 = 4;
pub const SMAP_SCOPES_BAD_INDEX: u32 = 5;
pub const SMAP_SCOPES_NOTHING_OPEN: u32 = 6;
pub const SMAP_SCOPES_NOT_CLOSED: u32 = 7;
pub const SMAP_SCOPES_TOO_DEEP: u32 = 8;
pub const SMAP_SCOPES_LEFT_OPEN: u32 = 9;
pub const SMAP_SCOPES_SPLIT_TWICE: u32 = 10;

// The kinds of places.
pub const SMAP_PLACE_NONE: u32 = 0;
pub const SMAP_PLACE_SEGMENT: u32 = 1;
pub const SMAP_PLACE_READING: u32 = 2;
pub const SMAP_PLACE_MEMBER: u32 = 3;
pub const SMAP_PLACE_ENTRY: u32 = 4;

// Which token answers for a generated position.
pub const SMAP_BEFORE: u32 = 0;
pub const SMAP_CLAMPED: u32 = 1;
pub const SMAP_AFTER: u32 = 2;

// The kinds of what a lookup returns.
pub const SMAP_NOTHING: u32 = 0;
pub const SMAP_UNMAPPED: u32 = 1;
pub const SMAP_MAPPED: u32 = 2;
pub const SMAP_NAMED: u32 = 3;

// The kinds of what was mended.
pub const SMAP_MEND_BYTE_ORDER_MARK: u32 = 1;
pub const SMAP_MEND_JSON_PREFIX: u32 = 2;
pub const SMAP_MEND_DATA_URL: u32 = 3;
pub const SMAP_MEND_VERSION: u32 = 4;
pub const SMAP_MEND_NO_SOURCES: u32 = 5;
pub const SMAP_MEND_NULL_SOURCE: u32 = 6;
pub const SMAP_MEND_NO_CONTENTS: u32 = 7;
pub const SMAP_MEND_BAD_CONTENT: u32 = 8;
pub const SMAP_MEND_NULL_NAMES: u32 = 9;
pub const SMAP_MEND_NO_IGNORE_LIST: u32 = 10;
pub const SMAP_MEND_BAD_IGNORED_ID: u32 = 11;
pub const SMAP_MEND_NO_GOOGLE_IGNORE_LIST: u32 = 12;
pub const SMAP_MEND_BAD_GOOGLE_IGNORED_ID: u32 = 13;
pub const SMAP_MEND_SOURCE_IDS: u32 = 14;
pub const SMAP_MEND_NAME_IDS: u32 = 15;
pub const SMAP_MEND_UNSORTED: u32 = 16;
pub const SMAP_MEND_CUT: u32 = 17;

// Which tokens answer for an original position.
pub const SMAP_AT: u32 = 0;
pub const SMAP_FOR: u32 = 1;
pub const SMAP_FROM: u32 = 2;
pub const SMAP_ON_LINE: u32 = 3;

// The texts of a compiled map.
pub const SMAP_TEXT_NAME: u32 = 0;
pub const SMAP_TEXT_SOURCE: u32 = 1;
pub const SMAP_TEXT_SOURCE_CONTENT: u32 = 2;
pub const SMAP_TEXT_FILE: u32 = 3;
pub const SMAP_TEXT_SOURCE_ROOT: u32 = 4;
pub const SMAP_TEXT_DEBUG_ID: u32 = 5;

// The languages of codes.
pub const SMAP_JAVASCRIPT: u32 = 0;
pub const SMAP_CSS: u32 = 1;

/// What a handle points to is the library's own. It may be read by several threads at once, and moves by its pointer alone.
type Own = PhantomData<(*mut u8, PhantomPinned)>;

/// A map.
#[repr(C)]
pub struct smap_map {
    _own: [u8; 0],
    _marker: Own,
}

/// A text that the library made.
#[repr(C)]
pub struct smap_string {
    _own: [u8; 0],
    _marker: Own,
}

/// A map that is being built.
#[repr(C)]
pub struct smap_builder {
    _own: [u8; 0],
    _marker: Own,
}

/// Maps that are being joined.
#[repr(C)]
pub struct smap_join {
    _own: [u8; 0],
    _marker: Own,
}

/// What was mended in a map.
#[repr(C)]
pub struct smap_mends {
    _own: [u8; 0],
    _marker: Own,
}

/// A compiled map that is open.
#[repr(C)]
pub struct smap_compiled {
    _own: [u8; 0],
    _marker: Own,
}

/// The scopes of a map.
#[repr(C)]
pub struct smap_scopes {
    _own: [u8; 0],
    _marker: Own,
}

/// A file in memory.
#[repr(C)]
pub struct smap_file {
    _own: [u8; 0],
    _marker: Own,
}

/// A text: bytes that you pass, or that belong to a handle.
#[repr(C)]
#[derive(Clone, Copy, Debug)]
pub struct smap_text {
    pub at: *const c_char,
    pub len: usize,
}

/// Where in the input an error is. Its kind determines which numbers describe it; the others are 0.
#[repr(C)]
#[derive(Clone, Copy, Debug, Default, PartialEq, Eq)]
pub struct smap_fault_place {
    pub kind: u32,
    pub field: u32,
    pub text: u64,
    pub section: u64,
    pub line: u64,
    pub column: u64,
    pub byte: u64,
    pub entry: u64,
}

/// An error: its code, the field that it is about, the number that it carries, and its place.
#[repr(C)]
#[derive(Clone, Copy, Debug, Default, PartialEq, Eq)]
pub struct smap_fault {
    pub code: u32,
    pub field: u32,
    pub detail: u64,
    pub place: smap_fault_place,
}

/// The number of entries of each list of a map, of its lines, and of the bytes of memory that it holds.
#[repr(C)]
#[derive(Clone, Copy, Debug, Default, PartialEq, Eq)]
pub struct smap_counts {
    pub tokens: usize,
    pub names: usize,
    pub sources: usize,
    pub source_contents: usize,
    pub ignore_list: usize,
    pub lines: usize,
    pub bytes: usize,
}

/// A token: a generated position and what it points to. Without a source it is unmapped.
#[repr(C)]
#[derive(Clone, Copy, Debug, Default, PartialEq, Eq)]
pub struct smap_token {
    pub dst_line: u32,
    pub dst_col: u32,
    pub src_line: u32,
    pub src_col: u32,
    pub source_id: u32,
    pub name_id: u32,
}

/// A position of a code.
#[repr(C)]
#[derive(Clone, Copy, Debug, Default, PartialEq, Eq)]
pub struct smap_position {
    pub line: u32,
    pub column: u32,
}

/// What a lookup returns: a token, its index, and the texts that it points to.
#[repr(C)]
#[derive(Clone, Copy, Debug)]
pub struct smap_original {
    pub kind: u32,
    pub index: u32,
    pub token: smap_token,
    pub source: smap_text,
    pub name: smap_text,
}

/// A piece of a range of generated code, from a position up to but not including another, and the index of its token.
#[repr(C)]
#[derive(Clone, Copy, Debug, Default, PartialEq, Eq)]
pub struct smap_piece {
    pub begin: smap_position,
    pub end: smap_position,
    pub index: u32,
}

/// What was mended.
#[repr(C)]
#[derive(Clone, Copy, Debug, Default, PartialEq, Eq)]
pub struct smap_mend {
    pub kind: u32,
    pub section: u64,
    pub number: u64,
}

/// The numbers of entries of a compiled map, whether it has an ignore list, and the length of its text.
#[repr(C)]
#[derive(Clone, Copy, Debug, Default, PartialEq, Eq)]
pub struct smap_compiled_counts {
    pub tokens: u64,
    pub sources: u64,
    pub names: u64,
    pub ignored: u64,
    pub text_length: u64,
    pub has_ignore_list: u32,
    pub rest: u32,
}

/// How many sources have a tree of scopes or none, and how many scopes and ranges there are.
#[repr(C)]
#[derive(Clone, Copy, Debug, Default, PartialEq, Eq)]
pub struct smap_scopes_counts {
    pub sources: u64,
    pub scopes: u64,
    pub ranges: u64,
}

/// A scope of a source, from a position up to but not including another.
#[repr(C)]
#[derive(Clone, Copy, Debug, Default, PartialEq, Eq)]
pub struct smap_scope {
    pub source: u32,
    pub start: smap_position,
    pub end: smap_position,
    pub name: u32,
    pub kind: u32,
    pub is_stack_frame: u32,
    pub parent: u32,
}

/// Where in a source a function was called.
#[repr(C)]
#[derive(Clone, Copy, Debug, Default, PartialEq, Eq)]
pub struct smap_call {
    pub source: u32,
    pub line: u32,
    pub column: u32,
}

/// A range of the generated code, from a position up to but not including another.
#[repr(C)]
#[derive(Clone, Copy, Debug, Default, PartialEq, Eq)]
pub struct smap_range {
    pub start: smap_position,
    pub end: smap_position,
    pub definition: u32,
    pub is_stack_frame: u32,
    pub is_hidden: u32,
    pub call: smap_call,
    pub parent: u32,
}

/// A frame of a stack trace in the source: the name of its function, the index of its scope, and the call where the frame is.
#[repr(C)]
#[derive(Clone, Copy, Debug, Default, PartialEq, Eq)]
pub struct smap_frame {
    pub name: u32,
    pub scope: u32,
    pub call: smap_call,
}

/// A scope that a position of the generated code is in, and the innermost range there that is the code of it, by their indices.
#[repr(C)]
#[derive(Clone, Copy, Debug, Default, PartialEq, Eq)]
pub struct smap_chain_entry {
    pub scope: u32,
    pub range: u32,
}

unsafe extern "C" {
    pub fn smap_version() -> u32;
    pub fn smap_from_json_string(
        json: *const c_char,
        json_len: usize,
        out: *mut *mut smap_map,
        fault: *mut smap_fault,
    ) -> u32;
    pub fn smap_read_found(
        text: *const c_char,
        text_len: usize,
        out: *mut *mut smap_map,
        mends: *mut *mut smap_mends,
        fault: *mut smap_fault,
    ) -> u32;
    pub fn smap_get_mends(mends: *const smap_mends, out: *mut smap_mend, out_len: usize, count: *mut usize) -> u32;
    pub fn smap_mend_message(mend: *const smap_mend, out: *mut c_char, out_len: usize) -> usize;
    pub fn smap_from_tokens(
        tokens: *const smap_token,
        tokens_len: usize,
        names: *const smap_text,
        names_len: usize,
        sources: *const smap_text,
        sources_len: usize,
        contents: *const smap_text,
        contents_len: usize,
        ignore_list: *const u32,
        ignore_list_len: usize,
        out: *mut *mut smap_map,
        fault: *mut smap_fault,
    ) -> u32;
    pub fn smap_clone(map: *const smap_map, out: *mut *mut smap_map, fault: *mut smap_fault) -> u32;
    pub fn smap_share_map(map: *mut smap_map, fault: *mut smap_fault) -> u32;
    pub fn smap_retain_map(map: *const smap_map, out: *mut *mut smap_map, fault: *mut smap_fault) -> u32;
    pub fn smap_free_map(map: *mut smap_map);
    pub fn smap_free_mends(mends: *mut smap_mends);
    pub fn smap_get_counts(map: *const smap_map, out: *mut smap_counts) -> u32;
    pub fn smap_is_sorted(map: *const smap_map, out: *mut u32) -> u32;
    pub fn smap_is_sound(map: *const smap_map, out: *mut u32) -> u32;
    pub fn smap_get_name(map: *const smap_map, id: u32, out: *mut smap_text) -> u32;
    pub fn smap_get_source(map: *const smap_map, id: u32, out: *mut smap_text) -> u32;
    pub fn smap_get_source_content(map: *const smap_map, id: u32, out: *mut smap_text) -> u32;
    pub fn smap_get_file(map: *const smap_map, out: *mut smap_text) -> u32;
    pub fn smap_get_source_root(map: *const smap_map, out: *mut smap_text) -> u32;
    pub fn smap_get_debug_id(map: *const smap_map, out: *mut smap_text) -> u32;
    pub fn smap_get_token(map: *const smap_map, index: u32, out: *mut smap_token) -> u32;
    pub fn smap_get_tokens(map: *const smap_map, out: *mut smap_token, out_len: usize, count: *mut usize) -> u32;
    pub fn smap_get_names(map: *const smap_map, out: *mut smap_text, out_len: usize, count: *mut usize) -> u32;
    pub fn smap_get_sources(map: *const smap_map, out: *mut smap_text, out_len: usize, count: *mut usize) -> u32;
    pub fn smap_get_source_contents(
        map: *const smap_map,
        out: *mut smap_text,
        out_len: usize,
        count: *mut usize,
    ) -> u32;
    pub fn smap_get_ignore_list(map: *const smap_map, out: *mut u32, out_len: usize, count: *mut usize) -> u32;
    pub fn smap_trace(
        map: *const smap_map,
        line: u32,
        column: u32,
        bias: u32,
        out: *mut smap_original,
        fault: *mut smap_fault,
    ) -> u32;
    pub fn smap_trace_all(
        map: *const smap_map,
        positions: *const smap_position,
        positions_len: usize,
        bias: u32,
        out: *mut smap_original,
        out_len: usize,
        fault: *mut smap_fault,
    ) -> u32;
    pub fn smap_find_all(
        map: *const smap_map,
        positions: *const smap_position,
        positions_len: usize,
        bias: u32,
        out: *mut u32,
        out_len: usize,
        fault: *mut smap_fault,
    ) -> u32;
    pub fn smap_pieces(
        map: *const smap_map,
        begin: smap_position,
        end: smap_position,
        out: *mut smap_piece,
        out_len: usize,
        count: *mut usize,
    ) -> u32;
    pub fn smap_first_difference(map: *const smap_map, other: *const smap_map, out: *mut smap_position) -> u32;
    pub fn smap_index_sources(map: *mut smap_map, fault: *mut smap_fault) -> u32;
    pub fn smap_generated(
        map: *const smap_map,
        source_id: u32,
        line: u32,
        column: u32,
        direction: u32,
        index: *mut u32,
        token: *mut smap_token,
    ) -> u32;
    pub fn smap_all_generated(
        map: *const smap_map,
        source_id: u32,
        line: u32,
        column: u32,
        direction: u32,
        out: *mut u32,
        out_len: usize,
        count: *mut usize,
    ) -> u32;
    pub fn smap_compile(
        map: *const smap_map,
        text_length: u64,
        stamp: *const u8,
        out: *mut *mut smap_string,
        fault: *mut smap_fault,
    ) -> u32;
    pub fn smap_open_compiled(
        bytes: *const c_void,
        len: usize,
        out: *mut *mut smap_compiled,
        fault: *mut smap_fault,
    ) -> u32;
    pub fn smap_free_compiled(compiled: *mut smap_compiled);
    pub fn smap_map_file(
        path: *const c_char,
        out: *mut *mut smap_file,
        bytes: *mut smap_text,
        fault: *mut smap_fault,
    ) -> u32;
    pub fn smap_free_file(file: *mut smap_file);
    pub fn smap_compiled_get_counts(compiled: *const smap_compiled, out: *mut smap_compiled_counts) -> u32;
    pub fn smap_compiled_trace(
        compiled: *const smap_compiled,
        line: u32,
        column: u32,
        bias: u32,
        out: *mut smap_original,
    ) -> u32;
    pub fn smap_compiled_trace_all(
        compiled: *const smap_compiled,
        positions: *const smap_position,
        positions_len: usize,
        bias: u32,
        out: *mut smap_original,
        out_len: usize,
    ) -> u32;
    pub fn smap_compiled_find_all(
        compiled: *const smap_compiled,
        positions: *const smap_position,
        positions_len: usize,
        bias: u32,
        out: *mut u32,
        out_len: usize,
    ) -> u32;
    pub fn smap_compiled_get_token(compiled: *const smap_compiled, index: u32, out: *mut smap_token) -> u32;
    pub fn smap_compiled_get_text(compiled: *const smap_compiled, kind: u32, id: u32, out: *mut smap_text) -> u32;
    pub fn smap_compiled_get_stamp(compiled: *const smap_compiled, out: *mut smap_text) -> u32;
    pub fn smap_compiled_is_ignored(compiled: *const smap_compiled, id: u32, out: *mut u32) -> u32;
    pub fn smap_decompile(compiled: *const smap_compiled, out: *mut *mut smap_map, fault: *mut smap_fault) -> u32;
    pub fn smap_read_scopes(
        json: *const c_char,
        json_len: usize,
        out: *mut *mut smap_scopes,
        fault: *mut smap_fault,
    ) -> u32;
    pub fn smap_decode_scopes(
        text: *const c_char,
        text_len: usize,
        names: usize,
        out: *mut *mut smap_scopes,
        fault: *mut smap_fault,
    ) -> u32;
    pub fn smap_free_scopes(scopes: *mut smap_scopes);
    pub fn smap_scopes_get_counts(scopes: *const smap_scopes, out: *mut smap_scopes_counts) -> u32;
    pub fn smap_get_scope(scopes: *const smap_scopes, index: u32, out: *mut smap_scope) -> u32;
    pub fn smap_get_range(scopes: *const smap_scopes, index: u32, out: *mut smap_range) -> u32;
    pub fn smap_scope_at(scopes: *const smap_scopes, source: u32, line: u32, column: u32, out: *mut u32) -> u32;
    pub fn smap_function_at(scopes: *const smap_scopes, source: u32, line: u32, column: u32, out: *mut u32) -> u32;
    pub fn smap_range_at(scopes: *const smap_scopes, line: u32, column: u32, out: *mut u32) -> u32;
    pub fn smap_frames_at(
        scopes: *const smap_scopes,
        line: u32,
        column: u32,
        out: *mut smap_frame,
        out_len: usize,
        count: *mut usize,
        is_hidden: *mut u32,
    ) -> u32;
    pub fn smap_get_variables(
        scopes: *const smap_scopes,
        scope: u32,
        out: *mut u32,
        out_len: usize,
        count: *mut usize,
    ) -> u32;
    pub fn smap_value_at(
        scopes: *const smap_scopes,
        range: u32,
        variable: u32,
        line: u32,
        column: u32,
        out: *mut u32,
    ) -> u32;
    pub fn smap_scope_chain_at(
        scopes: *const smap_scopes,
        line: u32,
        column: u32,
        out: *mut smap_chain_entry,
        out_len: usize,
        count: *mut usize,
    ) -> u32;
    pub fn smap_scope_chain(
        scopes: *const smap_scopes,
        frame: u32,
        line: u32,
        column: u32,
        out: *mut smap_chain_entry,
        out_len: usize,
        count: *mut usize,
    ) -> u32;
    pub fn smap_set_file(map: *mut smap_map, file: *const c_char, file_len: usize, fault: *mut smap_fault) -> u32;
    pub fn smap_set_source_root(
        map: *mut smap_map,
        root: *const c_char,
        root_len: usize,
        fault: *mut smap_fault,
    ) -> u32;
    pub fn smap_set_debug_id(map: *mut smap_map, id: *const c_char, id_len: usize, fault: *mut smap_fault) -> u32;
    pub fn smap_set_ignore_list(map: *mut smap_map, ids: *const u32, ids_len: usize, fault: *mut smap_fault) -> u32;
    pub fn smap_set_sources(
        map: *mut smap_map,
        sources: *const smap_text,
        sources_len: usize,
        fault: *mut smap_fault,
    ) -> u32;
    pub fn smap_set_source_contents(
        map: *mut smap_map,
        contents: *const smap_text,
        contents_len: usize,
        fault: *mut smap_fault,
    ) -> u32;
    pub fn smap_apply_source_root(map: *mut smap_map, fault: *mut smap_fault) -> u32;
    pub fn smap_sort(map: *mut smap_map, fault: *mut smap_fault) -> u32;
    pub fn smap_simplify(map: *mut smap_map, fault: *mut smap_fault) -> u32;
    pub fn smap_compose(
        map: *const smap_map,
        input: *const smap_map,
        out: *mut *mut smap_map,
        fault: *mut smap_fault,
    ) -> u32;
    pub fn smap_remap(
        map: *const smap_map,
        paths: *const smap_text,
        paths_len: usize,
        inputs: *const *const smap_map,
        inputs_len: usize,
        out: *mut *mut smap_map,
        fault: *mut smap_fault,
    ) -> u32;
    pub fn smap_join_all(
        maps: *const *const smap_map,
        maps_len: usize,
        positions: *const smap_position,
        positions_len: usize,
        out: *mut *mut smap_map,
        fault: *mut smap_fault,
    ) -> u32;
    pub fn smap_join_new(out: *mut *mut smap_join, fault: *mut smap_fault) -> u32;
    pub fn smap_join_add(
        join: *mut smap_join,
        map: *const smap_map,
        line: u32,
        column: u32,
        fault: *mut smap_fault,
    ) -> u32;
    pub fn smap_join_finish(join: *mut smap_join, out: *mut *mut smap_map, fault: *mut smap_fault) -> u32;
    pub fn smap_free_join(join: *mut smap_join);
    pub fn smap_evaluate(
        words: *const smap_text,
        words_len: usize,
        texts: *const smap_text,
        texts_len: usize,
        out: *mut *mut smap_map,
        fault: *mut smap_fault,
    ) -> u32;
    pub fn smap_builder_new(out: *mut *mut smap_builder, fault: *mut smap_fault) -> u32;
    pub fn smap_builder_add_name(
        builder: *mut smap_builder,
        name: *const c_char,
        name_len: usize,
        id: *mut u32,
        fault: *mut smap_fault,
    ) -> u32;
    pub fn smap_builder_add_source_and_content(
        builder: *mut smap_builder,
        path: *const c_char,
        path_len: usize,
        content: *const c_char,
        content_len: usize,
        id: *mut u32,
        fault: *mut smap_fault,
    ) -> u32;
    pub fn smap_builder_add_source(
        builder: *mut smap_builder,
        path: *const c_char,
        path_len: usize,
        id: *mut u32,
        fault: *mut smap_fault,
    ) -> u32;
    pub fn smap_builder_add_tokens(
        builder: *mut smap_builder,
        tokens: *const smap_token,
        tokens_len: usize,
        fault: *mut smap_fault,
    ) -> u32;
    pub fn smap_builder_set_file(
        builder: *mut smap_builder,
        file: *const c_char,
        file_len: usize,
        fault: *mut smap_fault,
    ) -> u32;
    pub fn smap_builder_finish(builder: *mut smap_builder, out: *mut *mut smap_map, fault: *mut smap_fault) -> u32;
    pub fn smap_free_builder(builder: *mut smap_builder);
    pub fn smap_to_json_string(map: *const smap_map, out: *mut *mut smap_string, fault: *mut smap_fault) -> u32;
    pub fn smap_to_data_url(map: *const smap_map, out: *mut *mut smap_string, fault: *mut smap_fault) -> u32;
    pub fn smap_get_mappings(map: *const smap_map, out: *mut *mut smap_string, fault: *mut smap_fault) -> u32;
    pub fn smap_encode_mappings(
        tokens: *const smap_token,
        tokens_len: usize,
        out: *mut *mut smap_string,
        fault: *mut smap_fault,
    ) -> u32;
    pub fn smap_to_json_string_within(
        map: *const smap_map,
        limit: usize,
        out: *mut *mut smap_string,
        fault: *mut smap_fault,
    ) -> u32;
    pub fn smap_to_data_url_within(
        map: *const smap_map,
        limit: usize,
        out: *mut *mut smap_string,
        fault: *mut smap_fault,
    ) -> u32;
    pub fn smap_get_mappings_within(
        map: *const smap_map,
        limit: usize,
        out: *mut *mut smap_string,
        fault: *mut smap_fault,
    ) -> u32;
    pub fn smap_encode_mappings_within(
        tokens: *const smap_token,
        tokens_len: usize,
        limit: usize,
        out: *mut *mut smap_string,
        fault: *mut smap_fault,
    ) -> u32;
    pub fn smap_decode_mappings(
        mappings: *const c_char,
        mappings_len: usize,
        names: usize,
        sources: usize,
        out: *mut *mut smap_map,
        fault: *mut smap_fault,
    ) -> u32;
    pub fn smap_visualize(
        map: *const smap_map,
        code: *const c_char,
        code_len: usize,
        out: *mut *mut smap_string,
        fault: *mut smap_fault,
    ) -> u32;
    pub fn smap_visualizer_url(
        map: *const smap_map,
        code: *const c_char,
        code_len: usize,
        out: *mut *mut smap_string,
        fault: *mut smap_fault,
    ) -> u32;
    pub fn smap_get_text(string: *const smap_string, out: *mut smap_text) -> u32;
    pub fn smap_free_string(string: *mut smap_string);
    pub fn smap_source_mapping_url(
        code: *const c_char,
        code_len: usize,
        language: u32,
        out: *mut smap_text,
        fault: *mut smap_fault,
    ) -> u32;
    pub fn smap_decode_data_url(
        url: *const c_char,
        url_len: usize,
        out: *mut *mut smap_string,
        fault: *mut smap_fault,
    ) -> u32;
    pub fn smap_message(fault: *const smap_fault, out: *mut c_char, out_len: usize) -> usize;
    pub fn smap_place_message(fault: *const smap_fault, out: *mut c_char, out_len: usize) -> usize;
    pub fn smap_reason_message(
        text: *const c_char,
        text_len: usize,
        fault: *const smap_fault,
        out: *mut c_char,
        out_len: usize,
    ) -> usize;
    pub fn smap_code_name(code: u32) -> *const c_char;
}
