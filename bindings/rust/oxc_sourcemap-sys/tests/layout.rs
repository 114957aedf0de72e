//! Structs have the layout of the header, as its last lines state their sizes, on machines with pointers of 8 bytes.
#![cfg(target_pointer_width = "64")]

use oxc_sourcemap_sys::*;
use std::mem::{align_of, offset_of, size_of};

macro_rules! layout {
    ($struct:ident, $size:literal, $align:literal, { $($field:ident: $offset:literal,)* }) => {
        assert_eq!((size_of::<$struct>(), align_of::<$struct>()), ($size, $align), stringify!($struct));
        $(assert_eq!(offset_of!($struct, $field), $offset, concat!(stringify!($struct), ".", stringify!($field)));)*
    };
}

#[test]
fn layouts() {
    layout!(smap_text, 16, 8, { at: 0, len: 8, });
    layout!(smap_fault_place, 56, 8, {
        kind: 0, field: 4, text: 8, section: 16, line: 24, column: 32, byte: 40, entry: 48,
    });
    layout!(smap_fault, 72, 8, { code: 0, field: 4, detail: 8, place: 16, });
    layout!(smap_counts, 56, 8, {
        tokens: 0, names: 8, sources: 16, source_contents: 24, ignore_list: 32, lines: 40, bytes: 48,
    });
    layout!(smap_token, 24, 4, { dst_line: 0, dst_col: 4, src_line: 8, src_col: 12, source_id: 16, name_id: 20, });
    layout!(smap_position, 8, 4, { line: 0, column: 4, });
    layout!(smap_original, 64, 8, { kind: 0, index: 4, token: 8, source: 32, name: 48, });
    layout!(smap_piece, 20, 4, { begin: 0, end: 8, index: 16, });
    layout!(smap_mend, 24, 8, { kind: 0, section: 8, number: 16, });
    layout!(smap_compiled_counts, 48, 8, {
        tokens: 0, sources: 8, names: 16, ignored: 24, text_length: 32, has_ignore_list: 40, rest: 44,
    });
    layout!(smap_scopes_counts, 24, 8, { sources: 0, scopes: 8, ranges: 16, });
    layout!(smap_scope, 36, 4, {
        source: 0, start: 4, end: 12, name: 20, kind: 24, is_stack_frame: 28, parent: 32,
    });
    layout!(smap_call, 12, 4, { source: 0, line: 4, column: 8, });
    layout!(smap_range, 44, 4, {
        start: 0, end: 8, definition: 16, is_stack_frame: 20, is_hidden: 24, call: 28, parent: 40,
    });
    layout!(smap_frame, 20, 4, { name: 0, scope: 4, call: 8, });
    layout!(smap_chain_entry, 8, 4, { scope: 0, range: 4, });
}
