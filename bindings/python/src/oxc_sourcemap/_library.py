"""The shared library by ctypes: its structs, its calls, and where it is found. All of it follows oxc_sourcemap.h, with which
tests/test_header.py compares it."""

from __future__ import annotations

import ctypes
import os
from ctypes import POINTER, Structure, c_char_p, c_size_t, c_uint32, c_uint64, c_void_p
from collections.abc import Callable
from pathlib import Path
from typing import Any, Protocol, cast

VERSION = 2
"""The version of the interface that this package is written for."""

NO_ID = 0xFFFFFFFF
"""Stands for no id in arrays of numbers."""

NOT_TOLD = 0xFFFFFFFFFFFFFFFF


class Text(Structure):
    _fields_ = [("at", c_void_p), ("len", c_size_t)]


class FaultPlace(Structure):
    _fields_ = [("kind", c_uint32), ("field", c_uint32), ("text", c_uint64), ("section", c_uint64), ("line", c_uint64),
                ("column", c_uint64), ("byte", c_uint64), ("entry", c_uint64)]  # fmt: skip


class Fault(Structure):
    _fields_ = [("code", c_uint32), ("field", c_uint32), ("detail", c_uint64), ("place", FaultPlace)]


class Counts(Structure):
    _fields_ = [("tokens", c_size_t), ("names", c_size_t), ("sources", c_size_t), ("source_contents", c_size_t),
                ("ignore_list", c_size_t), ("lines", c_size_t), ("bytes", c_size_t)]  # fmt: skip


class Token(Structure):
    _fields_ = [("dst_line", c_uint32), ("dst_col", c_uint32), ("src_line", c_uint32), ("src_col", c_uint32),
                ("source_id", c_uint32), ("name_id", c_uint32)]  # fmt: skip


class Position(Structure):
    _fields_ = [("line", c_uint32), ("column", c_uint32)]


class Original(Structure):
    _fields_ = [("kind", c_uint32), ("index", c_uint32), ("token", Token), ("source", Text), ("name", Text)]


class Piece(Structure):
    _fields_ = [("begin", Position), ("end", Position), ("index", c_uint32)]


class Mend(Structure):
    _fields_ = [("kind", c_uint32), ("section", c_uint64), ("number", c_uint64)]


class CompiledCounts(Structure):
    _fields_ = [("tokens", c_uint64), ("sources", c_uint64), ("names", c_uint64), ("ignored", c_uint64), ("text_length", c_uint64),
                ("has_ignore_list", c_uint32), ("rest", c_uint32)]  # fmt: skip


class ScopesCounts(Structure):
    _fields_ = [("sources", c_uint64), ("scopes", c_uint64), ("ranges", c_uint64)]


class Scope(Structure):
    _fields_ = [("source", c_uint32), ("start", Position), ("end", Position), ("name", c_uint32), ("kind", c_uint32),
                ("is_stack_frame", c_uint32), ("parent", c_uint32)]  # fmt: skip


class Call(Structure):
    _fields_ = [("source", c_uint32), ("line", c_uint32), ("column", c_uint32)]


class Range(Structure):
    _fields_ = [("start", Position), ("end", Position), ("definition", c_uint32), ("is_stack_frame", c_uint32),
                ("is_hidden", c_uint32), ("call", Call), ("parent", c_uint32)]  # fmt: skip


class Frame(Structure):
    _fields_ = [("name", c_uint32), ("scope", c_uint32), ("call", Call)]


class ChainEntry(Structure):
    _fields_ = [("scope", c_uint32), ("range", c_uint32)]


# The types of parameters: a handle and an array go by their address, texts as bytes, and what is written by reference.
_u32, _size, _handle, _array, _bytes = c_uint32, c_size_t, c_void_p, c_void_p, c_char_p
_made, _number, _count, _fault = POINTER(c_void_p), POINTER(c_uint32), POINTER(c_size_t), POINTER(Fault)
_text, _token, _position = POINTER(Text), POINTER(Token), POINTER(Position)

# For each call its result and its parameters.
PROTOTYPES: dict[str, tuple[Any, ...]] = {
    "smap_version": (_u32,),
    "smap_from_json_string": (_u32, _bytes, _size, _made, _fault),
    "smap_read_found": (_u32, _bytes, _size, _made, _made, _fault),
    "smap_get_mends": (_u32, _handle, _array, _size, _count),
    "smap_mend_message": (_size, POINTER(Mend), _array, _size),
    "smap_from_tokens": (_u32, _array, _size, _array, _size, _array, _size, _array, _size, _array, _size, _made, _fault),
    "smap_clone": (_u32, _handle, _made, _fault),
    "smap_share_map": (_u32, _handle, _fault),
    "smap_retain_map": (_u32, _handle, _made, _fault),
    "smap_free_map": (None, _handle),
    "smap_free_mends": (None, _handle),
    "smap_get_counts": (_u32, _handle, POINTER(Counts)),
    "smap_is_sorted": (_u32, _handle, _number),
    "smap_is_sound": (_u32, _handle, _number),
    "smap_get_name": (_u32, _handle, _u32, _text),
    "smap_get_source": (_u32, _handle, _u32, _text),
    "smap_get_source_content": (_u32, _handle, _u32, _text),
    "smap_get_file": (_u32, _handle, _text),
    "smap_get_source_root": (_u32, _handle, _text),
    "smap_get_debug_id": (_u32, _handle, _text),
    "smap_get_token": (_u32, _handle, _u32, _token),
    "smap_get_tokens": (_u32, _handle, _array, _size, _count),
    "smap_get_names": (_u32, _handle, _array, _size, _count),
    "smap_get_sources": (_u32, _handle, _array, _size, _count),
    "smap_get_source_contents": (_u32, _handle, _array, _size, _count),
    "smap_get_ignore_list": (_u32, _handle, _array, _size, _count),
    "smap_trace": (_u32, _handle, _u32, _u32, _u32, POINTER(Original), _fault),
    "smap_trace_all": (_u32, _handle, _array, _size, _u32, _array, _size, _fault),
    "smap_find_all": (_u32, _handle, _array, _size, _u32, _array, _size, _fault),
    "smap_pieces": (_u32, _handle, Position, Position, _array, _size, _count),
    "smap_first_difference": (_u32, _handle, _handle, _position),
    "smap_index_sources": (_u32, _handle, _fault),
    "smap_generated": (_u32, _handle, _u32, _u32, _u32, _u32, _number, _token),
    "smap_all_generated": (_u32, _handle, _u32, _u32, _u32, _u32, _array, _size, _count),
    "smap_compile": (_u32, _handle, c_uint64, _array, _made, _fault),
    "smap_open_compiled": (_u32, _array, _size, _made, _fault),
    "smap_free_compiled": (None, _handle),
    "smap_map_file": (_u32, _bytes, _made, _text, _fault),
    "smap_free_file": (None, _handle),
    "smap_compiled_get_counts": (_u32, _handle, POINTER(CompiledCounts)),
    "smap_compiled_trace": (_u32, _handle, _u32, _u32, _u32, POINTER(Original)),
    "smap_compiled_trace_all": (_u32, _handle, _array, _size, _u32, _array, _size),
    "smap_compiled_find_all": (_u32, _handle, _array, _size, _u32, _array, _size),
    "smap_compiled_get_token": (_u32, _handle, _u32, _token),
    "smap_compiled_get_text": (_u32, _handle, _u32, _u32, _text),
    "smap_compiled_get_stamp": (_u32, _handle, _text),
    "smap_compiled_is_ignored": (_u32, _handle, _u32, _number),
    "smap_decompile": (_u32, _handle, _made, _fault),
    "smap_read_scopes": (_u32, _bytes, _size, _made, _fault),
    "smap_decode_scopes": (_u32, _bytes, _size, _size, _made, _fault),
    "smap_free_scopes": (None, _handle),
    "smap_scopes_get_counts": (_u32, _handle, POINTER(ScopesCounts)),
    "smap_get_scope": (_u32, _handle, _u32, POINTER(Scope)),
    "smap_get_range": (_u32, _handle, _u32, POINTER(Range)),
    "smap_scope_at": (_u32, _handle, _u32, _u32, _u32, _number),
    "smap_function_at": (_u32, _handle, _u32, _u32, _u32, _number),
    "smap_range_at": (_u32, _handle, _u32, _u32, _number),
    "smap_frames_at": (_u32, _handle, _u32, _u32, _array, _size, _count, _number),
    "smap_get_variables": (_u32, _handle, _u32, _array, _size, _count),
    "smap_value_at": (_u32, _handle, _u32, _u32, _u32, _u32, _number),
    "smap_scope_chain_at": (_u32, _handle, _u32, _u32, _array, _size, _count),
    "smap_scope_chain": (_u32, _handle, _u32, _u32, _u32, _array, _size, _count),
    "smap_set_file": (_u32, _handle, _bytes, _size, _fault),
    "smap_set_source_root": (_u32, _handle, _bytes, _size, _fault),
    "smap_set_debug_id": (_u32, _handle, _bytes, _size, _fault),
    "smap_set_ignore_list": (_u32, _handle, _array, _size, _fault),
    "smap_set_sources": (_u32, _handle, _array, _size, _fault),
    "smap_set_source_contents": (_u32, _handle, _array, _size, _fault),
    "smap_apply_source_root": (_u32, _handle, _fault),
    "smap_sort": (_u32, _handle, _fault),
    "smap_simplify": (_u32, _handle, _fault),
    "smap_compose": (_u32, _handle, _handle, _made, _fault),
    "smap_remap": (_u32, _handle, _array, _size, _array, _size, _made, _fault),
    "smap_join_all": (_u32, _array, _size, _array, _size, _made, _fault),
    "smap_join_new": (_u32, _made, _fault),
    "smap_join_add": (_u32, _handle, _handle, _u32, _u32, _fault),
    "smap_join_finish": (_u32, _handle, _made, _fault),
    "smap_free_join": (None, _handle),
    "smap_evaluate": (_u32, _array, _size, _array, _size, _made, _fault),
    "smap_builder_new": (_u32, _made, _fault),
    "smap_builder_add_name": (_u32, _handle, _bytes, _size, _number, _fault),
    "smap_builder_add_source_and_content": (_u32, _handle, _bytes, _size, _bytes, _size, _number, _fault),
    "smap_builder_add_source": (_u32, _handle, _bytes, _size, _number, _fault),
    "smap_builder_add_tokens": (_u32, _handle, _array, _size, _fault),
    "smap_builder_set_file": (_u32, _handle, _bytes, _size, _fault),
    "smap_builder_finish": (_u32, _handle, _made, _fault),
    "smap_free_builder": (None, _handle),
    "smap_to_json_string": (_u32, _handle, _made, _fault),
    "smap_to_data_url": (_u32, _handle, _made, _fault),
    "smap_get_mappings": (_u32, _handle, _made, _fault),
    "smap_encode_mappings": (_u32, _array, _size, _made, _fault),
    "smap_to_json_string_within": (_u32, _handle, _size, _made, _fault),
    "smap_to_data_url_within": (_u32, _handle, _size, _made, _fault),
    "smap_get_mappings_within": (_u32, _handle, _size, _made, _fault),
    "smap_encode_mappings_within": (_u32, _array, _size, _size, _made, _fault),
    "smap_decode_mappings": (_u32, _bytes, _size, _size, _size, _made, _fault),
    "smap_visualize": (_u32, _handle, _bytes, _size, _made, _fault),
    "smap_visualizer_url": (_u32, _handle, _bytes, _size, _made, _fault),
    "smap_get_text": (_u32, _handle, _text),
    "smap_free_string": (None, _handle),
    "smap_source_mapping_url": (_u32, _bytes, _size, _u32, _text, _fault),
    "smap_decode_data_url": (_u32, _bytes, _size, _made, _fault),
    "smap_message": (_size, _fault, _array, _size),
    "smap_place_message": (_size, _fault, _array, _size),
    "smap_reason_message": (_size, _bytes, _size, _fault, _array, _size),
    "smap_code_name": (c_char_p, _u32),
}


class Calls(Protocol):
    """The calls of the library. All but one return a number, or nothing."""

    def smap_code_name(self, code: int, /) -> bytes: ...

    def __getattr__(self, name: str, /) -> Callable[..., int]: ...


def _found() -> Path:
    """Where the library is: what OXC_SOURCEMAP_LIB names, or beside this file, or in target/ of the repository."""
    if named := os.environ.get("OXC_SOURCEMAP_LIB"):
        return Path(named)
    here = Path(__file__).resolve()
    own = here.with_name("liboxc_sourcemap.so")
    return own if own.exists() or len(here.parents) < 5 else here.parents[4] / "target" / own.name


def _loaded() -> ctypes.CDLL:
    path = _found()
    try:
        library = ctypes.CDLL(str(path))
        for name, (result, *parameters) in PROTOTYPES.items():
            call = getattr(library, name)
            call.restype, call.argtypes = result, parameters
    except (OSError, AttributeError) as error:
        raise ImportError(f"{path} is no library that oxc_sourcemap can use: {error}") from error
    if (version := library.smap_version()) < VERSION:
        raise ImportError(f"{path} has version {version} of the interface, and oxc_sourcemap needs {VERSION}")
    return library


lib = cast(Calls, _loaded())
