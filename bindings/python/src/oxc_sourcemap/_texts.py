"""Calls over texts alone."""

from __future__ import annotations

import ctypes
from collections.abc import Callable
from ctypes import byref
from typing import Optional

from . import _library
from ._errors import check, check_code
from ._library import lib
from ._numbers import Tokens, bytes_of, limit_of, number, text_at, tokens_of
from ._values import Code, Language, Text


def written_bytes(call: Callable[..., int]) -> Optional[bytes]:
    """The bytes that a call makes, which gets where to put the string and the fault; None where it reports that there are none."""
    string, fault, text = ctypes.c_void_p(), _library.Fault(), _library.Text()
    try:
        code = call(byref(string), byref(fault))
        if code == Code.NO_ENTRY:
            return None
        check(code, fault)
        check_code(lib.smap_get_text(string, byref(text)))
        return ctypes.string_at(text.at, text.len) if text.len else b""
    finally:
        lib.smap_free_string(string)


def written_or_none(call: Callable[..., int]) -> Optional[str]:
    """The same as a text."""
    data = written_bytes(call)
    return None if data is None else data.decode()


def written(call: Callable[..., int]) -> str:
    """The same for a call that always makes one."""
    return written_or_none(call) or ""


def encode_mappings(tokens: Tokens, *, limit: Optional[int] = None) -> str:
    """The mappings text of tokens: `Token`, or a buffer of unsigned 32-bit numbers, six for each, where NO_ID stands for no id.

    Raises SourceMapError of LINE_ORDER if a token is on a line before that of the token in front of it, or of TOO_LARGE, also if the
    text has more than `limit` bytes.

    >>> from oxc_sourcemap import Token
    >>> encode_mappings([Token(0, 0, 0, 0, 0, None), Token(1, 4, 0, 7, 0, 0)])
    'AAAA;IAAOA'
    """
    rows, count = tokens_of(tokens)
    if limit is None:
        return written(lambda *out: lib.smap_encode_mappings(rows, count, *out))
    most = limit_of(limit)
    return written(lambda *out: lib.smap_encode_mappings_within(rows, count, most, *out))


def decode_data_url(url: Text) -> Optional[str]:
    """The text in a data URL of JSON, base64 or percent-encoded; None if it is no data URL of JSON.

    Raises SourceMapError of BAD_BASE64 or BAD_DATA_UTF8.

    >>> decode_data_url("data:application/json;base64,e30=")
    '{}'
    >>> print(decode_data_url("a.js.map"))
    None
    """
    data = bytes_of(url, "url")
    return written_or_none(lambda *out: lib.smap_decode_data_url(data, len(data), *out))


def source_mapping_url(code: Text, language: int = Language.JAVASCRIPT) -> Optional[str]:
    """The URL of the map in the code's last sourceMappingURL comment; None if there is none.

    Raises SourceMapError of BAD_OPTION.

    >>> source_mapping_url("let a;\\n//# sourceMappingURL=a.js.map\\n")
    'a.js.map'
    """
    data, text, fault = bytes_of(code, "code"), _library.Text(), _library.Fault()
    answer = lib.smap_source_mapping_url(data, len(data), number(language), byref(text), byref(fault))
    if answer == Code.NO_ENTRY:
        return None
    check(answer, fault)
    return text_at(text.at, text.len)
