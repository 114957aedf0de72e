"""The answers of lookups by ctypes alone, for where _fast.c was not compiled. Both modules have the same calls."""

from __future__ import annotations

import ctypes
from collections.abc import Callable, Mapping
from threading import get_ident
from typing import Optional, Union

from . import _library
from ._library import lib
from ._numbers import number, text_at
from ._values import Code, Kind, Original, Token, token_of


def bind(call: int, compiled: int, original: type[Original], token: type[Token]) -> None:
    """Takes the addresses of `smap_trace` and `smap_compiled_trace` and the types of answers, which this module knows."""


def original_of(found: _library.Original) -> Optional[Original]:
    """What a lookup found; the map whose texts it borrows is not changed meanwhile."""
    kind, token = found.kind, found.token
    if kind == Kind.NOTHING:
        return None
    if kind == Kind.UNMAPPED:
        return Original(None, None, None, None, found.index, token_of(token))
    name = text_at(found.name.at, found.name.len) if kind == Kind.NAMED else None
    source = text_at(found.source.at, found.source.len)
    return Original(source, token.src_line, token.src_col, name, found.index, token_of(token))


def trace(leases: Mapping[int, tuple[int, object]], line: int, column: int, bias: int) -> Union[Original, int, None]:
    """What a lookup finds in the map that this thread reads by one of these, or the code of an error; NULL_HANDLE without one."""
    return _traced(lambda *asked: lib.smap_trace(*asked, None), leases, line, column, bias)


def trace_compiled(
    leases: Mapping[int, tuple[int, object]], line: int, column: int, bias: int
) -> Union[Original, int, None]:
    """The same in a compiled map. Raises UnicodeDecodeError of a text that is not UTF-8."""
    return _traced(lib.smap_compiled_trace, leases, line, column, bias)


def _traced(
    call: Callable[..., int], leases: Mapping[int, tuple[int, object]], line: int, column: int, bias: int
) -> Union[Original, int, None]:
    held = None
    try:
        held = leases.get(get_ident())
        if held is None:
            return int(Code.NULL_HANDLE)
        found = _library.Original()
        numbers = number(line), number(column), number(bias)
        code = call(held[0], *numbers, ctypes.byref(found))
        return code or original_of(found)
    finally:
        # A traceback may outlive the call, and who changes the map waits for its leases.
        del held


def originals(address: int, count: int) -> list[Optional[Original]]:
    """What so many lookups found, by the address of the first answer."""
    return [original_of(it) for it in (_library.Original * count).from_address(address)] if count else []
