"""Errors, from the faults of the library."""

from __future__ import annotations

from typing import Optional, Union

from . import _library
from ._library import NOT_TOLD, lib
from ._values import Code, FaultPlace, Field, PlaceKind, ScopesFault, message_of, named


class SourceMapError(ValueError):
    """A call that was refused. It left the object and its arguments unchanged.

    >>> from oxc_sourcemap import SourceMap
    >>> try:
    ...     SourceMap.from_json('{"version":3,"sources":["a.ts"],"mappings":"AAAA;A,AA"}')
    ... except SourceMapError as error:
    ...     print(error, error.name, error.detail, error.place.message, sep=" | ")
    Mapping segment had an unsupported size of 2 | SMAP_BAD_SEGMENT_SIZE | 2 | line 1, segment 1 (byte 7)
    """

    code: Union[Code, int]
    """The code of the error: a `Code`, or a plain number of a newer library."""
    name: str
    """The name of the code in oxc_sourcemap.h."""
    message: str
    """The text of `str`: the error as a message."""
    field: Union[Field, ScopesFault, int, None]
    """The member that is missing or has the wrong type, of Code.JSON_SHAPE; what is wrong, of Code.BAD_SCOPES."""
    detail: int
    """The number that belongs to the code: an id, an index, a byte, a size, a version; else 0."""
    place: Optional[FaultPlace]
    """The place of the fault in the input, if it is known."""

    def __init__(
        self,
        message: str,
        code: Union[Code, int],
        name: str,
        field: Union[Field, ScopesFault, int, None] = None,
        detail: int = 0,
        place: Optional[FaultPlace] = None,
    ) -> None:
        super().__init__(message, code, name, field, detail, place)
        self.message, self.code, self.name = message, code, name
        self.field, self.detail, self.place = field, detail, place

    def __str__(self) -> str:
        return self.message


def _told(number: int) -> Optional[int]:
    return None if number == NOT_TOLD else number


def _place_of(fault: _library.Fault) -> Optional[FaultPlace]:
    place = fault.place
    if place.kind == PlaceKind.NONE:
        return None
    has_field = place.kind in (PlaceKind.MEMBER, PlaceKind.ENTRY)
    return FaultPlace(
        named(PlaceKind, place.kind),
        named(Field, place.field) if has_field else None,
        _told(place.text),
        _told(place.section),
        None if has_field else place.line,
        None if has_field else place.column,
        None if has_field else place.byte,
        place.entry if place.kind == PlaceKind.ENTRY else None,
        message_of(lib.smap_place_message, fault),
    )


def _field_of(fault: _library.Fault) -> Union[Field, ScopesFault, int, None]:
    if fault.code == Code.BAD_SCOPES:
        return named(ScopesFault, fault.field)
    return named(Field, fault.field) if fault.code == Code.JSON_SHAPE else None


def error_of(fault: _library.Fault) -> Exception:
    """The exception that a fault is raised as."""
    if fault.code == Code.OUT_OF_MEMORY:
        return MemoryError(message_of(lib.smap_message, fault))
    code_name: bytes = lib.smap_code_name(fault.code)
    name = code_name.decode()
    return SourceMapError(
        message_of(lib.smap_message, fault) or name,
        named(Code, fault.code),
        name,
        _field_of(fault),
        fault.detail,
        _place_of(fault),
    )


def check(code: int, fault: _library.Fault) -> None:
    """Raises what a call reports."""
    if code:
        raise error_of(fault)


def check_code(code: int) -> None:
    """The same for a call that reports its code alone."""
    if code:
        raise error_of(_library.Fault(code))
