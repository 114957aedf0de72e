"""What calls take and return: constants, and tuples with named fields."""

from __future__ import annotations

import ctypes
from collections.abc import Callable
from enum import IntEnum
from typing import TYPE_CHECKING, NamedTuple, Optional, TypeVar, Union

from . import _library
from ._library import NO_ID, NOT_TOLD, lib

if TYPE_CHECKING:
    from _typeshed import ReadableBuffer as Buffer

    from ._map import SourceMap

Text = Union[str, "Buffer"]
"""A text to read: a str, or bytes that are UTF-8."""


class Code(IntEnum):
    """What is wrong, as `SourceMapError.code`. The names are those of oxc_sourcemap.h, without `SMAP_`.

    OUT_OF_MEMORY is raised as MemoryError, and NULL_HANDLE as ValueError; no call raises NO_ENTRY (None), NO_FILE (OSError), SHARED
    or NOT_SHARED.

    >>> Code.LINE_ORDER.value
    12
    """

    OK = 0
    VLQ_LEFTOVER = 1
    VLQ_NO_VALUES = 2
    VLQ_OVERFLOW = 3
    JSON_READING = 4
    JSON_SHAPE = 5
    JSON_VERSION = 6
    BAD_SEGMENT_SIZE = 7
    BAD_SOURCE_REFERENCE = 8
    BAD_NAME_REFERENCE = 9
    OUT_OF_MEMORY = 10
    TOO_LARGE = 11
    LINE_ORDER = 12
    BAD_CHUNKS = 13
    SEVERAL_SOURCES = 14
    UNSORTED = 15
    TOO_DEEP = 16
    WORDS = 17
    NO_TEXT = 18
    SECTION_ORDER = 19
    INPUT_LINE_ORDER = 20
    BAD_BASE64 = 21
    BAD_DATA_UTF8 = 22
    NOT_COMPILED = 23
    COMPILED_VERSION = 24
    COMPILED_LENGTH = 25
    COMPILED_SIZES = 26
    BAD_SCOPES = 27
    SCOPES_NOT_TEXT = 28
    SCOPES_INDEXED = 29
    NULL_HANDLE = 100
    NOT_UTF8 = 101
    LENGTHS = 102
    NO_ENTRY = 103
    NO_INDEX = 104
    BAD_OPTION = 105
    NO_FILE = 106
    SHARED = 107
    NOT_SHARED = 108


class Field(IntEnum):
    """A member of the JSON value of a map, or the value itself (OBJECT)."""

    OBJECT = 0
    VERSION = 1
    FILE = 2
    MAPPINGS = 3
    SOURCE_ROOT = 4
    SOURCES = 5
    SOURCES_CONTENT = 6
    NAMES = 7
    DEBUG_ID = 8
    IGNORE_LIST = 9
    GOOGLE_IGNORE_LIST = 10
    SECTIONS = 11
    OFFSET = 12
    MAP = 13


class ScopesFault(IntEnum):
    """What is wrong with an item of a text of scopes, as `SourceMapError.field` of Code.BAD_SCOPES.

    NOT_A_DIGIT: a byte is no base64 digit.
    CUT_SHORT: its last number ends in a digit after which another has to follow.
    TOO_LARGE: a number has more than seven digits, or with it a line, a column or a source is above its limit.
    MISSING_NUMBER: it is empty, or lacks a number.
    BAD_INDEX: an index refers to no name, scope or value.
    NOTHING_OPEN: it is an end, variables, values, sub-ranges or a call site, and nothing that it could belong to is open.
    NOT_CLOSED: a source without scopes comes within the scopes of another.
    TOO_DEEP: more than 1024 scopes or ranges are nested.
    LEFT_OPEN: the text ends, and a scope or a range has no end.
    SPLIT_TWICE: it is sub-ranges of a value that has some already.
    """

    NOT_A_DIGIT = 1
    CUT_SHORT = 2
    TOO_LARGE = 3
    MISSING_NUMBER = 4
    BAD_INDEX = 5
    NOTHING_OPEN = 6
    NOT_CLOSED = 7
    TOO_DEEP = 8
    LEFT_OPEN = 9
    SPLIT_TWICE = 10


class PlaceKind(IntEnum):
    """What a `FaultPlace` is: a segment of the mappings, where a text is not JSON, a member of a map, or an entry of one."""

    NONE = 0
    SEGMENT = 1
    READING = 2
    MEMBER = 3
    ENTRY = 4


class Bias(IntEnum):
    """Which token answers for a generated position.

    BEFORE: the last one on its line at or before its column; the first of several at the column itself.
    CLAMPED: the same, or else the first one on its line.
    AFTER: the first one on its line at or after its column; the last of several at the column itself.
    """

    BEFORE = 0
    CLAMPED = 1
    AFTER = 2


class Direction(IntEnum):
    """Which tokens answer for an original position.

    AT: those at this line and column of the source.
    FOR: those at the last column with tokens at or before this one on the line.
    FROM: those at the first column with tokens at or after this one on the line.
    ON_LINE: those on this line; the column is not read.
    """

    AT = 0
    FOR = 1
    FROM = 2
    ON_LINE = 3


class TextKind(IntEnum):
    """A text of a compiled map."""

    NAME = 0
    SOURCE = 1
    SOURCE_CONTENT = 2
    FILE = 3
    SOURCE_ROOT = 4
    DEBUG_ID = 5


class Language(IntEnum):
    """The language of a code."""

    JAVASCRIPT = 0
    CSS = 1


class Kind(IntEnum):
    """What a lookup found: no token, a token without a source, an original position, or one with a name."""

    NOTHING = 0
    UNMAPPED = 1
    MAPPED = 2
    NAMED = 3


class MendKind(IntEnum):
    """What was mended in a map that was read by `SourceMap.read_found`."""

    BYTE_ORDER_MARK = 1
    JSON_PREFIX = 2
    DATA_URL = 3
    VERSION = 4
    NO_SOURCES = 5
    NULL_SOURCE = 6
    NO_CONTENTS = 7
    BAD_CONTENT = 8
    NULL_NAMES = 9
    NO_IGNORE_LIST = 10
    BAD_IGNORED_ID = 11
    NO_GOOGLE_IGNORE_LIST = 12
    BAD_GOOGLE_IGNORED_ID = 13
    SOURCE_IDS = 14
    NAME_IDS = 15
    UNSORTED = 16
    CUT = 17


class Token(NamedTuple):
    """A generated position (`dst_line`, `dst_col`) and what it points to. Without a source it is unmapped."""

    dst_line: int
    dst_col: int
    src_line: int
    src_col: int
    source_id: Optional[int]
    name_id: Optional[int]


class Position(NamedTuple):
    """A position of a code."""

    line: int
    column: int


class Original(NamedTuple):
    """What a lookup found: an original position, and the token that points there with its index in the map.

    `source`, `line`, `column` and `name` are None if the token has no source, and `name` is None if it has no name.
    """

    source: Optional[str]
    line: Optional[int]
    column: Optional[int]
    name: Optional[str]
    token_index: int
    token: Token

    @property
    def kind(self) -> Kind:
        """UNMAPPED, MAPPED or NAMED.

        >>> Original("a.ts", 2, 0, None, 7, Token(0, 4, 2, 0, 0, None)).kind.name
        'MAPPED'
        """
        if self.source is None:
            return Kind.UNMAPPED
        return Kind.MAPPED if self.name is None else Kind.NAMED


class Generated(NamedTuple):
    """A token that was generated from an original position, and its index in the map."""

    token_index: int
    token: Token


class Piece(NamedTuple):
    """A piece of generated code, from `begin` up to but not including `end`, and the index of the token that is found at each of
    its positions; None if none is."""

    begin: Position
    end: Position
    token_index: Optional[int]


class Counts(NamedTuple):
    """The number of entries of each list of a map, and of its lines; and the bytes of its texts, tokens and indices, plus
    some 50 for each text."""

    tokens: int
    names: int
    sources: int
    source_contents: int
    ignore_list: int
    lines: int
    bytes: int


class CompiledCounts(NamedTuple):
    """The number of entries of each list of a compiled map; `ignored` is None if it has no ignore list."""

    tokens: int
    sources: int
    names: int
    ignored: Optional[int]


class ScopesCounts(NamedTuple):
    """How many sources have a tree of scopes or none, and how many scopes and ranges there are."""

    sources: int
    scopes: int
    ranges: int


class Scope(NamedTuple):
    """A scope of a source, from `start` up to but not including `end`: a function, a block, a class or the like. The ids are those of
    the source, of its name, and of the name that is its kind. A stack frame is a function: its call makes a frame. `parent` is
    the index of the innermost scope around it."""

    source_id: int
    start: Position
    end: Position
    name_id: Optional[int]
    kind_id: Optional[int]
    is_stack_frame: bool
    parent: Optional[int]


class Call(NamedTuple):
    """Where in a source a function was called."""

    source_id: int
    line: int
    column: int


class Range(NamedTuple):
    """A range of the generated code, from `start` up to but not including `end`, and the index of the scope that it is the code of. If
    a function was inlined here, `call` is where it was called. A hidden range, such as a helper, has no frame in the source. `parent` is
    the index of the innermost range around it."""

    start: Position
    end: Position
    definition: Optional[int]
    is_stack_frame: bool
    is_hidden: bool
    call: Optional[Call]
    parent: Optional[int]


class ScopeFrame(NamedTuple):
    """A frame of a stack trace in the source: the id of the name of its function, the index of the scope that is the function, and the
    call of an inlined function where the frame is; `call` is None for the first frame, which is at the position of `SourceMap.trace`."""

    name_id: Optional[int]
    scope: Optional[int]
    call: Optional[Call]


class Frames(NamedTuple):
    """The frames of the source that a position stands for, from the inside out, and whether the source has no such frame, as where a
    helper was made."""

    frames: list[ScopeFrame]
    is_hidden: bool


class ScopeVariable(NamedTuple):
    """A variable of a scope, and its value at a position: the ids of its name, and of the name that is the expression for the value, or
    None if it has none there. `name` and `value` are their texts if a map was given."""

    name_id: int
    value_id: Optional[int]
    name: Optional[str]
    value: Optional[str]


class ScopeChainEntry(NamedTuple):
    """A scope that a position of the generated code is in, and the innermost range there that is the code of it, both by their index;
    and the variables of the scope, with the values that they have in that range. Without one no variable has a value."""

    scope: int
    range: Optional[int]
    variables: list[ScopeVariable]


class SourceFrame(NamedTuple):
    """A frame of a stack trace in the source, with the texts of its map: for the first frame the position that `SourceMap.trace` returns,
    or None three times if there is none; for any other that of the call, whose source is None if the map lacks it. `name` is None if the
    function has none, or the map lacks it."""

    source: Optional[str]
    line: Optional[int]
    column: Optional[int]
    name: Optional[str]


class ScopeView(NamedTuple):
    """A `ScopeChainEntry` as a debugger shows it, with the texts of the scope's kind, as "function", and of its name; None if it has
    none, or the map lacks it."""

    scope: int
    range: Optional[int]
    variables: list[ScopeVariable]
    kind: Optional[str]
    name: Optional[str]


class FrameView(NamedTuple):
    """A `SourceFrame` with the scopes that it is in, from the inside out."""

    source: Optional[str]
    line: Optional[int]
    column: Optional[int]
    name: Optional[str]
    scopes: list[ScopeView]


class Mend(NamedTuple):
    """What was mended: its kind, the number of the section in an indexed map, and the index of an entry or how many tokens.

    >>> Mend(MendKind.NULL_SOURCE, None, 7).message
    'source 7 is null, and is read as an empty text'
    """

    kind: Union[MendKind, int]
    section: Optional[int]
    number: int

    @property
    def message(self) -> str:
        """The mend as words."""
        section = NOT_TOLD if self.section is None else self.section
        return message_of(lib.smap_mend_message, _library.Mend(self.kind, section, self.number))


class Found(NamedTuple):
    """A map as it was found, and what was mended in it."""

    map: SourceMap
    mends: list[Mend]


class FaultPlace(NamedTuple):
    """The place of a fault in the input. Members of other kinds of place are None.

    A segment of the mappings has its generated line, its number on the line (`column`), and the byte of the mappings where it
    begins. A text that is not JSON has a line, the bytes of the line before (`column`), and the byte of the text. A member of a
    map has its field, and an entry its field and its index. `text` is the number of the text, of several, and `section` that of
    the section in an indexed map.
    """

    kind: Union[PlaceKind, int]
    field: Union[Field, int, None]
    text: Optional[int]
    section: Optional[int]
    line: Optional[int]
    column: Optional[int]
    byte: Optional[int]
    entry: Optional[int]
    message: str
    """The place in one line."""


Constants = TypeVar("Constants", bound=IntEnum)


def named(constants: type[Constants], number: int) -> Union[Constants, int]:
    """The constant of a number, or the number of a newer library."""
    try:
        return constants(number)
    except ValueError:
        return number


def message_of(call: Callable[..., int], value: ctypes.Structure) -> str:
    """What a call writes of a struct into a buffer that it is given."""
    room = 256
    while True:
        buffer = ctypes.create_string_buffer(room)
        length = call(value, buffer, room)
        if length <= room:
            return buffer.raw[:length].decode(errors="replace")
        room = length


def id_of(number: int) -> Optional[int]:
    """An id or an index as the library has it, or None."""
    return None if number == NO_ID else number


def token_of(token: _library.Token) -> Token:
    """A token as the library has it."""
    return Token(
        token.dst_line, token.dst_col, token.src_line, token.src_col, id_of(token.source_id), id_of(token.name_id)
    )
