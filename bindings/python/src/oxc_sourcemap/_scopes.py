"""`Scopes`: the functions of sources, the frames of calls that were inlined, and the values of variables."""

from __future__ import annotations

import ctypes
from collections.abc import Callable
from contextlib import suppress
from ctypes import byref
from typing import NoReturn, Optional, Union, final

from . import _library
from ._compiled import CompiledMap
from ._errors import check_code
from ._handle import Handle
from ._library import NO_ID, lib
from ._map import SourceMap
from ._numbers import bytes_of, listed, listed_or_none, number
from ._values import (
    Bias,
    Call,
    Code,
    FrameView,
    Frames,
    Position,
    Range,
    Scope,
    ScopeChainEntry,
    ScopeFrame,
    ScopesCounts,
    ScopeVariable,
    ScopeView,
    SourceFrame,
    Text,
    id_of,
)


@final
class Scopes(Handle):
    """The scopes of a map, its member `scopes`: for each source a tree of its functions and blocks, and for the generated code a tree
    of ranges, each with the scope that it is the code of. Names and kinds are ids of names of the map. Lines, columns, ids and indices
    count from 0; columns are in UTF-16 code units. `close`, or the end of a `with`, frees them: other calls then raise ValueError.
    Threads may share them, as a `SourceMap`.

    >>> json = '{"version":3,"sources":["a.js"],"names":["f","g"],"mappings":"AAAA","scopes":"BFAAA,BFCAC,CCA,CFA,EGAA,ECKC,IAFC,FK,FU"}'
    >>> map, scopes = SourceMap.from_json(json), Scopes.read(json)
    >>> for frame in scopes.trace(map, 0, 12):
    ...     print(*frame)
    a.js 0 0 g
    a.js 5 2 f
    """

    _it_is = "The scopes are"

    def __init__(self) -> None:
        raise TypeError("Scopes are made by read or decode")

    @staticmethod
    def read(json: Text) -> Scopes:
        """Reads the scopes of a map by its JSON text, and checks nothing else of it. A map without the member, or with null, has the scopes
        of no source.

        Raises SourceMapError of NOT_UTF8, JSON_READING (without a place), SCOPES_INDEXED, SCOPES_NOT_TEXT or BAD_SCOPES. Of the last `field` is a
        `ScopesFault`, and `detail` the byte of the member at which the item at fault begins.

        >>> Scopes.read('{"names":["block"],"scopes":"A,BCCDA,CAG"}').counts()
        ScopesCounts(sources=2, scopes=1, ranges=0)
        """
        data = bytes_of(json, "json")
        return Scopes._made(lambda *out: lib.smap_read_scopes(data, len(data), *out))

    @staticmethod
    def decode(text: Text, names: int) -> Scopes:
        """Reads the member alone, of a map with so many names. Raises SourceMapError of NOT_UTF8 or BAD_SCOPES.

        >>> try:
        ...     Scopes.decode("A,BBAAC,CAA", names=1)
        ... except SourceMapError as error:
        ...     print(error, error.field.name, error.detail, sep=" | ")
        scopes, byte 2: an index leads to no name, scope or value | BAD_INDEX | 2
        """
        data, names = bytes_of(text, "text"), number(names)
        return Scopes._made(lambda *out: lib.smap_decode_scopes(data, len(data), names, *out))

    def close(self) -> None:
        """Frees the scopes, if they are not freed yet. All other calls then raise ValueError.

        >>> scopes = Scopes.decode("", names=0)
        >>> scopes.close()
        >>> scopes.closed
        True
        """
        with suppress(ValueError):
            self._exclusively(lib.smap_free_scopes, closes=True)

    def __del__(self, free: Callable[..., object] = lib.smap_free_scopes) -> None:
        super().__del__(free)

    def __reduce__(self) -> NoReturn:
        raise TypeError("Scopes cannot be pickled: the text of their map can")

    def __repr__(self) -> str:
        try:
            counts = self.counts()
        except ValueError:
            return "<Scopes: closed>"
        return f"<Scopes: {counts.sources} sources, {counts.scopes} scopes, {counts.ranges} ranges>"

    # ---- what they hold ----

    def counts(self) -> ScopesCounts:
        """How many sources have a tree of scopes or none, and how many scopes and ranges there are.

        >>> Scopes.decode("A,BAAA,CAB,EAA,FC", names=0).counts()
        ScopesCounts(sources=2, scopes=1, ranges=1)
        """
        out = self._read(_counts_in)
        return ScopesCounts(out.sources, out.scopes, out.ranges)

    @property
    def scopes(self) -> list[Scope]:
        """All scopes, in the order of their starts, those of one source after those of another.

        >>> [(scope.start.line, scope.name_id, scope.parent) for scope in Scopes.decode("BFAAA,BACA,CBA,CJA", names=1).scopes]
        [(0, 0, None), (2, None, 0)]
        """

        def copied(at: int) -> list[Scope]:
            out = _library.Scope()
            found: list[Scope] = []
            for index in range(_counts_in(at).scopes):
                check_code(lib.smap_get_scope(at, index, byref(out)))
                found.append(_scope_of(out))
            return found

        return self._read(copied)

    @property
    def ranges(self) -> list[Range]:
        """All ranges, in the order of their starts.

        >>> [(it.start.column, it.end.column, it.is_hidden) for it in Scopes.decode("EAC,EMC,FC,FC", names=0).ranges]
        [(2, 8, False), (4, 6, True)]
        """

        def copied(at: int) -> list[Range]:
            out = _library.Range()
            found: list[Range] = []
            for index in range(_counts_in(at).ranges):
                check_code(lib.smap_get_range(at, index, byref(out)))
                found.append(_range_of(out))
            return found

        return self._read(copied)

    def get_scope(self, index: int) -> Optional[Scope]:
        """The scope at an index, or None past the last one.

        >>> Scopes.decode("BFAAA,CJA", names=1).get_scope(0).end
        Position(line=9, column=0)
        """
        index, out = number(index), _library.Scope()
        code = self._read(lambda at: lib.smap_get_scope(at, index, byref(out)))
        return _scope_of(out) if _is_there(code) else None

    def get_range(self, index: int) -> Optional[Range]:
        """The range at an index, or None past the last one.

        >>> Scopes.decode("EAA,IAFC,FK", names=0).get_range(0).call
        Call(source_id=0, line=5, column=2)
        """
        index, out = number(index), _library.Range()
        code = self._read(lambda at: lib.smap_get_range(at, index, byref(out)))
        return _range_of(out) if _is_there(code) else None

    def get_variables(self, scope: int) -> Optional[list[int]]:
        """The variables of a scope by its index, as ids of names, or None past the last scope.

        >>> Scopes.decode("BFAAA,DCC,CJA", names=3).get_variables(0)
        [1, 2]
        """
        index = number(scope)
        found = self._read(lambda at: listed_or_none(lambda *out: lib.smap_get_variables(at, index, *out), "I", 1))
        return None if found is None else found.tolist()

    # ---- lookups ----

    def scope_at(self, source_id: int, line: int, column: int) -> Optional[int]:
        """The index of the innermost scope at a position of a source, or None.

        >>> Scopes.decode("BFAAA,BABA,CBA,CBA", names=1).scope_at(0, 1, 4)
        1
        """
        place, out = (number(source_id), number(line), number(column)), ctypes.c_uint32()
        code = self._read(lambda at: lib.smap_scope_at(at, *place, byref(out)))
        return out.value if _is_there(code) else None

    def function_at(self, source_id: int, line: int, column: int) -> Optional[int]:
        """The index of the innermost scope there that is a function, or None.

        >>> Scopes.decode("BFAAA,BABA,CBA,CBA", names=1).function_at(0, 1, 4)
        0
        """
        place, out = (number(source_id), number(line), number(column)), ctypes.c_uint32()
        code = self._read(lambda at: lib.smap_function_at(at, *place, byref(out)))
        return out.value if _is_there(code) else None

    def range_at(self, line: int, column: int) -> Optional[int]:
        """The index of the innermost range at a position of the generated code, or None.

        >>> Scopes.decode("EAA,EAC,FC,FC", names=0).range_at(0, 3)
        1
        """
        place, out = (number(line), number(column)), ctypes.c_uint32()
        code = self._read(lambda at: lib.smap_range_at(at, *place, byref(out)))
        return out.value if _is_there(code) else None

    def frames_at(self, line: int, column: int) -> Frames:
        """The frames of the source that a frame of a stack trace at this position of the generated code stands for, frame 0 first: none,
        and so no frame 0, where no range contains the position. `get_name(frame.name_id)` and `get_source(frame.call.source_id)` of the
        map have the texts of those ids; `trace` and `view` list frames by their texts.

        >>> Scopes.decode("BFAAA,BFCAC,CCA,CFA,EGAA,ECKC,IAFC,FK,FU", names=2).frames_at(0, 12).frames[1]
        ScopeFrame(name_id=0, scope=0, call=Call(source_id=0, line=5, column=2))
        >>> Scopes.decode("ENDC,FCH", names=0).frames_at(4, 0).is_hidden
        True
        """
        place, count, is_hidden = (number(line), number(column)), ctypes.c_size_t(4), ctypes.c_uint32()

        def copied(at: int) -> Frames:
            room = 0
            while room < count.value:
                room = count.value
                out = (_library.Frame * room)()
                check_code(lib.smap_frames_at(at, *place, out, room, byref(count), byref(is_hidden)))
            return Frames([_frame_of(out[k]) for k in range(count.value)], is_hidden.value == 1)

        return self._read(copied)

    def value_at(self, range: int, variable: int, line: int, column: int) -> Optional[int]:
        """The value of a variable, by its place in `get_variables`, in a range of its scope's code at a position in the range: the id of
        the name that is the expression for it. None if it has no value there, or there is no such variable or range.

        >>> Scopes.decode("BFAAA,DC,CJA,EGAA,GD,FU", names=3).value_at(0, 0, 0, 4)
        2
        """
        place, out = (number(range), number(variable), number(line), number(column)), ctypes.c_uint32()
        code = self._read(lambda at: lib.smap_value_at(at, *place, byref(out)))
        return id_of(out.value) if _is_there(code) else None

    def scope_chain_at(
        self, line: int, column: int, map: Union[SourceMap, CompiledMap, None] = None
    ) -> list[ScopeChainEntry]:
        """The scopes that a position of the generated code is in, from the inside out, with their variables, whose texts are those of the
        map: the scope that the innermost range is the code of, and those around it. An empty list where no range contains the position
        (there `scope_chain` returns None, as there is no frame), or that range has no scope. A `map` of another type raises
        TypeError.

        >>> json = '{"version":3,"sources":["a.js"],"names":["f","a","x"],"mappings":"AAAA","scopes":"BFAAA,DC,CJA,EGAA,GD,FU"}'
        >>> Scopes.read(json).scope_chain_at(0, 4, SourceMap.from_json(json))[0].variables
        [ScopeVariable(name_id=1, value_id=2, name='a', value='x')]
        """
        place = number(line), number(column)
        return self._chain(lambda at, *out: lib.smap_scope_chain_at(at, *place, *out), place, map) or []

    def scope_chain(
        self, frame: int, line: int, column: int, map: Union[SourceMap, CompiledMap, None] = None
    ) -> Optional[list[ScopeChainEntry]]:
        """The scopes that a frame of the source is in, by its index in `frames_at`, from the inside out, with their variables: for frame 0
        those of `scope_chain_at`, for an inlined call those at its place, with the ranges around the inlined body. None past the last
        frame, so for frame 0 too where no range contains the position. A `map` of another type raises TypeError.

        >>> scopes = Scopes.decode("BFAAA,BFCAC,CCA,CFA,EGAA,ECKC,IAFC,FK,FU", names=2)
        >>> scopes.scope_chain(1, 0, 12)
        [ScopeChainEntry(scope=0, range=0, variables=[])]
        """
        index, place = number(frame), (number(line), number(column))
        return self._chain(lambda at, *out: lib.smap_scope_chain(at, index, *place, *out), place, map)

    def _chain(
        self, call: Callable[..., int], place: tuple[int, int], map: Union[SourceMap, CompiledMap, None]
    ) -> Optional[list[ScopeChainEntry]]:
        """The chain that a call returns, or None if it reports that there is none."""
        if map is not None:
            _check_map(map)

        def copied(at: int) -> Optional[list[tuple[int, int, list[tuple[int, Optional[int]]]]]]:
            found = listed_or_none(lambda *out: call(at, *out), "I", 2)
            if found is None:
                return None
            return [(*it, _variables_in(at, *it, place)) for it in zip(found[::2], found[1::2])]

        found = self._read(copied)
        if found is None:
            return None
        return [
            ScopeChainEntry(scope, id_of(range), [_variable_of(map, *ids) for ids in variables])
            for scope, range, variables in found
        ]

    def trace(
        self, map: Union[SourceMap, CompiledMap], line: int, column: int, bias: int = Bias.BEFORE
    ) -> list[SourceFrame]:
        """The frames of `frames_at`, from the inside out, with the texts of the map that has these scopes; the map resolves the first
        frame. An empty list where the frame is that of a helper (`is_hidden` of `frames_at`), and where neither ranges nor the map know the
        position; where no range contains it, the place that the map alone knows, without a name. A `map` of another type raises TypeError.

        >>> json = '{"version":3,"sources":["a.js"],"names":["f"],"mappings":"AAAA","scopes":"BFAAA,CJA,EGAA,FK"}'
        >>> Scopes.read(json).trace(SourceMap.from_json(json), 0, 4)
        [SourceFrame(source='a.js', line=0, column=0, name='f')]
        """
        _check_map(map)
        frames, is_hidden = self.frames_at(line, column)
        if is_hidden:
            return []
        found = map.trace(line, column, bias)
        first = found[:3] if found else (None, None, None)
        if not frames:
            return [] if first[0] is None else [SourceFrame(*first, None)]
        traced: list[SourceFrame] = []
        for frame in frames:
            place = first if frame.call is None else (map.get_source(frame.call.source_id), *frame.call[1:])
            traced.append(SourceFrame(*place, _name_in(map, frame.name_id)))
        return traced

    def view(
        self, map: Union[SourceMap, CompiledMap], line: int, column: int, bias: int = Bias.BEFORE
    ) -> list[FrameView]:
        """What a debugger shows when it is paused at a position of the generated code: the frames of `trace`, each with the scopes of
        `scope_chain`, and so with the values of variables in it. A frame that the map alone knows has no scopes. A `map` of another type
        raises TypeError.

        >>> json = '{"version":3,"sources":["a.js"],"names":["f","a","x"],"mappings":"AAAA","scopes":"BFAAA,DC,CJA,EGAA,GD,FU"}'
        >>> for frame in Scopes.read(json).view(SourceMap.from_json(json), 0, 4):
        ...     print(*frame[:4])
        ...     for scope in frame.scopes:
        ...         print([(it.name, it.value) for it in scope.variables])
        a.js 0 0 f
        [('a', 'x')]
        """
        frames = enumerate(self.trace(map, line, column, bias))
        chains = [(frame, self.scope_chain(index, line, column, map) or []) for index, frame in frames]
        return [FrameView(*frame, [self._view_of(map, entry) for entry in chain]) for frame, chain in chains]

    def _view_of(self, map: Union[SourceMap, CompiledMap], entry: ScopeChainEntry) -> ScopeView:
        out = _library.Scope()
        self._read(lambda at: check_code(lib.smap_get_scope(at, entry.scope, byref(out))))
        return ScopeView(*entry, _name_in(map, id_of(out.kind)), _name_in(map, id_of(out.name)))


def _is_there(code: int) -> bool:
    """Whether a call found something. Raises any other code."""
    if code == Code.NO_ENTRY:
        return False
    check_code(code)
    return True


def _check_map(map: object) -> None:
    if not isinstance(map, (SourceMap, CompiledMap)):
        raise TypeError(f"map is no SourceMap or CompiledMap, but {type(map).__name__}")


def _counts_in(at: int) -> _library.ScopesCounts:
    out = _library.ScopesCounts()
    check_code(lib.smap_scopes_get_counts(at, byref(out)))
    return out


def _position_of(it: _library.Position) -> Position:
    return Position(it.line, it.column)


def _call_of(it: _library.Call) -> Optional[Call]:
    source = id_of(it.source)
    return None if source is None else Call(source, it.line, it.column)


def _scope_of(it: _library.Scope) -> Scope:
    start, end = _position_of(it.start), _position_of(it.end)
    return Scope(it.source, start, end, id_of(it.name), id_of(it.kind), it.is_stack_frame == 1, id_of(it.parent))


def _range_of(it: _library.Range) -> Range:
    start, end, call = _position_of(it.start), _position_of(it.end), _call_of(it.call)
    flags = it.is_stack_frame == 1, it.is_hidden == 1
    return Range(start, end, id_of(it.definition), *flags, call, id_of(it.parent))


def _frame_of(it: _library.Frame) -> ScopeFrame:
    return ScopeFrame(id_of(it.name), id_of(it.scope), _call_of(it.call))


def _variables_in(at: int, scope: int, range: int, place: tuple[int, int]) -> list[tuple[int, Optional[int]]]:
    """The variables of a scope with their values in a range, as ids."""
    variables = listed(lambda *out: lib.smap_get_variables(at, scope, *out), "I", 1)
    return [(name, _value_in(at, range, index, place)) for index, name in enumerate(variables)]


def _value_in(at: int, range: int, variable: int, place: tuple[int, int]) -> Optional[int]:
    if range == NO_ID:
        return None
    out = ctypes.c_uint32()
    check_code(lib.smap_value_at(at, range, variable, *place, byref(out)))
    return id_of(out.value)


def _variable_of(map: Union[SourceMap, CompiledMap, None], name: int, value: Optional[int]) -> ScopeVariable:
    texts = [_name_in(map, it) for it in (name, value)]
    return ScopeVariable(name, value, *texts)


def _name_in(map: Union[SourceMap, CompiledMap, None], name: Optional[int]) -> Optional[str]:
    return None if map is None or name is None else map.get_name(name)
