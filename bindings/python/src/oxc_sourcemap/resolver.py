"""Resolves stack traces on servers, in any number of threads: it compiles the maps of a store, and holds them within bounds.

>>> import json
>>> map = {"version": 3, "sources": ["a.ts"], "names": ["run"], "mappings": "AAAA,aACEA"}
>>> resolver = Resolver({"app.js.map": json.dumps(map).encode()}, "https://example.com/")
>>> resolver.resolve_text("Error: x\\n    at t (https://example.com/app.js:1:14)")
'Error: x\\n    at t (a.ts:2:3)'

A frame's own line and column count from 1, as traces print them. All else counts from 0, and columns are in UTF-16 code units. The answers
of lookups are those of the library, which are proved; the resolver itself is tested.
"""

from __future__ import annotations

import json
import os
import re
import time
from collections.abc import Callable, Iterable, Mapping
from dataclasses import dataclass
from enum import Enum
from functools import lru_cache, partial
from typing import TYPE_CHECKING, Final, NamedTuple, Optional, TypeVar, Union, final

from ._compiling import Compiler, Counts, Held
from ._contexts import Context, Lines
from ._finding import Finder, debug_id_of, outside
from ._stores import Bases, Folder, RefusedError, Store, TooLargeError
from ._tables import Bounds, MissingError, Table
from ._traces import Frame, frames_in

if TYPE_CHECKING:
    from _typeshed import StrPath

__all__ = ["BESIDE", "Context", "Folder", "Frame", "Limits", "Lines", "Reason", "Resolved", "Resolver", "Store", "TooLargeError", "frames_in", "replace_frames"]  # fmt: skip

_Text = TypeVar("_Text", str, bytes)
# The maps of a trace by the URLs of codes, or why there is none.
_Known = dict[str, Union[Held, "tuple[Reason, str]"]]
# As `sourcemap` prints no path: C0, DEL and C1, the marks of text direction, and quotes.
_HIDDEN = re.compile('[\x00-\x1f"\x7f-\x9f\u061c\u200e\u200f\u202a-\u202e\u2066-\u2069]')
_MOST_NAMES = 2048
_MOST_KNOWN = 64
_MOST = 2**32 - 1


class _Beside(Enum):
    BESIDE = "beside"


BESIDE: Final = _Beside.BESIDE
"""The value of `cache` by which compiled maps are written beside their maps, as X.map.smc."""


class Reason(str, Enum):
    """Why a frame is not resolved; `Resolved.detail` has more.

    >>> Reason.NO_MAP.value
    'no map'
    """

    OUTSIDE = "outside"
    """No base contains its URL."""
    REFUSED = "refused"
    """A path with `..`, a control character or a backslash, one that is too long, or a link out of the folder; or an invalid debug id."""
    NOT_THERE = "not there"
    """The store has neither the code nor a map of its name."""
    NO_MAP = "no map"
    """The store has the code, but no map of it."""
    BAD_MAP = "bad map"
    """The map cannot be read."""
    OTHER_BUILD = "other build"
    """The map has another debug id."""
    TOO_LARGE = "too large"
    """The code or the map has more bytes than the limit."""
    NOTHING = "nothing"
    """The map has no mapping at the position."""
    UNMAPPED = "unmapped"
    """The mapping at the position has no source."""
    POSITION = "position"
    """The line or column is 0, or above 4294967295."""
    FRAMES = "frames"
    """The trace has more frames than the limit."""
    TIME = "time"
    """The trace took longer than the limit before this frame."""
    STORE = "store"
    """The store failed. The next trace asks it again."""


_COUNTS = {it: f"not_resolved_{it.value.replace(' ', '_')}" for it in Reason}


@dataclass(frozen=True)
class Limits:
    """What a resolver takes and holds. A trace above its limit of bytes is refused; frames past the other limits stay as they are.

    >>> Limits(frames=100).frames
    100
    """

    trace_bytes: int = 1 << 20
    """Bytes of a trace, in UTF-8."""
    frames: int = 1000
    """Frames of a trace that are looked up."""
    seconds: float = 10.0
    """Seconds for a trace. What is begun (one map that is read) ends, and is held for the next trace."""
    code_bytes: int = 64 << 20
    """Bytes of a code, which is read for the comment that names its map."""
    map_bytes: int = 256 << 20
    """Bytes of the text of a map."""
    held_bytes: int = 256 << 20
    """Bytes of compiled maps that are held. Those in files are mapped into memory, of which the system takes pages away if need be."""
    held_maps: int = 256
    """Compiled maps that are held, those in files with a descriptor each. Each trace in progress uses up to 64 more."""
    held_missing: int = 4096
    """Codes that are known to have no map."""
    held_seconds: float = 60.0
    """Seconds after which what is held, also that there is no map, is looked for again."""
    held_context_bytes: int = 32 << 20
    """Bytes of contents that are held, with their lines."""

    def __post_init__(self) -> None:
        for name, limit in vars(self).items():
            if not isinstance(limit, (int, float)):
                raise TypeError(f"the limit {name} is {limit!r}, and no number")
            if not limit >= 0:
                raise ValueError(f"the limit {name} is {limit!r}, and no number from 0 on")


class Resolved(NamedTuple):
    """What a frame resolves to: the source, as the map lists it and with the source root before it, the original line and column, which
    count from 0, and the name of the mapping, which is that of a function where the tool that made the map wrote one. For an unresolved
    frame these are None, and `reason` and `detail` state why. `map` is the name of the map in the store, `source_id` the source's id.

    >>> Resolved(Frame("app.js", 1, 14), reason=Reason.NO_MAP).source
    """

    frame: Frame
    source: Optional[str] = None
    line: Optional[int] = None
    column: Optional[int] = None
    name: Optional[str] = None
    reason: Optional[Reason] = None
    detail: str = ""
    map: Optional[str] = None
    source_id: Optional[int] = None
    debug_id: Optional[str] = None

    @property
    def place(self) -> Optional[str]:
        """The place as traces print it, with a line and a column from 1; None if the frame is not resolved. A source with a quote, a
        control character or a mark of text direction is a JSON string.

        >>> Resolved(Frame("app.js", 1, 14), "a.ts", 1, 2).place
        'a.ts:2:3'
        """
        if self.source is None or self.line is None or self.column is None:
            return None
        return f"{_shown(self.source)}:{self.line + 1}:{self.column + 1}"


def _shown(source: str) -> str:
    if not _HIDDEN.search(source):
        return source
    return _HIDDEN.sub(lambda it: it[0] if it[0] < " " or it[0] == '"' else f"\\u{ord(it[0]):04x}", json.dumps(source, ensure_ascii=False))


def replace_frames(text: str, frames: Iterable[Resolved]) -> str:
    """A text with the places of these frames, in order, replaced by the original ones; all else stays.

    >>> replace_frames("at app.js:1:14", [Resolved(Frame("app.js", 1, 14, 3, 14), "a.ts", 1, 2)])
    'at a.ts:2:3'
    """
    parts, last = [], 0
    for it in frames:
        if (place := it.place) is not None:
            parts += [text[last : it.frame.start], place]
            last = it.frame.end
    return "".join([*parts, text[last:]])


@final
class Resolver:
    """A resolver over a store: the path of a folder, or an object with `get` (`Store`).

    `base` is the URL or path that stands for the store, or pairs of a URL or path and a folder of the store; of several the
    longest counts. A query or fragment of a URL does not count, and neither does the case of its host; `file:` URLs are paths. The resolver
    never uses a network.

    A code's map is the one that its last comment `sourceMappingURL` names, in the store or as a data URL, else the one with its name
    and `.map`; with `beside_first` the latter, if it is there, and the code is not read. With a debug id it is the map named by
    `debug_id_name`, in which `{}` stands for the id in lower case, else that of the URL, but no map with another debug id.

    Maps are compiled when they are first needed. `cache` is where these are kept: BESIDE their maps, for which the store is a folder
    that can be written; the path of a folder; None for nowhere. X.map.smc beside X.map is taken if it was made of as many bytes as
    X.map has, and its file is no older (unless `always_hashes` is set) or its SHA-256 is that of X.map.

    Threads may share a resolver. Two that ask for one map read it once.

    >>> import json
    >>> map = {"version": 3, "sources": ["a.ts"], "names": ["run"], "mappings": "AAAA,aACEA"}
    >>> resolver = Resolver({"js/app.js.map": json.dumps(map).encode()}, {"https://example.com/static/": "js"})
    >>> found = resolver.resolve_frame("https://example.com/static/app.js?v=1", 1, 14)
    >>> found.source, found.line, found.column, found.name, found.map
    ('a.ts', 1, 2, 'run', 'js/app.js.map')
    >>> resolver.resolve_frame("https://example.com/static/../passwd", 1, 1).reason.value
    'refused'
    """

    def __init__(
        self,
        store: Union[StrPath, Store],
        base: Union[str, Mapping[str, str]] = "",
        *,
        cache: Union[StrPath, _Beside, None] = None,
        limits: Limits = Limits(),
        beside_first: bool = False,
        debug_id_name: str = "{}.map",
        always_hashes: bool = False,
        clock: Callable[[], float] = time.monotonic,
    ) -> None:
        if not isinstance(limits, Limits):
            raise TypeError(f"limits is {limits!r}, and no Limits")
        self.limits, self._clock, self._counts = limits, clock, Counts()
        found: Store = store if hasattr(store, "get") else Folder(store)  # type: ignore[assignment]
        if cache is BESIDE and not isinstance(found, Folder):
            raise TypeError("compiled maps can be written beside the maps of a folder alone")
        folder = None if cache is None or isinstance(cache, _Beside) else os.fspath(cache)
        if folder is not None:
            os.makedirs(folder, exist_ok=True)
        bases = Bases(base)
        compiler = Compiler(found, folder, cache is BESIDE, always_hashes, self._counts)
        self._finder = Finder(found, bases, compiler, (limits.code_bytes, limits.map_bytes), (beside_first, debug_id_name))
        bounds = Bounds(limits.held_bytes, limits.held_maps, limits.held_missing, limits.held_seconds)
        self._maps: Table[Held] = Table(bounds, clock)
        self._contents: Table[Lines] = Table(Bounds(limits.held_context_bytes, 4096, 0, 1e9), clock)
        self._name_of = lru_cache(_MOST_NAMES)(partial(_named, bases))

    # ---- one frame ----

    def _held(self, url: str, debug_id: Optional[str], end: float) -> Held:
        """The map of a code. Raises MissingError, or TimeoutError if another thread reads it for too long."""
        name, refused = self._name_of(url)
        if name is None and not debug_id:
            raise MissingError("refused", refused) if refused else outside(url)
        find = partial(self._finder.find, name, url, debug_id)
        return self._maps.get((name, None if name else url, debug_id), find, end - self._clock())

    def _looked_up(self, frame: Frame, held: Held, debug_id: Optional[str]) -> Resolved:
        line, column = frame.line - 1, frame.column - 1
        if not (0 <= line < _MOST and 0 <= column < _MOST):
            return Resolved(frame, reason=Reason.POSITION, map=held.name)
        found = held.map.trace(line, column)
        if found is None:
            return Resolved(frame, reason=Reason.NOTHING, map=held.name)
        if found.source is None:
            return Resolved(frame, reason=Reason.UNMAPPED, map=held.name)
        source = held.source(found.source)
        return Resolved(frame, source, found.line, found.column, found.name, None, "", held.name, found.token.source_id, debug_id)

    def _resolved(self, frame: Frame, debug_id: Optional[str], end: float, known: _Known) -> Resolved:
        """What a frame resolves to. What is known of the codes of its trace is asked once."""
        if self._clock() > end:
            return Resolved(frame, reason=Reason.TIME)
        found = known.get(frame.url)
        if found is None:
            if len(known) >= _MOST_KNOWN:
                known.clear()
            found = known[frame.url] = self._known(frame.url, debug_id, end)
        if isinstance(found, tuple):
            return Resolved(frame, reason=found[0], detail=found[1])
        return self._looked_up(frame, found, debug_id)

    def _known(self, url: str, debug_id: Optional[str], end: float) -> Union[Held, tuple[Reason, str]]:
        """The map of a code, or why there is none. (Not the error: by its traceback it would hold all maps of the trace.)"""
        try:
            return self._held(url, debug_id_of(debug_id) if debug_id else None, end)
        except TimeoutError:
            return Reason.TIME, ""
        except RefusedError as error:
            return Reason.REFUSED, str(error)
        except MissingError as error:
            return Reason(error.reason), error.detail

    def resolve_frame(self, url: str, line: int, column: int, debug_id: Optional[str] = None) -> Resolved:
        """What a place in a code resolves to, by its URL or path, and its line and column, which count from 1.

        >>> Resolver({}).resolve_frame("app.js", 1, 14).reason.value
        'not there'
        """
        found = self._resolved(Frame(url, line, column), debug_id, self._clock() + self.limits.seconds, {})
        self._count([found], "frames")
        return found

    # ---- traces ----

    def resolve(self, text: Union[str, bytes], debug_ids: Mapping[str, str] = {}) -> list[Resolved]:
        """What each frame of a trace resolves to, in order. `debug_ids` has the debug id of a code by its URL, as frames name it. The
        places of frames are those in the str; bytes are read as UTF-8, with surrogates for what is none.

        Raises TooLargeError if the trace has more bytes than the limit.

        >>> [it.reason.value for it in Resolver({}).resolve("f@app.js:1:14")]
        ['not there']
        """
        if not isinstance(text, (str, bytes)):
            raise TypeError(f"the trace is {text!r}, and neither a str nor bytes")
        length = len(text) if isinstance(text, bytes) or text.isascii() else len(text.encode("utf-8", "surrogatepass"))
        if length > self.limits.trace_bytes:
            self._counts.add("traces_refused")
            raise TooLargeError("the trace", length, self.limits.trace_bytes)
        trace = text.decode("utf-8", "surrogateescape") if isinstance(text, bytes) else text
        end = self._clock() + self.limits.seconds
        known: _Known = {}
        found: list[Resolved] = []
        for frame in frames_in(trace):
            is_within = len(found) < self.limits.frames
            found.append(self._resolved(frame, debug_ids.get(frame.url), end, known) if is_within else Resolved(frame, reason=Reason.FRAMES))
        self._count(found, "traces", *["frames"] * len(found))
        return found

    def resolve_text(self, text: _Text, debug_ids: Mapping[str, str] = {}) -> _Text:
        """A trace with the place of each frame that is resolved replaced by the original one, SOURCE:LINE:COLUMN, which count from 1; all
        else stays to the byte. Raises TooLargeError, as `resolve`. Extract a trace from a JSON text first.

        >>> Resolver({}).resolve_text(b"f@app.js:1:14\\n")
        b'f@app.js:1:14\\n'
        """
        found = self.resolve(text, debug_ids)
        if isinstance(text, bytes):
            return replace_frames(text.decode("utf-8", "surrogateescape"), found).encode("utf-8", "surrogateescape")
        return replace_frames(text, found)

    def context(self, found: Resolved, lines: int = 3) -> Optional[Context]:
        """The line of a resolved frame in its source, with up to so many lines before and behind it; None if the frame is not resolved, or
        the map has no content of the source or no such line, or has changed. Raises ValueError for a number below 0.

        >>> import json
        >>> map = {"version": 3, "sources": ["a.ts"], "sourcesContent": ["let a\\nf()\\n"], "names": [], "mappings": "AAAA,aACE"}
        >>> resolver = Resolver({"app.js.map": json.dumps(map).encode()})
        >>> resolver.context(resolver.resolve_frame("app.js", 1, 14), 1)
        Context(first=0, line=1, lines=['let a', 'f()', ''])
        """
        if lines < 0:
            raise ValueError("the number of lines is below 0")
        if found.source is None or found.line is None or found.source_id is None:
            return None
        id = found.source_id
        try:
            debug_id = debug_id_of(found.debug_id) if found.debug_id else None
            held = self._held(found.frame.url, debug_id, self._clock() + self.limits.seconds)
            listed = held.map.get_source(id)
            if listed is None or held.source(listed) != found.source:
                return None
            content = self._contents.get((held.name, held.map.stamp, id), partial(_lines_of, held, id), self.limits.seconds)
            return content.around(found.line, lines)
        except (MissingError, TimeoutError, IndexError):
            return None

    # ---- counts ----

    def _count(self, found: list[Resolved], *names: str) -> None:
        self._counts.add(*names, *("resolved" if it.reason is None else _COUNTS[it.reason] for it in found))

    def stats(self) -> dict[str, int]:
        """Counts since the resolver was made, and what it holds. `hits`, `misses`, `waits` (for what another thread reads), `missing_hits`,
        `expired` and `evictions` are of its table of maps, in which a trace asks once for each code; `bytes_held`, `held` and
        `missing_held` are what that has now. `compiled_used`, `compiled_stale`, `compiled_damaged`, `compiled_made` and
        `compiled_unwritten` are of compiled maps, `context_bytes_held` of contents. `traces`, `traces_refused`, `frames` and `resolved`
        are those that were asked for, and `not_resolved_..` frames by their reason: all of them and `resolved` sum up to `frames`.

        >>> resolver = Resolver({})
        >>> found = resolver.resolve_frame("app.js", 1, 14)
        >>> stats = resolver.stats()
        >>> stats["frames"], stats["resolved"], stats["not_resolved_not_there"], stats["misses"]
        (1, 0, 1, 1)
        """
        names = ("traces", "traces_refused", "frames", "resolved")
        compiled = tuple(f"compiled_{it}" for it in ("used", "stale", "damaged", "made", "unwritten"))
        counted = self._counts.all()
        own = {name: counted[name] for name in (*names, *compiled)}
        reasons = {name: counted[name] for name in _COUNTS.values()}
        return self._maps.counts() | own | reasons | {"context_bytes_held": self._contents.counts()["bytes_held"]}

    def clear(self) -> None:
        """Releases all that is held: later requests search again.

        >>> resolver = Resolver({})
        >>> resolver.clear()
        >>> resolver.stats()["held"]
        0
        """
        self._maps.clear()
        self._contents.clear()


def _named(bases: Bases, url: str) -> tuple[Optional[str], str]:
    """The name of a code in the store, or None; and why it is refused."""
    try:
        return bases.name_of(url), ""
    except RefusedError as error:
        return None, str(error)


def _lines_of(held: Held, id: int) -> Lines:
    content = held.map.get_source_content(id)
    if content is None:
        raise MissingError("no content", holds=False)
    return Lines(content)
