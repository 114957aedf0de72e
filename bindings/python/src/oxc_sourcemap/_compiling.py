"""The compiled maps of a resolver: which are taken, and how they are made."""

from __future__ import annotations

import hashlib
import os
import stat
import threading
import time
from collections import Counter
from collections.abc import Callable, Iterator
from functools import cached_property
from typing import Optional, Union, final

from ._compiled import CompiledMap
from ._errors import SourceMapError
from ._map import SourceMap
from ._stores import Folder, RefusedError, replace_file
from ._tables import MissingError
from ._texts import decode_data_url

ENDING = ".smc"
# Files that were written last by less than this before they were read may be written again in the same tick of the clock.
_RECENT = 2_000_000_000


class Counts:
    """Counts that any thread adds to."""

    def __init__(self) -> None:
        self._lock, self._counts = threading.Lock(), Counter[str]()

    def add(self, *names: str) -> None:
        """Counts each name once more for each time that it stands there."""
        with self._lock:
            self._counts.update(names)

    def all(self) -> Counter[str]:
        with self._lock:
            return self._counts.copy()


def _rooted(root: str, source: str) -> str:
    """A source with the source root before it, as the library puts it there."""
    with SourceMap.from_tokens([], sources=[source]) as map:
        map.set_source_root(root)
        map.apply_source_root()
        return map.sources[0]


@final
class Held:
    """A map that is ready for lookups, its name in the store, and of how many bytes it is."""

    def __init__(self, name: str, map: CompiledMap, size: int) -> None:
        self.name, self.map, self.size = name, map, size + 2048
        self.debug_id, self._root = map.debug_id, map.source_root
        self._sources: dict[str, str] = {}

    def source(self, listed: str) -> str:
        """A source as the map lists it, with the source root before it."""
        if not self._root:
            return listed
        found = self._sources.get(listed)
        if found is None:
            found = self._sources[listed] = _rooted(self._root, listed)
        return found


_Opened = tuple[Held, os.stat_result]


class MapText:
    """The text of a map that a store has: its name, the system's record of its file (None if it is not one, or changes), and its bytes,
    which are read when they are first asked for."""

    def __init__(self, name: str, read: Union[bytes, Callable[[], bytes]], status: Optional[os.stat_result] = None) -> None:
        self.name, self._read, self.status = name, read, status

    @cached_property
    def data(self) -> bytes:
        return self._read if isinstance(self._read, bytes) else self._read()


class Compiler:
    """What opens compiled maps beside those of a store and in a cache folder, and makes those that lack: beside their maps, in the cache
    folder, or in memory alone."""

    def __init__(self, store: object, cache: Optional[str], writes_beside: bool, always_hashes: bool, counts: Counts) -> None:
        self._folder = store if isinstance(store, Folder) else None
        self._store_name = self._folder.path if self._folder else ""
        self._cache, self._writes_beside, self._always_hashes, self._counts = cache, writes_beside, always_hashes, counts

    # ---- which are taken ----

    def _cache_path(self, name: str) -> Optional[str]:
        """The file of a map in the cache folder: by a hash, so that any name is one, and stores may share the folder."""
        if self._cache is None:
            return None
        return os.path.join(self._cache, hashlib.sha256(f"{self._store_name}\0{name}".encode()).hexdigest()[:40] + ENDING)

    def _beside_path(self, name: str) -> Optional[str]:
        """The file beside a map; None if a link resolves outside of the folder."""
        try:
            return self._folder.path_of(name + ENDING) if self._folder else None
        except (RefusedError, OSError):
            return None

    def fresh(self, text: MapText) -> Optional[Held]:
        """The compiled map of a map, if one was made of it: by its length and the time of its file, or by its bytes and their SHA-256."""
        for path, is_own, is_exact in self._candidates(text.name):
            opened = self._opened(path, text.name)
            if opened and self._is_fresh(opened, path, (is_own, is_exact), text):
                self._counts.add("compiled_used")
                return opened[0]
            if opened:
                self._counts.add("compiled_stale")
        return None

    def _candidates(self, name: str) -> Iterator[tuple[str, bool, bool]]:
        """The files that may be the compiled map: each with whether it is the resolver's own, and whether its time is that of the map,
        as the resolver leaves it, or any later one, as `sourcemap compile` does."""
        if cached := self._cache_path(name):
            yield cached, True, True
        if beside := self._beside_path(name):
            yield beside, self._writes_beside, False

    def _opened(self, path: str, name: str) -> Optional[_Opened]:
        """A compiled map, and the system's record of its file before: the time is not that of a file that replaces it meanwhile."""
        try:
            status = os.stat(path)
            return Held(name, CompiledMap.open_file(path), status.st_size), status
        except FileNotFoundError:
            return None
        except (OSError, SourceMapError):
            self._counts.add("compiled_damaged")
            return None

    def _is_fresh(self, opened: _Opened, path: str, kind: tuple[bool, bool], text: MapText) -> bool:
        (held, own), (is_own, is_exact), status = opened, kind, text.status
        if status is not None and held.map.text_length != status.st_size:
            return False
        if status is not None and not self._always_hashes and self._is_by_time(own, status, is_exact):
            return True
        data = text.data
        is_of_text = held.map.text_length == len(data) and held.map.stamp == hashlib.sha256(data).digest()
        if is_of_text and is_own and status is not None:
            self._touch(path, status)
        return is_of_text

    @staticmethod
    def _is_by_time(compiled: os.stat_result, map: os.stat_result, is_exact: bool) -> bool:
        """Whether a compiled map has the time of its map, or is no older, as `sourcemap resolve` asks."""
        return compiled.st_mtime_ns == map.st_mtime_ns if is_exact else compiled.st_mtime_ns >= map.st_mtime_ns

    @staticmethod
    def _touch(path: str, status: os.stat_result) -> None:
        """Gives a compiled map the time of its map, so that no hash is needed next time."""
        try:
            os.utime(path, ns=(_time_for(status), _time_for(status)))
        except OSError:
            pass

    # ---- how they are made ----

    def made(self, text: MapText) -> Held:
        """Compiles a map. Raises MissingError if its bytes are no map."""
        name, data = text.name, text.data
        stamp = hashlib.sha256(data).digest()
        try:
            with SourceMap.read_found(data).map as map:
                compiled = map.compile(len(data), stamp)
        except SourceMapError as error:
            place = f", at {error.place.message}" if error.place else ""
            raise MissingError("bad map", f"{name}: {error}{place}") from None
        self._counts.add("compiled_made")
        path = self._written(name, compiled, text.status)
        opened = self._opened(path, name) if path else None
        # (another process may have put another one there)
        if opened and opened[0].map.stamp == stamp:
            return opened[0]
        return Held(name, CompiledMap(compiled), len(compiled))

    def _written(self, name: str, compiled: bytes, status: Optional[os.stat_result]) -> Optional[str]:
        """The file that a compiled map was written to; None if it is kept in memory."""
        path = self._cache_path(name)
        try:
            if path is None and self._writes_beside and self._folder and status is not None:
                path = self._folder.place_of(name + ENDING)
            if path is None:
                return None
            mode = status.st_mode if status else stat.S_IRUSR | stat.S_IWUSR
            replace_file(path, compiled, mode, _time_for(status) if status else time.time_ns())
        except (OSError, RefusedError):
            self._counts.add("compiled_unwritten")
            return None
        return path


def _time_for(status: os.stat_result) -> int:
    """The time of the file of a compiled map: that of its map, or, if this may yet change within a tick of the clock, an earlier one, by
    which the compiled map counts as older, so that its hash is compared."""
    is_recent = time.time_ns() - status.st_mtime_ns < _RECENT
    return status.st_mtime_ns - (1_000_000_000 if is_recent else 0)


def text_of_data_url(url: str) -> Optional[bytes]:
    """The text of a map in a data URL; None if it is another URL. Raises MissingError of one that is damaged."""
    try:
        text = decode_data_url(url)
    except SourceMapError as error:
        raise MissingError("bad map", str(error)) from None
    return None if text is None else text.encode()
