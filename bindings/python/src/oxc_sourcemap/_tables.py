"""A table of what is read once and held for a time, within bounds, by any number of threads."""

from __future__ import annotations

import threading
from collections import Counter, OrderedDict
from collections.abc import Callable, Hashable
from concurrent import futures
from concurrent.futures import Future
from typing import Generic, Protocol, TypeVar


class Sized(Protocol):
    """What has a size in bytes."""

    @property
    def size(self) -> int:
        """The bytes."""


V = TypeVar("V", bound=Sized)


class Bounds:
    """How much a table holds: bytes, entries, names that nothing was found for, and for how many seconds each."""

    def __init__(self, size: int, entries: int, missing: int, seconds: float) -> None:
        self.size, self.entries, self.missing, self.seconds = size, entries, missing, seconds


class MissingError(Exception):
    """Why there is nothing to hold. It is held itself if `holds` is true."""

    def __init__(self, reason: str, detail: str = "", holds: bool = True) -> None:
        super().__init__(reason, detail)
        self.reason, self.detail, self.holds = reason, detail, holds


def _copied(error: MissingError) -> MissingError:
    """One of its own, to which no other thread adds its traceback."""
    return MissingError(error.reason, error.detail, error.holds)


class Table(Generic[V]):
    """What `load` calls return, by their keys, and MissingError that they raise. What was not asked for longest goes first. The lock is
    held for the table alone: calls run outside of it, and threads that ask for what another one loads wait for that."""

    def __init__(self, bounds: Bounds, clock: Callable[[], float]) -> None:
        self._bounds, self._clock, self._lock = bounds, clock, threading.Lock()
        self._held: OrderedDict[Hashable, tuple[V, float]] = OrderedDict()
        self._missing: OrderedDict[Hashable, tuple[MissingError, float]] = OrderedDict()
        self._loading: dict[Hashable, Future[V]] = {}
        self._size = 0
        self._counts: Counter[str] = Counter()

    def get(self, key: Hashable, load: Callable[[], V], seconds: float) -> V:
        """The value of a key. Raises what `load` raises, and TimeoutError if another thread loads it for longer than these seconds."""
        # (what is let go is freed once the lock is not held any more)
        gone: list[V] = []
        with self._lock:
            if (found := self._found(key, gone)) is not None:
                return found
            other = self._loading.get(key)
            if other is None:
                own = self._loading[key] = Future()
            self._counts["misses" if other is None else "waits"] += 1
        return self._load(key, load, own) if other is None else self._awaited(other, seconds)

    def _found(self, key: Hashable, gone: list[V]) -> V | None:
        """What is held for a key, put behind all others. The lock is held."""
        if held := self._held.get(key):
            if self._clock() < held[1]:
                self._held.move_to_end(key)
                self._counts["hits"] += 1
                return held[0]
            gone.append(self._drop(key))
            self._counts["expired"] += 1
        if missing := self._missing.get(key):
            if self._clock() < missing[1]:
                self._missing.move_to_end(key)
                self._counts["missing_hits"] += 1
                raise _copied(missing[0])
            del self._missing[key]
            self._counts["expired"] += 1
        return None

    @staticmethod
    def _awaited(other: Future[V], seconds: float) -> V:
        try:
            return other.result(max(seconds, 0))
        except MissingError as error:
            raise _copied(error) from None
        except futures.TimeoutError:
            raise TimeoutError from None

    def _load(self, key: Hashable, load: Callable[[], V], own: Future[V]) -> V:
        try:
            value = load()
        except BaseException as error:
            with self._lock:
                del self._loading[key]
                if isinstance(error, MissingError) and error.holds:
                    self._put_missing(key, error)
            # (another error than this one, which by its traceback would hold the future that holds it)
            own.set_exception(_copied(error) if isinstance(error, MissingError) else MissingError("store", f"{type(error).__name__}: {error}"))
            raise
        gone: list[V] = []
        with self._lock:
            del self._loading[key]
            self._put(key, value, gone)
        own.set_result(value)
        return value

    def _drop(self, key: Hashable) -> V:
        value, _ = self._held.pop(key)
        self._size -= value.size
        return value

    def _put(self, key: Hashable, value: V, gone: list[V]) -> None:
        if value.size > self._bounds.size:
            self._counts["evictions"] += 1
            return
        self._held[key] = value, self._clock() + self._bounds.seconds
        self._size += value.size
        while self._size > self._bounds.size or len(self._held) > self._bounds.entries:
            gone.append(self._drop(next(iter(self._held))))
            self._counts["evictions"] += 1

    def _put_missing(self, key: Hashable, error: MissingError) -> None:
        self._missing[key] = _copied(error), self._clock() + self._bounds.seconds
        while len(self._missing) > self._bounds.missing:
            self._missing.popitem(last=False)

    def clear(self) -> None:
        """Lets go of all that is held."""
        with self._lock:
            gone, self._held, self._size = self._held, OrderedDict(), 0
            self._missing.clear()
        gone.clear()

    def counts(self) -> dict[str, int]:
        """The counts so far, and what is held."""
        with self._lock:
            names = ("hits", "misses", "waits", "missing_hits", "expired", "evictions")
            held = {"bytes_held": self._size, "held": len(self._held), "missing_held": len(self._missing)}
            return {name: self._counts[name] for name in names} | held
