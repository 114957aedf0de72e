"""`Handle`: the address of a map that threads share."""

from __future__ import annotations

import ctypes
import threading
import weakref
from collections.abc import Callable, Sequence
from contextlib import suppress
from ctypes import byref
from threading import get_ident
from typing import Any, ClassVar, Optional, TypeVar

from . import _library
from ._errors import check
from ._library import lib

Self = TypeVar("Self", bound="Handle")
T = TypeVar("T")

MANY = 256
"""So many leases of a map may be those of threads that have ended."""


class Lease:
    """Held by a call of a thread that reads a map. Each thread has its own, beside the address of the map. Who changes or frees the
    map takes the leases away and waits until no call has one any more; so reading takes no lock. What asks for a change in the
    midst of a call that reads, as a finalizer may, finds that the lease of its own thread is held: that wait would not end."""

    __slots__ = ("__weakref__",)


class Handle:
    """A map by its address, which calls borrow: many that read it, or one that changes it."""

    # The address of the map, null once it is freed. For each thread the lease that it may take, with the address, and that which
    # calls of it may have. The lock for borrowing and changes (what interrupts who has it has it too), and whether the map is being
    # changed.
    _at: ctypes.c_void_p
    _leases: dict[int, tuple[int, Lease]]
    _held: dict[int, weakref.ref[Lease]]
    _lock: threading.RLock
    _is_changed = False
    # How errors begin that name it.
    _it_is: ClassVar[str] = "The map is"

    @classmethod
    def _made(cls: type[Self], call: Callable[..., int]) -> Self:
        """What a call makes, which gets where it puts the map and the fault."""
        made, fault = object.__new__(cls), _library.Fault()
        made._at, made._leases, made._held, made._lock = ctypes.c_void_p(), {}, {}, threading.RLock()
        check(call(byref(made._at), byref(fault)), fault)
        return made

    def _read(self, call: Callable[[int], T]) -> T:
        """The result of a call that gets the address of the map, which nobody changes meanwhile."""
        held = None
        try:
            held = self._leases.get(get_ident()) or self._lent()
            return call(held[0])
        finally:
            # A traceback may outlive the call, and who changes the map waits for its leases.
            del held

    def _read_now(self, call: Callable[[int], T]) -> Optional[T]:
        """The same, or None where this thread would have to wait."""
        held = None
        try:
            held = self._mine(get_ident())
            return None if held is None else call(held[0])
        finally:
            del held

    @staticmethod
    def _read_all(maps: Sequence[Handle], call: Callable[[list[int]], T]) -> T:
        """The result of a call that gets the addresses of several maps. While one of them is waited for, no other is held."""
        thread, held = get_ident(), list[Optional[tuple[int, Lease]]]()
        while True:
            try:
                held.extend(map._mine(thread) for map in maps)
                addresses = [it[0] for it in held if it]
                if len(addresses) == len(maps):
                    return call(addresses)
            finally:
                held.clear()
            for map in maps:
                map._lent()

    def _mine(self, thread: int) -> Optional[tuple[int, Lease]]:
        """What this thread may read by without waiting: also the lease by which it reads already, for which another one waits."""
        if lent := self._leases.get(thread):
            return lent
        held = self._held.get(thread)
        lease = None if held is None else held()
        try:
            return None if lease is None else (self._address(), lease)
        finally:
            del lease

    def _lent(self) -> tuple[int, Lease]:
        """What this thread may read by, once nobody changes the map."""
        thread = get_ident()
        if mine := self._mine(thread):
            return mine
        with self._lock:
            if self._is_changed:
                raise RuntimeError(f"{self._it_is} being changed by a call that this one interrupts")
            return self._lend(thread)

    def _lend(self, thread: int) -> tuple[int, Lease]:
        """The same by a new lease, under the lock. What interrupts this may change the map until the lease is noted, and not
        after."""
        if len(self._held) >= MANY:
            self._leases.clear()
            for other, held in list(self._held.items()):
                if other != thread and held() is None:
                    del self._held[other]
        lease = Lease()
        self._held[thread] = weakref.ref(lease)
        try:
            lent = self._leases[thread] = self._address(), lease
            return lent
        finally:
            del lease

    def _address(self) -> int:
        """The address of a map that is open."""
        if address := self._at.value:
            return address
        raise ValueError(f"{self._it_is} closed")

    def _exclusively(self, call: Callable[[int], T], closes: bool = False) -> T:
        """The result of a call that gets the address of the map while nobody else has it."""
        # (before the lock is waited for, since who has it may wait for the lease of this thread)
        thread = get_ident()
        self._leases.pop(thread, None)
        held = self._held.get(thread)
        if held is not None and held() is not None:
            raise RuntimeError(f"{self._it_is} being read by a call that this one interrupts")
        with self._lock:
            if self._is_changed:
                raise RuntimeError(f"{self._it_is} being changed by a call that this one interrupts")
            self._is_changed = True
            try:
                self._wait_for_readers()
                address = self._address()
                if closes:
                    self._at.value = None
                return call(address)
            finally:
                self._is_changed = False

    def _wait_for_readers(self) -> None:
        """Takes all leases away, and waits until no call has one."""
        self._leases.clear()
        gone = threading.Event()
        while readers := [it for it in (_watch(held, gone) for held in self._held.values()) if it is not None]:
            # (what interrupts a callback may keep it from telling)
            gone.wait(0.02)
            gone.clear()
        self._held.clear()

    def _change(self, call: Callable[..., int], *arguments: Any) -> None:
        """Changes the map by a call that gets its address, these and the fault."""
        fault = _library.Fault()
        check(self._exclusively(lambda at: call(at, *arguments, byref(fault))), fault)

    def close(self) -> None:
        """Frees the map, if it is not freed yet. All other calls then raise ValueError.

        >>> map = SourceMap.from_tokens([])
        >>> map.close()
        >>> map.counts()
        Traceback (most recent call last):
        ValueError: The map is closed
        """
        with suppress(ValueError):
            self._exclusively(lib.smap_free_map, closes=True)

    @property
    def closed(self) -> bool:
        """Whether the map is closed.

        >>> SourceMap.from_tokens([]).closed
        False
        """
        return not self._at.value

    def __enter__(self: Self) -> Self:
        return self

    def __exit__(self, *_: object) -> None:
        self.close()

    def __del__(self, free: Callable[..., object] = lib.smap_free_map) -> None:
        # (other finalizers of a cycle may use the map after this: it is closed then)
        with suppress(AttributeError):
            self._leases.clear()
            address, self._at.value = self._at.value, None
            free(address)


def _watch(held: weakref.ref[Lease], gone: threading.Event) -> Optional[weakref.ref[Lease]]:
    """Reports by an event when a lease is not held any more; None if it is not now."""
    lease = held()
    return None if lease is None else weakref.ref(lease, lambda _: gone.set())
