"""The resolver on several machines, by an existing engine: a client of dask.distributed, or any with `submit` and `gather` like it.

The engine sends parts to workers, restarts them elsewhere if a worker ends, and returns the answers. Here frames are divided by their
codes, so that a part needs few maps; each worker process holds one `Resolver` over a folder that all of them see, and its bounds; and
answers are put back into the order of the frames. A part has no effect but its answer, so that one that runs twice counts once.

A frame's own line and column count from 1; all else counts from 0, columns in UTF-16 code units.

>>> import json, os, tempfile
>>> class Here:  # a client that does at once what it is given
...     def submit(self, call, *words, **named):
...         return call(*words)
...     def gather(self, answers):
...         return answers
>>> map = {"version": 3, "sources": ["a.ts"], "names": ["run"], "mappings": "AAAA,aACEA"}
>>> with tempfile.TemporaryDirectory() as folder:
...     with open(os.path.join(folder, "app.js.map"), "w") as file:
...         json.dump(map, file)
...     found = list(resolve_frames(Here(), [Frame("https://h/app.js", 1, 14)], Settings(folder, "https://h/")))
>>> found[0].place, found[0].name
('a.ts:2:3', 'run')

On paper: 100,000,000 frames a day are 1,160 a second. One process resolves some 50,000 a second, so that one core has to spare, and what
counts is that its maps are near: 10,000 compiled ones of 2 MB are 20 GB of a shared folder, of which each worker holds what it is bounded to.
"""

from __future__ import annotations

from collections import defaultdict, deque
from collections.abc import Iterable, Iterator
from dataclasses import dataclass
from functools import lru_cache
from itertools import islice
from typing import Any, Optional, Protocol, Union

from .resolver import BESIDE, Frame, Limits, Resolved, Resolver

__all__ = ["Client", "Frame", "Settings", "resolve_frames"]

# An answer without its frame, which stays here.
_Answer = tuple[Any, ...]


class Client(Protocol):
    """What of a client of dask.distributed is used."""

    def submit(self, func: Any, /, *words: Any, **named: Any) -> Any:
        """Runs a call on a worker, and returns a future. What is named is `pure=False` and `retries`."""

    def gather(self, futures: Any, /) -> Any:
        """The answers of futures, in order."""


@dataclass(frozen=True)
class Settings:
    """What a worker makes its resolver of: the path of a folder, which is the same on each worker, and words as `Resolver` takes them,
    `base` as a URL or as pairs. Compiled maps are kept in `cache`, or beside their maps if `writes_beside` is true.

    >>> Settings("/srv/maps", (("https://h/static/", "js"),)).base
    (('https://h/static/', 'js'),)
    """

    folder: str
    base: Union[str, tuple[tuple[str, str], ...]] = ""
    cache: Optional[str] = None
    writes_beside: bool = False
    limits: Limits = Limits()
    beside_first: bool = False
    debug_id_name: str = "{}.map"
    always_hashes: bool = False


@lru_cache(maxsize=4)
def _resolver(settings: Settings) -> Resolver:
    """The resolver of this process."""
    return Resolver(
        settings.folder,
        settings.base if isinstance(settings.base, str) else dict(settings.base),
        cache=BESIDE if settings.writes_beside else settings.cache,
        limits=settings.limits,
        beside_first=settings.beside_first,
        debug_id_name=settings.debug_id_name,
        always_hashes=settings.always_hashes,
    )


def _answers(settings: Settings, frames: list[tuple[str, int, int]]) -> list[_Answer]:
    """What runs on a worker."""
    resolve = _resolver(settings).resolve_frame
    return [tuple(resolve(*frame))[1:] for frame in frames]


def _parts(frames: list[Frame], size: int) -> Iterator[list[int]]:
    """The numbers of the frames, in parts of this size at most, those of one code behind one another."""
    by_code: defaultdict[str, list[int]] = defaultdict(list)
    for number, frame in enumerate(frames):
        by_code[frame.url].append(number)
    ordered = (number for numbers in by_code.values() for number in numbers)
    while part := list(islice(ordered, size)):
        yield part


class _Window:
    """Frames that are under way."""

    def __init__(self, client: Client, frames: list[Frame], settings: Settings, part: int) -> None:
        self.client, self.frames = client, frames
        self.parts = list(_parts(frames, part))
        words = ([tuple(frames[it][:3]) for it in numbers] for numbers in self.parts)
        self.futures = [client.submit(_answers, settings, given, pure=False, retries=3) for given in words]

    def resolved(self) -> Iterator[Resolved]:
        """What they resolve to, in their order, once all of them are done."""
        answers: list[Optional[_Answer]] = [None] * len(self.frames)
        for numbers, said in zip(self.parts, self.client.gather(self.futures)):
            for number, answer in zip(numbers, said, strict=True):
                answers[number] = answer
        for frame, it in zip(self.frames, answers):
            assert it is not None
            yield Resolved(frame, *it)


def resolve_frames(
    client: Client, frames: Iterable[Frame], settings: Settings, *, window: int = 100_000, part: int = 2000
) -> Iterator[Resolved]:
    """What each frame resolves to, in order: as `Resolver.resolve_frame` of the url, line and column of each. Frames are read as they are
    needed: three windows of them are held at once, each in parts that a worker does in one go.

    Raises what the engine raises, for example if a part has ended its workers repeatedly, and ValueError for numbers below 1.

    The module has an example.

    >>> list(resolve_frames(None, [], Settings("/srv/maps")))
    []
    """
    if window < 1 or part < 1:
        raise ValueError("a window and a part have at least one frame")
    read, under_way = iter(frames), deque[_Window]()
    while batch := list(islice(read, window)):
        under_way.append(_Window(client, batch, settings, part))
        if len(under_way) == 3:
            yield from under_way.popleft().resolved()
    while under_way:
        yield from under_way.popleft().resolved()
