"""Numbers and texts for the library, and from it: arrays of unsigned 32-bit numbers, and arrays of pairs of address and length."""

from __future__ import annotations

import ctypes
import sys
from array import array
from collections.abc import Callable, Iterable, Iterator
from operator import index
from typing import TYPE_CHECKING, Optional, TypeVar, Union, cast

from ._errors import check_code
from ._library import NO_ID
from ._values import Code, Text, Token

if TYPE_CHECKING:
    from _typeshed import ReadableBuffer as Buffer

Positions = Union[Iterable[tuple[int, int]], "Buffer"]
"""Lines and columns: pairs, or a buffer of unsigned 32-bit numbers, two for each position."""

Tokens = Union[Iterable[Token], "Buffer"]
"""Tokens, or a buffer of unsigned 32-bit numbers, six for each token."""

Ids = Union[Iterable[int], "Buffer"]
"""Ids, or a buffer of unsigned 32-bit numbers."""

E = TypeVar("E")
T = TypeVar("T")

# The type of numbers as large as an address.
_WORD = "Q" if ctypes.sizeof(ctypes.c_size_t) == 8 else "I"
_NATIVE = "<" if sys.byteorder == "little" else ">"


def number(value: int) -> int:
    """A number as it is, if it has 32 bits."""
    value = index(value)
    if not 0 <= value <= NO_ID:
        raise OverflowError(f"{value} is not from 0 to {NO_ID}")
    return value


def long_number(value: int) -> int:
    """The same, if it has 64 bits."""
    value = index(value)
    if not 0 <= value < 1 << 64:
        raise OverflowError(f"{value} is not from 0 to {(1 << 64) - 1}")
    return value


def stamp_of(stamp: Buffer) -> bytes:
    """A stamp of a compiled map."""
    try:
        data = memoryview(stamp).tobytes()
    except TypeError as error:
        raise TypeError(f"stamp: {error}") from None
    if len(data) != 32:
        raise ValueError(f"a stamp has 32 bytes, not {len(data)}")
    return data


def limit_of(limit: int) -> int:
    """A limit of bytes, for the library."""
    limit = index(limit)
    if limit < 0:
        raise OverflowError(f"{limit} is below 0")
    return min(limit, sys.maxsize)


def _bytes_of(text: Text) -> bytes:
    if isinstance(text, str):
        # (the library refuses a lone surrogate, as it does in bytes)
        return text.encode(errors="surrogatepass")
    if isinstance(text, bytes):
        return text
    try:
        view = memoryview(text)
    except TypeError:
        raise TypeError(f"a str or bytes is needed, not {type(text).__name__}") from None
    return view.tobytes()


def bytes_of(text: Text, name: str) -> bytes:
    """A text as UTF-8. The name, here and below, is that of the argument, for a TypeError."""
    try:
        return _bytes_of(text)
    except TypeError as error:
        raise TypeError(f"{name}: {error}") from None


def _each_of(values: Iterable[E], name: str) -> Iterator[E]:
    try:
        return iter(values)
    except TypeError as error:
        raise TypeError(f"{name}: {error}") from error


def entries_of(values: Iterable[E], name: str, made: Callable[[E], T]) -> list[T]:
    """What is made of each entry of a list."""
    out: list[T] = []
    for entry in _each_of(values, name):
        try:
            out.append(made(entry))
        except TypeError as error:
            raise TypeError(f"{name}[{len(out)}]: {error}") from error
    return out


def numbers_of(buffer: Buffer) -> memoryview:
    """A buffer that holds unsigned 32-bit numbers."""
    view = memoryview(buffer)
    if view.itemsize != 4 or view.format.lstrip("@=" + _NATIVE) not in ("I", "L"):
        raise TypeError(f"the buffer holds '{view.format}', not unsigned 32-bit numbers")
    return view


def _view_of(values: object) -> Optional[memoryview]:
    """The numbers of a buffer, and None for what is no buffer."""
    try:
        view = memoryview(cast("Buffer", values))
    except TypeError:
        return None
    return numbers_of(view)


def _rows_of(view: memoryview, width: int) -> tuple[bytes, int]:
    """A buffer as rows of so many numbers each: a copy of it, and the number of rows."""
    is_table = view.shape is not None and len(view.shape) == 2 and view.shape[1] == width
    if not (is_table or view.ndim == 1 and view.nbytes % (4 * width) == 0):
        raise ValueError(f"the buffer does not hold {width} numbers for each entry")
    return view.tobytes(), view.nbytes // (4 * width)


def positions_of(positions: Positions, name: str = "positions") -> tuple[bytes, int]:
    """Positions for the library, and how many they are."""
    if (view := _view_of(positions)) is not None:
        return _rows_of(view, 2)
    numbers = array("I")
    each = _each_of(cast("Iterable[tuple[int, int]]", positions), name)
    try:
        for line, column in each:
            numbers.extend((line, column))
    except TypeError as error:
        raise TypeError(f"{name}[{len(numbers) // 2}]: {error}") from error
    return numbers.tobytes(), len(numbers) // 2


def tokens_of(tokens: Tokens) -> tuple[bytes, int]:
    """Tokens for the library, and how many they are."""
    if (view := _view_of(tokens)) is not None:
        return _rows_of(view, 6)
    numbers = array("I")
    each = _each_of(cast("Iterable[Token]", tokens), "tokens")
    try:
        for dst_line, dst_col, src_line, src_col, source_id, name_id in each:
            source, name = (NO_ID if it is None else it for it in (source_id, name_id))
            numbers.extend((dst_line, dst_col, src_line, src_col, source, name))
    except TypeError as error:
        raise TypeError(f"tokens[{len(numbers) // 6}]: {error}") from error
    return numbers.tobytes(), len(numbers) // 6


def ids_of(ids: Ids, name: str) -> tuple[bytes, int]:
    """Ids for the library, and how many they are."""
    if (view := _view_of(ids)) is not None:
        return _rows_of(view, 1)
    numbers = array("I", entries_of(cast("Iterable[int]", ids), name, number))
    return numbers.tobytes(), len(numbers)


class Texts:
    """Texts for the library: `words` has an address and a length for each, and 0 and 0 for one that is not known."""

    def __init__(self, texts: Iterable[Optional[bytes]]) -> None:
        pieces = list(texts)
        self._held = b"".join(piece for piece in pieces if piece is not None)
        at = ctypes.cast(ctypes.c_char_p(self._held), ctypes.c_void_p).value or 0
        words = array(_WORD)
        for piece in pieces:
            words.extend((0, 0) if piece is None else (at, len(piece)))
            at += len(piece or b"")
        self.words, self.count = words.tobytes(), len(pieces)


def texts_in(texts: Iterable[Text], name: str) -> Texts:
    """Texts that are all known."""
    return Texts(entries_of(texts, name, _bytes_of))


def contents_in(contents: Iterable[Optional[Text]], name: str) -> Texts:
    """Texts of which some are not known."""
    return Texts(entries_of(contents, name, lambda it: None if it is None else _bytes_of(it)))


def addresses_of(addresses: Iterable[int]) -> array[int]:
    """An array of addresses."""
    return array(_WORD, addresses)


def text_at(at: Optional[int], length: int) -> str:
    """A copy of a text of the library."""
    return ctypes.string_at(at or 0, length).decode() if length else ""


def texts_of(words: array[int]) -> list[Optional[str]]:
    """Copies of texts of the library, by their addresses and lengths; None for an unknown one."""
    return [text_at(at, length) if at else None for at, length in zip(words[::2], words[1::2])]


class Output:
    """An array for the library to write: a new one, or a buffer of unsigned 32-bit numbers that a caller gave."""

    def __init__(self, out: Buffer) -> None:
        view = numbers_of(out)
        if view.readonly:
            raise TypeError("the output is read-only")
        if not view.c_contiguous:
            raise ValueError("the output is not contiguous")
        self.numbers = view.nbytes // 4
        self._held = ctypes.c_char.from_buffer(view) if view.nbytes else None
        self.address = 0 if self._held is None else ctypes.addressof(self._held)


def zeros(typecode: str, count: int) -> array[int]:
    """An array of so many numbers."""
    return array(typecode, (0,)) * count


def listed_or_none(call: Callable[..., int], typecode: str, width: int) -> Optional[array[int]]:
    """What a call gives as a list, with so many numbers for each entry. It gets an address, how many fit, and where it counts; None
    where it reports that there is no list."""
    count = ctypes.c_size_t()
    code = call(None, 0, ctypes.byref(count))
    if code == Code.NO_ENTRY:
        return None
    check_code(code)
    out = zeros(typecode, count.value * width)
    check_code(call(out.buffer_info()[0], count.value, ctypes.byref(count)))
    return out


def listed(call: Callable[..., int], typecode: str, width: int) -> array[int]:
    """The same for a call that always gives one."""
    found = listed_or_none(call, typecode, width)
    return zeros(typecode, 0) if found is None else found


def listed_texts(call: Callable[..., int]) -> list[Optional[str]]:
    """The same for texts."""
    return texts_of(listed(call, _WORD, 2))
