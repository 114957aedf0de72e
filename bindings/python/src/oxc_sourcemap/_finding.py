"""How a resolver finds the map of a code in its store."""

from __future__ import annotations

import os
import re
from typing import Optional
from urllib.parse import urlsplit

from ._compiling import Compiler, Held, MapText, text_of_data_url
from ._errors import SourceMapError
from ._stores import Bases, Folder, Opened, RefusedError, Store, TooLargeError, check_name, decoded, origin_of, read_within
from ._tables import MissingError
from ._texts import source_mapping_url

_DEBUG_ID = re.compile(r"[0-9a-f]{8}-?(?:[0-9a-f]{4}-?){3}[0-9a-f]{12}")


def debug_id_of(text: str) -> str:
    """A debug id in the form in which two are compared. Raises RefusedError.

    >>> debug_id_of("85314830-023F-4CF1-A267-535F4E37BB17")
    '85314830-023f-4cf1-a267-535f4e37bb17'
    """
    found = text.lower()
    if not _DEBUG_ID.fullmatch(found):
        raise RefusedError("a debug id that is no UUID")
    plain = found.replace("-", "")
    return "-".join((plain[:8], plain[8:12], plain[12:16], plain[16:20], plain[20:]))


def _is_other(held: Held, debug_id: Optional[str]) -> bool:
    """Whether a map has another debug id than that which is asked for."""
    if not debug_id or not held.debug_id:
        return False
    try:
        return debug_id_of(held.debug_id) != debug_id
    except RefusedError:
        return True


def outside(url: str) -> MissingError:
    return MissingError("outside", f"{url!a} is below no base")


class Finder:
    """What finds maps. Each error is a MissingError, except lack of memory."""

    def __init__(self, store: Store, bases: Bases, compiler: Compiler, limits: tuple[int, int], ways: tuple[bool, str]) -> None:
        self._store, self._bases, self._compiler = store, bases, compiler
        self._code_bytes, self._map_bytes = limits
        self._is_beside_first, self._debug_id_name = ways

    def find(self, name: Optional[str], url: str, debug_id: Optional[str]) -> Held:
        """The map of the code with this name (None if its URL is below no base), which a frame has by this URL."""
        try:
            held = self._open(self._debug_id_name.format(debug_id)) if debug_id else None
            if held is None:
                if name is None:
                    raise outside(url)
                held = self._by_name(name, url)
        except RefusedError as error:
            raise MissingError("refused", str(error)) from None
        except TooLargeError as error:
            raise MissingError("too large", str(error)) from None
        except (MissingError, MemoryError):
            raise
        except Exception as error:
            # (another time it may be there)
            raise MissingError("store", f"{type(error).__name__}: {error}", holds=False) from error
        if _is_other(held, debug_id):
            raise MissingError("other build", f"{held.name} has the debug id {held.debug_id}")
        return held

    def _by_name(self, name: str, url: str) -> Held:
        beside = f"{name}.map"
        if self._is_beside_first and (held := self._open(beside)):
            return held
        code = self._bytes(name, self._code_bytes)
        if code is not None and (held := self._by_comment(name, url, code)):
            return held
        if held := self._open(beside):
            return held
        if code is None:
            raise MissingError("not there", f"there is no {name}, and no {beside}")
        raise MissingError("no map", f"{name} names no map that is there, and there is no {beside}")

    def _by_comment(self, name: str, url: str, code: bytes) -> Optional[Held]:
        """The map that the last comment of a code names."""
        try:
            named = source_mapping_url(code)
        except SourceMapError:
            # (a code that is no text)
            return None
        if named is None:
            return None
        text = text_of_data_url(named)
        if text is None:
            found = self._named(name, url, named)
            return self._open(found) if found else None
        if len(text) > self._map_bytes:
            raise TooLargeError(f"the map in {name}", len(text), self._map_bytes)
        return self._compiled(MapText(name, text))

    def _named(self, name: str, url: str, named: str) -> Optional[str]:
        """The name of the map that a code names by a URL: beside the code, or, of a URL that has an origin or begins with a slash, below
        the bases. None if there it is below none."""
        try:
            parts = urlsplit(named)
        except ValueError:
            return None
        if parts.scheme or parts.netloc:
            return self._bases.name_of(named if parts.scheme else f"{url.partition('//')[0]}{named}")
        if named.startswith("/"):
            return self._bases.name_of(f"{origin_of(url)}{parts.path}")
        path, folders = decoded(parts.path), name.split("/")[:-1]
        for part in path.split("/"):
            if part == "..":
                if not folders:
                    raise RefusedError(f"{name} names a map out of the store")
                folders.pop()
            elif part not in ("", "."):
                folders.append(part)
        return check_name("/".join(folders)) if folders else None

    def _bytes(self, name: str, limit: int) -> Optional[bytes]:
        if isinstance(self._store, Folder):
            return self._store.get(name, limit)
        data = self._store.get(name)
        if data is not None and len(data) > limit:
            raise TooLargeError(name, len(data), limit)
        return data

    def _open(self, name: str) -> Optional[Held]:
        """The map with this name; None if there is none."""
        if isinstance(self._store, Folder):
            opened = self._store.open(name)
            if opened is None:
                return None
            try:
                return self._of_file(name, opened)
            finally:
                os.close(opened.file)
        data = self._bytes(name, self._map_bytes)
        return None if data is None else self._compiled(MapText(name, data))

    def _compiled(self, text: MapText) -> Held:
        return self._compiler.fresh(text) or self._compiler.made(text)

    def _of_file(self, name: str, opened: Opened) -> Held:
        """The map in a file."""
        if opened.status.st_size > self._map_bytes:
            raise TooLargeError(name, opened.status.st_size, self._map_bytes)

        def read() -> bytes:
            data = read_within(opened, name, self._map_bytes)
            after = os.fstat(opened.file)
            if (after.st_size, after.st_mtime_ns) != (len(data), opened.status.st_mtime_ns):
                # (it is written meanwhile: what was read is compiled for now alone)
                text.status = None
            return data

        text = MapText(name, read, opened.status)
        return self._compiled(text)
