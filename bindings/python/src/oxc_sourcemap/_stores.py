"""Where codes and maps lie, and by which name a URL asks for them."""

from __future__ import annotations

import errno
import os
import re
import stat
import tempfile
from collections.abc import Mapping
from contextlib import suppress
from typing import TYPE_CHECKING, NamedTuple, Optional, Protocol
from urllib.parse import unquote_to_bytes

if TYPE_CHECKING:
    from _typeshed import StrPath

MOST_NAME = 1024
"""The most bytes of a name in a store."""

_SCHEME = re.compile(r"([a-zA-Z][a-zA-Z0-9+.-]+):(?://([^/?#]*))?")
_DRIVE = re.compile(r"[a-zA-Z]:[\\/]")
_ODD = re.compile(r"[\x00-\x1f\x7f/\\]")


class RefusedError(ValueError):
    """A name that resolves outside of a store, or that no store has: with a part `..`, a control character, a slash in a part, a link out.

    >>> check_name("../a.js")
    Traceback (most recent call last):
    oxc_sourcemap._stores.RefusedError: a path with the part '..'
    """


class TooLargeError(ValueError):
    """A file or text with more bytes than the limit.

    >>> raise TooLargeError("a.js.map", 9, 8)
    Traceback (most recent call last):
    oxc_sourcemap._stores.TooLargeError: a.js.map has 9 bytes, and the limit is 8
    """

    def __init__(self, name: str, length: int, limit: int) -> None:
        super().__init__(f"{name} has {length} bytes, and the limit is {limit}")
        self.length, self.limit = length, limit

    length: int
    """How many bytes there are, or, where it is read no further, how many were read."""
    limit: int
    """The limit."""


class Store(Protocol):
    """What has codes and maps: any object with this method, which several threads may call at once."""

    def get(self, name: str, /) -> Optional[bytes]:
        """The bytes of this name, or None. A name has slashes between its parts, none of which is empty, `.` or `..`. Any Exception
        leaves frames unchanged, with Reason.STORE.

        >>> {"a.js.map": b"{}"}.get("a.js.map")
        b'{}'
        """


def _check_part(part: str) -> str:
    if part == "..":
        raise RefusedError("a path with the part '..'")
    if _ODD.search(part):
        raise RefusedError(f"a path with the part {part!a}")
    try:
        length = len(part.encode())
    except UnicodeEncodeError:
        raise RefusedError(f"a path that is not UTF-8: {part!a}") from None
    if length > 255:
        raise RefusedError(f"a path with a part of {length} bytes")
    return part


def check_name(name: str) -> str:
    """A name that is one of a store. Raises RefusedError.

    >>> check_name("static/a.js")
    'static/a.js'
    """
    for part in name.split("/"):
        if part in ("", "."):
            raise RefusedError(f"a path with the part {part!a}")
        _check_part(part)
    if len(name.encode()) > MOST_NAME:
        raise RefusedError(f"a path of more than {MOST_NAME} bytes")
    return name


def decoded(part: str) -> str:
    """A part of the path of a URL without its escapes. Raises RefusedError if they are not UTF-8.

    >>> decoded("my%20app.js")
    'my app.js'
    """
    try:
        return unquote_to_bytes(part).decode()
    except UnicodeError:
        raise RefusedError(f"a path that is not UTF-8: {part!a}") from None


def _origin_and_path(url: str) -> tuple[str, str, bool]:
    """What stands before the path of a URL or a path, the path, and whether it has escapes."""
    if _DRIVE.match(url):
        return "/", url.replace("\\", "/"), False
    found = _SCHEME.match(url)
    if found is None:
        return ("/" if url.startswith("/") else ""), url, False
    path = re.split("[?#]", url[found.end() :], maxsplit=1)[0]
    if found[1].lower() == "file":
        return "/", path, True
    return f"{found[1]}://{found[2] or ''}".lower(), path, True


def origin_of(url: str) -> str:
    """What stands before the path of a URL; nothing of a file.

    >>> origin_of("https://example.com/a.js"), origin_of("/srv/a.js")
    ('https://example.com', '')
    """
    origin = _origin_and_path(url)[0]
    return "" if origin == "/" else origin


def parts_of(url: str) -> tuple[str, ...]:
    """The origin of a URL (`/` of a path from the root and of a file, nothing of another path) and the parts of its path, without
    those that are empty or `.`, escapes decoded. Raises RefusedError.

    >>> parts_of("https://Example.com/static//my%20app.js?v=1")
    ('https://example.com', 'static', 'my app.js')
    """
    origin, path, has_escapes = _origin_and_path(url)
    parts = [decoded(it) if has_escapes else it for it in path.split("/")]
    return (origin, *(_check_part(it) for it in parts if it not in ("", ".")))


class Bases:
    """Which URLs are those of a store: a URL, below which is all of it, or pairs of URLs and folders of it.

    >>> Bases({"https://example.com/static/": "dist"}).name_of("https://example.com/static/a.js?v=1")
    'dist/a.js'
    """

    def __init__(self, bases: str | Mapping[str, str]) -> None:
        if not isinstance(bases, (str, Mapping)):
            raise TypeError(f"base is {bases!r}, and neither a string nor a mapping")
        pairs = {bases: ""} if isinstance(bases, str) else bases
        self._folders = {parts_of(url): "/".join(parts_of(folder)[1:]) for url, folder in pairs.items()}

    def name_of(self, url: str) -> Optional[str]:
        """The name in the store, by the longest base that the URL or path lies below; None if there is none. Raises RefusedError."""
        parts = parts_of(url)
        for count in range(len(parts) - 1, 0, -1):
            folder = self._folders.get(parts[:count])
            if folder is not None:
                return check_name("/".join(filter(None, (folder, *parts[count:]))))
        return None


class Opened(NamedTuple):
    """An open file, and the system's record of it."""

    file: int
    status: os.stat_result


class Folder:
    """A folder as a store. It refuses names that resolve outside of it: by `..`, or by a link of the file or of a folder above it. Nobody
    else may change links in it meanwhile. Raises OSError if it does not exist.

    >>> import tempfile
    >>> with tempfile.TemporaryDirectory() as path:
    ...     with open(os.path.join(path, "a.js"), "wb") as file:
    ...         size = file.write(b"let a;")
    ...     Folder(path).get("a.js"), Folder(path).get("b.js")
    (b'let a;', None)
    """

    def __init__(self, path: StrPath) -> None:
        self.path = os.path.realpath(path, strict=True)
        if not os.path.isdir(self.path):
            raise NotADirectoryError(errno.ENOTDIR, os.strerror(errno.ENOTDIR), self.path)

    def path_of(self, name: str) -> str:
        """The path of a name, which may have no file, links followed. Raises RefusedError, and OSError of a link to itself.

        >>> Folder("/").path_of("../etc/passwd")
        Traceback (most recent call last):
        oxc_sourcemap._stores.RefusedError: a path with the part '..'
        """
        return self._inside(os.path.join(self.path, *check_name(name).split("/")), name)

    def place_of(self, name: str) -> str:
        """The same for a name that is not followed itself if it is a link, but its folder is.

        >>> Folder("/").place_of("a.js.map")
        '/a.js.map'
        """
        folder, last = os.path.split(os.path.join(self.path, *check_name(name).split("/")))
        return os.path.join(self._inside(folder, name), last)

    def _inside(self, path: str, name: str) -> str:
        found = os.path.realpath(path)
        if os.path.commonpath((found, self.path)) != self.path:
            raise RefusedError(f"{name} is a link out of the folder")
        return found

    def open(self, name: str) -> Optional[Opened]:
        """A plain file, opened; None if there is none. The caller closes it. Raises RefusedError, and OSError.

        >>> print(Folder("/srv").open("no.js"))
        None
        """
        try:
            file = os.open(self.path_of(name), os.O_RDONLY | getattr(os, "O_NONBLOCK", 0) | getattr(os, "O_CLOEXEC", 0))
        except OSError as error:
            if error.errno in (errno.ENOENT, errno.ENOTDIR, errno.ENAMETOOLONG, errno.ENXIO):
                return None
            raise
        status = os.fstat(file)
        if stat.S_ISREG(status.st_mode):
            return Opened(file, status)
        os.close(file)
        return None

    def get(self, name: str, limit: Optional[int] = None) -> Optional[bytes]:
        """The bytes of a file; None if there is none. Raises RefusedError, OSError, and TooLargeError above a limit of bytes.

        >>> print(Folder("/srv").get("no.js"))
        None
        """
        opened = self.open(name)
        if opened is None:
            return None
        try:
            return read_within(opened, name, limit)
        finally:
            os.close(opened.file)


def read_within(opened: Opened, name: str, limit: Optional[int]) -> bytes:
    """All bytes of a file, from its beginning, which are no more than the limit."""
    if limit is not None and opened.status.st_size > limit:
        raise TooLargeError(name, opened.status.st_size, limit)
    with os.fdopen(opened.file, "rb", closefd=False) as file:
        data = file.read() if limit is None else file.read(limit + 1)
    if limit is not None and len(data) > limit:
        raise TooLargeError(name, len(data), limit)
    return data


def replace_file(path: str, data: bytes, mode: int, time_ns: int) -> None:
    """Puts a new file with these bytes, permissions and time in place of one, once it is on the disk. Raises OSError."""
    folder = os.path.dirname(path)
    file, made = tempfile.mkstemp(prefix=".smc-", dir=folder)
    try:
        with os.fdopen(file, "wb") as out:
            out.write(data)
            out.flush()
            os.fchmod(file, mode & 0o666)
            os.utime(file, ns=(time_ns, time_ns))
            os.fsync(file)
        os.replace(made, path)
    except BaseException:
        with suppress(OSError):
            os.unlink(made)
        raise
