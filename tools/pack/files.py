"""Files of an archive in memory, and archives whose bytes depend on these alone: sorted entries, fixed owners, one time for all."""

import gzip
import io
import lzma
import tarfile
from pathlib import PurePosixPath
from typing import NamedTuple


class File(NamedTuple):
    """A file, or a link to another."""

    content: bytes = b""
    mode: int = 0o644
    link: str | None = None


def folders(files):
    """The folders in which files lie."""
    return {str(it) for path in files for it in PurePosixPath(path).parents if str(it) != "."}


def entry(path, file, epoch):
    """What a tar has of a file, or of a folder."""
    about = tarfile.TarInfo(path)
    about.mtime = epoch
    about.uname = about.gname = "root"
    if file is None:
        about.type, about.mode = tarfile.DIRTYPE, 0o755
    elif file.link is not None:
        about.type, about.mode, about.linkname = tarfile.SYMTYPE, 0o777, file.link
    else:
        about.mode, about.size = file.mode, len(file.content)
    return about


def tar(files, epoch, top="", root=False):
    """A tar of files below `top`; with `root` the entry of `top` itself comes first, as in a package of Debian."""
    out = io.BytesIO()
    with tarfile.open(fileobj=out, mode="w", format=tarfile.GNU_FORMAT) as archive:
        if root:
            archive.addfile(entry(top, None, epoch))
        for path in sorted({*files, *folders(files)}):
            file = files.get(path)
            archive.addfile(entry(top + path, file, epoch), io.BytesIO(file.content) if file else None)
    return out.getvalue()


def gz(content, epoch):
    return gzip.compress(content, 9, mtime=epoch)


def xz(content):
    return lzma.compress(content, preset=6)


def ar(members, epoch):
    """An archive as `ar` makes it, of names and contents."""
    out = b"!<arch>\n"
    for name, content in members.items():
        out += f"{name:<16}{epoch:<12}{0:<6}{0:<6}{'100644':<8}{len(content):<10}`\n".encode() + content + b"\n" * (len(content) % 2)
    return out
