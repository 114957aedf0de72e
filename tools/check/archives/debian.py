"""Packages of Debian, installed into an empty root, and what lintian says of them."""

import io
import os
import re
import shutil
import subprocess
import tarfile
from pathlib import Path

from tools.check.archives.tarball import calls_of_header
from tools.check.archives.trying import ANSWER, C_JOB, MAP, TOP, Empty, holds, ran

# (who is not root is root in a namespace of its own)
AS_ROOT = ["unshare", "-r"] if os.getuid() else []
CHROOT = shutil.which("chroot", path=f"{os.environ['PATH']}:/usr/sbin:/sbin")
# What lintian says and why it stays.
EXPLAINED = TOP / "tools/check/lintian-explained.txt"


def glibc_of(*files):
    """The oldest glibc that has the symbols of these files, as objdump tells them."""
    found = [it for file in files for it in re.findall(r"GLIBC_(\d+)\.(\d+)", ran(["objdump", "-T", file]))]
    return max((tuple(map(int, it)) for it in found), default=(2, 0))


def new_root(root):
    """An empty root with what dpkg needs, and the C library of this machine."""
    for it in ("var/lib/dpkg/updates", "var/lib/dpkg/info", "var/lib/dpkg/triggers", "usr", "lib64", "tmp", "bin"):
        (root / it).mkdir(parents=True)
    (root / "var/lib/dpkg/status").touch()
    (root / "var/lib/dpkg/available").touch()


def c_library(root):
    """Puts the C library, and a shell with what it calls, into a root: what each machine of Debian has."""
    for program in ("sh", "readlink", "dirname", "cat"):
        path = Path(shutil.which(program)).resolve()
        shutil.copy(path, root / "bin" / program)
        for it in re.findall(r"(/\S+) \(0x", ran(["ldd", path])):
            (root / it[1:]).parent.mkdir(parents=True, exist_ok=True)
            shutil.copy(it, root / it[1:])


def install_debs(root, debs):
    """dpkg takes the packages, with what they depend on but the C library."""
    new_root(root)
    environment = os.environ | {"LC_ALL": "C"}
    ran(
        [*AS_ROOT, "dpkg", f"--root={root}", "--force-not-root", "--force-depends", "--force-bad-path", "--log=/dev/null", "-i", *debs],
        env=environment,
    )
    for it in debs:
        depends = ran(["dpkg-deb", "-f", it, "Depends"]).strip()
        holds(re.fullmatch(r"libc6 \(>= [\d.]+\)|liboxc-sourcemap1 \(= \S+\)", depends), f"{it.name} depends on {depends}")
    missing = [it for it in calls_of_header() if not (root / f"usr/share/man/man3/{it}.3.gz").exists()]
    holds(not missing and (root / "usr/share/doc/liboxc-sourcemap-dev/reference.html").is_file(), f"there are no pages of {missing}")
    pages = [root / f"usr/share/doc/{it}" for it in ("junketscarp/cli.md", "liboxc-sourcemap-dev/FORMAT.md")]
    holds(all(it.is_file() for it in pages), f"there is none of {pages}")
    said = ran(["dpkg", f"--root={root}", "--verify"], env=environment, check=False)
    holds(not said, said)


def has_copyright(debs):
    """copyright has Debian's form for programs: a head, and of each part its files, who has its copyright, and its licence with a text."""
    for deb in debs:
        path = f"./usr/share/doc/{deb.name.split('_')[0]}/copyright"
        with tarfile.open(fileobj=io.BytesIO(subprocess.run(["dpkg-deb", "--fsys-tarfile", deb], capture_output=True).stdout)) as packed:
            head, *parts = packed.extractfile(path).read().decode().strip().split("\n\n")
        holds(head.startswith("Format: https://www.debian.org/doc/packaging-manuals/copyright-format/1.0/\n"), f"{deb.name}: {head}")
        form = r"Files: (\S.*)\nCopyright:\n(?: \S.*\n)+License: \S+(?: and \S+)*(?:\n \S.*)+"
        files = [found and found[1].split() for found in (re.fullmatch(form, it) for it in parts)]
        holds(all(files) and files[0] == ["*"], f"{deb.name}: a part of copyright has another form")
        names = [it for found in files[1:] for it in found]
        holds(len(names) == len({*names}) and "rattle/serde_json/*" in names, f"{deb.name}: copyright of {names}")


def in_root(root, *words, input=None):
    return ran([*AS_ROOT, CHROOT, root, *words], input=input, env={"PATH": "/usr/bin:/bin"})


def programs_in_root(root):
    c_library(root)
    found = in_root(root, "smap", "trace", "0", "3", input=MAP)
    holds(found == '"a.js":0:4 "x"\n', f"smap prints {found!r}")
    if (root / "usr/bin/sourcemap").exists():
        holds("trace" in in_root(root, "sourcemap", "--help"), "sourcemap --help")


def c_in_root(root, empty):
    """A program in C that is compiled over the root, and runs in it, with nothing said of where the library is."""
    empty.write("job.c", C_JOB)
    where = {"PKG_CONFIG_LIBDIR": f"{root}/usr/lib/x86_64-linux-gnu/pkgconfig"}
    flags = empty.run("pkg-config", "--cflags", "--libs", "oxc_sourcemap", **where).split()
    holds(not any("rpath" in it for it in flags), f"the flags of a system's library name a folder: {flags}")
    empty.run("cc", "job.c", "-o", root / "job", *flags)
    found = in_root(root, "/job")
    holds(found == ANSWER, f"the program prints {found!r}")


def needs_no_newer(root, debs):
    """The packages ask for the glibc that has their symbols, and no older one."""
    for deb, path in debs:
        told = re.search(r"libc6 \(>= ([\d.]+)\)", ran(["dpkg-deb", "-f", deb, "Depends"]))[1]
        found = glibc_of(*[it for it in root.glob(path) if it.is_file()])
        holds(tuple(map(int, told.split("."))) == found, f"{deb.name} asks for {told}, and its symbols for {found}")


def begin_lintian(debs):
    """lintian takes its time, beside all else."""
    words = ["lintian", "--no-cfg", "--allow-root", "--display-info", "--tag-display-limit", "0", *debs]
    return subprocess.Popen(words, stdout=subprocess.PIPE, stderr=subprocess.STDOUT, text=True)


def passes_lintian(lintian):
    """lintian says nothing but what is explained."""
    explained = {line.split(": ")[0] for line in EXPLAINED.read_text().splitlines() if line and not line.startswith("#")}
    said = lintian.communicate(timeout=1800)[0]
    holds(lintian.returncode in (0, 2), said)
    rows = [line for line in said.splitlines() if re.match(r"[EWI]: ", line)]
    faults = [line for line in rows if not any({*it.split()} <= {*line.split()} for it in explained)]
    holds(not faults, "\n".join(faults))


def try_debs(tally, room, dist):
    debs = sorted(dist.glob("*_amd64.deb"))
    if AS_ROOT and (not shutil.which("unshare") or subprocess.run([*AS_ROOT, "true"], capture_output=True).returncode):
        print("package: packages of Debian: passed over, nobody is root here")
    elif tally.has("packages of Debian", "dpkg", "dpkg-deb"):
        root = room / "root"
        tally.attempt("packages of Debian, installed", install_debs, root, debs)
        tally.attempt("packages of Debian, copyright", has_copyright, debs)
        needs = [
            (it, path)
            for name, path in (("junketscarp", "usr/lib/junketscarp/*"), ("liboxc-sourcemap1", "usr/lib/x86*/*.so.1"))
            for it in debs
            if it.name.startswith(f"{name}_")
        ]
        tally.attempt("packages of Debian, the glibc that they need", needs_no_newer, root, needs)
        if not CHROOT or subprocess.run([*AS_ROOT, CHROOT, "/", "true"], capture_output=True).returncode:
            print("package: packages of Debian, run: passed over, no root can be changed here")
        elif tally.has("packages of Debian, run", "ldd"):
            tally.attempt("packages of Debian, programs", programs_in_root, root)
            if tally.has("packages of Debian, from C", "cc", "pkg-config"):
                tally.attempt("packages of Debian, from C by pkg-config", c_in_root, root, Empty(room / "empty"))
