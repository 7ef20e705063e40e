"""A release's files: the tarball and the Debian package of a tree, the same bytes each time."""

from __future__ import annotations

import gzip
import hashlib
import io
import os
import re
import shutil
import subprocess
import tarfile
import tempfile

from installed_files import DOC, filled, version
from installer import Entry, File, Link, put
from products import DEFAULT
from repository import TOP

WHEN = int(os.environ.get("SOURCE_DATE_EPOCH", 1767225600))  # 2026-01-01

# What stands at the top of a tarball, beside bin, include, lib and share.
SHORTCUTS = ["NOTICE", "README.md", "VERSION", "docs", "examples"]


def with_folders(files):
    """The paths of files and of all folders above them, in order; a folder's path has nothing."""
    entries = dict(files)
    for path in files:
        while "/" in path:
            path = os.path.dirname(path)
            entries[path] = None
    return sorted(entries.items())


def member(path, entry):
    """A tarball's header for a file, a link or a folder."""
    info = tarfile.TarInfo(path)
    info.mtime, info.uid, info.gid, info.uname, info.gname = WHEN, 0, 0, "", ""
    if entry is None:
        info.type, info.mode = tarfile.DIRTYPE, 0o755
    elif isinstance(entry, Link):
        info.type, info.linkname, info.mode = tarfile.SYMTYPE, entry.target, 0o777
    else:
        info.size, info.mode = len(entry.content), entry.mode
    return info


def write_tarball(files: dict[str, Entry], path: str) -> list[str]:
    """Makes a tarball with everything below one folder, which is named as the file is."""
    top = os.path.basename(path)[: -len(".tar.gz")]
    with open(path, "wb") as out, gzip.GzipFile("", "wb", 9, out, mtime=0) as packed:
        with tarfile.open(fileobj=packed, mode="w", format=tarfile.GNU_FORMAT) as archive:  # type: ignore[arg-type] # only written
            for name, entry in with_folders({top + "/" + name: entry for name, entry in files.items()}):
                archive.addfile(member(name, entry), io.BytesIO(entry.content) if isinstance(entry, File) else None)
    return [path]


def with_shortcuts(files: dict[str, Entry]) -> dict[str, Entry]:
    """What stands in a tarball: also its script, and what a reader looks for first."""
    with open(os.path.join(TOP, "tools", "lib", "installer.py"), "rb") as script:
        more = {"install": File(script.read(), 0o755)}
    return {**files, **more, **{name: Link(DOC + name) for name in SHORTCUTS}}


def glibc_of(files):
    """The newest version of the C library that a file wants."""
    found = [re.findall(rb"GLIBC_(2(?:\.\d+)+)", entry.content) for entry in files.values() if isinstance(entry, File)]
    return max((name.decode() for names in found for name in names), key=lambda name: [int(n) for n in name.split(".")])


def control(files, cpu):
    """The control files of the Debian package."""
    size = sum(-(-len(entry.content) // 1024) for entry in files.values() if isinstance(entry, File))
    sums = ["%s  usr/%s\n" % (hashlib.md5(entry.content).hexdigest(), path)
            for path, entry in sorted(files.items()) if isinstance(entry, File)]
    text = filled("control.in", SIZE=str(size), GLIBC=glibc_of(files), CPU=cpu)
    return {"control": text, "md5sums": "".join(sums), "triggers": "activate-noawait ldconfig\n"}


def write_package(files: dict[str, Entry], path: str, cpu: str) -> list[str]:
    """Makes a Debian package with everything below /usr, where that can be done."""
    if shutil.which("dpkg-deb") is None:
        print("skipped: the Debian package: dpkg-deb isn't there")
        return []
    entries = {"usr/" + name: entry for name, entry in files.items()}
    entries.update({"DEBIAN/" + name: File(text.encode(), 0o644) for name, text in control(files, cpu).items()})
    with tempfile.TemporaryDirectory() as folder:
        for name, entry in with_folders(entries):
            place = os.path.join(folder, name)
            os.mkdir(place) if entry is None else put(place, entry)
        for place in [folder] + [os.path.join(folder, name) for name, entry in with_folders(entries) if entry is None]:
            os.chmod(place, 0o755)
        for place in [os.path.join(folder, name) for name, _ in reversed(with_folders(entries))] + [folder]:
            os.utime(place, (WHEN, WHEN), follow_symlinks=False)
        words = ["dpkg-deb", "--root-owner-group", "-Zxz", "--build", folder, path]
        subprocess.run(words, stdout=subprocess.DEVNULL, env={**os.environ, "SOURCE_DATE_EPOCH": str(WHEN)}, check=True)
    return [path]


def names(cpu: str) -> tuple[str, str]:
    """The names of the tarball and of the package."""
    level = "" if cpu == DEFAULT else cpu[len("x86-64"):] or "-v1"
    return "reedbodkin-%s-x86_64%s-linux.tar.gz" % (version(), level), "reedbodkin_%s_amd64%s.deb" % (version(), level)
