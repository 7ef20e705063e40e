"""libstdc++ for nc-cc, made of gcc's sources over a C library. It takes minutes, so what is made stays in out/libstdcxx, under a name for
what it was made of."""

from __future__ import annotations

import hashlib
import os
import subprocess
import sys
import tempfile
from collections.abc import Iterator

from installer import Entry, File, Link, make_folder, put
from repository import TOP

sys.path.append(os.path.join(TOP, "compiler", "runtime"))
import libstdcxx

KEPT = os.path.join(TOP, "out", "libstdcxx")


def files_of(path: str) -> Iterator[str]:
    """The path of a file, or of all files of a folder, in order."""
    if not os.path.isdir(path):
        yield path
    for place, folders, names in os.walk(path):
        folders.sort()
        yield from (os.path.join(place, name) for name in sorted(names))


def digest(sources: str, stage: dict[str, Entry]) -> str:
    """A name for what the library is made of: the sources, all that nc-cc consists of, with the C library, and the compiler."""
    made_of = hashlib.sha256(subprocess.run(["gcc", "--version"], capture_output=True, check=True).stdout)
    for path, entry in sorted(stage.items()):
        made_of.update(path.encode() + (entry.target.encode() if isinstance(entry, Link) else entry.content))
    for path in [*files_of(sources), *libstdcxx.PARTS_OF_IT]:
        made_of.update(path.encode())
        with open(path, "rb") as file:
            for part in iter(lambda: file.read(1 << 20), b""):
                made_of.update(part)
    return made_of.hexdigest()[:32]


def make(sources: str, stage: dict[str, Entry], kept: str) -> None:
    """Makes the library, which is then in the folder `kept`, whole or not at all."""
    os.makedirs(KEPT, exist_ok=True)
    with tempfile.TemporaryDirectory(dir=KEPT) as folder:
        for path, entry in stage.items():
            make_folder(os.path.dirname(os.path.join(folder, "stage", path)), [])
            put(os.path.join(folder, "stage", path), entry)
        whole = os.path.join(folder, "whole")
        for name, content in libstdcxx.library(sources, folder, os.path.join(folder, "stage", "bin")).items():
            make_folder(os.path.dirname(os.path.join(whole, name)), [])
            put(os.path.join(whole, name), File(content, 0o644))
        os.rename(whole, kept)


def cxx_library(sources: str, stage: dict[str, Entry]) -> dict[str, Entry]:
    """The files of the library by their names. `stage` are those of an installed nc-cc with the C library."""
    kept = os.path.join(KEPT, digest(sources, stage))
    if not os.path.isdir(kept):
        make(sources, stage, kept)
    found: dict[str, Entry] = {}
    for path in files_of(kept):
        with open(path, "rb") as file:
            found[os.path.relpath(path, kept)] = File(file.read(), 0o644)
    return found
