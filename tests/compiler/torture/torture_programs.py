"""The programs of gcc's own suite gcc.c-torture/execute, each with its sources and flags: a part of tests/compiler/torture."""

from __future__ import annotations

import glob
import os
import re
import shlex
import subprocess
from typing import NamedTuple

from porting import Fault

ARCHIVE = "gcc-12_12.2.0.orig.tar.gz"
INNER = "*-dfsg.tar.xz"  # the archive in it that has the sources
SUITE = "gcc/testsuite/gcc.c-torture/execute/"
BUILTINS, IEEE = "builtins", "ieee"
# The flags that execute.exp, ieee.exp and builtins.exp give all programs of a folder.
FOLDERS = {
    "": ["-w"],
    IEEE: ["-w", "-fno-inline", "-ffloat-store"],
    BUILTINS: ["-w", "-fno-tree-dse", "-fno-tree-loop-distribute-patterns", "-fno-tracer", "-fno-ipa-ra", "-fno-inline-functions"],
}
OPTIONS = re.compile(r'\{ dg-(?:additional-)?options +\{? *"([^"]*)" *\}? *(\{ *target (.*?)\} *\}|\})')
TARGETS = ("i?86-*-*", "fpic")  # the selectors that are true here; those for other processors and systems aren't
ADDED = re.compile(r"^(?:lappend|set) additional_flags (.*)$", re.M)


class Program(NamedTuple):
    """A program by its place in the suite, such as ieee/fp-cmp-1."""

    name: str
    sources: tuple[str, ...]
    flags: tuple[str, ...]


def suite(path: str, place: str) -> str:
    """The folder with the suite, which is taken out of Debian's archive of gcc. The sources are in an archive within."""
    with subprocess.Popen(["tar", "-xzOf", path, "--wildcards", INNER], stdout=subprocess.PIPE) as outer:
        subprocess.run(["tar", "-xJ", "-C", place, "--wildcards", "*/%s*" % SUITE], stdin=outer.stdout, check=True)
    found = glob.glob(os.path.join(place, "*", SUITE))
    if not found:
        raise Fault("no %s in %s" % (SUITE, path))
    return found[0]


def options_in(text: str) -> list[str]:
    """The flags that a source's comments ask for, as DejaGnu reads them."""
    found = OPTIONS.findall(text)
    return [word for words, _, target in found if not target or any(name in target for name in TARGETS) for word in shlex.split(words)]


def text_of(path: str) -> str:
    """The text of a file, empty where it isn't there."""
    if not os.path.exists(path):
        return ""
    with open(path, encoding="latin-1") as file:
        return file.read()


def flags_of(path: str, folder: str) -> tuple[str, ...]:
    """A program's flags: those of its folder, of its comments in the first folder, and of its `.x` script in the others."""
    if not folder:
        return (*FOLDERS[folder], *options_in(text_of(path)))
    added = ADDED.findall(text_of(path[:-2] + ".x"))
    return (*FOLDERS[folder], *(word for words in added for word in shlex.split(words)))


def sources_of(path: str, folder: str) -> tuple[str, ...]:
    if folder != BUILTINS:
        return (path,)
    return path, path[:-2] + "-lib.c", os.path.join(os.path.dirname(path), "lib", "main.c")


def programs(top: str) -> list[Program]:
    """All programs of the suite, by their names."""
    found = []
    for folder in FOLDERS:
        for path in glob.glob(os.path.join(top, folder, "*.c")):
            name = os.path.join(folder, os.path.basename(path)[:-2])
            if not (folder == BUILTINS and name.endswith("-lib")):
                found.append(Program(name, sources_of(path, folder), flags_of(path, folder)))
    return sorted(found)
