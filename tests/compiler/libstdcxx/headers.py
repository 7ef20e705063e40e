"""Compiles each header of the C++ library alone, with the installed one, and with the system's where that fails."""

from __future__ import annotations

import concurrent.futures
import itertools
import os

from with_musl import run

STANDARDS = ("c++17", "c++20")
DRIVERS = {"gcc": "g++", "clang": "clang++"}


def names(prefix: str) -> list[str]:
    """The standard headers that are installed: those of no folder, without an ending."""
    folder = os.path.join(prefix, "share/reedbodkin/libc/c++/include")
    return sorted(name for name in os.listdir(folder) if "." not in name and os.path.isfile(os.path.join(folder, name)))


def compiles(words: list[str], name: str, folder: str) -> bool:
    return run([*words, "-x", "c++", "-c", "-", "-o", "/dev/null"], folder, input=b"#include <%s>\n" % name.encode()).returncode == 0


def is_wrong(prefix: str, folder: str, compiler: str, standard: str, name: str) -> bool:
    """Whether a header fails that the compiler takes natively."""
    own = ["env", "NC_CC=" + compiler, os.path.join(prefix, "bin/nc-c++"), "-fsyntax-only", "-std=" + standard]
    if compiles(own, name, folder) or not compiles([DRIVERS[compiler], "-m32", "-std=" + standard], name, folder):
        return False
    print("<%s> by %s as %s doesn't compile" % (name, compiler, standard), flush=True)
    return True


def try_all(prefix: str, folder: str, compilers: list[str]) -> bool:
    """Whether each header compiles that has to."""
    rows = list(itertools.product(compilers, STANDARDS, names(prefix)))
    with concurrent.futures.ThreadPoolExecutor(2) as pool:
        wrong = sum(pool.map(lambda row: is_wrong(prefix, folder, *row), rows))
    print("headers: %d of %d are as they have to be" % (len(rows) - wrong, len(rows)), flush=True)
    return wrong == 0
