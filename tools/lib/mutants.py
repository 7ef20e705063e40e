"""Mutants of C, C++ and Rust: files NAME.edit in folders mutants/, each of which plants one bug that a test has to find.

    file: sandbox/boxes.c
    old: return b->memory->boxes == NULL;
    new: return 1;
    test: sharing
    line: memory

Lines are as in must-fail/ of a crate: an `old:` text is one line or a part of one, and occurs once in the file, whose path begins at the
top of the repository. Further pairs apply to the result. A line `below: TEXT` before a pair leaves out what is above the only place of
TEXT, and then the first place of `old:` counts. `test:` names what finds the bug, and `line:`, where there is one, what it says then.
A mutant that several tests find has several such pairs.
"""

from __future__ import annotations

import os
import sys
from typing import NamedTuple

from repository import TOP

KEYS = ("file", "below", "old", "new", "test", "line")


class Change(NamedTuple):
    below: str
    old: str
    new: str


class Mutant(NamedTuple):
    """A mutant, and one of the tests that have to find it."""
    name: str
    source: str
    changes: tuple[Change, ...]
    test: str
    line: str


class Slip(Exception):
    """What is wrong with a mutant."""


def rows_of(path: str) -> list[tuple[str, str]]:
    """The lines of a file, as names and texts."""
    with open(path, encoding="utf-8") as file:
        rows = [line.rstrip("\n").partition(":") for line in file]
    for key, colon, _ in rows:
        if key not in KEYS or not colon:
            raise Slip("%s: a line is none of %s" % (path, ", ".join(KEYS)))
    return [(key, text[1:] if text.startswith(" ") else text) for key, _, text in rows]


def read(path: str) -> list[Mutant]:
    """The mutant of a file, once for each test that finds it."""
    source, below = "", ""
    changes: list[Change] = []
    tests: list[list[str]] = []
    for key, text in rows_of(path):
        if key == "file":
            source = text
        elif key == "below":
            below = text
        elif key == "old":
            changes.append(Change(below, text, ""))
            below = ""
        elif key == "new":
            changes[-1] = changes[-1]._replace(new=text)
        elif key == "test":
            tests.append([text, ""])
        else:
            tests[-1][1] = text
    if not (source and changes and tests):
        raise Slip("%s: there is no `file:`, no `old:` or no `test:`" % path)
    name = os.path.basename(path)[:-len(".edit")]
    return [Mutant(name, source, tuple(changes), test, line) for test, line in tests]


def all_of(*folder: str) -> list[Mutant]:
    """Those of the folder mutants/ in a folder of the repository, by their names."""
    place = os.path.join(TOP, *folder, "mutants")
    try:
        return [mutant for name in sorted(os.listdir(place)) for mutant in read(os.path.join(place, name))]
    except Slip as slip:
        sys.exit("mutants: %s" % slip)


def changed(mutant: Mutant, text: str) -> str:
    """The text of the mutant's file with the bug."""
    for below, old, new in mutant.changes:
        if below and text.count(below) != 1:
            raise Slip("%s: `%s` occurs %d times in %s" % (mutant.name, below, text.count(below), mutant.source))
        begin = text.index(below) + len(below) if below else 0
        if old not in text[begin:] or (not below and text.count(old) != 1):
            raise Slip("%s: `%s` occurs %d times in %s" % (mutant.name, old, text[begin:].count(old), mutant.source))
        text = text[:begin] + text[begin:].replace(old, new, 1)
    return text


def source_of(mutant: Mutant) -> str:
    """The path of the mutant's file."""
    return os.path.join(TOP, mutant.source)


def planted(mutant: Mutant, path: str | None = None) -> str:
    """The text with the bug of the mutant's file, or of a copy of it."""
    try:
        with open(path or source_of(mutant), encoding="utf-8") as file:
            return changed(mutant, file.read())
    except Slip as slip:
        sys.exit("mutants: %s" % slip)
