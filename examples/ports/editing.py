"""Puts lines of our own into files that others wrote, at places that short texts find. So no line of theirs has to be here."""

import os
from typing import NamedTuple

from making import Fault


class Edit(NamedTuple):
    """Our own lines, and where they go in a file. The lines that have `at` have to be as many as `times` says: of the file or, with
    `within`, of its function whose head is the one line with that text. The lines go `before` or `after` them, or their text `instead` of
    what `at` is."""

    file: str
    how: str
    at: str
    lines: str
    within: str = ""
    times: int = 1


def places(lines, text, first, end):
    return [k for k in range(first, end) if text in lines[k]]


def span(lines, edit):
    """The first line of the part in which an edit looks, and the line behind its last."""
    if not edit.within:
        return 0, len(lines)
    heads = places(lines, edit.within, 0, len(lines))
    if len(heads) != 1:
        raise Fault("%s: %d lines have `%s`" % (edit.file, len(heads), edit.within))
    ends = (k + 1 for k in range(heads[0], len(lines)) if lines[k].startswith("}"))
    return heads[0], next(ends, len(lines))


def edited(text, edit):
    """A file's text after an edit."""
    lines = text.split("\n")
    found = places(lines, edit.at, *span(lines, edit))
    if len(found) != edit.times:
        raise Fault("%s: %d lines have `%s`, and not %d" % (edit.file, len(found), edit.at, edit.times))
    for k in reversed(found):
        if edit.how == "instead":
            lines[k] = lines[k].replace(edit.at, edit.lines)
        else:
            place = k + (edit.how == "after")
            lines[place:place] = edit.lines.rstrip("\n").split("\n")
    return "\n".join(lines)


def edit_all(top, edits):
    """Edits files below a folder, in the order of the edits."""
    for edit in edits:
        path = os.path.join(top, edit.file)
        with open(path, encoding="latin-1", newline="") as file:
            text = edited(file.read(), edit)
        with open(path, "w", encoding="latin-1", newline="") as file:
            file.write(text)
