"""The verdict of nc_check on a file that is linked."""

from __future__ import annotations

import os

from .caching import on_path
from .tools import run

# Where nc_check is, from the folder of nc-cc: installed, and in the repository.
PLACES = ("nc_check", "../crates/nc_check/out/nc_check")
# Of an ELF file: its mark, where its type stands, and an object's.
MARK, TYPE, OBJECT = b"\x7fELF", slice(16, 18), b"\1\0"
REFUSED = 1


def judge_beside(place: str) -> str | None:
    """The program that judges: the one that NC_CHECK names, else the one beside nc-cc, whose folder is `place`, else the one on PATH."""
    beside = [os.path.normpath(os.path.join(place, path)) for path in PLACES]
    named = os.environ.get("NC_CHECK")
    return named or next((path for path in beside if os.access(path, os.X_OK)), None) or on_path("nc_check")


def is_linked(path: str) -> bool:
    """Whether a file is an ELF file that is more than an object. What has another form, or is no file, nc_check doesn't judge."""
    if not os.path.isfile(path):
        return False
    with open(path, "rb") as file:
        start = file.read(TYPE.stop)
    return start.startswith(MARK) and start[TYPE] != OBJECT


def verdict(program: str, path: str) -> tuple[int, str]:
    """The status of nc_check, which is 0 for a file that is accepted and 1 for one that is refused, and what it says."""
    return run([program, path], caught=(1, 2))
