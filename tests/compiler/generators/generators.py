"""What the parts of tests/compiler/generators share."""

from __future__ import annotations

import os
import sys
from typing import NamedTuple

from porting import done
from repository import TOP
from with_musl import SOURCES

sys.path += [os.path.join(TOP, "examples", "ports"), os.path.join(TOP, "tests", "compiler", "peers")]
from generating import unpacked

LIVE = ["--live-code", "16M", "--memory", "512M"]


class Place(NamedTuple):
    """The folder in which everything is installed, and the one in which things are made."""

    prefix: str
    folder: str

    def tool(self, name: str) -> str:
        return os.path.join(self.prefix, "bin", name)

    def below(self, name: str) -> str:
        path = os.path.join(self.folder, name)
        os.makedirs(path, exist_ok=True)
        return path

    def sources(self, name: str, edits: list[str], to: str) -> str:
        """A program's sources, with these edits, below a folder of this name."""
        return unpacked(name, SOURCES, self.below(to), edits)

    def runs(self, *more: str) -> list[str]:
        return [self.tool("nc-run"), *LIVE, *more]

    def accepts(self, path: str) -> None:
        done([self.tool("nc_check"), path], self.folder)


def tell(what: str, is_right: bool, said: object) -> bool:
    """Prints a line, and returns whether it is right."""
    print("%s: %s%s" % (what, "" if is_right else "DIFFERS: ", said), flush=True)
    return is_right
