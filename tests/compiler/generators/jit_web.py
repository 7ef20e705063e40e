"""Times of PCRE2's interpreter by wasm2c and in Node.js, where a box has the JIT: a part of tests/compiler/generators/run --time."""

from __future__ import annotations

import os
import struct
from collections.abc import Iterable

from peers_building import unit_of
from peers_times import WARM
from peers_ways import NODE, SOURCES, web, web_ways

TITLES = {"guard": "wasm2c", NODE: "node"}


def sum_of(content):
    """The sum that a unit makes over bytes, as unit.c does."""
    made = 1
    for byte in content:
        made = ((made << 5 | made >> 27) & 0xFFFFFFFF) * 3 & 0xFFFFFFFF ^ byte
    return "%08x" % made


def patterns_of(path):
    """The lines of the patterns of each text, by the text's name."""
    texts, lines = {}, []
    with open(path, encoding="utf-8") as file:
        for line in file.read().splitlines():
            if line.startswith("= "):
                lines = texts.setdefault(line[2:], [])
            elif line and not line.startswith("#"):
                lines.append(line)
    return texts


class Web:
    """The interpreter by each way that can be gone here, and the least milliseconds of each pattern."""

    def __init__(self, top: str, patterns: str, folder: str) -> None:
        self.folder = folder
        self.counts = self.write_inputs(patterns)
        unit = unit_of("pcre2", [top], folder, folder)
        own = [os.path.join(SOURCES, "patterns.c"), os.path.join(SOURCES, "unit.c")]
        ways = [way for way in web_ways("generators --time", folder) if way in TITLES]
        os.makedirs(unit.folder)
        self.built = web(unit._replace(own=own), ways)
        self.best: dict[str, list[float]] = {}
        self.sums: dict[str, list[str]] = {}

    def write_inputs(self, patterns: str) -> dict[str, int]:
        """Writes the input for each text, and tells how many patterns it has."""
        counts = {}
        for name, lines in patterns_of(patterns).items():
            with open(os.path.join(self.folder, name), "rb") as file:
                text = file.read()
            with open(os.path.join(self.folder, name + ".input"), "wb") as file:
                file.write("".join(line + "\n" for line in lines).encode() + b"\0" + text)
            counts[name] = len(lines)
        return counts

    def turn(self) -> None:
        """Runs each way once."""
        for way, built in self.built.items():
            rounds, rows = WARM if way == NODE else 1, []
            for name, count in self.counts.items():
                rows += built.run([os.path.join(self.folder, name + ".input"), str(rounds), str(count)], self.folder)
            times = [took for took, _ in rows]
            self.best[way] = [min(pair) for pair in zip(self.best.get(way, times), times)]
            self.sums[way] = [made for _, made in rows]

    def agrees(self, sums: Iterable[str]) -> bool:
        """Whether each way found what has these sums over its places."""
        wanted = [sum_of(struct.pack("<I", int(one))) for one in sums]
        return all(found == wanted for found in self.sums.values())

    def titles(self) -> list[str]:
        return [TITLES[way] for way in self.built]

    def times(self) -> list[tuple[float, ...]]:
        """The milliseconds of each pattern, in the order of the titles."""
        return list(zip(*(self.best[way] for way in self.built))) if self.built else []
