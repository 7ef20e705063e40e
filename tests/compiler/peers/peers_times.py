"""Sums and times of the libraries of tests/compiler/peers by each way, and the tables of them."""

from __future__ import annotations

import math
import os
from collections.abc import Iterable, Sequence

from peers_table import PEERS
from peers_ways import BASE, NODE, Built
from porting import Fault

ROUNDS = 5  # of each operation in a run, of which the least time counts
WARM = 3  # times as many in Node.js, which compiles code anew while it runs
BOX = "box"  # the boxes of this checkout; those of another one have its name
HEADS = {BASE: ("native", BASE), "i386": ("native", "i386"), BOX: ("", BOX), "guard": ("wasm2c", "guard"), "bounds": ("wasm2c", "bounds"),
         NODE: ("", NODE)}


def run(name: str, way: str, built: Built, folder: str, rounds: int) -> list[tuple[float, str]]:
    """The milliseconds and the sum of each operation."""
    peer = PEERS[name]
    times = WARM if way == NODE and rounds > 1 else 1
    return built.run([os.path.join(folder, peer.input), str(times * rounds), str(len(peer.operations))], folder)


def differing(name, sums):
    """What the ways don't agree on, for the sums of each way. Native 64-bit code may make something else where the word's size matters."""
    said = []
    for k, operation in enumerate(PEERS[name].operations):
        ways = {}
        for way, those in sums.items():
            if not (operation.by_words and way == BASE):
                ways.setdefault(those[k], []).append(way)
        if len(ways) > 1:
            said.append("%s: %s" % (operation.name, "; ".join("%s by %s" % (those, ", ".join(by)) for those, by in ways.items())))
    return said


def found(name: str, built: dict[str, Built], folder: str) -> list[str]:
    """What one run of each way doesn't agree on."""
    try:
        return differing(name, {way: [made for _, made in run(name, way, one, folder, 1)] for way, one in built.items()})
    except Fault as fault:
        return [str(fault)]


def same_sums(name: str, built: dict[str, Built], folder: str) -> bool:
    """Whether one run of each way makes the same. Prints a line."""
    said = found(name, built, folder)
    told = "DIFFERS: " + " | ".join(said) if said else "same sums"
    print("%s %s by %s: %s" % (name, PEERS[name].version(), ", ".join(built), told), flush=True)
    return not said


def tells(name: str, built: Built, mutant: Built, folder: str) -> bool:
    """Whether a library is told from a mutant. Prints a line."""
    said = found(name, {"without": built, "with": mutant}, folder)
    print("a mutant of %s: %s" % (name, "found" if said else "NOT FOUND"), flush=True)
    return bool(said)


def measured(name: str, built: dict[str, Built], folder: str, passes: int) -> dict[str, list[float]]:
    """The least milliseconds of each operation by each way, which run by turns."""
    best = {way: [math.inf] * len(PEERS[name].operations) for way in built}
    for _ in range(passes):
        for way, one in built.items():
            best[way] = [min(least, took) for least, (took, _) in zip(best[way], run(name, way, one, folder, ROUNDS))]
    return best


def mean(ratios: Sequence[float]) -> float:
    """The geometric mean."""
    return math.exp(sum(map(math.log, ratios)) / len(ratios))


def print_row(title: str, cells: Iterable[object]) -> None:
    print(("    %-38s" % title + "".join("%10s" % cell for cell in cells)).rstrip(), flush=True)


def row_title(name, k):
    """A library with its version in its first row, and an operation."""
    peer = PEERS[name]
    return "%s, %s" % (peer.title if k else "%s %s" % (peer.title, peer.version()), peer.operations[k].name)


class Times:
    """The table of times: milliseconds natively, their ratios to these by the other ways, and those of other checkouts to this one."""

    def __init__(self, ways: list[str], trees: list[str]) -> None:
        self.ways, self.trees = ways, trees
        self.rows: list[list[float]] = []  # of ratios
        self.plain: list[list[float]] = []  # those with hardly any floats

    def print_head(self) -> None:
        heads = [HEADS.get(way, (BOX, way)) for way in self.ways]
        print_row("", [head for head, _ in heads] + self.trees[1:])
        print_row("", [head for _, head in heads] + ["/ " + BOX] * len(self.trees[1:]))

    def add(self, name: str, best: dict[str, list[float]]) -> None:
        """Prints the rows of a library."""
        for k, operation in enumerate(PEERS[name].operations):
            least = {way: times[k] for way, times in best.items()}
            row = [least[way] / least[BASE] for way in self.ways[1:]] + [least[tree] / least[BOX] for tree in self.trees[1:]]
            self.rows.append(row)
            self.plain += [] if operation.floats else [row]
            print_row(row_title(name, k), ["%.2f ms" % least[BASE], *("%.2f" % ratio for ratio in row)])

    def print_means(self) -> None:
        """The geometric means of all rows, and of those with hardly any floats."""
        for title, rows in (("geometric mean of %d", self.rows), ("of %d with hardly any floats", self.plain)):
            print_row(title % len(rows), ["", *("%.3f" % mean(column) for column in zip(*rows))])


def print_sizes(all_built: dict[str, dict[str, Built]]) -> None:
    """The bytes of code, by library and way: of the library's objects; of what wasm2c made of a module, and of the module's file; and last
    of each box's file, with the C library."""
    ways = [way for way in next(iter(all_built.values())) if way != "bounds"]
    boxes = [way for way in ways if way not in HEADS or way == BOX]
    print_row("bytes of code", [{"guard": "wasm2c", NODE: ".wasm"}.get(way, way) for way in ways] + ["file"] * len(boxes))
    for name, built in all_built.items():
        title = "%s %s" % (PEERS[name].title, PEERS[name].version())
        print_row(title, [built[way].size for way in ways] + [built[way].whole for way in boxes])
