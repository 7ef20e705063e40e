"""What calls, instances and resets cost in boxes, by wasm2c and in Node.js: a part of tests/compiler/peers."""

from __future__ import annotations

import os

from peers_boxes import Tree
from peers_times import HEADS, print_row
from peers_ways import NODE, SOURCES, WASM2C, wasm2c_made, wasm_made
from porting import done

OWN = os.path.join(SOURCES, "costs")
GUEST = os.path.join(OWN, "guest.c")
COMMON = [os.path.join(OWN, "costs.c"), os.path.join(SOURCES, "shared.c")]
ROWS = ["empty call", "call-back", "new instance and its end", "reset of an untouched one", "1 MiB written, and reset"]


def box_line(tree, folder):
    """The command that measures boxes of a checkout."""
    guest = os.path.join(folder, tree.name + "-guest.elf")
    done([tree.of("compiler", "nc-cc"), "-O2", "--data", "00110000", "-e", "nothing", GUEST, "-o", guest], folder)
    return [tree.host_made("costs", ["-I" + OWN, *COMMON, os.path.join(OWN, "box.c")]), guest]


def web_lines(ways, folder):
    """The commands that measure instances of WebAssembly."""
    module = wasm_made([GUEST], os.path.join(folder, "guest.wasm"), folder)
    lines = {}
    for way in [way for way in ways if way in WASM2C]:
        program, _ = wasm2c_made(module, way, ["-I" + OWN, *COMMON, os.path.join(OWN, "wasm2c.c")], folder)
        lines[way] = [program]
    if NODE in ways:
        lines[NODE] = ["node", os.path.join(OWN, "node.mjs"), module]
    return lines


def times_of(line, folder):
    """The nanoseconds that a program tells, by their titles."""
    rows = [row.split(" ", 1) for row in done(line, folder).splitlines()]
    return {title: float(took) for took, title in rows}


def print_costs(trees: list[Tree], ways: list[str], folder: str) -> None:
    """The table of nanoseconds. What is written in an instance is gone with it where there is no reset."""
    folder = os.path.join(folder, "costs")
    os.makedirs(folder)
    lines = {tree.name: box_line(tree, folder) for tree in trees}
    if set(ways) & {NODE, *WASM2C}:
        lines.update(web_lines(ways, folder))
    columns = [times_of(line, folder) for line in lines.values()]
    print_row("nanoseconds", [HEADS.get(way, (way,))[-1] for way in lines])
    for row in ROWS:
        print_row(row, ["%.1f" % column[row] if row in column else "-" for column in columns])
