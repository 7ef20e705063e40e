"""Times of PCRE2's JIT in a box and natively: a part of tests/compiler/generators."""

from __future__ import annotations

import glob
import math
import os
import shutil
from collections.abc import Iterable

from generators import Place
from generating import OWN, SLJIT_FLAGS, Compiler, edits_of, pcre2_flags, pcre2_library
from jit_web import Web
from peers_times import mean
from porting import done

NAME = "pcre2-jit"
ROUNDS, INTERPRETED = 11, 3  # by turns; in how many of them the interpreter takes part
DNA = 2000000
PROSE = 25  # patterns for the first text; the others are for the second
PATTERNS = os.path.join(OWN[NAME], "patterns.txt")
HEAD = ("found", "interp", "JIT", "i386-", "i386", "x86-64", "JIT/", "interp/", "code/", "make/")
NATIVE = {"i386-": ["gcc", "-m32", "-O2"], "i386": ["gcc", "-m32", "-O2"], "x86-64": ["gcc", "-O2"]}


def dna():
    """As many letters, by the rule of the Computer Language Benchmarks Game, the same each time."""
    state, letters = 42, bytearray()
    for _ in range(DNA):
        state = (state * 3877 + 29573) % 139968
        letters.append(b"acgt"[(state >= 42396) + (state >= 70110) + (state >= 97761)])
    return bytes(letters)


def write_texts(top, folder):
    """The texts: PCRE2's pages, and letters."""
    pages = b""
    for pattern in ("doc/html/*.html", "doc/*.txt", "ChangeLog"):
        for path in sorted(glob.glob(os.path.join(top, pattern))):
            with open(path, "rb") as file:
                pages += file.read()
    for name, text in (("prose", pages), ("dna", dna())):
        with open(os.path.join(folder, name), "wb") as file:
            file.write(text)


def build(compiler: Compiler, top: str, folder: str, more: Iterable[str] = ()) -> str:
    """The program of times.c. `more` are sources for it."""
    source = os.path.join(OWN[NAME], "times.c")
    main = compiler.objects(pcre2_flags(top, [8], 8), [source], folder)
    return compiler.program([*main, *more, *pcre2_library(compiler, top, folder, [8])], os.path.join(folder, "times"))


def tops_of(place):
    """PCRE2's sources for each program."""
    edits, native = edits_of(NAME), place.sources(NAME, [], "native")
    return {"box": place.sources(NAME, edits.EDITS.values(), "box"), "i386-": place.sources(NAME, edits.PLAIN, "plain"), "i386": native,
            "x86-64": native}


def lines_of(place, tops):
    """The command of each program, once all are built."""
    box = build(Compiler([place.tool("nc-cc"), *SLJIT_FLAGS]), tops["box"], place.below("times-box"))
    lines = {"box": [*place.runs("--dir", "."), box, "patterns.txt"]}
    for name, words in NATIVE.items():
        lines[name] = [build(Compiler(words), tops[name], place.below("times-" + name)), "patterns.txt"]
    return lines


def rows_of(line, folder, runs, interpreted):
    """What a program tells of each pattern."""
    rows = [row.split(" ", 6) for row in done([*line, str(runs), str(interpreted)], folder).splitlines()]
    return [(row[6], row[:2], [float(number) or math.inf for number in row[2:6]]) for row in rows]


def least(rows, others):
    return [(name, found, [min(pair) for pair in zip(numbers, more)]) for (name, found, numbers), (_, _, more) in zip(rows, others)]


def print_row(name, cells):
    print("    %-42.42s" % name + "".join("%9s" % (cell if isinstance(cell, str) else "%.2f" % cell) for cell in cells))


def print_web_means(web, best):
    """The geometric means of what the interpreter takes as WebAssembly, in proportion to the JIT in the box."""
    jit = [times[1] for _, _, times in best["box"]]
    for title, column in zip(web.titles(), zip(*web.times())):
        ratios = [took / here for took, here in zip(column, jit)]
        means = mean(ratios[:PROSE]), mean(ratios[PROSE:])
        print("    geometric means: interpreter by %s to JIT in the box %.1f (prose), %.1f (dna)" % (title, *means))


def print_table(best, web):
    """The table of milliseconds, and the ratios: JIT in the box to i386-, interpreter to JIT, bytes of code, time to make it. The last
    columns are milliseconds of the interpreter."""
    all_ratios, more = [], web.times() or [()] * len(best["box"])
    print_row("", [*HEAD, *web.titles()])
    print_row("", ["", "in box", "in box", "JIT", "JIT", "JIT", "i386-", "JIT", "i386-", "i386-", *["interp"] * len(web.titles())])
    for k, (name, found, (interpreter, jit, took, size)) in enumerate(best["box"]):
        plain, wide, native = (best[kind][k][2] for kind in NATIVE)
        ratios = [jit / plain[1], interpreter / jit, size / plain[3], took / plain[2],
                  jit / wide[1], jit / native[1], interpreter / plain[0]]
        all_ratios.append(ratios)
        print_row(name, [found[0], interpreter, jit, plain[1], wide[1], native[1], *ratios[:4], *more[k]])
    for part, what in ((all_ratios[:PROSE], "prose"), (all_ratios[PROSE:], "dna")):
        means = [mean([ratios[k] for ratios in part]) for k in range(7)]
        print("    %s, geometric means: JIT in the box to i386- %.2f, i386 %.2f, x86-64 %.2f; interpreter to JIT in the box %.1f; "
              "interpreter in the box to native %.2f; bytes %.2f; making code %.2f" % (what, *(means[k] for k in (0, 4, 5, 1, 6, 2, 3))))


def measure(place: Place) -> bool:
    """Prints the table. All programs have to find the same."""
    tops = tops_of(place)
    write_texts(tops["box"], place.folder)
    lines, web = lines_of(place, tops), Web(tops["x86-64"], PATTERNS, place.folder)
    shutil.copy(PATTERNS, place.folder)
    best: dict[str, list] = {}
    for turn in range(ROUNDS):
        for name, line in lines.items():
            rows = rows_of(line, place.folder, 1, int(turn < INTERPRETED))
            best[name] = least(best.get(name, rows), rows)
        if turn < INTERPRETED:
            web.turn()
    same = all([row[:2] for row in rows] == [row[:2] for row in best["box"]] for rows in best.values())
    same = same and web.agrees([found[1] for _, found, _ in best["box"]])
    print_table(best, web)
    print_web_means(web, best)
    if not same:
        print("DIFFERS: the programs don't find the same")
    return same
