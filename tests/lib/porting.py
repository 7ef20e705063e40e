"""What the scripts share that compile what others wrote, from the archives of out/sources."""

from __future__ import annotations

import os
import subprocess
import sys
from collections.abc import Iterable

from repository import TOP
from with_musl import SOURCES, run

sys.path += [os.path.join(TOP, "compiler", "runtime"), os.path.join(TOP, "examples", "ports")]
from making import Fault
from table import Port

SECONDS = 900  # for a compiler
SMALL = "#include <stdio.h>\nint main(void) { return puts(\"\") < 0; }\n"


def done(words: list[str], folder: str, cc: str = "gcc") -> str:
    """The output of a command, or a Fault with its last words if it fails."""
    did = run(words, folder, env={**os.environ, "NC_CC": cc}, stdin=subprocess.DEVNULL, timeout=SECONDS)
    if did.returncode:
        said = did.stderr.decode(errors="replace").strip()
        raise Fault("%s: status %d: %s" % (os.path.basename(words[0]), did.returncode, said[-800:]))
    return did.stdout.decode(errors="replace")


def code_size(paths: list[str]) -> int:
    """The bytes of code in objects."""
    lines = done(["size", "-A", *paths], os.curdir).splitlines()
    return sum(int(line.split()[1]) for line in lines if line.startswith(".text"))


def archives_of(what: str, table: dict[str, Port], names: Iterable[str]) -> list[str]:
    """Those of the names whose archives are there. A line tells how to get the others."""
    absent = [name for name in names if not os.path.exists(os.path.join(SOURCES, table[name].archive))]
    if absent:
        packages = " ".join(table[name].archive.partition("_")[0] for name in absent)
        print("skipped: %s of %s: in out/sources, `apt-get source --download-only %s` gets them" % (what, " ".join(absent), packages))
    return [name for name in names if name not in absent]


def makes_programs(compilers: Iterable[str], what: str, folder: str) -> bool:
    """Whether each of the compilers makes 32-bit programs that run. A line tells of the first that doesn't."""
    source, made = os.path.join(folder, "small.c"), os.path.join(folder, "small")
    with open(source, "w", encoding="ascii") as file:
        file.write(SMALL)
    for compiler in sorted(compilers):
        try:
            done([compiler, "-m32", source, "-o", made], folder)
            done([made], folder)
        except (Fault, OSError):
            print("skipped: %s by %s: it makes no 32-bit programs that run here" % (what, compiler))
            return False
    return True
