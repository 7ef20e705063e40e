"""What the scripts share that compare sources of compiler/runtime, as gcc and clang make them, and try mutants of them."""

from __future__ import annotations

import functools
import os
import re
import subprocess
from collections.abc import Callable, Iterable

from mutants import Mutant, planted
from repository import TOP
from sandbox_building import NC_CC

RUNTIME = os.path.join(TOP, "compiler", "runtime")
COMPILERS, LEVELS = ["gcc", "clang"], ["-O0", "-O2", "-Os"]
STRICT = ["-Wall", "-Wextra", "-Werror"]


@functools.lru_cache(None)
def flags_of(name: str) -> list[str]:
    """The flags by which nc-cc compiles with gcc or clang."""
    done = subprocess.run([NC_CC, "--cflags"], env={**os.environ, "NC_CC": name}, check=True, capture_output=True, text=True)
    return done.stdout.split()


def renamed(names: Iterable[str]) -> list[str]:
    """The flags that give functions names of their own, where the system has these names too."""
    return ["-D%s=own_%s" % (name, name) for name in names]


def run(program: str, *words: object) -> tuple[int, str]:
    """The status of a comparison, and what it printed."""
    done = subprocess.run([program, *map(str, words)], stdin=subprocess.DEVNULL, capture_output=True, text=True)
    return done.returncode, done.stdout + done.stderr


def tried(program: str, *words: object) -> bool:
    """Whether something differs, which is printed."""
    status, said = run(program, *words)
    ended = "" if status in (0, 1) else ", status %d" % status
    line = " ".join(os.path.basename(str(word)) for word in (program, *words))
    print("%s: %s%s" % (line, said.strip(), ended), flush=True)
    return status != 0


def missed(mutant: Mutant, folder: str, make: Callable[[str], str], words: list[object]) -> bool:
    """Whether a mutant isn't found. `make` compiles what has this stem and `.c` to a program. For the words and the name of the function
    that is the mutant's test, this has to print a line that begins with the name."""
    stem = os.path.join(folder, "mutant-" + mutant.name)
    with open(stem + ".c", "w", encoding="utf-8") as file:
        file.write(planted(mutant))
    said = run(make(stem), *words, mutant.test)[1]
    found = re.search(r"^%s " % mutant.test, said, re.M) is not None
    print("the mutant %s, by %s: %s" % (mutant.name, mutant.test, "found" if found else "NOT FOUND\n" + said), flush=True)
    return not found
