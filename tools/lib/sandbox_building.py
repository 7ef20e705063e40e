"""What the scripts share that build the library of sandbox/ with programs over it, such as nc-run, and try mutants of them."""

from __future__ import annotations

import collections
import functools
import os
import shutil
import subprocess
from collections.abc import Iterable
from concurrent.futures import Executor

from executing import missing
from mutants import Mutant, planted, source_of
from native import archives, compiler
from repository import TOP

SANDBOX = os.path.join(TOP, "sandbox")
NC_CC = os.path.join(TOP, "compiler", "nc-cc")
SYSTEM_LACKS = 123  # a status of nc-run
# Calls without end fill a stack of 1 MiB long before their time is over.
LIMITS = 'ulimit -c 0 && ulimit -s 1024 && ulimit -St "$0" && ulimit -Ht $(($0 + 1)) && exec "$@"'


@functools.lru_cache(None)
def told() -> dict[str, list[str]]:
    """What sandbox/Makefile tells, by names: flags, sources, and with what each of its tests is linked and started."""
    if shutil.which("make") is None:
        return collections.defaultdict(list)  # executing.missing names it
    words = ["make", "-s", "-C", SANDBOX, "show"]
    text = subprocess.run(words, stdin=subprocess.DEVNULL, capture_output=True, text=True, check=True).stdout
    return {name: rest.split() for name, _, rest in (line.partition(":") for line in text.splitlines())}


def flags() -> list[str]:
    """Those by which everything of sandbox/ is compiled."""
    return told()["flags"]


def sanitizers() -> list[str]:
    """Those of AddressSanitizer and UndefinedBehaviorSanitizer."""
    return told()["checked"]


def make(folder: str, *words: str) -> None:
    """Has sandbox/Makefile make something in a folder."""
    call(["make", "-s", "-C", SANDBOX, "CC=" + compiler(), "OUT=" + os.path.abspath(folder), *words])


def sources(*folder: str) -> list[str]:
    """The paths of the sources in C and assembly of a folder, or of the library of boxes."""
    if not folder:
        return [os.path.join(SANDBOX, name) for name in told()["library"]]
    place = os.path.join(TOP, *folder)
    return [os.path.join(place, name) for name in sorted(os.listdir(place)) if name.endswith((".c", ".S"))]


def call(words: list[str]) -> None:
    subprocess.run(words, stdin=subprocess.DEVNULL, check=True)


def compile_one(source: str, made: str, more: list[str]) -> str:
    call([compiler()] + flags() + more + ["-c", source, "-o", made])
    return made


def compile_all(pool: Executor, paths: list[str], folder: str, more: list[str]) -> dict[str, str]:
    """The objects of sources, by their paths."""
    made = {path: os.path.join(folder, os.path.relpath(path, TOP).replace(os.sep, "-") + ".o") for path in paths}
    list(pool.map(lambda path: compile_one(path, made[path], ["-Werror"] + more), made))
    return made


def link(objects: Iterable[str], made: str, more: Iterable[str] = (), over: list[str] | None = None) -> str:
    """A program, over the built library nc_host or over other archives."""
    call([compiler(), "-pthread", *more, *objects, *(archives() if over is None else over), "-o", made])
    return made


def run(line: list[str], folder: str, seconds: int) -> tuple[int, str, str]:
    """The status, the output and the errors of a program that may use so many seconds of a processor."""
    words = ["sh", "-c", LIMITS, str(seconds)] + line
    limit = 300 + 2 * seconds
    done = subprocess.run(words, cwd=folder, stdin=subprocess.DEVNULL, capture_output=True, text=True, errors="replace", timeout=limit)
    return done.returncode, done.stdout, done.stderr


def has_sanitizers(folder: str, by: Iterable[str] = ()) -> bool:
    """Whether the compiler has them, with their libraries."""
    made = os.path.join(folder, "nothing")
    words = [compiler(), *(by or sanitizers()), "-x", "c", "-", "-o", made]
    built = subprocess.run(words, input="int main(void) { return 0; }\n", capture_output=True, text=True)
    return built.returncode == 0 and subprocess.run([made], capture_output=True).returncode == 0


def plant(mutant: Mutant, folder: str, library: dict[str, str], more: Iterable[str] = ()) -> dict[str, str]:
    """The objects of the library with this mutant."""
    source = source_of(mutant)
    path = os.path.join(folder, "mutant-%s%s" % (mutant.name, os.path.splitext(source)[1]))
    with open(path, "w", encoding="utf-8") as file:
        file.write(planted(mutant))
    return dict(library, **{source: compile_one(path, path + ".o", ["-w", *more])})


def try_mutant(mutant: Mutant, wanted: list[str], ended: tuple[int, str, str]) -> bool:
    """Whether the test doesn't find the mutant where its `line:` says: the first of the lines it has to print that it doesn't print."""
    status, output, _ = ended
    found = output.splitlines()
    first = next((line for k, line in enumerate(wanted) if k >= len(found) or found[k] != line), "")
    right = first.split(":")[0] == mutant.line
    told_it = "found" if right else "DIFFERS, with status %d, at %r\n%s" % (status, first, output)
    print("the mutant %s, by %s: %s" % (mutant.name, mutant.test, told_it), flush=True)
    return not right


def nc_run(folder: str) -> str:
    """The path of the program, which is made in a folder."""
    archives()
    make(folder, os.path.join(os.path.abspath(folder), "nc-run"))
    return os.path.join(folder, "nc-run")


def no_boxes(program: str, folder: str) -> str | None:
    """What isn't here without which nc-run runs nothing, or None."""
    if missing():
        return missing() + " isn't there"
    made = os.path.join(folder, "hello.elf")
    call([NC_CC, os.path.join(TOP, "examples", "run", "hello.c"), "-o", made])
    done = subprocess.run([program, made], stdin=subprocess.DEVNULL, capture_output=True, text=True)
    return done.stderr.strip() if done.returncode == SYSTEM_LACKS else None
