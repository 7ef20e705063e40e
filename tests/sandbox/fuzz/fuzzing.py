"""The targets: how they are built and run by libFuzzer, and by AFL++."""

from __future__ import annotations

import os
import shutil
import subprocess
from collections.abc import Iterable
from concurrent.futures import Executor
from typing import NamedTuple

from first_inputs import COMPILED, compiled
from mutants import Mutant, source_of
from native import archives, compiler
from repository import TOP
from sandbox_building import SANDBOX, compile_all, flags, has_sanitizers, link, plant, sources

FUZZ = os.path.join(TOP, "tests", "sandbox", "fuzz")
HELPERS = [os.path.join(SANDBOX, "tests", name) for name in ("testing.c", "codes.c")]
NOT_HELPERS = ["replay.c", "afl.c", "mutator.c"]
MAIN = os.path.join(SANDBOX, "run", "main.c")
INCLUDES = ["-I" + path for path in (FUZZ, os.path.join(SANDBOX, "run"), os.path.join(SANDBOX, "tests"))]


class Target(NamedTuple):
    runs: int  # of the slice, some seconds
    longest: int  # bytes of an input
    gets_files: bool = False  # ELF files, for which there is a mutator
    linked: tuple = ()
    words: tuple = ()  # for libFuzzer


TARGETS = {
    "module": Target(3000, 8192, gets_files=True),
    "elf": Target(12000, 8192, gets_files=True),
    "calls": Target(4000, 600, linked=("-Wl,--wrap=ncs_callback",), words=("-close_fd_mask=3",)),
    "check": Target(40000, 8192, gets_files=True),
    "live": Target(1500, 400),
}


class Compiler(NamedTuple):
    """What compiles a target so that a fuzzer sees which branches an input takes."""

    name: str
    flags: tuple
    linked: tuple  # besides the flags
    env: dict


CLANG = Compiler("clang", ("-g1", "-fsanitize=address,undefined,fuzzer-no-link", "-fno-sanitize-recover=all"), ("-fsanitize=fuzzer",), {})
AFL = Compiler("afl-clang-fast", ("-g1",), ("-fsanitize=fuzzer",), {"AFL_USE_ASAN": "1", "AFL_USE_UBSAN": "1", "AFL_QUIET": "1"})


def use(made_by):
    """From now on it compiles everything, but for code that goes into a box."""
    os.environ.setdefault("NC_CC", compiler())
    os.environ.update({"CC": made_by.name, **made_by.env})


def lacking(made_by: Compiler, folder: str) -> str | None:
    """What isn't here without which a target can't be built, or None."""
    if shutil.which(made_by.name) is None:
        return made_by.name + " isn't there"
    use(made_by)
    return None if has_sanitizers(folder, list(made_by.flags)) else made_by.name + " has no runtime for sanitizers (libclang-rt-dev)"


class Build:
    """The objects of all targets, by one compiler, in a folder."""

    def __init__(self, made_by: Compiler, pool: Executor, folder: str) -> None:
        self.made_by = made_by
        guest = compiled(COMPILED["replay"], os.path.join(folder, "replay.elf"))
        own = [path for path in sources("tests", "sandbox", "fuzz") if os.path.basename(path) not in NOT_HELPERS]
        library = [path for path in sources() + sources("sandbox", "run") if path != MAIN]
        more = [*made_by.flags, *INCLUDES, '-DGUEST="%s"' % guest]
        self.made = compile_all(pool, [*library, *own, *HELPERS, os.path.join(FUZZ, "mutator.c")], folder, more)
        self.archive = os.path.join(folder, "all.a")
        targets = [self.object(name) for name in [*TARGETS, "mutator"]]
        subprocess.run(["ar", "rcs", self.archive, *[made for made in self.made.values() if made not in targets]], check=True)

    def object(self, name: str) -> str:
        return self.made[os.path.join(FUZZ, name + ".c")]

    def link(self, name: str, path: str, mutant: Iterable[str] = ()) -> str:
        """A target's program. An object with a bug comes first, so it is taken in place of the archive's."""
        target = TARGETS[name]
        objects = [self.object(name), *([self.object("mutator")] if target.gets_files else []), *mutant, self.archive]
        return link(objects, path, [*self.made_by.flags, *self.made_by.linked, *target.linked])

    def link_mutant(self, mutant: Mutant, folder: str) -> str:
        """The program of a mutant's target, with its bug."""
        made = plant(mutant, folder, self.made, [*self.made_by.flags, *INCLUDES])
        return self.link(mutant.test, os.path.join(folder, mutant.test), [made[source_of(mutant)]])


def mutator_library(path: str) -> str:
    """The mutator of ELF files, as AFL++ loads it."""
    files = [os.path.join(FUZZ, name) for name in ("afl.c", "fields.c", "fuzz.c")]
    subprocess.run([os.environ["NC_CC"], *flags(), *INCLUDES, "-shared", "-fPIC", *files, *archives(), "-o", path], check=True)
    return path
