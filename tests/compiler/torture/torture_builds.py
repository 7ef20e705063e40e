"""Builds and runs programs of gcc's suite, in boxes and natively: a part of tests/compiler/torture."""

from __future__ import annotations

import collections
import functools
import os
import re
import shlex
import subprocess
import tempfile
from collections.abc import Iterator
from concurrent.futures import Executor
from typing import NamedTuple

from porting import SECONDS, Fault
from torture_programs import Program
from with_musl import run

SOME = 40  # sources of one command, and programs of one
LIMIT = 20  # seconds of a processor for a program
NATIVELY = ["-m32"]
VERDICT = re.compile(r"^(\S+)(?: \(\w+\))?: (ok|refused \w+)", re.M)
# How far a program comes: each of these stages it has passed, in this order.
STAGES = ("compiled", "linked", "accepted", "passed")


class Build(NamedTuple):
    """A compiler at a level, with the folder in which everything is installed and the one for this build."""

    compiler: str
    level: str
    prefix: str
    folder: str

    def __str__(self):
        return self.compiler + self.level

    def tool(self, name: str) -> str:
        return os.path.join(self.prefix, "bin", name)

    def run(self, words: list[str], **more) -> subprocess.CompletedProcess:
        env = {**os.environ, "NC_CC": self.compiler}
        return run(words, more.pop("at", self.folder), env=env, stdin=subprocess.DEVNULL, timeout=SECONDS, **more)


class Hindrance(NamedTuple):
    """The stage that a program doesn't pass, and what is said then."""

    stage: str
    said: str


@functools.lru_cache(None)
def takes(compiler: str, flag: str) -> bool:
    """Whether a compiler knows a flag: clang hasn't all of gcc's."""
    return run([compiler, "-w", flag, "-fsyntax-only", "-x", "c", os.devnull], os.curdir).returncode == 0


def fitting(build: Build, program: Program) -> Program:
    """The program without the flags that the compiler doesn't know."""
    return program._replace(flags=tuple(flag for flag in program.flags if takes(build.compiler, flag)))


def pieces(items: list, count: int = SOME) -> Iterator[list]:
    return (items[at:at + count] for at in range(0, len(items), count))


def told(done: subprocess.CompletedProcess) -> str:
    """The line of a tool's errors that says most."""
    lines = (done.stderr or b"").decode(errors="replace").strip().splitlines()
    errors = [line for line in lines if re.search(r"error|refused|undefined|assembly text", line)]
    return re.sub(r"/\S*/", "", (errors or lines or ["status %d" % done.returncode])[0])[:160]


def object_of(folder: str, source: str) -> str:
    return os.path.join(folder, os.path.basename(source)[:-2] + ".o")


def compile_some(build: Build, flags: tuple[str, ...], sources: list[str], folder: str) -> dict[str, str]:
    """Compiles sources to objects in a folder. What is said of those that fail: nc-cc stops at the first, and goes on behind it."""
    faults = {}
    while sources:
        done = build.run([build.tool("nc-cc"), "-c", build.level, *flags, *sources], at=folder)
        missing = [source for source in sources if not os.path.exists(object_of(folder, source))]
        if not missing:
            break
        faults[missing[0]] = told(done)
        sources = sources[sources.index(missing[0]) + 1:]
    return faults


def compile_all(build: Build, programs: list[Program], pool: Executor) -> dict[str, tuple[list[str], str]]:
    """For each program its objects, or what is said of the source that fails."""
    groups: dict[tuple, list[str]] = collections.defaultdict(list)
    for program in programs:
        for source in program.sources:
            if source not in groups[program.flags, os.path.dirname(source)]:
                groups[program.flags, os.path.dirname(source)].append(source)
    folders = {group: tempfile.mkdtemp(dir=build.folder) for group in groups}
    work = [(build, group[0], piece, folders[group]) for group, sources in groups.items() for piece in pieces(sources)]
    faults = {(words[1], source): said for words, found in zip(work, pool.map(lambda words: compile_some(*words), work))
              for source, said in found.items()}
    return {program.name: ([object_of(folders[program.flags, os.path.dirname(source)], source) for source in program.sources],
                           next((faults[program.flags, source] for source in program.sources if (program.flags, source) in faults), ""))
            for program in programs}


def linking(build: Build) -> list[str]:
    """The command by which nc-cc links `it.o` to `it`."""
    shown = build.run([build.tool("nc-cc"), "-###", "it.o", "-lm", "-o", "it"]).stderr.decode().splitlines()
    words = next((shlex.split(line) for line in shown if "it.o" in line.split()), None)
    if words is None:
        raise Fault("nc-cc -### shows no link: %s" % shown)
    return [word for word in words if not word.startswith("-Map=")]


def linked(build: Build, line: list[str], objects: list[str], made: str) -> str:
    """Links a program. What is said if that fails, or nothing."""
    words = [word for each in line for word in (objects if each == "it.o" else [made] if each == "it" else [each])]
    done = build.run(words)
    return told(done) if done.returncode else ""


def judged(build: Build, files: list[str]) -> dict[str, str]:
    """The verdicts on files."""
    said = build.run([build.tool("nc_check"), *files]).stdout.decode(errors="replace")
    return dict(VERDICT.findall(said))


def ended(words: list[str]) -> str:
    """What is wrong with the end of a program, which has to have the status 0, or nothing. It may write files in a folder of its own."""
    with tempfile.TemporaryDirectory() as folder:
        os.mkdir(os.path.join(folder, "tmp"))
        given = [folder if word == "HERE" else word for word in words]
        try:
            done = run(given, folder, stdin=subprocess.DEVNULL, timeout=10 * LIMIT)
        except subprocess.TimeoutExpired:
            return "no end"
    return told(done) or "no word" if done.returncode else ""


def boxed(build: Build, program: str) -> str:
    return ended([build.tool("nc-run"), "--time", str(1000 * LIMIT), "--dir-rw", "HERE", program])


def fails_natively(build: Build, program: Program) -> bool:
    """Whether the compiler alone can't make a program that ends as it has to."""
    made = os.path.join(build.folder, program.name.replace("/", "-") + ".native")
    done = build.run([build.compiler, *NATIVELY, build.level, *program.flags, *program.sources, "-lm", "-o", made])
    return done.returncode != 0 or ended(["sh", "-c", "ulimit -t %d && exec %s" % (LIMIT, shlex.quote(made))]) != ""


def hindrances(build: Build, programs: list[Program], pool: Executor) -> dict[str, Hindrance]:
    """What each program doesn't pass, by its name; those that pass everything have nothing."""
    found = {}

    def sift(stage, names, said):
        found.update({name: Hindrance(stage, what) for name, what in zip(names, said) if what})
        return [name for name in names if name not in found]

    objects = compile_all(build, programs, pool)
    names = sift("compiled", list(objects), [said for _, said in objects.values()])
    line, files = linking(build), {name: os.path.join(build.folder, name.replace("/", "-") + ".elf") for name in names}
    names = sift("linked", names, list(pool.map(lambda name: linked(build, line, objects[name][0], files[name]), names)))
    verdicts: dict[str, str] = {}
    for piece in pool.map(lambda some: judged(build, some), pieces([files[name] for name in names])):
        verdicts.update(piece)
    names = sift("accepted", names, [verdicts.get(files[name], "no verdict").replace("ok", "") for name in names])
    sift("passed", names, list(pool.map(lambda name: boxed(build, files[name]), names)))
    return found
