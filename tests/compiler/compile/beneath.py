"""Which tools an installed nc-cc takes for those beneath it, by the variables that name them."""

from __future__ import annotations

import concurrent.futures
import os
import shutil
import signal
import subprocess
from typing import Any, NamedTuple

from repository import TOP

COMPILE = os.path.join(TOP, "compiler")
DRIVER = os.path.join(COMPILE, "nc-cc")
VARIABLES = {"CC", "AS", "LD", "NC_CC", "NC_AS", "NC_LD"}
LIMIT = 30  # seconds, after which a command is ended with all that it has started
LED_BACK = "called by nc-cc as one of its tools: name those beneath by NC_CC, NC_AS and NC_LD, such as gcc, as and ld\n"
GCC, CLANG, AS, LD = "\ngcc -ffreestanding ", "\nclang -ffreestanding ", "\nas --32 ", "\nld -m elf_i386 "

# The programs on PATH, as scripts; nc-cc and links to it come beside them.
SCRIPTS = {
    "runs": 'exec "$@"',
    "wrapped": 'exec nc-cc "$@"',
    "late": 'test "$1" = --version && exec gcc "$@"\nexec nc-cc "$@"',
}

# The project's files.
FILES = {
    "first.c": "void second(void);\nvoid start(void) { second(); }\n",
    "second.c": "void second(void) {}\n",
    "Makefile": "both.elf: first.o second.o\n\t$(CC) first.o second.o -o both.elf\n",
    "CMakeLists.txt": "cmake_minimum_required(VERSION 3.13)\nproject(both C)\nadd_executable(both.elf first.c second.c)\n",
}


def write(path: str, text: str, mode: int = 0o644) -> None:
    with open(path, "w", encoding="ascii") as file:
        file.write(text)
    os.chmod(path, mode)


def prepare(folder):
    """An installed nc-cc in bin, with copies, links and scripts that lead to it."""
    for name in ("bin", "masked", "share", "include/nc-cc"):
        os.makedirs(os.path.join(folder, name))
    os.mkdir(os.path.join(folder, "share", "reedbodkin"))
    for name in ("bundling", "driving", "runtime/chunk.ld"):
        os.symlink(os.path.join(COMPILE, name), os.path.join(folder, "share", "reedbodkin", os.path.basename(name)))
    for name in ("nc-cc", "copied"):
        shutil.copy(DRIVER, os.path.join(folder, "bin", name))
    for name in ("bin/linked", "masked/gcc"):
        os.symlink("../bin/nc-cc", os.path.join(folder, name))
    for name, text in SCRIPTS.items():
        write(os.path.join(folder, "bin", name), f"#!/bin/sh\n{text}\n", 0o755)
    write(os.path.join(folder, "it.c"), "void start(void) {}\n")


def filled(text, folder):
    return text.format(folder=folder, other=DRIVER, path=os.environ["PATH"])


def environment(variables, folder):
    """The variables of a row beside those of this process that don't name a tool."""
    given = {"PATH": "{folder}/bin:{path}", **variables}
    kept = {name: value for name, value in os.environ.items() if name not in VARIABLES}
    return {**kept, **{name: filled(value, folder) for name, value in given.items()}}


def ended(words: list[str], **more: Any) -> tuple[int | str, str]:
    """The status of a command, and what it says. It has a group of processes to itself, so that a limit ends all that it has started."""
    with subprocess.Popen(words, stdin=subprocess.DEVNULL, stdout=subprocess.PIPE, stderr=subprocess.PIPE, text=True,
                          start_new_session=True, **more) as run:
        try:
            _, said = run.communicate(timeout=LIMIT)
        except subprocess.TimeoutExpired:
            os.killpg(run.pid, signal.SIGKILL)
            return f"none within {LIMIT} s", run.communicate()[1]
    return run.returncode, said


class Row(NamedTuple):
    """The variables of nc-cc -v, a part of what it says on standard error, and its status. {folder} is the folder that it runs in and is
    installed below, {other} the path of the repository's nc-cc, and {path} the PATH without either."""

    name: str
    variables: dict
    said: str = GCC
    status: int = 0

    def wrong(self, folder):
        """What is wrong with it, or nothing."""
        words = [os.path.join(folder, "bin", "nc-cc"), "-v", "it.c", "-o", self.name + ".elf"]
        status, said = ended(words, env=environment(self.variables, folder), cwd=folder)
        right = status == self.status and self.said in "\n" + said
        return "" if right else f"{self.name}: status {status}, {said!r}, and not status {self.status}, {self.said!r}"


class Project(NamedTuple):
    """The variables and the command by which a project of two sources becomes both.elf. The words in braces are those of a Row."""

    name: str
    variables: dict
    command: str

    def wrong(self, folder):
        """What is wrong with it, or nothing."""
        work = os.path.join(folder, self.name)
        os.mkdir(work)
        for name, text in FILES.items():
            write(os.path.join(work, name), text)
        status, said = ended(["sh", "-c", filled(self.command, folder)], env=environment(self.variables, folder), cwd=work)
        right = status == 0 and "nc-cc:" not in said and os.path.exists(os.path.join(work, "both.elf"))
        return "" if right else f"{self.name}: status {status}, {said!r}"


def refused(name):
    return f"\nnc-cc: {name} leads back to nc-cc: name a tool beneath it, such as "


ROWS = [
    Row("no variable", {}),
    Row("CC=gcc", {"CC": "gcc"}),
    Row("CC=clang", {"CC": "clang"}, CLANG),
    Row("CC with words of its own", {"CC": "gcc -isystem include/nc-cc -I/nc-cc"}, "\ngcc -isystem include/nc-cc -I/nc-cc -ffreestanding "),
    Row("CC=clang behind another program", {"CC": "runs clang"}, "\nruns clang -ffreestanding "),
    Row("CC=nc-cc", {"CC": "nc-cc"}),
    Row("CC=nc-cc, which isn't on PATH", {"CC": "nc-cc", "PATH": "{path}"}),
    Row("CC=nc-cc by its path", {"CC": "{folder}/bin/nc-cc"}),
    Row("CC=nc-cc by a relative path", {"CC": "bin/nc-cc"}),
    Row("CC=nc-cc by a path from another folder", {"CC": "../elsewhere/nc-cc"}),
    Row("CC=nc-cc by a link", {"CC": "linked"}),
    Row("CC=nc-cc behind another program", {"CC": "runs nc-cc"}),
    Row("CC=nc-cc behind another program, by its path", {"CC": "env NAME=1 {folder}/bin/nc-cc"}),
    Row("CC=nc-cc as Python's script", {"CC": "python3 {folder}/bin/nc-cc"}),
    Row("CC is a script that runs nc-cc", {"CC": "wrapped"}),
    Row("CC is such a script behind another program", {"CC": "runs wrapped"}),
    Row("CC is another nc-cc", {"CC": "{other}"}),
    Row("CC is a copy of another name", {"CC": "copied"}),
    Row("CC is empty", {"CC": ""}, "nc-cc: CC is empty\n", 2),
    Row("CC is half a word", {"CC": "'gcc"}, "nc-cc: CC: No closing quotation\n", 2),
    Row("CC isn't there", {"CC": "lacking"}, "nc-cc: lacking: No such file or directory; Debian has gcc, clang and binutils\n", 2),
    Row("NC_CC=gcc", {"NC_CC": "gcc", "CC": "clang"}),
    Row("NC_CC=clang", {"NC_CC": "clang", "CC": "gcc"}, CLANG),
    Row("NC_CC=clang beside CC=nc-cc", {"NC_CC": "clang", "CC": "nc-cc"}, CLANG),
    Row("NC_CC=nc-cc", {"NC_CC": "nc-cc"}, refused("NC_CC") + "gcc\n", 2),
    Row("NC_CC=nc-cc by its path", {"NC_CC": "{folder}/bin/nc-cc", "CC": "gcc"}, refused("NC_CC") + "gcc\n", 2),
    Row("NC_CC is a script that runs nc-cc", {"NC_CC": "wrapped"}, refused("NC_CC") + "gcc\n", 2),
    Row("NC_CC is a copy of another name", {"NC_CC": "copied"}, refused("NC_CC") + "gcc\n", 2),
    Row("NC_CC is nc-cc but for its version", {"NC_CC": "late"}, "\nnc-cc: " + LED_BACK + "nc-cc: late ended with status 2\n", 1),
    Row("gcc is a link to nc-cc", {"PATH": "{folder}/masked:{path}"}, "\nnc-cc: " + LED_BACK + "nc-cc: gcc ended with status 2\n", 1),
    Row("AS and LD are nc-cc: as", {"AS": "nc-cc", "LD": "wrapped"}, AS),
    Row("AS and LD are nc-cc: ld", {"AS": "wrapped", "LD": "nc-cc"}, LD),
    Row("LD is another program", {"LD": "runs ld"}, "\nruns ld -m elf_i386 "),
    Row("NC_AS=nc-cc", {"NC_AS": "nc-cc"}, refused("NC_AS") + "as\n", 2),
    Row("NC_LD=nc-cc", {"NC_LD": "nc-cc"}, refused("NC_LD") + "ld\n", 2),
]

CMAKE = "-DCMAKE_TRY_COMPILE_TARGET_TYPE=STATIC_LIBRARY -S . -B . && cmake --build ."
PROJECTS = [
    Project("CC=nc-cc make", {"CC": "nc-cc"}, "make"),
    Project("make CC=nc-cc AS=nc-cc LD=nc-cc", {}, "make CC=nc-cc AS=nc-cc LD=nc-cc"),
    Project("NC_CC=clang make CC=nc-cc", {"NC_CC": "clang"}, "make CC={other}"),
    Project("CC=nc-cc cmake, built by make", {"CC": "nc-cc"}, "cmake " + CMAKE),
    Project("cmake for nc-cc, built by make", {}, "cmake -DCMAKE_C_COMPILER=nc-cc " + CMAKE),
]


def lacking() -> list[str]:
    """The tools that aren't here; a compiler has to make 32-bit code."""
    compiling = ["-m32", "-S", "-x", "c", os.devnull, "-o", os.devnull]
    return [tool for tool, words in (("gcc", compiling), ("clang", compiling), ("make", ["--version"]), ("cmake", ["--version"]))
            if shutil.which(tool) is None or ended([tool, *words])[0]]


def chosen(rows, word):
    """Those whose names have the word and whose tools are here. gcc counts where nothing is named."""
    kept = [row for row in rows if word in row.name]
    for tool in lacking():
        without = [row for row in kept if tool == "gcc" or tool in row.name]
        if without:
            print(f"skipped: nc-cc with {'; '.join(row.name for row in without)}: {tool} isn't there")
        kept = [row for row in kept if row not in without]
    return kept


def try_beneath(folder: str, word: str) -> tuple[int, int]:
    """How many rows were tried whose names have the word, and how many differ."""
    prepare(folder)
    rows = chosen([*PROJECTS, *ROWS], word)
    with concurrent.futures.ThreadPoolExecutor(os.cpu_count()) as pool:
        wrong = [said for said in pool.map(lambda row: row.wrong(folder), rows) if said]
    for said in wrong:
        print(said)
    return len(rows), len(wrong)
