"""The times that tests/compiler/strings prints: of the C library's functions that compiler/runtime/strings.c has, natively and in a box."""

import os
import subprocess
import sys

from comparing import RUNTIME, STRICT, flags_of, renamed
from native import compiler
from repository import TOP
from sandbox_building import NC_CC
from with_musl import ARCHIVE

sys.path.append(RUNTIME)
from making import C_FLAGS, REPLACED, including, write_headers
from runtime import unpacked

NAMES = REPLACED["string"]
TIMES = os.path.join(TOP, "tests", "compiler", "strings", "time_strings.c")
MAKERS = {"natively": ["ours", "musl's", "the system's"], "in a box": ["ours", "musl's"]}


def compile_natively(words, **more):
    subprocess.run(["gcc", *flags_of("gcc"), *words], check=True, **more)


def compile_for_a_box(words, **more):
    subprocess.run([NC_CC, *words], env={**os.environ, "NC_CC": "gcc"}, check=True, **more)


def musl_objects(folder, compile_all):
    """The objects of musl's functions, with names that begin with `musl_`; none without musl's sources."""
    if not os.path.exists(ARCHIVE):
        return []
    musl = unpacked(ARCHIVE, os.path.join(folder, "sources"))
    write_headers(musl, folder)
    files = [os.path.join(musl, "src", "string", name + ".c") for name in NAMES]
    compile_all(["-c", "-O3", *C_FLAGS, "-D_XOPEN_SOURCE=700", *including(musl, folder, inner=True), *files], cwd=folder)
    objects = [os.path.join(folder, name + ".o") for name in NAMES]
    for path in objects:
        subprocess.run(["objcopy", "--prefix-symbols=musl_", path], check=True)
    return objects


def measured(folder, compile_all, link, starter=()):
    """The lines that the program prints, as words."""
    os.makedirs(folder)
    own, program = os.path.join(folder, "own.o"), os.path.join(folder, "times")
    compile_all(["-c", "-O2", "-ffreestanding", *renamed(NAMES), os.path.join(RUNTIME, "strings.c"), "-o", own])
    objects = musl_objects(folder, compile_all)
    subprocess.run([*link, *STRICT, *(["-DWITH_MUSL"] if objects else []), TIMES, own, *objects, "-o", program], check=True)
    said = subprocess.run([*starter, program], check=True, capture_output=True, text=True, stdin=subprocess.DEVNULL).stdout
    return [line.split() for line in said.splitlines()], bool(objects)


def columns(setting, has_musl):
    return [(setting, maker) for maker in MAKERS[setting] if has_musl or maker != "musl's"]


def print_times(folder: str, box: str) -> int:
    """The table, with nanoseconds of a call."""
    link = [compiler(), "-m32", "-std=gnu11", "-O2", "-fno-builtin"]
    lines, has_musl = measured(os.path.join(folder, "native"), compile_natively, link)
    heads = columns("natively", has_musl)
    if box:
        inner, _ = measured(os.path.join(folder, "box"), compile_for_a_box, [NC_CC, "-O2", "-DIN_A_BOX"], [box])
        lines, heads = [line + more[2:] for line, more in zip(lines, inner)], heads + columns("in a box", has_musl)
    print("%-8s %6s" % ("", "") + "".join("%14s" % setting for setting, _ in heads))
    print("%-8s %6s" % ("", "bytes") + "".join("%14s" % maker for _, maker in heads))
    for name, size, *times in lines:
        print("%-8s %6s" % (name, size) + "".join("%14.1f" % (int(time) / 10) for time in times))
    return 0
