"""Runs single programs of libstdc++'s own testsuite in boxes, and those that fail there natively."""

from __future__ import annotations

import collections
import concurrent.futures
import glob
import os
import re
import shlex
import subprocess
import tarfile

from with_musl import GCC_ARCHIVE, run

FOLDERS = """18_support 19_diagnostics 20_util 21_strings 22_locale 23_containers 24_iterators 25_algorithms 26_numerics 27_io 28_regex
    29_atomics ext std tr1""".split()
DO = re.compile(r"\{ *dg-do +run *(.*)\}")
OPTIONS = re.compile(r'\{ *dg-(?:additional-)?options +"([^"]*)" *(\{.*\} *)?\}')
# Words of a program that this doesn't run: exceptions, threads, locales, files, more than one source, and what the hooks would do.
LEFT_OUT = re.compile(r"\b(try|catch|throw)\b|dg-require-(gthreads|namedlocale|fileio|sharedlib|effective-target|debug|prof|"
                      r"swprintf|time|cstdint-not|nprocs|thread-fence|target-fs|filesystem)|dg-additional-(sources|files)|dg-xfail|"
                      r"dg-skip-if|std::thread|pthread|fork\(|<filesystem>|long double|simulator|set_memory_limits|-flto|-fopenmp|"
                      r"-fgnu-tm|parallel|setlocale|tzdata")
UTILITIES = ("testsuite_allocator", "testsuite_character", "testsuite_hooks")
ALWAYS = ["-w", "-O2", "-D_GLIBCXX_ASSERT", "-DLOCALEDIR=\".\"", "-DNOMINMAX"]
SECONDS = 60


def unpacked(folder: str) -> str:
    """The folder with the testsuite."""
    with tarfile.open(GCC_ARCHIVE) as outer:
        inner = next(entry for entry in outer if entry.name.endswith(".tar.xz") and "/gcc-" in entry.name)
        with tarfile.open(fileobj=outer.extractfile(inner), mode="r|xz") as archive:
            archive.extractall(folder, (entry for entry in archive if entry.isfile() and "/libstdc++-v3/testsuite/" in entry.name))
    return glob.glob(os.path.join(folder, "gcc-*", "libstdc++-v3", "testsuite"))[0]


def options(text: str) -> list[str] | None:
    """The flags of a program, or None where it isn't one to be run here."""
    done = DO.search(text)
    if not done or re.search(r"target[ {]*[^c {}]", done[1]) or LEFT_OUT.search(text):
        return None
    standard = re.search(r"target c\+\+(\d+)", done[1])
    flags = [flag for found in OPTIONS.finditer(text) if not found[2] for flag in shlex.split(found[1])]
    newest = ["-std=gnu++" + standard[1]] if standard and int(standard[1]) > 17 and int(standard[1]) < 90 else []
    return flags if any(flag.startswith("-std=") for flag in flags) else [*newest, *flags]


class Suite:
    """Where the testsuite is, and by what its programs are compiled and run."""

    def __init__(self, prefix: str, folder: str) -> None:
        self.prefix, self.folder = prefix, folder
        self.tests = unpacked(folder)
        self.util = os.path.join(self.tests, "util")
        self.ways = {"box": [os.path.join(prefix, "bin/nc-c++")], "native": ["g++", "-m32", "-msse2", "-mfpmath=sse", "-fno-exceptions"]}
        for way in self.ways:
            objects = ["%s-%s.o" % (way, name) for name in UTILITIES]
            for name, made in zip(UTILITIES, objects):
                self.compile(way, ["-std=gnu++17", "-c", os.path.join(self.util, name + ".cc"), "-o", made])
            run(["ar", "rcs", way + ".a", *objects], folder)

    def compile(self, way: str, words: list[str]) -> bool:
        try:
            return run([*self.ways[way], *ALWAYS, "-I" + self.util, *words], self.folder, timeout=10 * SECONDS).returncode == 0
        except subprocess.TimeoutExpired:
            return False

    def passes(self, way: str, name: str, flags: list[str]) -> bool:
        """Whether a program compiles and ends with status 0."""
        program = os.path.join(self.folder, "%s-%s.exe" % (way, name.replace("/", "-")))
        utilities = os.path.join(self.folder, way + ".a")
        try:
            if not self.compile(way, [*flags, os.path.join(self.tests, name), utilities, "-o", program]):
                return False
            runs = [os.path.join(self.prefix, "bin/nc-run"), program] if way == "box" else [program]
            return run(runs, os.path.dirname(os.path.join(self.tests, name)), stdin=subprocess.DEVNULL, timeout=SECONDS).returncode == 0
        except subprocess.TimeoutExpired:
            return False
        finally:
            if os.path.exists(program):
                os.remove(program)

    def verdict(self, name: str) -> str:
        """What comes of a program: passed, failed, failed natively too, or left out."""
        with open(os.path.join(self.tests, name), encoding="utf-8", errors="replace") as file:
            flags = options(file.read())
        if flags is None:
            return "left out"
        if self.passes("box", name, flags):
            return "passed"
        if not self.passes("native", name, flags):
            return "failed natively too"
        print("%s fails" % name, flush=True)
        return "failed"


def try_all(prefix: str, folder: str, folders: list[str]) -> bool:
    """Whether no program fails in a box that passes natively."""
    suite = Suite(prefix, folder)
    everything: collections.Counter[str] = collections.Counter()
    for part in folders or FOLDERS:
        paths = glob.glob(os.path.join(suite.tests, part, "**", "*.cc"), recursive=True)
        with concurrent.futures.ThreadPoolExecutor(os.cpu_count()) as pool:
            counts = collections.Counter(pool.map(lambda path: suite.verdict(os.path.relpath(path, suite.tests)), sorted(paths)))
        everything += counts
        print("%s: %s" % (part, ", ".join("%d %s" % (count, verdict) for verdict, count in sorted(counts.items()))), flush=True)
    print("all: %s" % ", ".join("%d %s" % (count, verdict) for verdict, count in sorted(everything.items())))
    return not everything["failed"]
