"""Compiles programs that generate code: PCRE2 with its JIT, and tcc. `generators` and tests/compiler/generators share this."""

import concurrent.futures
import glob
import importlib.util
import os
import re
import sys

HERE = os.path.dirname(os.path.abspath(__file__))
sys.path.append(os.path.join(HERE, "..", "..", "compiler", "runtime"))
from making import run, unpack
from editing import edit_all
from table import GENERATORS

WIDTHS = (8, 16, 32)
OWN = {name: os.path.join(HERE, name) for name in GENERATORS}
QUIET = ["-w", "-Werror=implicit-function-declaration"]
SLJIT_FLAGS = ["-O2", "-DSLJIT_HAVE_CONFIG_PRE=1"]
PCRE2_HEADERS = ["-I" + OWN["pcre2-jit"], "-I" + os.path.join(HERE, "pcre2")]


def edits_of(name):
    """The module with the edits of a program."""
    spec = importlib.util.spec_from_file_location("edits_" + name.replace("-", "_"), os.path.join(OWN[name], "edits.py"))
    module = importlib.util.module_from_spec(spec)
    spec.loader.exec_module(module)
    return module


def unpacked(name, sources, place, edits):
    """The folder with a program's sources, from its archive in the folder `sources`, with these edits. An archive without a folder of its
    own is one itself."""
    unpack(os.path.join(sources, GENERATORS[name].archive), GENERATORS[name].sum, place)
    tops = os.listdir(place)
    top = os.path.join(place, tops[0]) if len(tops) == 1 else place
    edit_all(top, edits)
    return top


class Compiler:
    """A compiler with its flags, for the box or natively."""

    def __init__(self, words):
        self.words = list(words)

    def objects(self, flags, paths, folder):
        """The objects of sources, in a folder of their own, compiled side by side."""
        os.makedirs(folder, exist_ok=True)
        made = [os.path.join(folder, os.path.basename(path).partition(".")[0] + ".o") for path in paths]
        lines = [[*self.words, *flags, "-c", "-x", "c", path, "-o", to] for path, to in zip(paths, made)]
        with concurrent.futures.ThreadPoolExecutor(len(os.sched_getaffinity(0))) as pool:
            for done in [pool.submit(run, line) for line in lines]:
                done.result()
        return made

    def program(self, objects, path):
        run([*self.words, *objects, "-lm", "-o", path])
        return path


# ---- PCRE2


def pcre2_flags(top, widths, width=None):
    """The flags for sources of PCRE2 with these widths, in one of them if they want one."""
    own = ["-DPCRE2_CODE_UNIT_WIDTH=%d" % width] if width else []
    all_widths = ["-DSUPPORT_PCRE2_%d" % one for one in widths]
    return [*QUIET, *PCRE2_HEADERS, "-I" + os.path.join(top, "src"), "-DHAVE_CONFIG_H", *all_widths, *own]


def pcre2_library(compiler, top, folder, widths):
    """The objects of the library in all of the widths."""
    return [path for width in widths for path in
            compiler.objects(pcre2_flags(top, widths, width), GENERATORS["pcre2-jit"].sources(top), os.path.join(folder, str(width)))]


def pcre2_test(compiler, top, folder, widths, library):
    """PCRE2's program for tests, over the library's objects."""
    test = compiler.objects(pcre2_flags(top, widths), [os.path.join(top, "src", "pcre2test.c")], folder)
    posix = compiler.objects(pcre2_flags(top, widths, 8), [os.path.join(top, "src", "pcre2posix.c")], folder)
    return compiler.program([*test, *posix, *library], os.path.join(folder, "pcre2test"))


def pcre2_jit_test(compiler, top, folder, widths, library, more=()):
    """PCRE2's program that compares its JIT with its interpreter. `more` are flags and sources for it."""
    test = compiler.objects(pcre2_flags(top, widths), [os.path.join(top, "src", "pcre2_jit_test.c")], folder)
    return compiler.program([*test, *more, *library], os.path.join(folder, "pcre2_jit_test"))


def build_pcre2(driver, top, folder):
    """PCRE2's own programs for the box, with all widths."""
    compiler = Compiler([driver, *SLJIT_FLAGS])
    library = pcre2_library(compiler, top, folder, WIDTHS)
    return [make(compiler, top, folder, WIDTHS, library) for make in (pcre2_test, pcre2_jit_test)]


# ---- tcc


def as_text(content):
    """Bytes as C writes them, a line of them as a line."""
    return "".join('"%s"\n' % "".join("\\%03o" % byte if byte in b"\\\"?" or not 32 <= byte < 127 else chr(byte) for byte in line)
                   for line in content.splitlines(keepends=True)) or '""\n'


def headers_text(places):
    """The rows of nc_headers: each header below the folders, of two with the same name the later one."""
    texts = {os.path.relpath(path, place): path for place in places for path in glob.glob(os.path.join(place, "**", "*.h"), recursive=True)}
    rows = []
    for name, path in sorted(texts.items()):
        with open(path, "rb") as file:
            content = file.read()
        rows.append('{"%s",\n%s, %d},\n' % (name, as_text(content), len(content)))
    return "".join(rows)


def symbols_of(archive):
    """Of each object in an archive the names that it defines, and those that it wants."""
    objects = {}
    for line in run(["nm", "-A", "-g", archive]).splitlines():
        place, _, rest = line.rpartition(": ") if ": " in line else line.rpartition(":")
        kind, name = rest.split()[-2:]
        defined, wanted = objects.setdefault(place.split(":")[1], (set(), set()))
        (wanted if kind == "U" else set() if kind in "wv" else defined).add(name)
    return objects


def names_of(archive, script):
    """The names of a C library that a program can have: those of its objects that want nothing that isn't there, and the calls of nc-run,
    which the linker script has."""
    with open(script, encoding="ascii") as file:
        linked = set(re.findall(r"(\w+) = ", file.read()))
    objects = symbols_of(archive)
    objects["calls"] = {name for name in linked if name.startswith("nc_")}, set()
    lacking = {}
    while True:
        there = {"main", *linked}.union(*(defined for defined, _ in objects.values()))
        more = {name: objects.pop(name) for name in [name for name, (_, wanted) in objects.items() if not wanted <= there]}
        if not more:
            left_out = set().union(*(defined for defined, _ in lacking.values()))
            return sorted(name for name in there - left_out if name.isidentifier() and (name not in linked or name.startswith("nc_")))
        lacking.update(more)


def build_tcc(driver, top, folder):
    """tcc as a program of the box, with the C library and the headers that its programs get."""
    share = os.path.join(os.path.dirname(driver), "..", "share", "reedbodkin")
    archive = os.path.join(share, "libc", "libc.a")
    texts = {
        "headers.h": headers_text([os.path.join(share, "guest"), os.path.join(share, "libc", "include"), os.path.join(top, "include")]),
        "known.h": "".join("KNOWN(%s)\n" % name for name in names_of(archive, os.path.join(share, "chunk.ld"))),
    }
    for name, text in texts.items():
        with open(os.path.join(folder, name), "w", encoding="ascii") as file:
            file.write(text)
    compiler = Compiler([driver, "-O2"])
    flags = [*QUIET, *("-I" + place for place in (OWN["tcc"], folder, top))]
    return [compiler.program(compiler.objects(flags, GENERATORS["tcc"].sources(top), folder), os.path.join(folder, "tcc.nc"))]


BUILDERS = {"pcre2-jit": build_pcre2, "tcc": build_tcc}
