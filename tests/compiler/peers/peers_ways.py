"""The ways in which tests/compiler/peers runs a library, but for boxes: natively, by wasm2c, and in Node.js."""

from __future__ import annotations

import os
import shutil
from collections.abc import Iterable
from typing import NamedTuple

from porting import Fault, code_size, done
from repository import TOP

SOURCES = os.path.join(TOP, "tests", "compiler", "peers", "sources")
HOST = [os.path.join(SOURCES, name) for name in ("host.c", "shared.c")]
BASE = "x86-64"
NATIVE = {BASE: ["gcc", "-O2"], "i386": ["gcc", "-m32", "-O2", "-msse2", "-mfpmath=sse", "-fno-pie", "-no-pie"]}

WASM = ["clang", "--target=wasm32-wasi", "-O2", "-mbulk-memory", "-msign-ext", "-ftls-model=local-exec",
        "-D_WASI_EMULATED_GETPID", "-D_WASI_EMULATED_PROCESS_CLOCKS", "-isystem", os.path.join(SOURCES, "wasm")]
SYSTEM = os.path.join(SOURCES, "wasm", "system.c")
LINKED = ["-mexec-model=reactor", "-Wl,-z,stack-size=1048576", "-lwasi-emulated-getpid", "-lwasi-emulated-process-clocks"]
WABT = "/usr/share/wabt/wasm2c"
WABT_VERSION = "1.0.32"  # of Debian 12; others name otherwise what they make
# The flags that wabt names for gcc, and those of each way: with guard pages, which is wasm2c's own, and with bounds checks.
OF_WABT = ["gcc", "-O2", "-w", "-fno-optimize-sibling-calls", "-frounding-math", "-fsignaling-nans", "-I" + WABT]
WASM2C: dict[str, list[str]] = {"guard": [], "bounds": ["-DWASM_RT_MEMCHECK_SIGNAL_HANDLER=0", "-DWASM_RT_MAX_CALL_STACK_DEPTH=100000"]}
NODE = "node"
NO_WASM = "clang makes no WebAssembly here, which wants Debian's packages clang, lld, wasi-libc and libclang-rt-14-dev-wasm32"


class Unit(NamedTuple):
    """A library with operations over it: the sources of both, the flags for all, and the folder in which they are made."""

    own: list[str]
    library: list[str]
    flags: list[str]
    folder: str


class Built(NamedTuple):
    """The command of a unit without the words for the host, which come between these; the bytes of the library's code, and of a box's
    whole file."""

    before: list[str]
    after: list[str]
    size: int
    whole: int = 0

    def run(self, words: list[str], folder: str) -> list[tuple[float, str]]:
        """The milliseconds and the sum of each operation."""
        lines = done([*self.before, *words, *self.after], folder).splitlines()
        return [(float(took), sum_made) for took, sum_made in map(str.split, lines)]


def objects(unit: Unit, way: str, words: list[str]) -> tuple[list[str], list[str]]:
    """The objects of a unit's own sources, and those of the library."""
    folder = os.path.join(unit.folder, way)
    os.makedirs(folder)
    made = []
    for number, source in enumerate([*unit.own, *unit.library]):
        made.append(os.path.join(folder, "%d.o" % number))
        done([*words, "-w", *unit.flags, "-c", "-x", "c", source, "-o", made[-1]], folder)
    return made[:len(unit.own)], made[len(unit.own):]


def native(unit: Unit, way: str) -> Built:
    """The unit as a program of this system."""
    own, library = objects(unit, way, NATIVE[way])
    program = os.path.join(unit.folder, way + "-program")
    done([*NATIVE[way], *HOST, os.path.join(SOURCES, "native.c"), *own, *library, "-lm", "-o", program], unit.folder)
    return Built([program], [], code_size(library))


def wasm_made(words: list[str], path: str, folder: str) -> str:
    """Links a module of WebAssembly, whose system is wasm/system.c."""
    done([*WASM, SYSTEM, *words, *LINKED, "-o", path], folder)
    return path


def wasm2c_made(module: str, way: str, sources: list[str], folder: str) -> tuple[str, str]:
    """A program of a module by wasm2c and of sources of a host, and the module's object. The module's header is unit-wasm.h."""
    folder = os.path.join(folder, way)
    os.makedirs(folder)
    source, made_of, program = (os.path.join(folder, name) for name in ("unit-wasm.c", "unit-wasm.o", "program"))
    done(["wasm2c", module, "-n", "unit", "-o", source], folder)
    words = [*OF_WABT, *WASM2C[way], "-I" + SOURCES, "-I" + folder]
    done([*words, "-c", source, "-o", made_of], folder)
    done([*words, *sources, made_of, os.path.join(WABT, "wasm-rt-impl.c"), "-lm", "-o", program], folder)
    return program, made_of


def web(unit: Unit, ways: Iterable[str]) -> dict[str, Built]:
    """The unit by those of the ways that begin with WebAssembly."""
    if not set(ways) & {NODE, *WASM2C}:
        return {}
    own, library = objects(unit, "wasm", WASM)
    module = wasm_made([*own, *library], os.path.join(unit.folder, "unit.wasm"), unit.folder)
    built = {}
    for way in [way for way in ways if way in WASM2C]:
        program, code = wasm2c_made(module, way, [*HOST, os.path.join(SOURCES, "wasm2c.c")], unit.folder)
        built[way] = Built([program], [], code_size([code]))
    if NODE in ways:
        built[NODE] = Built(["node", os.path.join(SOURCES, "node.mjs")], [module], os.path.getsize(module))
    return built


def has_wasm2c(folder):
    """Whether wasm2c is there, in the version whose names wasm2c.c has."""
    return shutil.which("wasm2c") is not None and os.path.isdir(WABT) and done(["wasm2c", "--version"], folder).strip() == WABT_VERSION


def web_ways(what: str, folder: str) -> list[str]:
    """Those of the ways that can be gone here. A line tells what the others lack."""
    try:
        wasm_made([], os.path.join(folder, "empty.wasm"), folder)
    except (Fault, OSError):
        print("skipped: %s by wasm2c and in Node.js: %s" % (what, NO_WASM))
        return []
    ways: list[str] = []
    if has_wasm2c(folder):
        ways += WASM2C
    else:
        print("skipped: %s by wasm2c: it isn't there in version %s, which is in Debian's package wabt" % (what, WABT_VERSION))
    if shutil.which("node"):
        ways.append(NODE)
    else:
        print("skipped: %s in Node.js: node isn't there" % what)
    return ways
