"""Builds the C library musl for the sandbox, by nc-cc: what the scripts `build` of the examples share."""

from __future__ import annotations

import glob
import hashlib
import os
import shutil
import subprocess
import sys
import tarfile
from collections.abc import Iterable
from concurrent.futures import Executor
from typing import Any, NamedTuple

HERE = os.path.dirname(os.path.abspath(__file__))
DRIVER = os.path.join(HERE, "..", "nc-cc")
if not os.path.exists(DRIVER):  # where Reedbodkin is installed
    DRIVER = shutil.which("nc-cc") or "nc-cc"
NOT_THERE = "there is no %s below %s: `build --help` says what to get"

MUSL_FOLDERS = """string stdlib ctype stdio math multibyte locale errno malloc malloc/mallocng internal exit env time unistd prng fenv
    setjmp stat fcntl misc thread signal select temp conf dirent mman linux sched process legacy search regex ../compat/time32
    complex crypt ipc ldso network passwd termios""".split()
# Sources in assembly, in the place of empty ones in C.
ASSEMBLY = {"setjmp": "i386/*.s", "ldso": "i386/dlsym_time64.S"}
MUSL_FAST = {"internal", "malloc", "malloc/mallocng", "string"}  # which musl's own Makefile optimises more
OWN = ("atomics", "complex", "division", "floating", "math", "strings")
# What math.c and strings.c have in place of musl's, by musl's folders.
REPLACED = {
    "math": "ceil floor fmod llrint llround lrint lround nearbyint nearbyintf rint rintf round roundf trunc".split(),
    "string": "memchr memcmp memcpy memmove memset strcmp strlen strncmp".split(),
}
# For the C library's own sources, as in musl's Makefile, and for those that use it: there a compiler knows what `memcpy` does.
C_FLAGS, HOSTED = ["-w", "-std=gnu99", "-ffreestanding"], ["-w", "-std=gnu99", "-fhosted"]
LIMIT = 100


class Library(NamedTuple):
    """Where a library's sources are, by patterns of which one fits; which of them are left out; and its flags."""

    folders: str
    files: str
    without: tuple[str, ...] = ()
    flags: tuple[str, ...] = ()


LIBRARIES = {
    "zlib": Library("zlib-*", "*.c", flags=("-DHAVE_UNISTD_H",)),
    "lz4": Library("lz4-*/lib", "*.c"),
    "bzip2": Library("bzip2-*", "*.c", ("bzip2.c", "bzip2recover.c", "dlltest.c", "mk251.c", "spewG.c", "unzcrash.c")),
    "expat": Library("expat-*/expat/lib libexpat-*/expat/lib expat-*/lib", "*.c",
                     flags=("-DXML_NS", "-DXML_DTD", "-DXML_CONTEXT_BYTES=1024", "-DBYTEORDER=1234", "-DXML_POOR_ENTROPY")),
    "libpng": Library("libpng1.6-1.6.* libpng-1.6.*", "png*.c", ("pngtest.c", "pngnow.c")),
    "lua": Library("lua5.4-5.4.*/src lua-5.4.*/src", "*.c", ("lua.c", "luac.c")),
    "sqlite": Library("sqlite3-* sqlite-amalgamation-*", "sqlite3.c",
                      flags=("-DSQLITE_THREADSAFE=0", "-DSQLITE_OMIT_LOAD_EXTENSION", "-DSQLITE_TEMP_STORE=3")),
}


class Fault(Exception):
    """What isn't there, or failed."""


def found(sources: str, patterns: str) -> str:
    """The folder that one of the patterns fits; the last by name, where several do."""
    places = sorted(place for pattern in patterns.split() for place in glob.glob(os.path.join(sources, pattern)) if os.path.isdir(place))
    if not places:
        raise Fault(NOT_THERE % (" or ".join(patterns.split()), sources))
    return places[-1]


def extract(archive: tarfile.TarFile, place: str, files: Iterable[tarfile.TarInfo] | None = None) -> None:
    """The files of an archive, or some of them, under the filter for data where Python has it."""
    more: Any = {"filter": "data"} if hasattr(tarfile, "data_filter") else {}
    archive.extractall(place, files, **more)


def unpack(path: str, wanted: str, place: str) -> None:
    """The files of an archive, which has to have its SHA-256. Its symbolic links are left out: rt refuses a repository with them."""
    if not os.path.exists(path):
        raise Fault("there is no %s: `build --help` says what to get" % path)
    with open(path, "rb") as file:
        if hashlib.sha256(file.read()).hexdigest() != wanted:
            raise Fault("%s hasn't the SHA-256 %s" % (path, wanted))
    with tarfile.open(path) as archive:
        files = [entry for entry in archive if not entry.issym()]
        extract(archive, place, files)


def sources_of(name: str, sources: str) -> tuple[str, list[str]]:
    """The folder of a library, and its sources."""
    library = LIBRARIES[name]
    folder = found(sources, library.folders)
    files = [path for path in sorted(glob.glob(os.path.join(folder, library.files))) if os.path.basename(path) not in library.without]
    if not files:
        raise Fault(NOT_THERE % (library.files, folder))
    return folder, files


def run(words: list[str], cc: str = "gcc", **more: Any) -> str:
    try:
        done = subprocess.run(words, env={**os.environ, "NC_CC": cc}, capture_output=True, text=True, errors="replace", **more)
    except subprocess.TimeoutExpired:
        raise Fault("%s took more than %d seconds" % (words[0], LIMIT)) from None
    if done.returncode:
        raise Fault("%s ended with status %d: %s" % (" ".join(words[:6]), done.returncode, done.stderr.strip()[-400:]))
    return done.stdout


def time_of(words: list[str]) -> float:
    """The time of a processor that a program takes, in milliseconds."""
    started = subprocess.Popen(words, stdout=subprocess.DEVNULL)
    _, status, used = os.wait4(started.pid, 0)
    started.returncode = status
    return 1000 * (used.ru_utime + used.ru_stime)


def nc_cc(words: list[str], cc: str, **more: Any) -> str:
    return run([sys.executable, DRIVER, *words], cc, **more)


def write_headers(musl: str, made: str) -> None:
    """The headers that musl's own Makefile writes, and those that expat and Debian's Lua get when they are configured."""
    bits, internal = os.path.join(made, "include", "bits"), os.path.join(made, "internal")
    for folder in (bits, internal, os.path.join(made, "given")):
        os.makedirs(folder, exist_ok=True)
    types = [os.path.join(musl, name) for name in ("arch/i386/bits/alltypes.h.in", "include/alltypes.h.in")]
    with open(os.path.join(musl, "arch/i386/bits/syscall.h.in"), encoding="ascii") as file:
        calls = file.read()
    numbered = [line for line in calls.splitlines() if "__NR_" in line]
    texts = {
        os.path.join(bits, "alltypes.h"): run(["sed", "-f", os.path.join(musl, "tools/mkalltypes.sed"), *types]),
        os.path.join(bits, "syscall.h"): calls + "".join(line.replace("__NR_", "SYS_") + "\n" for line in numbered),
        os.path.join(internal, "version.h"): '#define VERSION "1.2"\n',
        os.path.join(made, "given", "expat_config.h"): "",
        os.path.join(made, "given", "lua5.4-deb-multiarch.h"): '#define DEB_HOST_MULTIARCH ""\n',
    }
    for path, text in texts.items():
        with open(path, "w", encoding="ascii") as file:
            file.write(text)


def including(musl: str, made: str, inner: bool) -> list[str]:
    """Flags that find musl's headers, and those of this folder before them; `inner`: as musl's own sources see them."""
    own = os.path.join(HERE, "musl")
    within = ["arch/i386", "arch/generic"] + (["src/include", "src/internal"] if inner else [])
    written = [os.path.join(made, name) for name in ("internal", "include")]
    places = [own, *(os.path.join(musl, name) for name in within), *written, os.path.join(musl, "include")]
    return ["-nostdinc", *(word for place in places for word in (("-I" if inner else "-isystem"), place))]


def build_folder(musl: str, made: str, cc: str, name: str) -> list[str]:
    """The objects of one of musl's folders, where they aren't there yet."""
    folder = os.path.join(made, "musl-" + cc, name.replace("/", "-"))
    os.makedirs(folder, exist_ok=True)
    patterns = {"*.c", ASSEMBLY.get(name, "*.c")}
    found_all = [path for pattern in patterns for path in glob.glob(os.path.join(musl, "src", name, pattern))]
    files = sorted(path for path in found_all if os.path.getsize(path))
    if len(glob.glob(os.path.join(folder, "*.o"))) < len(files):
        level = "-O3" if name in MUSL_FAST else "-Os"
        nc_cc(["-c", level, *C_FLAGS, "-D_XOPEN_SOURCE=700", *including(musl, made, inner=True), *files], cc, cwd=folder)
    return sorted(glob.glob(os.path.join(folder, "*.o")))


def build_objects(musl: str, made: str, cc: str, pool: Executor) -> dict[str, list[str]]:
    """The objects of musl, by its folders, and those of this folder, some of which take the places of musl's."""
    print("musl by %s: %d folders" % (cc, len(MUSL_FOLDERS)), flush=True)
    objects = dict(zip(MUSL_FOLDERS, pool.map(lambda name: build_folder(musl, made, cc, name), MUSL_FOLDERS)))
    for name, files in REPLACED.items():
        objects[name] = [path for path in objects[name] if os.path.basename(path)[:-2] not in files]
    objects["own"] = [os.path.join(made, "%s-%s.o" % (name, cc)) for name in OWN]
    for name, path in zip(OWN, objects["own"]):
        nc_cc(["-c", "-O2", "-ffreestanding", os.path.join(HERE, name + ".c"), "-o", path], cc)
    return objects


def compile_inner(musl: str, made: str, cc: str, name: str) -> str:
    """The object of a source of this folder, which sees musl's inner headers where it is of C."""
    stem, kind = os.path.splitext(name)
    made_of = os.path.join(made, "%s-%s.o" % (stem.replace("/", "-"), cc))
    flags = ["-std=gnu++17"] if kind == ".cc" else [*C_FLAGS, *including(musl, made, inner=True)]
    nc_cc(["-c", "-Os", *flags, os.path.join(HERE, name), "-o", made_of], cc)
    return made_of


def compile_code(musl: str, made: str, cc: str, path: str) -> str:
    """The object of a source for generators of code, which sees the public headers. Its time counts more than its size."""
    made_of = os.path.join(made, "code-%s-%s.o" % (os.path.splitext(os.path.basename(path))[0], cc))
    nc_cc(["-c", "-O2", "-w", "-std=gnu11", "-fhosted", *including(musl, made, inner=False), path, "-o", made_of], cc)
    return made_of


def join(archive: str, objects: list[str]) -> None:
    """An archive, which is there whole or not at all."""
    if os.path.exists(archive + ".new"):
        os.remove(archive + ".new")
    run(["ar", "rcD", archive + ".new", *objects])
    os.rename(archive + ".new", archive)


def build_musl(musl: str, made: str, cc: str, pool: Executor) -> None:
    """libc-CC.a and the object with `start`, where they aren't there yet."""
    archive = os.path.join(made, "libc-%s.a" % cc)
    if not os.path.exists(archive):
        objects = build_objects(musl, made, cc, pool)
        compile_inner(musl, made, cc, "start.c")
        join(archive, [path for paths in objects.values() for path in paths])
