"""The C library that `tools/install --musl` installs for nc-cc: musl, with the start of programs for nc-run, its calls, a heap, and what
generators of code need."""

from __future__ import annotations

import concurrent.futures
import glob
import os
import tarfile
import tempfile

from making import HERE, Fault, build_objects, compile_code, compile_inner, extract, found, join, write_headers

PARTS = ("run/start.c", "run/calls.c", "run/names.c", "run/signals.c", "run/times.c", "run/pipes.c", "run/polls.c", "run/heap.c",
         "run/maps.c", "run/sigsetjmp.s", "run/threads.c")
PARTS_CXX = ("run/templates.cc",)  # without libstdc++
# Of musl's own heap, what a heap of another kind needs too.
KEPT = {"memalign.o", "posix_memalign.o", "reallocarray.o"}
# What stands in libc.a and is named apart, as in musl.
EMPTY = ["m", "rt", "pthread", "crypt", "util", "xnet", "resolv", "dl"]
CONFIG = "templates/bits/c++config.h"
CODE = os.path.join(HERE, "code")
HEADERS = ("include", "arch/generic", "arch/i386")


def unpacked(path: str, folder: str) -> str:
    """The folder with musl's sources: `path`, a folder in it, or what the archive `path` has."""
    if os.path.isfile(path):
        with tarfile.open(path) as archive:
            extract(archive, folder)
        path = folder
    return path if os.path.isdir(os.path.join(path, "arch/i386")) else found(path, "musl-1.2.*")


def headers(musl: str, made: str) -> dict[str, bytes]:
    """The public headers by their names, each from the last of the folders that has it."""
    texts = {}
    for place in [*(os.path.join(musl, name) for name in HEADERS), os.path.join(made, "include"), os.path.join(HERE, "musl"), CODE]:
        for path in glob.glob(os.path.join(place, "**", "*.h"), recursive=True):
            name = os.path.relpath(path, place)
            if os.path.dirname(name) == "bits" or place in (os.path.join(musl, "include"), CODE):
                with open(path, "rb") as file:
                    texts["include/" + name] = file.read()
    return texts


def runtime(sources: str, cc: str = "gcc", has_libstdcxx: bool = False) -> dict[str, bytes]:
    """The files of the C library by their names, made of musl's sources: a folder or an archive."""
    with tempfile.TemporaryDirectory() as made, concurrent.futures.ThreadPoolExecutor(os.cpu_count()) as pool:
        try:
            musl = unpacked(os.path.abspath(sources), os.path.join(made, "sources"))
        except (OSError, tarfile.TarError) as fault:
            raise Fault("%s: %s" % (sources, fault)) from None
        write_headers(musl, made)
        objects = build_objects(musl, made, cc, pool)
        del objects["malloc/mallocng"]
        objects["malloc"] = [path for path in objects["malloc"] if os.path.basename(path) in KEPT]
        objects["run"] = [compile_inner(musl, made, cc, name) for name in (PARTS if has_libstdcxx else PARTS + PARTS_CXX)]
        objects["code"] = [compile_code(musl, made, cc, path) for path in sorted(glob.glob(os.path.join(CODE, "*.c")))]
        files = headers(musl, made)
        archives: dict[str, list[str]] = {"libc.a": [path for paths in objects.values() for path in paths],
                                          **{f"lib{name}.a": [] for name in EMPTY}}
        for name, parts in archives.items():
            join(os.path.join(made, name), parts)
            with open(os.path.join(made, name), "rb") as file:
                files[name] = file.read()
        for name, path in (("COPYRIGHT", os.path.join(musl, "COPYRIGHT")), (CONFIG, os.path.join(HERE, CONFIG))):
            with open(path, "rb") as file:
                files[name] = file.read()
        return files
