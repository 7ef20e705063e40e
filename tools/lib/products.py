"""The built programs, the two forms of the library for C, and what is compiled over it, for a processor.

What `rt` built last is taken as it is, and built if it isn't there. For another processor than the default it is kept apart, in
out/cpu/NAME of its crate, and what stands in out stays.
"""

from __future__ import annotations

import concurrent.futures
import contextlib
import fcntl
import os
import shutil
import subprocess
import tempfile
from collections.abc import Iterable

from native import kit
from repository import TOP
from sandbox_building import link as link_boxes
from sandbox_building import compile_all, sources

DEFAULT = "x86-64-v2"
# The shared library is built for these too, and the loader takes that one where it runs on them.
FASTER = "x86-64-v3"
PROCESSORS = ["x86-64", DEFAULT, FASTER]
MERGING = ["ld", "objcopy", "ar"]
# A program that is built for a processor which this one isn't says so, and ends with this status.
LACKING = 127


class Missing(Exception):
    """A tool that isn't here; the message names it."""


def command(name: str) -> str:
    if shutil.which(name) is None:
        raise Missing(name + " isn't here")
    return name


def compiler() -> str:
    return command(os.environ.get("CC", "gcc"))


def run_rt(folder, verb, cpu):
    """Has rt build a crate. Everything that was proved before is kept, and what was not is proved now."""
    words = [verb] + (["--cpu", cpu] if cpu != DEFAULT else []) + (["--", "--version"] if verb == "run" else [])
    print("rt %s, in %s" % (" ".join(words), os.path.relpath(folder, TOP)), flush=True)
    status = subprocess.run([command("rt")] + words, cwd=folder, stdin=subprocess.DEVNULL, stdout=subprocess.DEVNULL).returncode
    if status not in (0, LACKING):
        raise Missing("rt ended with status %d" % status)


@contextlib.contextmanager
def put_aside(out, name):
    """While this lasts, what rt built of that name is elsewhere."""
    with tempfile.TemporaryDirectory(dir=out) as aside:
        kept = [file for file in (name, name + ".o", name + ".stamp") if os.path.exists(os.path.join(out, file))]
        for file in kept:
            os.rename(os.path.join(out, file), os.path.join(aside, file))
        try:
            yield
        finally:
            for file in kept:
                os.replace(os.path.join(aside, file), os.path.join(out, file))


def place_of(crate: str, cpu: str) -> str:
    """The folder of what is built of a crate for a processor."""
    out = os.path.join(TOP, "crates", crate, "out")
    return out if cpu == DEFAULT else os.path.join(out, "cpu", cpu)


def product(crate: str, name: str, cpu: str, anew: bool) -> str:
    """The path of a program or a library. Two of these scripts don't build in a crate at once."""
    folder = os.path.join(TOP, "crates", crate)
    out, verb = os.path.join(folder, "out"), "lib" if name.endswith(".a") else "run"
    apart = place_of(crate, cpu)
    os.makedirs(apart, exist_ok=True)
    with open(os.path.join(out, "building"), "w", encoding="utf-8") as lock:
        fcntl.flock(lock, fcntl.LOCK_EX)
        if anew or not os.path.exists(os.path.join(apart, name)):
            with contextlib.nullcontext() if apart == out else put_aside(out, name):
                run_rt(folder, verb, cpu)
                os.replace(os.path.join(out, name), os.path.join(apart, name))
    return os.path.join(apart, name)


def program(name: str, cpu: str, anew: bool) -> bytes:
    with open(product(name, name, cpu, anew), "rb") as file:
        return file.read()


def merge(archives: list[str], folder: str) -> str:
    """One archive with one object: the library, and what it needs of the others. Only the calls of the header are global in it."""
    whole, kept, archive = (os.path.join(folder, name) for name in ("whole.o", "nc_host.o", "libnc_host.a"))
    for tool in MERGING:
        command(tool)
    subprocess.run(["ld", "-r", "-o", whole, "--whole-archive", archives[0], "--no-whole-archive"] + archives[1:], check=True)
    # The list of symbols whose address counts, for lld, names symbols by numbers that hold no longer.
    only = ["--wildcard", "--keep-global-symbol=nc_*", "--remove-section=.llvm_addrsig"]
    subprocess.run(["objcopy"] + only + [whole, kept], check=True)
    subprocess.run(["ar", "rcsD", archive, kept], check=True)
    return archive


def merge_boxes(parts: Iterable[str], folder: str) -> str:
    """One archive with one object of the library of boxes. Only the calls of its header are global in it: all other names are hidden."""
    whole, kept, archive = (os.path.join(folder, name) for name in ("whole.o", "nc_sandbox.o", "libnc_sandbox.a"))
    subprocess.run(["ld", "-r", "-o", whole, *parts], check=True)
    subprocess.run(["objcopy", "--localize-hidden", whole, kept], check=True)
    subprocess.run(["ar", "rcsD", archive, kept], check=True)
    return archive


def boxes(cpu: str, static: bytes) -> list[bytes]:
    """The bytes of the static library of boxes and of nc-run, over these of the static library nc_host, which alone is for this processor:
    nc-run says so where it is another one."""
    level = PROCESSORS.index(cpu) + 1
    compiler()
    with tempfile.TemporaryDirectory() as folder, concurrent.futures.ThreadPoolExecutor() as pool:
        host = os.path.join(folder, "libnc_host.a")
        with open(host, "wb") as file:
            file.write(static)
        archive = merge_boxes(compile_all(pool, sources(), folder, ["-fPIC"]).values(), folder)
        own = compile_all(pool, sources("sandbox", "run"), folder, ["-DNC_RUN_LEVEL=%d" % level])
        made = link_boxes([*own.values(), archive, host], os.path.join(folder, "nc-run"), ["-s", "-Wl,-z,relro,-z,now"], over=[])
        files = []
        for path in (archive, made):
            with open(path, "rb") as file:
                files.append(file.read())
    return files


def link(archive, soname, folder):
    """The shared library of a merged archive. It has no code of the compiler's own, which would only run at its start and its end."""
    made = os.path.join(folder, "libnc_host.so")
    flags = "-soname,%s,-z,defs,-z,now,-z,relro,-z,noexecstack,--build-id=sha1,--whole-archive" % soname
    subprocess.run([compiler(), "-shared", "-nostartfiles", "-o", made, "-Wl," + flags, archive, "-Wl,--no-whole-archive"], check=True)
    return made


def libraries(cpu: str, soname: str, anew: bool) -> list[bytes]:
    """The bytes of the static and of the shared library, which link without the toolchain."""
    own = product("nc_host", "libnc_host.a", cpu, anew)
    if "RATTLE_KIT" not in os.environ:
        command("rt")
    with tempfile.TemporaryDirectory() as folder:
        archive = merge([own, os.path.join(kit(), "c", "liblibc_c.a")], folder)
        files = []
        for path in (archive, link(archive, soname, folder)):
            with open(path, "rb") as file:
                files.append(file.read())
    return files
