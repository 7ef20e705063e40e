"""What the scripts share that compile C against the library of crates/nc_host, and the status of what is skipped."""

from __future__ import annotations

import os
import platform
import shutil
import subprocess
from collections.abc import Iterable

from repository import TOP, rt

CRATE = os.path.join(TOP, "crates", "nc_host")
LIBRARY = os.path.join(CRATE, "out", "libnc_host.a")
INCLUDE = os.path.join(TOP, "include")
WARN = ["-O2", "-Wall", "-Wextra", "-Werror", "-I" + INCLUDE]
SKIPPED = 77


def kit() -> str:
    return os.environ.get("RATTLE_KIT") or os.path.dirname(rt("doc", capture_output=True, text=True).stdout.strip())


def archives() -> list[str]:
    """The library and what it stands on, for a linker. It is built if it isn't there."""
    if not os.path.exists(LIBRARY):
        rt("lib", cwd=CRATE, stdin=subprocess.DEVNULL, stdout=subprocess.DEVNULL)
    return [LIBRARY, os.path.join(kit(), "c", "liblibc_c.a")]


def shared(folder: str, sources: Iterable[str] = ()) -> str:
    """The path of a shared library, which is made from these, and from sources in C, in a folder."""
    path, (own, libc) = os.path.join(folder, "libnc_host.so"), archives()
    words = ["-shared", "-fPIC", *WARN, *sources, "-o", path, "-Wl,--whole-archive", own, "-Wl,--no-whole-archive", libc]
    subprocess.run([compiler(), *words], check=True)
    return path


def has_cargo() -> bool:
    """Whether cargo is here, with a toolchain of Rust that it can run."""
    return shutil.which("cargo") is not None and subprocess.run(["cargo", "--version"], capture_output=True).returncode == 0


def compiler() -> str:
    return os.environ.get("CC", "gcc")


def lacking() -> str | None:
    """What isn't here without which no 32-bit code can be compiled and run, or None."""
    if platform.machine() != "x86_64" or platform.system() != "Linux":
        return "a Linux machine for x86-64"
    if shutil.which(compiler()) is None:
        return compiler()
    return None


def compiled(sources: list[str], program: str, words: Iterable[str] = ()) -> str:
    """A program from sources in GNU C11, linked with the library."""
    subprocess.run([compiler(), "-std=gnu11"] + WARN + sources + archives() + list(words) + ["-o", program], check=True)
    return program
