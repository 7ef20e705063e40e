"""What the scripts share that run programs with the C library of `tools/install --musl`."""

from __future__ import annotations

import os
import subprocess
import sys
from typing import Any

from executing import missing
from repository import TOP
from sandbox_building import SYSTEM_LACKS

SOURCES = os.path.join(TOP, "out", "sources")
ARCHIVE = os.path.join(SOURCES, "musl_1.2.3.orig.tar.gz")
GCC_ARCHIVE = os.path.join(SOURCES, "gcc-12_12.2.0.orig.tar.gz")
HELLO = os.path.join(TOP, "tests", "compiler", "musl", "hello.c")
SECONDS = 120


def run(words: list[str], folder: str, **more: Any) -> subprocess.CompletedProcess:
    asked: dict[str, Any] = {"cwd": folder, "capture_output": True, "timeout": SECONDS, **more}
    return subprocess.run(words, **asked)


def made(words: list[str], folder: str, env: dict[str, str] | None = None) -> None:
    """Does what has to succeed, and prints nothing as an error."""
    done = run(words, folder, env=env)
    if done.returncode or done.stderr:
        sys.exit("%s: status %d: %s" % (" ".join(words), done.returncode, done.stderr.decode(errors="replace")[-2000:]))


def ended(words: list[str], folder: str, given: bytes = b"") -> tuple[bytes, bytes, int]:
    """What a program prints, and its status as a shell counts it."""
    done = run(words, folder, input=given)
    return done.stdout, done.stderr, done.returncode if done.returncode >= 0 else 128 - done.returncode


def lacking(archive: str = ARCHIVE) -> str | None:
    """What isn't there without which nothing can be installed, or None."""
    return missing() or (None if os.path.exists(archive) else archive)


def installed(folder: str, archive: str = ARCHIVE, has_libstdcxx: bool = False) -> str:
    """The path below which everything is installed with the C library, and perhaps with libstdc++."""
    prefix = os.path.join(folder, "prefix")
    os.environ["XDG_CACHE_HOME"] = os.path.join(folder, "cache")  # for the nc-cc there
    words = [os.path.join(TOP, "tools", "install"), prefix, "--musl", archive, *(["--libstdcxx", GCC_ARCHIVE] if has_libstdcxx else [])]
    done = subprocess.run(words, capture_output=True, text=True)
    if done.returncode:
        sys.exit("tools/install: status %d: %s" % (done.returncode, done.stderr[-2000:]))
    return prefix


def no_boxes(prefix: str, folder: str) -> str | None:
    """What the system lacks without which nc-run runs nothing, or None. The first program that anybody writes has to run."""
    made([os.path.join(prefix, "bin/nc-cc"), HELLO, "-o", "hello"], folder)
    got = ended([os.path.join(prefix, "bin/nc-run"), "hello"], folder)
    if got[2] == SYSTEM_LACKS:
        return got[1].decode(errors="replace").strip()
    if got != (b"hello, world\n", b"", 0):
        sys.exit("hello: %s" % (got,))
    return None
