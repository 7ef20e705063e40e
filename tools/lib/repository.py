"""The top of the repository, and what the toolchain builds below it."""

from __future__ import annotations

import os
import shutil
import subprocess
import sys
from typing import Any, NoReturn

TOP = os.path.dirname(os.path.dirname(os.path.dirname(os.path.abspath(__file__))))


def give_up(message: str) -> NoReturn:
    """Ends the script with status 2."""
    print(f"{os.path.relpath(sys.argv[0], TOP)}: {message}", file=sys.stderr)
    sys.exit(2)


def require_rt() -> None:
    """Without the toolchain the script ends."""
    if shutil.which("rt") is None:
        give_up("rt isn't here: what this needs is built by the Rattle toolchain")


def rt(*words: str, **more: Any) -> subprocess.CompletedProcess:
    """Runs a command of the toolchain. Without the toolchain, or if the command fails, the script ends."""
    require_rt()
    done = subprocess.run(["rt", *words], check=False, **more)
    if done.returncode:
        give_up(f"rt {' '.join(words)} ended with status {done.returncode}")
    return done


def built(name: str, words: list[str], given: Any = subprocess.DEVNULL) -> str:
    """A program's path. It is built if it isn't there, and run with these words and this standard input."""
    crate = os.path.join(TOP, "crates", name)
    program = os.path.join(crate, "out", name)
    if not os.path.exists(program):
        rt("run", *words, cwd=crate, stdin=given, stdout=subprocess.DEVNULL)
    return program


def built_tests(name: str) -> str:
    """The path of a crate's tests. They are built, and run once, if they aren't there."""
    crate = os.path.join(TOP, "crates", name)
    program = os.path.join(crate, "out", name + "_tests")
    if not os.path.exists(program):
        rt("test", cwd=crate, stdin=subprocess.DEVNULL, stdout=subprocess.DEVNULL)
    return program
