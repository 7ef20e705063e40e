"""Builds projects by their own build systems, for boxes and natively, and runs their tests: a part of tests/compiler/projects."""

from __future__ import annotations

import glob
import os
import shutil
import subprocess
from typing import NamedTuple

from making import unpack
from projects_table import PROJECTS
from repository import TOP
from with_musl import SOURCES

HERE = os.path.join(TOP, "tests", "compiler", "projects")
BOX, NATIVE = "box", "native"
# Native code computes with SSE2, which rounds as the sandbox's software floating point does.
NATIVELY = " -m32 -msse2 -mfpmath=sse"
# In a box a relative name of a file begins at the current folder. An absolute one leads below the project's, or to a folder for /tmp.
IN_BOX = "nc-run --memory 1G --env LC_ALL --env TZ --dir-rw . --dir-rw {0}={0} --dir-rw {1}=/tmp"
WAYS = {BOX: {"CC": "nc-cc", "CXX": "nc-c++", "HOST": "--host=i686-unknown-elf"},
        NATIVE: {"CC": "gcc" + NATIVELY, "CXX": "g++" + NATIVELY, "HOST": "--build=i686-pc-linux-gnu"}}
HOURS = 2


class Place(NamedTuple):
    """The folder in which everything is installed, the one in which things are made, and how many commands a build runs at once."""

    prefix: str
    folder: str
    jobs: int

    def below(self, name: str, way: str) -> str:
        return os.path.join(self.folder, name, way)


class Outcome(NamedTuple):
    """How far a project came, and what is in the way."""

    built: bool
    accepted: bool
    passed: bool
    said: str


def environment(place: Place, name: str, way: str, top: str) -> dict[str, str]:
    """What prelude.sh and the recipes find in the environment."""
    run = IN_BOX.format(top, place.below(name, "tmp")) if way == BOX else ""
    path = os.path.join(place.prefix, "bin") + os.pathsep + os.environ["PATH"]
    own = {"WAY": way, "RUN": run, "PREFIX": place.prefix, "SOURCES": SOURCES, "JOBS": str(place.jobs), "PATH": path}
    return {**os.environ, **WAYS[way], **own, "LC_ALL": "C", "TZ": "UTC"}


def top_of(place: Place, name: str, way: str) -> str:
    """The folder of a project's sources, the only one of its archive."""
    return os.path.dirname(glob.glob(os.path.join(place.below(name, way), "*", ""))[0])


def shell(place: Place, name: str, way: str, function: str, stdout: int | None = None) -> tuple[str, int]:
    """What a function of a project's recipe prints in its sources, if stdout is a pipe, and its status. All else goes to a file beside the
    sources."""
    script = ". %s/prelude.sh\n. %s/recipes/%s.sh\n%s\n" % (HERE, HERE, name, function)
    top = top_of(place, name, way)
    with open(place.below(name, way) + ".log", "ab") as log:
        done = subprocess.run(["sh", "-eu", "-c", script], cwd=top, env=environment(place, name, way, top), stdin=subprocess.DEVNULL,
                              stdout=stdout or log, stderr=log, timeout=3600 * HOURS)
    return (done.stdout or b"").decode(errors="replace"), done.returncode


def built(place: Place, name: str, way: str) -> bool:
    """Whether a project builds, out of fresh sources; one that has been built in this folder stays."""
    ready, place_of_it = os.path.join(place.below(name, way), "built"), place.below(name, way)
    if os.path.exists(ready):
        return True
    shutil.rmtree(place_of_it, ignore_errors=True)
    for folder in (place_of_it, place.below(name, "tmp")):
        os.makedirs(folder, exist_ok=True)
    unpack(os.path.join(SOURCES, PROJECTS[name].archive), PROJECTS[name].sum, place_of_it)
    if shell(place, name, way, "build")[1] != 0:
        return False
    with open(ready, "w", encoding="ascii"):
        return True


def linked(place: Place, name: str) -> list[str]:
    """The files that have to be there once a project is built."""
    return [os.path.join(top_of(place, name, BOX), path) for path in PROJECTS[name].linked.split()]


def refusal(place: Place, name: str) -> str:
    """What nc_check says first of what it refuses, or nothing."""
    files = linked(place, name)
    absent = [path for path in files if not os.path.exists(path)]
    if absent:
        return "%s isn't linked" % os.path.basename(absent[0])
    done = subprocess.run([os.path.join(place.prefix, "bin", "nc_check"), *files], capture_output=True, text=True, errors="replace")
    return next((line for line in done.stdout.splitlines() if ": refused " in line), "" if done.returncode == 0 else "no verdict")


def first_difference(here: str, there: str) -> str:
    """The first line of a box's output that isn't the native one, or nothing."""
    ours, theirs = here.splitlines(), there.splitlines()
    pairs = zip(ours + ["nothing"], theirs + ["nothing"])
    return next(("%s, and not %s" % pair for pair in pairs if pair[0] != pair[1]), "")


def fault_of_own(place: Place, name: str) -> str:
    """What a project's own test says last, if it tells that something is wrong, or nothing."""
    said, status = shell(place, name, BOX, "check", subprocess.PIPE)
    lines = said.strip().splitlines()
    return "status %d after: %s" % (status, (lines or ["nothing"])[-1]) if status or not lines else ""


def fault_of_test(place: Place, name: str) -> str:
    """How the test comes out otherwise than natively, or nothing."""
    (here, status), (there, wanted) = (shell(place, name, way, "check", subprocess.PIPE) for way in (BOX, NATIVE))
    if wanted or not there.strip():
        return "the test itself fails natively, with status %d" % wanted
    return first_difference(here, there) or ("status %d" % status if status else "")


def last_error(place: Place, name: str) -> str:
    """The last line of the build's errors that tells of one."""
    with open(place.below(name, BOX) + ".log", encoding="utf-8", errors="replace") as file:
        lines = [line.strip() for line in file]
    return next((line for line in reversed(lines) if "rror" in line and not line.startswith("make")), "no message")


def tried(place: Place, name: str) -> Outcome:
    """Builds and tests a project."""
    if not built(place, name, BOX):
        return Outcome(False, False, False, last_error(place, name))
    refused = refusal(place, name)
    if refused:
        return Outcome(True, False, False, refused)
    is_own = PROJECTS[name].is_own
    if not is_own and not built(place, name, NATIVE):
        return Outcome(True, True, False, "it doesn't build natively")
    fault = fault_of_own(place, name) if is_own else fault_of_test(place, name)
    return Outcome(True, True, not fault, fault)
