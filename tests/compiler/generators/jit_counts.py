"""Counts the instructions that PCRE2's JIT takes to make code, natively: a part of tests/compiler/generators."""

import glob
import os
import re
import shutil

from generating import OWN, SLJIT_FLAGS, Compiler, edits_of
from generators import Place
from jit_times import NAME, NATIVE, PATTERNS, build
from porting import Fault
from repository import TOP
from with_musl import ended

CALL = "pcre2_jit_compile_8"
COUNT = ["valgrind", "--tool=callgrind", "--callgrind-out-file=/dev/null", "--toggle-collect=" + CALL]
COLLECTED = re.compile(r"Collected : (\d+)")
CODE = os.path.join(TOP, "compiler", "runtime", "code")
BUNDLED = [*NATIVE["i386-"], *SLJIT_FLAGS, "-I" + CODE, "-I" + os.path.join(TOP, "sandbox", "guest")]
MOST = 1.5  # how many times the instructions of sljit's own second pass


def count(place, program):
    """The instructions within pcre2_jit_compile, for all patterns."""
    _, errors, status = ended([*COUNT, program, PATTERNS, "0"], place.folder)
    found = COLLECTED.search(errors.decode(errors="replace"))
    if status != 0 or found is None:
        raise Fault("callgrind: status %s: %s" % (status, errors[-800:].decode(errors="replace")))
    return int(found[1])


def measure(place: Place) -> bool:
    """Whether making code by the bundler takes few enough instructions. The calls for code are a model that does nothing."""
    if shutil.which(COUNT[0]) is None:
        print("skipped: generators --instructions: %s isn't there" % COUNT[0])
        return True
    for text in ("prose", "dna"):
        with open(os.path.join(place.folder, text), "wb"):
            pass
    edits = edits_of(NAME)
    library = [*glob.glob(os.path.join(CODE, "nc_*.c")), os.path.join(OWN[NAME], "model.c")]
    plain = build(Compiler(NATIVE["i386-"]), place.sources(NAME, edits.PLAIN, "plain"), place.below("times-plain"))
    bundled = build(Compiler(BUNDLED), place.sources(NAME, edits.EDITS.values(), "bundled"), place.below("times-bundled"), library)
    counts = count(place, plain), count(place, bundled)
    ratio = counts[1] / counts[0]
    print("making code: %d instructions by sljit, %d by the bundler: %.3f, at most %.1f" % (*counts, ratio, MOST))
    return ratio <= MOST
