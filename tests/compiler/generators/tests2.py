"""tcc's own programs, compiled and run in a box, beside tcc itself for 32-bit Linux: a part of tests/compiler/generators."""

import glob
import os
import re
import shutil
import subprocess

from generators import tell
from editing import Edit, edit_all
from generating import OWN, build_tcc, edits_of
from porting import done

NAME = "tcc"
SECONDS = 60
EVERY = 4  # of the slice
CONFIGURED = ["--cpu=i386", "--cc=gcc", "--extra-cflags=-m32 -O1 -w", "--extra-ldflags=-m32", "--crtprefix=/usr/lib32",
              "--libpaths=/usr/lib32:/lib32", "--sysincludepaths={B}/include:/usr/include/x86_64-linux-gnu:/usr/include"]
BELOW = os.path.join("tests", "tests2")

# As tcc's Makefile has them: words before and after `-run FILE`.
BEFORE = {"60_errors_and_warnings": ["-dt"], "76_dollars_in_identifiers": ["-fdollars-in-identifiers"], "96_nodata_wanted": ["-dt"],
          "104_inline": ["104+_inline.c"]}
AFTER = {"31_args": ["arg1", "arg2", "arg3", "arg4", "arg5"], "46_grep": [r"[^* ]*[:a:d: ]+\:\*-/: $", "46_grep.c"]}
# What isn't tried, and why.
NOT_TRIED = {
    "34_array_assignment": "tcc's own Makefile leaves it out",
    "73_arm64": "for another processor",
    "104+_inline": "a part of 104_inline",
    "106_pthread": "threads",
    "112_backtrace": "backtraces take signals",
    "113_btdll": "shared objects",
    "114_bound_signal": "checks of bounds, with signals",
    "115_bound_setjmp": "checks of bounds",
    "116_bound_setjmp2": "checks of bounds",
}
# What is refused in the box, and why: an instruction that the sandbox hasn't, or that tcc itself has a `long double` of 64 bits.
X87 = rb"tcc: error: the sandbox has no such instruction: d[89a-f] .*\n$"
PUSHA = rb"tcc: error: the sandbox has no such instruction: 60 .*\n$"
LONG_DOUBLE = rb".*: error: can't cross compile long double constants\n$"
REFUSED = {
    **dict.fromkeys(["22_floating_point", "23_type_coercion", "24_math_library", "49_bracket_evaluation", "83_utf8_in_identifiers",
                     "96_nodata_wanted", "101_cleanup", "107_stack_safe", "109_float_struct_calling", "110_average", "117_gcc_test"], X87),
    "70_floating_point_literals": LONG_DOUBLE, "111_conversion": LONG_DOUBLE, "99_fastcall": PUSHA,
}


def names_of(top):
    """The names of the programs that are tried."""
    names = [os.path.basename(path)[:-2] for path in sorted(glob.glob(os.path.join(top, BELOW, "[0-9]*.c")))]
    return [name for name in names if name not in NOT_TRIED and os.path.exists(os.path.join(top, BELOW, name + ".expect"))]


def native(place):
    """tcc for 32-bit Linux, and the folder with its sources."""
    top = place.sources(NAME, [], "tcc-native")
    done(["sh", "configure", *CONFIGURED, "--tccdir=" + top], top)
    done(["make", "tcc", "libtcc1.a"], top)
    return os.path.join(top, "tcc"), top


def printed(words, folder):
    """What a program prints, errors in their place, and its status as a shell counts it."""
    try:
        did = subprocess.run(words, cwd=folder, stdin=subprocess.DEVNULL, stdout=subprocess.PIPE, stderr=subprocess.STDOUT, timeout=SECONDS)
    except subprocess.TimeoutExpired:
        return b"", "no end"
    return did.stdout, did.returncode if did.returncode >= 0 else 128 - did.returncode


def words_of(name):
    return [*BEFORE.get(name, []), "-run", name + ".c", *AFTER.get(name, [])]


def is_expected(said, folder, name):
    """Whether a program prints what tcc's authors expect, but for spaces, as their Makefile compares it."""
    did = subprocess.run(["diff", "-Nbu", name + ".expect", "-"], cwd=folder, input=said, stdout=subprocess.DEVNULL)
    return did.returncode == 0


def is_refused(here, there, reason):
    """Whether the last line of a program in the box tells this reason, and what it printed before is what it prints natively."""
    found = re.search(reason, here[0])
    return found is not None and here[1] == 1 and there[0].startswith(here[0][:found.start()])


def compare(place, box, own, folder, name):
    """How a program comes out: `expected` by tcc's authors, the `same` as natively, `refused`, or `differs`; and what it said then."""
    there = printed([own, *words_of(name)], folder)
    here = printed([*place.runs("--dir-rw", "."), box, *words_of(name)], folder)
    if name in REFUSED:
        return "refused" if is_refused(here, there, REFUSED[name]) else "differs", here
    if here != there:
        return "differs", "%s, and not %s" % (here, there)
    return "expected" if is_expected(here[0], folder, name) else "same", here


def built(place, name, change=lambda top: None):
    """tcc for the box, whose sources are changed on the way, below a folder of this name."""
    top = place.sources(NAME, edits_of(NAME).EDITS.values(), name + "-sources")
    shutil.copy(os.path.join(OWN[NAME], "nc_run_code.c"), top)
    change(top)
    return build_tcc(place.tool("nc-cc"), top, place.below(name))[0]


def compare_all(place, box, own, folder, names):
    """How many programs come out in each way. Lines tell of those that differ."""
    counts = dict.fromkeys(("expected", "same", "refused", "differs"), 0)
    for name in names:
        end, said = compare(place, box, own, folder, name)
        counts[end] += 1
        if end == "differs":
            tell(name, False, said)
    return counts


def try_all(place, is_slice):
    """Whether tcc's programs come out as they have to."""
    own, top = native(place)
    box = built(place, "tcc-box")
    place.accepts(box)
    names = names_of(top)[::EVERY if is_slice else 1]
    counts = compare_all(place, box, own, os.path.join(top, BELOW), names)
    said = "%d programs: %s" % (len(names), ", ".join("%d %s" % (count, kind) for kind, count in counts.items()))
    return tell("tests2 by tcc", counts["differs"] == 0 and counts["expected"] > 0, said)


# ---- Mutants of nc_run_code.c: a line that is left out. Some programs have to differ then.

MUTANTS = ["nc_flat_entry(flat", "rels[k].r_offset = to", "memcpy(made + to", "sym->st_value = nc_flat_place", "nc_flat_foreign(flat",
           "memcpy(file->buffer"]
TRIED = ["03_struct", "15_recursion", "42_function_pointer", "54_goto", "60_errors_and_warnings", "90_struct-init"]


def leave_out(text):
    """A change that leaves out the one line with this text."""
    def change(top):
        edit_all(top, [Edit("nc_run_code.c", "instead", text, "if (0) " + text)])
    return change


def try_mutants(place):
    """Whether each mutant is found."""
    own, top = native(place)
    good = []
    for k, line in enumerate(MUTANTS):
        box = built(place, "tcc-mutant-%d" % k, leave_out(line))
        ends = [compare(place, box, own, os.path.join(top, BELOW), name)[0] for name in TRIED]
        good.append(tell("without `%s`" % line, "differs" in ends, "found by %d of %d programs" % (ends.count("differs"), len(ends))))
    return all(good)
