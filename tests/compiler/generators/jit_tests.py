"""PCRE2's own tests in a box, with its JIT: a part of tests/compiler/generators."""

import glob
import os
import re
import shutil

from editing import Edit, edit_all
from generating import OWN, SLJIT_FLAGS, WIDTHS, Compiler, edits_of, pcre2_flags, pcre2_jit_test, pcre2_library, pcre2_test
from generators import tell
from porting import Fault
from with_musl import ended, run

NAME = "pcre2-jit"
SECONDS = 1800
SELECTED = ["1", "2", "4-26"]
# Of the selected tests, how many there are in each width, and how many of them are done once more with the JIT.
OKS = {8: (20, 9), 16: (19, 9), 32: (19, 9)}
COUNTING = ["-Wl,--wrap=nc_create,--wrap=nc_delete", os.path.join(OWN[NAME], "counts.c")]
COUNTS = re.compile(r"^(\d+) chunks of (\d+) bundles made, (\d+) deleted, (\d+) refused$", re.M)
PASSED = re.compile(r"^All (?:JIT|invalid UTF\d+ JIT) regression tests are successfully passed\.$", re.M)
FAILED = re.compile(r"\((\d+) failed\)")


def own(name):
    return os.path.join(OWN[NAME], name)


def compiler_of(place):
    return Compiler([place.tool("nc-cc"), *SLJIT_FLAGS])


def try_jit_test(place, path, widths):
    """PCRE2's comparison of JIT and interpreter, and the chunks that it makes."""
    place.accepts(path)
    out, errors, status = ended(place.runs(path), place.folder)
    counts = COUNTS.search(errors.decode(errors="replace"))
    made, _, deleted, refused = map(int, counts.groups()) if counts else (0, 0, 0, 0)
    right = status == 0 and len(PASSED.findall(out.decode(errors="replace"))) == 1 + len(widths) and made == deleted > 900 and refused == 0
    return tell("pcre2_jit_test", right, "passed, %s" % counts[0] if right else (status, out[-500:], errors[-500:]))


def try_without(place, path):
    """The same without live code: the JIT refuses each pattern, and nothing crashes."""
    out, errors, status = ended([place.tool("nc-run"), "--memory", "512M", path], place.folder)
    right = status == 1 and b"JIT compiler does not support" in out and b"0 chunks of 0 bundles made" in errors
    return tell("pcre2_jit_test without live code", right, "says that there is no JIT" if right else (status, out[-300:], errors[-300:]))


def try_patches(place, top):
    """sljit alone, whose code is changed while it runs."""
    compiler, folder = compiler_of(place), place.below("patches")
    path = compiler.program(compiler.objects(pcre2_flags(top, [8]), [own("patches.c")], folder), os.path.join(folder, "patches.nc"))
    got = ended(place.runs(path), place.folder)
    return tell("sljit's changes", got == (b"40000 changes: right\n", b"", 0), got[0].decode(errors="replace").strip() or got)


def try_run_test(place, top, path, width):
    """PCRE2's RunTest in a width, over the program at this path."""
    folder = place.below("run-test-%d" % width)
    shutil.copy(path, folder)
    shutil.copy(os.path.join(top, "RunTest"), folder)
    shutil.copytree(os.path.join(top, "testdata"), os.path.join(folder, "testdata"))
    sim = " ".join(place.runs("--dir-rw", "."))
    did = run(["sh", "RunTest", "-%d" % width, "-sim", sim, *SELECTED], folder, timeout=SECONDS)
    said = did.stdout.decode(errors="replace")
    counts = len(re.findall(r"^  OK$", said, re.M)), len(re.findall(r"^  OK with JIT$", said, re.M))
    right = did.returncode == 0 and counts == OKS[width]
    good = "%d tests succeed, and %d more with the JIT" % counts
    return tell("RunTest -%d" % width, right, good if right else (did.returncode, counts, said[-800:]))


def try_all(place, is_slice):
    """Whether PCRE2's tests come out as they have to."""
    compiler, folder, widths = compiler_of(place), place.below("pcre2-box"), WIDTHS[:1] if is_slice else WIDTHS
    top = place.sources(NAME, edits_of(NAME).EDITS.values(), "pcre2")
    library = pcre2_library(compiler, top, folder, widths)
    jit_test = pcre2_jit_test(compiler, top, folder, widths, library, COUNTING)
    good = [try_jit_test(place, jit_test, widths), try_without(place, jit_test), try_patches(place, top)]
    if not is_slice:
        test = pcre2_test(compiler, top, folder, widths, library)
        place.accepts(test)
        good += [try_run_test(place, top, test, width) for width in widths]
    return all(good)


# ---- Mutants: an edit left out or another one, or a line of sljitNcX86_32.c. pcre2_jit_test has to fail, or nc-cc to refuse it.

OWN_FILE = "src/sljit/sljitNcX86_32.c"
MUTANTS = {
    # PCRE2 as it is: 36 cases, and 5 of invalid UTF-8.
    "flags": (None, 41),
    "return": (None, None),
    "fast return": ("\tEMIT_MOV(compiler, SLJIT_R2, 0, src, srcw);\n\treturn nc_transfer(compiler, SLJIT_R2, 0);", None),
    "pop": (None, None),
    "jump": (None, None),
    "features": (None, None),
}
LINES = {
    "nce_call(code, ": "nce_jump(code, NCE_ALWAYS, ",
    "nce_address(code, ": "(void)(",
    "NCE_ALWAYS : (uint32_t)(get_jump_code(type) & 0xf)": "NCE_ALWAYS : (uint32_t)(get_jump_code(type) & 0xe)",
    "sljit_s32 reg = (compiler->options & SLJIT_ENTER_REG_ARG) ? TMP_REG1 : SLJIT_R2;": "sljit_s32 reg = SLJIT_R0;",
}


def mutant(place, name, edits, line):
    """PCRE2's sources with these edits, and one line of ours changed."""
    top = place.sources(NAME, edits, name)
    shutil.copy(own("sljitNcX86_32.c"), os.path.join(top, OWN_FILE))
    edit_all(top, line)
    return top


def find(place, what, top, name, wanted):
    """Whether the bug in these sources is found. Only what has the JIT is compiled again."""
    folder = place.below(name + "-objects")
    good = place.below("pcre2-box")
    try:
        made = compiler_of(place).objects(pcre2_flags(top, [8], 8), [os.path.join(top, "src", "pcre2_jit_compile.c")], folder)
        others = [path for path in glob.glob(os.path.join(good, "8", "*.o")) if not path.endswith("jit_compile.o")]
        test = compiler_of(place).program([os.path.join(good, "pcre2_jit_test.o"), *made, *others], os.path.join(folder, "test"))
    except Fault:
        return tell(what, wanted is None, "nc-cc refuses it")
    out, _, status = ended(place.runs("--time", "60000", test), place.folder)
    failed = sum(map(int, FAILED.findall(out.decode(errors="replace"))))
    return tell(what, status != 0 and wanted in (None, failed), "status %d, %d cases fail" % (status, failed))


def try_mutants(place):
    """Whether each mutant is found."""
    edits = edits_of(NAME).EDITS
    compiler, top, folder = compiler_of(place), place.sources(NAME, edits.values(), "pcre2"), place.below("pcre2-box")
    pcre2_jit_test(compiler, top, folder, WIDTHS[:1], pcre2_library(compiler, top, folder, WIDTHS[:1]))
    found = []
    for name, (lines, wanted) in MUTANTS.items():
        kept = [(key, edit) for key, edit in edits.items() if key.split(" end")[0] != name or lines]
        others = [edit._replace(lines=lines) if key == name else edit for key, edit in kept]
        place_name = "mutant-" + name.replace(" ", "-")
        found.append(find(place, "edit `%s`" % name, mutant(place, place_name, others, []), place_name, wanted))
    for k, (old, new) in enumerate(LINES.items()):
        top = mutant(place, "line-%d" % k, edits.values(), [Edit(OWN_FILE, "instead", old, new)])
        found.append(find(place, "`%s`" % new, top, "line-%d" % k, None))
    return all(found)
