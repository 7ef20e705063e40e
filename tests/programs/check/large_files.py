"""Trials of nc_check on large files: what is said of them, worked out from how they are made, and how much memory they take."""

import collections
import itertools
import os
import random
import subprocess
import sys
import tempfile

from elf_files import FUNCTION, RETURN, R, X, elf, segment, with_symbols
from shown import listed
from trials import Trials

MIB = 1 << 20
BASE = 0x10000
NOP, RET = b"\x90", b"\xc3"
OK = "%s: ok, %d bytes, %d instructions\n"
REFUSED = "%s: refused NotPermitted %08x\n"
TOO_LONG = "nc_check: %s: longer than the largest region, 67108864 bytes\n"

# The program is started by another one, since Linux counts what a process had in memory before it executed the program.
START = """import os, resource, subprocess, sys
status = subprocess.call(sys.argv[2:])
os.write(int(sys.argv[1]), b"%d" % resource.getrusage(resource.RUSAGE_CHILDREN).ru_maxrss)
sys.exit(status)"""


def measured(trials, words, stdin=subprocess.DEVNULL):
    """The output of the program, its status, and the most memory that it took, in MiB."""
    with tempfile.TemporaryFile() as taken:
        done = subprocess.run([sys.executable, "-I", "-S", "-c", START, str(taken.fileno()), trials.program] + words, stdin=stdin,
                              capture_output=True, cwd=trials.folder, pass_fds=[taken.fileno()], check=False, timeout=60)
        taken.seek(0)
        return (done.stdout.decode(), done.stderr.decode(), done.returncode), int(taken.read()) / 1024


def first_difference(found, wanted):
    """The first line that differs, as it is and as it should be; none if all are the same."""
    lines = itertools.zip_longest(found.splitlines(True), wanted.splitlines(True))
    return next((pair for pair in lines if pair[0] != pair[1]), None)


def compare_long(trials, name, found, wanted):
    """Compares outputs and statuses, and tells only the first lines that differ."""
    trials.compare(name, (*map(first_difference, found[:2], wanted[:2]), found[2]), (None, None, wanted[2]))


def compare_memory(trials, name, words, wanted, most, stdin=subprocess.DEVNULL):
    """Compares what the program writes, its status, and whether it took at most so many MiB."""
    found, taken = measured(trials, words, stdin)
    compare_long(trials, name, found, wanted)
    trials.compare(name + ", memory", "%d MiB at most" % max(most, taken), "%d MiB at most" % most)


def lay_alike(trials, name, count, content):
    """Files with the same content, which takes the room of one. The answer is their names."""
    names = ["%s %d" % (name, number) for number in range(count)]
    trials.lay(names[0], content)
    for other in names[1:]:
        os.link(os.path.join(trials.folder, names[0]), os.path.join(trials.folder, other))
    return names


def returns(count):
    """A file of bundles with a return each, and all that is said of it after its name."""
    shown = listed(0, "90 = nop", "> c3", "30 x 90 = nop") + "  " + RETURN + "\n"
    for offset in range(3):
        shown = shown.replace("%08x:" % offset, "%%(%d)08x:" % offset)
    texts = []
    for at in range(BASE, BASE + 32 * count, 32):
        heading = "refused" if at == BASE else "  also"
        texts.append("%s NotPermitted %08x\n" % (heading, at + 1) + shown % {str(offset): at + offset for offset in range(3)})
    return (NOP + RET + NOP * 30) * count, ": " + "".join(texts) + "  %d faults: %d NotPermitted\n" % (count, count)


def try_one_large(trials):
    """A file of 60 MiB takes at most twice its size, and an endless one ends."""
    nops = OK % ("nops", 64, 64)
    large = OK % ("large", 60 * MIB, 60 * MIB)
    for name, words, given, wanted, most in [
        ("a large file", ["large"], None, (large, "", 0), 120),
        ("a large file, one worker", ["--workers", "1", "large"], None, (large, "", 0), 120),
        ("a large file as standard input", ["-"], "large", (large.replace("large", "-"), "", 0), 120),
        ("too long", ["too long", "nops"], None, (nops, TOO_LONG % "too long", 2), 140),
        ("too long for memory", ["far too long", "nops"], None, (nops, TOO_LONG % "far too long", 2), 140),
        ("endless", ["/dev/zero", "nops"], None, (nops, TOO_LONG % "/dev/zero", 2), 140),
    ]:
        stdin = open(os.path.join(trials.folder, given), "rb") if given else subprocess.DEVNULL
        compare_memory(trials, name, words, wanted, most, stdin)


def try_several_large(trials):
    """Of files with more than 8 MiB one at a time is in memory, however many workers there are."""
    for count, size, most in [(2, 30 * MIB, 64), (16, 8 * MIB + 32, 24)]:
        names = lay_alike(trials, "%d files" % count, count, NOP * size)
        wanted = "".join(OK % (name, size, size) for name in names)
        for workers in ("1", "16"):
            compare_memory(trials, "%d large files, %s workers" % (count, workers), ["--workers", workers] + names, (wanted, "", 0), most)


def try_long_reports(trials):
    """A report isn't kept whole, and a worker keeps 4 MiB of text: the text of a file here is some nine times as long as the file."""
    content, said = returns(100000)
    trials.lay("many returns", content)
    compare_memory(trials, "a long report", ["--all", "many returns"], ("many returns" + said, "", 1), 20)
    content, said = returns(10000)
    names = lay_alike(trials, "returns", 16, content)
    compare_memory(trials, "long reports, 2 workers", ["--all", "--workers", "2"] + names,
                   ("".join(name + said for name in names), "", 1), 30)


def try_late_fault(trials):
    """A return at the last byte of 20 MiB."""
    trials.lay("late return", NOP * (20 * MIB - 1) + RET)
    last = BASE + 20 * MIB - 1
    said = REFUSED % ("late return", last) + listed(last - 31, "31 x 90 = nop", "> c3") + "  " + RETURN + "\n"
    for words, more, most in [([], "", 40), (["--all"], "  1 fault: 1 NotPermitted\n", 60)]:
        compare_memory(trials, "a late fault %s" % words, words + ["late return"], (said + more, "", 1), most)


# An ELF file's segments of code, by address and length, and how far apart the functions are in each: 20,000 altogether.
SEGMENTS = [(BASE + 128 * number, 64) for number in range(320)] + [(0x100000, 20 * MIB)]
APART, FUNCTIONS = 33 * 32, 20000


def named_fault(at, functions):
    """What is said of a return at this address after the verdict, in a bundle of nops but for that."""
    start = at - at % 32
    function = max(place for place in functions if place <= at)
    rows = ["%d x 90 = nop" % (at - start), "> c3", "%d x 90 = nop" % (start + 31 - at)]
    shown = listed(start, *(row for row in rows if not row.startswith("0 ")))
    return "  %08x <%s+0x%x>\n%s  %s\n" % (at, functions[function].decode(), at - function, shown, RETURN)


def try_large_elf(trials):
    """An ELF file of 20 MiB with 321 segments of code and 20,000 functions, which stand in the table of symbols in no order. The last byte
    of the last segment is a return, and so is a byte of each tenth of the others."""
    places = [at for start, length in SEGMENTS for at in range(start, start + length, APART)][:FUNCTIONS]
    functions = {at: b"f%d" % number for number, at in enumerate(places)}
    faults = {start: start + 3 for start, _ in SEGMENTS[::10]}
    faults[SEGMENTS[-1][0]] = sum(SEGMENTS[-1]) - 1
    segments, said = [], ""
    for start, length in SEGMENTS:
        name, at = "file (%08x)" % start, faults.get(start)
        code = NOP * length if at is None else NOP * (at - start) + RET + NOP * (start + length - at - 1)
        segments.append(segment(start, code, R | X))
        said += OK % (name, length, length) if at is None else REFUSED % (name, at) + named_fault(at, functions)
    table = list(functions.items())
    random.Random(3).shuffle(table)
    trials.lay("file", with_symbols(elf(*segments), *((at, name, FUNCTION, 1) for at, name in table)))
    compare_memory(trials, "a large ELF file", ["file"], (said, "", 1), 62)


def try_many_calls(trials):
    """A chunk of 210,000 bundles, each a call and 27 nops. About half of the calls are of addresses outside, in whatever order and
    number: more than 100,000."""
    chance, count = random.Random(1), 210000
    end = BASE + 32 * count
    outside = [0x20 * n for n in (0, 1, 2, 0x7FF)] + [end + 0x20 * n for n in range(30000)]
    code, called = [], collections.Counter()
    for at in range(BASE, end, 32):
        to = chance.choice((chance.choice(outside), chance.choice(outside[:6]), BASE, end - 32))
        code.append(b"\xe8" + ((to - at - 5) % (1 << 32)).to_bytes(4, "little") + NOP * 27)
        called[to] += 1
    lines = ["  -> %08x: %d transfer%s\n" % (to, called[to], "s"[:called[to] > 1]) for to in sorted(outside) if called[to]]
    assert sum(called[to] for to in outside) > 100000
    trials.lay("many calls", b"".join(code))
    compare_long(trials, "many calls", trials.run(["--calls", "many calls"]),
                 (OK % ("many calls", 32 * count, 28 * count) + "".join(lines), "", 0))


def try_memory(trials: Trials) -> None:
    with open(os.path.join(trials.folder, "too long"), "wb") as file:
        file.truncate(64 * MIB + 1)
    with open(os.path.join(trials.folder, "far too long"), "wb") as file:
        file.truncate(MIB << 23)
    trials.lay("large", NOP * (60 * MIB))
    trials.lay("nops", NOP * 64)
    try_one_large(trials)
    try_several_large(trials)
    try_long_reports(trials)


def try_sizes(trials: Trials) -> None:
    try_late_fault(trials)
    try_large_elf(trials)
    try_many_calls(trials)
