"""Trials of nc_check on instructions that aren't permitted: by the length of each one `--all` knows where the next one begins."""

import re

from scripts_and_reports import lengths
from shown import listed
from trials import Trials

NOP, RETURN, JUMP = b"\x90", b"\xc3", 0xEB


def in_front(code):
    """A bundle that begins with these bytes and ends with a return, with nops between."""
    return code.ljust(31, NOP) + RETURN


def at_end(code):
    """Two bundles that end with these bytes. The first one begins with a jump to each of them but the first."""
    first = 64 - len(code)
    jumps = b"".join(bytes([JUMP, first + 1 + n - 2 * (n + 1)]) for n in range(len(code) - 1))
    return jumps.ljust(first, NOP) + code


def said_of(trials, codes):
    """The lines that are written of each of these codes."""
    names = ["code %d" % number for number in range(len(codes))]
    for name, code in zip(names, codes):
        trials.lay(name, code)
    out, _, _ = trials.run(["--all", "--bundles", "3", *names])
    found = [said.splitlines() for said in re.split(r"^(?=code )", out, flags=re.M)[1:]]
    trials.compare("the number of codes", len(found), len(codes))
    return found


def try_in_front(trials, rows):
    """Behind an instruction of a known length the reading goes on, and finds the return; else it passes over the rest of the bundle."""
    for (code, length), said in zip(rows, said_of(trials, [in_front(code) for code, _ in rows])):
        if length is None:
            wanted = ["  1 fault: 1 NotPermitted"]
        else:
            shown = listed(0x10000, code[:length].hex(" "), "%d x 90 = nop" % (31 - length), "> c3")
            wanted = ["  also NotPermitted 0001001f", *shown.splitlines(), "  2 faults: 2 NotPermitted"]
        others = said[next(n for n, line in enumerate(said) if line.startswith(("  also", "  1 fault"))):]
        trials.compare("after %s" % code.hex(), [line for line in others if not line.startswith("  a return")], wanted)


def try_at_end(trials, rows):
    """A jump into an instruction is bad; where the end of the code cuts one, no length is known, nor what a jump into its bytes hits."""
    fronts = [(code[:count], length) for code, length in rows if length for count in range(1, length + 1)]
    for (front, length), said in zip(fronts, said_of(trials, [at_end(front) for front, _ in fronts])):
        wanted = "  1 fault: 1"
        if len(front) == length > 1:
            wanted = "  %d faults: 1 NotPermitted, %d BadTarget" % (length, length - 1)
        trials.compare("at the end, %s" % front.hex(), re.sub(r"1 (NotPermitted|Crosses)$", "1", said[-1]), wanted)


def try_lengths(trials: Trials) -> None:
    rows = lengths("lengths.txt")
    try_in_front(trials, rows)
    try_at_end(trials, rows)
