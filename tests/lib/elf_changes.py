"""ELF files for trials of nc_check, byte by byte from the System V ABI, and what has to be said once some of their bytes are others."""

import json
import re
import struct

from elf_files import FORMAT, MACHINE, SEGMENT, SYMBOLS, STRINGS, TABLE, UNLINKED, WIDE, R, W, X, elf, segment
from trials import Trials

TABLE_OF_HEADERS = 6
TYPE = "neither an executable file nor a shared object"
HEADER = "the file ends in its ELF header"
NO_CODE = "no loaded segment is executable and has bytes in the file"
BEYOND_FILE, BEYOND_MEMORY = "reaches beyond the end of the file", "has more bytes in the file than in memory"
WRAPS, OUT_OF_ORDER = "ends above the last address, ffffffff", "overlaps an earlier segment or lies below it"
WRITABLE, UNFILLED = "is both writable and executable", "is executable and has bytes in memory that aren't in the file"

# A file of 256 bytes: the ELF header, four program headers from 52 on (their own table, code at 00010000, data at 00020000, code at
# 00030000), and bytes that are their own places in the file.
CODE_FILE = elf(segment(0, b"", R, kind=TABLE_OF_HEADERS, offset=52, file_len=128, memory_len=128),
                segment(0x10000, b"", R | X, offset=192, file_len=32, memory_len=32),
                segment(0x20000, b"", R | W, offset=184, file_len=8, memory_len=16),
                segment(0x30000, b"", R | X, offset=224, file_len=32, memory_len=32)) + bytes(range(180, 256))

# What is said of the two segments of code, but for the words on faults: the byte after `rol $0xc2, %cl`, and the one after `loopne` and
# `loope`; and of the second one at ffffffe0.
FIRST = ["file (00010000): refused NotPermitted 00010003",
         "    00010000: c0 c1 c2                 rol $0xc2,%cl",
         "  > 00010003: c3",
         "    00010004: c4 c5 c6 c7 c8 c9 ca cb",
         "    0001000c: cc cd ce cf d0 d1 d2 d3",
         "    00010014: d4 d5 d6 d7 d8 d9 da db",
         "    0001001c: dc dd de df"]
SECOND = ["file (00030000): refused NotPermitted 00030004",
          "    00030000: e0 e1                    loopne 0002ffe3",
          "    00030002: e2 e3                    loop 0002ffe7",
          "  > 00030004: e4 e5",
          "    00030006: e6 e7",
          "    00030008: e8 e9 ea eb ec           call eceeeaf6",
          "    0003000d: ed",
          "    0003000e: ee",
          "    0003000f: ef",
          "    00030010: f0 f1",
          "    00030012: f2 f3 f4",
          "    00030015: f5                       cmc",
          "    00030016: f6 f7                    div %bh",
          "    00030018: f8                       clc",
          "    00030019: f9                       stc",
          "    0003001a: fa",
          "    0003001b: fb",
          "    0003001c: fc                       cld",
          "    0003001d: fd                       std",
          "    0003001e: fe ff"]
LAST = ["file (ffffffe0): refused OutOfRange"]

# Where bytes are others, these bytes, and what is said.
ACCEPTED = [
    (0, "", FIRST + SECOND),
    (16, "03", FIRST + SECOND),
    (44, "03", FIRST),
    (52, "00", FIRST + SECOND),
    (84, "00", SECOND),
    (100, "0000000000000000", SECOND),
    (108, "04", SECOND),
    (124, "20000100", FIRST + SECOND),
    (156, "e0ffffff", FIRST + LAST),
]

# Where bytes are others, these bytes, and why the file is refused as a whole.
REFUSED = [
    (4, "02", WIDE),
    (4, "03", FORMAT),
    (5, "02", FORMAT),
    (6, "00", FORMAT),
    (20, "02", FORMAT),
    (18, "3e", MACHINE),
    (18, "0301", MACHINE),
    (16, "01", UNLINKED),
    (16, "00", TYPE),
    (16, "04", TYPE),
    (42, "38", TABLE),
    (44, "07", TABLE),
    (44, "ffff", TABLE),
    (28, "81", TABLE),
    (28, "ffffffff", TABLE),
    (44, "00", NO_CODE),
    (44, "01", NO_CODE),
    # program header 1, from 84 on: type, offset, address, physical address, length in the file, length in memory, flags, alignment
    (88, "e1", SEGMENT % (1, BEYOND_FILE)),
    (88, "ffffffff", SEGMENT % (1, BEYOND_FILE)),
    (104, "1f", SEGMENT % (1, BEYOND_MEMORY)),
    (104, "21", SEGMENT % (1, UNFILLED)),
    (100, "00", SEGMENT % (1, UNFILLED)),
    (108, "07", SEGMENT % (1, WRITABLE)),
    (92, "e1ffffff", SEGMENT % (1, WRAPS)),
    # program headers 2 and 3, from 116 and from 148 on
    (92, "e0ffffff", SEGMENT % (2, OUT_OF_ORDER)),
    (124, "1f000100", SEGMENT % (2, OUT_OF_ORDER)),
    (140, "05", SEGMENT % (2, UNFILLED)),
    (156, "0f000200", SEGMENT % (3, OUT_OF_ORDER)),
    (156, "00800000", SEGMENT % (3, OUT_OF_ORDER)),
    (156, "e1ffffff", SEGMENT % (3, WRAPS)),
]

# Lengths to which the file is cut, and why the rest is refused as a whole.
CUT = [(255, SEGMENT % (3, BEYOND_FILE)), (223, SEGMENT % (1, BEYOND_FILE)), (179, TABLE), (52, TABLE), (51, HEADER), (4, HEADER)]

# Files that aren't ELF files, and so are raw code.
RAW = [b"\x7e" + CODE_FILE[1:], CODE_FILE[:3] + b"f" + CODE_FILE[4:], CODE_FILE[:3], b""]

# Entries of a table of symbols: for each the place of its name, its address, length, type and binding, visibility, and section.
ENTRIES = [
    (0, 0, 0, 0, 0, 0),
    (6, 0x20000, 8, 0x12, 0, 1),
    (1, 0x10002, 0, 0x10, 0, 1),
    # undefined, absolute, data
    (6, 0x10004, 0, 0x12, 0, 0),
    (1, 0x10005, 0, 0x10, 0, 0xFFF1),
    (1, 0x30000, 4, 0x11, 0, 1),
    # an assembler's own label, a mark, a space in the name, no 0 after the name, an empty name
    (11, 0x10006, 0, 0, 0, 1),
    (15, 0x10007, 0, 0, 0, 1),
    (18, 0x10008, 0, 0, 0, 1),
    (22, 0x40000, 0, 0, 0, 1),
    (0, 0x10009, 0, 0, 0, 1),
    # the end of another name, and a name behind the table of strings
    (7, 0x10010, 0, 0x02, 0, 0xFEFF),
    (25, 0x1000A, 0, 0, 0, 1),
]
NAMES = b"\0main\0putc\0.Lx\0$d\0a b\0end"

# A file of 565 bytes: the ELF header, four segments with the same 32 returns, which end at 212, three section headers, the table of
# symbols, and their names.
AREAS = (0x10000, 0x20000, 0x30000, 0x40000)
CODE_END, TABLE_AT, NAMES_AT = 212, 332, 540
SYMBOL_FILE = (
    elf(*[segment(at, b"", R | X, offset=180, file_len=32, memory_len=32) for at in AREAS], shoff=CODE_END, shentsize=40, shnum=3)
    + b"\xc3" * 32 + bytes(40)
    + struct.pack("<10I", 0, SYMBOLS, 0, 0, TABLE_AT, len(ENTRIES) * 16, 2, 1, 4, 16)
    + struct.pack("<10I", 0, STRINGS, 0, 0, NAMES_AT, len(NAMES), 0, 0, 1, 0)
    + b"".join(struct.pack("<IIIBBH", *entry) for entry in ENTRIES) + NAMES)

MAIN, UTC, PUTC = (0x10002, "main"), (0x10010, "utc"), (0x20000, "putc")
ALL = [MAIN, UTC, PUTC]

# Where bytes are others, these bytes, and the symbols that are found then, by ascending address.
SYMBOL_CHANGES = [
    (0, "", ALL),
    # bad section headers
    (46, "29", []),
    (48, "00", []),
    (48, "02", []),
    (48, "09", []),
    (48, "ffff", []),
    (32, "ffffffff", []),
    # no table of symbols; one for a loader; one before it that is malformed
    (256, "03", []),
    (256, "0b", []),
    (216, "02", []),
    # a bad table of symbols, and some whole entries
    (288, "18", []),
    (272, "ea", []),
    (272, "e9", ALL),
    (272, "2f", [PUTC]),
    (272, "00", []),
    (268, "ffffffff", []),
    (276, "00", []),
    (276, "03", []),
    # a bad table of strings, and a short one
    (296, "01", []),
    (312, "1a", []),
    (312, "18", ALL),
    (312, "0b", ALL),
    (312, "0a", [MAIN]),
    # an entry's address, length, type, visibility and section; the later of two at one address
    (352, "00000100", [(0x10000, "putc"), MAIN, UTC]),
    (356, "01020304", ALL),
    (360, "13", [MAIN, UTC]),
    (360, "20", ALL),
    (361, "03", ALL),
    (362, "0000", [MAIN, UTC]),
    (362, "00ff", [MAIN, UTC]),
    (512, "02000100", [MAIN, (0x10002, "utc"), PUTC]),
    # a name's bytes
    (549, "7f", [MAIN]),
    (549, "20", [MAIN]),
    (549, "21", [MAIN, (0x10010, "ut!"), (0x20000, "put!")]),
    (564, "00", ALL + [(0x40000, "en")]),
]

# Two entries whose names have 255 and 256 bytes, each of the same bytes.
LONG_NAME = struct.pack("<IIIBBH", 2, 0x20000, 0, 0x12, 0, 1) + struct.pack("<IIIBBH", 1, 0x10002, 0, 0x10, 0, 1)


def changed(file, at, digits):
    """The file with other bytes in place of its own."""
    new = bytes.fromhex(digits)
    return file[:at] + new + file[at + len(new):]


def named(symbols):
    """The names that the addresses of the code have: each belongs to the last symbol of its segment at or below it."""
    found = []
    for area in AREAS:
        for at in range(area, area + 32):
            nearest = [symbol for symbol in symbols if area <= symbol[0] <= at][-1:]
            found += [(at, name + ("+0x%x" % (at - start) if at > start else "")) for start, name in nearest]
    return found


def try_segments(trials):
    def compare_refused(name, file, reason):
        trials.lay("file", file)
        owed = '{"file":"file","verdict":"refused","fault":"BadElf","meaning":"%s"}\n' % reason
        trials.compare(name, trials.run(["--format", "json", "file"]), (owed, "", 1))

    for at, digits, owed in ACCEPTED:
        trials.lay("file", changed(CODE_FILE, at, digits))
        out, err, status = trials.run(["file"])
        said = [line for line in out.splitlines() if re.match(r"file |  [ >] [0-9a-f]{8}:", line)]
        trials.compare("ELF, %r at %d" % (digits, at), (said, err, status), (owed, "", 1))
    for at, digits, reason in REFUSED:
        compare_refused("ELF, %r at %d" % (digits, at), changed(CODE_FILE, at, digits), reason)
    for length, reason in CUT:
        compare_refused("ELF, cut to %d bytes" % length, CODE_FILE[:length], reason)
    for file in RAW:
        trials.lay("file", file)
        trials.compare("no ELF, %r" % file[:4], json.loads(trials.run(["--format", "json", "file"])[0]).get("address"), "00010000")


def try_symbols(trials):
    long_name = changed(SYMBOL_FILE[:NAMES_AT], TABLE_AT + 16, LONG_NAME.hex()) + b"\0" + b"a" * 256 + b"\0"
    long_name = changed(changed(long_name, 272, "30"), 312, "0201")
    files = [("%r at %d" % (digits, at), changed(SYMBOL_FILE, at, digits), symbols) for at, digits, symbols in SYMBOL_CHANGES]
    for name, file, symbols in files + [("a long name", long_name, [(0x20000, "a" * 255)])]:
        trials.lay("file", file)
        out, err, status = trials.run(["--all", "file"])
        found = [(int(at, 16), symbol) for at, symbol in re.findall(r"^  ([0-9a-f]{8}) <(.*)>$", out, re.M)]
        trials.compare("symbols, " + name, (found, err, status), (named(symbols), "", 1))


def try_cut_names(trials):
    """A file that ends before the end of its names has no symbols, wherever it ends."""
    names = []
    for length in range(CODE_END, len(SYMBOL_FILE)):
        names.append("file of %d" % length)
        trials.lay(names[-1], SYMBOL_FILE[:length])
    out, err, status = trials.run(["--format", "json", *names])
    found = [(verdict["file"], verdict["address"], verdict.get("symbol")) for verdict in map(json.loads, out.splitlines())]
    trials.compare("symbols, cut files", (found, err, status), ([(name, "%08x" % at, None) for name in names for at in AREAS], "", 1))


def try_elf_changes(trials: Trials) -> None:
    try_segments(trials)
    try_symbols(trials)
    try_cut_names(trials)
