"""The loaded segments of ELF files: those that readelf lists, and the faults of files that are built byte by byte from the System V ABI."""
import os
import re
import shutil
import struct
import subprocess
import sys
import tempfile
import unittest

import nc_host as nc

sys.path.insert(0, os.path.join(os.path.dirname(os.path.abspath(__file__)), "..", "..", "lib"))
import elf_changes  # noqa: E402
import elf_files  # noqa: E402
from elf_files import CODE, NOPS, R, W, X, elf, segment  # noqa: E402

UNTOUCHED = nc.Segment.made([0xFFFFFFFF] * 5)

# What readelf prints of a segment: type, offset, addresses, lengths, flags.
LISTED = re.compile(r"^  LOAD +(0x\w+) (0x\w+) 0x\w+ (0x\w+) (0x\w+) (R| )(W| )(E| ) ", re.M)

# The faults, by the words that tests/lib/elf_files.py and tests/lib/elf_changes.py have for them; those of a segment follow its number.
NAMED = {
    "the file ends in its ELF header": nc.ELF_SHORT_HEADER,
    elf_files.WIDE: nc.ELF_64_BITS,
    elf_files.FORMAT: nc.ELF_OTHER_FORMAT,
    elf_files.MACHINE: nc.ELF_OTHER_MACHINE,
    elf_files.UNLINKED: nc.ELF_UNLINKED,
    elf_changes.TYPE: nc.ELF_OTHER_TYPE,
    elf_files.TABLE: nc.ELF_BAD_TABLE,
    elf_changes.BEYOND_FILE: nc.ELF_BEYOND_FILE,
    elf_changes.BEYOND_MEMORY: nc.ELF_BEYOND_MEMORY,
    elf_changes.WRAPS: nc.ELF_WRAPS,
    elf_changes.OUT_OF_ORDER: nc.ELF_OUT_OF_ORDER,
    elf_changes.WRITABLE: nc.ELF_WRITABLE_CODE,
    elf_changes.UNFILLED: nc.ELF_UNFILLED_CODE,
    elf_changes.NO_CODE: nc.ELF_NO_CODE,
}
OF_SEGMENT = re.compile(r"the segment of program header (\d+) (.*)")

# Linked files: code by itself; with constants, data and memory that isn't in the file; a segment without bytes in memory; a shared object.
LINKED = [
    elf(CODE),
    elf(CODE, segment(0x20000, b"constants", R), segment(0x30000, b"data", R | W, memory_len=4096),
        segment(0x40000, b"", R | W, memory_len=9)),
    elf(segment(0x8000, b"below", R), CODE, segment(0x20000, b"", R), segment(0x30000, NOPS * 3, R | X)),
    elf(CODE, segment(0xFFFFFFF0, b"0123456789abcdef", R), kind=3),
    elf(segment(0, b"a note", R, kind=4), CODE, segment(0x20000, b"x", R | W | 0xF0000000)),
    elf(*[segment(0x10000 + 64 * k, NOPS, R | X) for k in range(300)]),
]
DATA_BY_GCC = "int counts[3]; int first = 7; extern const int last; const int last = 5; int start(void) { return first + counts[1]; }"


def listed(file):
    """The loaded segments with bytes in memory, as readelf reads them."""
    with tempfile.NamedTemporaryFile() as out:
        out.write(file)
        out.flush()
        text = subprocess.run(["readelf", "-lW", out.name], capture_output=True, text=True, check=True).stdout
    found = [[int(word, 16) for word in row[:4]] + [(row[4] == "R") * R | (row[5] == "W") * W | (row[6] == "E") * X]
             for row in LISTED.findall(text)]
    return [(address, offset, length, memory, flags) for offset, address, length, memory, flags in found if memory]


def known(segments):
    """Segments with those flags alone that readelf prints."""
    return [(*row[:4], row.flags & (R | W | X)) for row in segments]


def fault_of(words):
    """The fault of these words, and its program header."""
    found = OF_SEGMENT.fullmatch(words)
    return (NAMED[found.group(2)], int(found.group(1))) if found else (NAMED[words], 0)


def changed(at, digits):
    """The file of tests/lib/elf_changes.py with other bytes from a place on."""
    new = bytes.fromhex(digits)
    return elf_changes.CODE_FILE[:at] + new + elf_changes.CODE_FILE[at + len(new) :]


@unittest.skipUnless(shutil.which("readelf"), "readelf isn't there")
class Linked(unittest.TestCase):
    def compare(self, file):
        """With room for all segments and some more, for exactly all, for all but one, and with none."""
        expected = listed(file)
        count = len(expected)
        for room in (count + 3, count):
            answer, found = nc.segments(file, room)
            self.assertEqual(answer, (count, nc.OK, 0))
            self.assertEqual(known(found[:count]), expected)
            self.assertEqual(found[count:], [UNTOUCHED] * (room - count))
        for room in (count - 1, 0):
            self.assertEqual(nc.segments(file, room), ((count, nc.NO_ROOM, 0), [UNTOUCHED] * room))

    def test_made(self):
        for file in LINKED + [file for _, file, _ in elf_files.ACCEPTED + elf_files.REFUSED]:
            self.compare(file)

    def test_changed(self):
        for at, digits, _ in elf_changes.ACCEPTED:
            with self.subTest(at=at, digits=digits):
                self.compare(changed(at, digits))

    @unittest.skipUnless(shutil.which("gcc"), "gcc isn't there")
    def test_by_a_linker(self):
        with tempfile.TemporaryDirectory() as folder:
            path = os.path.join(folder, "file")
            words = ["gcc", "-m32", "-nostdlib", "-static", "-fno-pic", "-no-pie", "-Wl,-e,start", "-x", "c", "-", "-o", path]
            subprocess.run(words, input=DATA_BY_GCC, text=True, check=True)
            with open(path, "rb") as file:
                self.compare(file.read())


class Refused(unittest.TestCase):
    def refuse(self, file, fault, header):
        for room in (0, 2, 400):
            self.assertEqual(nc.segments(file, room), ((0, fault, header), [UNTOUCHED] * room))

    def test_malformed(self):
        for name, file, words in elf_files.MALFORMED:
            with self.subTest(name):
                self.refuse(file, *fault_of(words))

    def test_changed(self):
        for at, digits, words in elf_changes.REFUSED:
            with self.subTest(at=at, digits=digits):
                self.refuse(changed(at, digits), *fault_of(words))

    def test_no_elf_file(self):
        for file in (b"", b"\x7fEL", b"\x7fELG" + elf(CODE)[4:], NOPS * 4, b"#!/bin/sh\n"):
            with self.subTest(file[:4]):
                self.refuse(file, nc.ELF_NOT_ELF, 0)

    def test_every_length(self):
        """A file that is cut anywhere has a fault, also where its last segment is cut."""
        file = LINKED[2]
        ends = [struct.unpack_from("<4I", file, 52 + 32 * k + 4)[0] + struct.unpack_from("<I", file, 52 + 32 * k + 16)[0] for k in range(4)]
        for length in range(len(file)):
            answer, _ = nc.segments(file[:length], 9)
            if length < 52:
                expected = (nc.ELF_NOT_ELF if length < 4 else nc.ELF_SHORT_HEADER, 0)
            elif length < 52 + 4 * 32:
                expected = (nc.ELF_BAD_TABLE, 0)
            else:
                expected = (nc.ELF_BEYOND_FILE, next(k for k, end in enumerate(ends) if end > length))
            self.assertEqual(answer[1:], expected, length)
