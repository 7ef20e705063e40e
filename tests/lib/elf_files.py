"""ELF files for trials of nc_check, made by hand from the System V ABI, each with what has to be said of it."""

from __future__ import annotations

import struct
from typing import Any, Dict, Tuple

from shown import listed
from trials import Trials

# A program header's fields, and the bytes that it names.
Segment = Tuple[Dict[str, Any], bytes]

NOPS = b"\x90" * 32
RET = b"\xc3" + b"\x90" * 31

LOAD, NOTE = 1, 4
SYMBOLS, STRINGS = 2, 3
UNTYPED, OBJECT, FUNCTION = 0, 1, 2
R, W, X = 4, 2, 1


def segment(address: int, content: bytes, flags: int, kind: int = LOAD, **changed: int) -> Segment:
    """A program header's fields, and the bytes that it names; the offset is filled in later, if it isn't given."""
    fields = {"kind": kind, "offset": None, "address": address, "physical": address, "file_len": len(content),
              "memory_len": len(content), "flags": flags, "align": 1}
    fields.update(changed)
    return fields, content


def elf(*segments: Segment, cut: int | None = None, **changed: Any) -> bytes:
    """An executable file with these segments after its header and its program headers. Fields of the header can be changed."""
    header = {"ident": b"\x7fELF\1\1\1" + bytes(9), "kind": 2, "machine": 3, "version": 1, "entry": 0, "phoff": 52, "shoff": 0, "flags": 0,
              "ehsize": 52, "phentsize": 32, "phnum": len(segments), "shentsize": 0, "shnum": 0, "shstrndx": 0}
    header.update(changed)
    at, headers, contents = 52 + 32 * len(segments), b"", b""
    for fields, content in segments:
        offset = at + len(contents) if fields["offset"] is None else fields["offset"]
        headers += struct.pack("<8I", *{**fields, "offset": offset}.values())
        contents += content
    return (struct.pack("<16sHHIIIIIHHHHHH", *header.values()) + headers + contents)[:cut]


def with_symbols(file: bytes, *symbols: tuple[int, bytes, int, int]) -> bytes:
    """A file without sections, and these symbols in a table of its own: for each its address, name, type and section."""
    entries, names = bytearray(16), bytearray(1)
    for address, name, kind, section in symbols:
        entries += struct.pack("<IIIBBH", len(names), address, 0, kind, 0, section)
        names += name + b"\0"
    at = len(file)
    headers = bytes(40)
    headers += struct.pack("<10I", 0, SYMBOLS, 0, 0, at, len(entries), 2, 1, 4, 16)
    headers += struct.pack("<10I", 0, STRINGS, 0, 0, at + len(entries), len(names), 0, 0, 1, 0)
    file = bytearray(file + entries + names)
    struct.pack_into("<I", file, 32, len(file))
    struct.pack_into("<2H", file, 46, 40, 3)
    return bytes(file + headers)


CODE = segment(0x10000, NOPS, R | X)
DATA = segment(0x4020000, b"data", R | W, memory_len=4096)
OK = "file (00010000): ok, 32 bytes, 32 instructions\n"
AT_FIRST_BYTE = "file (%08x): refused NotPermitted %08x\n"

# files of accepted code, and what is said of them
ACCEPTED = [
    ("code", elf(CODE), OK),
    ("code and data", elf(CODE, DATA), OK),
    ("a segment without bytes", elf(CODE, segment(0x20000, b"", R), DATA), OK),
    ("a shared object", elf(CODE, kind=3), OK),
    ("a note that is executable isn't loaded", elf(CODE, segment(0, RET, R | X, kind=NOTE)), OK),
    ("the bytes at the offset that is given", elf(segment(0x10000, RET, R | X, offset=84 + 32)) + NOPS, OK),
    ("two segments of code", elf(CODE, segment(0x10040, NOPS * 2, R | X)), OK + "file (00010040): ok, 64 bytes, 64 instructions\n"),
]

# files of refused code, and what is said of them with --quiet
REFUSED = [
    ("the second segment of code", elf(CODE, segment(0x10040, RET, R | X)), AT_FIRST_BYTE % (0x10040, 0x10040)),
    ("code after data in the file", elf(segment(0x10000, b"data", R), segment(0x10020, RET, R | X)), AT_FIRST_BYTE % (0x10020, 0x10020)),
    ("part of a bundle", elf(segment(0x10000, NOPS[1:], R | X)), "file (00010000): refused BadLength\n"),
    ("inside a bundle", elf(segment(0x10010, NOPS, R | X)), "file (00010010): refused BadBase\n"),
    ("above each region", elf(segment(0x8048000, NOPS, R | X)), "file (08048000): refused OutOfRange\n"),
]

UNLINKED = "not linked: link it with nc-cc, or with ld -T chunk.ld"
WIDE = "a 64-bit file: compile its source with nc-cc"
MACHINE = "not for the Intel 80386: compile its source with nc-cc"
FORMAT = "not a 32-bit little-endian ELF file of version 1"
TABLE = "the program headers aren't 32 bytes long, are 65535 or more, or aren't all in the file"
SEGMENT = "the segment of program header %d %s"

# Three segments of code with returns, and symbols: one below the first segment, two at one address, of which the later one in the table
# names it, one of data, one without a section, one at the first byte of the second segment, and one between that and the third.
UNNAMED = elf(segment(0x10000, NOPS[3:] + RET[:1] + NOPS[1:] + RET[:1] + NOPS[:2], R | X), segment(0x10060, RET, R | X),
              segment(0x100A0, RET, R | X))
NAMED = with_symbols(UNNAMED, (0x10020, b"late", FUNCTION, 1), (0xFFFF, b"below", FUNCTION, 1), (0x10004, b"early", UNTYPED, 1),
                     (0x10004, b"again", FUNCTION, 1), (0x10010, b"table", OBJECT, 1), (0x10018, b"extern", FUNCTION, 0),
                     (0x10060, b"next", FUNCTION, 1), (0x10080, b"between", FUNCTION, 1))
RETURN = "a return (ret): compile with nc-cc, or pop the address into a register, mask it, and jump through it; see docs/GUIDE.md"
# the faults of that file: for each segment its address, and for each fault its address, the name of that, and its bundle
FAULTS: list[tuple] = [
    (0x10000, [(0x1001D, "again+0x19", listed(0x10000, "29 x 90 = nop", "> c3", "2 x 90 = nop")),
               (0x1003D, "late+0x1d", listed(0x10020, "29 x 90 = nop", "> c3", "2 x 90 = nop"))]),
    (0x10060, [(0x10060, "next", listed(0x10060, "> c3", "31 x 90 = nop"))]),
    (0x100A0, [(0x100A0, None, listed(0x100A0, "> c3", "31 x 90 = nop"))]),
]


def named_text(with_names, with_all):
    """What is said of that file's faults, of all or of each segment's first."""
    text = ""
    for segment_at, faults in FAULTS:
        for at, name, shown in faults if with_all else faults[:1]:
            first = at == faults[0][0]
            text += ("file (%08x): refused NotPermitted %08x\n" % (segment_at, at)) if first else "  also NotPermitted %08x\n" % at
            text += "  %08x <%s>\n" % (at, name) if with_names and name else ""
            text += "%s  %s\n" % (shown, RETURN)
        if with_all:
            text += "  %d fault%s: %d NotPermitted\n" % (len(faults), "" if len(faults) == 1 else "s", len(faults))
    return text


def nops_around(at):
    """The last members about a return at this address, in a bundle that is nops but for that."""
    start = at - at % 32
    code = "".join("c3" if place == at else "90" for place in range(start, start + 32))
    starts = ('{"at":"%08x"%s}' % (place, "" if place == at else ',"name":"nop"') for place in range(start, start + 32))
    return '"bundle":"%s","starts":[%s]' % (code, ",".join(starts))


def named_objects(with_names):
    """The same as objects."""
    text = ""
    for segment_at, ((at, name, *_), *_) in FAULTS:
        symbol = '"symbol":"%s",' % name if with_names and name else ""
        text += ('{"file":"file","address":"%08x","verdict":"refused","fault":"NotPermitted","at":"%08x",%s"meaning":"%s",%s}\n'
                 % (segment_at, at, symbol, RETURN, nops_around(at)))
    return text


# files that are refused as a whole, and what is wrong with them
MALFORMED = [
    ("an object file", elf(kind=1), UNLINKED),
    ("an object file with program headers", elf(CODE, kind=1), UNLINKED),
    ("a core file", elf(CODE, kind=4), "neither an executable file nor a shared object"),
    ("64 bits", elf(CODE, ident=b"\x7fELF\2\1\1" + bytes(9)), WIDE),
    ("an unknown size", elf(CODE, ident=b"\x7fELF\3\1\1" + bytes(9)), FORMAT),
    ("big-endian", elf(CODE, ident=b"\x7fELF\1\2\1" + bytes(9)), FORMAT),
    ("another version", elf(CODE, version=2), FORMAT),
    ("another processor", elf(CODE, machine=62), MACHINE),
    ("only the magic number", elf(cut=4), "the file ends in its ELF header"),
    ("half of a header", elf(cut=51), "the file ends in its ELF header"),
    ("program headers of another length", elf(CODE, phentsize=56), TABLE),
    ("program headers beyond the end", elf(CODE, phnum=3), TABLE),
    ("program headers far beyond the end", elf(CODE, phoff=0xFFFFFFF0), TABLE),
    ("a number of program headers that stands elsewhere", elf(CODE, phnum=0xFFFF), TABLE),
    ("code beyond the end", elf(segment(0x10000, NOPS, R | X, file_len=33, memory_len=33)),
     SEGMENT % (0, "reaches beyond the end of the file")),
    ("an offset beyond the end", elf(CODE, segment(0x20000, b"", R, offset=0xFFFFFFFF, file_len=2, memory_len=2)),
     SEGMENT % (1, "reaches beyond the end of the file")),
    ("fewer bytes in memory", elf(segment(0x10000, NOPS, R | X, memory_len=31)),
     SEGMENT % (0, "has more bytes in the file than in memory")),
    ("more bytes of code in memory", elf(segment(0x10000, NOPS, R | X, memory_len=64)),
     SEGMENT % (0, "is executable and has bytes in memory that aren't in the file")),
    ("addresses that wrap around", elf(CODE, segment(0xFFFFFFF0, NOPS, R)), SEGMENT % (1, "ends above the last address, ffffffff")),
    ("writable code", elf(CODE, segment(0x10020, NOPS, R | W | X)), SEGMENT % (1, "is both writable and executable")),
    ("overlapping segments", elf(CODE, segment(0x1001F, b"x", R)), SEGMENT % (1, "overlaps an earlier segment or lies below it")),
    ("data over the code that memory has", elf(CODE, segment(0x10020, b"", R | W, memory_len=64), segment(0x10040, NOPS, R | X)),
     SEGMENT % (2, "overlaps an earlier segment or lies below it")),
    ("no segment", elf(), "no loaded segment is executable and has bytes in the file"),
    ("no code", elf(DATA), "no loaded segment is executable and has bytes in the file"),
    ("code without bytes", elf(segment(0x10000, b"", R | X)), "no loaded segment is executable and has bytes in the file"),
]


def try_elf_files(trials: Trials) -> None:
    """Each file by itself; then several of them among raw code, in one run and from standard input; and one as raw code."""
    for name, content, said in ACCEPTED:
        trials.lay("file", content)
        trials.compare("ELF, " + name, trials.run(["file"]), (said, "", 0))
    for name, content, said in REFUSED:
        trials.lay("file", content)
        trials.compare("ELF, " + name, trials.run(["--quiet", "file"]), (said, "", 1))
    for name, content, reason in MALFORMED:
        trials.lay("file", content)
        refused = f"file: refused BadElf\n  {reason}\n"
        trials.compare("ELF, " + name, trials.run(["file"]), (refused, "", 1))
        trials.compare("ELF, quiet, " + name, trials.run(["--quiet", "file"]), (refused.splitlines(True)[0], "", 1))
        trials.compare("ELF, object, " + name, trials.run(["--format", "json", "file"]),
                       ('{"file":"file","verdict":"refused","fault":"BadElf","meaning":"%s"}\n' % reason, "", 1))
    brief = "".join(AT_FIRST_BYTE % (segment_at, faults[0][0]) for segment_at, faults in FAULTS)
    for name, content, with_names in [("symbols", NAMED, True), ("no symbols", UNNAMED, False)]:
        trials.lay("file", content)
        trials.compare("ELF, " + name, trials.run(["file"]), (named_text(with_names, False), "", 1))
        trials.compare("ELF, all faults, " + name, trials.run(["--all", "file"]), (named_text(with_names, True), "", 1))
        trials.compare("ELF, calls, " + name, trials.run(["--calls", "file"]), (named_text(with_names, False), "", 1))
        trials.compare("ELF, object, " + name, trials.run(["--format", "json", "file"]), (named_objects(with_names), "", 1))
        trials.compare("ELF, quiet, " + name, trials.run(["--quiet", "file"]), (brief, "", 1))
    trials.lay("file", elf(CODE, segment(0x10040, NOPS * 2, R | X), segment(0x200A0, RET, R | X)))
    trials.compare("ELF, objects of three segments", trials.run(["--format", "json", "file"]), (
        '{"file":"file","address":"00010000","verdict":"ok","bytes":32,"instructions":32}\n'
        '{"file":"file","address":"00010040","verdict":"ok","bytes":64,"instructions":64}\n'
        '{"file":"file","address":"000200a0","verdict":"refused","fault":"NotPermitted","at":"000200a0","meaning":'
        '"a return (ret): compile with nc-cc, or pop the address into a register, mask it, and jump through it; see docs/GUIDE.md",'
        + nops_around(0x200A0) + "}\n", "", 1))
    trials.lay("file", elf(CODE, DATA))
    trials.lay("elsewhere", elf(segment(0x20000, NOPS, R | X), segment(0x10000, NOPS, R | X)))
    trials.lay("other", elf(segment(0x20000, NOPS, R | X)))
    trials.lay("raw", NOPS)
    raw = "raw: ok, 32 bytes, 32 instructions\n"
    trials.compare("ELF files among raw code", trials.run(["raw", "file", "elsewhere", "raw", "other", "file", "raw"]),
                   (raw + OK + "elsewhere: refused BadElf\n  " + SEGMENT % (1, "overlaps an earlier segment or lies below it") + "\n" + raw
                    + OK.replace("file (00010000)", "other (00020000)") + OK + raw, "", 1))
    trials.compare("ELF on standard input", trials.run(["-"], elf(CODE)), (OK.replace("file", "-"), "", 0))
    trials.compare("ELF, another base", trials.run(["--base", "20000", "file", "raw"]), (OK + raw, "", 0))
    trials.compare("ELF as raw code", trials.run(["--raw", "--quiet", "file"]), ("file: refused BadLength\n", "", 1))
