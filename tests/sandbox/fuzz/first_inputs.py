"""The inputs with which the fuzzers begin: files of nc-cc, files made by hand, and lists of calls and acts."""

from __future__ import annotations

import os
import struct

import elf_changes
import elf_files
from repository import TOP
from sandbox_building import NC_CC, SANDBOX, call

# ELF files by nc-cc: each with the words for it. A page of 32 bytes keeps them small.
GUEST = ["-Wl,--defsym=ncs_exit=0x40", "-Wl,--defsym=log_number=0x100", os.path.join(SANDBOX, "tests", "guest.c")]
COMPILED = {
    "replay": ["-e", "replay", os.path.join(TOP, "tests", "sandbox", "fuzz", "replay.c")],
    **{"guest-" + entry: ["-e", entry, *GUEST] for entry in ("start", "add", "count", "each", "logged", "leave", "stop", "touch")},
}
HEAD = bytes(3)
BACK = bytes.fromhex("5983e1e0ffe1")  # pop ecx; and ecx, -32; jmp ecx


def compiled(words: list[str], path: str) -> str:
    """An ELF file by nc-cc, with a stack of 1 MiB."""
    call([NC_CC, "-O2", "--data", "00110000", "-Wl,-z,max-page-size=32", *words, "-o", path])
    return path


def bundle(code, at_end=b""):
    return code + b"\x90" * (32 - len(code) - len(at_end)) + at_end


# ---- For `elf`, `check` and `module`: files, and code behind its head


def pushed(*numbers):
    return b"".join(b"\x68" + struct.pack("<I", number) for number in reversed(numbers))


def calling(place, *numbers):
    """A bundle that calls a trampoline with numbers, the first of the code, and one that returns."""
    return bundle(pushed(*numbers), b"\xe8" + struct.pack("<i", place - 0x10020)) + bundle(b"\x83\xc4" + bytes([4 * len(numbers)]) + BACK)


def with_stack(at, place):
    """The same without numbers, after the stack pointer was set."""
    return bundle(b"\xbc" + struct.pack("<I", at), b"\xe8" + struct.pack("<i", place - 0x10020)) + bundle(BACK)


CODE = {
    "return": bundle(BACK),
    "stop": bundle(b"\xf4"),
    "divide": bundle(bytes.fromhex("31c9f7f1")),
    "fill": bundle(bytes.fromhex("bf0000020083c9fff3aa")),
    "fill-down": bundle(bytes.fromhex("bf0000020083c9fffdf3aa")),
    "load-0": bundle(b"\xa1" + bytes(4)),
    "store-end": bundle(b"\xa3" + struct.pack("<I", 0x120000)),
    "jump-end": bundle(bytes.fromhex("b80000020083e0e0ffe0")),
    "jump-to-mask": bundle(bytes.fromhex("eb0083e0e0ffe0")),
    "jump-into-pair": bundle(bytes.fromhex("eb0383e0e0ffe0")),
    "jump-into-instruction": bundle(bytes.fromhex("eb01b800000000")),
    "call-within": bundle(b"", b"\xe8" + struct.pack("<i", 0x20)) + bundle(BACK) + bundle(bytes.fromhex("b807000000") + BACK),
    "exit": calling(0x40, 7),
    "zone": calling(0x60, 7),
    "none": calling(0x120, 7),
    "call-back": calling(0x100, 0x20000, 16, 0, 0),
    "call-back-nested": calling(0x100, 0x20000, 16, 0x10000, 0),
    "call-back-denied": calling(0x100, 0x20000, 16, 0, 1),
    "call-back-killed": calling(0x100, 0x20000, 16, 0x10000, 2),
    "call-back-takes": calling(0x100, 0x20000, 0xFFF0, 0, 3),
    "call-back-end": calling(0x100, 0x11FFF0, 16, 0, 0),
    "call-back-beyond": calling(0x100, 0x11FFF0, 17, 0, 3),
    "call-back-below": calling(0x100, 0xFFFF, 2, 0, 3),
    "call-back-wraps": calling(0x100, 0x10000, 0xFFFFFFFF, 0, 3),
    "stack-at-end": with_stack(0x120000, 0x100),
    "stack-above": with_stack(0x120010, 0x100),
    "stack-below": with_stack(0x10010, 0x100),
    "stack-at-0": with_stack(0, 0x100),
    "return-to-nowhere": bundle(bytes.fromhex("b80001000083e0e0") + b"\x68" + struct.pack("<I", 0x40000000) + b"\xff\xe0"),
}


def files(folder):
    """ELF files, and code behind its head."""
    for rows in (elf_files.ACCEPTED, elf_files.REFUSED, elf_files.MALFORMED):
        for name, content, _ in rows:
            yield name, content
    yield from [("named", elf_files.NAMED), ("many symbols", elf_changes.SYMBOL_FILE), ("many headers", elf_changes.CODE_FILE)]
    for name, words in COMPILED.items():
        with open(compiled(words, os.path.join(folder, "compiled.elf")), "rb") as file:
            yield name, file.read()
    os.remove(os.path.join(folder, "compiled.elf"))
    for name, code in CODE.items():
        yield "code " + name, HEAD + code


# ---- For `calls`: bytes as read_call of calls.c reads them. An argument is a byte that says which number it is.

READ, WRITE, CLOCK, MEMORY, OPEN, CLOSE, SEEK, SIZE, EXIT, LAY = range(10)
STATUS, LIST, LINK, ENTER, WHERE, MAKE, REMOVE, RENAME, CUT, CHANGE, COPY, TERMINAL, SLEEP, RANDOM = range(LAY + 4, LAY + 18)
PIPE, FLUSH, POLL, ANYWHERE = range(LAY + 18, LAY + 22)
NAMES = ["file", "sub", "inner", "made", "..", ".", "", "up", "out", "above", "beyond", "loop", "self", "root", "pipe", "secret", "dir",
         "d", "fd", "mem", "cwd"]
PARTS = {name: number for number, name in enumerate(NAMES)}
WAYS = ["read", "write", "both", "write create", "both create", "new", "empty", "append", "create", "empty only", "wrong", "large",
        "folder", "no link", "folder write", "no link create"]
HOWS = {name: 5 << 5 | number for number, name in enumerate(WAYS)}
READ_ONLY, WRITABLE, OF_KERNEL = b"\0", b"\1", b"\2"


def a_call(number, *arguments, extra=0):
    return bytes([number, *arguments, *[0] * (4 - len(arguments))]) + struct.pack("<I", extra)[:3]


def a_path(slot, *parts, above=False):
    """Lays a path, of which `above` says whether it begins with the place of the folder above."""
    count = next(count for count in range(0xF0 if above else 0, 0x100) if count % 7 == len(parts))
    return bytes([LAY + slot, count, *[PARTS[part] for part in parts], *[0] * (6 - len(parts))])


def path(slot):
    return 1 << 5 | slot


def buffer(number):
    return 2 << 5 | number


def edge(number):
    return 3 << 5 | number


LONG_PATH, LAST_BYTE = path(7), 4 << 5 | 1
END, MANY, ALL, LOW, FIRST = edge(12), edge(15), edge(11), edge(6), edge(7)


def an_open(slot, how, mode=0o644):
    return a_call(OPEN, path(slot), HOWS[how], 6 << 5, extra=mode)


def opens(how, *paths):
    """Opens files one after the other."""
    return [a_path(0, *parts) + an_open(0, how) for parts in paths]


OUT = [["out"], ["..", "secret"], ["above", "secret"], ["root", "secret"], ["beyond"], ["sub", "..", "..", "made"]]
KINDS = [["pipe"], ["sub"], ["loop"], [""], ["."], ["sub", "up"], ["self"]]


def on_each(number, slots, *arguments, extra=0):
    """A call on several paths that are laid, one after the other."""
    return b"".join(a_path(0, *parts) + a_call(number, path(0), *arguments, extra=extra) for parts in slots)


EVERY = [["file"], ["sub"], ["made"], *OUT, *KINDS]
MODE = 6 << 5
CALLS = {
    "reads": [WRITABLE, a_path(0, "file"), an_open(0, "read"), a_call(SIZE, 3), a_call(READ, 3, buffer(0), 16),
              a_call(READ, 3, buffer(1), MANY), a_call(SEEK, 3), a_call(READ, 3, LAST_BYTE, 1), a_call(CLOSE, 3),
              a_call(READ, 3, buffer(0), 1)],
    "writes": [WRITABLE, a_path(0, "made"), an_open(0, "both create"), a_call(WRITE, 3, buffer(0), 16), a_call(SEEK, 3),
               a_call(READ, 3, buffer(4), 16), a_call(SIZE, 3), a_path(1, "sub", "inner"), an_open(1, "append"),
               a_call(WRITE, 4, buffer(0), MANY), a_call(CLOSE, 4), an_open(0, "new", 0o777)],
    "read only": [READ_ONLY, a_path(0, "made"), a_path(1, "file"), *[an_open(slot, how) for slot in (0, 1) for how in WAYS]],
    "every way": [WRITABLE, a_path(0, "made"), a_path(1, "file"), *[an_open(slot, how, 0o7777) for slot in (0, 1) for how in WAYS]],
    "ways out": [WRITABLE, *opens("read", *OUT), *opens("both create", *OUT)],
    "absolute": [WRITABLE, a_path(0, "secret", above=True), an_open(0, "read")],
    "kinds": [WRITABLE, *opens("read", *KINDS)],
    "ranges": [WRITABLE, a_path(0, "file"), an_open(0, "both"),
               *[a_call(number, 3, at, length)
                 for number in (READ, WRITE) for at in (0, LOW, FIRST, LAST_BYTE, END, ALL) for length in (0, 1, 2, ALL)]],
    "numbers": [WRITABLE, *[a_call(number, which, buffer(0), 1)
                            for number in (READ, SIZE, CLOSE) for which in (3, 9, edge(4), edge(5), edge(8), edge(9), ALL)]],
    "standard": [WRITABLE, a_path(0, "file"), *[a_call(CLOSE, number) + an_open(0, "both") for number in range(3)],
                 a_call(WRITE, 1, buffer(0), 4), a_call(CLOSE, 0), a_call(CLOSE, 0)],
    "many files": [WRITABLE, a_path(0, "file"), an_open(0, "read") * 63],
    "paths": [WRITABLE, *[a_call(OPEN, at) for at in (LONG_PATH, 0, ALL, LAST_BYTE, END)]],
    "others": [WRITABLE, *[a_call(CLOCK, clock) for clock in (0, 1, 2, 3, ALL)], a_call(MEMORY), a_call(EXIT, 7)],
    "the kernel's": [OF_KERNEL, *opens("read", ["mem"], ["fd", "."], ["cwd", "mem"], ["file"]), *opens("both", ["mem"], ["root", "file"])],
    "a limit": [WRITABLE, a_path(0, "made"), an_open(0, "both create"), a_call(WRITE, 3, buffer(0), MANY) * 40],
    "a limit, with seeks": [WRITABLE, a_path(0, "made"), an_open(0, "both create"),
                            (a_call(WRITE, 3, buffer(0), MANY) + a_call(SEEK, 3)) * 20, a_call(WRITE, 3, FIRST, ALL)],
    "a limit, with folders": [WRITABLE, a_path(0, "made"), an_open(0, "both create"), a_path(1, "d"), a_call(MAKE, path(1), MODE),
                              a_call(WRITE, 3, buffer(0), MANY) * 40],
    "asks": [WRITABLE, on_each(STATUS, EVERY, 0, 0, buffer(0)), on_each(STATUS, EVERY, 0, HOWS["no link"], buffer(0))],
    "links": [WRITABLE, on_each(LINK, EVERY, buffer(0), MANY)],
    "enters": [WRITABLE, on_each(ENTER, EVERY), a_call(WHERE, ALL, buffer(0), MANY)],
    "names": [WRITABLE, a_path(0, "sub"), an_open(0, "folder"), a_call(LIST, 3, buffer(0), MANY), a_call(LIST, 3, buffer(0), MANY),
              a_call(SEEK, 3), a_call(LIST, 3, buffer(0), 16), a_call(WHERE, 3, buffer(0), MANY), a_call(READ, 3, buffer(0), 16)],
    "makes": [WRITABLE, on_each(MAKE, EVERY, MODE, extra=0o7777)],
    "changes": [WRITABLE, on_each(CHANGE, EVERY, 0, MODE, buffer(0), extra=0o7777)],
    "renames": [WRITABLE, a_path(1, "made"), on_each(RENAME, EVERY, path(1))],
    "removes": [WRITABLE, on_each(REMOVE, EVERY, 0), on_each(REMOVE, EVERY, 1)],
    "changes, read only": [READ_ONLY, on_each(MAKE, EVERY[:4], MODE), on_each(CHANGE, EVERY[:4], 0, MODE), a_path(1, "made"),
                           on_each(RENAME, EVERY[:4], path(1)), on_each(REMOVE, EVERY[:4], 0), on_each(REMOVE, EVERY[:4], 1)],
    "the kernel's names": [OF_KERNEL, on_each(STATUS, [["mem"], ["."]], 0, 0, buffer(0)), on_each(ENTER, [["fd"], ["."]]),
                           on_each(LINK, [["cwd"]], buffer(0), MANY), on_each(MAKE, [["made"]], MODE), on_each(REMOVE, [["mem"]], 0)],
    "in and out": [WRITABLE, (a_path(0, "sub") + a_call(ENTER, path(0)) + a_path(0, "..", "..", "made") + a_call(MAKE, path(0), MODE)
                              + a_path(1, "..", "inner") + a_call(RENAME, path(0), path(1)) + a_call(REMOVE, path(1), 1)) * 4],
    "a place that changes": [WRITABLE, a_path(0, "made"), an_open(0, "both create"), a_call(CUT, 3, 16), a_call(CUT, 3, FIRST),
                             a_call(WRITE, 3, buffer(0), 16), a_call(CUT, 3, ALL, ALL), a_call(CUT, 3, 1), a_call(WRITE, 3, buffer(0), 16)],
    "a limit, with cuts": [WRITABLE, a_path(0, "made"), an_open(0, "both create"), (a_call(CUT, 3, FIRST) + a_call(CUT, 3)) * 3],
    "copies": [WRITABLE, a_path(0, "made"), an_open(0, "both create"), a_call(COPY, 3, 9), a_call(COPY, 9, 1, 1), a_call(SEEK, 1),
               a_call(WRITE, 9, buffer(0), MANY), a_call(COPY, 9, 9, 1), a_call(COPY, 0, 3, 1), a_call(CLOSE, 9), a_call(CLOSE, 1),
               a_call(COPY, 0, edge(4)), a_call(COPY, 0, edge(5)), a_call(COPY, 0, ALL, 1), a_call(CLOSE, 0)],
    "pipes": [READ_ONLY, a_call(PIPE, buffer(0)), a_call(WRITE, 4, buffer(0), 16), a_call(READ, 3, buffer(1), 8),
              a_call(READ, 3, buffer(1), 9) * 2, a_call(READ, 4, buffer(1), 9), a_call(WRITE, 3, buffer(1), 9),
              a_call(WRITE, 4, buffer(0), 16), a_call(COPY, 4, 9), a_call(CLOSE, 4), a_call(STATUS, 0, 9, 0, buffer(8)), a_call(CLOSE, 9),
              a_call(READ, 3, buffer(1), MANY), a_call(READ, 3, buffer(1), 9), a_call(PIPE, buffer(0)), a_call(CLOSE, 4),
              a_call(WRITE, 5, buffer(0), 1)],
    "full pipes": [WRITABLE, a_call(PIPE, buffer(0)), a_call(WRITE, 4, FIRST, ALL), a_call(WRITE, 4, FIRST, FIRST) * 3,
                   a_call(READ, 3, buffer(0), MANY), a_call(WRITE, 4, buffer(0), 5), a_call(WRITE, 4, buffer(0), MANY)],
    "only pipes": [WRITABLE, *[a_call(CLOSE, number) for number in range(3)], a_call(PIPE, buffer(0)) * 33],
    "many pipes": [WRITABLE, a_call(PIPE, buffer(0)) * 32, a_call(CLOSE, 9), a_call(PIPE, buffer(0)),
                   *[a_call(PIPE, at) for at in (0, LOW, FIRST, LAST_BYTE, END, ALL)]],
    "waits": [WRITABLE, a_path(0, "file"), an_open(0, "read"), a_call(PIPE, buffer(0)), a_call(POLL, buffer(0), 1),
              a_call(WRITE, 5, buffer(0), 4), a_call(POLL, buffer(0), 3), a_call(READ, 4, buffer(0), 8), a_call(POLL, buffer(0), 9),
              a_call(CLOSE, 4), a_call(POLL, buffer(0), 9), a_call(READ, 3, buffer(1), 4), a_call(POLL, buffer(0), edge(5)),
              a_call(RANDOM, buffer(0), 24), a_call(POLL, buffer(0), 3), a_call(POLL, buffer(0), MODE, extra=65),
              *[a_call(POLL, at, count) for at in (0, LOW, FIRST, LAST_BYTE, END, ALL) for count in (0, 1, edge(5), 10, ALL)]],
    "flushes": [WRITABLE, a_path(0, "made"), an_open(0, "both create"), a_call(PIPE, buffer(0)),
                *[a_call(FLUSH, number) for number in (0, 2, 3, 4, 5, 6, edge(5), ALL)]],
    "things": [WRITABLE, *[a_call(TERMINAL, number) for number in (0, 1, 2, 3, ALL)], a_call(SLEEP, 9), a_call(SLEEP, 0, ALL),
               *[a_call(RANDOM, at, length) for at in (0, LOW, FIRST, LAST_BYTE, END, buffer(0)) for length in (0, 1, 2, ALL)]],
    "anywhere": [WRITABLE, a_call(ANYWHERE, extra=0x10000)],
}

# ---- For `live`: acts of four bytes, as live.c reads them: what, a bundle, and a number

ACTS = ["create", "create again", "raw", "bad", "odd", "patch", "patch badly", "delete", "delete oddly", "reclaim", "call", "call again",
        "call raw", "kill", "reset", "enter", "leave", "return", "deny"]
NUMBER, CALLS_BACK, WAITS, LOADS, BEYOND, JUMPS = range(6)


def act(what, at=0, number=0):
    return bytes([ACTS.index(what), at]) + struct.pack("<H", number)


def create(at, kind, number=0):
    """The number is that of the chunk, and decides how many bundles the chunk has. With three more bits it decides the kind."""
    return act("create", at, next(drawn for drawn in range(number << 3, (number << 3) + 8) if drawn % 6 == kind))


def bad(number):
    return [act("bad", 20, number), act("patch badly", 8, number), act("patch badly", 21, number), act("odd", 20, number),
            act("delete oddly", 8, number)]


LIVE = {
    "lives": [create(0, NUMBER, 1), act("call"), act("call", 1), act("patch", 0, 9), act("call"), act("delete"), act("call"), act("reset"),
              act("reclaim"), create(0, NUMBER, 4), act("call")],
    "kinds": [create(4 * kind, kind, 4) + act("call", 4 * kind) + act("reset") for kind in range(6) if kind != WAITS],
    "refusals": [create(8, NUMBER, 4), *[each for number in range(7) for each in bad(number)], create(8, NUMBER), create(126, NUMBER, 3),
                 act("delete", 9)],
    "call-backs": [create(0, CALLS_BACK), act("call"), create(4, NUMBER, 4), act("call", 4), act("return"), act("call"), act("delete"),
                   act("return")],
    "replaced": [create(0, CALLS_BACK), act("call"), act("delete"), act("reclaim"), create(1, NUMBER, 4), act("return"), act("call", 1)],
    "nested": [create(0, CALLS_BACK), act("call") * 10, act("return") * 3, act("kill"), act("return")],
    "denied": [create(0, CALLS_BACK), act("call"), act("call"), act("deny"), act("return"), act("reset"), act("call"), act("kill"),
               act("return"), act("reset")],
    "dead": [create(0, CALLS_BACK), act("call"), act("call", 9), act("call"), act("reset"), act("return"), act("call"), act("reset"),
             act("call")],
    "killed": [create(0, NUMBER, 4), act("kill"), act("call"), act("call"), act("reset"), act("call"), act("kill"), act("reset"),
               act("call")],
    "held": [create(0, WAITS), create(4, NUMBER, 4), create(8, NUMBER, 4), act("delete", 4), act("enter"), act("delete", 8), act("reclaim"),
             create(8, NUMBER, 4), create(4, NUMBER, 4), act("leave"), act("reclaim"), act("enter"), act("delete"), act("reclaim")],
    "held in a call-back": [create(0, WAITS), create(4, CALLS_BACK), create(8, NUMBER), act("enter"), act("call", 4), act("delete", 8),
                            act("reclaim"), act("leave"), act("reclaim"), act("return")],
    "raw": [act("raw", 0, 1), bundle(BACK), bundle(b"\xf4"), act("call raw"), act("call raw", 1), act("delete"), act("raw", 3, 0),
            bundle(b"\xc3"), act("call raw", 128)],
}


def write(folder, made):
    os.makedirs(folder, exist_ok=True)
    for name, content in made:
        with open(os.path.join(folder, name.replace(" ", "-")), "wb") as file:
            file.write(content)


def write_all(folder: str) -> None:
    """Writes the inputs for each target, in a folder of its name."""
    os.makedirs(folder, exist_ok=True)
    made = list(files(folder))
    for target in ("elf", "check", "module"):
        write(os.path.join(folder, target), made)
    for target, lists in (("calls", CALLS), ("live", LIVE)):
        write(os.path.join(folder, target), [(name, b"".join(pieces)) for name, pieces in lists.items()])
