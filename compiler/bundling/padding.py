"""Long nops in the place of the assembler's padding, which is one byte each.

A processor executes nine bytes of padding as one instruction.
"""

from __future__ import annotations

import re
import struct
from collections.abc import Iterator

from driving.faults import Fault
from driving.tools import run

from .notes import ONLY_PADDING, SECTION, kinds

BUNDLE, LONGEST = 32, 9
# The nops that are permitted, by their lengths.
NOPS = [bytes.fromhex(digits) for digits in ("", "90", "6690", "0f1f00", "0f1f4000", "0f1f440000", "660f1f440000", "0f1f8000000000",
                                             "0f1f840000000000", "660f1f840000000000")]
HEADING = re.compile(r"^Disassembly of section (.*):$")
NOP = re.compile(r"^ *([0-9a-f]+):\tnop *$")
CODE = 4  # a section's flag


def sections_of(content: bytearray) -> Iterator[tuple[str, int, int, int]]:
    """The name, the flags, the place and the length of each section of a 32-bit ELF file, in order."""
    at, size, count, names = struct.unpack_from("<I", content, 32)[0], *struct.unpack_from("<3H", content, 46)
    headers = [struct.unpack_from("<10I", content, at + size * number) for number in range(count)]
    strings = headers[names][4] if headers else 0
    for name, _, flags, _, place, length, *_ in headers:
        begin = strings + name
        yield content[begin:content.index(b"\0", begin)].decode("latin-1"), flags, place, length


def section_names(path: str) -> set[str]:
    """The names of the sections of a 32-bit ELF file; none where it is none."""
    try:
        with open(path, "rb") as file:
            return {name for name, *_ in sections_of(bytearray(file.read()))}
    except (ValueError, IndexError, struct.error):
        return set()


def nops_in(path: str) -> list[tuple[str, list[int]]]:
    """The name of each section of code, and the places of its nops of one byte."""
    status, said = run(["objdump", "-dwz", "--no-show-raw-insn", path], caught=(1,))
    if status:
        raise ValueError(f"objdump ended with status {status}")
    found: list[tuple[str, list[int]]] = []
    for line in said.split("\n"):
        nop = NOP.match(line)
        heading = HEADING.match(line)
        if nop:
            found[-1][1].append(int(nop.group(1), 16))
        elif heading:
            found.append((heading.group(1), []))
    return found


def runs_of(places: list[int]) -> Iterator[tuple[int, int]]:
    """The first place and the length of each row of nops in one bundle."""
    begin = length = 0
    for place in places:
        if length and place == begin + length and place % BUNDLE:
            length += 1
            continue
        if length:
            yield begin, length
        begin, length = place, 1
    if length:
        yield begin, length


def padding(length: int) -> bytes:
    """As few nops as there can be, of about one length each."""
    number = -(-length // LONGEST)
    return b"".join(NOPS[length * (each + 1) // number - length * each // number] for each in range(number))


def lengthen(path: str) -> str:
    """Replaces the padding of an object. Why it stays as it is, or nothing."""
    try:
        replace(path)
    except (OSError, ValueError, IndexError, struct.error, Fault) as fault:
        return str(fault)
    return ""


def replace(path: str) -> None:
    """The same, if all nops of one byte in the object are padding, which its note says."""
    with open(path, "rb") as file:
        content = bytearray(file.read())
    sections = list(sections_of(content))
    notes = [bytes(content[place:place + length]) for name, _, place, length in sections if name == SECTION]
    if not notes or any(kind != ONLY_PADDING for note in notes for kind in kinds(note)):
        return
    # objdump names the sections of code that aren't empty, in their order.
    code, found = [(name, place) for name, flags, place, length in sections if flags & CODE and length], nops_in(path)
    if [name for name, _ in code] != [name for name, _ in found]:
        raise ValueError("objdump names other sections of code")
    for (_, place), (_, nops) in zip(code, found):
        for begin, length in runs_of(nops):
            content[place + begin:place + begin + length] = padding(length)
    with open(path, "wb") as file:
        file.write(content)
