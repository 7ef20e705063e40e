"""The note by which an object shows that its code came through the rewriter, and which objects of a link lack it."""

from __future__ import annotations

import re
import struct

SECTION = ".note.nc-bundle"
# The kinds of notes: the text has nops of its own, or all nops of one byte are padding.
OWN_NOPS, ONLY_PADDING = 1, 2
# A note as the System V ABI has it: the lengths of its name and of what it describes, its kind, and its name.
NOTE = "\t.section " + SECTION + ", \"\", @note\n\t.long 10, 0, {}\n\t.asciz \"nc-bundle\"\n\t.p2align 2\n"
LENGTH = 24  # of a note in bytes

# A section of an object in ld's map: its name, which may be on a line of its own, its address, its length and the object.
PART = re.compile(r"^ ([^\s*]\S*)\s+0x[0-9a-f]+\s+0x([0-9a-f]+) (\S.*)", re.M)


def noted(text: str, kind: int = OWN_NOPS) -> str:
    """Assembly text with the note."""
    return text if SECTION in text else text + NOTE.format(kind)


def kinds(notes: bytes) -> list[int]:
    """The kinds of a section's notes."""
    return [struct.unpack_from("<I", notes, at + 8)[0] for at in range(0, len(notes) - LENGTH + 1, LENGTH)]


def without_note(link_map: str) -> list[str]:
    """The objects in ld's map that have code in the chunk and no note."""
    chunk = re.search(r"^\.text\b.*?\n\n", link_map, re.M | re.S)
    having = {name for section, _, name in PART.findall(link_map) if section == SECTION}
    code = [name for _, length, name in PART.findall(chunk.group() if chunk else "") if int(length, 16)]
    return [name for name in dict.fromkeys(code) if name not in having]
