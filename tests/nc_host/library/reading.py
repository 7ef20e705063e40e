"""Code read plainly: one instruction after the other, as the decoder finds them, and the marks that they have."""

from __future__ import annotations

import collections
import functools

import nc_host as nc

NOP = b"\x90"
LONGEST = 12  # bytes of the longest instruction

# An instruction with its address and its bytes.
Placed = collections.namedtuple("Placed", "at code instruction")


def filled(front: str, bundles: int = 1) -> bytes:
    """Code of some bundles that begins with bytes in hexadecimal and is filled with nops."""
    return bytes.fromhex(front).ljust(nc.BUNDLE * bundles, NOP)


def replaced(code: bytes, place: int, new: bytes) -> bytes:
    """The code with new bytes from a place on."""
    return code[:place] + new + code[place + len(new) :]


@functools.lru_cache(maxsize=None)
def decoded(code: bytes) -> nc.Answer:
    """What the decoder says of the front of some bytes. It is asked once for each front."""
    return nc.decode(code)


def is_indirect(instruction: nc.Answer) -> bool:
    return instruction.flow in (nc.FLOW_INDIRECT_JUMP, nc.FLOW_INDIRECT_CALL)


def is_direct(instruction: nc.Answer) -> bool:
    return instruction.flow in (nc.FLOW_BRANCH, nc.FLOW_JUMP, nc.FLOW_CALL)


def target(at: int, instruction: nc.Answer) -> int:
    """Where a direct transfer at an address goes."""
    return (at + instruction.length + instruction.rel) % 2**32


def instructions(base: int, code: bytes) -> list[Placed] | None:
    """The instructions of the code at an address, or None where it isn't whole instructions."""
    found, start = [], 0
    while start < len(code):
        instruction = decoded(code[start : start + LONGEST])
        if instruction.fault != nc.OK:
            return None
        end = start + instruction.length
        found.append(Placed(base + start, code[start:end], instruction))
        start = end
    return found


def marks_of(code: bytes) -> bytes:
    """The marks of a valid chunk, each as a byte."""
    marks = b""
    for _, own, instruction in instructions(0, code):
        mark = nc.MASKED + instruction.reg if is_indirect(instruction) else nc.PLAIN
        marks += bytes([mark]).ljust(len(own), bytes([nc.UNMARKED]))
    return marks
