"""What a lawful patch is, said a second time and plainly: the chunk and the new bytes are read into two lists of instructions, which are
compared one by one. Nothing here is taken from the library but its decoder.

Live chunks are given as their code by their bases.
"""

from __future__ import annotations

import nc_host as nc
from reading import instructions, is_direct, is_indirect, target


def chunk_at(live: dict[int, bytes], at: int) -> int | None:
    """The base of the live chunk that has an address, or None."""
    return next((base for base, code in live.items() if base <= at < base + len(code)), None)


def judge(live: dict[int, bytes], limit: int, at: int, new: bytes) -> tuple[int, list[nc.ActWords]]:
    """The fault of a patch in a region in which these chunks are live, and the acts that it owes."""
    if not new or at % nc.BUNDLE + len(new) > nc.BUNDLE:
        return nc.PATCH_BAD_SPAN, []
    base = chunk_at(live, at)
    if base is None:
        return nc.PATCH_NOT_LIVE, []
    news = instructions(at, new)
    if news is None:
        return nc.PATCH_NOT_PERMITTED, []
    chunk = instructions(base, live[base])
    olds = [old for old in chunk if old.at >= at][: len(news)]
    fault = refusal(limit, chunk, olds, news)
    return fault, owed(olds, news) if fault == nc.OK else []


def refusal(limit, chunk, olds, news):
    """The fault of new instructions in the place of old ones of a chunk."""
    if [(old.at, len(old.code)) for old in olds] != [(new.at, len(new.code)) for new in news]:
        return nc.PATCH_BOUNDARIES
    if not all(spares(chunk, old, new) for old, new in zip(olds, news)):
        return nc.PATCH_PAIR_TOUCHED
    if not all(goes_well(limit, chunk, new) for new in news):
        return nc.PATCH_BAD_TARGET
    return nc.OK


def is_mask(chunk, at):
    """The mask of a pair stands at an address: an indirect transfer stands directly after it."""
    return any(one.at == at and is_indirect(other.instruction) for one, other in zip(chunk, chunk[1:]))


def change_places(old, new):
    """One is `FF E0+r` and the other `FF D0+r`, for the same register."""
    return len(old) == len(new) == 2 and old[0] == new[0] == 0xFF and old[1] ^ new[1] == 0x30


def spares(chunk, old, new):
    """The mask of a pair keeps its bytes, a second half keeps them or becomes the other transfer on its register, and no other instruction
    becomes an indirect transfer.
    """
    if is_mask(chunk, old.at) and new.code != old.code:
        return False
    if is_indirect(old.instruction):
        return new.code == old.code or change_places(old.code, new.code)
    return not is_indirect(new.instruction)


def goes_well(limit, chunk, new):
    """The instruction is no direct transfer, or its target is one that an instruction of the chunk may have."""
    if not is_direct(new.instruction):
        return True
    goal, last = target(new.at, new.instruction), chunk[-1]
    if chunk[0].at <= goal < last.at + len(last.code):
        return any(old.at == goal and not is_indirect(old.instruction) for old in chunk)
    return goal % nc.BUNDLE == 0 and goal < limit


def owed(olds, news):
    """The acts of a lawful patch. Each instruction whose bytes change owes a stop at its first byte, a serialization, its further bytes, a
    serialization and its first byte; one of a single byte only that byte.
    """
    acts = []
    for old, new in zip(olds, news):
        if new.code == old.code:
            continue
        first, *further = [(nc.PUT, new.at + i, byte) for i, byte in enumerate(new.code)]
        if further:
            acts += [(nc.PUT, new.at, nc.STOP), (nc.SERIALIZE, 0, 0), *further, (nc.SERIALIZE, 0, 0)]
        acts.append(first)
    return acts
