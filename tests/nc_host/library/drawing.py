"""Chunks and patches drawn at random, by a `random.Random`."""

from __future__ import annotations

import random

import nc_host as nc
from reading import NOP, instructions, replaced

# Instructions of one to seven bytes, and pairs. The displacements of direct transfers are drawn.
PIECES = [bytes.fromhex(piece) for piece in [
    "90", "40", "55", "f4", "eb00", "7400", "e200", "6690", "31c0", "ffe0", "ffd0", "ffe1", "ffd1", "83c001", "83e0e0", "83e1e0", "8b4508",
    "0fb6c0", "66b83412", "8b442404", "b801000000", "e900000000", "e800000000", "83e0e0ffe0", "83e0e0ffd0", "83e1e0ffd1", "0f8400000000",
    "81c001000000", "8b0500000200", "8b042500000200", "c7450801000000", "f0830001",
]]


def displacement_of(piece):
    """The place of a direct transfer's displacement; the end of another piece."""
    if piece[0] in (0xEB, 0x74, 0xE2, 0xE8, 0xE9):
        return 1
    return 2 if piece[:2] == b"\x0f\x84" else len(piece)


def aimed(piece, at, goal):
    """The piece as it stands at an address. A direct transfer goes to the goal, as far as its displacement has room for that."""
    start = displacement_of(piece)
    rel = (goal - at - len(piece)) % 2**32
    return piece[:start] + rel.to_bytes(4, "little")[: len(piece) - start]


def draw_goal(rng, base, length, limit):
    """Where a transfer might go: mostly a place of a span, otherwise a bundle start from below the region to above its limit."""
    if rng.randrange(4):
        return base + rng.randrange(length)
    return rng.randrange(nc.START - nc.BUNDLE, limit + 2 * nc.BUNDLE, nc.BUNDLE)


def draw_bundle(rng, at, base, length, limit):
    """The bundle at an address of a chunk: instructions, and nops at its end."""
    code = b""
    for _ in range(16):
        piece = rng.choice(PIECES)
        if len(code) + len(piece) <= nc.BUNDLE:
            code += aimed(piece, at + len(code), draw_goal(rng, base, length, limit))
    return code.ljust(nc.BUNDLE, NOP)


def corrected(base, limit, code):
    """The code as a valid chunk, with a nop at each place that a fault names."""
    while (verdict := nc.vet(base, limit, code)).fault != nc.OK:
        if not nc.NOT_PERMITTED <= verdict.fault <= nc.BAD_TARGET:
            raise ValueError(verdict)
        code = replaced(code, verdict.at - base, NOP)
    return code


def draw_chunk(rng: random.Random, base: int, limit: int, bundles: int) -> bytes:
    """A valid chunk of some bundles."""
    length = nc.BUNDLE * bundles
    drawn = [draw_bundle(rng, at, base, length, limit) for at in range(base, base + length, nc.BUNDLE)]
    return corrected(base, limit, b"".join(drawn))


def draw_piece(rng, length):
    """A piece of this length, if one comes in twenty draws."""
    pieces = rng.choices(PIECES, k=20)
    return next((piece for piece in pieces if len(piece) == length), pieces[-1])


def draw_run(rng, base, code, limit):
    """A patch of one to three of a chunk's instructions, each as it is or replaced by another piece."""
    chunk = instructions(base, code)
    first = rng.randrange(len(chunk))
    olds = chunk[first : first + 1 + rng.randrange(3)]
    pieces = [draw_piece(rng, len(old.code)) if rng.randrange(4) else old.code for old in olds]
    return olds[0].at, b"".join(aimed(piece, old.at, draw_goal(rng, base, len(code), limit)) for old, piece in zip(olds, pieces))


def spoiled(rng, at, new):
    """The patch, now and then at another address or with other bytes."""
    kind, byte, place = rng.randrange(14), rng.randrange(256), rng.randrange(len(new))
    return {
        0: (at + 1, new),
        1: (at - 1, new),
        2: (at, new[:place]),
        3: (at, new + bytes([byte])),
        4: (at, replaced(new, place, bytes([byte]))),
        5: (nc.START - nc.BUNDLE + 2 * byte, new),
    }.get(kind, (at, new))


def draw_patch(rng: random.Random, live: dict[int, bytes], limit: int) -> tuple[int, bytes]:
    """A patch of one of the live chunks, or of something beside it: its address and its bytes."""
    base = rng.choice(sorted(live))
    return spoiled(rng, *draw_run(rng, base, live[base], limit))
