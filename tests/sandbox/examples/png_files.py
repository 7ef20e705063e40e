"""PNG files that are made and decoded here, by zlib and struct alone: pictures with three bytes for each pixel of their PPM files."""

from __future__ import annotations

import struct
import zlib
from collections.abc import Iterable
from typing import NamedTuple

SIGNATURE = b"\x89PNG\r\n\x1a\n"
GRAY, RGB, PALETTE = 0, 2, 3
FILTERS = 5


class Header(NamedTuple):
    """The chunk IHDR."""

    width: int
    height: int
    depth: int
    color: int
    compression: int = 0
    filtering: int = 0
    interlace: int = 0

    def bits(self) -> int:
        """Of a pixel."""
        return self.depth * (3 if self.color == RGB else 1)

    def row(self) -> int:
        """Bytes of a row, without the filter's."""
        return (self.width * self.bits() + 7) // 8

    def is_known(self) -> bool:
        """Whether this decoder knows such pictures."""
        depths = {GRAY: (1, 2, 4, 8), RGB: (8,), PALETTE: (1, 2, 4, 8)}.get(self.color, ())
        return 0 < self.width < 4096 and 0 < self.height < 4096 and self.depth in depths and self[4:] == (0, 0, 0)


def chunk(kind, data):
    return struct.pack(">I", len(data)) + kind + data + struct.pack(">I", zlib.crc32(kind + data))


def assemble(chunks):
    return SIGNATURE + b"".join(chunk(kind, data) for kind, data in chunks)


def guess(kind, left, above, corner):
    """What a filter expects of a byte, by the bytes left, above and left of that."""
    if kind < 4:
        return (0, left, above, (left + above) // 2)[kind]
    near = left + above - corner
    return min((left, above, corner), key=lambda byte: abs(near - byte))


def filtered(header, rows):
    """The rows with the filters in turn."""
    made, step, above = bytearray(), max(1, header.bits() // 8), bytes(header.row())
    for k, row in enumerate(rows):
        kind = k % FILTERS
        made.append(kind)
        for i, byte in enumerate(row):
            left, corner = (row[i - step], above[i - step]) if i >= step else (0, 0)
            made.append((byte - guess(kind, left, above[i], corner)) % 256)
        above = row
    return bytes(made)


def unfiltered(header, data):
    """The rows, or None if a filter is unknown."""
    rows, step, above = [], max(1, header.bits() // 8), bytes(header.row())
    for begin in range(0, len(data), header.row() + 1):
        kind, row = data[begin], bytearray(data[begin + 1:begin + 1 + header.row()])
        if kind >= FILTERS:
            return None
        for i, byte in enumerate(row):
            left, corner = (row[i - step], above[i - step]) if i >= step else (0, 0)
            row[i] = (byte + guess(kind, left, above[i], corner)) % 256
        rows.append(row)
        above = row
    return rows


def chunks_of(file):
    """The chunks, or None if one is damaged."""
    chunks, at = [], len(SIGNATURE)
    if file[:at] != SIGNATURE:
        return None
    while at < len(file):
        if len(file) - at < 12:
            return None
        length, kind = struct.unpack(">I4s", file[at:at + 8])
        data, at = file[at + 8:at + 8 + length], at + 12 + length
        if file[at - 12 - length:at] != chunk(kind, data):
            return None
        chunks.append((kind, data))
    return chunks


def pixels_of(header, row, palette):
    """The three bytes of each pixel of a row. A number that the palette hasn't is black, as in libpng."""
    if header.color == RGB:
        return bytes(row)
    made, most = bytearray(), 2 ** header.depth - 1
    for x in range(header.width):
        bit = x * header.depth
        number = row[bit // 8] >> (8 - header.depth - bit % 8) & most
        made += bytes([number * 255 // most] * 3) if header.color == GRAY else palette[3 * number:3 * number + 3].ljust(3, b"\0")
    return bytes(made)


def decoded(file: bytes) -> bytes | None:
    """The picture as a PPM file, or None where anything is wrong with it, its last checksum included."""
    chunks = chunks_of(file)
    if not chunks or chunks[0][0] != b"IHDR" or len(chunks[0][1]) != 13 or chunks[-1] != (b"IEND", b""):
        return None
    header = Header(*struct.unpack(">IIBBBBB", chunks[0][1]))
    try:
        data = zlib.decompress(b"".join(data for kind, data in chunks if kind == b"IDAT"))
    except zlib.error:
        return None
    if not header.is_known() or len(data) != header.height * (header.row() + 1):
        return None
    rows = unfiltered(header, data)
    palette = next((data for kind, data in chunks if kind == b"PLTE"), b"")
    return rows and b"P6\n%d %d\n255\n" % (header.width, header.height) + b"".join(pixels_of(header, row, palette) for row in rows)


def written(header, data, *more):
    """A file with this header, other chunks, and this as what its data becomes."""
    chunks = [(b"IHDR", struct.pack(">IIBBBBB", *header)), *more, (b"IDAT", zlib.compress(data, 9)), (b"IEND", b"")]
    return assemble(chunks)


def made(header: Header, rows: Iterable[bytes], palette: bytes = b"") -> bytes:
    """The file of a picture with these rows."""
    return written(header, filtered(header, rows), *([(b"PLTE", palette)] if palette else []))


def hostile() -> list[bytes]:
    """Files that are made to harm: sizes that make no sense or overflow, rows of two bytes a channel in passes, and much from little."""
    sizes = [(0, 0), (0, 1), (1, 0x7FFFFFFF), (0x7FFFFFFF, 1), (0xFFFFFFFF, 0xFFFFFFFF), (0x10000, 0x10000), (0x5556, 0x10000), (4097, 1)]
    made = [written(Header(*size, 8, RGB), bytes(1000)) for size in sizes]
    passes = [(color, width) for color in (GRAY, RGB, 4, 6) for width in (1, 2, 5, 8, 33, 100)]
    made += [written(Header(width, 33, 16, color, interlace=1), bytes(range(FILTERS)) * 20000) for color, width in passes]
    much, small = bytes(32 << 20), Header(2, 2, 8, RGB)
    made.append(written(small, much))
    made += [written(small, bytes(14), (kind, b"k\0\0" + zlib.compress(much, 9))) for kind in (b"zTXt", b"iCCP")]
    made += [written(small, bytes(14), *[(kind, b"")] * 20000) for kind in (b"IDAT", b"tEXt", b"PLTE", b"abCd")]
    return made


def flipped(data: bytes) -> list[bytes]:
    """The data with each of its bits changed in turn."""
    return [data[:k // 8] + bytes([data[k // 8] ^ 1 << k % 8]) + data[k // 8 + 1:] for k in range(8 * len(data))]


def damaged(file: bytes) -> list[bytes]:
    """The file with each bit changed, cut after each byte, and with each bit of a chunk changed and the checksum to it."""
    chunks = chunks_of(file)
    within = [assemble(chunks[:k] + [(kind, data)] + chunks[k + 1:]) for k, (kind, whole) in enumerate(chunks) for data in flipped(whole)]
    return flipped(file) + [file[:k] for k in range(len(file))] + within
