"""The inputs of tests/compiler/peers: the same bytes each time, by random numbers that Python promises to keep."""

from __future__ import annotations

import array
import json
import math
import os
import random
import struct
import sys
import zlib
from collections.abc import Iterable

MIXED, TEXT = 1 << 20, 400_000
JSON, XML = 900_000, 1_100_000
WIDTH, HEIGHT = 3013, 1561
RATE, SECONDS = 48_000, 2
SYLLABLES = "ba be co da di el en fi ga in ka la lo ma mi na no or pa ra re sa se ta ti to un va ve zo".split()
TYPES = "int char long unsigned void double".split()
TONES = (220.0, 277.2, 329.6, 440.0, 1318.5, 5274.0)


class Draw:
    """Random numbers."""

    def __init__(self, name):
        self.random = random.Random(name).random

    def below(self, count):
        return int(self.random() * count)

    def pick(self, those):
        return those[self.below(len(those))]

    def often(self, those):
        """One of them, the first ones most often."""
        return those[int(len(those) * self.random() ** 3)]

    def bytes(self, count):
        return bytes(self.below(256) for _ in range(count))


def vocabulary(draw):
    """Words of two to five syllables."""
    return ["".join(draw.pick(SYLLABLES) for _ in range(2 + draw.below(4))) for _ in range(3000)]


def sentence(draw, words, count):
    return " ".join(draw.often(words) for _ in range(count))


def filled(make, size):
    """As many parts as it takes for so many bytes."""
    parts, length = [], 0
    while length < size:
        parts.append(make())
        length += len(parts[-1])
    return parts


# ---- Text like a program


def statement(draw, words, first, second):
    """A statement over two names."""
    name = draw.often(words)
    return draw.pick((
        "    %s = %s_%s(%s, %d);\n" % (first, name, draw.often(words), second, draw.below(100)),
        "    if (%s->%s != %s) {\n        return %d;\n    }\n" % (first, name, second, draw.below(10)),
        "    box_%s_%s(%s, \"%s\\n\");\n" % (name, draw.pick(("text", "blob", "int", "value")), first, sentence(draw, words, 3)),
        "    while (%s < %d) {\n        %s += %s[%s++];\n    }\n" % (second, draw.below(1000), first, name, second)))


def function(draw, words):
    """A function of C."""
    first, second = draw.often(words), draw.often(words)
    head = "/* %s. */\n%s %s *%s_%s(%s *%s, int %s) {\n" % (
        sentence(draw, words, 4 + draw.below(12)).capitalize(), draw.pick(("static", "extern")), draw.pick(TYPES), draw.often(words),
        draw.often(words), draw.pick(TYPES), first, second)
    body = "".join(statement(draw, words, first, second) for _ in range(2 + draw.below(9)))
    return (head + body + "    return %s;\n}\n\n" % first).encode()


def text():
    draw = Draw("text")
    words = vocabulary(draw)
    return b"".join(filled(lambda: function(draw, words), TEXT))[:TEXT]


# ---- Documents


def element(draw, words):
    """An element with some others in it."""
    name = draw.often(words[:200])
    inner = "".join("<%s>%s &amp; %s</%s>\n" % (tag, sentence(draw, words, 1 + draw.below(3)), draw.often(words), tag)
                    for tag in [draw.often(words[:200]) for _ in range(draw.below(4))])
    return ('<%s id="%s" of="%s">%s</%s>\n' % (name, draw.often(words), sentence(draw, words, 2), inner, name)).encode()


def xml():
    draw = Draw("xml")
    words = vocabulary(draw)
    return b'<?xml version="1.0" encoding="UTF-8"?>\n<all>\n' + b"".join(filled(lambda: element(draw, words), XML)) + b"</all>\n"


def record(draw, words):
    """An object, in one of twenty with a number."""
    made = {"name": draw.often(words), "note": sentence(draw, words, 3 + draw.below(20)), "open": draw.below(2) == 0, "next": None,
            "tags": [draw.often(words) for _ in range(draw.below(6))],
            "place": {"street": sentence(draw, words, 2) + "\t\u00e9", "town": draw.often(words)}}
    if draw.below(20) == 0:
        made["number"] = draw.below(100_000)
    return json.dumps(made, ensure_ascii=False, indent=1).encode()


def json_text():
    draw = Draw("json")
    words = vocabulary(draw)
    return b"[" + b",\n".join(filled(lambda: record(draw, words), JSON)) + b"]"


# ---- Mixed bytes


def part_of(draw, whole, size):
    at = draw.below(max(1, len(whole) - size))
    return whole[at:at + size]


def table(draw, size):
    """Records of 8 bytes."""
    return b"".join(struct.pack("<IHH", k * k, draw.below(50), 0x4000 + k % 7) for k in range(size // 8))


def mixed():
    """Text, documents, tables of numbers, runs and noise by turns."""
    draw, texts = Draw("mixed"), [text(), xml(), json_text()]
    kinds = (
        lambda size: part_of(draw, draw.pick(texts), 4 * size),
        lambda size: part_of(draw, texts[0], 4 * size),
        lambda size: table(draw, size),
        lambda size: bytes([draw.below(256)]) * size,
        lambda size: draw.bytes(size // 2),
    )
    return b"".join(filled(lambda: draw.pick(kinds)(512 + draw.below(8192)), MIXED))[:MIXED]


# ---- A picture


def chunk(kind, content):
    return struct.pack(">I", len(content)) + kind + content + struct.pack(">I", zlib.crc32(kind + content))


def picture():
    """A PNG file. Its lines are filtered by each of the five ways in turn, and made of small differences."""
    draw = Draw("picture")
    grain = b"".join(draw.pick((bytes(16), bytes(4), draw.bytes(1) + bytes(3), bytes((draw.below(3), 0, 255, 0)))) for _ in range(40_000))
    lines = []
    for line in range(HEIGHT):
        at = draw.below(len(grain) - 4 * WIDTH)
        lines.append(bytes([line % 5]) + grain[at:at + 4 * WIDTH])
    header = struct.pack(">IIBBBBB", WIDTH, HEIGHT, 8, 6, 0, 0, 0)
    return b"\x89PNG\r\n\x1a\n" + chunk(b"IHDR", header) + chunk(b"IDAT", zlib.compress(b"".join(lines), 6)) + chunk(b"IEND", b"")


# ---- Sound


def sound():
    """Two channels of tones that swell and fade, with some noise."""
    draw, samples = Draw("sound"), array.array("h")
    for k in range(RATE * SECONDS):
        at = k / RATE
        value = sum(math.sin(2 * math.pi * tone * at) * abs(math.sin((n + 1) * at)) for n, tone in enumerate(TONES))
        samples.append(int(3000 * value) + draw.below(400))
        samples.append(int(2500 * value) - draw.below(300))
    if sys.byteorder != "little":
        samples.byteswap()
    return samples.tobytes()


INPUTS = {"mixed": mixed, "text": text, "json": json_text, "xml": xml, "picture": picture, "sound": sound}


def write_inputs(names: Iterable[str], folder: str) -> None:
    """Writes these inputs as files of a folder."""
    for name in names:
        with open(os.path.join(folder, name), "wb") as file:
            file.write(INPUTS[name]())
