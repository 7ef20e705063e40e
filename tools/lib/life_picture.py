"""The life of a span, call by call: the list of chunks, the bytes and marks of its page, and the seats."""

import os
import sys

from repository import TOP
from sources import Unread, constant
from svg import BLUE, FILLS, GRAY, GREEN, INK, ORANGE, RED, Picture

sys.path += [os.path.join(TOP, "tests", "lib")]
from scripts_and_reports import scripts

FILE, ABOUT = "reuse.txt", "The life of a span: "
BASE, BUNDLE = 0x10000, constant("BUNDLE", "crates/nc_decode/src/bundles.rt")
STOP = constant("STOP", "crates/nc_decode/src/instruction.rt")
# The lengths of the script's instructions, by their first bytes.
LENGTHS = {0xEB: 2, 0x90: 1}
COLORS = {"unused": GRAY, "live": BLUE, "retired": ORANGE}

# The columns, the first row, and how high a row is. Of the bundle's places the first ones are drawn, and the last.
STATE, CALL, LIST, PAGE, SEATS = 14, 92, 262, 396, [704, 786, 850]
FIRST, HIGH = 98, 54
PLACES, CELL = [0, 1, 2, 3, 4, 5, 6, BUNDLE - 1], 30


class Life:
    """A region of which one bundle is used: a plain model, which also gives the reply to each line."""

    def __init__(self, seats):
        self.bytes, self.marks = [STOP] * BUNDLE, [k == 0 for k in range(BUNDLE)]
        self.chunk, self.stamp, self.generation, self.seats = None, 0, 0, [0] * seats

    def begins(self):
        """At which of the bundle's places an instruction begins."""
        made, at = [False] * BUNDLE, 0
        while at < BUNDLE:
            made[at] = True
            if self.bytes[at] not in LENGTHS:
                raise Unread(f"the drawing doesn't know how long an instruction with {self.bytes[at]:02X} is")
            at += LENGTHS[self.bytes[at]]
        return made

    def reclaim(self):
        if self.chunk != "retired" or min(self.seats) < self.stamp:
            return "freed 0"
        self.chunk, self.marks = None, [k == 0 for k in range(BUNDLE)]
        return "freed 1"

    def delete(self):
        self.generation += 1
        self.chunk, self.stamp, self.bytes = "retired", self.generation, [STOP] * BUNDLE
        return f"stamp {self.stamp}"

    def put(self, code, is_new):
        self.bytes[:len(code)] = code
        if is_new:
            self.chunk, self.marks = "live", self.begins()
        return "ok"

    def dump(self):
        span = {"live": bytes(self.bytes).hex(), "retired": f"{BUNDLE} {self.stamp}"}
        return f"dump {BASE:08x} {self.chunk} {span[self.chunk]}" if self.chunk else "dump"

    def reply(self, line):
        """Makes a call, and says what its reply has to be."""
        word, *rest = line.split()
        if word in ("create", "modify"):
            return self.put(bytes.fromhex(rest[1]), word == "create")
        if word == "checkin":
            self.seats[int(rest[0])] = self.generation
            return "ok"
        return {"delete": self.delete, "reclaim": self.reclaim, "dump": self.dump}[word]()


def lines_of_script():
    """The lines of the script and their replies."""
    for run in scripts(FILE):
        if run.about.startswith(ABOUT):
            lines, replies = ([line.decode().strip() for line in part] for part in (run.lines, run.owed))
            return int(run.words[-1]), list(zip(lines, replies, strict=True))
    raise Unread(f"tests/programs/scripts/{FILE} has no script that is about {ABOUT!r}")


def span_row(picture, y, life, before):
    """The bytes of the bundle, and its marks. What has changed has a thick edge."""
    for k, place in enumerate(PLACES):
        x = PAGE + CELL * k + (16 if place == PLACES[-1] else 0)
        byte = life.bytes[place]
        is_new = byte != before.bytes[place]
        color = GRAY if byte == STOP else BLUE
        picture.rect((x + 1, y + 4, CELL - 3, 24), FILLS[color], INK if is_new else color, 2 if is_new else 1)
        picture.text((x + CELL / 2, y + 21), f"{byte:02X}", "middle", 14, face="mono")
        if life.marks[place]:
            picture.shape([(x + CELL / 2 - 5, y + 42), (x + CELL / 2 + 5, y + 42), (x + CELL / 2, y + 32)], GREEN)
    picture.text((PAGE + CELL * (len(PLACES) - 1) + 8, y + 20), "..", "middle", 13)


def seats_row(picture, y, line, life, before):
    """The generation and the seats' numbers: what has changed, and what holds a chunk back."""
    for k, (x, now, old) in enumerate(zip(SEATS, [life.generation, *life.seats], [before.generation, *before.seats])):
        color = GREEN if now != old else RED if line == "reclaim" and life.chunk and k and now < life.stamp else None
        if color:
            picture.rect((x - 13, y + 9, 26, 30), FILLS[color], color, 2, round_=4)
        picture.text((x, y + 30), str(now), "middle", 15, face="bold" if color else "")


def row(picture, y, line, reply, life, before):
    """One call, and what is so after it."""
    state = life.chunk or "unused"
    picture.rect((STATE, y + 6, 66, 36), FILLS[COLORS[state]], COLORS[state], round_=6)
    picture.text((STATE + 33, y + 29), state, "middle", 13, face="bold")
    words = line.split()
    picture.text((CALL, y + 21), " ".join(words[:1] + [word for word in words[1:] if len(word) < 3]) or "(a new region)", size=14,
                 face="bold" if line else "")
    if line:
        more = [word[:4].upper() + (" .." if len(word) > 4 else "") for word in words[2:]]
        picture.text((CALL, y + 39), " ".join([*more, "→", reply]), size=13)
    if life.chunk:
        picture.text((LIST, y + 21), f"{BASE:08X}", size=13, face="mono")
        picture.text((LIST, y + 39), f"stamp {life.stamp}" if life.chunk == "retired" else f"live, {BUNDLE} bytes", size=13)
    else:
        picture.text((LIST, y + 29), "no chunk", size=13, color=GRAY)
    span_row(picture, y, life, before)
    seats_row(picture, y, line, life, before)
    picture.line((STATE, y + HIGH - 4), (picture.width - STATE, y + HIGH - 4), "#ddd")


def heads(picture):
    """What each column is."""
    for x, words, more, anchor in [
            (STATE, "Span", "", "start"), (CALL, "Call", "and its reply", "start"), (LIST, "List", "of chunks", "start"),
            (PAGE, "Page", f"bytes from {BASE:08X} to {BASE + BUNDLE - 1:08X}", "start"), (SEATS[0], "Generation", "", "middle"),
            (SEATS[1], "Seat 0", "", "middle"), (SEATS[2], "Seat 1", "", "middle")]:
        picture.text((x, 66), words, anchor, 14, face="bold")
        if more:
            picture.text((x, 83), more, anchor, 12)
    picture.line((STATE, FIRST - 6), (picture.width - STATE, FIRST - 6), INK)


def notes(picture, y):
    picture.shape([(PAGE + 2, y - 1), (PAGE + 12, y - 1), (PAGE + 7, y - 11)], GREEN)
    picture.text((PAGE + 20, y), "marked: a thread may be at this place", size=13)
    for x, words, color in [(SEATS[0], "changed", GREEN), (SEATS[1], "holds back", RED)]:
        picture.text((x, y), words, "start", 13, color, face="bold")
    for k, words in enumerate([
            "A deletion draws a stamp, the new generation. It puts stops, and leaves the marks: a thread may still be there.",
            "A check-in sets the seat's number to the generation. A reclaim frees a chunk if no seat's number is below its stamp."]):
        picture.text((STATE, y + 28 + 20 * k), words, size=13)
    picture.height = y + 28 + 20 + 14


def copied(life):
    """The model as it is now."""
    made = Life(0)
    made.__dict__.update({name: list(value) if isinstance(value, list) else value for name, value in vars(life).items()})
    return made


def draw():
    seats, script = lines_of_script()
    if seats != len(SEATS) - 1:
        raise Unread(f"tests/programs/scripts/{FILE}: the drawing has room for {len(SEATS) - 1} seats, not for {seats}")
    life, y = Life(seats), FIRST
    picture = Picture("The life of a span", "A chunk is created, patched and deleted. Its span stays retired until both seats "
                      "have checked in since the deletion, and the next reclaim frees it.")
    heads(picture)
    for line, owed in [("", ""), *script]:
        before = copied(life)
        reply = life.reply(line) if line else ""
        if reply != owed:
            raise Unread(f"tests/programs/scripts/{FILE}: the reply to {line!r} is {owed!r}, and in the drawing {reply!r}")
        if line != "dump":
            row(picture, y, line, reply, life, before)
            y += HIGH
    notes(picture, y + 22)
    return picture
