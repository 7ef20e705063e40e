"""The address space of a region: the zone, the region with its guard, and what is above its limit."""

from sources import Unread, constant, found, number
from svg import BLUE, FILLS, GRAY, GREEN, INK, ORANGE, RED, Picture

CONSTANTS = "crates/nc_decode/src/bundles.rt"
STOPS = "crates/nc_decode/src/instruction.rt"
RANGE = "crates/nc_vet/specs/Chunk.antt"
LIMIT = "crates/nc_decode/specs/Bundles.antt"

# Where on the drawing the zone, the region, the guard and what is above the limit begin and end, and where the bar stands.
ZONE, REGION, GUARD, ABOVE, END = 40, 190, 690, 750, 860
TOP, HIGH = 168, 58
# The spans of the region: where they begin and end, what they are, and their color.
SPANS = [(190, 235, "", GRAY), (235, 345, "chunk", BLUE), (345, 395, "", GRAY), (395, 525, "chunk", BLUE), (525, 570, "", GRAY),
         (570, 655, "deleted", ORANGE), (655, 690, "", GRAY)]


class Space:
    """The constants of the address space."""

    def __init__(self):
        self.bundle, self.start = constant("BUNDLE", CONSTANTS), constant("START", CONSTANTS)
        self.least, self.most = constant("MIN_BUNDLES", CONSTANTS), constant("MAX_BUNDLES", CONSTANTS)
        self.stop = constant("STOP", STOPS)
        self.guard = number(found(r"^IsInRangeBy .*\(base \+ len \+ (\d+) ≤ limit\)$", RANGE))
        if found(r"^limit_after bundles = (.*?)$", LIMIT) != "START + BUNDLE * bundles":
            raise Unread(f"{LIMIT}: `limit_after` isn't what the drawing says")

    def limit(self, bundles):
        return self.start + self.bundle * bundles


def size(count):
    """A number of bytes, in the largest unit of which it is a whole number."""
    for unit, many in (("MiB", 1 << 20), ("KiB", 1 << 10)):
        if count % many == 0:
            return f"{count // many:,} {unit}"
    return f"{count:,} bytes"


def bar(picture, space):
    """The zone, the region's spans, the guard, and the addresses above."""
    picture.rect((ZONE, TOP, REGION - ZONE, HIGH), FILLS[GREEN], GREEN)
    for k in range(1, 10):
        picture.line((ZONE + 15 * k, TOP), (ZONE + 15 * k, TOP + 9), GREEN)
    picture.text(((ZONE + REGION) / 2, TOP + 28), "zone", "middle", 15, face="bold")
    picture.text(((ZONE + REGION) / 2, TOP + 46), "trampolines", "middle", 13)
    stop = f"{space.stop:02X}"
    for left, right, name, color in [*SPANS, (GUARD, ABOVE, "guard", GRAY)]:
        picture.rect((left, TOP, right - left, HIGH), FILLS[color], color)
        if name:
            picture.text(((left + right) / 2, TOP + 28), name, "middle", 13 if name == "guard" else 15, face="bold")
        below = "code" if name == "chunk" else stop
        picture.text(((left + right) / 2, TOP + (46 if name else 35)), below, "middle", 13, face="mono" if below == stop else "")
    picture.rect((ABOVE, TOP, END - ABOVE, HIGH), "#fff", RED, dashed=True)
    picture.text(((ABOVE + END) / 2, TOP + 28), "outside the", "middle", 13, RED)
    picture.text(((ABOVE + END) / 2, TOP + 44), "segment", "middle", 13, RED)


def jumps(picture, space):
    """Where a masked jump can go."""
    begin = (SPANS[3][0] + SPANS[3][1]) / 2
    picture.text((begin, 58), "A masked jump or call can go to any bundle start:", "middle", 14)
    for to, words, beside, anchor, high, color in [
            (115, "a trampoline", 126, "start", 106, INK), (235, "code of a chunk", 248, "start", 84, INK),
            (547, f"a stop ({space.stop:02X})", 556, "start", 62, INK), (805, "a fault", 815, "start", 112, RED)]:
        picture.arc(begin, to, TOP - 1, high, color)
        picture.text((beside, TOP - 14), words, anchor, 13, color)


def addresses(picture, space):
    """The addresses below the bar, the region and the code segment."""
    y = TOP + HIGH
    for x, words, anchor in [(ZONE, f"{0:08X}", "start"), (REGION, f"{space.start:08X}", "middle"),
                             (GUARD, f"limit − {space.guard}", "end"), (ABOVE, "limit", "middle"), (END, f"{2 ** 32 - 1:08X}", "end")]:
        picture.line((x, y), (x, y + 8), INK)
        picture.text((x + {"start": -2, "middle": 0, "end": 2}[anchor], y + 24), words, anchor, 13, face="mono")
    for k, (left, words, color) in enumerate([(REGION, "the region", INK), (ZONE, "the code segment: it ends at the limit", BLUE)]):
        across = y + 44 + 38 * k
        picture.line((left, across), (ABOVE, across), color, 2)
        for x in (left, ABOVE):
            picture.line((x, across - 6), (x, across + 6), color, 2)
        picture.text(((left + ABOVE) / 2, across + 18), words, "middle", 14, color, face="bold")


def notes(picture, space):
    """The sizes, in words."""
    limits = f"{space.limit(space.least):08X} to {space.limit(space.most):08X}"
    most = size(space.bundle * space.most)
    stop = f"{space.stop:02X} (hlt)"
    lines = [
        ("Zone", f"{size(space.start)} with {space.start // space.bundle:,} bundle starts. "
                 "Each has a trampoline, a stop, or no mapped page."),
        ("Region", f"{space.least} to {space.most:,} bundles of {space.bundle} bytes, at most {most}: the limit is from {limits}."),
        ("Guard", f"The last {space.guard} bytes below the limit. No chunk covers them."),
        ("Stops", f"In the region {stop} is at every address without live code, also in deleted chunks and the guard."),
        ("Data", "The limits of the data and stack segments exclude all host memory."),
    ]
    y = TOP + HIGH + 132
    for k, (name, words) in enumerate(lines):
        picture.text((ZONE, y + 22 * k), name, face="bold")
        picture.text((ZONE + 62, y + 22 * k), words)
    picture.height = y + 22 * len(lines)


def draw():
    space = Space()
    picture = Picture("The address space of a region",
                      f"From address 0: the trampoline zone, then from {space.start:08X} the region with its chunks, stops between them "
                      "and the guard, up to the limit, where the code segment ends.")
    jumps(picture, space)
    bar(picture, space)
    addresses(picture, space)
    notes(picture, space)
    return picture
