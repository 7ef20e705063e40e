"""Larger scripts for nc_replay, with their replies, so that want of memory which isn't real would be seen: chunks of several
bundles, lists of many chunks, walks of many choices, lines up to the limit, and many lines of chunks."""

import random

NOPS = "90" * 32
START = 0x10000
# The most bytes of a line.
LINE_LIMIT = 1048576


def create(at, bundles=2):
    """A line that creates a chunk of this many bundles of nops."""
    return "create %08x %s\n" % (at, NOPS * bundles)


def live(at):
    """How a live chunk of two bundles of nops is shown."""
    return " %08x live %s" % (at, NOPS * 2)


def many_chunks():
    """A list of forty chunks of two bundles each."""
    places = [START + 64 * i for i in range(40)]
    return "".join(map(create, places)) + "dump\n", "ok\n" * 40 + "dump" + "".join(map(live, places)) + "\n"


def from_both_ends():
    """A hundred chunks, created from both ends in turn; those at every third place are deleted, each twice, and freed."""
    script = "".join(create(START + 128 * i) + create(START + 0x18C0 - 128 * i) for i in range(50))
    replies = "ok\nok\n" * 50
    for i in range(34):
        script += "delete %08x\n" % (START + 192 * i) * 2
        replies += "stamp %d\nrefused NoChunk\n" % (i + 1)
    script += "reclaim\ncheckin 0\nreclaim\ndump\n"
    shown = "".join(live(START + 64 + 192 * i) + live(START + 128 + 192 * i) for i in range(33))
    return script, replies + "freed 0\nok\nfreed 34\ndump" + shown + "\n"


def many_reused():
    """Sixty chunks, all deleted and, after one check-in, freed at once; then each at its place again, deleted and freed in turn."""
    places = [START + 64 * i for i in range(60)]
    script = "".join(map(create, places)) + "".join("delete %08x\n" % at for at in places) + "reclaim\ncheckin 0\nreclaim\ndump\n"
    replies = "ok\n" * 60 + "".join("stamp %d\n" % (i + 1) for i in range(60)) + "freed 0\nok\nfreed 60\ndump\n"
    for i, at in enumerate(places):
        script += create(at) + "delete %08x\nreclaim\ncheckin 0\nreclaim\n" % at
        replies += "ok\nstamp %d\nfreed 0\nok\nfreed 1\n" % (i + 61)
    return script, replies


def partial_overlap():
    """A chunk of two bundles; chunks that overlap it in their second bundle only, in their first only, around it and inside; and
    chunks directly before it and directly after it."""
    chunks = [(0x10020, 2), (0x10000, 2), (0x10040, 2), (0x10000, 4), (0x10040, 1), (0x10000, 1), (0x10060, 2)]
    return "".join(create(at, bundles) for at, bundles in chunks), "ok\n" + "refused Occupied\n" * 4 + "ok\nok\n"


def long_walk():
    """A walk of two thousand choices round a loop."""
    script = "create 00010000 ebfe" + "90" * 30 + "\nwalk 00010000" + " 00000000" * 2000
    return script + "\n", "ok\nwalk 00010000" + " 00010000" * 2000 + " more\n"


def longest_walk():
    """A walk whose line has as many bytes as a line may, and one of one choice more. A branch leads from the first bundle to the second, by
    single steps or at once, and a masked jump from there into either of them."""
    rng, places, choices = random.Random(1), [START], []
    while len("walk 00010000") + 9 * len(choices) < LINE_LIMIT:
        at, inside = places[-1], START + rng.randrange(64)
        choices.append(inside if at == START + 35 or rng.randrange(2) else 0)
        if at == START:
            places.append(START + (32 if choices[-1] else 2))
        elif at == START + 32:
            places.append(START + 35)
        elif at == START + 35:
            places.append(inside - inside % 32)
        else:
            places.append(at + 1)
    script = "create 00010000 741e" + "90" * 30 + "83e0e0ffe0" + "90" * 27 + "\n"
    line = "walk 00010000" + "".join(" %08x" % choice for choice in choices)
    assert len(line) == LINE_LIMIT
    return script + line + "\n" + line + " 00010000\n", "ok\nwalk" + "".join(" %08x" % at for at in places) + " more\nbad line\n"


def long_list():
    """A list of five thousand chunks of one bundle, each with a number of its own, which are created in no order. Those at every seventh
    place are deleted, and freed."""
    numbers = range(5000)
    places = [START + 64 * number for number in numbers]
    codes = ["b8" + number.to_bytes(4, "little").hex() + "90" * 27 for number in numbers]
    script = "".join("create %08x %s\n" % (places[number], codes[number]) for number in random.Random(1).sample(numbers, len(numbers)))
    script += "dump\n" + "".join("delete %08x\n" % at for at in places[::7]) + "dump\nreclaim\ncheckin 0\nreclaim\ndump\n"
    shown = [" %08x live %s" % chunk for chunk in zip(places, codes)]
    retired = [" %08x retired 32 %d" % (places[number], number // 7 + 1) if number % 7 == 0 else shown[number] for number in numbers]
    left = [shown[number] for number in numbers if number % 7]
    stamps = "".join("stamp %d\n" % (i + 1) for i in range(len(places[::7])))
    replies = "ok\n" * len(numbers) + "dump" + "".join(shown) + "\n" + stamps + "dump" + "".join(retired)
    return script, replies + "\nfreed 0\nok\nfreed %d\ndump%s\n" % (len(places[::7]), "".join(left))


def many_chunk_lines(count):
    """So many lines of chunks of one bundle. Every thirteenth one has a return, whose address is told."""
    lines, verdicts = [], []
    for number in range(count):
        base, place = START + 32 * (number % 65536), 2 * (number % 32)
        is_bad = number % 13 == 0
        lines.append("%08x %s\n" % (base, NOPS[:place] + "c3" + NOPS[place + 2:] if is_bad else NOPS))
        verdicts.append("refused NotPermitted %08x\n" % (base + place // 2) if is_bad else "ok\n")
    return "".join(lines), "".join(verdicts)


def long_line(bundles):
    """A chunk of this many bundles, and a list that shows it. The last line has no end."""
    return create(START, bundles) + "dump", "ok\ndump 00010000 live " + NOPS * bundles + "\n"


def over_pages():
    """Two chunks of which the second bundle begins a page: one that jumps from one bundle to the other, with a walk, and one that
    begins with six moves of different numbers into eax."""
    loop = "eb1e" + "90" * 30 + "ebde" + "90" * 30
    moves = "b801020304b805060708b8090a0b0cb80d0e0f10b811121314b815161718" + "90" * 34
    script = "create 00010fe0 %s\ncreate 00011fe0 %s\nwalk 00010fe0 00000000 00000000\ndump\n" % (loop, moves)
    return script, "ok\nok\nwalk 00010fe0 00011000 00010fe0 more\ndump 00010fe0 live %s 00011fe0 live %s\n" % (loop, moves)


def last_of_the_most_seats():
    """A chunk is deleted, and all of 256 seats but the last one check in: nothing is free until that one has left."""
    chunk = "eb1e" + "90" * 30
    script = "create 00010000 %s\ndelete 00010000\n" % chunk + "".join("checkin %d\n" % seat for seat in range(255))
    return script + "reclaim\nleave 255\nreclaim\n", "ok\nstamp 1\n" + "ok\n" * 255 + "freed 0\nok\nfreed 1\n"


def create_of_length(digits):
    """A line that creates a chunk of this many digits, and another one."""
    return "create 00010000 " + "9" * digits + "\ndump"


def chunk_line_of_length(length):
    """A line of chunks of this many bytes, nearly all of it digits, and one without an end."""
    return "00010000 ".ljust(length, "9") + "\n00010001 -"


# What a run is about, its words, its input, and what it has to write.
RUNS = [
    (script.__doc__, ["replay", "--bundles", bundles, "--seats", seats], *script())
    for script, bundles, seats in [
        (many_chunks, "2048", "1"), (from_both_ends, "2048", "1"), (many_reused, "2048", "1"), (partial_overlap, "2048", "1"),
        (long_walk, "4", "1"), (over_pages, "524288", "1"), (last_of_the_most_seats, "4", "256"), (longest_walk, "4", "1"),
        (long_list, "16384", "1")]
] + [
    ("a chunk of %d bundles" % bundles, ["replay", "--bundles", "20000", "--seats", "1"], *long_line(bundles))
    for bundles in (1024, 4096, 16383)
] + [
    ("create with %d digits" % digits, ["replay", "--bundles", "4", "--seats", "1"], create_of_length(digits), reply + "\ndump\n")
    for digits, reply in [(LINE_LIMIT - 16, "refused BadLength"), (LINE_LIMIT - 14, "bad line"), (2097152, "bad line")]
] + [
    ("a chunk's line of %d bytes" % length, ["vet", "--bundles", "2097152", "--workers", "4"], chunk_line_of_length(length),
     reply + "\nrefused BadBase\n")
    for length, reply in [(LINE_LIMIT, "bad line"), (LINE_LIMIT - 1, "refused BadLength"), (LINE_LIMIT + 1, "bad line"),
                          (3000009, "bad line")]
] + [
    ("200,000 lines of chunks", ["vet", "--bundles", "2097152", "--workers", "4"], *many_chunk_lines(200_000)),
    ("the last bundle of the largest region", ["replay", "--bundles", "2097152", "--seats", "1"], "walk 0400ffe0\nwalk 04010000\n",
     "walk 0400ffe0 stop\nrefused NotBundle\n"),
]
