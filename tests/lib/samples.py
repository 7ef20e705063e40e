"""A script and its replies, and lines of chunks and their verdicts, that several trials give to nc_replay."""

NOPS = "90" * 32
CHUNK = "eb1e" + "90" * 30

# A script with queries for 4 bundles and one seat, a line and its reply in turn. Its last line has no end.
SCRIPT = [
    ("create 00010000 " + CHUNK, "ok"),
    ("create 00010000 " + CHUNK, "refused Occupied"),
    ("walk 00010000 00000000 00000000", "walk 00010000 00010020 stop"),
    ("dump", "dump 00010000 live " + CHUNK),
    ("chunk 0001001f", "chunk 00010000 live " + CHUNK),
    ("chunk 00010020", "none"),
    ("delete 00010000", "stamp 1"),
    ("walk 00010000 00000000", "walk 00010000 stop"),
    ("dump", "dump 00010000 retired 32 1"),
    ("reclaim", "freed 0"),
    ("checkin 0", "ok"),
    ("reclaim", "freed 1"),
    ("dump", "dump"),
    ("checkin 1", "refused NoSeat"),
    ("create 00010000 -", "refused BadLength"),
    ("create 00010000 9", "bad line"),
    ("", "bad line"),
    ("leave 0", "ok"),
]
SCRIPT_TEXT = "\n".join(line for line, _ in SCRIPT)
SCRIPT_REPLIES = [reply + "\n" for _, reply in SCRIPT]
SCRIPT_WORDS = ["replay", "--bundles", "4", "--seats", "1", "--queries"]

# Lines of chunks for 4 bundles, and their verdicts.
LINES_TEXT = "00010000 %s\n00010001 %s\n" % (NOPS, NOPS)
LINES_VERDICTS = "ok\nrefused BadBase\n"


def lines_words(workers: int) -> list[str]:
    """The command line that vets lines by this many workers."""
    return ["vet", "--bundles", "4", "--workers", str(workers)]
