"""A patch of one instruction, store by store, and what two threads read of it meanwhile."""

import itertools
import re

from sources import Unread, constant, found, number, numbers, value_in
from svg import BLUE, FILLS, GRAY, GREEN, INK, ORANGE, RED, Picture

DEFINITION = "crates/nc_region/specs/Patch.antt"
ROW = "crates/nc_tests/src/region/acts.rt"
TEST = "tests/nc_host/library/test_mixtures.py"
# The instruction of the test that is drawn: its address.
PLACE = 0x10018
SERIALIZED = "serialized"
NAMES = {"ffc7": "inc edi", "ffe7": "jmp edi", "f4": "hlt"}

# Where the columns begin and how wide they are, and the lanes with their heights.
LEFT, WIDE = 158, 104
LANES = {"acts": (68, 74), "prompt": (158, 74), "late": (248, 74), "any": (338, 60)}


def log_of_instruction(at, code):
    """The log of an instruction of several bytes, or of one, by the definition: puts as places and bytes, and serializations."""
    if len(code) == 1:
        return [(at, code[0])]
    words = found(r"^log_of_instruction at \(byte ∷ next ∷ rest\) =\n(.*?)\n\n", DEFINITION)
    token = re.compile(r"Did \(Put at (0x\w+|byte)\)|(Serialized)|only_acts \((puts_where any_place \(at \+ 1\) \(next ∷ rest\))\)")
    if re.sub(r"[\s()\[\]∷+]", "", token.sub("", words)):
        raise Unread(f"{DEFINITION}: log_of_instruction has other words than the drawing knows")
    log = []
    for byte, serialized, rest in token.findall(words):
        if byte:
            log.append((at, code[0] if byte == "byte" else number(byte)))
        log += [SERIALIZED] if serialized else []
        log += [(at + k, code[k]) for k in range(1, len(code))] if rest else []
    return log


def check_row():
    """The test of nc_tests that compares a region's log has to owe what the definition gives for each instruction with other bytes."""
    base, old, new = constant("BASE", ROW), numbers("FRONT", ROW), numbers("PATCH", ROW)
    old += [0x90] * (len(new) - len(old))
    begins = [k for k in range(len(new)) if base + k not in numbers("UNMARKED", ROW)]
    owed = []
    for begin, end in zip(begins, begins[1:] + [len(new)]):
        owed += log_of_instruction(base + begin, new[begin:end]) if old[begin:end] != new[begin:end] else []
    entries = re.findall(r"Act::Put\((\w+), (\w+)\)|Entry::(Serialized)", found(r"static PATCH_OWES: .*? = \[(.*?)\];", ROW))
    if owed != [SERIALIZED if serialized else (number(at), number(byte)) for at, byte, serialized in entries]:
        raise Unread(f"{DEFINITION}: log_of_instruction isn't what PATCH_OWES of {ROW} says")


def tested():
    """The old and the new bytes of the instruction in the test, and what may be read there with each serialization left out."""
    first, patch = value_in("FIRST", TEST), value_in("ONE_BUNDLE", TEST)
    life = value_in("LIFE", TEST, FIRST=first, ONE_BUNDLE=patch, NEXT_BUNDLE="", filled=lambda *words: None)
    at = next(step[1] for step in life if step[0] == "patch" and step[2] == patch)
    for code in map(bytes.fromhex, patch.split(" ")):
        if at == PLACE:
            old = first[at - 0x10000:][:len(code)]
            return old, code, [row[1] for row in value_in("WRONG", TEST) if row and row[0] == PLACE]
        at += len(code)
    raise Unread(f"{TEST}: nothing is patched at {PLACE:08X}")


def moments(old, log, left_out=None):
    """Before the patch and after each entry of the log: the text, the text at the last serialization, and every mixture that may be read.
    One serialization may be left out."""
    text = serialized = tuple(old)
    seen, count, made = [{byte} for byte in text], 0, []
    for entry in [None, *log]:
        if entry == SERIALIZED:
            count += 1
            if count != left_out:
                serialized, seen = text, [{byte} for byte in text]
        elif entry:
            text = text[:entry[0] - PLACE] + (entry[1],) + text[entry[0] - PLACE + 1:]
            seen[entry[0] - PLACE].add(entry[1])
        made.append((text, serialized, set(itertools.product(*seen))))
    return made


def name_of(code):
    """An instruction of this drawing by its bytes: behind hlt nothing is read."""
    if code[0] == 0xF4:
        return NAMES["f4"]
    if code[0] == 0xEB:
        return f"jmp {PLACE + 2 + (code[1] ^ 0x80) - 0x80:08X}"
    if bytes(code).hex() not in NAMES:
        raise Unread(f"the drawing has no name for {bytes(code).hex(' ')}")
    return NAMES[bytes(code).hex()]


def color_of(code, old, new):
    return GRAY if code[0] == 0xF4 else BLUE if code == tuple(old) else GREEN if code == tuple(new) else RED


def cell(picture, x, lane, code, old, new):
    """What a thread reads: the bytes, and the instruction that they are."""
    y, high = LANES[lane]
    color = color_of(code, old, new)
    picture.rect((x + 4, y, WIDE - 8, high - 14), FILLS[color], color, round_=4)
    picture.text((x + WIDE / 2, y + 25), bytes(code).hex(" ").upper(), "middle", 17, face="mono")
    picture.text((x + WIDE / 2, y + 47), name_of(code), "middle", 12)


def act(picture, x, entry):
    """An entry of the log. A serialization goes through all lanes."""
    y, high = LANES["acts"]
    if entry == SERIALIZED:
        bottom = LANES["any"][0] + LANES["any"][1]
        picture.rect((x + 1, y, WIDE - 2, bottom - y + 4), FILLS[ORANGE], ORANGE, dashed=True, round_=4)
        picture.text((x + WIDE / 2, y + 25), "serialize", "middle", 15, ORANGE, face="bold")
        picture.text((x + WIDE / 2, y + 47), "all processors", "middle", 13, ORANGE)
    elif entry:
        picture.rect((x + 4, y, WIDE - 8, high - 14), "#fff", INK, round_=4)
        picture.text((x + WIDE / 2, y + 25), f"put {entry[1]:02X}", "middle", 15, face="bold")
        picture.text((x + WIDE / 2, y + 47), f"at {entry[0]:08X}", "middle", 12)


def lanes(picture):
    """What each lane is, and time above them."""
    picture.text((LEFT - 12, 54), "time", "end", 13)
    picture.line((LEFT - 4, 50), (886, 50), INK)
    picture.shape([(886, 46), (886, 54), (894, 50)], INK)
    said = {"acts": ["The writer"], "prompt": ["Thread A reads", "each store at once:", "the text itself"],
            "late": ["Thread B reads", "no store before", "it serializes"], "any": ["Any thread", "executes one of", "these"]}
    for lane, words in said.items():
        y, high = LANES[lane]
        for k, part in enumerate(words):
            picture.text((14, y + high / 2 - 8 * len(words) + 17 * k + 6), part, size=13, face="bold" if k == 0 else "")


def draw_moments(picture, log, old, new):
    """The columns: before the patch, after each entry of its log, and once thread B has serialized once more."""
    made = moments(old, log)
    made.append((made[-1][0], made[-1][0], {made[-1][0]}))
    for k, (entry, (text, late, mixed)) in enumerate(zip([None, *log, None], made)):
        x = LEFT + WIDE * k
        act(picture, x, entry)
        cell(picture, x, "prompt", text, old, new)
        cell(picture, x, "late", late, old, new)
        names = sorted({(color_of(code, old, new) != BLUE, color_of(code, old, new) != GRAY, name_of(code)) for code in mixed})
        for row, (_, _, name) in enumerate(names):
            picture.text((x + WIDE / 2, LANES["any"][0] + 34 - 9 * len(names) + 18 * row), name, "middle", 12)
        if any(color_of(code, old, new) == RED for code in mixed):
            raise Unread("by the definition a mixture of old and new bytes could be executed")
    picture.text((LEFT + WIDE / 2, LANES["acts"][0] + 35), "before", "middle", 14)
    picture.text((LEFT + WIDE * (len(log) + 1.5), LANES["acts"][0] + 25), "once B has", "middle", 14)
    picture.text((LEFT + WIDE * (len(log) + 1.5), LANES["acts"][0] + 43), "serialized", "middle", 14)


def notes(picture, log, old, new, wrong):
    """What a thread could execute with one of the serializations left out, as the test says it too."""
    y = LANES["any"][0] + LANES["any"][1] + 36
    if len(wrong) != log.count(SERIALIZED):
        raise Unread(f"{TEST}: not a row for each serialization at {PLACE:08X}")
    for k, code in enumerate(wrong):
        mixed = tuple(bytes.fromhex(code))
        if not any(mixed in views for _, _, views in moments(old, log, k + 1)):
            raise Unread(f"{TEST}: with serialization {k + 1} left out the drawing finds no {code} at {PLACE:08X}")
        end = "a jump without its mask" if mixed[0] == 0xFF else "not a bundle start"
        words = f"Without the {['first', 'second'][k]} serialization: {bytes(mixed).hex(' ').upper()}, which is {name_of(mixed)}, {end}."
        picture.text((LEFT + 4, y + 22 * k), words, size=14, color=RED)
    picture.text((14, y + 11), "Why it serializes", size=13, face="bold", color=RED)
    picture.height = y + 22 * len(wrong) + 6


def draw():
    check_row()
    old, new, wrong = tested()
    log = log_of_instruction(PLACE, new)
    picture = Picture(f"A patch: {name_of(tuple(old))} at {PLACE:08X} becomes {name_of(tuple(new))}",
                      "The writer puts hlt at the first byte, serializes, puts the other bytes, serializes, and puts the new first byte. "
                      "A thread executes the old instruction, hlt or the new one, however late it reads the stores.")
    draw_moments(picture, log, old, new)
    lanes(picture)
    notes(picture, log, old, new, wrong)
    return picture
