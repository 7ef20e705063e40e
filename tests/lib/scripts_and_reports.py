"""The runs of the two programs in tests/programs/{scripts,check}: their words, what they are given, and what they have to write.

A line with `$` begins a run, and has its words; lines with `#` before it say what the run is about. Of a script, a line with `>` is
a line of input, and the line below it the reply; a line with `!` below that has the explanation. Of a report, a line `= NAME LENGTH
PLACE:BYTES ..` is a file of nops with other bytes at some places, `+ ADDRESS NAME` makes the last file an ELF file and gives it a symbol,
and the lines below are what the program has to write; what comes before `..` at the end of a line is how that line has to begin.

In scripts `*` stands for nops that fill a word up to a bundle, and `\\x20` and the like for bytes. In reports `{return}` and the like
stand for the words that words.txt has.
"""

from __future__ import annotations

import os
import re
from collections.abc import Iterator

from elf_files import FUNCTION, R, X, elf, segment, with_symbols
from repository import TOP

NOP = b"\x90"


def bytes_of(text):
    """The bytes that a text with escapes stands for."""
    return re.sub(rb"\\x([0-9a-f]{2})", lambda escape: bytes.fromhex(escape[1].decode()), text.encode())


def filled(line):
    """A line in which `*` stands for nops: as many as fill its word up to a bundle."""
    return re.sub(rb"([^ ]*)\*", lambda word: word[1] + b"90" * (32 - len(word[1]) // 2), line)


def code_of(length, pieces):
    """Nops, but for these bytes at these places."""
    code = bytearray(NOP * length)
    for piece in pieces:
        place, _, digits = piece.partition(":")
        found = bytes.fromhex(digits)
        code[int(place):int(place) + len(found)] = found
    return bytes(code[:length])


class Run:
    """One run: what it is about, its words, its files and their symbols, its input, and the lines that it has to write."""

    def __init__(self, about: str, words: list[str]) -> None:
        self.about, self.words = about, words
        self.codes: dict[str, bytes] = {}
        self.symbols: dict[str, list[tuple[int, str]]] = {}
        self.lines: list[bytes] = []
        self.owed: list[bytes] = []
        self.explained: dict[int, str] = {}

    def input(self) -> bytes:
        return b"".join(self.lines)

    def output(self) -> str:
        return b"".join(self.owed).decode()

    def files(self) -> Iterator[tuple[str, bytes]]:
        """The names and the bytes of its files."""
        for name, code in self.codes.items():
            symbols = [(address, symbol.encode(), FUNCTION, 1) for address, symbol in self.symbols[name]]
            yield name, with_symbols(elf(segment(0x10000, code, R | X)), *symbols) if symbols else code

    def status(self) -> int:
        """The status of a run that writes a report: 1 if a file is refused."""
        return 1 if re.search(r'^[^ ].*: refused |"verdict":"refused"', self.output(), re.M) else 0

    def as_owed(self, out: str) -> str:
        """What was written, with `..` for the rest of each line of which only the beginning counts, if that is as it has to be."""
        found = out.splitlines(True)
        for number, line in enumerate(self.output().splitlines()[:len(found)]):
            if line.endswith("..") and found[number].startswith(line[:-2].rstrip(" ")):
                found[number] = line + "\n"
        return "".join(found)


def lines_of(folder: str, name: str) -> list[str]:
    with open(os.path.join(TOP, "tests", "programs", folder, name), encoding="utf-8") as file:
        return file.read().split("\n")


def begun(lines: list[str]) -> list[tuple[Run, list[str]]]:
    """The runs that lines begin, and with each the lines that follow."""
    found: list[tuple[Run, list[str]]] = []
    about: list[str] = []
    for line in lines:
        if line.startswith("#"):
            about.append(line[2:])
        elif line.startswith("$"):
            found.append((Run(" ".join(about) or line, line[2:].split()), []))
            about = []
        elif line:
            found[-1][1].append(line)
    return found


def scripts(name: str) -> list[Run]:
    """The runs of a file of scripts."""
    found = []
    for run, lines in begun(lines_of("scripts", name)):
        for line in lines:
            if line.startswith(">"):
                run.lines.append(filled(bytes_of(line[2:])) + b"\n")
            elif line.startswith("!"):
                run.explained[len(run.lines)] = line[2:]
            else:
                run.owed.append(filled(bytes_of(line)) + b"\n")
        found.append(run)
    return found


def bad_lines(name: str) -> list[bytes]:
    """The lines of a file of such lines, without their ends."""
    return [bytes_of(line[2:]) for line in lines_of("scripts", name) if line.startswith(">")]


def told(line, words):
    """A line of a report, with what its abbreviations stand for."""
    return re.sub(r"\{(\w+)\}", lambda name: words[name[1]], line).encode() + b"\n"


def reports(name: str) -> list[Run]:
    """The runs of a file of reports."""
    named = (re.fullmatch(r"\{(\w+)\} = (.*)", line) for line in lines_of("check", "words.txt") if line)
    words = {line[1]: line[2] for line in named}
    found = []
    for run, lines in begun(lines_of("check", name)):
        for line in lines:
            kind, *parts = line.split(" ")
            if kind == "=":
                run.codes[parts[0]], run.symbols[parts[0]] = code_of(int(parts[1]), parts[2:]), []
            elif kind == "+":
                run.symbols[list(run.symbols)[-1]].append((int(parts[0], 16), parts[1]))
            else:
                run.owed.append(told(line, words))
        found.append(run)
    return found


def meanings(name: str) -> list[tuple[bytes, str]]:
    """The rows of a file of instructions that aren't permitted: their bytes, and how the words on them begin."""
    rows = [line.split(None, 1) for line in lines_of("check", name) if line and not line.startswith("#")]
    return [(bytes.fromhex(digits), words) for digits, words in rows]


def lengths(name: str) -> list[tuple[bytes, int | None]]:
    """The rows of a file of such instructions with their lengths: their bytes, and the length, or None where none is known."""
    rows = [line.split() for line in lines_of("check", name) if line and not line.startswith("#")]
    return [(bytes.fromhex(digits), None if length == "-" else int(length)) for digits, length in rows]
