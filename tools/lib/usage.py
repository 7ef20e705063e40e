"""The command line of the scripts in tools/ and tests/: the line `Usage: ..` of a script's docstring says what it may have."""

from __future__ import annotations

import re
import sys

# Words of a usage that stand for a number.
NUMBERS = {"COUNT", "SEED", "LINES", "SECONDS", "THREADS", "ROUNDS"}
NAME = re.compile(r"\b[A-Z]{2,}\b")


def fits(usage: str, words: list[str]) -> bool:
    """Whether the words are what the usage allows. Words of an inner bracket may be left out, or all be there."""
    options = set(re.findall(r"(?<![\w-])--[\w-]+", usage))
    plain = [word for word in words if word not in options]
    names = NAME.findall(usage)
    counts = {len(NAME.findall(usage[:end.start()])) for end in re.finditer(r"\[|\||$", usage)}
    if any(word.startswith("-") for word in plain) or " | " in usage and len(words) - len(plain) > 1:
        return False
    if len(plain) not in counts and not (".." in usage and len(plain) > len(names)):
        return False
    return all(word.isdecimal() for name, word in zip(names, plain) if name in NUMBERS)


def words_given(text: str) -> list[str]:
    """The words of the command line. --help prints the docstring and ends with status 0; other words than the usage has end with 2."""
    words = sys.argv[1:]
    if "-h" in words or "--help" in words:
        print(text.strip())
        sys.exit(0)
    usage = next(line for line in text.split("\n") if line.startswith("Usage: "))
    if not fits(usage, words):
        print(usage, file=sys.stderr)
        sys.exit(2)
    return words
