"""Response files: `@FILE` on a command line stands for the words in a file."""

from __future__ import annotations

import os
import re

from .faults import Fault

TYPE_CHECKING = False
if TYPE_CHECKING:
    from collections.abc import Iterable, Iterator

# These are compiled where they are used: few command lines have such files.
WORD = r"""(?:\\.|'(?:\\.|[^'\\])*'|"(?:\\.|[^"\\])*"|[^\s'"\\])+"""
PART = r"""\\(.)|'((?:\\.|[^'\\])*)'|"((?:\\.|[^"\\])*)"|([^'"\\])"""
MOST_LEVELS = 20  # a file that names itself would have no end
LONGEST = 100000  # bytes of a command line, from where on a tool gets its words by a file


def unquoted(word: str) -> str:
    """A word without its quotes. As in the response files of GNU programs, a backslash stands before a character that is meant as it is."""
    parts = (found.group(1) or found.group(4) or re.sub(r"\\(.)", r"\1", found.group(2) or found.group(3) or "", flags=re.S)
             for found in re.finditer(PART, word, re.S))
    return "".join(parts)


def expanded(words: Iterable[str], level: int = 0) -> Iterator[str]:
    """The words, with those of files in the place of `@FILE`. Where there is no such file, the word stays as it is."""
    for word in words:
        if not word.startswith("@") or not os.path.isfile(word[1:]):
            yield word
            continue
        if level == MOST_LEVELS:
            raise Fault(f"{word}: response files name each other more than {MOST_LEVELS} levels deep")
        try:
            with open(word[1:], encoding="utf-8", errors="surrogateescape") as file:
                text = file.read()
        except OSError as fault:
            raise Fault(f"{word[1:]}: {fault.strerror}") from None
        yield from expanded(map(unquoted, re.findall(WORD, text, re.S)), level + 1)


def shortened(words: list[str], path: str) -> list[str]:
    """A tool's words after the first one: as they are, or in a file at the path where they are longer than a system may take."""
    if sum(len(word) + 1 for word in words) <= LONGEST:
        return words
    with open(path, "w", encoding="utf-8", errors="surrogateescape") as file:
        file.write("".join('"' + word.replace("\\", "\\\\").replace('"', '\\"') + '"\n' for word in words))
    return ["@" + path]
