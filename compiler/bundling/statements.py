"""Assembly text as a list of statements: comments are dropped, lines split at `;`, and prefixes joined to their instructions."""

from __future__ import annotations

import re
from collections import namedtuple
from itertools import groupby

TYPE_CHECKING = False  # typing takes longer to load than a small text to rewrite
if TYPE_CHECKING:
    from collections.abc import Iterable, Iterator
    from typing import NoReturn

PREFIXES = {"lock", "rep", "repe", "repz", "repne", "repnz", "data16", "addr16", "notrack", "bnd", "xacquire", "xrelease",
            "cs", "ds", "es", "fs", "gs", "ss"}
# Prefixes that say something to other processors only: the pair of a masked jump has no room for them.
DROPPED = {"notrack", "bnd"}

TOKEN = re.compile(r"""(?P<string>"(?:\\.|[^"\\])*")|(?P<char>'(?:\\.|[^\n])'?)|(?P<open>/\*)|(?P<comment>\#)|(?P<end>;)|"""
                   r"""(?P<other>[^"'#;/\n]+|.)""", re.S)
LABEL = re.compile(r'\s*([\w.$@?]+|"[^"]+")\s*:(?!:)')
SYMBOL = re.compile(r"(?<![\w.$@%])\$?([A-Za-z_.][\w.$]*)")


class Refusal(Exception):
    """Why a text can't be rewritten, and what to do; it says where that is so."""

    def __init__(self, statement: Statement, reason: str) -> None:
        text = " ".join(statement.text.split())
        super().__init__(f"line {statement.line}, `{text}`: {reason}")


class JumpRefusal(Refusal):
    """The same for a jump through memory. A compiler that makes no tables for jumps writes it only for a computed goto."""


class Statement(namedtuple("Statement", "line kind word operands prefixes", defaults=((),))):
    """A label, a directive, an assignment or an instruction with its prefixes, and the line on which it begins."""

    __slots__ = ()
    line: int
    kind: str  # "label", "directive", "assignment" or "instruction"
    word: str
    operands: str
    prefixes: tuple[str, ...]

    @property
    def text(self) -> str:
        """The statement as it is written."""
        if self.kind == "label":
            return self.word + ":"
        if self.kind == "assignment":
            return f"\t{self.word} = {self.operands}"
        return ("\t" + " ".join([*self.prefixes, self.word]) + "\t" + self.operands).rstrip()

    def refuse(self, reason: str, kind: type[Refusal] = Refusal) -> NoReturn:
        raise kind(self, reason)


def pieces(text: str) -> Iterator[tuple[int, str]]:
    """The statements as texts, without comments, each with the number of its line."""
    number = 1
    piece, begun, at = "", 1, 0
    while at < len(text):
        token = TOKEN.match(text, at)
        assert token is not None  # a character that begins nothing else is a token by itself
        kind, end = token.lastgroup, token.end()
        if kind == "open":
            end = text.find("*/", end) + 2 or len(text)
        elif kind == "comment":
            end = text.find("\n", end)
            end = len(text) if end < 0 else end
        elif kind == "end" or token.group() == "\n":
            yield begun, piece
            piece, begun = "", number + (kind != "end")
        else:
            piece += token.group()
        number += text.count("\n", at, end)
        at = end
    yield begun, piece


def symbols(operands: str) -> list[str]:
    """The names in an expression or in an instruction's operands, without registers."""
    return SYMBOL.findall(operands)


def split_operands(operands: str) -> list[str]:
    """An instruction's operands, parted at the commas outside of parentheses."""
    return [part.strip() for part in re.split(r",(?![^(]*\))", operands)] if operands else []


def read(line: int, piece: str) -> Iterator[Statement]:
    """The labels and the statement of a piece; prefixes stand at first as an instruction without operands."""
    label = LABEL.match(piece)
    while label:
        yield Statement(line, "label", label.group(1), "")
        piece = piece[label.end():]
        label = LABEL.match(piece)
    words = piece.split(None, 1)
    if not words:
        return
    operands = words[1].strip() if len(words) > 1 else ""
    assigned = re.match(r"\s*([\w.$]+)\s*==?\s*([^=].*)", piece, re.S)
    if assigned:
        yield Statement(line, "assignment", assigned.group(1), assigned.group(2).strip())
    elif words[0].startswith("."):
        yield Statement(line, "directive", words[0].lower(), operands)
    else:
        yield from read_instruction(line, words[0].lower(), operands)


def read_instruction(line: int, word: str, operands: str) -> Iterator[Statement]:
    """An instruction, after the prefixes that stand before it in the same piece."""
    prefixes = []
    while word in PREFIXES and operands:
        prefixes.append(word)
        word, operands = (operands.split(None, 1) + [""])[:2]
        word = word.lower()
    yield Statement(line, "instruction", word, operands.strip(), tuple(prefixes))


def joined(statements: Iterable[Statement]) -> Iterator[Statement]:
    """The statements, with prefixes that stand by themselves joined to the instruction after them."""
    waiting: Statement | None = None
    for statement in statements:
        alone = statement.kind == "instruction" and statement.word in PREFIXES and not statement.operands
        if alone:
            before = waiting.prefixes + (waiting.word,) if waiting else ()
            waiting = statement._replace(prefixes=before + statement.prefixes)
        elif waiting and statement.kind != "instruction":
            waiting.refuse("a prefix stands apart from its instruction: put them into one statement")
        else:
            prefixes = (*waiting.prefixes, waiting.word, *statement.prefixes) if waiting else statement.prefixes
            waiting = None
            yield statement._replace(prefixes=tuple(word for word in prefixes if word not in DROPPED))
    if waiting:
        waiting.refuse("a prefix stands apart from its instruction: put them into one statement")


def with_bytes_together(statements: Iterable[Statement]) -> Iterator[Statement]:
    """The statements, with those in a row that give bytes as one: clang writes each byte of inline assembly apart."""
    for is_byte, row in groupby(statements, lambda statement: statement.word == ".byte"):
        found = list(row)
        yield from [found[0]._replace(operands=", ".join(statement.operands for statement in found))] if is_byte else found


def statements_of(text: str) -> list[Statement]:
    """All statements of a text."""
    return list(with_bytes_together(joined(statement for line, piece in pieces(text) for statement in read(line, piece))))
