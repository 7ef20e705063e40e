"""What instructions do with registers, and whether %ecx is free where a jump through memory stands."""

from __future__ import annotations

import re
from functools import lru_cache

from .listing import Listing
from .statements import Statement, split_operands

TYPE_CHECKING = False
if TYPE_CHECKING:
    from typing import AbstractSet

ALL = frozenset({"low", "high", "rest"})


def names_of(letters: str) -> dict[str, AbstractSet[str]]:
    """The names of a register, each with the parts that it stands for: the lowest byte, the one above it, and the rest."""
    bytes_of = {f"%{letters[0]}l": {"low"}, f"%{letters[0]}h": {"high"}} if letters.endswith("x") else {}
    return {"%e" + letters: ALL, "%" + letters: ALL - {"rest"}, **bytes_of}


PARTS = {"%e" + letters: names_of(letters) for letters in ("ax", "cx", "dx", "bx", "si", "di", "bp")}
REGISTERS = tuple(PARTS)
# Those in which a call may take arguments, and whose values it doesn't keep. A call keeps the others.
FOR_CALLS = ("%eax", "%ecx", "%edx")

# Instructions that write their last operand without having read it.
MOVES = re.compile(r"(?:mov[bwl]?|mov[sz](?:bl|bw|wl)|lea[lw]?|pop[lw]?|set[a-z]+|bs[fr][lw]?)$")
ZEROING = re.compile(r"(?:xor|sub|sbb)[bwl]?$")
# These give the same whatever was there before: gcc -Os writes `orl $-1, %ecx` in place of a longer move.
CONSTANTS = {("or", "$-1"), ("orl", "$-1"), ("and", "$0"), ("andl", "$0")}
# These change no register that they name last.
READ_ONLY = re.compile(r"(?:cmp|test|push|mul|i?div|bt)[bwl]?$")
# Instructions that use no register but those that they name; beside them, those that do, with what they read and write without naming it.
# Any other one may read all.
PLAIN = re.compile(r"(?:mov[bwl]?|mov[sz](?:bl|bw|wl)|lea[lw]?|(?:add|sub|adc|sbb|and|or|xor|not|neg|inc|dec|cmp|test|push|pop"
                   r"|sh[lr]|sa[lr]|ro[lr]|rc[lr]|bt[src]?|bs[fr]|bswap|xchg|xadd|imul|nop)[bwl]?"
                   r"|(?:set|cmov|j)[a-z]+|calll?|ud2|hlt|pause)$")
UNNAMED: list[tuple[re.Pattern[str], set[str], set[str]]] = [
    (re.compile(r"mull$"), {"%eax"}, {"%edx"}),
    (re.compile(r"mul[bw]?$|c[bw]t[wl]$|cwtd$|cmpxchg[bwl]?$"), {"%eax"}, set()),
    (re.compile(r"cltd$"), {"%eax"}, {"%edx"}),
    (re.compile(r"i?div[bwl]?$"), {"%eax", "%edx"}, set()),
    (re.compile(r"(?:movs|cmps)[bwl]$"), {"%esi", "%edi"}, set()),
    (re.compile(r"(?:stos|scas)[bwl]$"), {"%eax", "%edi"}, set()),
    (re.compile(r"lods[bwl]$"), {"%esi"}, set()),
    # gcc leaves out the count of `shldl %cl, %eax, %edx`.
    (re.compile(r"loop[a-z]*$|jecxz$|sh[lr]d[lw]?$"), {"%ecx"}, set()),
    (re.compile(r"cmpxchg8b$"), {"%eax", "%ecx", "%edx", "%ebx"}, set()),
    (re.compile(r"cpuid$"), {"%eax", "%ecx"}, {"%eax", "%ecx", "%edx", "%ebx"}),
    (re.compile(r"leave$"), {"%ebp"}, set()),
    # A return by %ecx gives back what the others have.
    (re.compile(r"retl?$"), set(REGISTERS) - {"%ecx"}, set()),
]
ENDS = ("call", "ret", "lret", "iret", "ud2", "hlt")
# A call of this and a register's letters gives the register the address of the code, for position-independent code, and changes no other.
OWN_ADDRESS = "__x86.get_pc_thunk."
# Memory at a distance from a register, as an operand.
BESIDE = re.compile(r"\*?(?:\d+|0x[0-9a-fA-F]+)?\((%e\w\w)\)$")


def parts_in(text: str, register: str = "%ecx") -> AbstractSet[str]:
    """The parts of a register that a text names."""
    return set().union(*(PARTS[register].get(name, ()) for name in re.findall(r"%\w+", text)))


def is_move(statement: Statement, operands: list[str]) -> bool:
    """Whether an instruction writes its last operand without having read it."""
    is_constant = ZEROING.match(statement.word) and operands[0] == operands[-1] or (statement.word, operands[0]) in CONSTANTS
    return bool(is_constant or MOVES.match(statement.word) or statement.word.startswith("imul") and len(operands) == 3)


@lru_cache(maxsize=None)
def unnamed_by(word: str) -> tuple[set[str], set[str]]:
    """The registers that instructions of a word read and write without naming them."""
    others: set[str] = set() if PLAIN.match(word) else set(REGISTERS)
    return next(((reads, writes) for pattern, reads, writes in UNNAMED if pattern.match(word)), (others, set()))


def unnamed(statement: Statement) -> tuple[set[str], set[str]]:
    """The same for an instruction, which may be a product of %eax or a repetition."""
    is_product = statement.word.startswith("imul") and "," not in statement.operands
    word = statement.word[1:] if is_product else statement.word
    reads, writes = unnamed_by(word)
    is_repeated = statement.prefixes and statement.prefixes[0].startswith("rep") and not word.startswith(("ret", "nop"))
    return reads | {"%ecx"} if is_repeated else reads, writes


def written(statement: Statement, register: str = "%ecx") -> AbstractSet[str]:
    """The parts of a register that have other values after an instruction, whatever they were before."""
    operands = split_operands(statement.operands)
    if register in unnamed(statement)[1] or statement.operands == OWN_ADDRESS + register[2:]:
        return ALL
    return PARTS[register][operands[-1]] if operands and operands[-1] in PARTS[register] and is_move(statement, operands) else set()


def read(statement: Statement, register: str = "%ecx") -> AbstractSet[str]:
    """The parts of a register that an instruction reads."""
    operands = split_operands(statement.operands)
    if register in unnamed(statement)[0]:
        return ALL
    if not operands or operands[-1] not in PARTS[register] or not is_move(statement, operands):
        return parts_in(statement.operands, register)
    return set() if ZEROING.match(statement.word) else parts_in(", ".join(operands[:-1]), register)


def changes(statement: Statement) -> bool:
    """Whether an instruction gives %ecx another value, whether it has read it or not."""
    operands, names = split_operands(statement.operands), PARTS["%ecx"]
    only_read = READ_ONLY.match(statement.word) or statement.word.startswith("imul") and len(operands) == 1
    named = statement.word.startswith(("xchg", "xadd")) and set(names) & set(operands) or operands and operands[-1] in names
    return bool(written(statement)) or bool(named) and not only_read


def is_set_before(listing: Listing, index: int) -> bool:
    """Whether %ecx was changed before a statement, in the same run of instructions, and not read since."""
    for place in range(index - 1, -1, -1):
        statement = listing.statements[place]
        if statement.kind != "instruction" or statement.word.startswith(("j", *ENDS)):
            return False
        if changes(statement) or read(statement):
            return changes(statement)
    return False


def loads_stack_pointer(statement: Statement, base: str) -> bool:
    """Whether an instruction loads %esp from beside the place that a register points to."""
    operands = split_operands(statement.operands)
    source = BESIDE.match(operands[0]) if statement.word in ("mov", "movl") and operands[1:] == ["%esp"] else None
    return source is not None and source.group(1) == base


def takes_up_state(listing: Listing, index: int) -> bool:
    """Whether a jump through memory takes up a state that was kept, as that of longjmp does. In the same run of instructions %esp was
    loaded from beside the target. Such a state has no %ecx, since a call kept it, unless the function gives %ecx a value."""
    target = BESIDE.match(listing.statements[index].operands)
    base = target.group(1) if target else ""
    has_loaded, is_same_run = False, target is not None
    for place in range(index - 1, -1, -1):
        statement = listing.statements[place]
        if statement.kind == "label" and statement.word in listing.functions:
            break
        if statement.kind == "instruction" and changes(statement):
            return False
        is_same_run = is_same_run and statement.kind == "instruction" and not statement.word.startswith(("j", *ENDS))
        has_loaded = has_loaded or is_same_run and loads_stack_pointer(statement, base)
    return has_loaded
