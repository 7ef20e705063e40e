"""Instructions that are written as bytes, as inline assembly does for assemblers that don't know their names."""

from __future__ import annotations

import re

from .statements import Statement, split_operands

# Permitted ones that do nothing but what their names say. The bytes of all of them are whole instructions.
NAMES = {
    "90": "nop", "6690": "xchgw\t%ax, %ax", "f390": "pause", "0f0b": "ud2", "f4": "hlt", "0fa2": "cpuid", "98": "cwtl", "99": "cltd",
    "c9": "leave", "f3a4": "rep movsb", "f3a5": "rep movsl", "f3aa": "rep stosb", "f3ab": "rep stosl", "f2ae": "repne scasb",
    "f3a6": "repe cmpsb",
    **{f"0fc{8 + number:x}": f"bswap\t%{name}" for number, name in enumerate(["eax", "ecx", "edx", "ebx", "esp", "ebp", "esi", "edi"])},
}
# Those that aren't permitted: a pattern of their digits, and a name.
REFUSED = [
    ("0f01d0", "xgetbv"), ("0f01d1", "xsetbv"), ("0f01d[56]", "xend or xtest"), ("0f01c[ab]", "clac or stac"), ("0f31", "rdtsc"),
    ("0f01f9", "rdtscp"), ("0f05", "syscall"), ("0f34", "sysenter"), ("cd..", "int"), ("cc", "int3"), ("0fc7f[0-7]", "rdrand"),
    ("0fc7f[89a-f]", "rdseed"), ("0fae[ef].", "lfence, mfence or sfence"), ("f30f1efb", "endbr32"), ("f30fb8..", "popcnt"),
    ("(f3)?0fa[67](c0|c8|d0|d8|e0|e8)", "an instruction of PadLock"), ("c3|c2....", "a return"),
]


def digits_of(statement: Statement) -> str | None:
    """The bytes of a directive with plain numbers, as hexadecimal digits, or None."""
    if statement.kind != "directive" or statement.word != ".byte":
        return None
    try:
        return "".join(f"{int(number, 0) & 255:02x}" for number in split_operands(statement.operands))
    except ValueError:
        return None


def named(statement: Statement, text: str) -> Statement:
    """The statement of a permitted instruction."""
    before, _, operands = text.partition("\t")
    *prefixes, word = before.split()
    return statement._replace(kind="instruction", word=word, operands=operands, prefixes=tuple(prefixes))


def instructions_of(statement: Statement) -> list[Statement]:
    """The instructions that a directive gives as bytes, where all of them are permitted ones; otherwise the statement itself."""
    digits, found = digits_of(statement) or "", []
    while digits:
        length = next((length for length in (2, 4, 6) if digits[:length] in NAMES), None)
        if length is None:
            return [statement]
        found.append(named(statement, NAMES[digits[:length]]))
        digits = digits[length:]
    return found or [statement]


def refused_name(statement: Statement) -> str | None:
    """The name of the instruction that a directive gives as bytes, where it isn't permitted, or None."""
    digits = digits_of(statement) or ""
    return next((name for pattern, name in REFUSED if re.fullmatch(pattern, digits)), None)
