"""What becomes of tables for jumps: which register a jump by one overwrites, and what nc-cc does about one that can't be kept."""

from __future__ import annotations

import os
import subprocess
import sys

from beneath import COMPILE, DRIVER, ended, lacking, write

TABLE = "\t.section .rodata\n.L4:\t.long .L5\n"


def jump_by(register):
    """The text of a jump by a table whose index is in %eax."""
    return f"\tmovl .L4(,%eax,4), {register}\n\t.bundle_lock\n\tandl $-32, {register}\n\tjmp *{register}\n\t.bundle_unlock\n"


SAVING = "\tpushl %ecx\n" + jump_by("%ecx")
RESTORING = "\t.p2align 5, 0x90\n.Lrestores_ecx_.L5:\n\tpopl %ecx\n"
# A name, what stands at the label of the table, other statements, a part of what is written, and what is first in the text if anything is.
FORMS: list[tuple[str, ...]] = [
    ("its index is written", "movl $1, %eax\n\tret", "", jump_by("%eax")),
    ("its index is read", "movl (%eax), %eax\n\tret", "", jump_by("%ecx")),
    ("a part of its index is read", "movb $1, %al\n\tmovl %eax, %ecx\n\tret", "", jump_by("%ecx")),
    ("a return has its index", "ret", "", jump_by("%ecx")),
    ("a path reads it", "testl %ebx, %ebx\n\tje 1f\n\tmovl $1, %eax\n\tret\n1:\tincl %eax\n\tret", "", jump_by("%ecx")),
    ("a round leads to the jump again", "movl $1, %ecx\n\tjmp f", "", jump_by("%ecx")),
    ("the next byte is read by it", "cltd\n\tret", "", jump_by("%ecx")),
    ("a count is read", "rep stosl\n\tpopl %ebx\n\tret", "", jump_by("%ebx")),
    ("a quotient", "divl %ecx\n\tpopl %edi\n\tret", "", jump_by("%edi")),
    ("a product", "movl $7, %ecx\n\tmull %ecx\n\tret", "", jump_by("%ecx")),
    ("a call outside", "call g\n\tret", "", SAVING),
    ("a call by a pointer", "movl $g, %eax\n\tcall *%eax\n\tmovl $1, %ebx\n\tret", "", jump_by("%eax")),
    ("a call that keeps a register", "call g\n\tpopl %esi\n\tret", "", jump_by("%esi")),
    ("a call inside, with an argument", "call g\n\tret", "g:\taddl %eax, %ecx\n\tmovl $1, %edx\n\tret\n", jump_by("%edx")),
    ("a call of a weak function", "call g\n\tret", "\t.weak g\ng:\tmovl $1, %eax\n\tret\n", SAVING),
    ("the same, if it isn't weak", "call g\n\tret", "g:\tmovl $1, %eax\n\tret\n", jump_by("%eax")),
    ("a shift of two words", "shldl %eax, %edx\n\tpopl %ebx\n\tret", "", jump_by("%ebx")),
    ("a jump outside", "jmp g", "", SAVING),
    ("a jump by a pointer", "movl $g, %eax\n\tjmp *%eax", "", jump_by("%eax")),
    ("an instruction that isn't known", "xlat\n\tud2", "", SAVING),
    ("a place before its label", "call g\n\tret", "", "\t.bundle_unlock\n" + RESTORING + ".L5:\n\t.skip"),
    ("a place elsewhere, since control comes to its label", "nop\n.L5:\tcall g\n\tret", "", RESTORING + "\tjmp .L5\n"),
    ("flags but the carry are written before they are read", "incl %eax\n\tje g\n\tret", "", "\tjmp *%ecx\n"),
    ("all flags are written before they are read", "shll $2, %eax\n\tjbe g\n\tret", "", "\tjmp *%ecx\n"),
    ("a jump by a pointer, behind data without a label", "jmp *%edx\n.L6:\tmovl $1, %eax\n\tret", "", SAVING,
     "\t.section .rodata\n\t.long .L6\n\t.text\n"),
    ("a name behind it", "movl $1, %eax\n\tret", TABLE.replace("L4", "L6") + "\t.weak h\n\t.set h, f\n\t.text\n", jump_by("%eax")),
]

# A compiler whose code has a table that can't be kept, unless it is told to make none, and a source with such a jump by hand.
TABLED = '#!/bin/sh\ncase "$*" in *-fno-jump-tables*) exec gcc "$@" ;; esac\nexec gcc -DTABLED "$@"\n'
SOURCE = """void start(void) {
#if defined TABLED || defined BY_HAND
    __asm__ volatile("jmp *8(%eax)");
#endif
}
"""
ONCE, AGAIN = " -S -x c it.c ", " -fno-jump-tables -S -x c it.c "
REFUSED = "nc-cc: it.c: assembly text, line "
# A name, words for nc-cc, its status, how often it compiles, and a part of what it says. What it shows has to work in a shell.
LINES = [
    ("a table that is refused", [], 0, 3, AGAIN),
    ("tables that are asked for", ["-fjump-tables"], 0, 3, AGAIN),
    ("no tables", ["-fno-jump-tables"], 0, 1, ONCE),
    ("a jump by hand", ["-DBY_HAND"], 1, 3, REFUSED),
    ("a jump by hand, no tables", ["-fno-jump-tables", "-DBY_HAND"], 1, 1, REFUSED),
]


def text_of(there, others, first):
    """A function with a jump by a table, and what is at the table's label."""
    label = "" if ".L5:" in there else ".L5:"
    return f"{first}f:\tjmp *.L4(,%eax,4)\n{label}\t{there}\n{others}{TABLE}"


def wrong_form(name, there, others, part, first=""):
    """What is wrong with a form, or nothing."""
    words = [sys.executable, os.path.join(COMPILE, "nc-bundle")]
    done = subprocess.run(words, input=text_of(there, others, first), capture_output=True, text=True)
    return "" if part in done.stdout else f"table, {name}: {done.stdout or done.stderr!r} without {part!r}"


def wrong_line(folder, name, words, status, times, part):
    """What is wrong with a line of nc-cc, or nothing."""
    env = {**os.environ, "NC_CC": os.path.join(folder, "tabled")}
    got, said = ended([sys.executable, DRIVER, "-v", "-save-temps", *words, "it.c", "-o", "it"], env=env, cwd=folder)
    is_shown = got != 0 or subprocess.run(["sh", "-e"], input=said, text=True, cwd=folder, stderr=subprocess.DEVNULL).returncode == 0
    is_right = is_shown and got == status and part in said and said.count(ONCE) == times
    return "" if is_right else f"table, {name}: status {got}, {said!r}, and not status {status}, {part!r}, compiled {times} times"


def try_tables(folder: str, word: str) -> tuple[int, int]:
    """How many rows were tried whose names have the word, and how many differ."""
    has_compiler = "gcc" not in lacking()
    if not has_compiler:
        print("skipped: nc-cc about tables that can't be kept: gcc that makes 32-bit code isn't there")
    os.makedirs(folder)
    write(os.path.join(folder, "tabled"), TABLED, 0o755)
    write(os.path.join(folder, "it.c"), SOURCE)
    forms = [row for row in FORMS if word in "table, " + row[0]]
    lines = [row for row in LINES if has_compiler and word in "table, " + row[0]]
    wrong = [said for said in [*(wrong_form(*row) for row in forms), *(wrong_line(folder, *row) for row in lines)] if said]
    for said in wrong:
        print(said)
    return len(forms) + len(lines), len(wrong)
