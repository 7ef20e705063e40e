"""What nc-bundle makes of functions that exceptions leave: landing pads, their tables, and the registers that a caller gets back."""

from __future__ import annotations

import os
import subprocess
import sys

from beneath import COMPILE

CALL = "\t.cfi_startproc\n\t.cfi_lsda 0,.L9\n.L1:\n\tcall g\n.L2:\n\tret\n.L3:\tmovl %eax, %ebx\n\tcall h\n\t.cfi_endproc\n"
TABLE = "\t.section .gcc_except_table,\"a\",@progbits\n.L9:\t"
PLAIN, TYPED, OTHER = ".byte 0xff\n\t.byte 0xff\n\t.byte 0x1", ".byte 255, 0\n\t.uleb128 .L8-.L7\n.L7:\t.byte 1", ".byte 0xff, 0xff, 0x3"
ROWS = "\n\t.uleb128 .L6-.L5\n.L5:\n\t.uleb128 .L1-f\n\t.uleb128 .L2-.L1\n\t.uleb128 .L3-f\n\t.uleb128 0\n.L6:\n"
PAIRS = ROWS.replace("\t.uleb128 0\n", "\t.byte 0\n\t.uleb128 .L2-f\n\t.uleb128 .L3-.L2\n\t.byte 0\n\t.byte 0\n")
AT_BUNDLE, MEASURED = "\t.p2align 5, 0x90\n.L3:\n", "\t.cfi_lsda\t0,.L9\n.L1:\n"

SWITCH = "f:\t.cfi_startproc\n{}\tjmp *.L4(,%eax,4)\n.L5:\tcall g\n{}\t.cfi_endproc\n\t.section .rodata\n.L4:\t.long .L5\n"
SAVED = "\t.cfi_offset 6, -8\n"
BY_ESI, BY_STACK = "\tmovl .L4(,%eax,4), %esi\n", "\tpushl %ecx\n\tmovl .L4(,%eax,4), %ecx\n"
ENDS = "\tud2\n"

# A name, a text, and a part of what is written, or of what is said where nothing is.
FORMS = [
    ("a landing pad begins a bundle", "f:" + CALL + TABLE + PLAIN + ROWS, AT_BUNDLE),
    ("the places of calls stay between instructions", "f:" + CALL + TABLE + PLAIN + ROWS, MEASURED),
    ("a table with types", "f:" + CALL + TABLE + TYPED + ROWS + ".L8:\n", AT_BUNDLE),
    ("bytes in the rows, as clang writes them", "f:" + CALL + TABLE + PLAIN + PAIRS, AT_BUNDLE),
    ("a row without a landing pad", "f:" + CALL + TABLE + PLAIN + ROWS.replace(".L3-f", "0"),
     "\t.bundle_unlock\n.L3:"),
    ("rows of another form", "f:" + CALL + TABLE + OTHER + ROWS, "line 11, `.L9:`: a table of exceptions in a form that isn't read"),
    ("landing pads from another place", "f:" + CALL + TABLE + ".byte 0, 255, 1" + ROWS, "line 11, `.L9:`: a table of exceptions in"),
    ("a row that isn't whole", "f:" + CALL + TABLE + PLAIN + ROWS.replace("\t.uleb128 0\n", ""),
     "line 11, `.L9:`: a table of exceptions in"),
    ("rows without an end", "f:" + CALL + TABLE + PLAIN + ROWS.replace(".L6:\n", ""),
     "line 11, `.L9:`: a table of exceptions in"),
    ("a place beside a landing pad", "f:" + CALL + TABLE + PLAIN + ROWS.replace(".L3-f", ".L3-f+1"),
     "line 18, `.uleb128 .L3-f+1`: where an exception lands has to be"),
    ("a landing pad elsewhere", "f:" + CALL + TABLE + PLAIN + ROWS.replace(".L3-f", "g-f"), "line 18, `.uleb128 g-f`: where"),
    ("a table without a head", "f:" + CALL + TABLE + ".byte 0xff\n", "line 11, `.L9:`: a table of exceptions in"),
    ("a table without a function", "f:" + CALL.replace("\t.cfi_lsda 0,.L9\n", "") + TABLE + PLAIN + ROWS,
     "line 15, `.uleb128 .L1-f`"),
    ("a jump to a landing pad alone", "f:\tjmp *8(%eax)\n" + CALL + TABLE + PLAIN + ROWS, "go by that register"),
    ("a frame has its caller's register", SWITCH.format(SAVED, ENDS), BY_ESI),
    ("a frame hasn't it", SWITCH.format("", ENDS), BY_STACK),
    ("a frame has it no more", SWITCH.format(SAVED + "\t.cfi_restore %esi\n", ENDS), BY_STACK),
    ("a frame has it again",
     SWITCH.format("\t.cfi_offset %esi, -8\n\t.cfi_remember_state\n\t.cfi_restore 6\n\t.cfi_restore_state\n", ENDS), BY_ESI),
    ("a frame for a debugger", "\t.cfi_sections .debug_frame\n" + SWITCH.format("", "\tpopl %esi\n" + ENDS),
     "\tmovl .L4(,%eax,4), %ebx\n"),
    ("a landing pad reads it",
     SWITCH.format(SAVED + "\t.cfi_lsda 0,.L9\n.L1:\n", ".L2:\n\tud2\n.L3:\tpushl %esi\n\tud2\n") + TABLE + PLAIN + ROWS,
     BY_STACK),
]


def wrong_form(name: str, text: str, part: str) -> str:
    """What is wrong with a form, or nothing."""
    done = subprocess.run([sys.executable, os.path.join(COMPILE, "nc-bundle")], input=text, capture_output=True, text=True)
    return "" if part in done.stdout or part in done.stderr else f"exceptions, {name}: {done.stdout or done.stderr!r} without {part!r}"


def try_exceptions(word: str) -> tuple[int, int]:
    """How many rows were tried whose names have the word, and how many differ."""
    forms = [row for row in FORMS if word in "exceptions, " + row[0]]
    wrong = [said for said in (wrong_form(*row) for row in forms) if said]
    for said in wrong:
        print(said)
    return len(forms), len(wrong)
