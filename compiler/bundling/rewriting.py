"""The rewriting itself: each statement of a listing as text for GNU as, in bundles."""

import re

from .flags import check_flags
from .listing import Listing
from .notes import ONLY_PADDING, OWN_NOPS, noted
from .registers import REGISTERS, is_set_before, parts_in, takes_up_state
from .statements import JumpRefusal, statements_of
from .tables import PAD, Tables
from .threads import without_threads

BUNDLE = 32
FILL = "0x90"
ALIGNMENTS = {".p2align", ".align", ".balign", ".p2alignw", ".p2alignl", ".balignw", ".balignl"}
FOR_CLANG = {".addrsig", ".addrsig_sym"}
# The name that rustc gives to a text. Its functions return three words in %eax, %edx and %ecx, which a return by %ecx would lose.
OF_RUSTC = re.compile(r'"[^"]*-cgu\.\d+"$')
OWN_ADDRESS = re.compile(r"\tmovl?\t\(%esp\), (%e(?:[a-d]x|[sd]i|bp))$")
VECTORS = ("%mm", "%xmm", "%ymm", "%zmm")
CALLS, JUMPS, RETURNS = {"call", "calll"}, {"jmp", "jmpl"}, {"ret", "retl"}
NONE_FREE = ("each register may have an argument: load the target into one that has none, and go by that register, as compilers do by the "
             "flags of nc-cc --cflags")


class Bundler:
    """What is written, section by section."""

    def __init__(self, listing, keep_returns):
        self.listing, self.keep_returns = listing, keep_returns
        self.tables = Tables(listing)
        self.pads = self.tables.pads()  # labels at which %ecx is still to be restored
        self.keeps_ecx = not keep_returns and any(statement.word == ".file" and OF_RUSTC.search(statement.operands)
                                                  for statement in listing.statements)
        self.has_nops = False  # whether the text has nops of one byte
        self.bases = {}  # code section -> the label at its start, from which places are counted
        self.base = None  # that label for the current section, or None outside of code
        self.out = ["\t.bundle_align_mode 5", "\t.text"]
        self.enter(listing.sections[0] if listing.sections and 0 not in listing.enters else None)

    def emit(self, *lines):
        self.out.extend("\t" + line for line in lines)

    def locked(self, *lines):
        """Instructions that stay together in one bundle."""
        self.emit(".bundle_lock", *lines, ".bundle_unlock")

    def start_bundle(self):
        self.emit(f".p2align 5, {FILL}")

    def end_bundle(self, length):
        """Nops, so that the next `length` bytes end a bundle."""
        self.emit(f".skip ({BUNDLE - length} - (. - {self.base})) & {BUNDLE - 1}, {FILL}")

    def enter(self, section):
        """Another section. Each code section begins a bundle, so that places can be counted from its start."""
        if section is None or not section.is_code:
            self.base = None
            return
        if section not in self.bases:
            self.bases[section] = f".Lbundles_{len(self.bases)}"
            self.start_bundle()
            self.out.append(self.bases[section] + ":")
        self.base = self.bases[section]

    def mask_and_go(self, word, register, before=()):
        self.locked(*before, f"andl $-{BUNDLE}, {register}", f"{word} *{register}")

    def ret(self, index, statement):
        popped = statement.operands.lstrip("$")
        reader = OWN_ADDRESS.match(self.listing.statements[index - 1].text) if index else None
        if self.keep_returns:
            self.out.append(statement.text)
        elif reader and not popped:
            # The function tells its return address, as for position-independent code. Compilers know that it changes no other register.
            self.out.pop()
            self.mask_and_go("jmp", reader.group(1), [f"popl {reader.group(1)}"])
        elif popped:
            self.mask_and_go("jmp", "%ecx", ["popl %ecx", f"addl ${popped}, %esp"])
        else:
            self.emit(*["movl %ecx, -4(%esp)"] * self.keeps_ecx)
            self.mask_and_go("jmp", "%ecx", ["popl %ecx"])

    def call(self, index, statement):
        """A call by a name or by a register. One through memory needs a register for the target, and the text shows none to be free. Behind
        it %ecx is what the function has left below the stack."""
        target = statement.operands
        self.end_bundle(5)  # `and` has 3 bytes, `call` by a register 2
        if not target.startswith("*"):
            self.emit(f"call {target}")
        elif target[1:].strip() in REGISTERS:
            self.mask_and_go("call", target[1:].strip())
        else:
            statement.refuse(NONE_FREE)
        if self.keeps_ecx and self.tables.paths.is_needed_from([self.listing.after.get(index)], "%ecx"):
            self.emit("movl -8(%esp), %ecx")

    def jump(self, index, statement):
        """A jump by a register, or through memory by one into which the target is loaded first."""
        target = statement.operands[1:].strip()
        if target in REGISTERS:
            self.mask_and_go("jmp", target)
            return
        register = "%ecx"
        if self.tables.table_of(statement) is None:
            self.check_free(index, statement)
        elif self.tables.register_for(statement):
            register = self.tables.register_for(statement)
        else:
            self.emit("pushl %ecx")
        self.emit(f"movl {target}, {register}")
        self.mask_and_go("jmp", register)

    def check_free(self, index, statement):
        """Refuses a jump through memory that isn't by a table, unless %ecx is free: the jump takes up a state that was kept, or it goes to
        labels of the function that don't need %ecx. Out of the function it might take arguments along in any register."""
        labels = self.tables.targets(index, statement)
        if not labels and not takes_up_state(self.listing, index):
            statement.refuse(NONE_FREE, JumpRefusal)
        is_set = not parts_in(statement.operands) and is_set_before(self.listing, index)
        if is_set or self.tables.paths.is_needed(labels, "%ecx"):
            statement.refuse("a jump through memory to labels of a function: compile with -fno-jump-tables (a switch), or keep the label's "
                             "address in a register, by -mindirect-branch-register (gcc) or asm(\"\" : \"+r\"(label))", JumpRefusal)

    def finish(self, section):
        """The end of a code section: the labels of tables by which jumps save %ecx, and whole bundles."""
        self.out.append(section.directive)
        for name in sorted(name for name in self.pads if self.listing.sections[self.listing.labels[name]] == section):
            self.restore_before(name)
            self.emit(f"jmp {name}")
        self.start_bundle()

    def instruction(self, index, statement):
        word, operands = statement.word, statement.operands
        if word in RETURNS | CALLS | JUMPS and not all(prefix.startswith("rep") for prefix in statement.prefixes):
            statement.refuse("a prefix before a jump, a call or a return isn't kept: leave it out")
        if word in RETURNS:
            self.ret(index, statement)
        elif word in CALLS:
            self.call(index, statement)
        elif word in JUMPS and operands.startswith("*"):
            self.jump(index, statement)
        elif word == "pause" or word == "nop" or word.startswith("xchg") and operands.replace(" ", "") == "%eax,%eax":
            self.has_nops = True
            self.emit("nop")  # with a prefix it is a hint for loops that wait
        elif word.startswith("bsf") and statement.prefixes:
            self.out.append(statement._replace(prefixes=()).text)  # with the prefix it is TZCNT; a compiler means either
        else:
            self.out.append(statement.text)

    def label(self, index, statement):
        name = statement.word
        if self.base and self.listing.begins_bundle(name, self.tables.padded):
            self.start_bundle()
        elif name in self.pads and self.is_only_jumped_to(index):
            self.restore_before(name)
        self.out.append(statement.text)

    def is_only_jumped_to(self, index):
        """Whether control doesn't come to a label from the instruction before it."""
        before = self.listing.statements[index - 1] if index else None
        return before is not None and before.kind == "instruction" and before.word in JUMPS | RETURNS

    def restore_before(self, name):
        """The place where %ecx is restored on the way from a table to its label."""
        self.pads.remove(name)
        self.start_bundle()
        self.out.append(PAD + name + ":")
        self.emit("popl %ecx")

    def directive(self, index, statement):
        if index in self.listing.enters:
            self.out.append(statement.text)
            self.enter(self.listing.sections[index])
        elif index in self.tables.padded:
            self.out.append(self.tables.replaced(index).text)
        elif self.base and statement.word in ALIGNMENTS:
            self.alignment(statement)
        elif statement.word not in FOR_CLANG:
            self.out.append(statement.text)

    def alignment(self, statement):
        """An alignment in code is for speed, unless it is to more than a bundle."""
        found = re.match(r"(\d+)\s*(?:,[^,]*)?$", statement.operands)
        if not found:
            return
        bits = int(found.group(1)) if statement.word.startswith(".p2") else int(found.group(1)).bit_length() - 1
        if bits > 5:
            self.emit(f".p2align {bits}, {FILL}")

    def write(self):
        """Everything, and whole bundles in each code section."""
        for index, statement in enumerate(self.listing.statements):
            if statement.kind == "label":
                self.label(index, statement)
            elif statement.kind == "directive":
                self.directive(index, statement)
            elif statement.kind == "instruction" and self.base:
                self.instruction(index, statement)
            else:
                self.out.append(statement.text)
        for section in self.bases:
            self.finish(section)
        return noted("\n".join(self.out) + "\n", OWN_NOPS if self.has_nops else ONLY_PADDING)


def rewritten(text: str, keep_returns: bool = False, one_thread: bool = False) -> str:
    """The text in bundles. A Refusal says what isn't kept, and on which line."""
    listing = Listing(without_threads(statements_of(text), text, one_thread))
    listing.check()
    if any(name in text for name in VECTORS):
        from .vectors import check_vectors

        check_vectors(listing)
    check_flags(listing)
    return Bundler(listing, keep_returns).write()
