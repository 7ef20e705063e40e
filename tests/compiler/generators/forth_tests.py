"""The part of tests/compiler/generators about examples/forth, which compiles its words in the box, or interprets them."""

import os
import random
import subprocess

from generators import tell
from native import compiler
from repository import TOP

FORTH = os.path.join(TOP, "examples", "forth")
PROGRAMS, WORDS = 300, 12
# What a word takes from the stack and what it leaves there.
STEPS = {"dup": (1, 2), "drop": (1, 0), "swap": (2, 2), "over": (2, 3), "rot": (3, 3), "+": (2, 1), "-": (2, 1), "*": (2, 1), "and": (2, 1),
         "or": (2, 1), "xor": (2, 1), "invert": (1, 1), "negate": (1, 1), "lshift": (2, 1), "rshift": (2, 1), "=": (2, 1), "<": (2, 1),
         ">": (2, 1), "0=": (1, 1), "1+": (1, 1), "1-": (1, 1), "@": (1, 1), "!": (2, 0), "/": (2, 1), "mod": (2, 1)}


def fibonacci(count):
    a, b = 0, 1
    for _ in range(count):
        yield a
        a, b = b, a + b


def collatz(n):
    steps = 0
    while n > 1:
        n, steps = 3 * n + 1 if n % 2 else n // 2, steps + 1
    return steps


def demonstrated():
    """What demo.fs has to print, line by line, by Python's own arithmetic."""
    primes = sum(all(n % d for d in range(2, int(n ** 0.5) + 1)) for n in range(2, 3000))
    lines = [[1 + 2, 7 - 3, 6 * 7, 17 // 5, 17 % 5, -(17 // 5), 0], [1, 3, 2, 1, 2, 1, 3 * 3], [-1, 0, -1, 0, -1, 0, ~-1, 1 << 5, 15],
             fibonacci(20), *([k * j for j in range(1, 6)] for k in range(1, 6)), [collatz(27), collatz(97)], [primes], [7 ** 2, 7 ** 3],
             [2 ** 10, 3 ** 10]]
    return "".join("".join("%d " % number for number in line) + "\n" for line in lines)


def run(words, script):
    done = subprocess.run(words, input=script, capture_output=True, text=True, timeout=120)
    return done.stdout, done.stderr, done.returncode


def build(place, name, change=lambda text: text):
    """The program for the box, with a change of its compiler."""
    folder = place.below(name)
    with open(os.path.join(FORTH, "compile.c"), encoding="utf-8") as file:
        text = file.read()
    with open(os.path.join(folder, "compile.c"), "w", encoding="utf-8") as file:
        file.write(change(text))
    made = os.path.join(folder, "forth.elf")
    sources = [os.path.join(FORTH, "forth.c"), os.path.join(folder, "compile.c")]
    subprocess.run([place.tool("nc-cc"), "-O2", "-I" + FORTH, *sources, "-o", made], check=True)
    return made


def steps(chance, depth, known):
    """A body that leaves one number more than it finds, from a stack of so many."""
    body, least = [], depth
    for _ in range(chance.randrange(3, 30)):
        name = chance.choice(list(STEPS) + known + ["number", "if", "loop"])
        if name == "number" or depth < 3:
            body.append(str(chance.choice([0, 1, -1, 31, 2**31 - 1, -2**31, chance.randrange(-1000, 1000)])))
            depth += 1
        elif name == "if":
            body.append("if 1+ else negate then")
            depth -= 1
        elif name == "loop":
            body.append("%d 0 do i + loop" % chance.randrange(1, 6))
        elif name in known:
            body.append(name)
            depth += 1
        else:
            taken, left = STEPS[name]
            body.append(name)
            depth += left - taken
    return " ".join(body + ["drop"] * (depth - least - 1) + ["7"] * (least + 1 - depth))


def program(number):
    """Words that call earlier ones, and what each leaves; some are forgotten and made anew."""
    chance, lines, known = random.Random(number), ["5 3 ! 7 11 !"], []
    for k in range(WORDS):
        name = "w%d" % k
        lines.append(": %s %s ;" % (name, steps(chance, 3, list(known))))
        lines.append("1 2 3 %s . . . . 10 emit" % name)
        known.append(name)
        if chance.randrange(4) == 0:
            lines.append("forget " + known.pop())
    return "\n".join(lines) + "\n"


def differences(place, own, box, count):
    """How many scripts print something else in the box than natively, with live code and without."""
    runs = [[place.tool("nc-run"), "--live-code", "1M", box], [place.tool("nc-run"), "--live-code", "4K", box], [place.tool("nc-run"), box]]
    with open(os.path.join(FORTH, "demo.fs"), encoding="utf-8") as file:
        demo = file.read()
    wrong = sum(run(words, demo) != (demonstrated(), "", 0) for words in [[own], *runs])
    for number in range(count):
        script = program(number)
        there = run([own], script)
        wrong += sum(run(words, script) != there for words in runs)
    return wrong


def native(place):
    made = os.path.join(place.below("forth-native"), "forth")
    subprocess.run([compiler(), "-std=gnu11", "-O2", "-DINTERPRETED", os.path.join(FORTH, "forth.c"), "-o", made], check=True)
    return made


def try_all(place, is_slice):
    box = build(place, "forth-box")
    place.accepts(box)
    count = PROGRAMS // 10 if is_slice else PROGRAMS
    wrong = differences(place, native(place), box, count)
    return tell("forth", wrong == 0, "a demonstration and %d programs, %d wrong" % (count, wrong))


# Each is a text of compile.c, and what stands there then.
MUTANTS = [("nce_jump(code, 4,", "nce_jump(code, 5,"), ("nce_jump(code, 12,", "nce_jump(code, 14,"),
           ("nc_code_patch(at, jump, nce_transfer(jump, NCE_ALWAYS, at, address_of(target)), NULL)", "1"),
           ("memcpy(place, &at, sizeof at);", ""), ("nce_call(code, own);", "nce_jump(code, NCE_ALWAYS, own);"),
           ("first + value);\n        RAW(code, \"\\x5F", "first + value + 1);\n        RAW(code, \"\\x5F")]


def try_mutants(place):
    own, right = native(place), True
    for number, (old, new) in enumerate(MUTANTS):
        def change(text, old=old, new=new):
            assert text.count(old) == 1, old
            return text.replace(old, new)
        found = differences(place, own, build(place, "forth-mutant-%d" % number, change), 3)
        right = tell("the mutant %d of forth" % number, found != 0, "found") and right
    return right
