"""The manual pages and completions of nc-cc and the other scripts that are installed, against their help."""

from __future__ import annotations

import os
import re
import subprocess

from repository import TOP

COMPILE = os.path.join(TOP, "compiler")
COMPLETIONS = os.path.join(TOP, "packaging", "completions")
# The scripts, by the folders that they are in.
SCRIPTS = {"nc-cc": "compiler", "nc-bundle": "compiler", "nc-rustc": "compiler", "nc-gdb": "debugger"}
# An option with its value, in the words before the two spaces of a line of help.
OPTION = re.compile(r"(?<![\w.-])(-W[al],|-###|--?\w[\w-]*)")
ASK = 'source "$1"; COMP_WORDS=("$2" -); COMP_CWORD=1; _${2//-/_}; printf "%s\\n" "${COMPREPLY[@]}"'


def options_of(name):
    """The options that lines of the help are about."""
    text = subprocess.run([os.path.join(TOP, SCRIPTS[name], name), "--help"], capture_output=True, text=True, check=True).stdout
    return {option for line in re.findall(r"^  (-.*)$", text, re.M) for option in OPTION.findall(line.replace("-jN", "-j"))}


def page_slips(name: str) -> list[str]:
    """Options that the page lacks, and examples that print something else than the page says."""
    with open(os.path.join(TOP, "docs", "man", name + ".1"), encoding="utf-8") as page:
        text = page.read()
    named = {"-" + word for word in re.findall(r"\bFl (\S+)", text)}
    slips = [f"{name}: no option {option}" for option in sorted(options_of(name)) if option.rstrip(",") not in named]
    for command, printed in re.findall(r"^\.Bd -literal -offset indent\n\$ (.*)\n((?:(?!\.Ed).*\n)*)", text, re.M):
        words = command.replace("\\e", "\\")
        env = {**os.environ, "PATH": COMPILE + ":" + os.environ["PATH"]}
        found = subprocess.run(["sh", "-c", words], env=env, capture_output=True, text=True).stdout
        slips += [] if found == printed else [f"{name}: example {command}: {found!r} in place of {printed!r}"]
    return slips


def pages() -> list[str]:
    return [os.path.join(TOP, "docs", "man", name + ".1") for name in SCRIPTS]


def offered(name):
    """The options that bash completes, and those that the file for zsh names."""
    done = subprocess.run(["bash", "-c", ASK, "bash", os.path.join(COMPLETIONS, name + ".bash"), name], capture_output=True, text=True)
    with open(os.path.join(COMPLETIONS, "_" + name), encoding="utf-8") as file:
        text = file.read().replace("\\#", "#")
    groups = ",".join(re.findall(r"'\{([^}]*)\}'", text)).split(",")
    alone = [word[:-1] if word.endswith("-") else word for word in re.findall(r"^ *'(?:\(- \*\)|\*)?(--?[\w#][\w#,-]*)\[", text, re.M)]
    return set(done.stdout.split()) or {done.stderr}, set(alone) | set(groups)


def completion_slips() -> list[str]:
    """Where a completion isn't what the help says."""
    slips = []
    for name in SCRIPTS:
        for shell, found in zip(("bash", "zsh"), offered(name)):
            differing = found ^ options_of(name)
            slips += [f"{name}: {shell}: {' '.join(sorted(differing))}"] if differing else []
    return slips
