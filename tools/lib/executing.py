"""What the scripts share that run what executes code that changes: examples/sandbox, and boxes."""

from __future__ import annotations

import os
import re
import shutil
import subprocess

from native import compiler, lacking


def missing() -> str | None:
    """What isn't here without which neither can be built, or None."""
    if lacking():
        return lacking()
    for tool in ("as", "ld", "objcopy", "make"):
        if shutil.which(tool) is None:
            return tool
    run = subprocess.run([compiler(), "-m32", "-x", "c", "-c", os.devnull, "-o", os.devnull], capture_output=True)
    return "%s that makes 32-bit code" % compiler() if run.returncode else None


def varies(line: str) -> bool:
    return line.startswith(("counts: ", "times: "))


def plain(text: str) -> str:
    """The text with N for each number that varies."""
    return "\n".join(re.sub(r"\d+(\.\d+)?", "N", line) if varies(line) else line for line in text.split("\n"))
