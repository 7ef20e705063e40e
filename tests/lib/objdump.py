"""What objdump prints of bytes of code."""

from __future__ import annotations

import subprocess
import sys
import tempfile
from collections.abc import Iterator


def lines_of(code: bytes, *options: str) -> Iterator[str]:
    """The lines of objdump's listing of 32-bit code, from address 0 on. If objdump fails, the script that asks ends."""
    with tempfile.NamedTemporaryFile() as file:
        file.write(code)
        file.flush()
        words = ["objdump", "-D", "-b", "binary", "-m", "i386", *options, file.name]
        with subprocess.Popen(words, stdout=subprocess.PIPE, text=True) as process:
            yield from process.stdout
        if process.returncode:
            sys.exit(f"objdump ended with status {process.returncode}")
