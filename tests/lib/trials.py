"""What the scripts share that run a built program at its command lines and compare what it does."""

from __future__ import annotations

import fcntl
import os
import subprocess
import tempfile
from collections.abc import Iterable
from typing import Any


def closed(*numbers):
    """Closes files before the program begins."""
    def close():
        for number in numbers:
            os.close(number)
    return close


class Trials:
    """One program, and how many of its cases were tried and failed."""

    def __init__(self, program: str, folder: str | None = None) -> None:
        self.program, self.folder = program, folder
        self.tried = self.failed = 0

    def lay(self, name: str, content: bytes) -> None:
        """Puts a file into the folder in which the program runs."""
        with open(os.path.join(self.folder, name), "wb") as file:
            file.write(content)

    def run(self, words: list[str], stdin: Any = "", stdout: Any = subprocess.PIPE, stderr: Any = subprocess.PIPE,
            close: Iterable[int] = ()) -> tuple[str, str, int]:
        """What the program writes, and its status. The input is text, bytes, or a file that stands open."""
        given = stdin.encode() if isinstance(stdin, str) else stdin if isinstance(stdin, bytes) else None
        done = subprocess.run([self.program] + words, input=given, stdin=None if given is not None else stdin, stdout=stdout,
                              stderr=stderr, preexec_fn=closed(*close) if close else None, cwd=self.folder, timeout=60)
        return (done.stdout or b"").decode(), (done.stderr or b"").decode(), done.returncode

    def run_unread(self, words: list[str], stdin: str, count: int) -> tuple[str, str, int]:
        """The same where the reader of standard output takes this many bytes and is gone. The pipe holds one page, so a program
        that has more to write than that waits for the reader and doesn't outrun it."""
        reader, writer = os.pipe()
        fcntl.fcntl(writer, fcntl.F_SETPIPE_SZ, 4096)
        if count == 0:
            os.close(reader)
        with tempfile.TemporaryFile() as given, tempfile.TemporaryFile() as err:
            given.write(stdin.encode())
            given.seek(0)
            child = subprocess.Popen([self.program] + words, stdin=given, stdout=writer, stderr=err, cwd=self.folder)
            os.close(writer)
            taken = b""
            while len(taken) < count:
                taken += os.read(reader, count - len(taken))
            if count > 0:
                os.close(reader)
            status = child.wait(timeout=60)
            err.seek(0)
            return taken.decode(), err.read().decode(), status

    def compare(self, name: str, found: object, wanted: object) -> None:
        self.tried += 1
        if found != wanted:
            self.failed += 1
            print("%s: %r in place of %r" % (name, found, wanted))

    def finish(self) -> int:
        """The status to end with, after a line of numbers."""
        print("%d cases, %d failed" % (self.tried, self.failed))
        return 1 if self.failed else 0
