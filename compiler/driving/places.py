"""Where the parts of nc-cc are, and where it puts what is between the steps."""

from __future__ import annotations

import os

from .faults import Fault

HOST = ".host"  # the section, beside the chunk, of a host with which a program runs on Linux itself: see chunk.ld
CXX = "c++"  # where libstdc++'s headers are, beside the C library


class Places:
    """The parts, counted from the folder of nc-cc: in the repository, or installed."""

    def __init__(self, here: str) -> None:
        self.here = here
        self.rewriter = self.there("nc-bundle")
        self.guest = ["-idirafter", self.there("../sandbox/guest", "../share/reedbodkin/guest")]
        self.libc = os.path.normpath(os.path.join(here, "../share/reedbodkin/libc"))
        self.has_libc = os.path.isdir(self.libc)
        self.has_libstdcxx = os.path.isdir(os.path.join(self.libc, CXX))

    def there(self, *paths: str) -> str:
        """The first of these that is there."""
        places = [os.path.normpath(os.path.join(self.here, path)) for path in paths]
        return next((place for place in places if os.path.exists(place)), places[0])

    def script(self) -> str:
        return self.there("runtime/chunk.ld", "../share/reedbodkin/chunk.ld")

    def runtime(self) -> str:
        return os.path.dirname(self.there("runtime/start.c", "../share/reedbodkin/runtime/start.c"))


class Folder:
    """The folder of the files between the steps, which is made for the first of them, and goes with them unless `kept` names it."""

    def __init__(self, kept: str | None) -> None:
        self.kept, self.made = kept, ""

    def __enter__(self) -> Folder:
        return self

    def __exit__(self, *_: object) -> None:
        if self.made and self.kept is None:
            for name in os.listdir(self.made):
                os.remove(os.path.join(self.made, name))
            os.rmdir(self.made)

    def path(self, name: str) -> str:
        """A file in it."""
        if not self.made:
            path = self.kept or os.path.join(os.environ.get("TMPDIR") or "/tmp", "nc-cc-" + os.urandom(8).hex())
            try:
                os.makedirs(path, 0o777 if self.kept else 0o700, exist_ok=self.kept is not None)
            except OSError as fault:
                raise Fault(f"{path}: {fault.strerror}") from None
            self.made = path
        return os.path.join(self.made, name)
