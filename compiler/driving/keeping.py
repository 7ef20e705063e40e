"""The folder for what is kept from one run to the next: `reedbodkin` below XDG_CACHE_HOME or ~/.cache, where no other user may write."""

from __future__ import annotations

import os
import sys


def folder() -> str | None:
    """The folder for all that is kept, or None where it can't be."""
    home, above = os.environ.get("HOME", ""), os.environ.get("XDG_CACHE_HOME")
    if not above and not os.path.isdir(home):
        return None
    path = os.path.join(above or os.path.join(home, ".cache"), "reedbodkin")
    try:
        os.makedirs(path, 0o700, exist_ok=True)
        about = os.stat(path)
    except OSError:
        return None
    return path if os.path.isabs(path) and about.st_uid == os.geteuid() and not about.st_mode & 0o022 else None


def keep_modules() -> None:
    """Has Python keep the modules that it compiles from here on, and take those that are kept."""
    place = folder()
    sys.dont_write_bytecode = place is None
    if place is not None:
        sys.pycache_prefix = os.path.join(place, "modules")
