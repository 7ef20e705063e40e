"""What is kept of the answers of compilers about themselves."""

from __future__ import annotations

import os

from .keeping import folder

TYPE_CHECKING = False
if TYPE_CHECKING:
    from collections.abc import Callable, Sequence

# A compiler looks for its parts as these say, too.
DECIDING = ("GCC_EXEC_PREFIX", "COMPILER_PATH", "CPATH", "CPLUS_INCLUDE_PATH", "CCC_OVERRIDE_OPTIONS")


def on_path(name: str) -> str | None:
    """The file that a command's name stands for."""
    places = [""] if "/" in name else os.environ.get("PATH", os.defpath).split(os.pathsep)
    found = (os.path.join(place, name) for place in places)
    return next((path for path in found if os.path.isfile(path) and os.access(path, os.X_OK)), None)


def kept_at(words: Sequence[str], question: str) -> str | None:
    """The file for a command's answer, or None where the answer may be another one next time. Only a compiler itself always says the same,
    and neither a script nor a program such as ccache, which asks another one."""
    place, path = folder(), on_path(words[0]) if len(words) == 1 else None
    if place is None or path is None or any(name in os.environ for name in DECIDING):
        return None
    real = os.path.realpath(path)
    if not any(name in os.path.basename(real) for name in ("gcc", "clang")):
        return None
    with open(real, "rb") as file:
        is_program = file.read(4) == b"\x7fELF"
    about = os.stat(real)
    parts = ("answers", os.path.abspath(path).replace("/", "%"), f"{about.st_mtime_ns}-{about.st_size}", question.replace("/", "%"))
    return os.path.join(place, *parts) if is_program else None


def kept(words: Sequence[str], question: str, ask: Callable[[], str]) -> str:
    """A command's answer to a question: the one that is kept, or else a new one."""
    path = kept_at(words, question)
    if path is None:
        return ask()
    try:
        with open(path, encoding="utf-8", errors="replace") as file:
            return file.read()
    except OSError:
        answer = ask()
    try:
        os.makedirs(os.path.dirname(path), exist_ok=True)
        with open(f"{path}.{os.getpid()}", "w", encoding="utf-8", errors="replace") as file:
            file.write(answer)
        os.replace(f"{path}.{os.getpid()}", path)
    except OSError:
        pass  # then it is asked again
    return answer
