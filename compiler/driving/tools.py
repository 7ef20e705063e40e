"""The tools beneath the driver: which they are, by the variables that name them, and how they are run."""

from __future__ import annotations

import functools
import os

from .caching import kept
from .faults import Fault

TYPE_CHECKING = False
if TYPE_CHECKING:
    from collections.abc import Callable, Sequence

# The tools by the variables that name them; NC_CC and the like come first.
TOOLS = {"CC": "gcc", "AS": "as", "LD": "ld"}
# nc-cc sets this variable for all that it runs. Where it is set already, a tool has led back to nc-cc, which says so and ends.
ABOVE = "NC_CC_ABOVE"
LED_BACK = "called by nc-cc as one of its tools: name those beneath by NC_CC, NC_AS and NC_LD, such as gcc, as and ld"
OWN = ("nc-cc", "nc-c++")
IGNORED = (13, 25)  # SIGPIPE and SIGXFSZ, which Python ignores, and tools don't


def missing(name: str, fault: OSError) -> Fault:
    """A tool that can't be run."""
    return Fault(f"{name}: {fault.strerror}; Debian has gcc, clang and binutils")


def run(words: Sequence[str], caught: Sequence[int] = (), meanwhile: Callable[[], None] = lambda: None) -> tuple[int, str]:
    """The status of a command, and what it writes to the files of these numbers, 1 and 2. With these it reads nothing. `meanwhile` is
    called while it runs. To load the module subprocess would take half as long as to compile a small source."""
    reader, writer = os.pipe()
    actions = [(os.POSIX_SPAWN_DUP2, writer, number) for number in caught]
    nothing = [(os.POSIX_SPAWN_OPEN, 0, os.devnull, os.O_RDONLY, 0)] if caught else []
    try:
        started = os.posix_spawnp(words[0], list(words), os.environ, file_actions=[*actions, *nothing], setsigdef=IGNORED)
    except OSError as fault:
        os.close(reader)
        raise missing(words[0], fault) from None
    finally:
        os.close(writer)
    meanwhile()
    with open(reader, encoding="utf-8", errors="replace") as file:
        said = file.read() if caught else ""
    status = os.waitpid(started, 0)[1]
    return os.WEXITSTATUS(status) if os.WIFEXITED(status) else -os.WTERMSIG(status), said


def asked(words: Sequence[str]) -> str:
    """What a command says that is to end soon."""
    import subprocess  # and shlex below: few runs need them

    try:
        return subprocess.run(words, stdin=subprocess.DEVNULL, stdout=subprocess.PIPE, stderr=subprocess.STDOUT, encoding="utf-8",
                              errors="replace", timeout=10).stdout
    except subprocess.TimeoutExpired as fault:
        raise Fault(f"{' '.join(words)} hasn't ended after {fault.timeout} seconds") from None
    except OSError as fault:
        raise missing(words[0], fault) from None


@functools.lru_cache(maxsize=None)
def version(words: tuple[str, ...]) -> str:
    """What a tool says of its version; an nc-cc that it starts says LED_BACK."""
    return kept(words, "--version", lambda: asked([*words, "--version"]))


def is_own(word: str) -> bool:
    """Whether a word names nc-cc, which needn't be there from this folder. Options and settings of variables name no command."""
    return os.path.basename(word) in OWN and not word.startswith("-") and "=" not in word and not os.path.isdir(word)


def leads_back(words: tuple[str, ...]) -> bool:
    """Whether a command runs nc-cc: one of its words names it, or what the command starts is nc-cc and says so."""
    return any(map(is_own, words)) or LED_BACK in version(words)


def words_of(variable: str) -> tuple[str, ...]:
    import shlex

    try:
        words = tuple(shlex.split(os.environ[variable]))
    except ValueError as fault:
        raise Fault(f"{variable}: {fault}") from None
    if not words:
        raise Fault(f"{variable} is empty")
    return words


@functools.lru_cache(maxsize=None)
def tool(name: str) -> tuple[str, ...]:
    """The words of a tool: for CC those of NC_CC, else those of CC where they don't lead back to nc-cc, else gcc."""
    own = "NC_" + name
    if own in os.environ:
        if leads_back(words_of(own)):
            raise Fault(f"{own} leads back to nc-cc: name a tool beneath it, such as {TOOLS[name]}")
        return words_of(own)
    if name in os.environ and not leads_back(words_of(name)):
        return words_of(name)
    return (TOOLS[name],)


def is_clang() -> bool:
    return "clang" in version(tool("CC"))
