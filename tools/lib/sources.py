"""What drawings take from the sources: constants, definitions and rows of tests."""

from __future__ import annotations

import ast
import os
import re
from typing import Any

from repository import TOP


class Unread(Exception):
    """A source doesn't have what a drawing takes from it, or two sources differ."""


def source(path: str) -> str:
    with open(os.path.join(TOP, path), encoding="utf-8") as file:
        return file.read()


def found(pattern: str, path: str) -> str:
    """The first group of a pattern in a source."""
    match = re.search(pattern, source(path), re.M | re.S)
    if not match:
        raise Unread(f"{path} has nothing like {pattern}")
    return match[1]


def number(words: str) -> int:
    """A number as Rust and the definitions write it."""
    return int(words.replace("_", ""), 0)


def constant(name: str, path: str) -> int:
    """The value of a constant of a crate."""
    return number(found(rf"\bconst {name}: \w+ = ([0-9A-Fa-fx_]+);", path))


def numbers(name: str, path: str) -> list[int]:
    """The numbers of a constant list of a crate."""
    return [number(word) for word in found(rf"\b{name}: .*? = &?\[(.*?)\];", path).replace("\n", " ").split(",") if word.strip()]


def value_in(name: str, path: str, **names: Any) -> Any:
    """What a test in Python gives a name: an expression over these names, and of builtins only over `bytes`."""
    tree = ast.parse(source(path))
    for one in tree.body:
        if isinstance(one, ast.Assign) and [ast.unparse(target) for target in one.targets] == [name]:
            code = compile(ast.Expression(one.value), path, "eval")
            return eval(code, {"__builtins__": {"bytes": bytes}, **names})
    raise Unread(f"{path} has no {name}")
