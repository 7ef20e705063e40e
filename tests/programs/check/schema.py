"""Whether a value fits a JSON schema, for the words that docs/nc_check.schema.json uses. Another word is an error.

The schema is open to members of later versions. What this version writes it has to describe, so the check also looks for other members.
"""

from __future__ import annotations

import re
from typing import Any

NOTES = {"$schema", "$comment", "$defs", "title", "description"}
TYPES = {"object": dict, "array": list, "string": str, "integer": int}

# The words that judge a value by itself: whether it fits what stands behind the word, and what is said where it doesn't.
PLAIN = {
    "type": (lambda value, name: type(value) is TYPES[name], "%r is no %s"),
    "enum": (lambda value, these: value in these, "%r is not %r"),
    "const": (lambda value, this: value == this, "%r is not %r"),
    "pattern": (lambda value, pattern: re.search(pattern, value), "%r is not %r"),
    "minimum": (lambda value, least: value >= least, "%r is below %r"),
    "minItems": (lambda value, least: len(value) >= least, "%r has fewer than %r"),
    "minLength": (lambda value, least: len(value) >= least, "%r has fewer than %r"),
}


def at(schema: dict[str, Any], path: str) -> dict[str, Any]:
    """The schema that a reference names."""
    for part in path.removeprefix("#/").split("/"):
        schema = schema[part]
    return schema


def misfits_of_word(value: Any, word: str, wanted: Any, whole: dict[str, Any]) -> list[str]:
    """What of a value doesn't fit one word of a schema."""
    if word in PLAIN:
        fits, said = PLAIN[word]
        return [] if fits(value, wanted) else [said % (value, wanted)]
    if word == "required":
        return [f"{value!r} lacks {name}" for name in wanted if name not in value]
    if word == "$ref":
        return misfits(value, at(whole, wanted), whole)
    if word == "properties":
        return [it for name, part in wanted.items() if name in value for it in misfits(value[name], part, whole)]
    if word == "items":
        return [it for part in value for it in misfits(part, wanted, whole)]
    if word == "oneOf":
        fitting = sum(not misfits(value, part, whole) for part in wanted)
        return [] if fitting == 1 else [f"{value!r} fits {fitting} of the forms"]
    return [] if word in NOTES else [f"the schema has the word {word!r}, which isn't known here"]


def misfits(value: Any, schema: dict[str, Any], whole: dict[str, Any]) -> list[str]:
    """What of a value doesn't fit a schema, which is a part of a whole one."""
    return [it for word, wanted in schema.items() for it in misfits_of_word(value, word, wanted, whole)]


def forms(schema: dict[str, Any], whole: dict[str, Any]) -> list[dict[str, Any]]:
    """A schema with those that it refers to, and those of which one has to fit."""
    parts = [at(whole, schema["$ref"])] if "$ref" in schema else []
    return [schema] + [form for part in parts + schema.get("oneOf", []) for form in forms(part, whole)]


def undescribed(value: Any, schemas: list[dict[str, Any]], whole: dict[str, Any]) -> list[str]:
    """The members of a value, at any depth, that none of these schemas describes."""
    every = [form for schema in schemas for form in forms(schema, whole)]
    found: list[str] = []
    if type(value) is list:
        for part in value:
            found += undescribed(part, [form["items"] for form in every if "items" in form], whole)
    elif type(value) is dict:
        for name, part in value.items():
            described = [form["properties"][name] for form in every if name in form.get("properties", {})]
            found += undescribed(part, described, whole) if described else ["%r isn't described" % name]
    return found


def strict_misfits(value: Any, schema: dict[str, Any]) -> list[str]:
    """What of a value doesn't fit a whole schema, or isn't described there."""
    return misfits(value, schema, schema) + undescribed(value, [schema], schema)
