"""Foreign files: bytes, texts and JSON of bounded size, each fault in one line that names the file.

JSON is checked by the definitions of report.schema.json before it is used, so that no reader meets a wrong type, a
number out of range, or one that is not finite.
"""
from __future__ import annotations

import functools
import itertools
import json
import math
import pathlib
import re
import stat
import sys
from typing import Any, BinaryIO, NoReturn

from .machine import Refused

MOST_JSON = 128_000_000  # bytes of what lte_cli or lte_survey wrote
LARGEST = 1e18  # absolute value of a number that has no bound of its own
SHOWN = 60  # characters of a value in a refusal
TYPES: dict[str, tuple[type, ...]] = {
    "object": (dict,),
    "array": (list,),
    "string": (str,),
    "boolean": (bool,),
    "null": (type(None),),
    "integer": (int,),
    "number": (int, float),
}


# ---- bytes


def read(path: pathlib.Path, most: int) -> bytes:
    """Returns a regular file's bytes; refuses one of more than `most` bytes."""
    kind = path.stat().st_mode
    if not stat.S_ISREG(kind):
        raise Refused(f"{path}: {'a directory' if stat.S_ISDIR(kind) else 'not a regular file'}: name a file")
    with path.open("rb") as file:
        return limited(file, str(path), most)


def read_input(most: int) -> bytes:
    """Returns the bytes of standard input; refuses more than `most`."""
    return limited(sys.stdin.buffer, "standard input", most)


def limited(file: BinaryIO, name: str, most: int) -> bytes:
    """Returns the rest of a file; refuses more than `most` bytes."""
    data = file.read(most + 1)
    if len(data) > most:
        raise Refused(f"{name}: more than {most:,} bytes: a shorter file is needed")
    return data


def shown(value: object) -> str:
    """Returns a value's text for a refusal: one line, cut where it is long."""
    text = repr(value) if not isinstance(value, int) or abs(value) < 10**SHOWN else "a number of many digits"
    return text if len(text) <= SHOWN else f"{text[:SHOWN]}.."


def delimiter_of(text: str) -> str:
    """Returns the separator of the fields of a CSV file: a comma, or if the head line has none a semicolon or a tab."""
    head = text.partition("\n")[0]
    return next((one for one in ";\t" if one in head and "," not in head), ",")


# ---- JSON


def parsed(data: bytes, name: str) -> Any:
    """Returns the value of a JSON text; refuses one that is not JSON, nested too deeply, or has NaN or Infinity."""

    def constant(text: str) -> NoReturn:
        raise ValueError(f"{text} is not a number of JSON")

    try:
        return json.loads(data, parse_constant=constant)
    except RecursionError:
        raise Refused(f"{name}: JSON nested too deeply") from None
    except UnicodeDecodeError:
        raise Refused(f"{name}: not JSON: the text is not UTF-8") from None
    except ValueError as fault:
        is_long = "integer string conversion" in str(fault)
        raise Refused(
            f"{name}: {'a number of more digits than are read' if is_long else f'not JSON: {fault}'}"
        ) from None


@functools.cache
def schema() -> dict[str, Any]:
    """Returns the JSON Schema of the outputs."""
    found: dict[str, Any] = json.loads((pathlib.Path(__file__).parent / "report.schema.json").read_text())
    return found


def check(value: object, definition: str, name: str) -> None:
    """Refuses a value that is not as a definition of the schema has it; keys that it does not have are allowed."""
    if fault := fault_of(value, {"$ref": f"#/$defs/{definition}"}, ""):
        raise Refused(f"{name}: {fault}")


def resolved(form: dict[str, Any]) -> dict[str, Any]:
    """Returns a form with its reference followed."""
    while "$ref" in form:
        form = referred(form["$ref"])
    return form


@functools.cache
def referred(reference: str) -> dict[str, Any]:
    """Returns the form that a reference names."""
    found: Any = schema()
    for part in reference.removeprefix("#/").split("/"):
        found = found[part]
    form: dict[str, Any] = found
    return form


def fault_of(value: object, form: dict[str, Any], place: str) -> str | None:
    """Returns where and how a value differs from a form of the schema, or nothing."""
    form = resolved(form)
    if "oneOf" in form:
        faults = [fault_of(value, one, place) for one in form["oneOf"]]
        return None if None in faults else faults[-1]
    where = place or "the whole"
    if "enum" in form or "const" in form:
        allowed = form["enum"] if "enum" in form else [form["const"]]
        is_listed = any(value == one and type(value) is type(one) for one in allowed)
        return None if is_listed else f"{where}: {shown(value)} is not one of {', '.join(map(str, allowed))}"
    kinds = form.get("type", [])
    kinds = [kinds] if isinstance(kinds, str) else kinds
    if kinds and not any(is_kind(value, kind) for kind in kinds):
        return f"{where}: {shown(value)} is not {' or '.join(kinds)}"
    if isinstance(value, bool) or value is None:
        return None
    if isinstance(value, (int, float)):
        return fault_of_number(value, form, where)
    if isinstance(value, str):
        is_like = re.search(form.get("pattern", ""), value) and not ("pattern" in form and value.endswith("\n"))
        return None if is_like else f"{where}: {shown(value)} does not have the form {form['pattern']}"
    if isinstance(value, list):
        return fault_of_list(value, form, place)
    return fault_of_object(value, form, place) if isinstance(value, dict) else None


def is_kind(value: object, kind: str) -> bool:
    """Returns whether a value has a type of the schema; true and false are not numbers."""
    return isinstance(value, TYPES[kind]) and (kind == "boolean" or not isinstance(value, bool))


def fault_of_number(value: float, form: dict[str, Any], where: str) -> str | None:
    if isinstance(value, float) and not math.isfinite(value):
        return f"{where}: {value} is not a finite number"
    low, high = form.get("minimum", -LARGEST), form.get("maximum", LARGEST)
    if not low <= value <= high:
        return f"{where}: {shown(value)} is not between {low:g} and {high:g}"
    if "exclusiveMinimum" in form and value <= form["exclusiveMinimum"]:
        return f"{where}: {shown(value)} is not above {form['exclusiveMinimum']}"
    return None


def fault_of_list(value: list[object], form: dict[str, Any], place: str) -> str | None:
    if not form.get("minItems", 0) <= len(value) <= form.get("maxItems", len(value)):
        return f"{place or 'the whole'}: {len(value)} items"
    first, items = form.get("prefixItems", []), resolved(form.get("items", {}))
    if not first and are_numbers(value, items):
        return None
    for i, item in enumerate(value):
        inner = first[i] if i < len(first) else items
        if fault := fault_of(item, inner, f"{place}[{i}]"):
            return fault
    return None


def are_numbers(value: list[Any], form: dict[str, Any]) -> bool:
    """Returns whether all items are integers, or arrays of such, as a form has them: most of what evidence has is checked
    here at once. What is not is checked item by item."""
    if form.get("type") == "integer":
        low, high = form.get("minimum", -LARGEST), form.get("maximum", LARGEST)
        return set(map(type, value)) <= {int} and (not value or low <= min(value) and max(value) <= high)
    if form.get("type") != "array" or "prefixItems" in form or "items" not in form or set(map(type, value)) != {list}:
        return False
    sizes, least = set(map(len, value)), form.get("minItems", 0)
    is_sized = all(least <= size <= form.get("maxItems", size) for size in sizes)
    return is_sized and are_numbers(list(itertools.chain.from_iterable(value)), resolved(form["items"]))


def fault_of_object(value: dict[str, object], form: dict[str, Any], place: str) -> str | None:
    for key in form.get("required", []):
        if key not in value:
            return f"{place or 'the whole'}: no key {key}"
    for key, inner in form.get("properties", {}).items():
        if key in value:
            if fault := fault_of(value[key], inner, f"{place}.{key}" if place else key):
                return fault
    return None
