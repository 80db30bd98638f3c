"""Answers about windows as JSON and back, exactly: each number has its type and all its digits again.

Tuples, numbers of numpy and the records of CODED are objects with one key of their own; nothing else is made of JSON, so a
file from elsewhere cannot run anything. A file of samples is written as the fields in which it differs from the survey's own
file, so that the same text fits the file at another path.

Debian: python3-numpy.
"""
from __future__ import annotations

import dataclasses
import pathlib
from typing import Any, Callable

import numpy as np

from . import answers, drives, identities, levels, scan, sightings, survey_data, wide
from .machine import Refused
from .radio_file import RadioFile

RECORDS: tuple[type, ...] = (
    answers.Cell,
    answers.DetectedCell,
    answers.Message,
    answers.Network,
    answers.Sib1,
    drives.Part,
    drives.Stretch,
    identities.DeepSighting,
    levels.InWindow,
    scan.Look,
    sightings.Sighting,
    sightings.Task,
    survey_data.Power,
    wide.Found,
    wide.Question,
)
CODED = {one.__name__: one for one in RECORDS}
TUPLE, NUMBER, FILE, PATH, RECORD = "tuple", "number", "samples", "path", "is"  # keys of objects
NUMBERS = {name: getattr(np, name) for name in ("float64", "float32", "int64", "int32", "bool_")}
READERS: dict[str, Callable[[str], Any]] = {"int64": int, "int32": int, "bool_": "True".__eq__}


def names_of(kind: Any) -> tuple[str, ...]:
    """Returns the names of a record's fields."""
    if dataclasses.is_dataclass(kind):
        return tuple(one.name for one in dataclasses.fields(kind))
    return tuple(kind._fields)


def coded(value: Any, file: RadioFile) -> Any:
    """Returns a value for JSON; `file` is the survey's."""
    kind = type(value)
    if value is None or kind in (bool, int, str):
        return value
    if kind is float:
        return value if np.isfinite(value) else {NUMBER: ["float", repr(value)]}
    if kind is list:
        return [coded(one, file) for one in value]
    if kind is tuple:
        return {TUPLE: [coded(one, file) for one in value]}
    if isinstance(value, RadioFile):
        return {FILE: changes(value, file)}
    if kind in RECORDS:
        return {RECORD: kind.__name__, **{name: coded(getattr(value, name), file) for name in names_of(kind)}}
    if isinstance(value, np.generic) and kind.__name__ in NUMBERS:
        return {NUMBER: [kind.__name__, repr(value.item())]}
    if isinstance(value, pathlib.PurePath):
        return {PATH: str(value)}
    raise TypeError(f"{kind.__name__} is not one of the records that a journal has")


def changes(one: RadioFile, file: RadioFile) -> dict[str, Any]:
    """Returns the fields in which a file differs from the survey's; samples that it holds are left out."""
    if one is file:
        return {}
    names = [name for name in names_of(RadioFile) if name != "held"]
    return {name: coded(getattr(one, name), file) for name in names if getattr(one, name) != getattr(file, name)}


def decoded(value: Any, file: RadioFile) -> Any:
    """Returns the value of which `coded` made this JSON; refuses other JSON."""
    if isinstance(value, list):
        return [decoded(one, file) for one in value]
    if not isinstance(value, dict):
        return value
    try:
        return decoded_object(dict(value), file)
    except (KeyError, TypeError, ValueError, IndexError) as fault:
        raise Refused(f"an answer that is not one of a window: {fault}") from None


def decoded_object(value: dict[str, Any], file: RadioFile) -> Any:
    """Returns the tuple, number, file or record that an object is."""
    if TUPLE in value:
        return tuple(decoded(one, file) for one in value[TUPLE])
    if NUMBER in value:
        kind, text = value[NUMBER]
        return float(text) if kind == "float" else NUMBERS[kind](READERS.get(kind, float)(text))
    if FILE in value:
        return dataclasses.replace(file, **{name: decoded(one, file) for name, one in value[FILE].items()})
    if PATH in value:
        return pathlib.Path(value[PATH])
    kind = CODED[value.pop(RECORD)]
    return kind(**{name: decoded(one, file) for name, one in value.items()})
