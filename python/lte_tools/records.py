"""Frozen dataclasses from JSON that the schema has accepted, and back to JSON and to rows of tables."""
from __future__ import annotations

import dataclasses
import functools
import types
import typing
from typing import Any, Callable, TypeVar

T = TypeVar("T")
Reader = Callable[[Any], Any]
PLAIN = {int, float, str, bool}


def from_json(kind: type[T], value: dict[str, Any]) -> T:
    """Returns a dataclass of the keys of a JSON object; a key that is missing keeps its field's default."""
    readers = readers_of(kind)  # type: ignore[arg-type]
    return kind(**{name: read(value[name]) for name, read in readers if name in value})


@functools.cache
def readers_of(kind: type) -> list[tuple[str, Reader]]:
    """Returns the names of a dataclass's fields, and how the value of each is read."""
    hints = typing.get_type_hints(kind)
    return [(one.name, reader_of(hints[one.name])) for one in dataclasses.fields(kind)]


def typed(hint: Any, value: Any) -> Any:
    """Returns a JSON value as a field of this type has it: tuples of arrays, dataclasses of objects."""
    return reader_of(hint)(value)


@functools.cache
def reader_of(hint: Any) -> Reader:
    """Returns how a JSON value of a type is read."""
    origin, inner = typing.get_origin(hint), typing.get_args(hint)
    if origin in (typing.Union, types.UnionType):
        read = reader_of(next(one for one in inner if one is not type(None)))
        return lambda value: None if value is None else read(value)
    if origin is tuple:
        return reader_of_tuple(inner)
    if dataclasses.is_dataclass(hint) or hasattr(hint, "from_json"):
        found: Reader = getattr(hint, "from_json", functools.partial(from_json, hint))
        return found
    return lambda value: value


def reader_of_tuple(inner: tuple[Any, ...]) -> Reader:
    """Returns how an array is read whose items have these types, or with an ellipsis all the first one."""
    if PLAIN.issuperset(one for one in inner if one is not Ellipsis):
        return tuple
    if inner[-1] is Ellipsis:
        read = reader_of(inner[0])
        return lambda value: tuple(map(read, value))
    readers = [reader_of(one) for one in inner]
    return lambda value: tuple(read(part) for read, part in zip(readers, value))


def to_json(value: Any) -> Any:
    """Returns a dataclass as a JSON object: arrays of tuples, objects of dataclasses."""
    if dataclasses.is_dataclass(value):
        return {one.name: plain(getattr(value, one.name)) for one in dataclasses.fields(value)}
    return plain(value)


def plain(value: Any) -> Any:
    """Returns a field's value as JSON has it."""
    if dataclasses.is_dataclass(value):
        return value.to_json() if hasattr(value, "to_json") else to_json(value)
    return [plain(one) for one in value] if isinstance(value, tuple) else value
