"""Rows as a table for people, with aligned columns, and as CSV for other programs."""
from __future__ import annotations

import csv
import io
from typing import Any, Callable, Collection, Iterable, Mapping, NamedTuple, Sequence

from .columns import Column, Row, Value, Whole
from .survey_data import Survey

FORMULA = ("=", "+", "-", "@", "\t", "\r")  # with which a spreadsheet begins a formula


class Report(NamedTuple):
    """A table of a survey besides that of its cells: its key in the JSON, its title, the line above it, its columns and rows,
    by heading what the words below it mean, and a function that draws its maps, each with what it shows."""

    key: str
    title: str
    head: str
    columns: Sequence[Column[Any, Survey]]
    rows: Sequence[Any]
    meanings: Mapping[str, Mapping[str, str]] = {}
    draw: Callable[[], Sequence[tuple[str, Any]]] | None = None

    def lines(self, survey: Survey) -> list[str]:
        """Returns an empty line, the line above the table, and the table."""
        return ["", self.head, *(lines_of(self.columns, self.rows, survey) or ["none"])]


def texts_of(columns: Iterable[Column[Row, Whole]], rows: Sequence[Row], whole: Whole) -> list[dict[str, str]]:
    """Returns the texts of each row by heading, without columns that say nothing."""
    shown = [column for column in columns if column.heading is not None]
    texts = [{str(column.heading): column.text(row, whole) for column in shown} for row in rows]
    names = saying(texts)
    return [{name: text[name] for name in names} for text in texts]


def saying(rows: Sequence[dict[str, str]]) -> list[str]:
    """Returns the headings under which a row says something."""
    return [name for name in rows[0] if any(row[name] not in ("", "-") for row in rows)] if rows else []


def aligned(rows: Sequence[dict[str, str]], left: Collection[str]) -> list[str]:
    """Returns a line of headings and a line for each row; columns are aligned to the right except those of `left`."""
    names = list(rows[0]) if rows else []
    lines = [{name: name for name in names}, *rows]
    width = {name: max(len(line[name]) for line in lines) for name in names}
    return [
        "  ".join(line[n].ljust(width[n]) if n in left else line[n].rjust(width[n]) for n in names).rstrip()
        for line in lines
    ]


def lines_of(columns: Sequence[Column[Row, Whole]], rows: Sequence[Row], whole: Whole) -> list[str]:
    """Returns the table of rows as lines of text, none where there is no row."""
    left = {column.heading for column in columns if column.is_left and column.heading}
    return aligned(texts_of(columns, rows, whole), left) if rows else []


def csv_of(columns: Iterable[Column[Row, Whole]], rows: Iterable[Row], whole: Whole) -> str:
    """Returns rows for other programs: a key a column, nothing where nothing is known."""
    keyed = [column for column in columns if column.key is not None]
    out = io.StringIO()
    writer = csv.writer(out, lineterminator="\n")
    writer.writerow([column.key for column in keyed])
    for row in rows:
        writer.writerow([safe(column.of(row, whole)) for column in keyed])
    return out.getvalue()


def safe(value: Value) -> Value:
    """Returns a value as it is, and a text that a spreadsheet would run as a formula with an apostrophe before it."""
    return f"'{value}" if isinstance(value, str) and value.startswith(FORMULA) else value
