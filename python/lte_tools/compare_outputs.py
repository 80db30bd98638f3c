"""The comparison of two lists as a table for people, as CSV and as JSON."""
from __future__ import annotations

from typing import Any

from . import tables
from .columns import Column
from .compare_verdicts import VERDICTS, Comparison, Levels, Verdict

# of the table and of --csv, a row a verdict
COLUMNS: tuple[Column[Verdict, Comparison], ...] = (
    Column(
        "verdict",
        "verdict",
        "",
        None,
        "; ".join(f"`{word}`: {meaning}" for word, meaning in VERDICTS.items()),
        lambda one, _: one.verdict,
        lambda one, _: one.verdict.replace("-", " "),
        is_left=True,
    ),
    Column(
        "identity", "PCI", "", None, "physical-layer cell identity, ours if both have it", lambda one, _: one.identity
    ),
    Column("cell", "cell", "", None, "cell identity of SIB1, ours if both have it", lambda one, _: one.cell),
    Column("frequency", None, "Hz", None, "the carrier, ours if both have it", lambda one, _: one.frequency),
    Column(
        None,
        "MHz",
        "MHz",
        None,
        "the carrier",
        lambda one, _: one.frequency,
        lambda one, _: f"{one.frequency / 1e6:.1f}" if one.frequency else "-",
    ),
    Column("field", "field", "", None, "the field that differs", lambda one, _: one.field, is_left=True),
    Column("case", None, "", None, "the case of a cell that only their list has", lambda one, _: one.case),
    Column("ours", "ours", "", None, "our value", lambda one, _: one.ours),
    Column("theirs", "theirs", "", None, "their value", lambda one, _: one.theirs),
    Column(
        "level",
        "level dB",
        "dB",
        None,
        "their level relative to ours, after the list's constant: the median of all pairs of levels",
        lambda one, found: level.median if (level := level_of(one, found)) else None,
        lambda one, found: level_text(level_of(one, found)),
    ),
    Column(
        "fields",
        None,
        "",
        None,
        "the fields that both lists have and that are equal, joined by spaces",
        lambda one, _: " ".join(one.fields),
    ),
    Column(
        "places",
        "in theirs",
        "",
        None,
        "where it is in their list, five places at most",
        lambda one, _: ", ".join(one.places),
        is_left=True,
    ),
    Column(
        "note",
        "note",
        "",
        None,
        "how it differs, and what supports our value",
        lambda one, _: one.note,
        lambda one, _: f"equal: {' '.join(one.fields)}" if one.verdict == "agree" else one.note,
        is_left=True,
    ),
)


def table_of(found: Comparison) -> list[str]:
    """Returns the table as lines of text: what was compared, the verdicts, constants and totals."""
    counts = f"{count(found.our_cells)} in {found.ours}, {count(found.their_cells)} in {found.theirs} ({found.form})"
    return [counts, *tables.lines_of(COLUMNS, found.verdicts, found), *found.notes, *spread_of(found), totals_of(found)]


def count(cells: int) -> str:
    return f"{cells} cell{'s' * (cells != 1)}"


def level_of(one: Verdict, found: Comparison) -> Levels | None:
    """Returns the levels of a verdict's cell, if both lists have it and levels are compared."""
    is_both = one.verdict == "agree" or one.field is not None
    known = (level for level in found.levels if (level.identity, level.cell) == (one.identity, one.cell))
    return next(known, None) if is_both else None


def level_text(one: Levels | None) -> str:
    """Returns the median of levels, with their range if there are several."""
    if one is None:
        return "-"
    return f"{one.median:+.1f}" + (f" ({one.least:+.1f} to {one.greatest:+.1f})" if one.count > 1 else "")


def spread_of(found: Comparison) -> list[str]:
    """Returns a line on the levels of all cells after the constant."""
    every = found.all_levels
    if every is None or every.count < 2:
        return []
    spread = f"from {every.least:+.1f} to {every.greatest:+.1f} dB"
    return [f"levels: median {every.median:+.1f} dB after the constant, {spread} over {every.count} cells"]


def totals_of(found: Comparison) -> str:
    """Returns how many verdicts of each word there are, and of each field that differs."""
    words = [one.verdict for one in found.verdicts]
    totals = {word: words.count(word) for word in VERDICTS}
    fields = [one.field for one in found.verdicts if one.field]
    by_field = ", ".join(f"{name} {fields.count(name)}" for name in dict.fromkeys(fields))
    texts = [f"{number} {word.replace('-', ' ')}" for word, number in totals.items() if number]
    return ", ".join(texts).replace(" differ", f" differ ({by_field})", 1) or "no cell"


def page_of(found: Comparison) -> bytes:
    """Returns the comparison as a page of HTML that opens without a network."""
    from .page import details, page, text
    from .page_tables import SCRIPT, STYLE, Words, table, words_of

    meanings = {str(column.heading): column.meaning.replace("`", "") for column in COLUMNS if column.heading}
    left = {column.heading for column in COLUMNS if column.is_left and column.heading}
    words = Words(lambda heading: meanings[heading], lambda _, word: VERDICTS.get(word.replace(" ", "-"), ""), left)
    rows = tables.texts_of(COLUMNS, found.verdicts, found)
    head, *below = [line for line in table_of(found) if line not in tables.lines_of(COLUMNS, found.verdicts, found)]
    parts = [f"<p>{text(head)}.", table("Verdicts", rows, words) if rows else "<p>No cell."]
    parts += [f"<p>{text(line)}." for line in below]
    parts += [words_of(rows, words)] if rows else []
    parts += [details("The comparison as JSON", json_of(found)), SCRIPT]
    return page(f"{found.theirs} compared with {found.ours}", parts, STYLE)


def csv_of(found: Comparison) -> str:
    """Returns the verdicts for other programs: a key a column, nothing where nothing is known."""
    return tables.csv_of(COLUMNS, found.verdicts, found)


def json_of(found: Comparison) -> dict[str, Any]:
    """Returns the comparison as JSON (docs/FORMATS.md, "Two receivers")."""
    return {**found.to_json(), "agrees": found.agrees}
