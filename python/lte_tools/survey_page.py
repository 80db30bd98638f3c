"""A survey as a page of HTML: the table, which sorts, the map, further tables, the cells over time, and what the words say.

Debian: python3-numpy, python3-matplotlib.
"""
from __future__ import annotations

import pathlib
from typing import Sequence

from . import carriers, machine, picture_map, survey_table, survey_windows, tables
from .columns import BY_HEADING, meaning_of, word_meaning
from .page import details, image, page, text
from .page_tables import SCRIPT, STYLE, Words, report_parts, table, words_of
from .picture_style import begin, facts_of
from .survey_data import Survey
from .tables import Report

MOST = 4_000  # lines of windows that a page has one by one
BEFORE = ("EARFCN", "MHz")  # columns before the identity, its mark and its letter
LEFT = {"map", *(name for name, column in BY_HEADING.items() if column.is_left)}
WORDS = Words(meaning_of, word_meaning, LEFT)


def page_of(found: Survey, title: str | None = None, reports: Sequence[Report] = ()) -> bytes:
    """Returns the page of a survey with further tables, and with a map where it has places."""
    rows = rows_of(found)
    facts = facts_of(found.form, found.rate, found.carrier, found.shift)
    parts = [f"<p>{text(', '.join([survey_table.head_of(found), *facts]))}."]
    if found.hint:
        parts.append(f"<p><b>{text(found.hint)}</b>")
    parts.append(table("Cells", rows, WORDS) if rows else "<p>No cell.")
    parts += [f"<p>{text(note)}." for note in survey_table.notes_of(found)]
    parts += [part for one in survey_table.identity_reports(found) for part in report_parts(one, found)]
    parts += maps_of(found) if found.is_placed else []
    parts += [part for one in reports for part in report_parts(one, found)]
    is_long = sum(len(cell.seen) for cell in found.cells) > MOST
    if rows:
        says = "Level, signal to noise and frequency offset of each cell over time"
        over = "Over frequency and time" if found.scan else "Over time"
        parts += [f"<h2>{over}</h2>", image(picture_map.time_sheet(found, title), says, is_long), words_of(rows, WORDS)]
    name = "The survey as JSON, without windows" if is_long else "The survey as JSON"
    parts += [details(name, found.to_json(not is_long)), SCRIPT]
    return page(title or f"Survey of {found.file}", parts, STYLE)


def maps_of(found: Survey) -> list[str]:
    """Returns the map, of a scan that of each carrier."""
    says = "Map: at each place the strongest cell by letter and mark, its level by size"
    every = carriers.carriers_of(found)
    if not every[1:]:
        return ["<h2>Map</h2>", image(picture_map.map_alone(found), says)]
    parts = ["<h2>Maps, one for each carrier</h2>"]
    for one in every:
        drawn = picture_map.map_alone(carriers.on_carrier(found, one))
        parts += [f"<h3>{text(one.text)}</h3>", image(drawn, f"{one.text}: {says}")]
    return parts


def rows_of(found: Survey) -> list[dict[str, str]]:
    """Returns the rows of the table, with letters and places where there is a map, without columns that say nothing."""
    rows = survey_table.rows_of(found)
    if found.is_placed:
        letters = survey_windows.letters_of(found)
        for i, (row, cell) in enumerate(zip(rows, found.cells)):
            place = cell.strongest_place
            row["map"] = letters.get(i, "")
            row["strongest at"] = f"{place[1]:.6f}, {place[0]:.6f}" if place else "-"
    names = tables.saying(rows)
    first = [name for name in (*BEFORE, "PCI", "", "map") if name in names]
    names = first + [name for name in names if name not in first]
    return [{name: row[name] for name in names} for row in rows]


def write(path: pathlib.Path, found: Survey, reports: Sequence[Report] = ()) -> None:
    begin()
    machine.write(path, page_of(found, reports=reports))
