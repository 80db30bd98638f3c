"""The survey as a table for people and as CSV for other programs."""
from __future__ import annotations

from typing import Sequence

from . import tables
from .answers import STEP_HERTZ
from .columns import CHANCE, CSV_KEYS, DEEP_KEYS, IDENTITY_COLUMNS, Column
from .columns import doubt_meaning, doubt_text, table_columns, value_of
from .survey_data import Gap, Live, Part, Scan, Step, Survey, SurveyCell, SurveyIdentity
from .tables import Report

GAPS = 4  # between files, that the table lists


def rows_of(survey: Survey) -> list[dict[str, str]]:
    """Returns the texts of each cell's row by heading, without columns that say nothing."""
    return tables.texts_of(table_columns(survey), survey.cells, survey)


def table_of(survey: Survey) -> list[str]:
    """Returns the table as lines of text."""
    head, last = head_of(survey), notes_of(survey) + ([survey.hint] if survey.hint else [])
    more = [line for one in identity_reports(survey) for line in one.lines(survey)]
    return [head, *tables.lines_of(table_columns(survey), survey.cells, survey), *last, *more]


def identity_reports(survey: Survey) -> list[Report]:
    """Returns the table of the cells of which the identity alone is known, if they were asked for."""
    if survey.identities is None:
        return []
    head = "identity only: cells that are detected over many half-frames, and whose MIB was not read"
    return [Report("identities", "Identity only", head, IDENTITY_COLUMNS, survey.identities)]


# ---- the lines below the table


def notes_of(survey: Survey) -> list[str]:
    """Returns sentences on the marks of the table, on missing samples, loops and gain steps."""
    words = dict.fromkeys(word for cell in survey.cells for word in cell.doubts)
    return [
        *[CHANCE] * survey.has_chance,
        *(f"? {doubt_text(word)}: {doubt_meaning(word)}" for word in words),
        *([parts_text(survey.parts)] if survey.parts else []),
        *(gap_text(gap, survey.rate) for gap in survey.gaps),
        *(loop_text(cell) for cell in survey.cells if cell.repeats is not None),
        *([steps_text(survey.steps)] if survey.steps else []),
    ]


def gap_text(gap: Gap, rate: float) -> str:
    """Returns a sentence on missing samples; a radio that was restarted looks as if many were missing."""
    more = " or the radio was restarted" if gap.samples > rate else ""
    return f"{gap.samples:,} samples are missing{more} between {gap.first:.2f} and {gap.last:.2f} s"


def parts_text(parts: Sequence[Part]) -> str:
    """Returns a sentence on the files or captures of a survey, and on what is missing between them."""
    count = len({one.file for one in parts})
    text = f"{count} files in the order of time" if count > 1 else f"{len(parts)} captures"
    gaps = [
        f"{one.missing:,.{2 if one.missing < 10 else 1}f} s in front of second {one.first:.2f}"
        for one in parts
        if one.missing
    ]
    unknown = sum(one.missing is None for one in parts)
    shown = [*gaps[:GAPS], *([f"{len(gaps) - GAPS} further gaps"] if len(gaps) > GAPS else [])]
    missing = f", missing between them: {', '.join(shown)}" if gaps else ""
    return f"{text}{missing}{f', {unknown} gaps not known' if unknown else ''}"


def loop_text(cell: SurveyCell) -> str:
    """Returns a sentence on a cell whose frame number begins again."""
    if not cell.repeats:
        return f"PCI {cell.identity}: the frame number is the same in every window, as in a generator's loop"
    return f"PCI {cell.identity}: the frame number begins again every {1000 * cell.repeats:,.0f} ms, as in a loop"


def steps_text(steps: Sequence[Step]) -> str:
    """Returns a sentence on steps of the radio's gain."""
    sizes = ", ".join(f"{one.decibels:+.1f}" for one in steps)
    seconds = ", ".join(f"{one.seconds:.1f}" for one in steps)
    text = f"the radio's gain steps by {sizes} dB at {seconds} s: levels are those at the first gain"
    return f"{text}; if the gain was constant: --gain G"


# ---- the line above the table


def head_of(survey: Survey) -> str:
    """Returns the line on the file."""
    further = max(len({one.file for one in survey.parts}) - 1, 0)
    files = f" and {further} further file{'s' * (further > 1)}" if further else ""
    parts = [f"{survey.file}{files}: {survey.seconds:.2f} s", windows_text(survey.windows)]
    if survey.datetime:
        parts.insert(1, f"from {survey.datetime} on")
    if survey.spoiled:
        parts.append(f"{len(survey.spoiled)} of them left out, where samples are no numbers")
    if survey.rate_error:
        parts.append(f"read at {1 + survey.rate_error / 1e6:.9f} of its rate")
    if survey.live:
        parts.append(live_text(survey.live))
    return ", ".join([*parts, scan_text(survey.scan) if survey.scan else offset_text(survey.offsets)])


def windows_text(count: int) -> str:
    return f"{count} window{'s' * (count != 1)}"


def live_text(live: Live) -> str:
    """Returns what was not looked at, and how late the rest was."""
    texts = [
        f"{live.skipped} more skipped",
        f"{live.forgotten} lines forgotten",
        f"up to {live.behind} s behind",
    ]
    return ", ".join(text for text in texts if not text.startswith("0 "))


def scan_text(scan: Scan) -> str:
    beside = "" if scan.last > 1e8 else " beside the centre"
    return f"{scan.count} frequencies from {scan.first / 1e6:,.1f} to {scan.last / 1e6:,.1f} MHz{beside}"


def offset_text(points: tuple[tuple[float, float], ...]) -> str:
    if not points:
        return "no offset told"
    hertz = [offset for _, offset in points]
    if max(hertz) - min(hertz) < STEP_HERTZ:
        return f"offset {sum(hertz) / len(hertz):,.0f} Hz"
    return f"offset {min(hertz):,.0f} to {max(hertz):,.0f} Hz, told {len(hertz)} times"


# ---- CSV


def csv_of(survey: Survey) -> str:
    """Returns the table for other programs: a key a column, nothing where nothing is known, networks joined by spaces."""
    keys = [*CSV_KEYS, *(() if survey.identities is None else DEEP_KEYS)]
    return tables.csv_of([of_line(key) for key in keys], survey.lines, survey)


def of_line(key: str) -> Column[SurveyCell | SurveyIdentity, Survey]:
    """Returns the CSV's column of this key, for both kinds of lines."""
    return Column(key, None, "", None, "", lambda line, survey: value_of(key, line, survey))
