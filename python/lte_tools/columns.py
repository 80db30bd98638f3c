"""The columns of a survey: of the table, the CSV, the page with its tooltips, and docs/RECORDINGS.md, one row each here.

A further column is a row of COLUMNS and its key in CSV_KEYS, a field of survey_data.SurveyCell with its line in
summary.py, that field's definition in report.schema.json, and both in docs/FORMATS.md. The rest is made: the page's table
and the manual page by `scripts/gate.sh made --write`, the example in scripts/examples/outputs by
`LTE_RECORD=1 python3 -m pytest tests/test_survey.py` (in python/).
"""
from __future__ import annotations

import bisect
import statistics
from dataclasses import dataclass
from typing import Callable, Generic, TypeVar, Union

from .rules import BY_NAME
from .survey_data import Survey, SurveyCell, SurveyIdentity

Value = Union[str, int, float, None]
Row = TypeVar("Row")
Whole = TypeVar("Whole")
CHANCE = "? chance explains this line: it was seen once, or at another's place, and no SIB1 was read"
# doubts about a cell that is no false detection: words of the JSON, and what they mean in the table
DOUBTS = {
    "mib": "further windows detect this identity at its place, so that it is certain; the MIB may be false",
    "test-model": "the MIB has zeros alone, as a generator's test model sends it",
    "wider-carrier": "the MIB states 6 resource blocks, and a carrier sends on both sides of them",
    "pilots-of": "a synchronous neighbour has its pilots at those of this cell: level, S/N and offset are not certain",
}


@dataclass(frozen=True)
class Column(Generic[Row, Whole]):
    """A column: its key in the CSV and its heading in the table (None where it has none there), its unit, how many digits
    after the point the table shows (None: the value as it is), what it means, and its value, of a row and of what the
    table is of: for COLUMNS a cell and its survey."""

    key: str | None
    heading: str | None
    unit: str
    digits: int | None
    meaning: str
    of: Callable[[Row, Whole], Value]
    shown: Callable[[Row, Whole], str] | None = None  # the text in the table, where it is not the value's own
    is_left: bool = False

    def text(self, row: Row, whole: Whole) -> str:
        """Returns the text in the table."""
        if self.shown:
            return self.shown(row, whole)
        value = self.of(row, whole)
        return "-" if value is None else str(value) if self.digits is None else f"{value:.{self.digits}f}"


# ---- values that are not a field's own


def earfcn_text(cell: SurveyCell) -> str:
    """Returns the EARFCN of a scanned cell in the band of its SIB1, else one for each band that has the frequency."""
    every = {band: str(number) for band, number in cell.earfcns}
    own = every.get(cell.sib1.band) if cell.sib1 else None
    return own or " ".join(f"{number}/b{band}" for band, number in every.items()) or "-"


def megahertz_text(cell: SurveyCell) -> str:
    """Returns a scanned cell's frequency, with a sign above the file's centre if that is not known."""
    if cell.shift is None:
        return "-"
    return f"{cell.shift / 1e6:+.1f}" if cell.frequency is None else f"{cell.frequency / 1e6:.1f}"


def echo_text(cell: SurveyCell) -> str:
    return f"{cell.echo.delay} us {cell.echo.level} dB" if cell.echo else ""


def ratios_text(cell: SurveyCell) -> str:
    """Returns the range of signal to noise, if there is more than one window."""
    return f"{cell.ratios[0]} to {cell.ratios[1]}" if cell.ratios and cell.windows > 1 else ""


def doubt_text(word: str) -> str:
    """Returns a doubt as the table has it."""
    return word.replace("-", " ").replace("mib", "MIB")


def doubt_meaning(word: str) -> str:
    """Returns what a doubt means, by its word in the JSON or its text in the table."""
    word = word.replace(" ", "-").lower()
    return next(meaning for name, meaning in DOUBTS.items() if word.startswith(name))


def chance_text(cell: SurveyCell) -> str:
    """Returns `?` for a false detection or a doubt, and the doubts."""
    return " ".join(["?"] * (cell.chance or bool(cell.doubts)) + [", ".join(map(doubt_text, cell.doubts))]).strip()


def power_of(cell: SurveyCell, survey: Survey, key: str) -> float | None:
    """Returns the median over a cell's windows of a key of `powers`, or None."""
    starts, found = [one.seconds for one in survey.powers], []
    for one in cell.seen if starts else ():
        power = survey.powers[max(bisect.bisect_right(starts, one.seconds + 1e-4) - 1, 0)]
        value: float | None = getattr(power, key)
        if value is not None:
            found.append(value)
    return round(statistics.median(found), 1) if found else None


def networks_of(cell: SurveyCell) -> str | None:
    return " ".join(cell.sib1.networks) if cell.sib1 else None


def frequency_of(cell: SurveyCell, survey: Survey) -> float | None:
    return survey.carrier if cell.shift is None else cell.frequency


COLUMNS: tuple[Column[SurveyCell, Survey], ...] = (
    Column("file", None, "", None, "the file's name", lambda cell, survey: survey.file),
    Column(
        "earfcn",
        "EARFCN",
        "",
        None,
        "the carrier's number; if SIB1 does not give the band, one for each possible band, with `/b` and the band",
        lambda cell, survey: " ".join(str(number) for _, number in cell.earfcns),
        lambda cell, survey: earfcn_text(cell),
    ),
    Column(
        "frequency",
        "MHz",
        "Hz",
        None,
        "the carrier's frequency; with a sign, relative to the file's centre, whose frequency is not known",
        frequency_of,
        lambda cell, survey: megahertz_text(cell),
    ),
    Column("identity", "PCI", "", None, "physical-layer cell identity, 0 to 503", lambda cell, survey: cell.identity),
    Column(
        "rule",
        "rule",
        "",
        None,
        "the list that has the line: preferably one with SIB1, else the list for the cell's antenna ports",
        lambda cell, survey: cell.rule,
        is_left=True,
    ),
    Column(
        "first",
        "first s",
        "s",
        2,
        "start of the cell's first frame in the first window that lists the cell",
        lambda cell, survey: cell.first,
    ),
    Column(
        "last",
        "last s",
        "s",
        2,
        "start of the cell's first frame in the last window that lists the cell",
        lambda cell, survey: cell.last,
    ),
    Column(
        "windows",
        "windows",
        "",
        None,
        "number of windows that list the cell, and number of all windows",
        lambda cell, survey: cell.windows,
        lambda cell, survey: f"{cell.windows}/{survey.windows}",
    ),
    Column("of", None, "", None, "number of all windows", lambda cell, survey: survey.windows),
    Column("ports", "ports", "", None, "antenna ports, from the MIB", lambda cell, survey: cell.ports),
    Column("bandwidth", "width", "", None, "resource blocks, from the MIB", lambda cell, survey: cell.bandwidth),
    Column("duration", None, "", None, "PHICH duration, from the MIB", lambda cell, survey: cell.duration),
    Column("resource", None, "", None, "PHICH resource (Ng), from the MIB", lambda cell, survey: cell.resource),
    Column(
        None,
        "PHICH",
        "",
        None,
        "PHICH duration and resource (Ng), from the MIB",
        lambda cell, survey: f"{cell.duration} {cell.resource}",
        is_left=True,
    ),
    Column(
        "plmn",
        "PLMN",
        "",
        None,
        "networks, from SIB1: country and network code",
        lambda cell, survey: networks_of(cell),
        is_left=True,
    ),
    Column(
        "tac",
        "TAC",
        "",
        None,
        "tracking area code, from SIB1",
        lambda cell, survey: cell.sib1.tac if cell.sib1 else None,
    ),
    Column(
        "cell",
        "cell",
        "",
        None,
        "cell identity, from SIB1: 256 times the eNodeB's number, plus the number of the cell within the eNodeB",
        lambda cell, survey: cell.sib1.cell if cell.sib1 else None,
    ),
    Column(
        "band",
        "band",
        "",
        None,
        "frequency band, from SIB1",
        lambda cell, survey: cell.sib1.band if cell.sib1 else None,
    ),
    Column(
        "level",
        "dBFS",
        "dBFS",
        None,
        "level of a reference element (RSRP) in the cell's strongest window, relative to the file's full scale",
        lambda cell, survey: cell.level,
    ),
    Column(
        None,
        "dBm",
        "dBm",
        None,
        "level of a reference element (RSRP) in the cell's strongest window, with the radio's gain that `--gain` states",
        lambda cell, survey: cell.level,
    ),
    Column("unit", None, "", None, "the level's unit, dBFS or dBm", lambda cell, survey: survey.unit),
    Column(
        "ratio",
        "S/N dB",
        "dB",
        None,
        "signal-to-noise ratio of a reference element (SINR): the median over the windows",
        lambda cell, survey: cell.ratio,
    ),
    Column(
        None,
        "S/N range",
        "dB",
        None,
        "minimum and maximum of the signal-to-noise ratio over the windows",
        lambda cell, survey: ratios_text(cell),
    ),
    Column(
        "ratio_least",
        None,
        "dB",
        None,
        "the minimum of `ratio` over the windows",
        lambda cell, survey: cell.ratios[0] if cell.ratios else None,
    ),
    Column(
        "ratio_greatest",
        None,
        "dB",
        None,
        "the maximum of `ratio` over the windows",
        lambda cell, survey: cell.ratios[1] if cell.ratios else None,
    ),
    Column(
        "noise",
        None,
        "dBFS",
        None,
        "noise floor in 15 kHz: the median over the cell's windows",
        lambda cell, survey: power_of(cell, survey, "noise"),
    ),
    Column(
        "total",
        None,
        "dBFS",
        None,
        "power of all samples: the median over the cell's windows",
        lambda cell, survey: power_of(cell, survey, "total"),
    ),
    Column(
        "offset",
        "offset Hz",
        "Hz",
        None,
        "frequency offset in the cell's strongest window, mostly the radio's own error",
        lambda cell, survey: cell.offset,
    ),
    Column(
        "ppm",
        "ppm",
        "1e-6",
        None,
        "the frequency offset in millionths of the carrier frequency",
        lambda cell, survey: cell.ppm,
    ),
    Column(
        "echo",
        "echo",
        "us",
        None,
        "delay and level of another path, relative to the strongest path",
        lambda cell, survey: cell.echo.delay if cell.echo else None,
        lambda cell, survey: echo_text(cell),
    ),
    Column(
        "echo_level",
        None,
        "dB",
        None,
        "level of this other path, relative to the strongest path",
        lambda cell, survey: cell.echo.level if cell.echo else None,
    ),
    Column(
        "share",
        "cost %",
        "",
        None,
        "percentage of the soft values, by magnitude, that disagrees with the MIB, in the window where it is lowest: "
        "near 0 if clear, 11 to 16 if false",
        lambda cell, survey: cell.share,
        lambda cell, survey: f"{100 * cell.share:.1f}",
    ),
    Column(
        "chance",
        "",
        "",
        None,
        "`?` alone: probably a false detection; `?` with a word: a doubt about the cell or its numbers",
        lambda cell, survey: "yes" if cell.chance else "no",
        lambda cell, survey: chance_text(cell),
        is_left=True,
    ),
    Column(
        "doubts",
        None,
        "",
        None,
        "the words for the doubts about the cell, joined by spaces",
        lambda cell, survey: " ".join(cell.doubts),
    ),
    Column(
        "repeats",
        None,
        "s",
        None,
        "seconds after which the cell's frame number begins again; 0 if this number is the same in every window",
        lambda cell, survey: cell.repeats,
    ),
    Column(
        "no_sib1",
        "no SIB1",
        "",
        None,
        "the reason why SIB1 was not read; `needs 10 MHz` if the file does not have this bandwidth around the carrier, "
        "`not listed at 15.36` if the list at this rate, in millions of samples per second, does not have the cell",
        lambda cell, survey: cell.no_sib1,
        lambda cell, survey: cell.no_sib1 or "",
        is_left=True,
    ),
    Column(
        "enodeb",
        None,
        "",
        None,
        "the eNodeB's number, from SIB1",
        lambda cell, survey: cell.sib1.enodeb if cell.sib1 else None,
    ),
    Column(
        "sector",
        None,
        "",
        None,
        "the number of the cell within the eNodeB, from SIB1",
        lambda cell, survey: cell.sib1.sector if cell.sib1 else None,
    ),
    Column(
        "detected",
        "detected",
        "",
        None,
        "with `--deep`, the number of further windows in which the cell is detected and not listed",
        lambda cell, survey: len(cell.detected),
        lambda cell, survey: str(len(cell.detected) or ""),
    ),
    Column("sfn", None, "", None, "frame number at `first`", lambda cell, survey: cell.seen[0].sfn),
    Column("datetime", None, "", None, "date and time of `first`", lambda cell, survey: cell.datetime),
)
CSV_KEYS = """file identity rule first last windows of ports bandwidth duration resource plmn tac cell band level unit
ratio offset ppm share chance echo echo_level enodeb sector sfn no_sib1 datetime frequency earfcn
ratio_least ratio_greatest noise total doubts repeats""".split()
DEEP_KEYS = ["detected", "below", "matches"]  # of a survey with cells that no list has
BY_KEY = {column.key: column for column in COLUMNS if column.key}
BY_HEADING = {column.heading: column for column in COLUMNS if column.heading is not None}
# of a page with a map
MAP_MEANINGS = {
    "map": "letter on the map, for a cell that is the strongest at some position",
    "strongest at": "latitude and longitude of the cell's strongest window",
}


# of cells of which the identity alone is known
IDENTITY_COLUMNS: tuple[Column[SurveyIdentity, Survey], ...] = (
    Column("file", None, "", None, "the file's name", lambda line, survey: survey.file),
    Column("frequency", None, "Hz", None, "the carrier's frequency", lambda line, survey: survey.carrier),
    Column("identity", "PCI", "", None, "physical-layer cell identity, 0 to 503", lambda line, survey: line.identity),
    Column("rule", None, "", None, "`identity-only`: no list has the cell", lambda line, survey: line.rule),
    Column("first", "first s", "s", 2, "start of its first frame in the first window", lambda line, survey: line.first),
    Column("last", "last s", "s", 2, "start of its first frame in the last window", lambda line, survey: line.last),
    Column(
        "windows",
        "windows",
        "",
        None,
        "number of windows that detect the cell, and number of all windows",
        lambda line, survey: line.windows,
        lambda line, survey: f"{line.windows}/{survey.windows}",
    ),
    Column("of", None, "", None, "number of all windows", lambda line, survey: survey.windows),
    Column(
        "level",
        "level",
        "dBFS",
        None,
        "level of a reference element in the strongest window",
        lambda line, _: line.level,
    ),
    Column("unit", "unit", "", None, "the level's unit, dBFS or dBm", lambda line, survey: survey.unit, is_left=True),
    Column(
        "below",
        "dB below",
        "dB",
        None,
        "by how much the strongest cell of the window is stronger: the median over the windows",
        lambda line, survey: line.below,
    ),
    Column(
        "matches",
        "signs",
        "",
        None,
        "the maximum number of signs, of 124, that match the cell's secondary signals; 93 have to",
        lambda line, survey: line.matches,
    ),
    Column("chance", None, "", None, "`no`: two windows detect the cell", lambda line, survey: "no"),
    Column("datetime", None, "", None, "date and time of `first`", lambda line, survey: line.datetime),
    Column(
        None,
        "strongest at",
        "",
        None,
        "latitude and longitude of the cell's strongest window",
        lambda line, survey: None,
        lambda line, survey: place_text(line.strongest_place),
    ),
)
OF_IDENTITY = {column.key: column for column in IDENTITY_COLUMNS if column.key}


def place_text(place: tuple[float, float] | None) -> str:
    """Returns latitude and longitude."""
    return f"{place[1]:.6f}, {place[0]:.6f}" if place else "-"


def value_of(key: str, line: SurveyCell | SurveyIdentity, survey: Survey) -> Value:
    """Returns the value of a cell in the CSV's column of this key; None if it is not known of this kind of cell."""
    if isinstance(line, SurveyCell):
        return BY_KEY[key].of(line, survey) if key in BY_KEY else None
    return OF_IDENTITY[key].of(line, survey) if key in OF_IDENTITY else None


def table_columns(survey: Survey) -> list[Column[SurveyCell, Survey]]:
    """Returns the columns of a survey's table: those with a heading, and the level in its unit."""
    other = {"dBFS": "dBm", "dBm": "dBFS"}[survey.unit]
    return [column for column in COLUMNS if column.heading not in (None, other)]


def meaning_of(heading: str) -> str:
    """Returns what a column of the table or the page means."""
    column = BY_HEADING.get(heading)
    return (column.meaning if column else MAP_MEANINGS[heading]).replace("`", "")


# ---- what the words in a column mean

BLOCKS = {"n6": "1.4", "n15": "3", "n25": "5", "n50": "10", "n75": "15", "n100": "20"}  # MHz
PHICH = {
    "normal": "in the first symbol of a subframe",
    "extended": "in three symbols of a subframe",
    "oneSixth": "Ng 1/6",
    "half": "Ng 1/2",
    "one": "Ng 1",
    "two": "Ng 2",
}
REASONS = {
    "ports": "the MIB states this number of antenna ports, for which a list of six resource blocks does not read SIB1",
    "bandwidth": "the MIB states this number of resource blocks, and SIB1 was not looked for at this bandwidth",
    "not": "the list at the lowest rate that holds the cell's bandwidth, in millions of samples per second, does not have it",
    "needs": "the file does not have this bandwidth around the cell's carrier",
    "no-search-space": "the control region has this number of control channel elements, fewer than four",
    "no-control": "the control channel has no grant of system information",
    "not-1a": "the control information has a format other than 1A",
    "distributed": "a distributed grant, which is not read",
    "bad-riv": "a grant of resource blocks that do not exist",
    "reserved-mcs": "a grant with a reserved modulation and coding scheme",
    "block-too-large": "the granted block is larger than the receiver reads",
    "not-decoded": "no block passed its CRC, mostly because of noise",
    "not-sib1": "the block is a message other than SIB1",
    "bad-fields": "the first field of SIB1 that is cut off or out of range begins at this bit",
    "long-prefix": "SIB1 is not read with the extended prefix",
}


def word_meaning(heading: str, word: str) -> str:
    """Returns what a word in a column means, or nothing for a number alone."""
    first = word.split(" ")[0]
    if word in ("", "-"):
        return "not known" if word else ""
    if heading == "rule":
        return BY_NAME[word].meaning if word in BY_NAME else ""
    if heading == "width":
        return f"{BLOCKS[word]} MHz, {word[1:]} resource blocks" if word in BLOCKS else ""
    if heading == "PHICH":
        return ", ".join(PHICH[part] for part in word.split(" ") if part in PHICH)
    if heading == "cell":
        return f"eNodeB {int(word) >> 8}, its cell {int(word) & 255}"
    if heading == "no SIB1":
        return REASONS.get(first, "")
    if word == "?":
        return CHANCE.removeprefix("? ")
    return "; ".join(map(doubt_meaning, word[2:].split(", "))) if word.startswith("? ") else ""


# ---- the table of docs/RECORDINGS.md


def page_rows() -> list[str]:
    """Returns the rows of the page's table."""
    rows = [f"| `{heading or '?'}` | {column.meaning} |" for heading, column in BY_HEADING.items()]
    return ["| Column | Meaning |", "|---|---|", *rows]
