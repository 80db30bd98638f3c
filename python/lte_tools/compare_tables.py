"""Lists of cells as tables: CSV with a head line, whose columns are known by their headings, and our own aligned table.

`--columns pci=PCI,earfcn=Channel,level=RSRP` names columns whose headings are not known.
"""
from __future__ import annotations

import csv
import dataclasses
import datetime
import io
import re
from typing import Any, Callable, Iterator, NamedTuple, Sequence

from . import compare_lists, foreign
from .compare_lists import BadValue, CellList, Frame, Level, Listed
from .machine import Refused

MOST_LINES = 500_000
MOST_LINE = 20_000  # characters
# headings of a column without all but letters and digits, in small letters; the first is the column's own name
HEADINGS: dict[str, tuple[str, ...]] = {
    "pci": (
        *("pci", "identity", "physicalcellid", "physicalcellidentity", "physcellid", "phycellid", "phyid", "ncellid"),
        *("servingpci", "ltepci", "pcid", "servingcellpci", "servcellpci"),
    ),
    "n1": ("n1", "nid1", "n1id", "sss"),
    "n2": ("n2", "nid2", "n2id", "pss"),
    "earfcn": (
        *("earfcn", "earfcndl", "dlearfcn", "downlinkearfcn", "channel", "channelnumber", "ch", "arfcn", "lteearfcn"),
        *("servingearfcn", "servingcellearfcn"),
    ),
    "frequency": (
        *("frequency", "freq", "frequencyhz", "frequencymhz", "freqmhz", "dlfrequency", "dlfreq", "carrier", "fc"),
        *("dlfrequencymhz", "carrierfrequency", "carrierfrequencymhz"),
    ),
    "level": (
        *("level", "rsrp", "rsrpdbm", "servingrsrp", "lterserp", "ltersrp", "servingcellrsrp", "rsrp0", "rsrpmedian"),
        *("avgrsrp", "averagersrp", "rspowerdbm"),
    ),
    "pss_level": ("psslevel", "psspower", "psspowerdbm", "pssrp", "schpower", "schrp"),
    "plmn": ("plmn", "mccmnc", "plmnid", "operator"),
    "mcc": ("mcc",),
    "mnc": ("mnc",),
    "tac": ("tac", "trackingareacode", "trackingarea", "lac"),
    "cell": ("cell", "eci", "cellidentity", "ecellid", "eutrancellid", "eutracellidentity", "cid", "ltecellid"),
    "cell_id": ("cellid",),  # of some programs the identity, of others the cell identity
    "enodeb": ("enodeb", "enb", "enbid", "enodebid", "lteenb"),
    "sector": ("sector", "sectorid", "localcellid", "lcid"),
    "band": ("band", "lteband", "freqband", "freqbandindicator"),
    "width": ("width", "bandwidth", "dlbandwidth", "bw", "prb", "nprb", "nrb", "ndlrb", "dlbw", "bandwidthmhz", "rbs"),
    "ports": ("ports", "antennaports", "cellrefp", "numantports", "nant", "txantennas", "numtxantennas", "nports"),
    "prefix": ("prefix", "cyclicprefix", "cp", "cptype"),
    "duration": ("duration", "phichduration", "phichdur", "phichlength"),
    "resource": ("resource", "phichresource", "ng", "phichng", "phichresources", "phichres"),
    "sfn": ("sfn", "nframe", "systemframenumber", "framenumber", "frame"),
    "sfn_msb": ("sfnmsb", "mibsfn"),
    "start": ("start", "framestart", "frameoffset"),
    "seconds": ("seconds", "second", "elapsed", "elapsedtime", "first"),
    "time": ("time", "timestamp", "datetime", "utc", "utctime", "date", "systime", "gpstime"),
}
MEASURED = ("time", "seconds")  # columns of a list of measurements
EMPTY = ("", "-", "--", "n/a", "na", "nan", "none", "null", "?", "2147483647", "unknown")
Row = dict[str, str]


def plain(heading: str) -> str:
    """Returns a heading without a unit in brackets, and without all but letters and digits, in small letters."""
    short = re.sub(r"[\[(].*?[\])]", "", heading)
    return re.sub(r"[^a-z0-9]", "", (short or heading).lower())


KNOWN = {heading: column for column, headings in HEADINGS.items() for heading in headings}


class Table(NamedTuple):
    """A table's head line, and its rows with their places in the file."""

    head: Sequence[str]
    rows: Iterator[tuple[str, Sequence[str]]]


def text_of(data: bytes, name: str) -> str:
    """Returns the text of a list; refuses bytes that are no text, and lines that are too many or too long."""
    for mark, code in ((b"\xff\xfe", "utf-16"), (b"\xfe\xff", "utf-16"), (b"", "utf-8-sig"), (b"", "cp1252")):
        if data.startswith(mark):
            try:
                text = data.decode(code)
                break
            except UnicodeDecodeError as fault:
                if mark:
                    raise Refused(f"{name}: byte {fault.start}: not text in UTF-16") from None
    else:
        raise Refused(f"{name}: not text in UTF-8, UTF-16 or Windows-1252")
    if found := re.search(r"[\0-\x08\x0e-\x1a\x1c-\x1f]", text):
        line = text.count("\n", 0, found.start()) + 1
        raise Refused(f"{name}: line {line}: the character {ord(found[0])}, which no text has: is the file binary?")
    check_lines(text, name)
    return text


def check_lines(text: str, name: str) -> None:
    """Refuses a text of too many or too long lines."""
    count = text.count("\n")
    if count > MOST_LINES:
        raise Refused(f"{name}: line {MOST_LINES + 1}: more than {MOST_LINES:,} lines")
    if text.lstrip()[:1] in ("{", "[", "<"):
        return  # JSON may be one line, and a page has pictures
    for number, line in enumerate(text.split("\n"), 1):
        if len(line) > MOST_LINE:
            raise Refused(f"{name}: line {number}: more than {MOST_LINE:,} characters")


# ---- columns


def columns_of(head: Sequence[str], given: dict[str, str], name: str) -> dict[str, int]:
    """Returns the place of each column; refuses a table without identity or cell identity."""
    found: dict[str, int] = {}
    for column, heading in given.items():
        places = [i for i, one in enumerate(head) if one.strip() == heading.strip()]
        if not places:
            raise Refused(f"{name}: line 1: no column {foreign.shown(heading)}, which --columns names")
        found[column] = places[0]
    for heading, column in KNOWN.items():
        places = [i for i, one in enumerate(head) if plain(one) == heading and i not in found.values()]
        if column not in found and places:
            found[column] = places[0]
    if not {"pci", "cell", "cell_id"} & set(found) and not {"n1", "n2"} <= set(found):
        known = "pci, cell, or n1 and n2"
        raise Refused(f"{name}: line 1: no column for {known} in the head line: --columns pci=HEADING names it")
    return found


def given_columns(text: str) -> dict[str, str]:
    """Returns the headings that --columns names, by column."""
    found = {}
    for part in text.split(","):
        column, sign, heading = part.partition("=")
        column = KNOWN.get(plain(column), column.strip())
        if not sign or column not in HEADINGS or not heading.strip():
            raise ValueError(f"{part!r} is not COLUMN=HEADING with a COLUMN of {', '.join(HEADINGS)}")
        found[column] = heading
    return found


def value_in(row: Sequence[str], place: int | None) -> str:
    """Returns a value of a row, empty if it is not known."""
    text = row[place].strip() if place is not None and place < len(row) else ""
    return "" if text.lower() in EMPTY else text


# ---- a row


def listed_of(row: Row, place: str) -> Listed:
    """Returns the cell of a row's values by column; empty values are not known."""

    def of(column: str, read: Callable[[str], Any]) -> Any:
        text = row.get(column, "")
        return read(text) if text else None

    earfcn = of("earfcn", lambda text: compare_lists.whole(text.split("/")[0].split(" ")[0], 262_143, "earfcn"))
    frequency = of("frequency", compare_lists.hertz_of)
    if frequency is None and earfcn is not None:
        frequency = compare_lists.carrier_of(str(earfcn))
    seconds = of("seconds", lambda text: compare_lists.real(text, 0, 1e7, "seconds"))
    level = of("level", compare_lists.level_of)
    primary = of("pss_level", compare_lists.level_of)
    decibels = primary if level is None else level
    time = time_in(row.get("time", ""))
    return Listed(
        places=(place,),
        identity=row_identity(row),
        frequency=frequency,
        blocks=of("width", compare_lists.blocks_of),
        ports=of("ports", compare_lists.ports_of),
        prefix=of("prefix", compare_lists.prefix_of),
        duration=of("duration", compare_lists.duration_of),
        resource=of("resource", compare_lists.resource_of),
        plmns=row_networks(row),
        tac=of("tac", lambda text: compare_lists.whole(text, 65_535, "tac")),
        cell=row_cell(row),
        band=of("band", lambda text: compare_lists.whole(text.lstrip("Bb"), 256, "band")),
        start=of("start", lambda text: compare_lists.real(text, 0, 1e7, "start") % compare_lists.FRAME),
        frames=row_frames(row, seconds),
        levels=() if decibels is None else (Level(decibels, time if seconds is None else seconds),),
        kind=compare_lists.PRIMARY if level is None and primary is not None else compare_lists.MEDIAN,
        time=time,
    )


def row_identity(row: Row) -> int | None:
    """Returns the identity of a row, of PCI or of N1 and N2."""
    if row.get("pci"):
        return compare_lists.identity_of(row["pci"])
    if row.get("n1") and row.get("n2"):
        group, member = (compare_lists.whole(row[key], 503, key) for key in ("n1", "n2"))
        return compare_lists.joined_identity(group, member)
    return None


def row_cell(row: Row) -> int | None:
    """Returns the cell identity of a row, of one column or of eNodeB and sector."""
    if row.get("cell"):
        return compare_lists.cell_of(row["cell"])
    if row.get("enodeb") and row.get("sector"):
        return compare_lists.cell_of(f"{row['enodeb']}-{row['sector']}")
    return None


def row_networks(row: Row) -> tuple[str, ...]:
    """Returns the networks of a row."""
    if row.get("plmn"):
        return compare_lists.networks_of(row["plmn"])
    if row.get("mcc") and row.get("mnc"):
        return (compare_lists.network_of(row["mcc"], row["mnc"]),)
    return ()


def row_frames(row: Row, seconds: float | None) -> tuple[Frame, ...]:
    """Returns the frame number of a row, of the whole number or of the MIB's eight bits."""
    if row.get("sfn"):
        return (Frame(compare_lists.whole(row["sfn"], compare_lists.FRAMES - 1, "sfn"), seconds),)
    if row.get("sfn_msb"):
        return (Frame(compare_lists.whole(row["sfn_msb"], 255, "sfn"), seconds, True),)
    return ()


def time_in(text: str) -> float | None:
    """Returns the seconds since 1970 of a time, None of a text that is no time with its date; UTC if no zone is stated."""
    try:
        time = datetime.datetime.fromisoformat(text.strip().replace("/", "-"))
        return (time if time.tzinfo else time.replace(tzinfo=datetime.timezone.utc)).timestamp()
    except (ValueError, OverflowError):
        return None


# ---- CSV


def csv_list(text: str, name: str, given: dict[str, str]) -> CellList:
    """Returns the list of a table in CSV."""
    rows = csv.reader(io.StringIO(text, newline=""), delimiter=foreign.delimiter_of(text))
    try:
        head: list[str] = next(rows, [])
        lines = list(rows_of(rows))
    except csv.Error as fault:
        raise Refused(f"{name}: line {rows.line_num}: not CSV: {fault}") from None
    return list_of(head, lines, name, given, "csv")


def rows_of(rows: Any) -> Iterator[tuple[str, list[str]]]:
    """Yields the rows with something in them, each with its place."""
    for row in rows:
        if any(map(str.strip, row)):
            yield f"line {rows.line_num}", row


def list_of(
    head: Sequence[str], lines: Sequence[tuple[str, Sequence[str]]], name: str, given: dict[str, str], form: str
) -> CellList:
    """Returns the list of a table's rows."""
    places = columns_of(head, given, name)
    if "cell_id" in places:
        places["pci" if is_identity(places, lines) else "cell"] = places.pop("cell_id")
    names = [one.strip() for one in head]
    if is_own(names):
        return own_list(names, places, lines, name)
    cells = [
        listed_at({column: value_in(row, at) for column, at in places.items()}, place, name) for place, row in lines
    ]
    is_measurements = any(column in places for column in MEASURED)
    found = compare_lists.limited(cells, name, form)
    return CellList(name, form, compare_lists.measured(found) if is_measurements else found, None, is_measurements)


def listed_at(values: Row, place: str, name: str) -> Listed:
    """Returns the cell of a row; refuses a value that is none, with its place."""
    try:
        return listed_of(values, place)
    except BadValue as fault:
        raise Refused(f"{name}: {place}: {fault}") from None


def is_identity(places: dict[str, int], lines: Sequence[tuple[str, Sequence[str]]]) -> bool:
    """Returns whether a column named CellID has physical-layer identities: there is no other, and no value is above 503."""
    values = [value_in(row, places["cell_id"]) for _, row in lines]
    return "pci" not in places and all(re.fullmatch(r"[0-9]{0,3}", one) and int(one or 0) <= 503 for one in values)


# ---- tables of our own survey


def is_own(names: Sequence[str]) -> bool:
    """Returns whether a head line is that of lte_survey's --csv or --csv-windows."""
    return {"file", "identity", "chance"} <= set(names) and bool({"rule", "window"} & set(names))


def own_list(
    names: Sequence[str], places: dict[str, int], lines: Sequence[tuple[str, Sequence[str]]], name: str
) -> CellList:
    """Returns the list of our own survey, without false detections; --csv has levels of the strongest window alone."""
    is_windows, at = "window" in names, {key: place for place, key in enumerate(names)}
    cells, units = [], set[str]()
    for place, row in lines:
        if value_in(row, at["chance"]) == "yes" or not value_in(row, at["identity"]):
            continue
        values = {column: value_in(row, i) for column, i in places.items()}
        rule = value_in(row, at.get("rule"))
        prefix = {"": "", "identity-only": "", "long-prefix": compare_lists.EXTENDED}.get(rule, compare_lists.NORMAL)
        cells.append(listed_at({**values, "prefix": prefix}, place, name))
        units.add(value_in(row, at.get("unit")))
    if not is_windows:
        cells = [dataclasses.replace(one, kind=compare_lists.STRONGEST) for one in cells]
    found = compare_lists.measured(compare_lists.limited(cells, name, "ours"))
    return CellList(name, "ours", found, units.pop() if len(units) == 1 else None, is_measurements=True)


# ---- the aligned table


def aligned_list(text: str, name: str) -> CellList:
    """Returns the list of a table with aligned columns, as lte_survey prints it."""
    lines, found, unit = text.split("\n"), list[Listed](), None
    number = 0
    while number < len(lines):
        if not is_head(lines[number]):
            number += 1
            continue
        block = [lines[number]]
        while number + len(block) < len(lines) and is_row(lines[number + len(block)]):
            block.append(lines[number + len(block)])
        found += aligned_cells(block, number + 1, name)
        unit = next((one for one in ("dBm", "dBFS") if f" {one} " in block[0]), unit)
        number += len(block)
    cells = compare_lists.measured(compare_lists.limited(found, name, "ours"))
    return CellList(name, "ours", cells, unit, is_measurements=True)


def is_head(line: str) -> bool:
    """Returns whether a line is the head of a table of lte_survey."""
    return "PCI" in line.split() and "windows" in line.split() and "first s" in line


def is_row(line: str) -> bool:
    """Returns whether a line is a row of such a table: its first words are numbers or a dash."""
    return re.match(r"\s*([-+]|[0-9])[0-9./b -]*\s", line) is not None


def aligned_cells(block: Sequence[str], number: int, name: str) -> list[Listed]:
    """Returns the cells of a table's lines, without false detections."""
    edges = edges_of(block)
    head = [block[0][first:end].strip() for first, end in edges]
    found = []
    for later, line in enumerate(block[1:], 1):
        row = dict(zip(head, (line[first:end].strip() for first, end in edges)))
        if row.get("") != "?":
            found.append(listed_at(aligned_values(row), f"line {number + later}", name))
    return [dataclasses.replace(one, kind=compare_lists.STRONGEST) for one in found]


def edges_of(block: Sequence[str]) -> list[tuple[int, int]]:
    """Returns the first character of each column and that after its last one: two characters between columns are blank."""
    width = max(map(len, block))
    used = "".join(" " if all(line[i : i + 1] in ("", " ") for line in block) else "x" for i in range(width))
    return [found.span() for found in re.finditer(r"x+( x+)*", used)]


def aligned_values(row: Row) -> Row:
    """Returns the values of a row of our table by column."""
    duration, _, resource = row.get("PHICH", "").partition(" ")
    rule, carrier = row.get("rule", ""), row.get("MHz", "")
    found = {
        "pci": row.get("PCI", ""),
        "earfcn": row.get("EARFCN", ""),
        "frequency": "" if carrier.startswith(("+", "-")) else carrier,
        "level": row.get("dBFS") or row.get("dBm") or row.get("level") or "",
        "plmn": row.get("PLMN", ""),
        "tac": row.get("TAC", ""),
        "cell": row.get("cell", ""),
        "band": row.get("band", ""),
        "width": row.get("width", ""),
        "ports": row.get("ports", ""),
        "prefix": {"": "", "long-prefix": compare_lists.EXTENDED}.get(rule, compare_lists.NORMAL),
        "duration": duration,
        "resource": resource,
    }
    return {column: "" if text.lower() in EMPTY else text for column, text in found.items()}
