"""The forms in which other receivers print their cells. Each reader takes a text and returns `Listed` cells.

The readers look for names and numbers, not for columns of characters. The forms were written after the documentation and
the sources of the programs as they are remembered; docs/COMPARE.md says which one was tried with a real program.
"""
from __future__ import annotations

import dataclasses
import html
import re
from typing import Any, Callable, Iterator, NamedTuple

from . import compare_lists, compare_pcap, compare_tables, foreign
from .answers import Cell
from .compare_lists import BadValue, CellList, Frame, Level, Listed
from .machine import Refused
from .survey_data import Survey

NAMES = ("srsran", "cell-scanner", "openlte", "matlab", "pcap", "csv", "ours")
SAMPLES = 1_920_000  # a second of lte_cli's positions
Cells = list[Listed]


def numbered(text: str) -> Iterator[tuple[str, str]]:
    """Yields each line with something in it, and its place."""
    for number, line in enumerate(text.split("\n"), 1):
        if line.strip():
            yield f"line {number}", line.strip()


def put(cells: Cells, **fields: Any) -> None:
    """Adds fields to the last cell, if there is one."""
    if cells:
        cells[-1] = dataclasses.replace(cells[-1], **{name: value for name, value in fields.items() if value})


# ---- srsRAN 4G: cell_search, pdsch_ue, srsue


def is_srsran(text: str) -> bool:
    return re.search(r"^.*(Found CELL|Found Cell:|PHYID=|- (PCI|Cell ID):\s*[0-9])", text, re.M) is not None


def srsran(text: str) -> Cells:
    """Returns the cells of `Found CELL`, `Found Cell:` and what follows these lines. Lines of srsue that repeat are readings
    of one cell."""
    cells: Cells = []
    for place, line in numbered(text):
        try:
            srsran_line(cells, place, line)
        except BadValue as fault:
            raise BadValue(f"{place}: {fault}") from None
    return merged_readings(cells)


def srsran_line(cells: Cells, place: str, line: str) -> None:
    """Adds what a line of srsRAN says."""
    fields = dict(re.findall(r"\b(EARFCN|PHYID|PCI|PRB|Ports|CP|CellID|Id|TAC|SFN)=([\w.]+)", line))
    if re.search(r"found cell\b", line, re.I) and ("PHYID" in fields or "PCI" in fields):
        cells.append(srsran_cell(place, line, fields))
        return
    if found := re.match(r"-?\s*(?:PCI|Cell ID):\s*([0-9]+)$", line):
        cells.append(Listed((f"{place} of pdsch_ue",), compare_lists.identity_of(found[1])))
    for pattern, read in SRSRAN_LINES:
        if found := re.search(pattern, line):
            put(cells, **read(*found.groups()))


def srsran_cell(place: str, line: str, fields: dict[str, str]) -> Listed:
    """Returns the cell of a line `Found CELL` of cell_search, or `Found Cell:` of srsue."""
    carrier = re.search(r"([0-9.]+)\s*MHz", line)
    frequency = compare_lists.hertz_of(f"{carrier[1]}M") if carrier else None
    if frequency is None and "EARFCN" in fields:
        frequency = compare_lists.carrier_of(fields["EARFCN"])
    blocks = fields.get("PRB") or one_of(r"([0-9]+) PRB", line)
    ports = fields.get("Ports") or one_of(r"([0-9]+) ports", line)
    power = one_of(r"PSS power=\s*([-+0-9.]+)", line)
    return Listed(
        places=(f"{place}{'' if 'PHYID' in fields else ' of srsue'}",),
        identity=compare_lists.identity_of(fields.get("PHYID") or fields["PCI"]),
        frequency=frequency,
        blocks=compare_lists.blocks_of(f"{blocks} PRB") if blocks else None,
        ports=compare_lists.ports_of(ports) if ports else None,
        prefix=compare_lists.prefix_of(fields["CP"]) if "CP" in fields else None,
        levels=(Level(compare_lists.level_of(power)),) if power else (),
        kind=compare_lists.PRIMARY if power else compare_lists.MEDIAN,
    )


def one_of(pattern: str, line: str) -> str | None:
    """Returns the first group of a pattern in a line, or None."""
    found = re.search(pattern, line)
    return found[1] if found else None


def sfn_of(text: str) -> tuple[Frame, ...]:
    return (Frame(compare_lists.whole(text, compare_lists.FRAMES - 1, "sfn"), None),)


# what further lines add to the cell above
SRSRAN_LINES: tuple[tuple[str, Callable[..., dict[str, Any]]], ...] = (
    (r"Nof ports:\s*([0-9]+)", lambda text: {"ports": compare_lists.ports_of(text)}),
    (r"- CP:\s*(\w+)", lambda text: {"prefix": compare_lists.prefix_of(text)}),
    (r"- PRB:\s*([0-9]+)", lambda text: {"blocks": compare_lists.blocks_of(f"{text} PRB")}),
    (r"PHICH Length:\s*(\w+)", lambda text: {"duration": compare_lists.duration_of(text)}),
    (r"PHICH Resources:\s*([\w/.]+)", lambda text: {"resource": compare_lists.resource_of(text)}),
    (r"\bSFN:\s*([0-9]+)", lambda text: {"frames": sfn_of(text)}),
    (r"MIB received BW=([0-9.]+) MHz", lambda text: {"blocks": compare_lists.blocks_of(f"{text} MHz")}),
    (r"\bCellID=(0x[0-9a-fA-F]+|[0-9]+)", lambda text: {"cell": compare_lists.cell_of(text)}),
    (r"MCC\s+([0-9]{3})\s+MNC\s+([0-9]{2,3})", lambda *text: {"plmns": (compare_lists.network_of(*text),)}),
    (r"\bId=([0-9]{5,6})\b", lambda text: {"plmns": compare_lists.networks_of(text)}),
    (r"\bTAC\s*[=:]?\s*(0x[0-9a-fA-F]+|[0-9]+)", lambda text: {"tac": compare_lists.whole(text, 65_535, "tac")}),
)


def merged_readings(cells: Cells) -> Cells:
    """Returns the cells of a log, in which srsue and pdsch_ue find one cell again and again, with each once."""
    readings = [one for one in cells if " of " in one.places[0]]
    return [one for one in cells if " of " not in one.places[0]] + list(compare_lists.measured(readings))


# ---- LTE-Cell-Scanner: CellSearch


def is_cell_scanner(text: str) -> bool:
    return re.search(r"^\s*(DPX\s+)?CID\s+A\s+fc\b", text, re.M) is not None


def cell_scanner(text: str) -> Cells:
    """Returns the cells of the table below a head line with CID and CrystalCorrectionFactor."""
    head: list[str] = []
    cells: Cells = []
    for place, line in numbered(text):
        words = line.split()
        if "CID" in words and "fc" in words:
            head = words
        elif head and len(words) == len(head):
            row = dict(zip(head, words))
            if re.fullmatch(r"[0-9]{1,3}", row["CID"]):
                cells.append(cell_scanner_row(row, place))
    return cells


def cell_scanner_row(row: dict[str, str], place: str) -> Listed:
    """Returns the cell of a row of CellSearch."""

    def of(column: str, read: Callable[[str], Any]) -> Any:
        return read(row[column]) if column in row else None

    try:
        return Listed(
            places=(place,),
            identity=compare_lists.identity_of(row["CID"]),
            frequency=compare_lists.hertz_of(row["fc"]),
            blocks=of("nRB", lambda text: compare_lists.blocks_of(f"{text} PRB")),
            ports=of("A", compare_lists.ports_of),
            prefix=of("C", compare_lists.prefix_of),
            duration=of("P", compare_lists.duration_of),
            resource=of("PR", compare_lists.resource_of),
            levels=(Level(compare_lists.level_of(row["RXPWR"])),) if "RXPWR" in row else (),
        )
    except BadValue as fault:
        raise BadValue(f"{place}: {fault}") from None


# ---- OpenLTE: LTE_fdd_dl_scan


def is_openlte(text: str) -> bool:
    return "phys_cell_id=" in text and "channel_found" in text


def openlte(text: str) -> Cells:
    """Returns the cells of `channel_found_begin`, with the SIB1 that follows."""
    cells: Cells = []
    for place, line in numbered(text):
        fields = dict(re.findall(r"([\w\[\]]+)=([^\s,]+)", line))
        try:
            if "channel_found_begin" in line and "phys_cell_id" in fields:
                cells.append(openlte_cell(fields, place))
            elif "sib1" in line:
                cells = with_openlte_sib1(cells, fields)
        except BadValue as fault:
            raise BadValue(f"{place}: {fault}") from None
    return cells


def openlte_cell(fields: dict[str, str], place: str) -> Listed:
    """Returns the cell of the fields of channel_found_begin."""

    def of(name: str, read: Callable[[str], Any]) -> Any:
        return read(fields[name]) if name in fields else None

    frequency = of("freq", compare_lists.hertz_of) or of("dl_earfcn", compare_lists.carrier_of)
    return Listed(
        places=(place,),
        identity=compare_lists.identity_of(fields["phys_cell_id"]),
        frequency=frequency,
        blocks=of("bandwidth", lambda text: compare_lists.blocks_of(f"{text} MHz")),
        ports=of("n_ant", compare_lists.ports_of),
        duration=of("phich_dur", compare_lists.duration_of),
        resource=of("phich_res", compare_lists.resource_of),
        frames=of("sfn", sfn_of) or (),
    )


def with_openlte_sib1(cells: Cells, fields: dict[str, str]) -> Cells:
    """Returns the cells with SIB1 at the one that it names by its identity, or at the last one."""
    identity = fields.get("phys_cell_id")
    same = [i for i, one in enumerate(cells) if identity is None or str(one.identity) == identity]
    if not same:
        return cells
    found: dict[str, Any] = {}
    networks = [(fields.get(f"mcc[{i}]"), fields.get(f"mnc[{i}]")) for i in range(6)]
    found["plmns"] = tuple(compare_lists.network_of(mcc, mnc) for mcc, mnc in networks if mcc and mnc)
    if "tac" in fields:
        found["tac"] = compare_lists.whole(fields["tac"], 65_535, "tac")
    if "cell_id" in fields:
        found["cell"] = compare_lists.cell_of(fields["cell_id"])
    if "band" in fields:
        found["band"] = compare_lists.whole(fields["band"], 256, "band")
    cells[same[-1]] = dataclasses.replace(cells[same[-1]], **{name: one for name, one in found.items() if one})
    return cells


# ---- MATLAB LTE Toolbox: enb as JSON


def matlab(value: Any, name: str) -> Cells:
    """Returns the cells of a structure enb, or of an array of them."""
    found = value if isinstance(value, list) else [value]
    cells = []
    for number, enb in enumerate(found, 1):
        if not isinstance(enb, dict) or "NCellID" not in enb:
            raise Refused(f"{name}: item {number}: no NCellID in it")
        texts = {key: str(one) for key, one in enb.items() if isinstance(one, (str, int, float))}
        cells.append(matlab_cell(texts, f"item {number}", name))
    return cells


def matlab_cell(enb: dict[str, str], place: str, name: str) -> Listed:
    """Returns the cell of a structure enb. CSV has the same headings (compare_tables.py)."""
    known = {compare_tables.KNOWN.get(compare_tables.plain(key)): text for key, text in enb.items()}
    return compare_tables.listed_at({key: text for key, text in known.items() if key}, place, name)


# ---- ours: lte_cli


def is_search(text: str) -> bool:
    return re.search(r"^cell [0-9]+ at [0-9]+ sfn [0-9]+ ports", text, re.M) is not None


def search(text: str) -> Cells:
    """Returns the cells of `lte_cli search` or `evidence`, with --all or without."""
    cells: Cells = []
    prefix = None
    for place, line in numbered(text):
        words = line.split()
        if words[0] == "rule":
            prefix = compare_lists.EXTENDED if line == "rule long-prefix" else compare_lists.NORMAL
        fields = dict(zip(words, words[1:]))
        try:
            if words[0] == "cell" and "sfn" in fields:
                cells.append(search_cell(words, fields, prefix, place))
            elif words[:1] == ["sib1"] and "tac" in fields:
                put(cells, **sib1_fields(fields))
            elif words[:1] == ["plmn"] and len(words) >= 3 and cells:
                country = words[1] if words[1] != "-" else cells[-1].plmns[-1][:3]
                put(cells, plmns=(*cells[-1].plmns, compare_lists.network_of(country, words[2])))
        except BadValue as fault:
            raise BadValue(f"{place}: {fault}") from None
        except (KeyError, ValueError, IndexError, StopIteration):
            raise BadValue(f"{place}: not a line of lte_cli search") from None
    return cells


def sib1_fields(fields: dict[str, str]) -> dict[str, Any]:
    """Returns the fields of a line `sib1 tac 4660 cell 27447297 .. band 7 ..`."""
    return {
        "tac": compare_lists.whole(fields["tac"], 65_535, "tac"),
        "cell": compare_lists.cell_of(fields["cell"]),
        "band": compare_lists.whole(fields["band"], 256, "band"),
    }


def search_cell(words: list[str], fields: dict[str, str], prefix: str | None, place: str) -> Listed:
    """Returns the cell of a line `cell 271 at 14200 sfn 512 ports 1 n6 phich normal one br 0 spare 0`."""
    at = compare_lists.whole(fields["at"], 10**12, "at") / SAMPLES
    phich = words.index("phich")
    sfn = compare_lists.whole(fields["sfn"], compare_lists.FRAMES - 1, "sfn")
    return Listed(
        places=(place,),
        identity=compare_lists.identity_of(words[1]),
        blocks=compare_lists.blocks_of(next(word for word in words if re.fullmatch(r"n[0-9]+", word))),
        ports=compare_lists.ports_of(fields["ports"]),
        prefix=prefix,
        duration=compare_lists.duration_of(words[phich + 1]),
        resource=compare_lists.resource_of(words[phich + 2]),
        start=at % compare_lists.FRAME,
        frames=(Frame(sfn, at),),
    )


def search_json(value: list[Any], name: str) -> Cells:
    """Returns the cells of what lte_cli wrote with --json: search, evidence, ids, with --all or without."""
    cells = []
    for number, line in enumerate(value, 1):
        if not isinstance(line, dict) or not {"identity", "at"} <= set(line):
            raise Refused(f"{name}: item {number}: no identity and at in it")
        kind = "search" if "bandwidth" in line else "evidence" if "values" in line else "ids"
        foreign.check([line], kind, f"{name}: item {number}")
        place = f"item {number}"
        cells.append(of_answer(line, place) if kind == "search" else of_identity(line, place))
    return cells


def of_answer(line: dict[str, Any], place: str) -> Listed:
    """Returns the cell of a line of search, which the schema has accepted."""
    found = Cell.from_json(line)
    rules = {None: None, "long-prefix": compare_lists.EXTENDED}
    return Listed(
        places=(place,),
        identity=found.identity,
        blocks=compare_lists.blocks_of(found.bandwidth),
        ports=found.ports,
        prefix=rules.get(found.rule, compare_lists.NORMAL),
        duration=found.duration,
        resource=found.resource,
        plmns=found.sib1.networks if found.sib1 else (),
        tac=found.sib1.tac if found.sib1 else None,
        cell=found.sib1.cell if found.sib1 else None,
        band=found.sib1.band if found.sib1 else None,
        start=found.at / SAMPLES % compare_lists.FRAME,
        frames=(Frame(found.sfn, found.at / SAMPLES),),
    )


def of_identity(line: dict[str, Any], place: str) -> Listed:
    """Returns the cell of a line of ids, or of evidence, which has a frame number too."""
    at = line["at"] / SAMPLES
    frames = (Frame(line["sfn"], at),) if "sfn" in line else ()
    return Listed((place,), line["identity"], start=at % compare_lists.FRAME, frames=frames)


# ---- ours: GeoJSON


def geojson(value: dict[str, Any], name: str) -> CellList:
    """Returns the list of the GeoJSON of lte_survey, without false detections."""
    cells, units = [], set[str]()
    for number, feature in enumerate(value.get("features", []), 1):
        found = feature.get("properties") if isinstance(feature, dict) else None
        if not isinstance(found, dict) or found.get("kind") not in ("cell", "identity") or found.get("chance"):
            continue
        texts = {key: str(one) for key, one in found.items() if isinstance(one, (str, int, float))}
        columns = {"identity": "pci", "carrier": "frequency", "bandwidth": "width", "plmn": "plmn", "tac": "tac"}
        columns |= {key: key for key in ("cell", "band", "ports", "level")}
        row = {column: texts[key] for key, column in columns.items() if key in texts}
        one = compare_tables.listed_at(row, f"feature {number}", name)
        cells.append(dataclasses.replace(one, kind=compare_lists.STRONGEST))
        units.add(texts.get("unit", ""))
    limited = compare_lists.measured(compare_lists.limited(cells, name, "ours"))
    return CellList(name, "ours", limited, units.pop() if len(units) == 1 else None, True)


# ---- ours: pages and KML


def is_page(text: str) -> bool:
    """Returns whether a text is a page or KML of lte_survey."""
    return text.lstrip()[:1] == "<" and ("<title>Survey of " in text or "<kml" in text)


def page(text: str, name: str) -> CellList:
    """Returns the list of the page or the KML of lte_survey, without false detections."""
    is_kml = "<kml" in text
    rows = kml_rows(text) if is_kml else page_rows(text)
    cells = [compare_tables.listed_at(row, f"{'place' if is_kml else 'row'} {place}", name) for place, row in rows]
    strongest = [dataclasses.replace(one, kind=compare_lists.STRONGEST) for one in cells]
    found = compare_lists.measured(compare_lists.limited(strongest, name, "ours"))
    return CellList(name, "ours", found, "dBm" if re.search(r">dBm<", text) else "dBFS", True)


def page_rows(text: str) -> Iterator[tuple[int, dict[str, str]]]:
    """Yields the rows of a page's tables, each with its number."""
    number = 0
    for table in re.findall(r"<table>(.*?)</table>", text, re.S):
        head = [html.unescape(one) for one in re.findall(r"<th [^>]*><button>(.*?)</button></th>", table)]
        for line in re.findall(r"<tr>(<td .*?)</tr>", table) if "PCI" in head and "windows" in head else ():
            number += 1
            values = [html.unescape(one) for one in re.findall(r"<td [^>]*>(.*?)</td>", line)]
            row = dict(zip(head, values))
            if row.get("?") != "?":
                yield number, compare_tables.aligned_values(row)


def kml_rows(text: str) -> Iterator[tuple[int, dict[str, str]]]:
    """Yields the values of the places at which cells were strongest, each with its number."""
    columns = {"identity": "pci", "carrier": "frequency", "bandwidth": "width"}
    columns |= {key: key for key in ("plmn", "tac", "cell", "band", "ports", "level")}
    for number, mark in enumerate(
        re.findall(r"<Placemark><name>PCI [^<]*, strongest</name>(.*?)</ExtendedData>", text, re.S)
    ):
        values = dict(re.findall(r'<Data name="(\w+)"><value>(.*?)</value>', mark))
        if values.get("chance") != "true":
            yield number + 1, {columns[key]: html.unescape(one) for key, one in values.items() if key in columns}


# ---- which form


class Form(NamedTuple):
    """A form of text: its name, whether a text has it, and its cells."""

    name: str
    is_of: Callable[[str], bool]
    cells: Callable[[str], Cells]


TEXTS = (
    Form("ours", is_search, search),
    Form("openlte", is_openlte, openlte),
    Form("cell-scanner", is_cell_scanner, cell_scanner),
    Form("srsran", is_srsran, srsran),
)


def read(data: bytes, name: str, form: str | None, columns: dict[str, str]) -> CellList:
    """Returns the list in a file's bytes, of the form that is named or else recognised."""
    if not data.strip():
        raise Refused(f"{name}: it is empty")
    if form == "pcap" or form is None and compare_pcap.is_capture(data):
        if not compare_pcap.is_capture(data):
            raise Refused(f"{name}: byte 0: not a capture, pcap or pcapng")
        return compare_pcap.capture_list(data, name)
    text = compare_tables.text_of(data, name)
    if text.lstrip()[:1] in ("{", "[") and form in (None, "ours", "matlab"):
        return of_json(text, name, form)
    if form in (None, "ours") and is_page(text):
        return page(text, name)
    if columns or form in ("csv", "matlab"):
        return compare_tables.csv_list(text, name, columns)
    for one in TEXTS:
        if form == one.name and (form != "ours" or is_search(text)) or form is None and one.is_of(text):
            return of_text(one, text, name)
    if any(map(compare_tables.is_head, text.split("\n"))):
        return compare_tables.aligned_list(text, name)
    return compare_tables.csv_list(text, name, columns)


def of_text(form: Form, text: str, name: str) -> CellList:
    """Returns the list of a text of a form."""
    try:
        cells = compare_lists.limited(form.cells(text), name, form.name)
    except BadValue as fault:
        raise Refused(f"{name}: {fault}") from None
    is_ours = form.name == "ours"
    return CellList(name, form.name, compare_lists.measured(cells) if is_ours else cells, None, is_ours)


def of_json(text: str, name: str, form: str | None) -> CellList:
    """Returns the list of JSON: a survey, GeoJSON, what lte_cli wrote, or structures enb."""
    value = foreign.parsed(text.encode(), name)
    if isinstance(value, dict) and form != "matlab":
        if value.get("type") == "FeatureCollection":
            return geojson(value, name)
        if "half_frames" in value:
            foreign.check(value, "ids_deep", name)
            cells = [of_identity(one, f"item {number}") for number, one in enumerate(value["cells"], 1)]
            return CellList(name, "ours", compare_lists.limited(cells, name, "ours"), None, True)
        if "cells" in value:
            return compare_lists.of_survey(Survey.from_json(value, name), name)
    is_matlab = form == "matlab" or any(isinstance(one, dict) and "NCellID" in one for one in listed(value))
    if is_matlab:
        return CellList(name, "matlab", compare_lists.limited(matlab(value, name), name, "matlab"))
    if not isinstance(value, list):
        raise Refused(f"{name}: JSON without cells: not a survey, a list of lte_cli or a structure enb")
    found = compare_lists.limited(search_json(value, name), name, "ours")
    return CellList(name, "ours", compare_lists.measured(found), None, True)


def listed(value: Any) -> list[Any]:
    """Returns an array's first items, or the value alone."""
    return value[:1] if isinstance(value, list) else [value]
