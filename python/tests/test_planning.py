"""Surveys against a plan and each other, clashes, coverage, and tables and files with windows without a cell."""
import csv
import dataclasses
import html.parser
import io
import json
import os
import re
import sys
import xml.etree.ElementTree

import pytest

from tests.conftest import EXAMPLES, TOP, is_one_line
import lte_tools
from lte_tools import clashes, coverage, foreign, kml, picture_map, plan, survey_diff, survey_windows
from lte_tools.survey_data import Part, Power, Survey, Track

CELLS = {63: 70_001 * 256 + 1, 33: 70_001 * 256 + 2, 64: 70_055 * 256 + 1}  # identity and cell identity of SIB1
EVERY = 1.0  # seconds from one window to the next
RATE = 1_920_000
LATER = {63: 100, 33: 2_020, 64: 19_300}  # samples after a window's begin at which a frame of a cell begins
# levels in dBFS by window, None where a cell is not listed; no cell is in the fourth window
LEVELS = {
    63: [-50.0, -55.0, -60.0, None, -72.0, -80.0],
    33: [-53.0, -56.0, -70.0, None, None, None],
    64: [None, None, -62.0, None, -70.0, -71.0],
}
WAY = [(13.0, 52.0 + 0.001 * i) for i in range(6)]  # 111.195 m from one place to the next, to the north


@pytest.fixture
def made(survey_json):
    """Returns a survey of levels by window, with a place for each window."""
    survey = Survey.from_json(survey_json)
    (cell,) = survey.cells
    (seen,) = cell.seen

    def make(levels=None, way=None, cells=None, name="drive.cu8"):
        levels, way, cells = levels or LEVELS, way or WAY, {**CELLS, **(cells or {})}
        found = [cell_of(identity, each, way, cells[identity]) for identity, each in levels.items()]
        count = len(next(iter(levels.values())))
        track = Track("", "", count, tuple((EVERY * i, *place) for i, place in enumerate(way)))
        powers = tuple(Power(EVERY * i, -30.0, -90.0) for i in range(count))
        begin = "2026-05-01T10:00:00+00:00"
        keys = {"track": track, "powers": powers, "file": name, "datetime": begin}
        return dataclasses.replace(
            survey, cells=tuple(found), windows=count, every=EVERY, seconds=float(count), rate=RATE, **keys
        )

    def cell_of(identity, levels, way, number):
        windows = [
            dataclasses.replace(
                seen,
                seconds=round(EVERY * i + LATER[identity] / RATE, 4),
                at=round(EVERY * i * RATE) + LATER[identity],
                datetime=f"2026-05-01T10:00:0{i}.{1000 * LATER[identity] // RATE:03}+00:00",
                level=level,
                ratio=level + 80,
                place=way[i],
            )
            for i, level in enumerate(levels)
            if level is not None
        ]
        known = [level for level in levels if level is not None]
        sib1 = dataclasses.replace(cell.sib1, cell=number, tac=4711)
        keys = {"identity": identity, "seen": tuple(windows), "windows": len(windows), "level": max(known)}
        return dataclasses.replace(cell, sib1=sib1, **keys)

    return make


@pytest.fixture
def stored(tmp_path):
    """Writes a survey as lte_survey --json does."""

    def write(survey, name="drive.json"):
        (tmp_path / name).write_text(json.dumps(survey.to_json()))
        return tmp_path / name

    return write


def without_sib1(survey, identity, **keys):
    """A survey in which a cell's SIB1 was not read."""
    cells = (
        dataclasses.replace(cell, sib1=None, no_sib1="no-control", **keys) if cell.identity == identity else cell
        for cell in survey.cells
    )
    return dataclasses.replace(survey, cells=tuple(cells))


def test_survey_that_is_read_needs_no_filter(command):
    code = "import sys; from lte_tools import programs, survey_outputs; print('scipy' in sys.modules)"
    assert command(sys.executable, "-c", code) == b"False\n"


@pytest.mark.parametrize(
    "head, columns",
    [
        ("--csv-windows`", survey_windows.COLUMNS + survey_windows.DEEP_COLUMNS),
        ("--plan`", plan.COLUMNS),
        ("--clashes`", clashes.COLUMNS),
        ("--coverage`", coverage.COLUMNS),
        ("Two surveys", survey_diff.COLUMNS + survey_diff.PLACE_COLUMNS),
    ],
)
def test_page_names_each_key(head, columns):
    section = re.split(r"^#+ .*", (TOP / "docs/FORMATS.md").read_text().partition(f"{head}\n")[2], flags=re.M)[0]
    keys = [column.key for column in columns if column.key]
    assert [key for key in keys if f"`{key}`" not in section] == []


def rows_of(text):
    return list(csv.DictReader(io.StringIO(text)))


# ---- windows


def test_windows_have_their_cells(made):
    windows = survey_windows.windows_of(made())
    assert [[one.cell.identity for one in window.cells] for window in windows] == [
        [63, 33],
        [63, 33],
        [63, 64, 33],
        [],
        [64, 63],
        [64, 63],
    ]
    assert [window.place for window in windows] == WAY and windows[3].strongest is None


def test_strongest_cell_of_a_window_without_levels(made):
    """Where the radio's gain steps no cell has a level: the strongest one is that of the greatest ratio."""
    cells = tuple(
        dataclasses.replace(
            cell, seen=tuple(dataclasses.replace(one, level=None, ratio=10.0 + number) for one in cell.seen)
        )
        for number, cell in enumerate(made().cells)
    )
    windows = survey_windows.windows_of(dataclasses.replace(made(), cells=cells))
    found = [window.strongest.cell.identity if window.strongest else None for window in windows]
    assert found == [33, 33, 64, None, 64, 64]


def test_windows_of_an_older_survey(made):
    older = dataclasses.replace(made(), powers=(), track=None, datetime=None)
    bare = dataclasses.replace(older, cells=without_place(older))
    assert [window.seconds for window in survey_windows.windows_of(bare)] == [0, 1, 2, 3, 4, 5]
    assert (
        dataclasses.replace(bare, windows=10**12)
        and survey_windows.starts_of(dataclasses.replace(bare, windows=10**12)) == []
    )


def without_place(survey):
    return tuple(
        dataclasses.replace(cell, seen=tuple(dataclasses.replace(one, place=None) for one in cell.seen))
        for cell in survey.cells
    )


def test_table_by_window(made):
    rows = rows_of(survey_windows.csv_of(made(name="=1+1")))
    assert [(row["window"], row["identity"], row["level"]) for row in rows] == [
        ("0.0", "63", "-50.0"),
        ("0.0", "33", "-53.0"),
        ("1.0", "63", "-55.0"),
        ("1.0", "33", "-56.0"),
        ("2.0", "63", "-60.0"),
        ("2.0", "64", "-62.0"),
        ("2.0", "33", "-70.0"),
        ("3.0", "", ""),
        ("4.0", "64", "-70.0"),
        ("4.0", "63", "-72.0"),
        ("5.0", "64", "-71.0"),
        ("5.0", "63", "-80.0"),
    ]
    hole, third = rows[7], rows[6]
    assert (hole["latitude"], hole["longitude"], hole["noise"], hole["below"]) == ("52.003", "13.0", "-90.0", "")
    assert (third["below"], third["ratio"], third["enodeb"], third["file"]) == ("10.0", "10.0", "70001", "'=1+1")
    assert (rows[0]["datetime"], hole["datetime"]) == ("2026-05-01T10:00:00Z", "2026-05-01T10:00:03Z")


def test_files_of_places_have_holes(tool, stored, made, tmp_path):
    survey = stored(made(name="a<b>&\x01"))
    out = [f"--{name}={tmp_path / name}" for name in ("geojson", "kml", "csv-windows")]
    run = tool("survey", survey, *out)
    assert run.status == 0, run.err
    features = json.loads((tmp_path / "geojson").read_text())["features"]
    kinds = [one["properties"]["kind"] for one in features]
    assert [kinds.count(kind) for kind in ("cell", "window", "hole")] == [3, 11, 1]
    (hole,) = [one for one in features if one["properties"]["kind"] == "hole"]
    assert hole["geometry"] == {"type": "Point", "coordinates": [13.0, 52.003]} and hole["properties"]["noise"] == -90
    best = [one["properties"]["identity"] for one in features if one["properties"].get("strongest")]
    assert sorted(best) == [63, 63, 63, 64, 64]
    space = "{http://www.opengis.net/kml/2.2}"
    root = xml.etree.ElementTree.fromstring((tmp_path / "kml").read_bytes())
    folders = {
        one.find(f"{space}name").text: len(one.findall(f"{space}Placemark")) for one in root.iter(f"{space}Folder")
    }
    assert folders == {"PCI 63": 6, "PCI 33": 4, "PCI 64": 4, "No certain cell": 1}
    assert root.find(f"{space}Document/{space}name").text == "a<b>&?"
    (line,) = root.iter(f"{space}LineString")
    assert len(line.find(f"{space}coordinates").text.split()) == 6
    assert len((tmp_path / "csv-windows").read_text().splitlines()) == 13


# what the schema of KML 2.2 allows in an element that is written here, in this order; names in one text may be mixed
KML = {
    "kml": ["Document"],
    "Document": ["name", "Style", "Placemark Folder"],
    "Folder": ["name", "Placemark"],
    "Placemark": ["name", "TimeStamp", "styleUrl", "ExtendedData", "Point MultiGeometry"],
    "Style": ["IconStyle", "LabelStyle", "LineStyle"],
    "IconStyle": ["color", "scale", "Icon"],
    "LabelStyle": ["scale"],
    "LineStyle": ["color", "width"],
    "Icon": ["href"],
    "TimeStamp": ["when"],
    "ExtendedData": ["Data"],
    "Data": ["value"],
    "MultiGeometry": ["LineString"],
    "LineString": ["tessellate", "coordinates"],
    "Point": ["coordinates"],
}
MANY = {"Style", "Placemark", "Folder", "Data", "LineString"}


def in_order(element):
    """Whether an element has only children that the schema allows, in its order."""
    names, groups = [tag_of(child) for child in element], KML.get(tag_of(element), [])
    ranks = [place for name in names for place, group in enumerate(groups) if name in group.split()]
    is_once = all(names.count(name) == 1 for name in names if name not in MANY)
    return len(ranks) == len(names) and ranks == sorted(ranks) and is_once


def tag_of(element):
    return element.tag.partition("}")[2]


@pytest.fixture
def kml_root(made):
    """The KML of a survey with a false detection, read again."""
    survey = made()
    cells = (*survey.cells[:2], dataclasses.replace(survey.cells[2], chance=True))
    return xml.etree.ElementTree.fromstring(kml.of_survey(dataclasses.replace(survey, cells=cells)))


def test_kml_has_the_order_of_the_schema(kml_root):
    assert [tag_of(one) for one in kml_root.iter() if not in_order(one)] == []
    assert {one.tag.partition("}")[0] for one in kml_root.iter()} == {"{http://www.opengis.net/kml/2.2"}


def test_kml_names_cells_of_one_identity(made):
    survey = made()
    twice = dataclasses.replace(survey.cells[2], identity=63)
    text = kml.of_survey(dataclasses.replace(survey, cells=(*survey.cells[:2], twice))).decode()
    assert re.findall("<Folder><name>(PCI.*?)</name>", text) == ["PCI 63 (70001, 1)", "PCI 33", "PCI 63 (70055, 1)"]


def test_kml_has_valid_values(kml_root):
    texts = {}
    for one in kml_root.iter():
        texts.setdefault(tag_of(one), []).append(one.text or "")
    ids = [one.get("id") for one in kml_root.iter() if tag_of(one) == "Style"]
    assert len(ids) == len(set(ids)) and {f"#{one}" for one in ids} >= set(texts["styleUrl"])
    assert all(re.fullmatch("[0-9a-f]{8}", colour) for colour in texts["color"])
    assert all(re.fullmatch(r"\d{4}-\d\d-\d\dT[\d:.]+Z", when) for when in texts["when"])
    points = [point.split(",") for line in texts["coordinates"] for point in line.split()]
    assert {lon for lon, _ in points} == {"13.0000000"} and all(52 <= float(lat) <= 52.005 for _, lat in points)
    values = {(one.get("name"), one[0].text) for one in kml_root.iter() if tag_of(one) == "Data"}
    assert {value for name, value in values if name in ("chance", "spoiled")} == {"true", "false"}
    assert texts["tessellate"] == ["1"]


# ---- clashes


def test_clashes(made):
    found = {(one.identity, one.other): one for one in clashes.clashes_of(made(), 5)}
    # 63 and 33: modulo 30 both are 3; within 5 dB in the first two windows of three, 3 and 1 dB weaker; 63 and 64: 2, 2
    assert set(found) == {(63, 33), (33, 63), (63, 64), (64, 63)}
    one = found[63, 33]
    assert (one.moduli, one.word, one.windows, one.together, one.difference) == ((3, 6, 30), "mod 30", 2, 3, -2.0)
    assert one.time == 1_000.0 and found[33, 63].time == -1_000.0 and found[33, 63].difference == 2.0
    other = found[63, 64]
    assert (other.moduli, other.word, other.windows, other.together, other.difference) == ((), "", 2, 3, 0.0)
    assert other.time == pytest.approx(0.0, abs=0.1)  # 19,200 samples are a frame


def test_clashes_have_the_letters_of_the_map(made, tool, stored):
    """Cell 63 is the strongest at three positions, 64 at two, and 33 at none."""
    found = {(one.identity, one.other): one for one in clashes.clashes_of(made(), 5)}
    assert (found[63, 64].letter, found[63, 64].other_letter) == ("A", "B")
    assert (found[33, 63].letter, found[33, 63].other_letter) == (None, "A")
    signs = picture_map.Map(made(), picture_map.ALONE).signs
    assert {number: sign[0] for number, sign in signs.items()} == survey_windows.letters_of(made()) == {0: "A", 2: "B"}
    run = tool("survey", stored(made()), "--clashes", "5")
    head, first = run.out.splitlines()[-5:-3]
    assert head.split()[:6] == ["map", "PCI", "cell", "other", "map", "other"] and first.split()[:2] == ["A", "63"]
    bare = clashes.clashes_of(dataclasses.replace(made(), track=None), 5)
    assert {one.letter for one in bare} == {None}


def test_two_cells_of_one_identity(made):
    survey = made()
    third = dataclasses.replace(survey.cells[2], identity=63)
    (first, second) = [
        one for one in clashes.clashes_of(dataclasses.replace(survey, cells=(survey.cells[0], third)), 0.5)
    ]
    assert (first.word, first.windows, first.together, first.difference) == ("PCI", 0, 3, None)
    assert (first.cell, first.other_cell) == (CELLS[63], CELLS[64]) == (second.other_cell, second.cell)
    elsewhere = dataclasses.replace(third, shift=2e5)
    assert clashes.clashes_of(dataclasses.replace(survey, cells=(survey.cells[0], elsewhere)), 50) == []


# ---- coverage


def test_coverage(made):
    parts = {
        (one.what, one.identity, one.value): one for one in coverage.coverage_of(made(), coverage.Limits(-62.0, 10.0))
    }
    # five steps of 111.195 m; a window at an end stands for half a step
    every = parts["all", None, None]
    assert (every.windows, every.share, every.metres, every.stretches) == (6, 1.0, pytest.approx(556.0, abs=0.1), 1)
    some = parts["cell", None, None]
    assert (some.windows, some.way, some.stretches, some.longest) == (5, 0.8, 2, pytest.approx(278.0, abs=0.1))
    assert (parts["level", None, -62.0].windows, parts["level", None, -62.0].way) == (3, 0.5)
    assert (parts["ratio", None, 10.0].windows, parts["both", None, None].windows) == (4, 3)
    best = parts["strongest", 63, None]
    assert (best.windows, best.cell, best.metres) == (3, CELLS[63], pytest.approx(278.0, abs=0.1))
    assert parts["strongest", 64, None].windows == 2 and ("strongest", 33, None) not in parts
    # within 6 dB: 33; 33; 64; 63; none
    assert [parts["others", None, count].windows for count in (0.0, 1.0)] == [1, 4]


def test_coverage_without_a_track(made):
    bare = dataclasses.replace(made(), track=None, spoiled=(3.0,))
    bare = dataclasses.replace(bare, cells=without_place(bare))
    every, some, *_ = coverage.coverage_of(bare, coverage.Limits(-62.0, 10.0))
    assert (every.windows, every.metres, every.way, some.windows, some.longest) == (5, None, None, 5, None)


# ---- several files


@pytest.mark.parametrize(
    "missing, begin, times",
    [
        (3_597.0, "2026-05-01T11:00:00+00:00", ["11:00:00", "11:00:01", "11:00:02"]),
        (0.6, "2026-05-01T10:00:03.600+00:00", ["10:00:03", "10:00:04", "10:00:05"]),
        (None, None, ["", "", ""]),
    ],
)
def test_several_files(made, missing, begin, times):
    """The second file begins at the fourth window; from there on no cell is listed."""
    parts = (Part("a", 0.0, 3.0, "2026-05-01T10:00:00+00:00", 0.0), Part("b", 3.0, 3.0, begin, missing))
    survey = dataclasses.replace(made({63: [-50.0, -55.0, -60.0, None, None, None]}), parts=parts)
    found = [row["datetime"][11:19] for row in rows_of(survey_windows.csv_of(survey))]
    assert found == ["10:00:00", "10:00:01", "10:00:02", *times]
    assert [survey_windows.are_next(survey, i, i + 1.0) for i in range(5)] == [True, True, False, True, True]
    every, *_ = coverage.coverage_of(survey, coverage.Limits(-62.0, 10.0))
    assert every.metres == pytest.approx(4 * 111.195, abs=0.1)
    assert kml.of_survey(survey).count(b"<LineString>") == 2


def test_frames_of_another_file_give_no_time(made):
    parts = (Part("a", 0.0, 2.95, None, 0.0), Part("b", 2.95, 3.05, None, None))
    survey = dataclasses.replace(made({63: [None, None, None, -50.0, None, None]}), parts=parts, datetime=None)
    starts = [0.0, 1.0, 2.0, 2.95, 4.0, 5.0]
    powers = tuple(Power(start, -30.0, -90.0) for start in starts)
    track = dataclasses.replace(survey.track, windows=())
    windows = survey_windows.windows_of(dataclasses.replace(survey, powers=powers, track=track, window=1.05))
    assert [window.time is None for window in windows] == [True, True, True, False, False, False]


# ---- a plan

PLAN = """name,PCI,enodeb,sector,tac,lat,lon,plmn,further
North 1,63,70001,1,4711,52.0,13.0,001-01,x
North 2,34,70001,2,4711,52.0,13.0,00101,x
East 1,64,70055,1,4712,52.0,13.01,,x
South,100,70077,1,4711,51.99,13.0,,x

Other network,63,70001,1,4711,,,262-02,
"""


def findings(survey, text, tmp_path):
    (tmp_path / "plan.csv").write_text(text)
    return plan.findings_of(survey, plan.read(tmp_path / "plan.csv"))


def test_plan(made, tmp_path):
    found = findings(made(), PLAN, tmp_path)
    assert [(one.finding, one.name, one.planned_identity, one.identity) for one in found] == [
        ("wrong-identity", "North 2", 34, 33),
        ("wrong-area", "East 1", 64, 64),
        ("not-heard", "South", 100, None),
        ("not-heard", "Other network", 63, None),
        ("as-planned", "North 1", 63, 63),
    ]
    # South is 0.01 degrees of latitude from the way's first place
    assert [one.metres for one in found if one.name in ("South", "North 1")] == [1112.0, 0.0]
    assert (found[1].planned_tac, found[1].tac, found[1].windows) == (4712, 4711, 3)


def test_plan_as_programs_of_networks_export_it(tmp_path):
    head = "Cell Name\tPhysical cell ID\teNodeB ID\tLocal Cell ID\tTracking area code\tDownlink EARFCN\n"
    (tmp_path / "plan.txt").write_text(head + "A\t63\t70001\t1\t4711\t6200\n", encoding="utf-16")
    (one,) = plan.read(tmp_path / "plan.txt")
    assert one == plan.Planned(2, "A", 63, CELLS[63], 4711, None, 796e6, None)
    (tmp_path / "plan.csv").write_text("name;pci\nMühle;63\n", encoding="cp1252")
    assert [one.name for one in plan.read(tmp_path / "plan.csv")] == ["Mühle"]


def test_plan_by_identity_alone(made, tmp_path):
    found = findings(without_sib1(made(), 33), "pci;lat;lon\n33;52;13\n33;40;13\n63;;\n65;;\n", tmp_path)
    words = [(one.finding, one.planned_identity, one.identity) for one in found]
    # 33 is the nearer one of two; 63 has SIB1, and the plan no cell identity; the plan has no 64
    assert words == [
        ("not-planned", None, 64),
        ("not-heard", 33, None),
        ("not-heard", 65, None),
        ("identity-only", 63, 63),
        ("identity-only", 33, 33),
    ]


def test_plan_of_a_spreadsheet(made, tmp_path):
    """Names as other programs write them, decimal commas, and whole numbers with a point."""
    text = "\ufeffSite Name;eNodeB-ID;Sector_ID;PCI;TAC;Latitude;Long;EARFCN DL\nA;70001;1;63.0;4711,0;52,001;13,0;\n"
    (tmp_path / "plan.csv").write_text(text, encoding="utf-8")
    (one,) = plan.read(tmp_path / "plan.csv")
    assert one == plan.Planned(2, "A", 63, CELLS[63], 4711, None, None, (13.0, 52.001))


def test_reuse_and_carriers(made, tmp_path):
    survey = made()
    twice = dataclasses.replace(survey.cells[2], identity=63)
    survey = dataclasses.replace(survey, cells=(survey.cells[0], twice), carrier=2_140_000_000.0)
    text = f"pci,cell,earfcn\n63,{CELLS[63]},300\n63,{CELLS[64]},\n70,5,310\n"
    found = findings(survey, text, tmp_path)
    assert [one.finding for one in found] == ["reuse", "reuse", "as-planned", "as-planned"]
    assert [(one.cell, one.other) for one in found[:2]] == [(CELLS[63], CELLS[64]), (CELLS[64], CELLS[63])]


CROSSED = """name,pci,enodeb,sector
North 1,63,70001,1
North 2,64,70001,2
North 3,33,70001,3
Far,64,9,1
"""


def test_crossed_sectors_of_which_one_has_sib1(made, tmp_path):
    """On air sector 2 has the identity of sector 3; that of sector 2 is detected without SIB1."""
    found = findings(without_sib1(made(cells={33: CELLS[33]}), 64), CROSSED, tmp_path)
    words = [(one.finding, one.name, one.planned_identity, one.identity, one.other_name) for one in found]
    assert words == [
        ("wrong-identity", "North 2", 64, 33, "North 3"),
        ("exchanged", "North 3", 33, 64, "North 2"),
        ("not-heard", "Far", 64, None, None),
        ("as-planned", "North 1", 63, 63, None),
    ]
    assert (found[0].other, found[1].other) == (70_001 * 256 + 3, CELLS[33])


def test_crossed_sectors_with_sib1(made, tmp_path):
    found = findings(made(cells={64: 70_001 * 256 + 3}), CROSSED, tmp_path)
    words = [(one.finding, one.name, one.identity, one.other_name) for one in found if one.finding != "as-planned"]
    assert words == [
        ("wrong-identity", "North 2", 33, "North 3"),
        ("wrong-identity", "North 3", 64, "North 2"),
        ("not-heard", "Far", None, None),
    ]


def test_an_identity_is_not_given_to_a_cell_that_has_another(made, tmp_path):
    """Sector 2 is known to have 33, and no sector is planned with that: what has 64 is not planned."""
    text = "name,pci,enodeb,sector\nNorth 1,63,70001,1\nNorth 2,64,70001,2\n"
    found = findings(without_sib1(made(), 64), text, tmp_path)
    words = [(one.finding, one.name, one.identity, one.other) for one in found]
    assert words == [
        ("wrong-identity", "North 2", 33, None),
        ("not-planned", None, 64, None),
        ("as-planned", "North 1", 63, None),
    ]


def test_reuse_has_the_names_of_both_cells(made, tmp_path):
    survey = made()
    twice = dataclasses.replace(survey.cells[2], identity=63)
    survey = dataclasses.replace(survey, cells=(survey.cells[0], twice))
    found = findings(survey, f"name,pci,cell\nA,63,{CELLS[63]}\nB,63,{CELLS[64]}\n", tmp_path)
    names = [(one.name, one.other_name) for one in found if one.finding == "reuse"]
    assert names == [("A", "B"), ("B", "A")]


def test_control_characters_of_names_do_not_reach_a_terminal(tool, stored, made, tmp_path):
    name = "drive\x1b[31m\x07\u202e.cu8"
    (tmp_path / "plan.csv").write_text("name,pci\nNor\x1b]0;th\x9b,63\n")
    run = tool("survey", stored(made(name=name)), "--plan", tmp_path / "plan.csv")
    assert "drive?[31m??.cu8" in run.out and "Nor?]0;th?" in run.out
    assert not re.search("[\x00-\x09\x0b-\x1f\x7f-\x9f\u202e]", run.out)
    run = tool("survey", tmp_path / "none\x1b[31m.json")
    assert is_one_line(run) and "none?[31m.json" in run.err and "\x1b" not in run.err
    run = tool("diff", stored(made(name=name)), stored(made(name="b"), "b.json"))
    assert run.status == 0 and "\x1b" not in run.out and "drive?[31m" in run.out


BAD_PLANS = {
    "no column identity or pci": "name,cell\na,1\n",
    "line 3: identity: '504' is not a whole number from 0 to 503": "pci\n1\n504\n",
    "line 2: no identity": "pci,tac\n,7\n",
    "tac: '-1'": "pci,tac\n1,-1\n",
    "tac: '7.5'": "pci,tac\n1,7.5\n",
    "line 2: lat, lon: 91, 0 is no place on earth": "pci,lat,lon\n1,91,0\n",
    "lat, lon: nan, 0 is no place": "pci,lat,lon\n1,nan,0\n",
    "lat, lon: '', '7' is not a place": "pci,lat,lon\n1,,7\n",
    "not a network such as 262-02": "pci,plmn\n1,telco\n",
    "no downlink of an FDD band has 36000": "pci,earfcn\n1,36000\n",
    "the column identity is there twice": "pci,identity\n1,2\n",
    "no cell in it": "pci\n\n",
}


@pytest.mark.parametrize("text", BAD_PLANS)
def test_bad_plan(tool, stored, made, tmp_path, text):
    (tmp_path / "bad.csv").write_text(BAD_PLANS[text])
    run = tool("survey", stored(made()), "--plan", tmp_path / "bad.csv")
    assert is_one_line(run) and run.status == 1 and str(tmp_path / "bad.csv") in run.err and text in run.err


# ---- from a stored survey, on standard output


def test_tables_below_the_table(tool, stored, made, tmp_path):
    (tmp_path / "plan.csv").write_text(PLAN)
    words = [stored(made()), "--plan", tmp_path / "plan.csv", "--clashes", "5", "--coverage", "-62,10"]
    run = tool("survey", *words)
    assert run.status == 0, run.err
    assert "plan.csv: 1 wrong identity, 1 wrong area, 2 not heard, 1 as planned" in run.out
    assert re.search(r"^coverage of 6 windows and 0.56 km of the way$", run.out, re.M)
    assert re.search(r"^level at least -62 dBFS +3 +50.0 +278 +50.0 +1 +278$", run.out, re.M)
    assert "1 other cell within 6 dB of the strongest" in run.out
    found = json.loads(tool("survey", *words, "--json").out)
    assert [len(found[key]) for key in ("plan", "clashes", "coverage")] == [5, 4, 9]
    foreign.check(found, "survey", "survey")
    assert Survey.from_json(found) == made()


class PageTables(html.parser.HTMLParser):
    """The tables of a page by the heading above them, each a list of rows of texts; each element has to be closed."""

    def __init__(self, text):
        super().__init__()
        self.tables, self.heading, self.open, self.row = {}, "", [], []
        self.feed(text)
        assert self.open == []

    def handle_starttag(self, tag, attributes):
        if tag in ("meta", "img", "p", "dt", "dd"):
            return
        self.open.append(tag)
        if tag == "table":
            self.tables[self.heading] = []
        if tag == "tr":
            self.row = []
            self.tables[self.heading].append(self.row)
        if tag in ("td", "th"):
            self.row.append("")

    def handle_endtag(self, tag):
        assert self.open.pop() == tag

    def handle_data(self, data):
        if self.open[-1:] == ["h2"]:
            self.heading = data
        if {"td", "th"} & set(self.open):
            self.row[-1] += data


def test_page_has_the_tables(tool, stored, made, tmp_path):
    (tmp_path / "plan.csv").write_text(PLAN.replace("East 1", "? <b>"))
    tables = ["--plan", tmp_path / "plan.csv", "--clashes", "5", "--coverage", "-62,10"]
    run = tool("survey", stored(made()), *tables, "--html", tmp_path / "drive.html")
    assert run.status == 0, run.err
    text = (tmp_path / "drive.html").read_text()
    found = PageTables(text).tables
    assert re.findall("<h2>(.*?)</h2>", text) == ["Map", "Plan", "Clashes", "Coverage", "Over time"]
    assert {name: len(rows) - 1 for name, rows in found.items()} == {"": 3, "Plan": 5, "Clashes": 4, "Coverage": 9}
    assert found["Plan"][1][:2] == ["wrong identity", "North 2"] and found["Plan"][2][:2] == ["wrong area", "? <b>"]
    assert found["Clashes"][1][:7] == ["A", "63", str(CELLS[63]), "-", "33", str(CELLS[33]), "mod 30"]
    assert found["Coverage"][3][:3] == ["level at least -62 dBFS", "3", "50.0"]
    assert "<p>coverage of 6 windows and 0.56 km of the way." in text
    assert 'title="the planned cell has another physical-layer identity"' in text
    assert 'title="as modulo 6, and the same groups of uplink reference signals"' in text


def test_page_has_a_table_without_rows(tool, stored, made, tmp_path):
    out = tmp_path / "drive.html"
    run = tool("survey", stored(made({63: LEVELS[63]})), "--clashes", "5", "--html", out)
    assert run.status == 0, run.err
    assert "<h2>Clashes</h2><p>cells within 5 dB in the same windows.\n<p>None." in out.read_text()


def test_page_from_python(stored, made, tmp_path):
    (tmp_path / "plan.csv").write_text(PLAN)
    out = tmp_path / "drive.html"
    found = lte_tools.survey(stored(made()), plan=str(tmp_path / "plan.csv"), html=str(out))
    assert found == made() and len(PageTables(out.read_text()).tables["Plan"]) == 6


def test_one_table_as_csv(tool, stored, made):
    survey = stored(made())
    rows = rows_of(tool("survey", survey, "--clashes", "5", "--csv").out)
    assert [(row["identity"], row["other"], row["mod30"], row["clash"]) for row in rows][:2] == [
        ("63", "33", "yes", "mod 30"),
        ("63", "64", "no", ""),
    ]
    assert rows_of(tool("survey", survey, "--coverage", "-62,10", "--csv").out)[0]["what"] == "all"
    assert rows_of(tool("survey", survey, "--csv").out)[0]["identity"] == "63"


@pytest.mark.parametrize(
    "words, text",
    [
        (["--clashes", "5", "--coverage", "-62,10", "--csv"], "--csv writes one table: --clashes or --coverage"),
        (["--rate", "2e6"], "a survey, in which --rate changes nothing"),
        (["--every", "2"], "a survey, in which --every changes nothing"),
        (["other.json"], "a survey (.json) is not one of several files"),
        (["--coverage", "5"], "is not a level and a ratio"),
        (["--coverage", "5,x"], "'x' is not a number"),
        (["--kml", "/nowhere/x.kml"], "nothing can be written"),
        (["--plan", "/nowhere.csv"], "No such file"),
    ],
)
def test_options_that_are_refused(tool, stored, made, words, text):
    run = tool("survey", stored(made()), *words)
    assert is_one_line(run) and text in run.err


@pytest.mark.parametrize("name", ["csv-windows", "html", "pcap"])
def test_no_file_that_is_read_is_overwritten(tool, stored, made, tmp_path, name):
    survey = stored(made())
    (tmp_path / "plan.csv").write_text("pci\n1\n")
    (tmp_path / "link").symlink_to(survey)
    for out in (survey, tmp_path / "link", tmp_path / "plan.csv"):
        before = out.read_bytes()
        run = tool("survey", survey, "--plan", tmp_path / "plan.csv", f"--{name}", out)
        assert is_one_line(run) and f"{out}: it is read, and would be overwritten" in run.err
        assert out.read_bytes() == before
    run = tool("pcap", survey, "-o", survey) if name == "pcap" else tool("diff", survey, survey, "--csv-places", survey)
    assert is_one_line(run) and "would be overwritten" in run.err


def test_places_need_a_track(tool, stored, made, tmp_path):
    survey = dataclasses.replace(made(), track=None)
    for name in ("geojson", "kml"):
        run = tool("survey", stored(survey), f"--{name}", tmp_path / "out")
        assert is_one_line(run) and "no track in it" in run.err and not (tmp_path / "out").exists()


# ---- two surveys

AFTER = {
    63: [-47.0, -52.0, -56.0, None, -66.0, -76.0],  # 3, 3, 4, 6 and 4 dB more
    64: [None, None, None, -75.0, -70.0, -71.0],  # not in the third window, and in the fourth; else the same
    65: [None, None, -70.0, None, None, None],
}
LATER[65] = 500


def test_difference_by_place(made):
    after = made(AFTER, cells={65: 7}, name="after.cu8")
    found = survey_diff.difference_of(made(), after)
    # each window has a square of its own, since places are 111 m apart
    assert (found.square, found.squares, found.unit) == (50.0, 6, "dBFS")
    cells = {one.identity_text: one for one in found.cells}
    assert {name: one.finding for name, one in cells.items()} == {
        "63": "both",
        "33": "gone",
        "64": "both",
        "65": "appeared",
    }
    first = cells["63"]
    assert (first.difference, first.least, first.greatest, first.ratio_difference) == (4.0, 3.0, 6.0, 4.0)
    assert (first.squares, first.gained, first.lost) == (5, 0, 0)
    other = cells["64"]
    assert (other.difference, other.squares, other.gained, other.lost) == (0.0, 2, 1, 1)
    assert (cells["33"].lost, cells["65"].gained, cells["33"].difference) == (3, 1, None)
    assert [one.difference for one in found.best] == [3.0, 3.0, 4.0, None, 4.0, 0.0]


def test_difference_of_two_ways_on_one_road(made):
    """The ways are 7 m apart, as places of GPS are."""
    after = made(AFTER, [(lon + 0.0001, lat) for lon, lat in WAY], {65: 7})
    assert survey_diff.difference_of(made(), after).squares == 6


def test_difference_where_one_did_not_pass(made):
    way = [(13.0, 52.0 + 0.001 * i) for i in range(3, 9)]
    found = survey_diff.difference_of(made(), made({63: [-60.0] * 6}, way, name="after.cu8"))
    cells = {one.identity_text: one for one in found.cells}
    # 33 was seen at the first three places, which the second way does not pass
    assert found.squares == 3 and cells["33"].finding == "not-passed" and cells["64"].finding == "gone"
    assert (cells["63"].squares, cells["63"].gained, cells["63"].difference) == (2, 1, 16.0)


def test_difference_without_places(made):
    bare = [dataclasses.replace(one, track=None) for one in (made(), made(AFTER, cells={65: 7}))]
    found = survey_diff.difference_of(*bare)
    assert found.square is None and found.best == ()
    first = found.cells[0]
    # medians of -50 -55 -60 -72 -80 and of -47 -52 -56 -66 -76
    assert (first.before.level, first.after.level, first.difference, first.squares) == (-60.0, -56.0, 4.0, 0)


def test_identity_that_changed_and_sib1_that_is_missing(made):
    after = made({33: LEVELS[63], 64: LEVELS[64]}, cells={33: CELLS[63]}, name="after.cu8")
    found = survey_diff.difference_of(made(), without_sib1(after, 64))
    assert [(one.finding, one.identity_text) for one in found.cells] == [
        ("new-identity", "63 -> 33"),
        ("both", "64"),
        ("gone", "33"),
    ]


def test_diff_writes_all(tool, stored, made, tmp_path):
    pair = stored(made(), "before.json"), stored(made(AFTER, cells={65: 7}, name="-after.cu8"), "after.json")
    run = tool("diff", *pair, "--picture", tmp_path / "map.png", "--csv-places", tmp_path / "places.csv")
    assert run.status == 0, run.err
    assert (
        run.out.splitlines()[0]
        == "before drive.cu8, after -after.cu8, levels in dBFS: 6 squares of 50 m that both pass"
    )
    assert re.search(r"^both +63 .* \+4\.0 +\+3\.0 +\+6\.0 +\+4\.0 +5 +0 +0$", run.out, re.M)
    assert (tmp_path / "map.png").read_bytes().startswith(b"\x89PNG")
    rows = rows_of((tmp_path / "places.csv").read_text())
    assert [row["difference"] for row in rows if row["identity"] == "strongest"] == [
        "3.0",
        "3.0",
        "4.0",
        "",
        "4.0",
        "0.0",
    ]
    assert {row["identity"] for row in rows} == {"strongest", "63", "33", "64", "65"}
    assert abs(float(rows[0]["latitude"]) - 52.0) < 0.0005
    found = json.loads(tool("diff", *pair, "--json").out)
    foreign.check(found, "diff", "diff")
    if os.environ.get("LTE_RECORD"):
        (EXAMPLES / "outputs/diff.json").write_text(tool("diff", *pair, "--json").out)
    else:
        assert found == json.loads((EXAMPLES / "outputs/diff.json").read_text())
    assert rows_of(tool("diff", *pair, "--csv").out)[0]["difference"] == "4.0"
    assert tool("diff", *pair, "--picture", tmp_path / "map.svg", "--square", "400").status == 0


def test_diff_of_files_with_one_name(tool, stored, made, tmp_path):
    """Both drives were recorded as drive.cu8, so the surveys' own paths tell them apart."""
    pair = stored(made(), "old.json"), stored(made(AFTER, cells={65: 7}), "new.json")
    first = tool("diff", *pair).out.splitlines()[0]
    assert first.startswith(f"before {tmp_path}/old.json, after {tmp_path}/new.json, levels in dBFS: 6 squares")
    found = json.loads(tool("diff", *pair, "--json").out)
    assert (found["before"], found["after"]) == tuple(map(str, pair))


def test_diff_refuses(tool, stored, made, tmp_path):
    good = stored(made(), "good.json")
    other = stored(dataclasses.replace(made(), unit="dBm"), "dbm.json")
    bare = stored(dataclasses.replace(made(), track=None), "bare.json")
    (tmp_path / "bad.json").write_text('{"cells": 7}')
    cases = {
        "levels in dBm": [good, other],
        f"{bare}: no place in it": [good, bare, "--picture", tmp_path / "x.png"],
        f"{tmp_path}/bad.json: the whole: no key carrier": [good, tmp_path / "bad.json"],
        ".png or .svg is written": [good, good, "--picture", tmp_path / "x.jpg"],
        "from 1 to 100,000 metres": [good, good, "--square", "0.5"],
        "required": [good],
    }
    for text, words in cases.items():
        run = tool("diff", *words)
        assert is_one_line(run) and text in run.err, (text, run)
    assert not (tmp_path / "x.png").exists()
