"""Cells of which the identity alone is known (`lte_survey --deep`): joined by detections that are made here, and in the
outputs of a survey with the programs' stored answers."""
import csv
import dataclasses
import io
import json
import subprocess

import numpy as np
import pytest

import lte_tools
from lte_reference import cell as reference_cell
from lte_tools import (
    clashes,
    columns,
    coverage,
    doubts,
    foreign,
    identities,
    kml,
    levels,
    live,
    pcap,
    picture_map,
    plan,
    places,
    radio,
    survey_page,
)
from lte_tools import survey_table, survey_windows, tables
from lte_tools.answers import DetectedCell
from lte_tools.cells import joined
from lte_tools.continuity import as_one
from lte_tools.identities import DeepSighting
from lte_tools.sightings import Task
from lte_tools.survey_data import Detected, Power, Survey, SurveyIdentity, Track
from tests.conftest import CELL, TOP, is_one_line
from tests.test_one_line import EVERY, FILE, cells_of, lost, sighting

SHIPPED = TOP / "crates/capture_example/stdin"
FAST = ("--jobs", "1", "--offset", "0", "--every", "0.05")
NOISE = 30  # the deviation of a component


# ---- joined over windows


def detection(identity, window, begin, level=-60.0):
    """A cell in a window, if one of its frames begins at sample `begin` of the file."""
    start = window * EVERY
    found = DetectedCell(round(begin - start) % radio.FRAME, identity, 110, 1_000, 100, 0, 200)
    return DeepSighting(Task(FILE, start / radio.RATE, 0.17), found, level)


def lines_of(found, listed=()):
    """The identities that no list has, with their windows, and the windows in which listed cells are detected alone."""
    cells, jumps = as_one(joined(listed))
    others = identities.joined(sorted(found, key=lambda one: one.task.start), cells, jumps)
    return [(one.seen[0].cell.identity, one.windows) for one in others], [len(cell.detected) for cell in cells]


def test_two_windows_make_a_cell_and_one_does_not():
    assert lines_of([detection(88, 0, 500), detection(88, 7, 505), detection(89, 3, 500)]) == ([(88, 2)], [])


def test_another_place_is_another_cell():
    found = [detection(88, i, begin) for i in range(4) for begin in (500, 9_000)] + [detection(88, 2, 4_000)]
    assert lines_of(found) == ([(88, 4), (88, 4)], [])


def test_a_listed_cell_takes_its_detections():
    listed = cells_of({217: lambda i: 100}, range(6))
    found = [detection(217, i, begin) for i in range(10) for begin in (100, 9_000)]
    assert lines_of(found, listed) == ([(217, 10)], [4])


def test_another_path_of_a_listed_cell_is_no_cell():
    listed = cells_of({217: lambda i: 100}, range(6))
    assert lines_of([detection(217, i, 100 + 137) for i in range(6)], listed) == ([], [0])
    assert lines_of([detection(217, i, 100 + 138) for i in range(6)], listed) == ([(217, 6)], [0])


def unsure(identity, window, begin, **more):
    """A line that is probably a false detection: one window lists it, at a high cost."""
    return dataclasses.replace(sighting(identity, window, begin, has_sib1=False, **more), cost=900)


def confirmed(found, listed):
    """The identities that no list has, and the cells, with their windows and those that only detect them."""
    cells, jumps = as_one(joined(listed))
    others = identities.joined(sorted(found, key=lambda one: one.task.start), cells, jumps)
    others, cells = identities.confirmed(others, cells)
    assert [cell.is_chance(cells) for cell in cells] == [not cell.is_confirmed for cell in cells]
    rows = [(cell.line.identity, cell.windows, len(cell.detected), doubts.doubts_of(cell, cells)) for cell in cells]
    return [(one.seen[0].cell.identity, one.windows) for one in others], rows


def test_an_identity_at_the_place_of_a_false_detection_is_one_row_with_it():
    found = [detection(37, i, 500) for i in range(16)]
    assert confirmed(found, [unsure(37, 4, 500)]) == ([], [(37, 1, 15, ("mib",))])


@pytest.mark.parametrize(
    "windows, begin, identity",
    [(range(4, 5), 500, 37), (range(16), 520, 37), (range(16), 500, 40)],
    ids=["one window alone", "another place", "another identity"],
)
def test_a_false_detection_stays_one(windows, begin, identity):
    others, rows = confirmed([detection(identity, i, begin) for i in windows], [unsure(37, 4, 500)])
    assert others == ([(identity, 16)] if len(windows) > 1 else []) and rows == [(37, 1, 0, ())]


def test_false_detections_at_one_place_are_one_row():
    """Two windows list the cell, each with another frame number."""
    listed = [unsure(37, 4, 500), unsure(37, 9, 500, sfn=7)]
    found = [detection(37, i, 500) for i in range(16)]
    assert confirmed(found, listed) == ([], [(37, 2, 14, ("mib",))])


def test_a_false_mib_is_no_packet(survey_json):
    survey = Survey.from_json(survey_json)
    (cell,) = survey.cells
    doubtful = dataclasses.replace(survey, cells=(dataclasses.replace(cell, doubts=("mib",)),))
    assert len(pcap.of_survey(survey)) == 1 and pcap.of_survey(doubtful) == []
    text = survey_table.table_of(doubtful)
    assert any(line.endswith("? MIB") for line in text) and any(line.startswith("? MIB: further") for line in text)
    assert columns.word_meaning("", "? MIB").startswith("further windows")


def test_frames_drift_with_the_radios_clock():
    """The clock is off by 26 ppm, so that frames begin 50 samples later each second."""
    seconds = EVERY / radio.RATE
    listed = cells_of({217: lambda i: 100 + round(50 * seconds * i)}, range(60))
    found = [detection(88, i, 500 + 50 * seconds * i) for i in (0, 30, 59)]
    assert lines_of(found, listed)[0] == [(88, 3)]
    assert lines_of([detection(88, 0, 500), detection(88, 59, 500)], listed)[0] == []


def test_missing_samples_do_not_part_a_cell():
    step = lost(9_876, 5)
    listed = cells_of({30: step(100), 92: step(7_000)}, range(10))
    found = [detection(88, i, step(500)(i)) for i in range(10)] + [detection(30, 9, step(100)(9))]
    assert lines_of(found, listed) == ([(88, 10)], [0, 0])


def test_gain_steps_change_the_levels():
    lines = identities.joined([detection(88, i, 500, -60.0 + 8 * (i > 0)) for i in range(2)], [], [])
    levels.even([], [], ((0.0, 0.0), (0.17, 8.0)), identities=lines)
    assert [one.evened for one in lines[0].seen] == [-60.0, -60.0]


# ---- a survey of a recording


@pytest.fixture(scope="module")
def pair_of_cells():
    """A tenth of a second of cell 217, and of cell 88 18 dB below it."""
    draw, count = np.random.default_rng(8), 192_000
    strong = reference_cell.sent({**CELL, "samples": count}) @ (1, 1j)
    weak = reference_cell.sent({**CELL, "samples": count, "identity": 88, "offset": 12_000}) @ (1, 1j)
    noise = NOISE * (draw.standard_normal((count, 2)) @ (1, 1j))
    return strong + 10 ** (-18 / 20) * weak + noise


@pytest.fixture
def pair(tmp_path, pair_of_cells):
    path = tmp_path / "pair.ci16"
    path.write_bytes(radio.to_bytes(pair_of_cells))
    return path


def test_table_has_the_identity(tool, pair):
    run = tool("survey", pair, "--deep", *FAST)
    assert run.status == 0, run.err
    head, names, line = run.out.splitlines()[-3:]
    assert head.startswith("identity only: ") and names.split()[:2] == ["PCI", "first"]
    assert line.split()[0] == "88" and line.split()[3] == "2/2"
    assert "identity only" not in tool("survey", pair, *FAST).out


def test_json_has_level_and_distance(tool, pair, tmp_path):
    found = json.loads(tool("survey", pair, "--deep", "--json", *FAST).out)
    survey = Survey.from_json(found)
    assert survey.to_json() == found
    (cell,), (line,) = survey.cells, survey.identities
    assert (cell.identity, cell.detected, line.identity, line.windows) == (217, (), 88, 2)
    assert line.below == pytest.approx(18, abs=1) and line.level == pytest.approx(cell.level - 18, abs=1)
    assert [one.seconds for one in line.detected] == pytest.approx(
        [(19_200 - 12_000) / radio.RATE, 0.05 + 0.00125], abs=3e-3
    )
    assert "identities" not in json.loads(tool("survey", pair, "--json", *FAST).out)


def test_csv_has_both_lines(tool, pair):
    one, other = csv.DictReader(io.StringIO(tool("survey", pair, "--deep", "--csv", *FAST).out))
    assert (one["identity"], one["rule"], one["below"], one["detected"]) == ("217", "one-port", "", "0")
    assert (other["identity"], other["rule"], other["ports"], other["windows"]) == ("88", "identity-only", "", "2")
    assert float(other["below"]) == pytest.approx(18, abs=1) and 93 <= int(other["matches"]) <= 124


def test_list_from_python(pair):
    found = lte_tools.deep(pair)
    assert [one.identity for one in found.cells] == [217, 88] and found.half_frames == 19
    assert found.to_rows()[1]["matches"] >= 93 and lte_tools.deep(pair, all=True) == found
    assert found.to_json()["half_frames"] == 19


# ---- outputs


@pytest.fixture
def deep_survey(survey_json):
    """A survey of three windows with places: cell 271 is listed in the first and detected in the second, PCI 274 is detected
    in all of them, 4 dB below it in the first two."""
    survey = Survey.from_json(survey_json)
    (cell,) = survey.cells
    way = [(13.0, 52.0 + 0.001 * i) for i in range(3)]
    (seen,) = (dataclasses.replace(one, place=way[0]) for one in cell.seen)
    own = Detected(1.0074, 1_934_200, None, seen.level, 0.0, 120, 0.0, way[1])
    other = [
        Detected(i + 0.002, 1_920_000 * i + 3_840, None, seen.level - 4, 0.0 if i == 2 else 4.0, 100 + i, 0.0, way[i])
        for i in range(3)
    ]
    line = SurveyIdentity(274, 0.002, 2.002, None, 3, seen.level - 4, 4.0, 102, tuple(other))
    return dataclasses.replace(
        survey,
        cells=(dataclasses.replace(cell, seen=(seen,), detected=(own,)),),
        identities=(line,),
        windows=3,
        every=1.0,
        seconds=3.0,
        powers=tuple(Power(float(i), -30.0, -90.0) for i in range(3)),
        track=Track("", "", 3, tuple((float(i), *place) for i, place in enumerate(way))),
    )


def test_windows_have_what_is_detected(deep_survey):
    windows = survey_windows.windows_of(deep_survey)
    assert [[one.cell.identity for one in window.present] for window in windows] == [[271, 274], [271, 274], [274]]
    assert [len(window.sure) for window in windows] == [1, 0, 0]
    rows = list(csv.DictReader(io.StringIO(survey_windows.csv_of(deep_survey))))
    keys = ("identity", "detected", "below", "near", "mod3", "mod30")
    assert [tuple(row[key] for key in keys) for row in rows] == [
        ("271", "no", "0.0", "yes", "274", ""),
        ("274", "yes", "4.0", "yes", "271", ""),
        ("271", "yes", "0.0", "yes", "274", ""),
        ("274", "yes", "4.0", "yes", "271", ""),
        ("274", "yes", "0.0", "yes", "", ""),
    ]


def test_clashes_and_coverage_count_identities(deep_survey):
    one, other = clashes.clashes_of(deep_survey, 6)
    assert (one.identity, one.other, one.moduli, one.windows) == (271, 274, (3,), 2)
    assert (other.identity, other.other, other.difference) == (274, 271, 4.0)
    parts = coverage.coverage_of(deep_survey, coverage.Limits(-100, 0))
    assert {(part.what, part.value): part.windows for part in parts if part.what in ("cell", "others")} == {
        ("cell", None): 1,
        ("others", 0): 1,
        ("others", 1): 2,
    }


def test_plan_counts_identities(deep_survey, tmp_path):
    path = tmp_path / "sites.csv"
    path.write_text("name,pci,enodeb,sector\nA,271,107216,1\nB,274,5,1\nC,275,5,2\n")
    found = {one.name: (one.finding, one.windows) for one in plan.findings_of(deep_survey, plan.read(path))}
    assert found == {"A": ("as-planned", 1), "B": ("identity-only", 3), "C": ("not-heard", 0)}


def test_places_have_identities(deep_survey):
    kinds = [one["properties"]["kind"] for one in places.geojson_of(deep_survey)["features"]]
    assert sorted(kinds) == ["cell", *["detected"] * 4, "hole", "hole", "identity", "window"]
    assert kml.of_survey(deep_survey).decode().count("identity only") == 2


def test_map_and_page_have_identities(deep_survey):
    assert survey_windows.letters_of(deep_survey) == {0: "A", 1: "B"}
    drawn = picture_map.Map(deep_survey, picture_map.ALONE)
    assert [spot.cell for spot in drawn.spots] == [0, 0, 1] and drawn.name(1) == "PCI 274, identity only"
    text = survey_page.page_of(deep_survey).decode()
    assert "<h2>Identity only</h2>" in text and ">274<" in text and "dB below" in text
    assert Survey.from_json(deep_survey.to_json()) == deep_survey
    assert "detected" not in deep_survey.to_json(has_windows=False)["cells"][0]
    assert picture_map.map_sheet(deep_survey) is not None


def test_schema_has_the_fields_of_identities(deep_survey):
    defined, (line,) = foreign.schema()["$defs"], deep_survey.identities
    assert set(line.to_json()) == set(defined["survey_identity"]["properties"])
    assert set(line.to_json()["detected"][0]) == set(defined["detection"]["properties"])
    assert "place" not in line.to_json(False)["detected"][0]


def test_table_of_a_survey_that_detects_no_further_cell(deep_survey):
    lines = survey_table.table_of(dataclasses.replace(deep_survey, identities=()))
    assert lines[-1] == "none" and lines[2].split()[-1] == "1"
    (report,) = survey_table.identity_reports(deep_survey)
    assert tables.texts_of(report.columns, report.rows, deep_survey)[0]["strongest at"] == "52.000000, 13.000000"


def test_refused(tool):
    assert is_one_line(tool("survey", SHIPPED, "--deep", "--scan"))


# ---- a pipe


def test_pipe(tool, pair, monkeypatch):
    with subprocess.Popen(["cat", pair], stdout=subprocess.PIPE) as process:
        monkeypatch.setattr(live, "STDIN", process.stdout.fileno())
        words = ("--form", "s16", "--offset", "0", "--every", "0.05", "--wait", "--jobs", "1")
        run = tool("survey", "-", "--deep", "--json", *words)
    found = Survey.from_json(json.loads(run.out))
    assert [(line.identity, line.windows) for line in found.cells] == [(217, 2)]
    assert [(line.identity, line.windows) for line in found.identities] == [(88, 2)]
