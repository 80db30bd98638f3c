"""Best server, squares, pilot pollution, neighbours and classes, by surveys that are made here."""
import dataclasses
import json
import math
import re

import pytest

from lte_tools import best_server, classes, foreign, grid, neighbour_table, quality, survey_windows
from tests import test_planning
from tests.conftest import TOP, is_one_line

made, stored = test_planning.made, test_planning.stored  # fixtures
ALL = ("--servers", "--grid", "300", "--pollution", "2", "--neighbours", "--classes")


def test_best_server_along_the_way(made):
    found = [(one.identity, one.first, one.last, one.windows) for one in best_server.servers_of(made())]
    assert found == [(63, 0.0, 2.0, 3), (None, 3.0, 3.0, 1), (64, 4.0, 5.0, 2)]
    first, hole, _ = best_server.servers_of(made())
    assert (first.rsrp, first.sinr, first.others, first.identities) == (-55.0, 25.0, 1, (33, 64))
    assert first.metres == pytest.approx(2.5 * 111.195, abs=0.1) and hole.rsrp is None


def test_pilot_pollution(made):
    """Within 6 dB: 33 in the first two windows, 64 in the third, 63 in the fifth."""
    found = [(one.identity, one.first, one.last) for one in best_server.polluted(made(), 2)]
    assert found == [(63, 0.0, 2.0), (64, 4.0, 4.0)] and best_server.polluted(made(), 3) == []


def test_rsrq_of_a_full_carrier_is_a_twelfth(made):
    survey = made()
    rssi = 72 * 10**-5.0 + 56 * 10**-9.0  # 72 elements at -50 dBFS, and 840 kHz of noise at -90 dBFS
    powers = tuple(dataclasses.replace(one, total=10 * math.log10(rssi)) for one in survey.powers)
    survey = dataclasses.replace(survey, powers=powers)
    window = survey_windows.windows_of(survey)[0]
    assert quality.quality_of(window.sure[0], window, survey) == (-50.0, -10.8, 30.0)
    wide = dataclasses.replace(survey, rate=2_400_000.0)
    assert quality.quality_of(window.sure[0], window, wide).rsrq is None


def test_neighbours(made):
    found = {(one.identity, one.other): one for one in neighbour_table.neighbours_of(made(), {0: "A"})}
    assert set(found) == {(63, 33), (63, 64), (64, 63)}
    one = found[63, 33]  # 3, 1 and 10 dB below
    assert (one.together, one.windows, one.near, one.below, one.least, one.greatest) == (3, 3, 2, 3.0, 1.0, 10.0)
    assert (one.time, one.moduli, one.name, one.confusion) == (1_000.0, (3, 6, 30), "A", None)
    assert (found[63, 64].together, found[63, 64].share) == (1, 0.3333)


def test_two_neighbours_with_one_identity(made):
    survey = made()
    twice = dataclasses.replace(survey.cells[2], identity=33)
    found = neighbour_table.neighbours_of(dataclasses.replace(survey, cells=(*survey.cells[:2], twice)))
    assert [one.confusion for one in found if one.identity == 63] == ["confusion", "confusion"]


def test_classes(made):
    found = classes.classes_of(dataclasses.replace(made(), unit="dBm"))
    for measure in ("rsrp", "rsrq", "sinr"):
        assert sum(one.windows for one in found if one.measure == measure) == 6
    assert [one.windows for one in found if one.measure == "rsrp"] == [5, 0, 0, 0, 0, 0, 1]
    assert [one.windows for one in classes.classes_of(made()) if one.measure == "rsrp"] == [1, 2, 1, 1, 1]
    assert [one.windows for one in found if one.measure == "sinr"] == [3, 0, 2, 0, 1]


def test_squares(made):
    """Three squares of 300 m, with two windows each."""
    found = grid.squares_of(made(), 300.0)
    rows = [(one.identity, one.served, one.windows, one.rsrp, one.identities) for one in found]
    assert rows == [(63, 2, 2, -52.5, (33,)), (63, 1, 2, -60.0, (64,)), (64, 2, 2, -70.5, (63,))]
    ring = grid.features_of(found, "dBFS")[0]["geometry"]["coordinates"][0]
    assert ring[0] == ring[-1] and len(ring) == 5 and ring[0][1] < found[0].place[1] < ring[2][1]


def test_json_csv_page_and_squares(tool, stored, made, tmp_path):
    path = stored(made())
    found = json.loads(tool("survey", path, *ALL, "--json").out)
    foreign.check(found, "survey", "survey")
    assert [len(found[key]) for key in ("servers", "grid", "pollution", "neighbours")] == [3, 3, 2, 3]
    run = tool("survey", path, *ALL, "--html", tmp_path / "x.html", "--geojson", tmp_path / "x.geojson")
    assert run.status == 0, run.err
    text = (tmp_path / "x.html").read_text()
    assert all(f"<h2>{name}</h2>" in text for name in ("Best server", "Squares", "Neighbours", "Classes"))
    assert text.count('alt="Squares: ') == 1 and (tmp_path / "x.geojson").read_text().count('"Polygon"') == 3
    assert tool("survey", path, "--neighbours", "--csv").out.startswith("group,plmn,frequency,identity,cell,name")


@pytest.mark.parametrize("words", [("--grid", "0"), ("--pollution", "1"), ("--csv", "--servers", "--classes")])
def test_refused(tool, stored, made, words):
    assert is_one_line(tool("survey", stored(made()), *words))


def test_commands_of_the_page(tool, stored, made, tmp_path, monkeypatch):
    """Each command that reads drive.json, with the files that it names."""
    stored(made())
    (tmp_path / "sites.csv").write_text("name,pci\nA,63\n")
    monkeypatch.chdir(tmp_path)
    lines = re.findall(r"^    lte_survey (drive\.json .*)$", (TOP / "docs/RECORDINGS.md").read_text(), re.M)
    assert len(lines) >= 8
    for line in lines:
        assert tool("survey", *line.partition("#")[0].split()).status == 0, line
