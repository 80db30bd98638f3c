"""Coverage, maps and letters of a scan, for each carrier and network, by surveys that are made here."""
import dataclasses
import json

import pytest

from lte_tools import carriers, clashes, coverage, picture_map, places, survey_page, survey_windows
from lte_tools.answers import Network
from lte_tools.page import saved
from lte_tools.survey_data import Scan
from tests.conftest import is_one_line
from tests import test_planning
from tests.test_planning import CELLS

made, stored = test_planning.made, test_planning.stored  # fixtures
# by identity: hertz above the centre, carrier in hertz, EARFCN of band 20, network
ON = {
    63: (0.0, 796e6, 6_200, "01"),
    33: (0.0, 796e6, 6_200, "01"),
    64: (5e6, 801e6, 6_250, "02"),
}


@pytest.fixture
def scanned(made):
    """Returns a scan of two carriers of two networks, in which the cell of the second is the strongest in two windows; a
    cell of each network has the same cell identity."""

    def make(on=ON, **keys):
        survey = made(cells={64: CELLS[63]})
        cells = tuple(placed(cell, *on[cell.identity]) for cell in survey.cells)
        scan = Scan(796e6, 801e6, 51)
        return dataclasses.replace(survey, cells=cells, scan=scan, carrier=796e6, **keys)

    def placed(cell, shift, frequency, earfcn, code):
        sib1 = dataclasses.replace(cell.sib1, plmns=(Network("001", code, False),), band=20)
        return dataclasses.replace(cell, shift=shift, frequency=frequency, earfcns=((20, earfcn),), sib1=sib1)

    return make


def parts_of(survey):
    found = coverage.coverage_of(survey, coverage.Limits(-62.0, 10.0))
    return {(one.group, one.what, one.identity, one.value): one for one in found}


def test_coverage_of_each_carrier(scanned):
    parts = parts_of(scanned())
    first, second = "001-01 6200", "001-02 6250"
    assert {group for group, *_ in parts} == {None, first, second} and parts[None, "all", None, None].windows == 6
    # cell 63 is listed in all windows but the fourth, 64 in the third and the last two
    assert [parts[group, "cell", None, None].windows for group in (first, second)] == [5, 3]
    assert [parts[group, "level", None, -62.0].windows for group in (first, second)] == [3, 1]
    best = {(group, identity): one.windows for (group, what, identity, _), one in parts.items() if what == "strongest"}
    assert best == {(first, 63): 5, (second, 64): 3}
    assert [parts[group, "others", None, 0.0].windows for group in (first, second)] == [3, 3]
    one = parts[second, "strongest", 64, None]
    assert (one.plmn, one.frequency, one.shift, one.cell) == ("001-02", 801e6, 5e6, CELLS[63])
    assert one.text("dBm") == f"001-02 6250: strongest: PCI 64, cell {CELLS[63]}"


def test_coverage_of_a_network_with_two_carriers(scanned):
    on = {**ON, 64: (5e6, 801e6, 6_250, "01")}
    parts = parts_of(scanned(on))
    assert {group for group, *_ in parts} == {None, "001-01", "001-01 6200", "001-01 6250"}
    best = {
        identity: one.windows
        for (group, what, identity, _), one in parts.items()
        if (group, what) == ("001-01", "strongest")
    }
    assert best == {63: 3, 64: 2}  # whatever the carrier


def test_carriers_without_a_frequency(scanned):
    cells = tuple(dataclasses.replace(cell, frequency=None, earfcns=()) for cell in scanned().cells)
    found = carriers.carriers_of(dataclasses.replace(scanned(), cells=cells, carrier=None))
    assert [one.text for one in found] == ["001-01 +0.0 MHz", "001-02 +5.0 MHz"]
    chance = tuple(dataclasses.replace(cell, chance=cell.identity == 64) for cell in cells)
    assert len(carriers.carriers_of(dataclasses.replace(scanned(), cells=chance))) == 1


def test_coverage_of_one_carrier_names_the_network(made):
    found = coverage.coverage_of(made(), coverage.Limits(-62.0, 10.0))
    texts = [one.text("dBFS") for one in found if one.what == "strongest"]
    assert texts[0] == f"strongest: PCI 63, cell {CELLS[63]} of 001-01" and {one.group for one in found} == {None}


def test_letters_and_maps_of_each_carrier(scanned):
    survey = scanned()
    assert survey_windows.letters_of(survey) == {0: "A", 2: "A"}
    assert {(one.identity, one.letter) for one in clashes.clashes_of(survey, 20)} == {(63, "A"), (33, None)}
    text = survey_page.page_of(survey).decode()
    assert text.count('alt="001-0') == 2 and "<h3>001-02 6250</h3>" in text
    (first, second) = carriers.by_carrier(survey)
    spots = [picture_map.Map(one, picture_map.ALONE).spots for one in (first, second)]
    assert [[spot.cell is not None for spot in each] for each in spots] == [
        [True, True, True, False, True, True],
        [False, False, True, False, True, True],
    ]
    figure = picture_map.map_sheet(survey)
    titles = [title for ax in figure.axes if (title := ax.get_title("left") or ax.get_title())]
    assert [title.split(":")[0] for title in titles] == ["001-01 6200", "001-02 6250"]
    assert saved(figure, "png").startswith(b"\x89PNG")


def test_geojson_has_the_strongest_of_each_carrier(scanned):
    found = [one["properties"] for one in places.geojson_of(scanned())["features"]]
    best = [one["identity"] for one in found if one["kind"] == "window" and one["strongest"]]
    assert best == [63] * 5 + [64] * 3


def test_one_network(tool, stored, scanned):
    path = stored(scanned())
    found = json.loads(tool("survey", path, "--network", "001-02", "--coverage=-62,10", "--json").out)
    assert [cell["identity"] for cell in found["cells"]] == [64]
    assert {one["group"] for one in found["coverage"]} == {None, "001-02 6250"}
    run = tool("survey", path, "--network", "00103")
    assert run.status == 0 and "no cell of 001-03: 001-01, 001-02 is in the survey" in run.err
    assert is_one_line(tool("survey", path, "--network", "001"))


def test_cells_without_sib1_stay_on_the_carriers_of_a_network(scanned):
    survey = scanned()
    cells = tuple(dataclasses.replace(one, sib1=None) if one.identity == 33 else one for one in survey.cells)
    survey = dataclasses.replace(survey, cells=cells, identities=())
    assert [one.identity for one in carriers.of_network(survey, "001-01").cells] == [63, 33]
    assert [one.identity for one in carriers.of_network(survey, "001-02").cells] == [64]
