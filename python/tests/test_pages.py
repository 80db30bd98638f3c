"""A survey's table, CSV, page, map and pictures."""
import csv
import dataclasses
import io
import json
import re

import numpy as np
import pytest
from matplotlib import pyplot

from tests.conftest import EXAMPLES, TOP
from lte_tools import columns, foreign, page, picture_labels, picture_map, picture_scan, picture_style
from lte_tools import survey_page, survey_table
from lte_tools.rules import BY_NAME
from lte_tools.survey_data import Echo, Gap, Power, Scan, Spectrum, Step, Survey


@pytest.fixture
def survey(survey_json):
    return Survey.from_json(survey_json)


def with_cells(survey, count):
    """A survey of so many cells, of which the last is a false detection."""
    (cell,) = survey.cells
    cells = (dataclasses.replace(cell, identity=400 + i, chance=i == count - 1) for i in range(count))
    return dataclasses.replace(survey, cells=tuple(cells))


# ---- columns


def test_csv_keys_are_those_of_columns():
    keys = {*columns.CSV_KEYS, *columns.DEEP_KEYS}
    assert keys == {*columns.BY_KEY, *columns.OF_IDENTITY} and len(keys) == len(columns.CSV_KEYS + columns.DEEP_KEYS)


def test_page_names_each_key():
    formats = (TOP / "docs/FORMATS.md").read_text()
    section = formats.partition("--csv`\n")[2].partition("\n###")[0]
    words = set(re.findall(r"\w+", section))
    assert [key for key in columns.CSV_KEYS + columns.DEEP_KEYS if key not in words] == []


def test_words_have_meanings():
    defined = foreign.schema()["$defs"]
    names = ("reason", "not_held", "not_listed")
    patterns = [defined[name]["properties"]["none"]["pattern"].strip("^$") for name in names]
    patterns = [one[1:-1] if one.startswith("(") else one for one in patterns]
    reasons = re.sub(r"\([^()]*\)", "", "|".join(patterns)).split("|")
    assert set(columns.REASONS) == {reason.split(" ")[0] for reason in reasons}
    assert list(BY_NAME) == defined["ruled"]["properties"]["rule"]["enum"]
    assert list(columns.BLOCKS) == defined["cell"]["properties"]["bandwidth"]["enum"]
    assert all(columns.meaning_of(name) for name in [*columns.BY_HEADING, *columns.MAP_MEANINGS])


@pytest.mark.parametrize(
    "heading, word, text",
    [
        ("rule", "two-ports", "two antenna ports"),
        ("rule", "other", ""),
        ("width", "n25", "5 MHz, 25 resource blocks"),
        ("PHICH", "normal oneSixth", "first symbol of a subframe, Ng 1/6"),
        ("cell", "18905602", "eNodeB 73850, its cell 2"),
        ("no SIB1", "bad-riv 7", "blocks that do not exist"),
        ("", "?", "chance explains"),
        ("ppm", "-", "not known"),
        ("ppm", "", ""),
        ("ppm", "1.5", ""),
    ],
)
def test_meaning_of_a_word(heading, word, text):
    found = columns.word_meaning(heading, word)
    assert text in found and bool(text) == bool(found)


def test_schema_has_the_fields_of_the_survey(survey):
    defined = foreign.schema()["$defs"]
    more = {"clashes", "classes", "coverage", "grid", "identities", "live", "neighbours", "parts", "plan", "pollution"}
    more |= {"scan", "servers", "track"}
    assert set(survey.to_json()) | more == set(defined["survey"]["properties"])
    cell = dataclasses.replace(survey.cells[0], shift=0.0)
    assert set(cell.to_json(is_deep=True)) == set(defined["surveyed"]["properties"])
    assert set(cell.to_json(True)["seen"][0]) == set(defined["sighting"]["properties"])


# ---- table and CSV


def test_table(survey):
    head, names, row, *last = survey_table.table_of(survey)
    assert head == "crates/capture_example/stdin: 0.03 s, 1 window, offset 0 Hz"
    assert names.split()[:3] == ["PCI", "rule", "first"] and row.split()[:2] == ["271", "one-port"] and last == []
    assert survey_table.table_of(dataclasses.replace(survey, cells=(), hint="why")) == [head, "why"]
    assert survey_table.table_of(with_cells(survey, 2))[-1] == columns.CHANCE


@pytest.mark.parametrize(
    "keys, text",
    [
        ({"offsets": ()}, "no offset told"),
        ({"offsets": ((0.0, 10.0), (1.0, 900.0))}, "offset 10 to 900 Hz, told 2 times"),
        ({"spoiled": (0.5,)}, "1 of them left out"),
        ({"rate_error": 1.0}, "read at 1.000001000 of its rate"),
        ({"datetime": "2026-05-01T00:00:00+00:00"}, "from 2026-05-01T00:00:00+00:00 on"),
        ({"scan": Scan(-1e5, 2e5, 4)}, "4 frequencies from -0.1 to 0.2 MHz beside the centre"),
        ({"windows": 2}, "2 windows"),
    ],
)
def test_head(survey, keys, text):
    assert text in survey_table.head_of(dataclasses.replace(survey, **keys))


def test_table_of_a_scan_in_dbm(survey):
    cell = dataclasses.replace(
        survey.cells[0], shift=1e5, frequency=2140.1e6, earfcns=((1, 301), (4, 2151)), echoes=(Echo(6.2, -3.0, 2),)
    )
    found = dataclasses.replace(survey, cells=(cell,), unit="dBm", scan=Scan(2139.9e6, 2140.3e6, 5))
    (row,) = survey_table.rows_of(found)
    assert row["EARFCN"] == "301/b1 2151/b4" and row["MHz"] == "2140.1" and row["dBm"] == "-52.3"
    assert row["echo"] == "6.2 us -3.0 dB" and "dBFS" not in row
    (line,) = csv.DictReader(io.StringIO(survey_table.csv_of(found)))
    assert (line["earfcn"], line["frequency"], line["echo"]) == ("301 2151", "2140100000.0", "6.2")
    bare = dataclasses.replace(cell, frequency=None, earfcns=())
    (row,) = survey_table.rows_of(dataclasses.replace(found, cells=(bare,)))
    assert row["MHz"] == "+0.1" and "EARFCN" not in row


@pytest.mark.parametrize("name", ["=1+1.cu8", "+a", "-b", "@c", "\td"])
def test_no_formula_reaches_a_spreadsheet(survey, name):
    (line,) = csv.DictReader(io.StringIO(survey_table.csv_of(dataclasses.replace(survey, file=name))))
    assert line["file"] == f"'{name}" and line["level"] == "-52.3" and line["offset"] == "0.3"


def test_csv_of_what_is_not_known(survey):
    cell = dataclasses.replace(survey.cells[0], sib1=None, no_sib1="no-control", level=None)
    text = survey_table.csv_of(dataclasses.replace(survey, cells=(cell,)))
    (line,) = csv.DictReader(io.StringIO(text))
    assert (line["tac"], line["level"], line["no_sib1"], line["enodeb"]) == ("", "", "no-control", "")
    assert text.splitlines()[0] == ",".join(columns.CSV_KEYS)


# ---- the page


def test_page_names_each_cell(survey):
    text = survey_page.page_of(with_cells(survey, 22), "a < b").decode()
    assert [i for i in range(22) if f">{400 + i}</td>" not in text] == []
    assert "<h1>a &lt; b</h1>" in text and "<p>? chance explains this line" in text
    assert "<button></button>" not in text and 'title=""' not in text
    assert re.findall(r'(?:src|href)="(?!data:)[^"]*"', text) == []


def test_page_escapes_all_texts(survey):
    evil = "<script>alert(1)</script>"
    cell = dataclasses.replace(survey.cells[0], rule=evil, bandwidth=evil, no_sib1=evil, sib1=None, duration=evil)
    found = dataclasses.replace(survey, file=evil, hint=evil, cells=(cell,))
    assert evil not in survey_page.page_of(found).decode()


def test_page_of_no_cell(survey):
    assert "<p>No cell." in survey_page.page_of(dataclasses.replace(survey, cells=(), hint="none")).decode()


def test_page_without_single_windows(survey, monkeypatch):
    monkeypatch.setattr(survey_page, "MOST", 0)
    text = survey_page.page_of(survey).decode()
    assert "The survey as JSON, without windows" in text and "sib1_block" not in text


@pytest.mark.parametrize("text", ["drive/" * 200, "long words " * 100, "x" * 999, "\udcff$a^b"])
def test_titles_fit(text):
    rows = picture_style.fitted(text, 95).split("\n")
    assert len(rows) <= 2 and max(map(len, rows)) <= 95
    rows[0].encode()


# ---- maps


def survey_of_places(survey, places):
    """A survey of a window at each place, a second apart: PCI 401 falls and 402 rises from window to window, 403 is a
    false detection, and none is heard in the last window."""
    (cell,), count = survey.cells, len(places)
    (seen,) = cell.seen
    levels = {401: lambda i: -40 - 2 * i, 402: lambda i: -40 - 2 * (count - i), 403: lambda i: -10}
    cells = tuple(
        dataclasses.replace(
            cell,
            identity=identity,
            chance=identity == 403,
            seen=tuple(
                dataclasses.replace(seen, seconds=i + 0.005, level=level(i), place=tuple(place))
                for i, place in enumerate(places[:-1])
            ),
        )
        for identity, level in levels.items()
    )
    found = {**dataclasses.replace(survey, every=1, seconds=count, windows=count, cells=cells).to_json()}
    for one, own in zip(found["cells"], cells):
        for window, seen in zip(one["seen"], own.seen):
            window["place"] = list(seen.place)
    found["track"] = {"first": "", "last": "", "places": count, "windows": [[i, *p] for i, p in enumerate(places)]}
    return Survey.from_json(found)


@pytest.fixture
def walk(survey):
    return survey_of_places(survey, [[(179.999 + 0.0002 * i + 180) % 360 - 180, 60 + 0.0001 * i] for i in range(12)])


def test_map_has_the_strongest_cells(walk):
    drawn = picture_map.Map(walk, 6)
    strongest = [None if spot.cell is None else walk.cells[spot.cell].identity for spot in drawn.spots]
    assert strongest == [401] * 7 + [402] * 4 + [None]
    assert [drawn.signs[i][0] for i in sorted(drawn.signs)] == ["A", "B"]
    assert len({sign[1:] for sign in picture_labels.signs_of(range(36)).values()}) == 36
    first, last = drawn.spots[0], drawn.spots[-1]
    assert last.east - first.east == pytest.approx(0.0022 * 111_320 / 2, abs=1)
    assert last.north - first.north == pytest.approx(0.0011 * 111_320, abs=1)
    (left, right), (low, high) = drawn.limits
    assert all(left < spot.east < right and low < spot.north < high for spot in drawn.spots)
    assert (right - left) / drawn.width == pytest.approx((high - low) / drawn.height)


@pytest.mark.parametrize(
    "east, north, corner",
    [
        ([0, 1, 2], [1, 0.5, 0], (1, 1)),
        ([0, 1, 2], [0, 0.5, 1], (-1, 1)),
        ([0, 0, 2], [0, 1, 1], (1, -1)),
    ],
)
def test_north_is_drawn_where_no_place_is(survey, east, north, corner):
    """The way is two straight lines, in thousandths of a degree."""
    lon, lat = (np.interp(np.arange(12), [0, 5, 11], values) / 1000 for values in (east, north))
    assert picture_map.Map(survey_of_places(survey, list(zip(lon, lat))), 6).free_corner == corner


@pytest.mark.parametrize(
    "east, north, corner",
    [
        ([0, 1, 2], [1, 0.5, 0], (-1, -1)),
        ([0, 1, 2], [0, 0.5, 1], (1, -1)),
        ([0, 0, 2], [0, 1, 1], (1, -1)),
        ([0, 0.3, 2], [1, 0, 0], (1, 1)),
    ],
)
def test_scale_is_drawn_where_no_place_is(survey, east, north, corner):
    """The way is two straight lines, in thousandths of a degree."""
    lon, lat = (np.interp(np.arange(12), [0, 5, 11], values) / 1000 for values in (east, north))
    drawn = picture_map.Map(survey_of_places(survey, list(zip(lon, lat))), 6)
    assert drawn.scale_corner == corner
    figure, ax = pyplot.subplots()
    picture_map.draw_scale(ax, drawn)
    (bar,) = ax.lines
    (left, right), (low, high) = ((min(values), max(values)) for values in bar.get_data())
    near = 0.1 * drawn.metres
    assert not any(left - near < x < right + near and low - near < y < high + near for x, y in drawn.places)
    north_text = next(text for text in ax.texts if text.get_text() == "N").get_position()[1]
    assert not low < north_text < high
    pyplot.close(figure)


def test_heading_of_the_unit(survey):
    """Each column of the table of identities has a heading, so that the page does not show a question mark."""
    assert [column.heading for column in columns.IDENTITY_COLUMNS if column.heading == ""] == []


def test_scale_and_map_of_one_place(survey):
    assert [picture_map.round_below(metres) for metres in (999, 1000, 4, 0.7, 74)] == [500, 1000, 2, 0.5, 50]
    still = picture_map.Map(survey_of_places(survey, [[13.4, 52.5]] * 12), 6)
    assert still.metres * still.width == pytest.approx(picture_map.LEAST)


@pytest.mark.parametrize("form, options", [("png", []), ("svg", []), ("html", []), ("svg", ["--time"])])
def test_picture_of_a_walk(tool, tmp_path, walk, form, options):
    (tmp_path / "walk.json").write_text(json.dumps(walk.to_json()))
    out = tmp_path / f"map.{form}"
    run = tool("picture", tmp_path / "walk.json", "-o", out, *options)
    assert run.status == 0 and run.err == ""
    begin = {"png": b"\x89PNG", "svg": b"<?xml", "html": b"<!doctype html>"}[form]
    assert out.read_bytes().startswith(begin)
    if form == "html":
        assert out.read_text().count("<h2>Map</h2>") == 1


@pytest.fixture
def marked(survey):
    """A survey with a gap, a gain step, a loop and doubts."""
    (cell,) = survey.cells
    doubtful = dataclasses.replace(
        cell, repeats=0.16, doubts=("test-model", "pilots-of-36"), ratios=(30.0, 40.0), windows=3
    )
    powers = tuple(Power(0.01 * i, -42.3, None if i == 1 else -90.1) for i in range(3))
    more = {"gaps": (Gap(0.01, 0.02, 12_345),), "powers": powers, "steps": (Step(0.015, 6.1),)}
    return dataclasses.replace(survey, cells=(doubtful, dataclasses.replace(cell, repeats=0.0)), **more)


def test_notes_below_the_table(marked):
    head, _, row, _, *notes = survey_table.table_of(marked)
    assert row.endswith("? test model, pilots of 36") and "30.0 to 40.0" in row
    assert [note.split(":")[0] for note in notes] == [
        "? test model",
        "? pilots of 36",
        "12,345 samples are missing between 0.01 and 0.02 s",
        "PCI 271",
        "PCI 271",
        "the radio's gain steps by +6.1 dB at 0.0 s",
    ]
    assert notes[5].endswith("levels are those at the first gain; if the gain was constant: --gain G")
    assert "begins again every 160 ms" in notes[3] and "same in every window" in notes[4]
    (line, _) = csv.DictReader(io.StringIO(survey_table.csv_of(marked)))
    assert (line["doubts"], line["repeats"], line["chance"]) == ("test-model pilots-of-36", "0.16", "no")
    assert (line["noise"], line["total"], line["ratio_least"]) == ("-90.1", "-42.3", "30.0")


def test_page_and_picture_with_notes(marked):
    text = survey_page.page_of(marked).decode()
    assert "12,345 samples are missing" in text and "<p>? test model: the MIB has zeros alone" in text
    assert page.saved(picture_map.time_sheet(marked), "png").startswith(b"\x89PNG")
    assert Survey.from_json(marked.to_json()) == marked


def test_picture_of_a_scan(survey):
    cell = dataclasses.replace(survey.cells[0], shift=1e5, frequency=2140.1e6, earfcns=((1, 301), (4, 2151)))
    other = dataclasses.replace(
        cell, identity=3, sib1=None, no_sib1="no-control", chance=True, echoes=(Echo(1.0, -3.0, 1),)
    )
    found = dataclasses.replace(survey, cells=(cell, other), scan=Scan(2139.9e6, 2140.3e6, 5), carrier=2140.1e6)
    assert page.saved(picture_map.time_sheet(found, "x"), "png").startswith(b"\x89PNG")


def test_walks_sheet_is_of_the_shipped_survey():
    text = (EXAMPLES / "outputs/survey.json").read_text()
    assert (
        json.dumps(Survey.from_json(json.loads(text)).to_json(), sort_keys=True, separators=(",", ":")) == text.strip()
    )
    assert np.isfinite(Survey.from_json(json.loads(text)).cells[0].level)


# ---- many cells, none, and scans


def test_letters_do_not_overlap():
    """60 cells along a winding way: each has a letter that lies on no mark and on no other letter."""
    points = [
        picture_labels.Point(6.0 * i - 800 if i // 240 % 2 else 640 - 6.0 * (i % 240), 70.0 * (i // 60), 4, i // 8)
        for i in range(480)
    ]
    signs = picture_labels.signs_of(range(60), points)
    names = {cell: letter for cell, (letter, _, _) in signs.items()}
    assert len(set(names.values())) == 60 and len({sign[1:] for sign in signs.values()}) == 60
    labels = picture_labels.labels_of(points, names, (4_000, 4_000))
    assert {one.cell for one in labels} == set(range(60))
    half = {cell: picture_labels.WIDE * len(name) / 2 for cell, name in names.items()}
    for i, one in enumerate(labels):
        for other in labels[:i]:
            wide = half[one.cell] + half[other.cell]
            assert abs(one.x - other.x) >= wide or abs(one.y - other.y) >= picture_labels.TALL
    near = picture_labels.neighbours_of(points)
    same = [pair for pair in near if pair[0] != pair[1] and signs[pair[0]][2] == signs[pair[1]][2]]
    assert same == []


def test_map_without_a_cell_has_no_sizes(survey):
    places = [[13.4 + 0.0001 * i, 52.5] for i in range(12)]
    found = dataclasses.replace(survey_of_places(survey, places), cells=(), hint="no sure cell")
    figure = picture_map.map_sheet(found)
    assert [text.get_text() for text in figure.axes[0].get_legend().get_texts()] == ["no sure cell"]
    assert page.saved(figure, "png").startswith(b"\x89PNG")


def test_map_of_many_cells(walk):
    cells = tuple(dataclasses.replace(walk.cells[i % 2], identity=100 + i) for i in range(40))
    figure = picture_map.map_sheet(dataclasses.replace(walk, cells=cells))
    texts = {text.get_text() for ax in figure.axes for text in ax.texts}
    assert {str(100 + i) for i in range(40)} <= texts and figure.get_size_inches()[1] < 16
    assert page.saved(figure, "png").startswith(b"\x89PNG")


def test_scan_names_carriers_in_its_spectrum(survey):
    spectrum = Spectrum(2130e6, 1e6, tuple(-90.0 + i for i in range(21)))
    cell = dataclasses.replace(survey.cells[0], shift=0.0, frequency=2140.1e6, earfcns=((1, 301),), bandwidth="n50")
    others = [dataclasses.replace(cell, identity=i, frequency=f) for i, f in ((3, 2140.1e6), (7, 2141.0e6))]
    found = dataclasses.replace(survey, cells=(cell, *others), scan=Scan(2131e6, 2149e6, 181, spectrum), carrier=2140e6)
    assert Survey.from_json(found.to_json()) == found
    carriers = picture_scan.carriers_of(found)
    assert [one.lines for one in carriers] == [
        ["2140.1 MHz", "EARFCN 301/b1", "PCI 271, 3"],
        ["2141.0 MHz", "EARFCN 301/b1", "PCI 7"],
    ]
    assert [round(one.width, 2) for one in carriers] == [9.0, 9.0]
    first, second = picture_scan.names_of(carriers, picture_scan.limits_of(found), 10)
    assert first.up == 0 and second.up == 3
    assert page.saved(picture_map.time_sheet(found), "png").startswith(b"\x89PNG")
