"""SIB1 of cells of any bandwidth in surveys, with the programs' stored answers (stored/)."""
import csv
import dataclasses
import io
import json
import subprocess
import xml.etree.ElementTree as ElementTree

import numpy as np
import pytest

import lte_tools
from lte_reference import cell as reference_cell
from lte_reference.sib1_tshark import compare
from lte_tools import columns, live, picture_view, radio, radio_file, scan, to_ci16, wide
from lte_tools.cells import joined
from lte_tools.options import PictureOptions
from lte_tools.radio_file import RadioFile
from lte_tools.sightings import Task
from tests.conftest import CELL, WIDE_RATE, as_radio, needs
from tests.test_one_line import sighting

FAST = ("--jobs", "1", "--offset", "0", "--every", "0.05")  # one window, and no question to lte_tune
FOUND = {
    "identity": "301",
    "bandwidth": "n25",
    "ports": "2",
    "plmn": "001-01",
    "tac": "1",
    "cell": "18905602",
    "band": "1",
}


def row(run):
    """The first cell of a table for other programs."""
    assert run.status == 0, run.err
    return next(csv.DictReader(io.StringIO(run.out)), {})


def finds(run, **more):
    wanted = {**FOUND, **more}
    assert {key: row(run).get(key) for key in wanted} == wanted


# ---- surveys


def test_a_wide_cell_has_its_columns(tool, wide_file):
    run = tool("survey", wide_file, "--rate", WIDE_RATE, "--csv", *FAST)
    finds(run, enodeb="73850", sector="2", no_sib1="", chance="no", doubts="")


def test_json_and_packets_have_sib1_with_its_block(tool, wide_file, tmp_path):
    run = tool("survey", wide_file, "--rate", WIDE_RATE, "--json", "--pcap", tmp_path / "wide.pcap", *FAST)
    (cell,) = json.loads(run.out)["cells"]
    assert cell["sib1"]["cell"] == 18_905_602 and cell["rule"] == "two-ports"
    text, (block,) = "".join(map(str, reference_cell.text(CELL["sib1"]))), [one["sib1_block"] for one in cell["seen"]]
    assert bits_of(block)[: len(text)] == text and set(bits_of(block)[len(text) :]) == {"0"}
    packets = (tmp_path / "wide.pcap").read_bytes()
    assert packets.count(b"\x12\x79\x12\x79") == 2  # both ports of each packet: the MIB, and SIB1
    assert packets.count(bytes.fromhex(block)) == 1


def bits_of(block):
    """Returns the bits of hexadecimal digits."""
    return "".join(format(byte, "08b") for byte in bytes.fromhex(block))


@needs("tshark")
def test_tshark_reads_sib1_of_a_wide_cell(tool, wide_file, tmp_path):
    run = tool("survey", wide_file, "--rate", WIDE_RATE, "--pcap", tmp_path / "wide.pcap", *FAST)
    assert run.status == 0, run.err
    words = ["tshark", "-r", tmp_path / "wide.pcap", "-T", "pdml"]
    pdml = subprocess.run(words, check=True, stdout=subprocess.PIPE, stderr=subprocess.DEVNULL).stdout
    (found,) = filter(None, map(compare.fields_of_packet, ElementTree.fromstring(pdml).iter("packet")))
    sib1 = CELL["sib1"]
    assert {key: found[key] for key in ("tac", "cell", "band")} == {key: sib1[key] for key in ("tac", "cell", "band")}
    assert [plmn[:2] for plmn in found["plmns"]] == [["001", "01"]]


def test_another_rate_and_place_in_the_file(tool, wave, tmp_path):
    (tmp_path / "beside.cs16").write_bytes(radio.to_bytes(radio.shifted(wave, 0.4e6, WIDE_RATE)))
    finds(tool("survey", tmp_path / "beside.cs16", "--rate", WIDE_RATE, "--shift", "0.4e6", "--csv", *FAST))


def test_a_file_that_does_not_hold_the_cell(tool, wave, tmp_path):
    (tmp_path / "narrow.cu8").write_bytes(as_radio(to_ci16.converted(wave, WIDE_RATE, 0), "u8", 2_400_000))
    run = tool("survey", tmp_path / "narrow.cu8", "--rate", "2.4e6", "--csv", *FAST)
    assert (row(run)["no_sib1"], row(run)["cell"], row(run)["bandwidth"]) == ("needs 5 MHz", "", "n25")
    run = tool("survey", tmp_path / "narrow.cu8", "--rate", "2.4e6", "--json", *FAST)
    assert lte_tools.Survey.from_json(json.loads(run.out)).cells[0].no_sib1 == "needs 5 MHz"


def test_a_scan_reads_it_too(tool, wide_file, monkeypatch):
    monkeypatch.setattr(scan, "raster", lambda file: [0.0])
    run = tool("survey", wide_file, "--rate", WIDE_RATE, "--scan", "--csv", "--offset", "0", "--jobs", "1")
    finds(run, no_sib1="")


def test_a_pipe_reads_it_when_the_cell_is_first_seen(tool, wide_file, monkeypatch):
    process = subprocess.Popen(["cat", wide_file], stdout=subprocess.PIPE)
    monkeypatch.setattr(live, "STDIN", process.stdout.fileno())
    run = tool("survey", "-", "--rate", WIDE_RATE, "--offset", "0", "--wait", "--follow", "--jobs", "1")
    assert run.status == 0 and process.wait() == 0
    assert "001-01 TAC 1 cell 18905602" in next(line for line in run.out.splitlines() if "behind" in line)


# ---- which windows are asked


def asked_of(levels, answers):
    """Returns the levels of the windows that are asked, and the cell then; `answers` by level has SIB1 or a reason."""
    found = [dataclasses.replace(sighting(7, i, 1_000, has_sib1=False), level=level) for i, level in enumerate(levels)]
    (cell,), asked = joined(found), []
    level_of = {one.task.start: one.level for one in found}

    def ask(name, function, questions):
        assert function is wide.answered
        asked.extend(level_of[one.task.start] for one in questions)
        return [wide.Found(answers[level_of[one.task.start]](one.line)) for one in questions]

    wide.inform(ask, [cell])
    return asked, cell


def reason(word):
    return lambda line: dataclasses.replace(line, no_sib1=word)


def read(line):
    return dataclasses.replace(line, sib1=sighting(7, 0, 0).line.sib1, no_sib1=None)


def test_the_strongest_window_is_asked_first():
    asked, cell = asked_of([-60.0, -40.0, -50.0, -45.0], {-40.0: reason("no-control"), -45.0: read})
    assert asked == [-40.0, -45.0] and cell.line.sib1.tac and cell.line.no_sib1 is None
    assert cell.windows == 4 and not cell.is_chance([cell])


def test_three_windows_are_asked_at_most():
    every = {level: reason("not-decoded" if level == -50 else "no-control") for level in (-60.0, -40.0, -50.0, -45.0)}
    asked, cell = asked_of([-60.0, -40.0, -50.0, -45.0], every)
    assert asked == [-40.0, -45.0, -50.0] and cell.line.sib1 is None and cell.line.no_sib1 == "no-control"


def test_a_reason_at_the_bandwidth_comes_first():
    every = {level: reason("not-decoded" if level == -50 else "bandwidth") for level in (-60.0, -40.0, -50.0)}
    asked, cell = asked_of([-60.0, -40.0, -50.0], every)
    assert asked == [-40.0, -50.0, -60.0] and cell.line.no_sib1 == "not-decoded"


def test_a_reason_of_a_list_that_has_the_cell_comes_first():
    every = {level: reason("not-decoded" if level == -60 else "not listed at 15.36") for level in (-60.0, -40.0, -50.0)}
    asked, cell = asked_of([-60.0, -40.0, -50.0], every)
    assert asked == [-40.0, -50.0, -60.0] and cell.line.no_sib1 == "not-decoded"


def test_a_reason_of_six_blocks_stays_where_their_list_looked_for_sib1(monkeypatch):
    monkeypatch.setattr(wide.programs, "listed", lambda *words: ())
    monkeypatch.setattr(wide, "recording_of", lambda question: None)
    file, line = RadioFile(None, "s16", 2_400_000, 10**7, 0, 0), sighting(7, 0, 1_000, has_sib1=False).line
    for word, blocks, then in (
        ("not-decoded", "n6", "not-decoded"),
        ("ports 4", "n6", "not listed at 1.92"),
        ("bandwidth n15", "n15", "needs 3 MHz"),
    ):
        asked = dataclasses.replace(line, bandwidth=blocks, no_sib1=word)
        assert wide.answered(wide.Question(Task(file, 0.1, 0.03), asked, 0.0)).line.no_sib1 == then


def test_a_reason_at_the_bandwidth_is_in_json(survey_json):
    for text in ("not listed at 15.36", "needs 10 MHz"):
        survey_json["cells"][0]["sib1"] = {"none": text}
        assert lte_tools.Survey.from_json(survey_json).cells[0].no_sib1 == text
        assert columns.word_meaning("no SIB1", text)
    survey_json["cells"][0]["sib1"] = {"none": "not listed at 15"}
    with pytest.raises(lte_tools.Refused):
        lte_tools.Survey.from_json(survey_json)


def test_a_picture_reads_it_too(wide_file):
    options = PictureOptions(wide_file, rate=WIDE_RATE)
    view = picture_view.view_of(options, radio_file.opened(options))
    (cell,) = view.cells
    assert (cell.identity, cell.bandwidth, cell.sib1.cell) == (301, "n25", 18_905_602)
    assert "bandwidth n25" in json.dumps(view.said)  # what the list of six blocks says


def test_a_cell_that_the_file_does_not_hold_is_asked_once():
    asked, cell = asked_of([-60.0, -40.0], {-40.0: reason("needs 10 MHz")})
    assert asked == [-40.0] and cell.line.no_sib1 == "needs 10 MHz"


def test_a_window_of_three_frames_has_as_many_samples_as_are_needed(monkeypatch):
    asked = []
    monkeypatch.setattr(wide.programs, "listed", lambda *words: asked.append(words) or ())
    monkeypatch.setattr(RadioFile, "samples", lambda file, first, count: np.ones(count - 3, complex))
    file = RadioFile(None, "s16", 9_999_999, 10**7, 0, 0)
    line = dataclasses.replace(sighting(7, 0, 1_000, has_sib1=False).line, bandwidth="n50", ports=4)
    unlisted = dataclasses.replace(line, no_sib1="not listed at 15.36")
    assert wide.answered(wide.Question(Task(file, 0.1, 0.03), line, 12.5)) == wide.Found(unlisted)
    ((_, arguments, recording, _),) = asked
    assert (arguments, recording.arguments) == (("search", "--ports", "4", "--json"), ("--rate", "15.36"))
    assert len(recording.data) == 4 * 8 * 57_600


def test_the_place_decides_which_line_it_is():
    line = sighting(7, 0, 1_000).line
    assert wide.is_of(line, dataclasses.replace(line, at=line.at + 2))
    assert wide.is_of(line, dataclasses.replace(line, at=line.at - radio.FRAME + 1, sfn=(line.sfn - 1) % 1024))
    for other in ({"at": line.at + 3}, {"sfn": (line.sfn + 1) % 1024}, {"identity": 8}):
        assert not wide.is_of(line, dataclasses.replace(line, **other))
