"""Surveys of files, with the programs' stored answers (stored/), and files that are refused."""
import csv
import dataclasses
import io
import json
import multiprocessing
import os
import subprocess
import tarfile

import numpy as np
import pytest

import lte_tools
from tests.conftest import CELL, EXAMPLES, TOP, as_radio, is_one_line
from lte_tools import live, radio, surveying

SHIPPED = TOP / "crates/capture_example/stdin"
FAST = ("--jobs", "1", "--offset", "0", "--every", "0.05")  # one window, and no question to lte_tune
FOUND = {"identity": "217", "cell": "18905602", "enodeb": "73850", "sector": "2"}


def row(run):
    """The first cell of a table for other programs."""
    return next(csv.DictReader(io.StringIO(run.out)), {})


def finds(run, **more):
    assert run.status == 0, run.err
    found = row(run)
    assert {key: found.get(key) for key in {**FOUND, **more}} == {**FOUND, **more}


@pytest.fixture
def sigmf_of(tmp_path, drive):
    """Writes a pair of SigMF over the drive's samples."""

    def write(name, whole=None, captures=None, data=None):
        meta = tmp_path / f"{name}.sigmf-meta"
        found = {"core:datatype": "cu8", "core:sample_rate": 2.4e6} if whole is None else whole
        capture = {"core:frequency": 796e6, "core:datetime": "2026-03-01T10:00:00Z"}
        meta.write_text(json.dumps({"global": found, "captures": [capture] if captures is None else captures}))
        (tmp_path / f"{name}.sigmf-data").write_bytes(drive.read_bytes() if data is None else data)
        return meta

    return write


# ---- files that are read


def test_shipped_recording(tool, survey_json):
    run = tool("survey", SHIPPED, "--json", "--jobs", "1")
    found = {**json.loads(run.out), "file": survey_json["file"]}
    if os.environ.get("LTE_RECORD"):
        text = json.dumps(found, sort_keys=True, separators=(",", ":"))
        (EXAMPLES / "outputs/survey.json").write_text(f"{text}\n")
    else:
        assert found == survey_json


def test_table_csv_and_processes(tool):
    run = tool("survey", SHIPPED, "--jobs", "2")
    assert run.status == 0 and run.out.splitlines()[-1].split()[:2] == ["271", "one-port"]
    assert row(tool("survey", SHIPPED, "--csv", "--jobs", "1"))["identity"] == "271"


def test_plain_recording(tool, recording):
    finds(tool("survey", recording, "--csv", *FAST), sfn="101", no_sib1="", plmn="001-01", bandwidth="n6")


def test_bytes_at_another_rate(tool, drive):
    run = tool("survey", drive, "--rate", "2.4e6", "--shift", "3e5", "--csv", *FAST)
    finds(run)
    assert abs(float(row(run)["offset"])) < 60 and 15 < float(row(run)["ratio"])


def test_odd_number_of_bytes(tool, drive, tmp_path):
    (tmp_path / "odd.cu8").write_bytes(drive.read_bytes() + b"\x7f")
    run = tool("survey", tmp_path / "odd.cu8", "--rate", "2.4e6", "--shift", "3e5", "--csv", *FAST)
    finds(run)
    assert "the last byte is left out" in run.err


def test_offset_is_asked_and_corrected(tool, sent, tmp_path):
    (tmp_path / "off.cu8").write_bytes(as_radio(sent, "u8", 2_400_000, 21_500))
    run = tool("survey", tmp_path / "off.cu8", "--rate", "2.4e6", "--jobs", "1", "--csv")
    finds(run)
    assert abs(float(row(run)["offset"]) - 21_500) < 60


def test_exchanged(tool, recording, tmp_path):
    x = np.fromfile(recording, "<i2").reshape(-1, 2)
    x[:, ::-1].tofile(tmp_path / "exchanged.ci16")
    finds(tool("survey", tmp_path / "exchanged.ci16", "--exchanged", "--csv", *FAST))
    run = tool("survey", tmp_path / "exchanged.ci16", "--jobs", "1", "--offset", "0")
    assert run.status == 0 and "with --exchanged there is PCI 217" in run.out


def test_nothing_was_received(tool, tmp_path):
    (tmp_path / "zero.ci16").write_bytes(bytes(4 * 60_000))
    run = tool("survey", tmp_path / "zero.ci16", *FAST)
    assert run.status == 0 and "nothing was received" in run.out


def test_samples_that_are_no_numbers(tool, sent, tmp_path):
    floats = np.tile(np.stack([sent.real, sent.imag], 1).astype("<f4") / 32_768, (4, 1))
    floats[350_000] = np.nan
    floats.tofile(tmp_path / "none.cf32")
    run = tool("survey", tmp_path / "none.cf32", "--json", "--jobs", "1", "--offset", "0")
    found = json.loads(run.out)
    assert found["spoiled"] == [0.17] and found["windows"] == 2


def test_echo_is_no_second_line(tool, recording, tmp_path):
    x = np.fromfile(recording, "<i2").reshape(-1, 2)
    late = np.concatenate([np.zeros((12, 2)), x[:-12]])
    (0.5 * x + 0.5 * 10 ** (-2.5 / 20) * late @ [[0, 1], [-1, 0]]).astype("<i2").tofile(tmp_path / "echo.ci16")
    run = tool("survey", tmp_path / "echo.ci16", "--csv", *FAST)
    finds(run, echo="6.2")
    assert len(run.out.splitlines()) == 2


# ---- SigMF


def test_archive_with_a_carrier(tool, sigmf_of, tmp_path):
    meta = sigmf_of("drive")
    with tarfile.open(tmp_path / "whole.sigmf", "w") as archive:
        for path in (meta, meta.with_suffix(".sigmf-data")):
            archive.add(path, path.name)
    run = tool("survey", tmp_path / "whole.sigmf", "--carrier", "796.3e6", "--csv", *FAST)
    finds(run, datetime="2026-03-01T10:00:00.007+00:00", frequency="796300000.0")


def test_capture_that_has_the_carrier(tool, sigmf_of):
    captures = [{"core:frequency": 796e6}, {"core:sample_start": 100_000, "core:frequency": 1815e6}]
    run = tool("survey", sigmf_of("two", captures=captures), "--carrier", "796.3e6", "--csv", *FAST)
    assert run.status == 0 and "1 of 2 captures do not have this frequency" in run.err
    assert row(run)["of"] == "1"


def test_second_channel(tool, sigmf_of, recording):
    x = np.fromfile(recording, "<i2").reshape(-1, 2)
    whole = {"core:datatype": "ci16_le", "core:sample_rate": 1_920_000, "core:num_channels": 2}
    meta = sigmf_of("pair", whole, [], np.stack([np.zeros_like(x), x], 1).tobytes())
    finds(tool("survey", meta, "--channel", "1", "--csv", *FAST))
    assert is_one_line(tool("survey", meta, *FAST)) and is_one_line(tool("survey", meta, "--channel", "2", *FAST))


# ---- places, packets and pages


def test_places_of_windows(tool, recording, tmp_path):
    way, geojson, html = (tmp_path / name for name in ("way.csv", "cells.geojson", "walk.html"))
    way.write_text("time,lat,lon\n2026-05-01T07:30:00Z,52,13\n2026-05-01T07:30:10Z,51,14\n")
    words = [recording, "--offset", "0", "--every", "0.05", "--jobs", "1", "--track", way, "--geojson", geojson]
    run = tool("survey", *words, "--start", "2026-05-01T09:30:01+02:00", "--html", html, "--pcap", tmp_path / "x.pcap")
    assert run.status == 0
    features = json.loads(geojson.read_text())["features"]
    assert [one["properties"]["kind"] for one in features] == ["cell", "window"]
    assert features[0]["geometry"]["coordinates"] == pytest.approx([13.1007, 51.8993], abs=1e-3)
    assert features[1]["properties"]["time"].startswith("2026-05-01T07:30:01.0")
    text = html.read_text()
    assert text.count("<h2>Map</h2>") == 1 and 'title="eNodeB 73850, its cell 2"' in text
    assert (tmp_path / "x.pcap").stat().st_size > 24
    run = tool("survey", *words, "--start", "2026-05-01T07:29:59.98Z")
    assert "no places before and after that" in run.err
    for start in ("2026-05-01T07:29:59.8Z", "2026-05-01T07:30:10.1Z"):
        assert "no place for any of it" in tool("survey", *words, "--start", start).err
    assert "no time in it" in tool("survey", *words).err
    assert is_one_line(tool("survey", *words, "--start", "9999-12-31T23:59:59.99Z"))


# ---- a scan, and a pipe


def test_scan(tool, sent, tmp_path):
    (tmp_path / "wide.cu8").write_bytes(as_radio(sent, "u8", 1_920_000, 202_050))
    run = tool(
        "survey", tmp_path / "wide.cu8", "--carrier", "2140e6", "--scan", "--csv", "--offset", "2050", "--jobs", "1"
    )
    finds(run, earfcn="302 2252 4452 65838 66738", frequency="2140200000", of="1")
    run = tool("survey", tmp_path / "wide.cu8", "--scan", "--offset", "2050", "--jobs", "1")
    assert "9 frequencies from -0.4 to 0.4 MHz beside the centre" in run.out
    assert is_one_line(tool("survey", tmp_path / "wide.cu8", "--rate", "1.07e6", "--scan"))


@pytest.fixture
def pipe(monkeypatch, tmp_path):
    """Writes bytes, by another process, into what lte_survey reads as standard input."""

    def write(data):
        (tmp_path / "samples").write_bytes(data)
        process = subprocess.Popen(["cat", tmp_path / "samples"], stdout=subprocess.PIPE)
        monkeypatch.setattr(live, "STDIN", process.stdout.fileno())
        return process

    return write


def test_pipe_as_it_comes(tool, pipe, sent):
    first = pipe(as_radio(sent, "u8", 1_920_000))
    words = ("-", "--form", "u8", "--offset", "0", "--wait", "--follow", "--jobs", "1")
    run = tool("survey", *words)
    assert run.status == 0
    line = next(line for line in run.out.splitlines() if "behind" in line and "PCI" in line)
    assert line.split()[2:4] == ["PCI", "217"] and "001-01 TAC 1" in line
    second = pipe(as_radio(sent, "u8", 1_920_000))
    found = json.loads(tool("survey", *words, "--json").out)
    assert found["live"]["skipped"] == 0 and found["cells"][0]["windows"] == 1
    assert first.wait() == second.wait() == 0


def test_pipe_without_samples(tool, pipe):
    process = pipe(bytes(1_000))
    assert "no window of 0.03 s" in tool("survey", "-", "--form", "u8", "--jobs", "1").err
    assert process.wait() == 0
    assert is_one_line(tool("survey", "-", "--form", "sigmf"))


# ---- files that are refused

REFUSED = {
    "in hertz": ("sent.ci16", "--carrier", "796.7"),
    "2,400,000 Hz is not in it": ("sent.ci16", "--shift", "2.4e6"),
    "2,000,000 Hz is not in it": ("sent.ci16", "--offset", "2e6"),
    "--form u8": ("drive.cu8", "--form", "s8", "--rate", "2.4e6"),
    "none": ("drive.cu8", "--form", "f32", "--rate", "2.4e6"),
    "high byte may come first": ("high.ci16",),
    "a directory": ("folder",),
    "a pipe": ("pipe",),
    "a text": ("text.cu8",),
    "empty": ("empty.cu8",),
    "0.0130 s from second 0": ("short.ci16",),
    "No such file": ("nowhere.cu8",),
    "no sample in it": ("one.cu8",),
    "0.0003 s from second 0": ("cut.ci16",),
    "WAV without a chunk 'data'": ("x.wav",),
    "captures[1]: core:frequency": ("bad.sigmf-meta",),
}


@pytest.mark.parametrize("text", REFUSED)
def test_refused(tool, recording, drive, sigmf_of, tmp_path, monkeypatch, text):
    np.fromfile(recording, "<i2").byteswap().tofile(tmp_path / "high.ci16")
    (tmp_path / "folder").mkdir()
    os.mkfifo(tmp_path / "pipe")
    for name, data in (("text.cu8", b"a list\n"), ("empty.cu8", b""), ("one.cu8", b"\x80")):
        (tmp_path / name).write_bytes(data)
    for name, size in (("short.ci16", 100_000), ("cut.ci16", 2_003)):
        (tmp_path / name).write_bytes(recording.read_bytes()[:size])
    (tmp_path / "x.wav").write_bytes(b"RIFF\0\0\0\0WAVEfmt " + recording.read_bytes())
    sigmf_of("bad", captures=[{}, {"core:frequency": "x"}])
    monkeypatch.chdir(tmp_path)
    run = tool("survey", *REFUSED[text], *(("--jobs", "1") if "--offset" in REFUSED[text] else FAST[:2]))
    assert text in run.err and run.status == 1 and is_one_line(run)


def test_programs_that_are_none(tool, recording, monkeypatch):
    monkeypatch.setenv("LTE_CLI", "/bin/true")
    assert "no JSON" in tool("survey", recording, *FAST).err
    monkeypatch.setenv("LTE_CLI", "/nowhere")
    assert "no program at /nowhere" in tool("survey", recording, *FAST).err
    monkeypatch.setenv("LTE_CLI", "/bin/false")
    assert "status 1" in tool("survey", recording, *FAST).err


def test_name_that_is_no_text(tool, recording, tmp_path):
    path = os.path.join(os.fsencode(tmp_path), b"\xff=x.ci16")
    os.link(recording, path)
    run = tool("survey", os.fsdecode(path), "--csv", *FAST)
    assert run.status == 0


# ---- the offset along a file


def test_offsets_along_a_file():
    assert surveying.between({0: 0.0, 10: 1_000.0, 11: 5_000.0}) == {5}
    points = [(0, 0.0), (1, 10.0), (2, 9_000.0), (3, 30.0), (4, 40.0)]
    assert surveying.agreed(points) == [(0, 0.0), (1, 10.0), (3, 30.0), (4, 40.0)]
    strength = {"level": [1.0, 3.0, 2.0], "offset": None}

    def ask(name, function, tasks):
        return strength["level"] if name == "level" else [100.0 for _ in tasks]

    task = surveying.Task(None, 0, 0.17)
    tasks = [dataclasses.replace(task, start=0.17 * i) for i in range(3)]
    assert surveying.offsets_along(ask, tasks) == [(0, 100.0), (1, 100.0), (2, 100.0)]


# ---- from Python


def test_lists_from_python(recording, sent):
    found = lte_tools.search(recording)
    assert [cell.identity for cell in found] == [217] and found[0].sib1.tac == 1 and len(found) == 1
    assert found.to_rows()[0]["cell"] == 18_905_602 and found.to_json()[0]["sfn"] == 101
    assert lte_tools.search(str(recording), all=True)[0].rule == "one-port"
    assert lte_tools.search(recording.read_bytes()).items == found.items
    assert [cell.identity for cell in lte_tools.search(sent)] == [217]
    support = lte_tools.evidence(recording)[0]
    assert support.share < 0.01 and len(support.channel) == 1 and len(support.to_row()) == 15 and support.room > 0
    assert [one.identity for one in lte_tools.ids(recording)][0] == 217
    assert lte_tools.hits(recording)[0].ratio > 0.9


def test_array_at_another_rate(sent, drive):
    x = radio.from_bytes(as_radio(sent, "s16", 2_400_000, 300_000))
    assert lte_tools.search(x, rate=2.4e6, shift=300e3)[0].identity == 217
    assert lte_tools.search(drive, rate=2.4e6, format="u8", shift=300e3)[0].identity == 217


def test_offset_from_python():
    tuning = lte_tools.tell(SHIPPED)
    assert tuning.offset.hertz == tuning.offset.turn * 117.1875 and tuning.candidates[1].hertz != 0


def test_transmission_from_python(tmp_path):
    sent = lte_tools.transmit(CELL)
    assert len(sent.samples) == CELL["samples"]
    (tmp_path / "cell.json").write_text(json.dumps(CELL))
    assert lte_tools.transmit(tmp_path / "cell.json").data == sent.data


def test_survey_from_python(recording):
    found = lte_tools.survey(recording, offset=0, every=0.05, jobs=1)
    assert found.cells[0].identity == 217 and found.to_rows()[0]["tac"] == 1
    from lte_tools import survey as module

    assert module.main and module.parser and lte_tools.survey(recording, offset=0, every=0.05, jobs=1) == found


def test_refusals_from_python(recording, tmp_path):
    with pytest.raises(lte_tools.ProgramRefused) as refused:
        lte_tools.search(b"abc")
    assert refused.value.exit_code == 3 and refused.value.cause.startswith("lte_cli: ragged: ")
    with pytest.raises(lte_tools.ProgramRefused, match="too short"):
        lte_tools.search(bytes(400))
    for bad in (lambda: lte_tools.search(recording, ports=3), lambda: lte_tools.search(bytes(4), rate=1e6)):
        with pytest.raises(lte_tools.Refused):
            bad()
    with pytest.raises(lte_tools.Refused, match="not finite"):
        lte_tools.search(np.array([1 + 1j, np.nan]))
    with pytest.raises(FileNotFoundError):
        lte_tools.search(tmp_path / "none.ci16")
    with pytest.raises(lte_tools.ProgramRefused):
        lte_tools.transmit({"identity": 1})


def test_no_more_processes_than_windows(tool, recording, monkeypatch):
    """The recording has one window of 17 frames, less than that of them: no process is begun for it."""
    monkeypatch.setattr(multiprocessing, "Pool", None)
    assert tool("survey", recording, "--offset", "0", "--jobs", "1000").status == 0
    for count in ("0", "1025", "99999999999", "x"):
        assert is_one_line(tool("survey", recording, "--jobs", count))
