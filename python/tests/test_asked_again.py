"""A finished survey that is asked again with a track, a time, a gain or a carrier, and a scan of some carriers."""
import csv
import io
import json

import pytest

from tests.conftest import as_radio, is_one_line

WORDS = ("--rate", "1.2e6", "--every", "4", "--offset", "0", "--jobs", "1", "--json")
LATER = ("--start", "2026-05-01T07:30:00.25Z", "--carrier", "796e6")


@pytest.fixture
def track(tmp_path):
    """A track over most of the file's time."""
    path = tmp_path / "way.csv"
    rows = (f"2026-05-01T07:30:{second:02}Z,{52 + second / 1e3},{13 - second / 1e3}" for second in range(2, 23))
    path.write_text("\n".join(["time,lat,lon", *rows, ""]))
    return path


@pytest.mark.parametrize("is_deep", (False, True))
def test_same_bytes_as_at_first(tool, long_file, stand_in, track, tmp_path, is_deep):
    words = (long_file, *WORDS, *(("--deep",) if is_deep else ()))
    plain = tmp_path / "plain.json"
    run = tool("survey", *words)
    assert run.status == 0, run.err
    plain.write_text(run.out)
    for more in (LATER[2:], LATER[:2], (*LATER, "--track", track), ("--gain", "-20"), (*LATER, "--gain", "-20.5")):
        first, again = tool("survey", *words, *more), tool("survey", plain, *more, "--json")
        assert first.status == again.status == 0, again.err
        assert again.out == first.out, more
    stored = tmp_path / "placed.json"
    stored.write_text(tool("survey", plain, *LATER, "--track", track, "--json").out)
    geojson = tmp_path / "x.geojson"
    assert tool("survey", plain, *LATER, "--track", track, "--geojson", geojson).status == 0
    assert any(one["geometry"] for one in json.loads(geojson.read_text())["features"])
    assert json.loads(stored.read_text())["track"]["windows"][0][0] == 4
    dbm = tmp_path / "dbm.json"
    dbm.write_text(tool("survey", plain, "--gain", "-20", "--json").out)
    again = json.loads(tool("survey", dbm, "--gain", "-10", "--json").out)
    assert again == json.loads(tool("survey", plain, "--gain", "-10", "--json").out)


def test_gain_by_time(tool, long_file, stand_in, tmp_path):
    plain, gain = tmp_path / "plain.json", ("--gain", "0:-20,8.05:-14")
    plain.write_text(tool("survey", long_file, *WORDS).out)
    first, again = (
        json.loads(tool("survey", *words, *gain, "--json").out) for words in ((long_file, *WORDS), (plain,))
    )
    assert first == again
    levels = {one["seconds"]: one["level"] for one in again["cells"][0]["seen"]}
    assert any(level is None for second, level in levels.items() if 8 <= second < 8.2)


def test_refused(tool, long_file, stand_in, track, tmp_path):
    plain = tmp_path / "plain.json"
    plain.write_text(tool("survey", long_file, *WORDS, "--carrier", "796e6").out)
    assert "no time in it" in tool("survey", plain, "--track", track).err
    assert "its carrier is 796,000,000 Hz" in tool("survey", plain, "--carrier", "797e6").err
    assert tool("survey", plain, "--carrier", "796e6").status == 0
    for words in (("--track", track), ("--carrier", "797e6"), ("--until", "3"), ("--part", "1/2"), ("--carriers", "1")):
        assert is_one_line(tool("survey", plain, *words))


def test_carriers(tool, sent, tmp_path):
    """A scan of one carrier has the cell that a scan of the raster has, and asks about nothing else."""
    (tmp_path / "wide.cu8").write_bytes(as_radio(sent, "u8", 1_920_000, 202_050))
    words = (tmp_path / "wide.cu8", "--carrier", "2140e6", "--offset", "2050", "--jobs", "1", "--csv")
    for carriers, count in (("302", 1), ("2140.2e6", 1), ("302,300,2140.2e6", 2)):
        run = tool("survey", *words, "--carriers", carriers)
        (found,) = csv.DictReader(io.StringIO(run.out))
        assert (found["identity"], found["frequency"], found["earfcn"].split()[0]) == ("217", "2140200000", "302")
        scan = json.loads(tool("survey", *words[:-1], "--carriers", carriers, "--json").out)["scan"]
        assert (scan["count"], scan["last"]) == (count, 2_140_200_000)
    for carriers in ("x", "1.5", "-1", "30000", "2150e6", "302,"):
        assert is_one_line(tool("survey", *words[:-1], "--carriers", carriers)), carriers
    assert is_one_line(tool("survey", *words, "--carriers", "302", "--scan"))
    assert is_one_line(tool("survey", *words, "--carriers", "302", "--deep"))
    assert "centre is not known" in tool("survey", *words[:1], *words[3:], "--carriers", "302").err


def test_scan_is_kept(tool, sent, tmp_path):
    """A scan goes on by its journal, which the number of processes does not change."""
    data = as_radio(sent, "u8", 1_920_000, 202_050)
    (tmp_path / "wide.cu8").write_bytes(data)
    kept = tmp_path / "kept.jsonl"
    words = (tmp_path / "wide.cu8", "--scan", "--offset", "2050", "--json")
    first = tool("survey", *words, "--jobs", "1").out
    assert tool("survey", *words, "--jobs", "2", "--resume", kept).out == first
    size = kept.stat().st_size
    assert tool("survey", *words, "--jobs", "1", "--resume", kept).out == first and kept.stat().st_size == size
    assert json.loads(tool("survey", *words, "--resume", kept, "--so-far").out)["hint"] == "so far: 1 of 1 windows"
