"""Standard input with places, gpsd's lines, and radios that begin again."""
import json
import os
import subprocess
import threading
import time

import pytest

from lte_tools import gpsd, live, machine, options, stream, track
from lte_tools.radio_file import RadioFile

POINT = {"class": "TPV", "mode": 3, "time": "2026-05-01T07:30:00.000Z", "lat": 52.0, "lon": 13.0}


def lines(*points):
    return "".join(json.dumps(point) + "\n" for point in points)


def test_places_of_gpsd(tmp_path):
    later = {**POINT, "time": "2026-05-01T07:30:01.000Z", "lat": 52.5}
    others = [{"class": "VERSION"}, {"class": "TPV", "mode": 1}, {"class": "TPV", "mode": 2, "lat": 1}]
    (tmp_path / "a.json").write_text(lines(others[0], POINT, *others, POINT, later) + 'noise\n{"class": "TP')
    found = track.read(tmp_path / "a.json")
    assert [place.lat for place in found.places] == [52.0, 52.5] and found.wrong == 2
    assert gpsd.read(tmp_path / "a.json") == found


REFUSED = {
    "no place": (lines({"class": "SKY"}), "no place with a time"),
    "not JSON": ("a\nb\n", "2 lines are not JSON"),
    "braces": ("{a}\n", "'{a}' is not an object of JSON"),
    "earth": (lines({**POINT, "lat": 91}), "no place on earth"),
    "text": (lines({**POINT, "lon": "x"}), "is not a place"),
    "zone": (lines({**POINT, "time": "2026-05-01T07:30:00"}), "has no zone"),
    "list": (lines({**POINT, "time": [1]}), "is not a time"),
}


@pytest.mark.parametrize("name", REFUSED)
def test_gpsd_that_is_refused(tmp_path, name):
    text, wanted = REFUSED[name]
    (tmp_path / "a.json").write_text(text)
    with pytest.raises(machine.Refused, match="^[^\n]*$") as refused:
        gpsd.read(tmp_path / "a.json")
    assert wanted in str(refused.value) and "a.json" in str(refused.value)


def write_places(path, *times):
    with path.open("w") as file:
        file.write(lines(*({**POINT, "time": track.iso(one)} for one in times)))


def wait_for(receiver, count):
    """Waits until a receiver has so many places, some seconds at most."""
    end = time.monotonic() + 20
    while len(receiver.places) < count and time.monotonic() < end:
        time.sleep(0.01)


def test_gpsd_that_begins_again(tmp_path):
    """A named pipe gets a second writer, as when gpspipe is started again."""
    path = tmp_path / "gps"
    os.mkfifo(path)
    receiver, now = gpsd.Receiver(path), time.time()
    for i in range(2):
        write_places(path, now + i, now + i + 0.5)
        wait_for(receiver, 2 * i + 2)
    assert len(receiver.track().places) == 4


def test_gpsd_on_a_pipe(tmp_path, monkeypatch):
    """Places keep the time of GPS, unless this machine's clock is another one."""
    notes = []
    monkeypatch.setattr(gpsd, "note", notes.append)
    for late in (0.5, 3_600):
        path = tmp_path / f"gps{late}"
        os.mkfifo(path)
        receiver = gpsd.Receiver(path)
        now = time.time() - late
        write_places(path, *(now + i / 100 for i in range(3)))
        wait_for(receiver, 3)
        found = receiver.track()
        assert len(found.places) == 3 and abs(found.first - (now if late < 2 else time.time())) < 2
    assert len(notes) == 1 and "3,600.0 s ahead of GPS" in notes[0]
    with pytest.raises(machine.Refused, match="not a named pipe"):
        gpsd.Receiver(tmp_path / "none")


def test_radio_that_begins_again(tmp_path, monkeypatch):
    """A named pipe gets a second writer: a cut sample is filled, and the pause is known."""
    monkeypatch.setattr(stream, "PAUSE", 0.05)
    path = tmp_path / "radio"
    os.mkfifo(path)
    source = os.open(path, os.O_RDONLY | os.O_NONBLOCK)
    os.set_blocking(source, True)
    ring = stream.Ring(100, False, True)
    writer = path.open("wb", buffering=0)
    stream.reading(source, ring, stream.Shape(2, 0, 4, 4, 1))
    writer.write(b"abcdefghijk")  # one byte less than six samples
    time.sleep(0.3)
    writer.close()
    time.sleep(0.3)
    with path.open("wb", buffering=0) as again:
        again.write(b"ABCDEFGHIJKLMN")
        time.sleep(0.5)
        ring.end()
    found = b"".join(window.data for window in ring.windows)
    assert found[:24] == b"abcdefghijk\0ABCDEFGHIJKL"
    (pause,) = [one for one in ring.pauses if one.place == 12]
    assert 0.2 < pause.seconds < 5
    file = RadioFile(path, "u8", 1_920_000, 0, 0, 0)
    being = live.Live(options.SurveyOptions(path), file, ring)
    first, second = live.begun(being, 13).stretches[-2:]
    assert (second.first, second.end) == (6, 13) and first.datetime < second.datetime
    os.close(source)


def test_places_of_a_pipe(tool, sent, tmp_path, monkeypatch):
    from tests.conftest import as_radio

    way, geojson = tmp_path / "way.csv", tmp_path / "cells.geojson"
    way.write_text("time,lat,lon\n2026-05-01T07:30:00Z,52,13\n2026-05-01T07:30:10Z,51,14\n")
    words = ["-", "--form", "u8", "--offset", "0", "--jobs", "1", "--json", "--track", way]

    (tmp_path / "samples").write_bytes(as_radio(sent, "u8", 1_920_000))

    def run(*more):
        with subprocess.Popen(["cat", tmp_path / "samples"], stdout=subprocess.PIPE) as writer:
            monkeypatch.setattr(live, "STDIN", writer.stdout.fileno())
            return tool("survey", *words, *more)

    start = ("--wait", "--start", "2026-05-01T09:30:01+02:00", "--geojson", geojson)
    done = run(*start)
    assert done.status == 0, done.err
    found = json.loads(done.out)
    assert found["cells"][0]["seen"][0]["place"] == pytest.approx([13.1007, 51.8993], abs=1e-3)
    assert len(json.loads(geojson.read_text())["features"]) == 2
    late = run("--geojson", geojson, "--kml", tmp_path / "cells.kml")
    assert "no places" in late.err and "no place for any of it" in late.err and json.loads(late.out)["cells"]
    assert [one["geometry"] for one in json.loads(geojson.read_text())["features"]] == [None]
    with pytest.raises(machine.Refused, match="with --wait"):
        options.checked_survey(options.SurveyOptions(options.pathlib.Path("-"), wait=True, track=way))
    with pytest.raises(machine.Refused, match="--track and --gpsd"):
        options.checked_survey(options.SurveyOptions(options.pathlib.Path("-"), gpsd=way, track=way))


def test_pipe_with_places_of_gpsd_to_its_end(tool, sent, tmp_path, monkeypatch):
    """A receiver writes places into a named pipe while samples come; at the end each window has its place."""
    from tests.conftest import as_radio

    gps, geojson, samples = tmp_path / "gps", tmp_path / "cells.geojson", tmp_path / "samples"
    os.mkfifo(gps)
    samples.write_bytes(as_radio(sent, "u8", 1_920_000))

    def drive_north():
        now = time.time()
        points = ({**POINT, "time": track.iso(now + i), "lat": 52 + 0.001 * i} for i in range(-1, 10))
        with gps.open("w") as file:  # waits until the survey reads
            file.write(lines({"class": "VERSION"}, *points))

    receiver = threading.Thread(target=drive_north)
    receiver.start()
    with subprocess.Popen(f"sleep 1; cat {samples}", shell=True, stdout=subprocess.PIPE) as writer:
        monkeypatch.setattr(live, "STDIN", writer.stdout.fileno())
        words = ("-", "--form", "u8", "--offset", "0", "--jobs", "1", "--json", "--gpsd", gps, "--geojson", geojson)
        run = tool("survey", *words)
    receiver.join()
    assert run.status == 0 and "no places" not in run.err, run.err
    found = json.loads(run.out)
    lon, lat = found["cells"][0]["seen"][0]["place"]
    assert lon == 13 and 52.0005 < lat < 52.009 and found["track"]["places"] == 11
    kinds = [one["properties"]["kind"] for one in json.loads(geojson.read_text())["features"]]
    assert kinds == ["cell", "window"]
