#!/usr/bin/python3
"""drive.py FOLDER

Tries what a planner does after a drive. Writes into a folder what a radio would have of a minute's way round three cells,
drive.cu8 (bytes at 2.4 million samples per second), with drive.gpx, the track of it: PCI 217, 150 (two antenna ports) and
88 stand beside the way and are heard by their distance, with noise, 25 kHz off and drifting. `survey.py` makes of it a
table, a page with a map, and points for QGIS; where a cell is well heard, and at least 3 dB above the others, it has to be
the strongest on the map, at the place where it was. Prints a line for what is not so, and a count; the status is 0 where all is.

Debian: python3-numpy, python3-scipy, python3-matplotlib. Needs lte_cli and lte_tune.
"""
import datetime
import json
import math
import pathlib
import subprocess
import sys

import numpy as np

import packages

packages.add()
from lte_tools import ground
from lte_tools import machine
from lte_tools import picture_map
from lte_tools import radio
from lte_tools.survey_data import Survey
from long_file import CYCLE, DRIFT, ELEMENT, OFF, RATE, RATIO, at_rate

BEGIN = datetime.datetime(2026, 5, 1, 7, 30, tzinfo=datetime.timezone.utc)
LENGTH = 60  # seconds
MIDDLE = (13.4000, 52.5200)  # longitude and latitude
WIDE, TALL = 420, 260  # metres of the way round
SITES = {217: (-150, 170), 150: (190, -160), 88: (-260, -100)}  # metres east and north
NEAR, LOSS = 60, 35  # metres at which a cell is as strong as it gets; dB by ten times the distance
LEADS, HEARD = 3, -14  # dB by which a cell is above the others, and at most below its strongest
FRAMES, GAIN = 100, 16  # that are made at once, and how great
EARTH = ground.Ground(*MIDDLE)


def where(second):
    """Metres east and north of the middle: round an oval, once."""
    turn = 2 * math.pi * second / (LENGTH + 6)
    return WIDE / 2 * math.cos(turn), TALL / 2 * math.sin(turn)


def degrees(east, north):
    return EARTH.place(east, north)


def decibels(identity, second):
    """How much weaker a cell is than near it."""
    return -LOSS * math.log10(max(NEAR, math.dist(where(second), SITES[identity])) / NEAR)


def cell_of(name, **keys):
    """Returns a described cell (scripts/examples) with other values of keys; values of `sib1` are merged."""
    cell = json.loads((packages.TOP / f"scripts/examples/{name}.json").read_text())
    return {**cell, **keys, "sib1": {**cell["sib1"], **keys.get("sib1", {})}}


def wave(cell, later=0, *words):
    """Returns all frames of a cell in the order of their numbers, at a gain of 1, delayed by this number of samples."""
    command, parts = [machine.program("lte_cli"), "transmit", *words], []
    for first in range(0, CYCLE, FRAMES):
        samples = min(FRAMES, CYCLE - first) * radio.FRAME
        plan = {**cell, "gain": [GAIN, 0], "sfn": first, "offset": 0, "samples": samples}
        made = subprocess.run(command, input=json.dumps(plan).encode(), stdout=subprocess.PIPE, check=True)
        parts.append(radio.from_bytes(made.stdout))
    return at_rate(np.roll(np.concatenate(parts) / GAIN, later))


def waves():
    sib1 = {"tac": 48221, "cell": 18905603}
    return {
        217: wave(cell_of("usual_cell")),
        150: wave(cell_of("weaker_cell", gain2=[8, -8]), 7_000, "--ports", "2"),
        88: wave(cell_of("usual_cell", identity=88, sib1=sib1), 13_000),
    }


def second_of(number, made, draw):
    """The bytes of a second."""
    n = np.arange(RATE) + number * RATE
    time, ticks = n / RATE, number + np.arange(11) / 10
    noise = ELEMENT * np.sqrt(128 * RATE / radio.RATE / 2) / 10 ** (RATIO / 20)
    x = np.float32(noise) * draw.standard_normal((RATE, 2), np.float32).view(np.complex64)[:, 0]
    for identity, its in made.items():
        gain = np.interp(time, ticks, [10 ** (decibels(identity, tick) / 20) for tick in ticks])
        x += gain.astype(np.float32) * its[n % len(its)]
    turns = (OFF + DRIFT / 2 * time) * time % 1
    x *= np.exp(2j * np.pi * turns.astype(np.float32))
    parts = np.float32(0.2) * x.view(np.float32) + np.float32(127.5)
    return np.clip(np.round(parts), 0, 255).astype("u1").tobytes()


def gpx():
    points = []
    for second in range(-1, LENGTH + 2):
        lon, lat = degrees(*where(second))
        time = (BEGIN + datetime.timedelta(seconds=second)).strftime("%Y-%m-%dT%H:%M:%SZ")
        points.append(f'<trkpt lat="{lat:.7f}" lon="{lon:.7f}"><time>{time}</time></trkpt>')
    space = 'version="1.1" creator="drive.py" xmlns="http://www.topografix.com/GPX/1/1"'
    return f'<?xml version="1.0"?>\n<gpx {space}><trk><trkseg>\n' + "\n".join(points) + "\n</trkseg></trk></gpx>\n"


def write(room):
    made, draw = waves(), np.random.default_rng(1)
    with (room / "drive.cu8").open("wb") as file:
        for number in range(LENGTH):
            file.write(second_of(number, made, draw))
    (room / "drive.gpx").write_text(gpx())


def surveyed(room):
    """The survey of the drive, which leaves its page, points and table there."""
    words = [
        "drive.cu8",
        "--rate",
        str(RATE),
        "--carrier",
        "796e6",
        "--track",
        "drive.gpx",
        "--start",
        BEGIN.isoformat(),
    ]
    made = ["--html", "drive.html", "--geojson", "drive.geojson", "--json"]
    with (room / "drive.json").open("wb") as out:
        subprocess.run([*packages.tool("survey"), *words, *made], cwd=room, stdout=out, check=True)
    return json.loads((room / "drive.json").read_text())


def faults(found, points):
    """Yields the differences between the survey with its points and the sent cells."""
    sure = sorted(cell["identity"] for cell in found["cells"] if not cell["chance"])
    if sure != sorted(SITES):
        yield f"cells {sure}"
    best, leads = picture_map.strongest_of(Survey.from_json(found)), 0
    for i, (second, lon, lat) in enumerate(found["track"]["windows"]):
        first, other = sorted(((decibels(identity, second), identity) for identity in SITES), reverse=True)[:2]
        strongest = found["cells"][best[i][0]]["identity"] if i in best else None
        if first[0] >= HEARD and first[0] - other[0] >= LEADS:
            leads += 1
            if strongest != first[1]:
                yield f"second {second:.2f}: PCI {strongest} is the strongest, and not {first[1]}"
        if (apart := math.dist(EARTH.metres(lon, lat), where(second))) > 1:
            yield f"second {second:.2f}: {apart:.1f} m from where it was"
    if not 100 < leads < found["windows"]:
        yield f"{leads} of {found['windows']} windows with a cell that leads"
    seen = sum(len(cell["seen"]) for cell in found["cells"])
    features = [one for one in points["features"] if one["properties"]["kind"] != "hole"]
    if len(features) != seen + len(found["cells"]):
        yield f"{len(features)} points of {seen} sightings"


def main(folder):
    room = pathlib.Path(folder)
    room.mkdir(exist_ok=True)
    write(room)
    found = list(faults(surveyed(room), json.loads((room / "drive.geojson").read_text())))
    print(*found, f"drive: {len(found)} faults", sep="\n")
    sys.exit(bool(found))


if __name__ == "__main__":
    if len(sys.argv) != 2:
        sys.exit(__doc__)
    machine.run(lambda: main(sys.argv[1]))
