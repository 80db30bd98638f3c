"""The commands of docs/CAMPAIGNS.md, each of which is run, with stand-ins for the programs, the radio's file and Slurm."""
import json
import os
import re
import socket
import subprocess
import sys

import numpy as np
import pytest

from tests.conftest import HERE, TOP, needs

PAGE = TOP / "docs/CAMPAIGNS.md"
OUTPUT = "lte_survey: cells 412 of 3,529 windows"  # begins a block that is an output
SBATCH = r"""#!/bin/bash
last=$(sed -n 's/^#SBATCH --array=1-//p' "$1")
for id in $(seq "$last"); do SLURM_ARRAY_TASK_ID=$id bash "$1" || exit; done
"""
TRACK = "<gpx><trk><trkseg>{}</trkseg></trk></gpx>"
POINT = '<trkpt lat="52.{0:02}" lon="13.{0:02}"><time>2026-05-01T07:30:{0:02}Z</time></trkpt>'


def blocks():
    """Returns the blocks of commands of the page, by their first words."""
    found = re.findall(r"(?:^    .*\n)+", PAGE.read_text(), re.M)
    return [re.sub("^    ", "", one, flags=re.M) for one in found]


@pytest.fixture
def folder(stand_in, tmp_path, monkeypatch):
    """A folder with drive.cu8 of 1.5 s and its track, and commands lte_survey and sbatch."""
    draw = np.random.default_rng(3)
    noise = np.clip(np.round(draw.normal(127.5, 20, round(2 * 2.4e6 * 1.5))), 0, 255)
    (tmp_path / "drive.cu8").write_bytes(noise.astype("u1").tobytes())
    (tmp_path / "drive.gpx").write_text(TRACK.format("".join(map(POINT.format, range(9)))))
    commands = tmp_path / "commands"
    commands.mkdir()
    survey = f'#!/bin/sh\nPYTHONPATH={HERE.parent} exec {sys.executable} -m lte_tools.survey "$@"\n'
    for name, text in {"lte_survey": survey, "sbatch": SBATCH}.items():
        (commands / name).write_text(text)
        (commands / name).chmod(0o755)
    monkeypatch.setenv("PATH", f"{commands}:{os.environ['PATH']}")
    monkeypatch.setenv("PYTHONPATH", str(HERE.parent))
    monkeypatch.chdir(tmp_path)
    return tmp_path


def run(text):
    """Runs commands of the shell; each has to succeed."""
    done = subprocess.run(["bash", "-euc", text], capture_output=True, check=False, text=True, timeout=200)
    assert done.returncode == 0, done.stderr
    return done.stdout


def test_commands_of_the_page(folder):
    """All blocks but those of Dask, in the order of the page."""
    left = []
    for block in blocks():
        if block.startswith("#!"):
            (folder / "drive.sbatch").write_text(block)
        elif block.startswith("lte_survey ") or block.startswith("sbatch ") or block.startswith("for "):
            out = run(block)
            if "--so-far" in block:
                assert "so far: 9 of 9 windows" in out
            if "--carriers" in block:
                assert "2 frequencies from 795.8 to 796.0 MHz" in out
        else:
            left.append(block)
    assert [one.split()[0] for one in left] == ["lte_survey:", "dask-scheduler", ">>>"]
    whole = (folder / "drive.json").read_bytes()
    assert (folder / "joined.json").read_bytes() == whole and (folder / "again.json").read_bytes() == whole
    placed = json.loads((folder / "placed.json").read_text())
    assert placed["unit"] == "dBm" and len(placed["track"]["windows"]) == 9
    assert "<kml" in (folder / "drive.kml").read_text()


def test_python_of_the_page(folder):
    (block,) = [one for one in blocks() if one.startswith(">>>")]
    code = re.sub(r"^(>>>|\.\.\.) ", "", block, flags=re.M)
    more = "\nimport json\nprint(json.dumps(survey.to_json(), sort_keys=True, separators=(',', ':')))\n"
    done = subprocess.run([sys.executable, "-c", code + more], capture_output=True, check=False, text=True)
    assert done.returncode == 0, done.stderr
    assert done.stdout == run("lte_survey drive.cu8 --rate 2.4e6 --carrier 796e6 --json")


@needs("dask-scheduler", "dask-worker", "module:distributed")
def test_dask_of_the_page(folder):
    (block,) = [one for one in blocks() if one.startswith("dask-scheduler")]
    with socket.socket() as free:
        free.bind(("127.0.0.1", 0))
        port = free.getsockname()[1]
    text = block.replace("10.0.0.1", "127.0.0.1").replace("8786", str(port))
    run(f"trap 'kill $(jobs -p); wait' EXIT\n{text}")
    assert (folder / "dask.json").read_text() == run("lte_survey drive.cu8 --rate 2.4e6 --carrier 796e6 --json")
