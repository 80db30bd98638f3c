"""What the tests of lte_tools share: the stored programs, recordings of cells, and tools that are run in this process.

Tests with the marker `program` run the proved programs in place of the stored ones: those that LTE_CLI and LTE_TUNE name,
or those built in crates/. If they do not exist, the tests are skipped.
"""
import importlib.util
import io
import json
import os
import pathlib
import shutil
import subprocess
import sys
from typing import NamedTuple

import numpy as np
import pytest

from lte_reference import cell as reference_cell
from lte_reference import wide_sender
from lte_tools import radio

HERE = pathlib.Path(__file__).resolve().parent
TOP = HERE.parent.parent
EXAMPLES = TOP / "scripts/examples"
RECEIVER = pathlib.Path(os.environ.get("LTE_CLI") or TOP / "crates/lte_cli/out/lte_cli").absolute()
TUNER = pathlib.Path(os.environ.get("LTE_TUNE") or str(RECEIVER).replace("lte_cli", "lte_tune")).absolute()
CELL = {
    "identity": 217,
    "sfn": 100,
    "offset": 5000,
    "samples": 96_000,
    "gain": [20, 0],
    "duration": "normal",
    "resource": "two",
    "spare": 5,
    "cfi": 2,
    "start": 0,
    "blocks": 6,
    "mcs": 4,
    "column": 2,
    "sib1": {
        "plmns": [{"mcc": "001", "mnc": "01", "reserved": False}],
        "tac": 1,
        "cell": 18_905_602,
        "barred": False,
        "intra": True,
        "csg": False,
        "csg_identity": None,
        "q_rx": -70,
        "q_offset": None,
        "p_max": None,
        "band": 1,
        "scheduling": [{"period": 8, "sibs": []}],
        "window": 1,
        "tag": 0,
    },
}
WIDE_RATE = 7_680_000  # samples per second
SECONDS, RATE, WINDOW = 24, 1_200_000, 0.17  # of the long file
FULL = {"u8": (127.5, 127.5, "u1"), "s8": (0, 128, "i1"), "s16": (0, 32_768, "<i2"), "f32": (0, 1, "<f4")}


class Run(NamedTuple):
    """What a tool did."""

    status: int
    out: str
    err: str


def pytest_collection_modifyitems(items):
    """Skips the tests of the proved programs if these do not exist."""
    missing = [str(path) for path in (RECEIVER, TUNER) if not os.access(path, os.X_OK)]
    for item in items:
        if missing and item.get_closest_marker("program"):
            item.add_marker(pytest.mark.skip(reason=f"no program at {' and '.join(missing)}"))


def needs(*names):
    """Skips a test if one of these commands, or of these Python modules (`module:`), is missing."""
    missing = [name for name in names if not is_there(*name.split(":"))]
    return pytest.mark.skipif(bool(missing), reason=f"not installed: {', '.join(missing)}")


def is_there(name, module=None):
    return shutil.which(name) is not None if module is None else importlib.util.find_spec(module) is not None


@pytest.fixture(autouse=True)
def programs(request, tmp_path, monkeypatch):
    """The stored programs, under the names of lte_cli and lte_tune; tests of lte_gate have their own."""
    if request.path.parent == HERE / "gate":
        return None
    if request.node.get_closest_marker("program"):
        monkeypatch.setenv("LTE_CLI", str(RECEIVER))
        monkeypatch.setenv("LTE_TUNE", str(TUNER))
        return None
    folder = tmp_path / "programs"
    folder.mkdir()
    for name in ("lte_cli", "lte_tune"):
        text = f'#!/bin/sh\nexec {sys.executable} {HERE / "stored_program.py"} {name} "$@"\n'
        (folder / name).write_text(text)
        (folder / name).chmod(0o755)
        monkeypatch.setenv(name.upper(), str(folder / name))
    return folder


CERTIFY = """#!/usr/bin/python3
# lte_cli, with certificates of the stored evidence: soft values of 0, whose general table is 0 everywhere
import json, subprocess, struct, sys
words, stored = sys.argv[1:], {stored!r}
if words == ["version"]:
    print("lte_cli stand-in\\ndefinition 2")
elif words[0] != "certify":
    sys.exit(subprocess.run([stored, *words]).returncode)
else:
    rules = {{(): "one-port", ("--ports", "2"): "two-ports", ("--ports", "4"): "four-ports"}}
    name = rules.get(tuple(words[1:]), "long-prefix")
    done = subprocess.run([stored, "evidence", "--all", "--json"], capture_output=True, check=True)
    for line in json.loads(done.stdout):
        if line["rule"] == name:
            word = int(line["mib"], 16) << 16
            sys.stdout.buffer.write(b"LTC2" + bytes(240) + word.to_bytes(5, "big") + bytes(4 + 10_240 + 8))
"""


@pytest.fixture
def certifying(programs, monkeypatch, tmp_path):
    """The stored programs, with certificates."""
    path = tmp_path / "lte_cli_with_certificates"
    path.write_text(CERTIFY.format(stored=str(programs / "lte_cli")))
    path.chmod(0o755)
    monkeypatch.setenv("LTE_CLI", str(path))


@pytest.fixture
def tool(monkeypatch, capfd):
    """Runs a tool of lte_tools in this process."""

    def run(name, *arguments, stdin=b""):
        module = __import__(f"lte_tools.{name}", fromlist=["main"])
        monkeypatch.setattr(sys, "argv", [f"/bin/lte_{name}", *map(str, arguments)])
        monkeypatch.setattr(sys, "stdin", io.TextIOWrapper(io.BytesIO(stdin)))
        capfd.readouterr()
        try:
            module.main()
            status = 0
        except SystemExit as ended:
            status = ended.code or 0
        done = capfd.readouterr()
        return Run(status, done.out, done.err)

    return run


@pytest.fixture
def command():
    """Runs a command on bytes and returns its output; it has to exit with this status."""

    def run(*words, stdin=b"", status=0):
        environment = {**os.environ, "PYTHONPATH": str(HERE.parent)}
        done = subprocess.run(list(map(str, words)), input=stdin, capture_output=True, check=False, env=environment)
        assert done.returncode == status, done.stderr.decode(errors="replace")
        return done.stdout

    return run


def is_one_line(run):
    """Whether a tool refused in one line without a traceback."""
    lines = run.err.strip().splitlines()
    return run.status in (1, 2) and len(lines) == 1 and "Traceback" not in run.err and run.out == ""


@pytest.fixture(scope="session")
def sent():
    """The samples of cell 217, five frames of a recording."""
    return radio.from_bytes(reference_cell.sent(CELL).astype("<i2").tobytes())


@pytest.fixture
def recording(tmp_path, sent):
    """A file of that recording."""
    path = tmp_path / "sent.ci16"
    path.write_bytes(radio.to_bytes(sent))
    return path


def as_radio(x, form, rate, shift=0.0):
    """Returns what a radio of this form and rate would have written of a recording's samples."""
    from math import gcd

    from scipy import signal

    common = gcd(rate, radio.RATE)
    x = signal.resample_poly(x, rate // common, radio.RATE // common)
    x = radio.shifted(x, shift, rate)
    return written(0.9 * x / radio.peak(x), form)


def written(x, form):
    """Returns samples of full scale 1 as bytes of a form."""
    middle, full, kind = FULL[form]
    parts = np.stack([x.real, x.imag], 1) * full + middle
    if form != "f32":
        parts = np.clip(np.round(parts), np.iinfo(kind).min, np.iinfo(kind).max)
    return parts.astype(kind).tobytes()


@pytest.fixture
def drive(tmp_path, sent):
    """A file of bytes at 2.4 million samples per second with the cell 300 kHz above the centre."""
    path = tmp_path / "drive.cu8"
    path.write_bytes(as_radio(sent, "u8", 2_400_000, 300_000))
    return path


@pytest.fixture(scope="session")
def wave():
    """The samples of cell 301 of 5 MHz with two ports at WIDE_RATE: four frames and a half, with the SIB1 of cell 217."""
    plan = wide_sender.Plan(301, 25, 2, reference_cell.text(CELL["sib1"]), cfi=2, start=3, length=8, load=0.3)
    draw = np.random.default_rng(5)
    sent = wide_sender.sent(plan, 100, 5, 2, draw)[:, 38_400:]
    return wide_sender.received(sent, draw, 30) @ (1, 1j)


@pytest.fixture
def wide_file(tmp_path, wave):
    """A file of them."""
    path = tmp_path / "wide.ci16"
    path.write_bytes(radio.to_bytes(wave))
    return path


@pytest.fixture
def survey_json():
    """The survey of scripts/examples."""
    return json.loads((EXAMPLES / "outputs/survey.json").read_text())


@pytest.fixture(scope="session", autouse=True)
def one_thread():
    os.environ.setdefault("OMP_NUM_THREADS", "1")


@pytest.fixture(scope="session")
def stand_ins(tmp_path_factory):
    """The programs of stand_in_programs.py under the names of lte_cli and lte_tune, by the variables that name them."""
    found = {}
    for name in ("lte_cli", "lte_tune"):
        path = tmp_path_factory.mktemp("stand_in") / name
        path.write_text(f'#!/bin/sh\nexec {sys.executable} -E -S {HERE / "stand_in_programs.py"} {name} "$@"\n')
        path.chmod(0o755)
        found[name.upper()] = str(path)
    return found


@pytest.fixture
def stand_in(stand_ins, tmp_path, monkeypatch):
    """Puts these programs in the place of lte_cli and lte_tune; returns the file that counts their answers."""
    for name, path in stand_ins.items():
        monkeypatch.setenv(name, path)
    count = tmp_path / "count"
    monkeypatch.setenv("STAND_IN_COUNT", str(count))
    return count


@pytest.fixture(scope="session")
def long_file(tmp_path_factory):
    """A file of 24 seconds with a noise in each window of a survey with `--every 1`, and nothing between."""
    path, draw = tmp_path_factory.mktemp("long") / "long.cu8", np.random.default_rng(1)
    with path.open("wb") as file:
        for second in range(SECONDS):
            file.seek(2 * RATE * second)
            noise = draw.normal(127.5, 20 + second % 7, round(2 * RATE * WINDOW))
            file.write(np.clip(np.round(noise), 0, 255).astype("u1").tobytes())
        file.truncate(2 * RATE * SECONDS)
    return path
