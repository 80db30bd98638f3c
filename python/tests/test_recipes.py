"""The recipes of docs/RECORDINGS.md with the proved programs, on files as a radio would have written them."""
import json
import os
import re
import signal
import subprocess
import sys
import time

import pytest

from lte_tools import radio
from tests.conftest import CELL, RECEIVER, TOP, TUNER, as_radio, needs

pytestmark = pytest.mark.program
TOOLS = TOP / "scripts/tools"
LINE = "sfn 101 ports 1 n6 phich normal two br 0 spare 5"
AT, NEAR = 14_200, 12  # the sample at which the first frame of the list begins, and by how many a filter may move it
FORMS = (("u8", 1_920_000), ("u8", 2_048_000), ("s8", 15_360_000), ("s16", 30_720_000), ("f32", 10_000_000))
WINDOWS = f"100000 cell 217 at 14200 {LINE}\n150000 cell 217 at 2600 {LINE.replace('101', '103')}\n"


@pytest.fixture
def search(command):
    """Returns the lines of the sent cell in the list of a recording."""

    def run(data):
        lines = command(RECEIVER, "search", stdin=data).decode().splitlines()
        return [line for line in lines if line.startswith("cell 217 ")]

    return run


@pytest.fixture(scope="module")
def samples():
    """The bytes of the sent cell, a tenth of a second."""
    return transmitted(CELL | {"samples": 192_000})


def transmitted(cell):
    """Returns the samples of a description, an object or its bytes."""
    data = cell if isinstance(cell, bytes) else json.dumps(cell).encode()
    return subprocess.run([RECEIVER, "transmit"], input=data, capture_output=True, check=True).stdout


def is_sent(lines):
    """Whether this is the one line of the sent cell, near its position."""
    (line,) = lines
    found = re.fullmatch(f"cell 217 at (\\d+) {LINE}", line)
    return found and abs(int(found[1]) - AT) <= NEAR


def by_radio(samples, *words):
    return as_radio(radio.from_bytes(samples), *words)


def test_recording_as_it_is(search, samples):
    assert is_sent(search(samples))


@needs("jq")
def test_sigmf_that_is_a_recording(command, tmp_path, samples):
    found = {"core:datatype": "ci16_le", "core:sample_rate": 1_920_000}
    (tmp_path / "a.sigmf-meta").write_text(json.dumps({"global": found, "captures": [{}]}))
    (tmp_path / "a.sigmf-data").write_bytes(samples)
    assert command(TOOLS / "from_sigmf.sh", tmp_path / "a.sigmf-meta") == samples


@needs("jq")
def test_sigmf_beside_the_centre(command, search, tmp_path, samples):
    found = {"core:datatype": "cf32_le", "core:sample_rate": 2.4e6}
    (tmp_path / "b.sigmf-meta").write_text(json.dumps({"global": found, "captures": [{"core:frequency": 796e6}]}))
    (tmp_path / "b.sigmf-data").write_bytes(by_radio(samples, "f32", 2_400_000, 300_000))
    assert is_sent(search(command(TOOLS / "from_sigmf.sh", tmp_path / "b.sigmf-meta", "796.3e6")))


@pytest.mark.parametrize("form, rate", FORMS)
def test_converted(command, search, samples, form, rate):
    data = by_radio(samples, form, rate)
    assert is_sent(search(command(sys.executable, "-m", "lte_tools.to_ci16", form, rate, stdin=data)))


@needs("sox")
@pytest.mark.parametrize("form, rate", FORMS)
def test_converted_by_sox(command, search, samples, form, rate):
    front = ["sox", "-D", "-t", form, *["-L"] * (form == "s16"), "-c", 2, "-r", rate, "-", "-t", "s16", "-L", "-"]
    back = ["rate", 1_920_000, "sinc", "-600k", "norm", -6, "trim", 0, 1]
    assert is_sent(search(command(*front, *back, stdin=by_radio(samples, form, rate))))


@needs("module:gnuradio")
def test_converted_by_gnu_radio(command, search, tmp_path, samples):
    (tmp_path / "radio").write_bytes(by_radio(samples, "f32", 2_000_000, 100_000))
    words = [tmp_path / "radio", 2_000_000, 100_000, tmp_path / "made"]
    command(sys.executable, "-m", "lte_tools.gr_to_ci16", *words)
    assert is_sent(search((tmp_path / "made").read_bytes()))


def test_frequency_offset(command, search, samples):
    data = by_radio(samples, "s16", 1_920_000, 21_500)
    assert search(data) == []
    assert is_sent(search(command(TUNER, "apply", stdin=data)))
    turn = next(line.split()[1] for line in command(TUNER, "tell", stdin=data).decode().splitlines() if "turn" in line)
    assert 182 < int(turn) < 185


def test_windows_of_a_longer_file(command, tmp_path, samples):
    (tmp_path / "long").write_bytes(bytes(400_000) + samples)
    found = command(TOOLS / "windows.sh", RECEIVER, tmp_path / "long", 96_000, 50_000)
    assert found.decode() == WINDOWS


def test_noise_that_is_added(command, search, samples):
    assert is_sent(search(command(sys.executable, "-m", "lte_tools.add_noise", 20, stdin=samples)))


# ---- the survey


@pytest.fixture
def surveyed(command):
    """Runs lte_survey as a command of its own."""

    def run(*words, stdin=b""):
        return command(sys.executable, "-m", "lte_tools.survey", *words, stdin=stdin).decode()

    return run


@pytest.fixture
def byte_file(tmp_path, samples):
    """A file of bytes at 2.4 million samples per second, with an offset of 21.5 kHz."""
    path = tmp_path / "drive.cu8"
    path.write_bytes(by_radio(samples, "u8", 2_400_000, 21_500))
    return path


def rows_of(table):
    head, *rows = (line.split(",") for line in table.splitlines())
    return [dict(zip(head, row)) for row in rows]


def test_survey_of_bytes(surveyed, byte_file):
    (row,) = rows_of(surveyed(byte_file, "--rate", "2.4e6", "--every", "0.03", "--csv"))
    assert [row[key] for key in ("identity", "windows", "of", "plmn", "tac", "chance")] == [
        "217",
        "3",
        "3",
        "001-01",
        "1",
        "no",
    ]
    assert abs(float(row["offset"]) - 21_500) < 60


def test_scan_finds_the_carrier(surveyed, tmp_path, samples):
    (tmp_path / "wide.cu8").write_bytes(by_radio(samples, "u8", 2_400_000, 302_050))
    words = [tmp_path / "wide.cu8", "--rate", "2.4e6"]
    row = next(
        row for row in rows_of(surveyed(*words, "--carrier", "2140e6", "--scan", "--csv")) if row["identity"] == "217"
    )
    assert row["frequency"].startswith("2140300000") and "303" in row["earfcn"].split()
    assert abs(float(row["offset"]) - 2_050) < 60
    assert rows_of(surveyed(*words, "--shift", "0", "--earfcn", "303", "--csv")) == []


def test_pipe_is_reported_as_it_comes(surveyed, byte_file):
    words = ["-", "--form", "u8", "--rate", "2.4e6", "--every", "0.03", "--wait", "--follow"]
    lines = surveyed(*words, stdin=byte_file.read_bytes()).splitlines()
    assert sum("PCI 217 " in line and "001-01 TAC 1" in line and "behind" in line for line in lines) == 3
    assert [line.split()[4] for line in lines if line.startswith("217 ")] == ["3/3"]


def test_signal_ends_a_pipe(byte_file, tmp_path):
    """What was detected up to a signal is printed, with status 0."""
    words = [sys.executable, "-m", "lte_tools.survey", "-", "--form", "u8", "--rate", "2.4e6", "--follow"]
    environment = {**os.environ, "PYTHONPATH": str(TOP / "python")}
    with (tmp_path / "out").open("wb") as out:
        running = subprocess.Popen(words, stdin=subprocess.PIPE, stdout=out, stderr=out, env=environment)
    running.stdin.write(2 * byte_file.read_bytes())
    running.stdin.flush()
    end = time.monotonic() + 60
    while "behind" not in (tmp_path / "out").read_text() and time.monotonic() < end:
        time.sleep(0.05)
    running.send_signal(signal.SIGINT)
    assert running.wait(60) == 0
    running.stdin.close()
    rows = [line.split() for line in (tmp_path / "out").read_text().splitlines() if line.startswith("217 ")]
    assert [row[4] for row in rows] == ["1/1"]


WALK = ("--offset", "0", "--every", "0.03", "--start", "2026-05-01T09:29:59.95+02:00")


@pytest.fixture
def walk(tmp_path, samples):
    """A recording, and a track whose places begin within it."""
    (tmp_path / "sent.ci16").write_bytes(samples)
    way = "time,lat,lon\n2026-05-01T07:30:00Z,52,13\n2026-05-01T07:30:10Z,51,14\n"
    (tmp_path / "way.csv").write_text(way)
    return [tmp_path / "sent.ci16", *WALK, "--track", tmp_path / "way.csv"]


def test_places(surveyed, walk, tmp_path):
    surveyed(*walk, "--geojson", tmp_path / "cells.geojson")
    features = json.loads((tmp_path / "cells.geojson").read_text())["features"]
    found = [(one["properties"]["kind"], one["properties"]["plmn"]) for one in features]
    assert found == [("cell", "001-01"), ("window", "001-01")]
    for one in features:
        assert one["geometry"]["coordinates"] == pytest.approx([13.002, 51.998], abs=1e-3)


@needs("module:qgis")
def test_qgis_opens_the_places(surveyed, walk, tmp_path, command):
    surveyed(*walk, "--geojson", tmp_path / "cells.geojson")
    text = """import os, sys
from qgis.core import QgsApplication, QgsVectorLayer
application = QgsApplication([], False)
application.initQgis()
layer = QgsVectorLayer(sys.argv[1], "cells", "ogr")
kinds = {field.name(): field.typeName() for field in layer.fields()}
print(layer.isValid(), layer.featureCount(), layer.crs().authid(), kinds["level"], kinds["time"], flush=True)
os._exit(0)"""
    words = ["env", "QT_QPA_PLATFORM=offscreen", sys.executable, "-c", text, tmp_path / "cells.geojson"]
    assert command(*words).decode().strip() == "True 2 EPSG:4326 Real DateTime"


def test_page_with_a_map_and_pictures(surveyed, walk, tmp_path, command):
    table = surveyed(*walk, "--html", tmp_path / "walk.html", "--json")
    (tmp_path / "walk.json").write_text(table)
    text = (tmp_path / "walk.html").read_text()
    assert re.findall('<h2>[^<]*|title="eNodeB [^"]*', text) == [
        'title="eNodeB 73850, its cell 2',
        "<h2>Map",
        "<h2>Over time",
    ]
    draw = [sys.executable, "-m", "lte_tools.picture", tmp_path / "walk.json", "-o"]
    command(*draw, tmp_path / "same.html")
    assert (tmp_path / "same.html").read_text() == text
    command(*draw, tmp_path / "map.svg")
    command(*draw, tmp_path / "time.svg", "--time")
    assert (tmp_path / "map.svg").read_bytes() != (tmp_path / "time.svg").read_bytes()


@needs("chromium")
def test_browser_sorts_the_page(surveyed, walk, tmp_path, command):
    surveyed(*walk, "--html", tmp_path / "walk.html")
    click = '<script>document.querySelector("#cells button").click()</script></body>'
    (tmp_path / "click.html").write_text((tmp_path / "walk.html").read_text().replace("</body>", click))
    words = ["chromium", "--headless", "--no-sandbox", "--disable-gpu", "--dump-dom", tmp_path / "click.html"]
    assert re.search('aria-sort="ascending"[^>]*><button>PCI<', command(*words).decode())


def test_many_files(tmp_path, samples):
    (tmp_path / "a b.ci16").write_bytes(samples)
    (tmp_path / "empty.cu8").write_bytes(b"")
    words = [TOOLS / "many.sh", "a b.ci16", "empty.cu8"]
    done = subprocess.run(words, cwd=tmp_path, capture_output=True, text=True, check=False)
    assert [row.split(",")[:2] for row in done.stdout.splitlines()] == [["file", "identity"], ["a b.ci16", "217"]]
    assert done.returncode == 1 and "empty.cu8: empty" in done.stderr


# ---- certificates


def test_certificates_by_both_checkers(command, samples):
    data = bytearray(command(RECEIVER, "certify", stdin=samples))
    checkers = [RECEIVER, "check"], [sys.executable, "-m", "lte_tools.check_certificate"]
    for byte, answer in ((None, "yes"), (244, "no")):
        if byte:
            data[byte] = 0xFF  # of the codeword
        for words in checkers:
            assert command(*words, stdin=bytes(data)).decode() == f"certificates 1\n0 {answer}\n"
