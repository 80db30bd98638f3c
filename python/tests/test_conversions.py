"""Recordings made of radios' files, noise, sums, a checker of certificates, output files, and pictures of recordings."""
import json
import os
import resource
import shutil
import signal
import stat
import struct
import subprocess
import sys
import threading

import numpy as np
import pytest
from scipy.signal import resample_poly

import lte_tools
from lte_tools import check_certificate, levels, live, machine, picture_style, radio, stream, to_ci16
from tests.conftest import EXAMPLES, TOP, as_radio, is_one_line

SHIPPED = TOP / "crates/capture_example/stdin"


@pytest.fixture
def binary(monkeypatch, tmp_path):
    """Runs a tool in this process whose output is bytes."""
    import io

    def run(name, *arguments, stdin=b""):
        module = __import__(f"lte_tools.{name}", fromlist=["main"])
        out = io.TextIOWrapper(io.BytesIO())
        monkeypatch.setattr(sys, "argv", [name, *map(str, arguments)])
        monkeypatch.setattr(sys, "stdin", io.TextIOWrapper(io.BytesIO(stdin)))
        monkeypatch.setattr(sys, "stdout", out)
        module.main()
        out.flush()
        return out.buffer.getvalue()

    return run


@pytest.mark.parametrize("form, rate", [("u8", 1_920_000), ("u8", 2_048_000), ("s8", 15_360_000), ("f32", 10_000_000)])
def test_recording_of_a_radios_file(binary, sent, form, rate):
    data = binary("to_ci16", form, rate, -80e3, stdin=as_radio(sent, form, rate, -80e3))
    x = radio.from_bytes(data)
    assert abs(len(x) - len(sent)) <= 2 and radio.peak(x) == pytest.approx(radio.FULL / 2, abs=1)
    part = slice(20_000, 80_000)
    product = abs(np.vdot(x[part], sent[part])) / np.linalg.norm(x[part]) / np.linalg.norm(sent[part])
    assert product > 0.99


def test_recording_from_a_second_on(binary, sent):
    whole = as_radio(sent, "s16", 1_920_000)
    later = binary("to_ci16", "s16", 1_920_000, 0, 0.01, stdin=whole)
    assert len(later) == len(whole) - 4 * 19_200


@pytest.mark.parametrize(
    "words, stdin",
    [
        (["u8", "abc"], b""),
        (["u8", "0"], b""),
        (["u8", "1e300"], b""),
        (["u9", "1e6"], b""),
        (["u8"], b""),
        (["u8", "1e6", "0", "-1"], b""),
        (["u8", "1e6", "0", "1e300"], b""),
        (["u8", "2.4e6"], b""),
        (["u8", "0.0001"], bytes(1_000)),
        (["f32", "2.4e6"], b"\xff" * 8_000),
    ],
)
def test_conversions_that_are_refused(tool, words, stdin):
    assert is_one_line(tool("to_ci16", *words, stdin=stdin))


@pytest.mark.parametrize("word", ["x", "nan", "inf", "1e300"])
def test_words_that_are_no_numbers(tool, word):
    assert f"{word}' is not a number" in (err := tool("to_ci16", "u8", word).err) or f"{word} is not a number" in err


def test_ratio_of_rates():
    assert to_ci16.ratio_of(2_400_000) == to_ci16.Fraction(5, 4)
    assert float(to_ci16.ratio_of(2_400_001)) == pytest.approx(2_400_001 / 1.92e6, rel=1e-6)


@pytest.mark.parametrize("rate", (2_400_000, 1_920_000, 960_000, 20_000_000))
def test_components_are_resampled_by_themselves(rate):
    draw, ratio = np.random.default_rng(3), to_ci16.ratio_of(rate)
    x = draw.standard_normal((10_001, 2)) @ (1, 1j)
    assert np.array_equal(to_ci16.resampled(x, ratio), resample_poly(x, ratio.denominator, ratio.numerator))


def test_noise(binary, recording):
    data = binary("add_noise", 20, stdin=recording.read_bytes())
    assert data == binary("add_noise", 20, 1, stdin=recording.read_bytes())
    noise = radio.from_bytes(data) - radio.from_bytes(recording.read_bytes())
    assert 100 < np.std(noise) < 2_000


def test_noise_without_a_cell(tool):
    run = tool("add_noise", 20, stdin=bytes(4 * 60_000))
    assert is_one_line(run)


def test_sum_of_recordings(binary, tmp_path, tool):
    for name, numbers in (("a", [1, 2, 3, 4]), ("b", [10, 20]), ("c", [30_000, 0]), ("d", [30_000, 0])):
        (tmp_path / name).write_bytes(struct.pack(f"<{len(numbers)}h", *numbers))
    a, b, c, d = (tmp_path / name for name in "abcd")
    assert struct.unpack("<4h", binary("add_recordings", a, b, 1)) == (1, 2, 13, 24)
    assert struct.unpack("<6h", binary("add_recordings", a, b, -1)) == (10, 20, 1, 2, 3, 4)
    assert "16 bits do not hold" in tool("add_recordings", c, d).err
    (tmp_path / "odd").write_bytes(b"123")
    assert "cut within a sample" in tool("add_recordings", a, tmp_path / "odd").err
    assert "No such file" in tool("add_recordings", a, tmp_path / "none").err


def test_gnu_radio_is_missing_or_there(tool, tmp_path):
    run = tool("gr_to_ci16", tmp_path / "x", 1e6, 0, tmp_path / "y")
    assert run.status == 0 or is_one_line(run)


# ---- certificates


def certificate(values, word, cost):
    """A certificate without tables of its own, whose general table is 0 everywhere."""
    head = b"LTC2" + struct.pack("<120h", *values) + word.to_bytes(5, "big") + struct.pack("<I", cost)
    return head + bytes(10_240) + struct.pack("<Q", 0)


def test_certificates(tool):
    free = certificate([0] * 120, 0, 0)
    bad = certificate([0] * 120, 0, 1)
    run = tool("check_certificate", stdin=free + bad)
    assert run.status == 0 and run.out == "certificates 2\n0 yes\n1 no\n"
    assert check_certificate.answers_of(b"") == []


@pytest.mark.parametrize("data, place", [(b"LTX", 2), (b"LTC2", 4), (b"LTC2" + struct.pack("<h", 2_033) + bytes(9), 4)])
def test_bad_certificates(tool, data, place):
    run = tool("check_certificate", stdin=data)
    assert is_one_line(run) and f"bad certificate at byte {place}" in run.err


# ---- output files


def test_older_file_stays_where_there_is_no_room(tmp_path):
    place = tmp_path / "y.png"
    place.write_bytes(b"old")
    before = resource.getrlimit(resource.RLIMIT_FSIZE)
    handler = signal.signal(signal.SIGXFSZ, signal.SIG_IGN)
    resource.setrlimit(resource.RLIMIT_FSIZE, (1_000, before[1]))
    try:
        with pytest.raises(OSError):
            machine.write(place, bytes(2_000))
    finally:
        resource.setrlimit(resource.RLIMIT_FSIZE, before)
        signal.signal(signal.SIGXFSZ, handler)
    assert place.read_bytes() == b"old" and list(tmp_path.glob(".*")) == []
    machine.write(place, b"new")
    assert place.read_bytes() == b"new"


@pytest.fixture
def reader(tmp_path):
    """A named pipe, and a thread that reads it to its end."""
    place, found = tmp_path / "pipe", []
    os.mkfifo(place)

    def read():
        descriptor = os.open(place, os.O_RDONLY)
        with open(descriptor, "rb") as file:
            found.append(file.read())

    thread = threading.Thread(target=read, daemon=True)
    thread.start()

    def ended():
        thread.join(10)
        return b"".join(found)

    return place, ended


@pytest.mark.parametrize("is_link", [False, True])
def test_pipe_gets_the_bytes_and_stays(tmp_path, reader, is_link):
    place, ended = reader
    (tmp_path / "link").symlink_to(place)
    out = tmp_path / "link" if is_link else place
    machine.check_place(out)
    machine.write(out, b"new")
    assert place.is_fifo() and out.is_symlink() == is_link
    assert ended() == b"new"


def test_file_behind_a_link_is_replaced(tmp_path):
    (tmp_path / "link").symlink_to(tmp_path / "y.csv")
    machine.write(tmp_path / "link", b"new")
    assert (tmp_path / "link").is_symlink() and (tmp_path / "y.csv").read_bytes() == b"new"


def test_standard_output_gets_the_bytes_after_what_was_printed(tmp_path, capfd):
    """As /dev/stdout, which links to a file if output is redirected to one."""
    place = tmp_path / "stdout"
    place.symlink_to("/proc/self/fd/1")
    print("first")
    machine.check_place(place)
    machine.write(place, b"second\n")
    print("third")
    assert place.is_symlink() and capfd.readouterr().out == "first\nsecond\nthird\n"


def test_device_without_room_stays(tool, tmp_path):
    """A device as /dev/full: standard error says so, and the device is not replaced by a file."""
    place = tmp_path / "full"
    try:
        os.mknod(place, 0o666 | stat.S_IFCHR, os.makedev(1, 7))
        place.open("wb").close()
    except OSError:
        pytest.skip("no device can be made")
    run = tool("survey", EXAMPLES / "outputs/survey.json", "--csv-windows", place)
    assert is_one_line(run) and f"{place}: No space left" in run.err and place.is_char_device()


def test_programs_are_found(monkeypatch, programs, tmp_path):
    assert machine.program("lte_cli") == str(programs / "lte_cli")
    monkeypatch.delenv("LTE_CLI")
    monkeypatch.setattr(machine, "TOP", tmp_path)
    monkeypatch.setattr(sys, "argv", [str(programs / "lte_survey")])
    assert machine.program("lte_cli") == str(programs / "lte_cli")
    monkeypatch.setattr(sys, "argv", ["/nowhere/x"])
    monkeypatch.setenv("PATH", str(programs))
    assert machine.program("lte_cli") == str(programs / "lte_cli")
    monkeypatch.setenv("PATH", "/nowhere")
    with pytest.raises(machine.Refused, match="rt run"):
        machine.program("lte_cli")
    (tmp_path / "bin").mkdir()
    (tmp_path / "bin/lte_cli").symlink_to(programs / "lte_cli")
    monkeypatch.setattr(machine, "TOP", tmp_path / "lib")
    assert machine.program("lte_cli") == str(tmp_path / "bin/lte_cli")


def test_many_files_with_programs_in_path(programs, tmp_path):
    """A clone in which nothing was built, and an installation."""
    (tmp_path / "scripts/tools").mkdir(parents=True)
    (tmp_path / "python").symlink_to(TOP / "python")
    shutil.copy(TOP / "scripts/tools/many.sh", tmp_path / "scripts/tools")
    (tmp_path / "empty.cu8").write_bytes(b"")
    words, paths = ["scripts/tools/many.sh", "empty.cu8"], {False: "/usr/bin:/bin", True: f"{programs}:/usr/bin:/bin"}
    for has_programs, path in paths.items():
        done = subprocess.run(words, cwd=tmp_path, capture_output=True, text=True, check=False, env={"PATH": path})
        assert done.returncode == 1 and ("empty.cu8: empty" in done.stderr) == has_programs


def test_closed_standard_input():
    words = [sys.executable, "-m", "lte_tools.survey", "-"]
    keys = {
        "capture_output": True,
        "text": True,
        "check": False,
        "env": {**os.environ, "PYTHONPATH": str(TOP / "python")},
    }
    done = subprocess.run(words, preexec_fn=lambda: os.close(0), **keys)
    assert done.returncode == 1 and done.stderr.count("\n") == 1 and "-: standard input is closed" in done.stderr


def test_importing_has_no_effect():
    import subprocess

    text = "import signal; before = signal.getsignal(2); import lte_tools, lte_tools.survey, lte_tools.picture, sys; "
    text += "assert signal.getsignal(2) is before and 'numpy' not in sys.modules"
    subprocess.run([sys.executable, "-c", text], check=True, cwd=TOP / "python")


@pytest.mark.parametrize(
    "fault, text",
    [
        (machine.Refused("a\nb"), "a b"),
        (KeyboardInterrupt(), "stopped"),
        (MemoryError(), "out of memory"),
        (FileNotFoundError(2, "No such file", "x"), "x: No such file"),
    ],
)
def test_faults_are_one_line(capfd, fault, text):
    def command():
        raise fault

    with pytest.raises(SystemExit) as ended:
        machine.run(command)
    assert (
        ended.value.code == 1
        and capfd.readouterr().err.strip().endswith(text.split("\n")[0])
        or text in "out of memory"
    )


def test_missing_package(capfd):
    with pytest.raises(SystemExit):
        machine.check_packages("numpy", "no_such_package")
    assert "python3-no_such_package" in capfd.readouterr().err


# ---- pictures of recordings


@pytest.mark.parametrize("form", ["svg", "html"])
def test_picture_of_the_shipped_recording(tool, tmp_path, form):
    out = tmp_path / f"x.{form}"
    run = tool("picture", SHIPPED, "-o", out, "--title", "The shipped recording", "--tune")
    assert run.status == 0 and run.err == ""
    if form == "html":
        assert "lte_cli search --all --json" in out.read_text() and "<li>cells: 1" in out.read_text()
    else:
        picture = (TOP / "docs/shipped_recording.svg").read_bytes()
        made_by = b"Matplotlib v3.6.3"
        assert out.read_bytes() == picture or made_by not in picture or made_by not in out.read_bytes()


@pytest.mark.parametrize(
    "words, text",
    [
        (["x.ci16", "-o", "x.pdf"], ".png, .svg or .html"),
        (["/nowhere.ci16", "-o", "x.png"], "No such file"),
        (["x.ci16", "-o", "x.png", "--cells", "-1"], "not below 0"),
        (["/nowhere.json", "-o", "x.png"], "No such file"),
        (["x.ci16"], "required"),
    ],
)
def test_pictures_that_are_refused(tool, tmp_path, monkeypatch, words, text):
    monkeypatch.chdir(tmp_path)
    run = tool("picture", *words)
    assert is_one_line(run) and text in run.err and not (tmp_path / "x.png").exists()


def test_style():
    assert picture_style.dbfs(0) == "none" and picture_style.number_text(None) == "-"
    assert picture_style.facts_of("u8", 2.4e6, 796e6, 1e5)[1:] == [
        "carrier 796 MHz",
        "+100,000 Hz from the file's centre",
    ]


# ---- the ring of a pipe


def test_ring_skips_the_oldest_window():
    ring = stream.Ring(2, waits=False)
    for number in range(4):
        ring.put(stream.Window(number, b"", 0.0))
    assert ring.skipped == 2 and ring.take().first == 2
    ring.drop()
    assert ring.skipped == 3 and ring.take() is None
    ring.end()
    ring.put(stream.Window(9, b"", 0.0))
    assert ring.is_over()


def test_reader_reads_windows():
    read, end = os.pipe()
    os.write(end, bytes(range(100)))
    os.close(end)
    ring = stream.Ring(10, waits=False)
    stream.Reader(read, ring).read(stream.Shape(width=2, before=5, length=10, every=20, least=5))
    windows = [ring.take() for _ in range(3)]
    assert [(one.first, one.data[0]) for one in windows if one] == [(5, 10), (25, 50), (45, 90)]
    assert len(windows[2].data) == 10 and ring.is_over() and ring.begun
    os.close(read)


def live_of(sighting_count=0, **keys):
    from lte_tools.options import SurveyOptions
    from lte_tools.radio_file import RadioFile

    path = TOP / "x"
    given = SurveyOptions(path, **keys)
    return live.Live(given, RadioFile(path, "s16", radio.RATE, 0, 0, 0), stream.Ring(2, False))


def test_live_learns_and_forgets(capsys, sent, recording):
    from lte_tools.radio_file import RadioFile
    from lte_tools.sightings import Task, sightings

    file = RadioFile(recording, "s16", radio.RATE, len(sent), 0, 0)
    (one,) = sightings(Task(file, 0, 0.05))
    state = live_of(follow=True)
    for number in range(3):
        import dataclasses

        task = dataclasses.replace(one.task, start=10.24 * number)
        state.add(10.24 * number, 0.0, levels.InWindow([dataclasses.replace(one, task=task)], None))
    assert state.is_known and len(state.cells) == 1 and state.cells[0].windows == 3
    state.ring.skipped = 2
    state.add(31.0, 0.0, levels.InWindow(None, None))
    assert state.spoiled == [31.0] and "no time for 2 windows" in capsys.readouterr().out
    for number in range(live.LOST):
        state.add(100.0 + number, 0.0, levels.InWindow([], None))
    assert not state.is_known and state.cells[0].is_old and len(state.cells[0].seen) <= 2
    found = state.survey()
    assert found.live.skipped == 2 and found.cells[0].windows == 3
    assert json.loads(json.dumps(found.to_json()))["live"]["forgotten"] == 0


def test_shipped_survey_is_that_of_python(survey_json):
    assert lte_tools.survey(SHIPPED, jobs=1).to_json()["cells"] == survey_json["cells"]
