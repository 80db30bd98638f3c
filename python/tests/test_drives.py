"""Several files as one drive, WAV files, and what names of recordings state."""
import csv
import dataclasses
import datetime
import io
import json
import struct

import numpy as np
import pytest

from lte_tools import (
    levels,
    machine,
    names,
    options,
    radio,
    radio_file,
    summary,
    survey_data,
    survey_table,
    surveying,
    wav,
)
from tests.test_one_line import sighting

UTC = datetime.timezone.utc
SECOND = 1_920_000  # samples
BEGIN = datetime.datetime(2026, 7, 14, 10, 15, 30, tzinfo=UTC).timestamp()


# ---- names

NAMES = {
    "SDRSharp_20260714_101530Z_796000000Hz_IQ.wav": (BEGIN, True, 796e6, None),
    "HDSDR_20260714_101530Z_796000kHz_RF.wav": (BEGIN, True, 796e6, None),
    "baseband_796000000Hz_10-15-30_14-07-2026.wav": (BEGIN, False, 796e6, None),
    "gqrx_20260714_101530_796000000_2400000_fc.raw": (BEGIN, False, 796e6, 2.4e6),
    "drive-2026-07-14T10_15_30.25Z.cu8": (BEGIN + 0.25, True, 0, None),
    "part_20260714_101530.cu8": (BEGIN, False, 0, None),
    "part_20261314_101530.cu8": (None, False, 0, None),
    "x1820260714_101530.cu8": (None, False, 0, None),
    "band20_806.5MHz.wav": (None, False, 806.5e6, None),
    "take12.cu8": (None, False, 0, None),
}


@pytest.mark.parametrize("name", NAMES)
def test_names(name):
    found = names.read(name)
    assert (found.time, found.is_utc, found.centre, found.rate) == NAMES[name]


# ---- WAV


def wave(data, rate=2_400_000, kind=1, channels=2, bits=16, auxi=b"", size=None, head=b"RIFF"):
    """A WAV file with a chunk of an odd length in front of its samples."""
    form = struct.pack("<HHIIHH", kind, channels, rate, 0, 0, bits)
    chunks = [(b"LIST", b"abc"), (b"fmt ", form), *([(b"auxi", auxi)] if auxi else [])]
    text = b"".join(name + struct.pack("<I", len(one)) + one + bytes(len(one) % 2) for name, one in chunks)
    size = len(data) if size is None else size
    return head + struct.pack("<I", 0) + b"WAVE" + text + b"data" + struct.pack("<I", size) + data


def auxiliary(centre=796_000_000):
    """The chunk that HDSDR writes: begin and end as Windows has times, and the centre in hertz."""
    begin = struct.pack("<8H", 2026, 7, 2, 14, 10, 15, 30, 250)
    return begin + begin + struct.pack("<9I", centre, 0, 0, 0, 0, 0, 0, 0, 0)


def test_wave(tmp_path, sent):
    data = np.stack([sent.real, sent.imag], 1).astype("<i2").tobytes()
    path = tmp_path / "HDSDR_20260714_101530Z_796000kHz_RF.wav"
    for size in (None, 0, 0xFFFFFFFF, len(data) - 4):
        path.write_bytes(wave(data, auxi=auxiliary(), size=size) + b"LIST\x02\0\0\0ab" * (size is None))
        found = wav.read(path)
        assert (found.form, found.rate, found.centre, found.time) == ("s16", 2.4e6, 796e6, BEGIN + 0.25)
        assert found.size == (len(data) if size is None or size > len(data) or not size else size)
    file = radio_file.opened(options.FileOptions(path, carrier=796.3e6))
    assert (file.shift, file.carrier, file.rate) == (300e3, 796.3e6, 2.4e6)
    assert file.time_at(0.02) == "2026-07-14T10:15:30.270+00:00"
    assert np.array_equal(np.round(32_768 * file.samples(5, 9)), sent[5:14])


def test_wave_by_its_name(tmp_path):
    path = tmp_path / "SDRSharp_20260714_101530Z_796000000Hz_IQ.wav"
    path.write_bytes(wave(np.random.default_rng(1).integers(0, 256, 400_000).astype("u1").tobytes(), bits=8))
    file = radio_file.opened(options.FileOptions(path))
    assert (file.form, file.carrier, file.time_at(0)) == ("u8", 796e6, "2026-07-14T10:15:30.000+00:00")
    early = datetime.datetime(2026, 5, 1, tzinfo=UTC)
    file = radio_file.opened(options.SurveyOptions(path, start=early, shift=1e5))
    assert file.time_at(0) is None and file.carrier == 796.1e6


REFUSED = {
    "no samples": (wave(b"")[:-8], "without a chunk 'data'"),
    "one channel": (wave(bytes(400), channels=1), "channels 1, and I and Q are two"),
    "bits": (wave(bytes(400), bits=24), "byte 32: format 1 of 24 bits"),
    "format": (wave(bytes(400), kind=85), "format 85 of 16 bits"),
    "rate": (wave(bytes(400), rate=0), "0 samples per second"),
    "empty": (wave(b""), "no sample in it"),
    "cut": (wave(bytes(400))[:30], "without a chunk 'fmt'"),
    "no header": (b"\x89PNG\r\n\x1a\n" + bytes(400_000), "no header of WAV in it; --form"),
    "chunks": (wave(bytes(400))[:12] + b"junk\0\0\0\0" * 2_000, "more than 1,000 chunks"),
}


@pytest.mark.parametrize("name", REFUSED)
def test_wave_that_is_refused(tmp_path, name):
    data, text = REFUSED[name]
    (tmp_path / "x.wav").write_bytes(data)
    with pytest.raises(machine.Refused, match="^[^\n]*$") as refused:
        radio_file.opened(options.FileOptions(tmp_path / "x.wav"))
    assert text in str(refused.value) and "x.wav" in str(refused.value)


def test_samples_without_a_header_are_read_by_form(tmp_path):
    (tmp_path / "x.wav").write_bytes(np.arange(200_000, dtype="<i2").tobytes())
    assert radio_file.opened(options.FileOptions(tmp_path / "x.wav", form="s16")).count == 100_000


@pytest.mark.parametrize("is_by_header", [True, False])
def test_survey_of_a_wave(tool, drive, tmp_path, is_by_header):
    """A file of SDR# has time and frequency in its name, one of HDSDR in its header too; the numbers are bytes."""
    name = "HDSDR_RF.wav" if is_by_header else "SDRSharp_20260714_101530Z_796000000Hz_IQ.wav"
    (tmp_path / name).write_bytes(wave(drive.read_bytes(), bits=8, auxi=auxiliary() if is_by_header else b""))
    words = ("--carrier", "796.3e6", "--offset", "0", "--every", "0.05", "--jobs", "1", "--csv")
    run = tool("survey", tmp_path / name, *words)
    assert run.status == 0, run.err
    (row,) = csv.DictReader(io.StringIO(run.out))
    assert (row["identity"], row["cell"], row["frequency"]) == ("217", "18905602", "796300000.0")
    assert row["datetime"] == f"2026-07-14T10:15:30.{257 if is_by_header else '007'}+00:00"


# ---- several files


@pytest.fixture
def parts(tmp_path):
    """Writes files of so many seconds, whose samples are numbered by their file."""

    def write(**seconds):
        for number, (name, count) in enumerate(seconds.items()):
            data = np.full((int(SECOND * count), 2), 1_000 + number, "<i2")
            data.tofile(tmp_path / f"{name}.ci16")
        return [tmp_path / f"{name}.ci16" for name in seconds]

    return write


def drive(paths, **keys):
    first, *further = paths
    return radio_file.opened(options.SurveyOptions(first, further=tuple(further), **keys))


def test_files_in_the_order_of_their_times(parts):
    paths = parts(a_20260714_101534Z=0.5, b_20260714_101530Z=1, c_20260714_101531Z=0.25)
    file = drive(paths)
    assert file.count == 1.75 * SECOND
    assert [round(32_768 * file.samples(int(at * SECOND), 1)[0].real) for at in (0, 1, 1.25, 1.74)] == [
        1_001,
        1_002,
        1_000,
        1_000,
    ]
    assert [one.missing for one in file.stretches] == [0, 0, 2.75]
    assert file.time_at(1.5) == "2026-07-14T10:15:34.250+00:00"
    windows = file.starts(0, 0.17, 0.17)
    assert all(one[0] + one[1] <= end for one in windows for end in (1, 1.25, 1.75) if one[0] < end - 1e-9)
    found = summary.parts_of(file)
    assert [(one.first, one.seconds, one.missing) for one in found] == [(0, 1, 0), (1, 0.25, 0), (1.25, 0.5, 2.75)]
    text = survey_table.parts_text(found)
    assert text == "3 files in the order of time, missing between them: 2.75 s in front of second 1.25"


def test_files_without_times(parts, monkeypatch):
    notes = []
    monkeypatch.setattr(radio_file, "note", notes.append)
    file = drive(parts(part1=0.25, part10=0.5, part2=0.25))
    assert [str(one.name)[-11:] for one in file.parts] == ["/part1.ci16", "/part2.ci16", "part10.ci16"]
    assert [one.missing for one in file.stretches] == [0, None, None] and "no time in" in notes[0]
    start = datetime.datetime(2026, 5, 1, tzinfo=UTC)
    from lte_tools import places

    assert places.begun(file, start).time_at(0.6) == "2026-05-01T00:00:00.600+00:00"


def test_times_without_a_zone_begin_at_start(parts):
    from lte_tools import places

    file = drive(parts(a_20260714_101530=1, b_20260714_101540=1))
    assert file.time_at(0) is None
    begun = places.begun(file, datetime.datetime(2026, 7, 14, 8, 15, 30, tzinfo=UTC))
    assert begun.time_at(1.5) == "2026-07-14T08:15:40.500+00:00"


@pytest.mark.parametrize(
    "names, keys, text",
    [
        (("a_20260714_101530Z", "b_20260714_101531Z"), {}, "2.0 s before the end of"),
        (("a", "b"), {"form": "f32"}, "--form"),
    ],
)
def test_files_that_are_refused(parts, names, keys, text):
    with pytest.raises(machine.Refused, match="^[^\n]*$") as refused:
        drive(parts(**{name: 3 for name in names}), **keys)
    assert text in str(refused.value)


def test_files_of_two_kinds(parts, tmp_path):
    (path,) = parts(a=0.25)
    (tmp_path / "b.cu8").write_bytes(bytes(range(100, 150)) * 8_000)
    with pytest.raises(machine.Refused, match="b.cu8: u8, and .*a.ci16 has s16: not one drive"):
        drive([path, tmp_path / "b.cu8"])
    with pytest.raises(machine.Refused, match="standard input is not one of several"):
        options.checked_survey(options.SurveyOptions(path, further=(path.parent / "-", options.pathlib.Path("-"))))


@pytest.mark.parametrize("index, missing", [(1_000_000, 40_000 / SECOND), (960_000, 0), (None, None)])
def test_captures_by_number(tmp_path, index, missing):
    captures = [{"core:global_index": 0}, {"core:sample_start": 960_000}]
    captures[1] |= {} if index is None else {"core:global_index": index}
    meta = {"global": {"core:datatype": "ci16_le", "core:sample_rate": SECOND}, "captures": captures}
    (tmp_path / "x.sigmf-meta").write_text(json.dumps(meta))
    (tmp_path / "x.sigmf-data").write_bytes(bytes(4 * SECOND))
    file = radio_file.opened(options.FileOptions(tmp_path / "x.sigmf-meta"))
    assert [one.missing for one in file.stretches] == [0, missing]


def test_captures_that_overlap(tmp_path):
    captures = [{"core:global_index": 5}, {"core:sample_start": 960_000, "core:global_index": 959_999}]
    meta = {"global": {"core:datatype": "ci16_le", "core:sample_rate": SECOND}, "captures": captures}
    (tmp_path / "x.sigmf-meta").write_text(json.dumps(meta))
    (tmp_path / "x.sigmf-data").write_bytes(bytes(4 * SECOND))
    with pytest.raises(machine.Refused, match="core:global_index 959999 is before the end"):
        radio_file.opened(options.FileOptions(tmp_path / "x.sigmf-meta"))


def test_captures_beyond_the_samples(tmp_path):
    meta = {
        "global": {"core:datatype": "ci16_le", "core:sample_rate": SECOND},
        "captures": [{"core:sample_start": 10**15}],
    }
    (tmp_path / "x.sigmf-meta").write_text(json.dumps(meta))
    (tmp_path / "x.sigmf-data").write_bytes(bytes(4 * SECOND))
    with pytest.raises(machine.Refused, match="x.sigmf-meta: no capture begins within its 1,920,000 samples"):
        radio_file.opened(options.FileOptions(tmp_path / "x.sigmf-meta"))


def test_captures_of_one_file_are_no_further_files(survey_json):
    parts = (survey_data.Part("/x.sigmf-data", 0, 3, None, 0), survey_data.Part("/x.sigmf-data", 3, 3, None, 10.5))
    survey = survey_data.Survey.from_json(survey_json)
    found = dataclasses.replace(survey, file="x.sigmf-meta", parts=parts)
    assert survey_table.head_of(found).startswith("x.sigmf-meta: ")
    assert survey_table.parts_text(parts) == "2 captures, missing between them: 10.5 s in front of second 3.00"


def test_survey_of_a_drive(tool, sent, tmp_path):
    """Two files of one cell, of which the second begins 7 s after the first one ended, are one line."""
    data = np.stack([sent.real, sent.imag], 1).astype("<i2").tobytes()
    paths = [tmp_path / f"x_20260714_1015{second}Z.ci16" for second in (30, 37)]
    for path in paths:
        path.write_bytes(data)
    run = tool("survey", *paths, "--json", "--jobs", "1", "--offset", "0", "--every", "0.05")
    assert run.status == 0, run.err
    found = survey_data.Survey.from_json(json.loads(run.out))
    assert [one.identity for one in found.cells] == [217] and found.windows == 2
    assert [one.missing for one in found.parts] == [0, 6.95] and found.datetime == "2026-07-14T10:15:30.000+00:00"
    assert [one.datetime for one in found.cells[0].seen][1].startswith("2026-07-14T10:15:37.0")


PIECE = 2 * 17 * 19_200  # samples of a file: two windows
BEGINS = {30: 100, 92: 7_000, 91: 15_000}  # the sample of the drive at which frame 0 of a cell begins
TIMES = [BEGIN + 7 * k + 0.37 * k % 1 for k in range(36)]  # when files begin


@pytest.fixture
def pieces(tmp_path):
    """Writes 36 files whose time is in their names to a second, or in SigMF to a millisecond, and returns their paths."""

    def write(is_sigmf):
        paths = []
        for k, begin in enumerate(TIMES):
            time = datetime.datetime.fromtimestamp(begin, UTC)
            stem = f"{k * 7 % 36}" if is_sigmf else f"{k * 7 % 36}_{time:%Y%m%d_%H%M%S}Z"
            data = tmp_path / f"{stem}.{'sigmf-data' if is_sigmf else 'ci16'}"
            with data.open("wb") as file:
                file.truncate(4 * PIECE)
            whole = {"core:datatype": "ci16_le", "core:sample_rate": SECOND}
            captures = [{"core:datetime": f"{time.isoformat(timespec='milliseconds')[:-6]}Z"}]
            if is_sigmf:
                data.with_suffix(".sigmf-meta").write_text(json.dumps({"global": whole, "captures": captures}))
            paths.append(data.with_suffix(".sigmf-meta") if is_sigmf else data)
        return sorted(paths)  # as a shell names them: in another order than that of time

    return write


def seen_in(task):
    """The cells of a window, by when its file really began."""
    file = task.file
    number = int(file.part_at(task.first).first / PIECE)
    sample = round((TIMES[number] - BEGIN) * SECOND) + task.first - number * PIECE
    found = []
    for identity, begin in BEGINS.items():
        at = (begin - sample) % radio.FRAME
        one = sighting(identity, 0, 0)
        line = dataclasses.replace(one.line, at=at, sfn=(sample + at - begin) // radio.FRAME % 1024)
        found.append(dataclasses.replace(one, task=task, line=line))
    return levels.InWindow(found, survey_data.Power(round(task.start, 6), -30.0, -70.0))


@pytest.mark.parametrize("is_sigmf", [False, True])
def test_survey_of_36_files(pieces, is_sigmf):
    first, *further = pieces(is_sigmf)
    given = options.SurveyOptions(first, further=tuple(further), offset=0)
    file = radio_file.opened(given)

    def ask(name, function, tasks):
        assert name == "cells" or not tasks
        return [seen_in(task) for task in tasks]

    found = surveying.surveyed(given, file, ask)
    assert [(one.identity, one.windows, one.chance) for one in found.cells] == [
        (30, 72, False),
        (92, 72, False),
        (91, 72, False),
    ]
    assert found.windows == 72 and len(found.parts) == 36 and len(found.gaps) == 35
    exact = [round(b - a - PIECE / SECOND, 3) for a, b in zip(TIMES, TIMES[1:])]
    whole = [round(int(b) - int(a) - PIECE / SECOND, 3) for a, b in zip(TIMES, TIMES[1:])]
    assert [one.missing for one in found.parts[1:]] == pytest.approx(exact if is_sigmf else whole, abs=0.002)
    assert "and 35 further files: " in survey_table.head_of(found)
    text = survey_table.parts_text(found.parts)
    assert text.startswith("36 files in the order of time, missing between them: ") and text.endswith(
        " 31 further gaps"
    )
    late = survey_data.timestamp(found.cells[0].seen[-1].datetime) - TIMES[-1]
    assert late + (not is_sigmf) * (TIMES[-1] % 1) == pytest.approx(0.175, abs=0.007)  # in the last of 72 windows
