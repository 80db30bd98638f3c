"""Long surveys: stopped and continued, in parts, by other engines; each gives the bytes of one that was not disturbed."""
import json
import os
import pathlib
import random
import signal
import subprocess
import sys
import time

import numpy as np
import pytest

import lte_tools
from lte_tools import engine, machine, parts, progress, sightings, surveying
from tests.conftest import HERE, SECONDS, is_one_line, needs

WORDS = ("--rate", "1.2e6", "--every", "1", "--json")
STATUS = {signal.SIGKILL: -9, signal.SIGTERM: 143, signal.SIGINT: 1}


def answers():
    """Returns how often the programs were asked."""
    path = pathlib.Path(os.environ["STAND_IN_COUNT"])
    return path.read_text().count("\n") if path.exists() else 0


def wait_for_answers(count):
    """Waits until the programs were asked so often."""
    last = time.monotonic() + 60
    while answers() < count and time.monotonic() < last:
        time.sleep(0.01)


def survey(*words, stopped=None, sleep=0.0, is_group=False):
    """Runs lte_survey, which a signal stops once the programs were asked so often if `stopped` has them, with `is_group` all
    its processes; returns status, output and errors."""
    environment = {**os.environ, "PYTHONPATH": str(HERE.parent), "STAND_IN_SLEEP": str(sleep)}
    words = [sys.executable, "-m", "lte_tools.survey", *map(str, words)]
    process = subprocess.Popen(words, stdout=subprocess.PIPE, stderr=subprocess.PIPE, env=environment, process_group=0)
    if stopped:
        wait_for_answers(stopped[1] + answers())
        (os.killpg if is_group else os.kill)(process.pid, stopped[0])
    out, err = process.communicate(timeout=120)
    return process.returncode, out, err.decode()


@pytest.fixture(scope="session")
def undisturbed(stand_ins, long_file):
    """The bytes of a survey of the long file."""
    with pytest.MonkeyPatch.context() as patch:
        for name, path in stand_ins.items():
            patch.setenv(name, path)
        status, out, err = survey(long_file, *WORDS, "--jobs", "2")
    assert status == 0, err
    return out


# ---- stopped and continued


def test_forked_process_is_no_tool():
    """SIGTERM ends a forked process at once, also before the process sets its own handlers."""
    before = signal.signal(signal.SIGTERM, machine.stop)
    try:
        child = os.fork()
        if child == 0:
            try:
                time.sleep(5)
            finally:
                os._exit(7)
        os.kill(child, signal.SIGTERM)
        assert os.waitstatus_to_exitcode(os.waitpid(child, 0)[1]) == -signal.SIGTERM
    finally:
        signal.signal(signal.SIGTERM, before)


def test_killed_at_random_moments(undisturbed, stand_in, long_file, tmp_path):
    seed = int.from_bytes(os.urandom(4), "little")
    draw, kept = random.Random(seed), tmp_path / "kept.jsonl"
    words, sizes = (long_file, *WORDS, "--jobs", "2", "--resume", kept), []
    for kind in (signal.SIGKILL, signal.SIGTERM, signal.SIGINT):
        status, out, err = survey(*words, stopped=(kind, draw.randint(1, 11)), sleep=0.02)
        assert (status, out) == (STATUS[kind], b""), (seed, err)
        assert "Traceback" not in err and len(err.splitlines()) == (kind != signal.SIGKILL), (seed, err)
        sizes.append(kept.stat().st_size if kept.exists() else 0)
    assert sizes == sorted(sizes), seed
    status, out, err = survey(*words)
    assert (status, out, err) == (0, undisturbed, ""), seed
    stand_in.unlink()
    assert survey(*words)[1] == undisturbed and not stand_in.exists()  # nothing is asked twice


@pytest.mark.parametrize("kind", (signal.SIGTERM, signal.SIGINT))
@pytest.mark.parametrize("jobs", (1, 3))
def test_signals_end_in_one_line(stand_in, long_file, kind, jobs):
    words = (long_file, *WORDS, "--jobs", jobs)
    status, out, err = survey(*words, stopped=(kind, 3), sleep=0.05, is_group=True)
    assert (status, out) == (STATUS[kind], b"")
    assert len(err.splitlines()) == 1 and ": stopped: " in err and "--resume FILE" in err


def test_journal_is_cut_at_a_half_line(undisturbed, long_file, tmp_path, stand_in):
    kept = tmp_path / "kept.jsonl"
    words = (long_file, *WORDS, "--jobs", "2", "--resume", kept)
    assert survey(*words)[1] == undisturbed
    whole = kept.read_bytes()
    for size in (len(whole) // 2, 20, 0):
        kept.write_bytes(whole[:size])
        assert survey(*words)[1] == undisturbed
        assert sorted(kept.read_bytes().splitlines()) == sorted(whole.splitlines())


def test_journals_that_are_refused(long_file, tmp_path, stand_in, tool):
    kept = tmp_path / "kept.jsonl"
    words = (long_file, "--rate", "1.2e6", "--every", "20", "--jobs", "1", "--resume", kept)
    assert tool("survey", *words).status == 0
    lines = kept.read_bytes().splitlines(keepends=True)
    kept.write_bytes(b"".join([*lines[:2], lines[2].replace(b"1", b"2"), *lines[3:]]))
    run = tool("survey", *words)
    assert is_one_line(run) and "line 3 is damaged" in run.err
    kept.write_bytes(b"".join(lines))
    run = tool("survey", *words[:1], "--rate", "1.3e6", *words[3:])
    assert is_one_line(run) and "other samples: rate 1200000" in run.err
    other = tmp_path / "other.cu8"
    other.write_bytes(long_file.read_bytes()[:-1] + b"\1")
    run = tool("survey", other, *words[1:])
    assert is_one_line(run) and "a journal of other files" in run.err
    for text in ("", "{}\n", "1\n", "[[[[", "PCI\n"):
        kept.write_text(f"{text}a table\n" if text else "a table")
        before = kept.read_bytes()
        run = tool("survey", *words)
        assert is_one_line(run) and "not a journal" in run.err and kept.read_bytes() == before
    with kept.open("a+b") as file:
        file.truncate(0)
        code = (
            "import fcntl, sys; f = open(sys.argv[1], 'a'); fcntl.lockf(f, fcntl.LOCK_EX); print(flush=True); input()"
        )
        other = subprocess.Popen([sys.executable, "-c", code, kept], stdin=subprocess.PIPE, stdout=subprocess.PIPE)
        other.stdout.readline()
        run = tool("survey", *words)
        other.communicate(b"\n")
    assert is_one_line(run) and "another survey writes it" in run.err
    for more in (("--so-far", "--part", "1/2"), ("--join", kept, "--part", "1/2"), ("--join", kept), ("--part", "1/3")):
        assert is_one_line(tool("survey", *words, *more))
    assert is_one_line(tool("survey", *words[:-2], "--so-far"))
    assert is_one_line(tool("survey", *words[:-1], tmp_path / "folder/none"))
    assert is_one_line(tool("survey", *words[:-1], long_file))


def test_so_far(long_file, tmp_path, stand_in, undisturbed):
    kept = tmp_path / "kept.jsonl"
    words = (long_file, *WORDS, "--resume", kept)
    assert "No such file" in survey(*words, "--so-far")[2]
    assert survey(*words, "--jobs", "2")[1] == undisturbed
    lines = kept.read_bytes().splitlines(keepends=True)
    kept.write_bytes(lines[0])
    assert "no window of this survey" in survey(*words, "--so-far")[2]
    cells = [line for line in lines if json.loads(line).get("phase") == "cells"]
    kept.write_bytes(b"".join([*(line for line in lines if line not in cells), *cells[:10]]))
    stand_in.unlink()
    status, out, err = survey(*words, "--so-far")
    found = json.loads(out)
    assert status == 0 and found["windows"] == 10 and found["hint"] == "so far: 10 of 24 windows"
    starts = sorted(json.loads(line)["question"]["start"] for line in cells[:10])
    assert [one["seconds"] for one in found["powers"]] == starts and not stand_in.exists()


def test_worker_that_is_killed(stand_in, undisturbed, long_file):
    """A process that is killed, as for its memory, is replaced."""
    environment = {**os.environ, "PYTHONPATH": str(HERE.parent), "STAND_IN_SLEEP": "0.05"}
    words = [sys.executable, "-m", "lte_tools.survey", str(long_file), *WORDS, "--jobs", "2"]
    process = subprocess.Popen(words, stdout=subprocess.PIPE, env=environment)
    wait_for_answers(20)
    children = pathlib.Path(f"/proc/{process.pid}/task/{process.pid}/children").read_text().split()
    os.kill(int(children[0]), signal.SIGKILL)
    assert process.communicate(timeout=120)[0] == undisturbed and len(children) == 2


# ---- parts, and other engines


def test_parts_are_joined(undisturbed, stand_in, long_file, tmp_path):
    kept = [tmp_path / f"part{number}.jsonl" for number in (1, 2, 3)]
    windows = []
    for number, one in enumerate(kept, 1):
        status, out, err = survey(long_file, *WORDS, "--jobs", "2", "--part", f"{number}/3", "--resume", one)
        assert status == 0, err
        windows.append([power["seconds"] for power in json.loads(out)["powers"]])
    assert sum(windows, []) == list(range(SECONDS)) and list(map(len, windows)) == [8, 8, 8]
    stand_in.unlink()
    status, out, err = survey(long_file, *WORDS, "--join", *kept)
    assert (status, out, err) == (0, undisturbed, "") and not stand_in.exists()
    status, out, err = survey(long_file, *WORDS, "--join", *kept[:2])
    assert (status, out) == (0, undisturbed) and "have no answer in these journals" in err


def test_offsets_of_parts():
    """Each part has the offsets that a survey of the whole has, and asks about few windows beside its own."""
    seed = int.from_bytes(os.urandom(4), "little")
    draw = random.Random(seed)
    for _ in range(200):
        count, every = draw.randint(1, 400), draw.choice((0.17, 1.0, 5.0, 20.0))
        tasks = [sightings.Task(None, every * i, 0.17) for i in range(count)]
        walk = np.cumsum([draw.gauss(0, 150) for _ in tasks])
        missing = draw.choice((0, 0.3, 0.9, 1))
        offsets = {one.start: None if draw.random() < missing else offset for one, offset in zip(tasks, walk)}
        levels = {one.start: draw.random() for one in tasks}
        asked = []

        def ask(name, function, tasks):
            if name == "offset":
                asked.extend(one.start for one in tasks)
            return [(levels if name == "level" else offsets)[one.start] for one in tasks]

        def interpolated(own=None):
            points = surveying.offsets_along(ask, tasks, own)
            return list(np.interp(range(count), *zip(*points))) if points else [0.0] * count

        whole, questions = interpolated(), set(asked)
        parts_ = draw.randint(1, count)
        for number in range(1, parts_ + 1):
            asked.clear()
            own = parts.own((number, parts_), count)
            assert interpolated(own)[own.start : own.stop] == whole[own.start : own.stop], (seed, own)
            assert set(asked) <= questions, (seed, own)


def test_part_asks_little(monkeypatch):
    tasks, asked = [sightings.Task(None, 0.17 * i, 0.17) for i in range(3_529)], []

    def ask(name, function, tasks):
        asked.extend([one.start for one in tasks] if name == "offset" else [])
        return [100.0] * len(tasks)

    surveying.offsets_along(ask, tasks, parts.own((20, 40), len(tasks)))
    assert len(asked) <= 8


@needs("module:distributed")
def test_dask_worker_that_is_killed(undisturbed, stand_in, long_file):
    """Two workers of a Dask cluster, of which one is killed in the middle, give the same bytes."""
    environment = {**os.environ, "PYTHONPATH": str(HERE.parent), "STAND_IN_SLEEP": "0.05"}
    program = [sys.executable, "-m", "tests.dask_cluster", long_file, *WORDS]
    done = subprocess.run(
        list(map(str, program)), capture_output=True, check=False, env=environment, cwd=HERE.parent, timeout=120
    )
    assert done.returncode == 0, done.stderr.decode()
    assert done.stdout == undisturbed
    assert b"killed 1 of 2 workers" in done.stderr


def test_dask_that_does_not_answer(tool, long_file, stand_in, monkeypatch):
    monkeypatch.setattr(engine, "CONNECT", 1)
    run = tool("survey", long_file, "--rate", "1.2e6", "--dask", "tcp://127.0.0.1:9")
    assert is_one_line(run)


def test_until(tool, long_file, stand_in):
    words = (long_file, "--rate", "1.2e6", "--every", "1", "--offset", "0", "--jobs", "1", "--json")
    found = json.loads(tool("survey", *words, "--at", "3", "--until", "6.1").out)
    assert [(one["seconds"]) for one in found["powers"]] == [3, 4, 5, 6] and found["seconds"] == SECONDS
    assert is_one_line(tool("survey", *words, "--at", "3", "--until", "3"))
    assert is_one_line(tool("survey", *words, "--at", "3", "--until", "3.02"))


def test_map_from_python(undisturbed, stand_in, long_file, monkeypatch):
    asked = []

    def mapped(function, tasks):
        asked.append(len(list(tasks)))
        return map(function, tasks)

    found = lte_tools.survey(long_file, rate=1.2e6, every=1.0, map=mapped)
    assert found.to_json() == json.loads(undisturbed) and asked[0] == SECONDS


# ---- progress


@pytest.mark.parametrize("is_terminal", (False, True))
@pytest.mark.parametrize("has_tqdm", (False, True))
def test_progress(tool, long_file, stand_in, monkeypatch, is_terminal, has_tqdm):
    monkeypatch.setattr(progress, "EVERY", 0.0)
    monkeypatch.setattr(progress, "DRAWN", 0.0)
    monkeypatch.setattr(progress, "has_tqdm", lambda: has_tqdm and progress.importlib.util.find_spec("tqdm"))
    monkeypatch.setattr(progress, "is_terminal", lambda: is_terminal)
    run = tool("survey", long_file, "--rate", "1.2e6", "--every", "3", "--jobs", "1")
    assert run.status == 0
    lines = run.err.replace("\r", "\n").splitlines()
    (last,) = [line for line in lines if "cells 8 of 8 windows" in line][-1:]
    assert "a second, about" in last and last.endswith("left") != is_terminal or "left" in last
    assert ("\r" in run.err) == is_terminal and any("level 3 of 8 windows" in line for line in lines)


def test_time_that_is_left(monkeypatch):
    now = [0.0]
    monkeypatch.setattr(progress.time, "monotonic", lambda: now[0])
    shown = progress.Progress({"level": 0, "cells": 100})
    shown.begin("cells", 100, 40)  # a journal has 40
    assert shown.left is None
    for _ in range(20):
        now[0] += 6
        shown.step()
    assert shown.text == "cells 60 of 100 windows, 0.167 a second, about 4 min left"
    assert [progress.duration(one) for one in (0.2, 89, 90, 3_600, 11_400)] == [
        "1 s",
        "89 s",
        "2 min",
        "60 min",
        "3 h 10 min",
    ]
