"""One cell is one line, by sightings that are made here: lost samples, a radio that began anew, loops, and what is none."""
import dataclasses
import json
import pathlib

import pytest

from lte_tools import continuity, levels, live, radio, stream, survey_table
from lte_tools.answers import Cell
from lte_tools.cells import SeenCell, joined
from lte_tools.options import SurveyOptions
from lte_tools.radio_file import RadioFile
from lte_tools.sightings import CYCLE, Sighting, Task
from lte_tools.survey_data import Gap
from tests.conftest import EXAMPLES

EVERY = 17 * radio.FRAME  # samples from one window to the next
(LINE,) = json.loads((EXAMPLES / "outputs/search_all.json").read_text())[:1]
FILE = RadioFile(None, "s16", radio.RATE, 10**9, 0, 0)


def sighting(identity, window, begin, sfn=None, has_sib1=True, every=EVERY, cell=27_447_297):
    """A cell in a window: its first frame there, if frame 0 begins at sample `begin` of the file."""
    start = window * every
    at = (begin - start) % radio.FRAME
    number = (start + at - begin) // radio.FRAME % 1024 if sfn is None else sfn
    line = Cell.from_json({**LINE, "identity": identity, "at": at, "sfn": number})
    line = dataclasses.replace(line, sib1=dataclasses.replace(line.sib1, cell=cell))
    if not has_sib1:
        line = dataclasses.replace(line, sib1=None, no_sib1="bandwidth")
    return Sighting(
        task=Task(FILE, start / radio.RATE, 0.17),
        line=line,
        rules=("one-port",),
        level=-40.0,
        ratio=20.0,
        cost=0,
        total=9_000,
        peak=900,
        taken=0.0,
        offset=0.0,
        error=1.0,
        others=(),
        mib="0a0000",
        sib1_block=None,
    )


def cells_of(begins, windows, **more):
    """Sightings of cells, by identity the sample at which frame 0 begins in a window, in the order of windows."""
    return [sighting(identity, i, begin(i), **more) for i in windows for identity, begin in begins.items()]


def as_one(found):
    cells, jumps = continuity.as_one(joined(found))
    return sorted((cell.line.identity, cell.windows) for cell in cells), jumps, cells


def lost(samples, at):
    """Where frames begin, if samples are missing from window `at` on."""
    return lambda begin: lambda i: begin - samples * (i >= at)


def test_lost_samples_are_a_gap():
    step = lost(9_876, 5)
    found = cells_of({30: step(100), 92: step(7_000), 91: step(15_000)}, range(10))
    assert len(joined(found)) == 6
    lines, (jump,), _ = as_one(found)
    assert lines == [(30, 10), (91, 10), (92, 10)]
    assert jump.samples == 9_876 and jump.first <= 5 * 0.17 <= jump.last and jump.last - jump.first < 0.18
    assert jump.gap(2_400_000).samples == 12_345


def test_two_gaps_and_a_cell_that_is_away_between_them():
    begins = {
        30: lambda i: 100 - 500 * (i >= 4) - 3_000 * (i >= 8),
        92: lambda i: 7_000 - 500 * (i >= 4) - 3_000 * (i >= 8),
    }
    found = cells_of(begins, range(12))
    found = [one for one in found if one.line.identity == 30 or not 0.5 < one.seconds < 1.5]
    lines, jumps, _ = as_one(found)
    assert [number for _, number in lines][0] == 12 and len(lines) == 2
    assert [jump.samples for jump in jumps] == [500, 3_000]


def test_a_radio_that_began_anew_is_the_same_cells():
    begins = {30: lambda i: 100 + (i >= 6) * 6 * EVERY, 92: lambda i: 7_000 + (i >= 6) * 6 * EVERY}
    found = cells_of(
        {key: lambda i, begin=begin: begin(i) + 777 * (i >= 6) for key, begin in begins.items()}, range(12)
    )
    lines, (jump,), _ = as_one(found)
    assert lines == [(30, 12), (92, 12)] and jump.samples == CYCLE - 6 * EVERY - 777
    gap = jump.gap(radio.RATE)
    assert "are missing or the radio was restarted between" in survey_table.gap_text(gap, radio.RATE)
    assert survey_table.gap_text(Gap(33.32, 33.49, 12_345), 2.4e6) == (
        "12,345 samples are missing between 33.32 and 33.49 s"
    )


def test_cells_of_one_identity_stay_apart_while_another_goes_on():
    found = cells_of({30: lambda i: 100, 92: lambda i: 7_000 + 4_000 * (i >= 5)}, range(10), has_sib1=False)
    lines, jumps, _ = as_one(found)
    assert lines == [(30, 10), (92, 5), (92, 5)] and jumps == []


def test_cells_of_one_identity_at_one_time_stay_apart():
    found = cells_of({30: lambda i: 100}, range(6)) + cells_of({30: lambda i: 9_000}, range(6))
    lines, jumps, _ = as_one(sorted(found, key=lambda one: one.seconds))
    assert lines == [(30, 6), (30, 6)] and jumps == []


def other_cell_later():
    """A cell, and from window 60 on another cell with its identity: 1,500 samples later, as a clock that is 100 ppm off
    could move the first one meanwhile. The other cell's first two windows have no SIB1."""
    first = [sighting(30, i, 100) for i in range(10)]
    return first + [sighting(30, i, 1_600, has_sib1=i >= 62, cell=512) for i in range(60, 70)]


def test_another_cell_by_sib1_is_a_line_of_its_own():
    lines, jumps, cells = as_one(other_cell_later())
    assert lines == [(30, 10), (30, 10)] and jumps == []
    assert {cell.line.sib1.cell: round(cell.seen[0].seconds, 1) for cell in cells} == {27_447_297: 0.0, 512: 10.2}


def test_another_cell_by_sib1_does_not_hide_lost_samples():
    step = lost(9_876, 5)
    found = cells_of({30: lambda i: 100}, range(5)) + cells_of({92: step(7_000)}, range(70)) + other_cell_later()[10:]
    lines, (jump,), _ = as_one(sorted(found, key=lambda one: one.seconds))
    assert lines == [(30, 5), (30, 10), (92, 70)] and jump.samples == 9_876


@pytest.mark.parametrize("frames, repeats", [(1, 0), (2, 2), (4, 4), (16, 16), (20, 20), (100, 100)])
@pytest.mark.parametrize("every", [17, 5, 33])
def test_loop_of_a_generator(frames, repeats, every):
    found = [sighting(123, i, 100, sfn=(i * every + 1) % frames, every=every * radio.FRAME) for i in range(40)]
    assert len(joined(found)) > 5 or (frames, every) == (100, 5)
    lines, jumps, (cell,) = as_one(found)
    assert lines == [(123, 40)] and jumps == [] and cell.repeats == repeats


def test_gaps_of_nearly_whole_frames_are_no_loop():
    """After the third gap the cell is 177 samples from its first position modulo a frame."""
    found = cells_of({92: lambda i: 7_000 - 1_157 * (i >= 25) - 37_500 * (i >= 29) - 729_166 * (i >= 60)}, range(90))
    lines, jumps, (cell,) = as_one(found)
    assert lines == [(92, 90)] and cell.repeats is None
    assert [round(jump.samples) for jump in jumps] == [1_157, 37_500, 729_166]


def test_loop_whose_numbers_pass_1023():
    found = [sighting(123, i, 100, sfn=(1_020 + (17 * i) % 16) % 1024) for i in range(20)]
    _, _, (cell,) = as_one(found)
    assert cell.repeats == 16


def test_sightings_to_come_are_of_the_loop():
    _, _, (cell,) = as_one([sighting(123, i, 100, sfn=17 * i % 16) for i in range(5)])
    assert cell.is_same(sighting(123, 5, 100, sfn=17 * 5 % 16)) and not cell.is_same(sighting(123, 5, 4_000))
    assert isinstance(cell, SeenCell)


# ---- a pipe


@pytest.fixture
def pipe():
    """A survey of a pipe in which nothing was looked at yet."""
    state = live.Live(SurveyOptions(pathlib.Path("-"), follow=True), FILE, stream.Ring(2, True))
    state.ring.size = 4 * 12 * EVERY

    def add(found):
        for i in range(12):
            here = [one for one in found if one.task.start == i * EVERY / radio.RATE]
            state.add(i * EVERY / radio.RATE, 0.0, levels.InWindow(here, None))
        return state

    return add


def test_lost_samples_of_a_pipe(pipe, capsys):
    step = lost(9_876, 5)
    survey = pipe(cells_of({30: step(100), 92: step(7_000)}, range(12))).survey()
    assert [(line.identity, line.windows) for line in survey.cells] == [(30, 12), (92, 12)]
    assert [gap.samples for gap in survey.gaps] == [9_876]
    assert "9,876 samples are missing between" in capsys.readouterr().out


def test_another_cell_of_a_pipe_by_sib1(pipe):
    found = [sighting(30, i, 100) for i in range(4)]
    found += [sighting(30, i, 110, has_sib1=i >= 6, cell=512) for i in range(4, 12)]
    assert sorted(cell.windows for cell in pipe(found).cells) == [4, 8]


def test_loop_of_a_pipe(pipe):
    state = pipe([sighting(123, i, 100, sfn=17 * i % 16) for i in range(12)])
    assert len(state.cells) == 1 and state.cells[0].windows == 12
    (line,) = state.survey().cells
    assert line.repeats == 0.16 and line.windows == 12


# ---- a loop that repeats its noise


def unsure(window, sfn=None, cost=1_134):
    """A line that is probably false: no SIB1, at a cost of 12.6 % (`total` is 9,000)."""
    return dataclasses.replace(sighting(88, window, 500, sfn=sfn, has_sib1=False), cost=cost)


def marks_of(found):
    cells, _ = continuity.as_one(joined(found))
    return [(cell.windows, cell.is_chance(cells)) for cell in cells]


def test_a_false_detection_that_a_loop_repeats_is_one():
    """1,024 frames are 10.24 s, and 17 frames a window: after 1,024 windows the frame number is the same again."""
    assert marks_of([unsure(0), unsure(1_024)]) == [(2, True)]
    assert marks_of([unsure(0), unsure(1_024, cost=1_000)]) == [(2, False)]  # other noise
    assert marks_of([unsure(0), unsure(1)]) == [(2, False)]  # another frame


def test_a_loop_with_the_same_frame_number_in_each_window():
    assert marks_of([unsure(i, sfn=7) for i in range(3)]) == [(3, True)]
    assert marks_of([unsure(i, sfn=7, cost=900 + 40 * i) for i in range(3)]) == [(3, False)]
    sure = [dataclasses.replace(unsure(i, sfn=7), cost=90) for i in range(3)]
    assert marks_of(sure) == [(3, False)]
