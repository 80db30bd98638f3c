"""A survey of a radio's file: the offset along the file, its windows, and what may be wrong where no cell is sure.

Debian: python3-numpy, python3-scipy. Needs lte_cli and lte_tune.
"""
from __future__ import annotations

import dataclasses
import functools
from typing import Sequence

import numpy as np

from . import asking, hints, identities, levels, parts, wide
from .asking import Ask
from .cells import SeenCell, joined
from .continuity import as_one
from .journal import Journal
from .options import SurveyOptions
from .radio_file import RadioFile
from .sightings import WINDOW, Sighting, Task, energy, offset_in, sightings
from .summary import Looked, survey_of_cells
from .survey_data import Survey

TELL_EVERY = 10  # seconds from one window whose offset is asked for to the next
STEEP = 350  # hertz between two windows with offsets above which one between them is asked too
TRIED = 4  # windows that are tried with I and Q exchanged


# ---- the offset along the file


def offsets_along(ask: Ask, tasks: Sequence[Task], own: range | None = None) -> list[tuple[int, float]]:
    """Returns pairs of a window's number and its offset, of the windows that were asked and have one; with `own`, those from
    which the offsets of these windows are the same as if all were asked."""
    strength = ask("level", energy, tasks)
    by_strength = sorted(range(len(tasks)), key=strength.__getitem__, reverse=True)
    stride = max(1, round(TELL_EVERY / max(tasks[1].start - tasks[0].start, 1e-3))) if tasks[1:] else 1
    some = sorted({by_strength[0], *range(0, len(tasks), stride), len(tasks) - 1})
    asked, known = set[int](), dict[int, float]()
    beside = parts.BESIDE
    while True:
        first, last = (0, len(some)) if own is None else parts.around(own, some, beside)
        wanted = set(some[first:last]) - asked
        while wanted:
            order = sorted(wanted)
            asked |= wanted
            found = ask("offset", offset_in, [tasks[i] for i in order])
            known |= {i: offset for i, offset in zip(order, found) if offset is not None}
            wanted = between(known) if known else set(by_strength[:16]) if last - first == len(some) else set()
            wanted -= asked
        points = sorted(known.items())
        if own is None or parts.is_enough(own, [i for i, _ in agreed(points)], first == 0, last == len(some)):
            return agreed(points)
        beside *= 2


def between(known: dict[int, float]) -> set[int]:
    """Returns the windows in the middle of those between which the offset changes much."""
    order = sorted(known)
    return {(a + b) // 2 for a, b in zip(order, order[1:]) if b - a > 1 and abs(known[a] - known[b]) > STEEP}


def agreed(points: list[tuple[int, float]]) -> list[tuple[int, float]]:
    """Returns the offsets without those that both neighbours contradict while they agree."""
    kept = points[:1]
    for before, here, after in zip(points, points[1:], points[2:]):
        if abs(before[1] - after[1]) > 2 * STEEP or abs(here[1] - (before[1] + after[1]) / 2) <= 4 * STEEP:
            kept.append(here)
    return kept + points[1:][-1:]


# ---- the survey


def surveyed(options: SurveyOptions, file: RadioFile, ask: Ask) -> Survey:
    """Returns the survey of a file's windows."""
    tasks = [Task(file, *window) for window in windows_of(options, file)]
    own = parts.own(options.part, len(tasks))
    points = [(0, options.offset)] if options.offset is not None else offsets_along(ask, tasks, own)
    offsets = np.zeros(len(tasks))
    if points:
        offsets = np.interp(range(len(tasks)), [i for i, _ in points], [offset for _, offset in points])
    asked = [(round(tasks[i].start, 6), round(offset, 1)) for i, offset in points]
    tasks = [task.with_offset(float(offset)) for task, offset in zip(tasks, offsets)]
    tasks = tasks if own is None else tasks[own.start : own.stop]
    looked = ask("cells", functools.partial(levels.looked_at, is_deep=options.deep), tasks)
    return survey_of_windows(options, file, ask, tasks, looked, asked)


def survey_of_windows(
    options: SurveyOptions,
    file: RadioFile,
    ask: Ask,
    tasks: Sequence[Task],
    looked: Sequence[levels.InWindow],
    asked: Sequence[tuple[float, float]],
    hint: str | None = None,
) -> Survey:
    """Returns the survey of windows and what is in each; `asked` are the seconds and offsets of some, `hint` is in place of
    what may be wrong where no cell is sure."""
    found = [one.listed for one in looked]
    lines = joined(flat(found))
    wide.inform(ask, lines)
    cells, jumps = as_one(lines)
    others = identities.joined((one for each in looked for one in each.detected), cells, jumps)
    others, cells = identities.confirmed(others, cells)
    known = [one.power for one in looked if one.power is not None]
    powers, steps = levels.even(cells, known, options.gain, levels.rounding_of(file), others)
    is_none = all(cell.is_chance(cells) for cell in cells)
    if hint is None and is_none:
        hint = why_none(ask, tasks, found, cells)
    elif hint is None and not options.deep:
        hint = hints.of_cancelling(cells, file)
    spoiled = [round(task.start, 6) for task, one in zip(tasks, found) if one is None]
    whole = Looked(len(tasks), spoiled, asked, jumps, powers, steps, others if options.deep else None)
    return survey_of_cells(options, file, cells, whole, hint)


def so_far(
    options: SurveyOptions, file: RadioFile, kept: Journal, starts: Sequence[float]
) -> tuple[Survey | None, list[float]]:
    """Returns the survey of those windows, of some that begin at these seconds, whose cells a journal has, None if there is
    none, and when they begin."""
    known = {task.start: (task, one) for task, one in kept.of_phase("cells")}
    done = [start for start in starts if start in known]
    offsets = {task.start: offset for task, offset in kept.of_phase("offset") if offset is not None}
    asked = [(round(start, 6), round(offset, 1)) for start, offset in sorted(offsets.items())]
    tasks, looked = [known[start][0] for start in done], [known[start][1] for start in done]
    hint = f"so far: {len(done):,} of {len(starts):,} windows"
    survey = survey_of_windows(options, file, asking.Kept(kept), tasks, looked, asked, hint) if done else None
    return survey, done


def windows_of(options: SurveyOptions, file: RadioFile) -> list[tuple[float, float]]:
    """Returns where all windows begin, and how long they are."""
    return file.starts(options.at, WINDOW, options.every, options.until)


def flat(found: Sequence[list[Sighting] | None]) -> list[Sighting]:
    """Returns the sightings of all windows."""
    return [sighting for one in found for sighting in one or []]


def why_none(ask: Ask, tasks: Sequence[Task], found: Sequence[list[Sighting] | None], cells: Sequence[SeenCell]) -> str:
    """Returns what is wrong with a file where no cell is sure: tries its strongest windows with I and Q exchanged, and asks
    which rule fails in one window."""
    file, strength = tasks[0].file, ask("level", energy, tasks)
    if max(strength) <= 0:
        return "nothing was received: all samples looked at are one"
    other = dataclasses.replace(file, is_exchanged=not file.is_exchanged)
    strongest = sorted(range(len(tasks)), key=strength.__getitem__, reverse=True)[:TRIED]
    tried = [dataclasses.replace(tasks[i], file=other, offset=0) for i in sorted(strongest)]
    offsets = ask("I and Q", offset_in, tried)
    tried = [task.with_offset(offset) for task, offset in zip(tried, offsets) if offset is not None]
    others = joined(flat(ask("I and Q", sightings, tried)))
    sure = sorted({cell.line.identity for cell in others if not cell.is_chance(others)})
    if sure:
        names = f"PCI {' and '.join(map(str, sure))}"
        return f"I and Q are exchanged: {'without' if file.is_exchanged else 'with'} --exchanged there is {names}"
    (carriers,) = ask("spectrum", hints.carriers_of, [tasks[strongest[0]]])
    number, question = hints.chosen(cells, found, strength)
    (reason,) = ask("why", hints.sentence, [hints.Asked(tasks[number], question)])
    return hints.added(
        f"no sure cell: tried {file.form} at {file.rate:,} samples per second, {file.shift:+,.0f} Hz beside the "
        "centre, offsets up to 60 kHz, I and Q both ways; "
        "--form, --rate, --shift and --offset say another, --scan looks beside",
        carriers,
        reason,
    )
