"""Why our list does not have a cell that another list has: what `lte_cli why`, `ids` and `ids --deep` report at its place.

The windows are those at the times that their list states, else some along the recording. Debian: python3-numpy,
python3-scipy. Needs lte_cli.
"""
from __future__ import annotations

import dataclasses
from typing import NamedTuple

import numpy as np

from . import compare_lists, programs, radio, radio_file
from .answers import Deep, Identity
from .compare_lists import EXTENDED, FRAME, MEMBERS, CellList, Listed
from .compare_bundle import MOST_WINDOWS, Part
from .compare_verdicts import DIFFERENCES, PREFIXES, SAMPLE, Comparison, Verdict
from .options import SurveyOptions
from .radio_file import Spoiled
from .reasons import ORDER, NoMib, Why
from .rules import LONG_PREFIX, RULES, Rule
from .sightings import WINDOW, Task, window_of
from .survey_data import Survey

MOST = 30  # cells whose reasons are asked for
WINDOWS = 3  # windows that are asked for a cell without a time
GROUPS = 168  # groups of identities, of which a detection by chance has one
PRIMARY = 832  # samples from a frame start to the useful part of its primary signal (TS 36.211 section 6.11.1.2)
HALF = 9_600  # samples of half a frame
NEAR = 9  # samples by which a detection may be off
NOISE = (
    0.10  # of the soft values disagree with the best codeword if there is only noise (README, "When a cell is missing")
)
BELOW, NOTHING, FALSE = "below-our-rule", "nothing-there", "probably-false"
# cases of a cell that only their list has, and what they mean
CASES = {
    BELOW: "the identity stands out, and the MIB does not reach our rule",
    NOTHING: "at its place there is what noise or another cell gives",
    FALSE: "our survey has it as a line that is probably a false detection",
}


class Asked(NamedTuple):
    """What the programs report of a cell in a window: why each list lacks it, the window's detections, and the cells that are
    detected over many half-frames."""

    start: float
    why: Why
    detections: tuple[Identity, ...]
    deep: Deep


class Asker:
    """A recording's windows, each asked once."""

    def __init__(self, given: SurveyOptions, survey: Survey) -> None:
        self.tasks = tasks_of(given, survey)
        self.best: dict[tuple[str, ...], float] = {}  # the window of each reason, by the cell's places
        self.known: dict[float, tuple[programs.Recording, tuple[Identity, ...], Deep] | None] = {}

    def window(self, task: Task) -> tuple[programs.Recording, tuple[Identity, ...], Deep] | None:
        """Returns a window as a recording, its detections and its cells of `ids --deep`; None without numbers."""
        if task.start not in self.known:
            try:
                recording = programs.Recording(window_of(task).data)
            except Spoiled:
                self.known[task.start] = None
                return None
            detections = programs.listed(Identity, ("ids", "--json"), recording, "ids").items
            self.known[task.start] = recording, detections, programs.deep_of(recording)
        return self.known[task.start]

    def tasks_for(self, theirs: Listed) -> list[Task]:
        """Returns the windows for a cell: those at the times that its list states, else some along the recording."""
        times = [one.seconds for one in theirs.frames if one.seconds is not None]
        times += [one.seconds for one in theirs.levels if one.seconds is not None]
        times = [one for one in times if one < compare_lists.SINCE_1970]
        if times:
            places = {
                min(range(len(self.tasks)), key=lambda i: abs(self.tasks[i].start - time)) for time in times[:WINDOWS]
            }
        else:
            places = set(np.linspace(0, len(self.tasks) - 1, min(WINDOWS, len(self.tasks))).round().astype(int))
        return [self.tasks[i] for i in sorted(places)]

    def asked(self, theirs: Listed) -> list[Asked]:
        """Returns what the programs report of a cell in its windows."""
        found = []
        for task in self.tasks_for(theirs):
            window = self.window(task)
            if window is not None and theirs.identity is not None:
                recording, detections, deep = window
                why = [programs.reasons_for(theirs.identity, rule, recording) for rule in rules_of(theirs)]
                found.append(Asked(task.start, max(why, key=rank), detections, deep))
        return found


def tasks_of(given: SurveyOptions, survey: Survey) -> list[Task]:
    """Returns the windows of a recording, with the offsets that its survey has."""
    file = radio_file.opened(given)
    tasks = [Task(file, *window) for window in file.starts(given.at, WINDOW, given.every)]
    points = survey.offsets or ((0.0, given.offset or 0.0),)
    offsets = np.interp([task.start for task in tasks], [at for at, _ in points], [hertz for _, hertz in points])
    return [task.with_offset(float(offset)) for task, offset in zip(tasks, offsets)]


def rules_of(theirs: Listed) -> tuple[Rule, ...]:
    """Returns the rules of the lists that may have a cell."""
    if theirs.prefix == EXTENDED:
        return (LONG_PREFIX,)
    found = tuple(rule for rule in RULES if rule.announced == theirs.ports)
    return found if theirs.ports is not None and found else RULES


def rank(why: Why) -> tuple[int, float]:
    """Returns how far a list came with a cell: its furthest rule, and the fraction of soft values that agree."""
    furthest = why.furthest
    share = furthest.share if isinstance(furthest, NoMib) else None
    return ORDER.index(furthest.rule), 0.0 if share is None else -share


# ---- windows for a bundle


def parts_of(found: Comparison, ours: CellList, asker: Asker) -> list[Part]:
    """Returns the windows that the differences need, those of most differences first, MOST_WINDOWS at most."""
    wanted: dict[float, set[int]] = {}
    for one in found.verdicts:
        start = start_of(one, ours, asker) if one.verdict in DIFFERENCES else None
        if start is not None:
            named = {one.identity, int(one.theirs) if one.field == "identity" and one.theirs else None}
            wanted.setdefault(start, set()).update(identity for identity in named if identity is not None)
    order = sorted(wanted, key=lambda start: (-len(wanted[start]), start))[:MOST_WINDOWS]
    by_start = {task.start: task for task in asker.tasks}
    return [Part(start, window_of(by_start[start]).data, tuple(sorted(wanted[start]))) for start in sorted(order)]


def start_of(verdict: Verdict, ours: CellList, asker: Asker) -> float | None:
    """Returns where the window of a difference begins: that of its reason, or that in which our cell is strongest."""
    if verdict.places[:1] in asker.best:
        return asker.best[verdict.places[:1]]
    same = [one for one in ours.cells if (one.identity, one.cell) == (verdict.identity, verdict.cell)]
    seen = [level for one in same for level in one.levels if level.seconds is not None]
    if not seen or not asker.tasks:
        return None
    strongest = max(seen, key=lambda level: level.decibels).seconds or 0.0
    before = [task.start for task in asker.tasks if task.start <= strongest]
    return max(before, default=asker.tasks[0].start)


# ---- sentences


def with_reasons(found: Comparison, theirs: CellList, asker: Asker, survey: Survey) -> Comparison:
    """Returns a comparison in which each cell that only their list has states why ours does not have it."""
    only = [one for one in found.verdicts if one.verdict == "theirs-only"]
    by_place = {one.places[:1]: one for one in theirs.cells}
    reasoned = {id(one): reasoned_of(one, by_place[one.places[:1]], asker, survey) for one in only[:MOST]}
    notes = found.notes
    if len(only) > MOST:
        notes += (f"reasons: asked for {MOST} of {len(only)} cells that only their list has",)
    verdicts = tuple(reasoned.get(id(one), one) for one in found.verdicts)
    return dataclasses.replace(found, verdicts=verdicts, notes=notes)


def reasoned_of(verdict: Verdict, theirs: Listed, asker: Asker, survey: Survey) -> Verdict:
    """Returns a verdict on a cell that only their list has, with its case and reason."""
    false = next((one for one in survey.cells if one.chance and one.identity == theirs.identity), None)
    if false is not None:
        windows = f"{false.windows} window{'s' * (false.windows != 1)}"
        note = f"our survey has it as a probably false detection: {windows}, cost {100 * false.share:.1f} %, no SIB1"
        return dataclasses.replace(verdict, case=FALSE, note=note)
    asked = asker.asked(theirs)
    if not asked:
        return verdict
    best = max(asked, key=lambda one: (is_deep(one, theirs), rank(one.why)))
    asker.best[verdict.places[:1]] = best.start
    case = BELOW if is_below(best, theirs) else NOTHING
    parts = [f"{'detected below our rule' if case == BELOW else 'nothing there'} at {best.start:.2f} s"]
    parts += [deep_text(best, theirs), best.why.furthest.text, chance_text(best, theirs), place_text(best, theirs)]
    if case == BELOW:
        parts.append("where the rule ends is our choice")
    return dataclasses.replace(verdict, case=case, note="; ".join(part for part in parts if part))


def is_deep(asked: Asked, theirs: Listed) -> bool:
    """Returns whether a window detects a cell over many half-frames, at the frame start that its list states."""
    return any(one.identity == theirs.identity and is_at(one.at, asked, theirs) for one in asked.deep.cells)


def is_at(sample: int, asked: Asked, theirs: Listed) -> bool:
    """Returns whether a frame that begins at a sample of a window is at the frame start that their list states, if it
    does."""
    if theirs.start is None:
        return True
    away = (asked.start + sample / radio.RATE - theirs.start + FRAME / 2) % FRAME - FRAME / 2
    return abs(away) <= PREFIXES[theirs.prefix == EXTENDED] + SAMPLE


def is_below(asked: Asked, theirs: Listed) -> bool:
    """Returns whether a cell's identity stands out in a window, although its MIB does not reach the rule."""
    furthest = asked.why.furthest
    if is_deep(asked, theirs) or furthest.rule in ("ports", "listed"):
        return True
    is_codeword = isinstance(furthest, NoMib) and furthest.share is not None and furthest.share < NOISE
    return is_codeword and isinstance(furthest, NoMib) and is_at(furthest.at, asked, theirs)


def deep_text(asked: Asked, theirs: Listed) -> str:
    """Returns what `ids --deep` has of a cell."""
    found = next((one for one in asked.deep.cells if one.identity == theirs.identity), None)
    if found is None:
        return f"not detected over {asked.deep.half_frames} half-frames"
    return f"detected over {asked.deep.half_frames} half-frames with {found.matches} of 124 signs"


def chance_text(asked: Asked, theirs: Listed) -> str:
    """Returns how often chance gives a detection this identity: that of one of 168 groups."""
    if not isinstance(asked.why.furthest, NoMib) or is_deep(asked, theirs) or theirs.identity is None:
        return ""
    count = sum(one.n2 == theirs.identity % MEMBERS for one in asked.detections)
    return f"by chance {count / GROUPS:.2f} of {count} PSS detections of its root have its group"


def place_text(asked: Asked, theirs: Listed) -> str:
    """Returns what is at the frame start that their list states."""
    if theirs.start is None:
        return ""
    start = round((theirs.start - asked.start) % FRAME * radio.RATE)
    near = [one for one in asked.detections if (one.t - PRIMARY - start + NEAR) % HALF <= 2 * NEAR]
    if not near:
        return "at their frame start there is no PSS detection"
    best = max(near, key=lambda one: one.ratio)
    same = " itself" if best.identity == theirs.identity else ""
    return f"at their frame start there is a PSS detection with PCI {best.identity}{same}"
