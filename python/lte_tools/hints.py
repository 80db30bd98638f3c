"""Why a survey found no sure cell: the rule of `lte_cli why` that fails in one window, with its number.

The window is the one nearest to a window that lists a doubtful cell, and the identity is that cell's. If every window
lists it, or no cell was found, the window is the strongest one, and the identity is that of its strongest PSS detection,
in the list of one antenna port.
"""
from __future__ import annotations

import math
from typing import NamedTuple, Sequence

from . import programs, recorded, spectrum
from .answers import Identity
from .cells import SeenCell
from .radio_file import RadioFile, Spoiled
from .rules import BY_NAME, ONE_PORT, Rule
from .sightings import Sighting, Task, window_of

LOUDEST = -37.4  # dBFS of a reference element that `search --cancel` cancels at most: that of the gain 28
STILL = 60  # hertz that a hidden cell may feign; above them its one gain cancels nothing


class Question(NamedTuple):
    """The identity to ask for and the rule of the list. Without an identity it is that of the window's strongest detection,
    unless that is one of those `listed`."""

    identity: int | None = None
    rule: Rule = ONE_PORT
    listed: tuple[int, ...] = ()


class Asked(NamedTuple):
    """A window and its question."""

    task: Task
    question: Question


def sentence(asked: Asked) -> str | None:
    """Returns the first rule that fails in a window, in plain English; None if nothing does."""
    task, (identity, rule, listed) = asked
    try:
        recording = programs.Recording(window_of(task).data)
    except Spoiled:
        return None
    where = f"the window at {task.start:.2f} s"
    if identity is not None:
        found = programs.reasons_for(identity, rule, recording)
        return None if found.is_listed else f"{where} does not list {found.text}"
    detections = programs.listed(Identity, ("ids", "--json"), recording, "ids").items
    if not detections:
        return f"{where} has no PSS detection: no primary signal is 25 % of the energy at any sample"
    strongest = max(detections, key=lambda one: one.ratio).identity
    if strongest in listed:
        return None
    found = programs.reasons_for(strongest, rule, recording)
    return None if found.is_listed else f"the strongest detection of {where} is {found.text}"


def carriers_of(task: Task) -> str | None:
    """Returns a sentence on the carriers that a window's spectrum shows elsewhere than looked for, or None."""
    file, shift = task.file, task.file.shift_at(round(task.start * task.file.rate))
    try:
        seen = recorded.recorded(file, task.start, task.length)
    except Spoiled:
        return None
    found = spectrum.carriers_of(seen, shift, file.carrier - shift if file.carrier else 0)
    return f"the spectrum shows {'; '.join(one.text for one in found)}" if found else None


def of_cancelling(cells: Sequence[SeenCell], file: RadioFile) -> str | None:
    """Returns why `search --cancel` does not cancel the only sure cell of a file that is a recording, or None."""
    sure = [cell for cell in cells if not cell.is_chance(cells)]
    if len(sure) != 1 or not file.is_recording() or sure[0].line.sib1 is None or sure[0].line.ports != 1:
        return None
    if not any(one.sib1_block and not one.is_wide for one in sure[0].seen):
        return None  # SIB1 was read at a rate, which `search --cancel` does not have
    one, faults = sure[0].strongest, list[str]()
    if one.level is not None and one.level > LOUDEST:
        faults.append(f"divide the samples by {math.ceil(10 ** ((one.level - LOUDEST) / 20))}")
    if abs(one.offset) > STILL:
        faults.append(f"correct the offset of {one.offset:+,.0f} Hz")
    if not faults:
        return None
    return (
        f"if PCI {one.line.identity} hides a weaker cell: --deep detects its identity; for its MIB {' and '.join(faults)}, "
        f"since lte_cli search --cancel cancels cells of up to {LOUDEST} dBFS without traffic or a frequency offset"
    )


def order(cell: SeenCell) -> tuple[int, float]:
    """Returns the key by which doubtful cells are asked for: those in most windows first, then those at least cost."""
    return -cell.windows, cell.share


def about(cell: SeenCell) -> Question:
    return Question(cell.line.identity, BY_NAME[str(cell.line.rule)])


def next_to(cell: SeenCell, found: Sequence[Sequence[Sighting] | None]) -> int | None:
    """Returns the number of the window that does not list a cell and is nearest to one that does, or None; `found` are the
    sightings of each window."""
    having = [i for i, one in enumerate(found) if one is not None and cell.line.identity in identities(one)]
    lacking = [i for i, one in enumerate(found) if one is not None and cell.line.identity not in identities(one)]
    if not having or not lacking:
        return None
    return min(lacking, key=lambda i: min(abs(i - j) for j in having))


def chosen(
    cells: Sequence[SeenCell], found: Sequence[Sequence[Sighting] | None], strength: Sequence[float]
) -> tuple[int, Question]:
    """Returns the number of the window to ask, and its question; `strength` is that of each window."""
    for cell in sorted(cells, key=order):
        if (number := next_to(cell, found)) is not None:
            return number, about(cell)
    strongest = max(range(len(strength)), key=strength.__getitem__)
    return strongest, Question(listed=identities(found[strongest] or ()))


def identities(found: Sequence[Sighting]) -> tuple[int, ...]:
    return tuple(one.line.identity for one in found)


def added(hint: str, *reasons: str | None) -> str:
    """Returns a hint with further sentences, those that are not None."""
    return ". ".join([hint, *(reason[0].upper() + reason[1:] for reason in reasons if reason)])
