"""SIB1 of cells for which a list of six resource blocks has none: asked of recordings at the rate of the cell's bandwidth.

Of a cell's strongest windows, WINDOWS at most, PART seconds are converted at the lowest rate that holds the cell's resource
blocks, with the cell's own frequency offset corrected, and `lte_cli search --rate` lists them, until the line with the
cell's identity, frame start and frame number has SIB1. `lte_cli evidence --rate` gives the bits of its block.

Debian: python3-numpy, python3-scipy. Needs lte_cli.
"""
from __future__ import annotations

import dataclasses
import itertools
from dataclasses import dataclass
from typing import TYPE_CHECKING, Iterable, NamedTuple, Sequence

from . import programs, rates
from .answers import NOT_LISTED, Cell, Evidence
from .cells import SeenCell
from .columns import BLOCKS
from .radio_file import LEAST, RadioFile
from .rules import LONG_PREFIX, RULES, Rule
from .sightings import Sighting, Task, distance, epoch_of

if TYPE_CHECKING:
    from .asking import Ask

WINDOWS = 3  # of a cell that are asked
PART = 0.06  # seconds of a window: at least five frames, two of them with SIB1
NEEDS = "needs "  # begins the reason of a cell that the file does not hold
OF_SIX = ("bandwidth", "ports")  # reasons of a list of six resource blocks that does not look for SIB1
NEAR = 2  # samples at 1.92 million per second by which the frame start may differ


@dataclass(frozen=True)
class Question:
    """A line of a window's list, where the samples are, and the cell's frequency offset in hertz."""

    task: Task
    line: Cell
    offset: float

    @property
    def blocks(self) -> int:
        """The cell's resource blocks."""
        return int(self.line.bandwidth[1:])

    @property
    def is_held(self) -> bool:
        """Whether the file has all of the cell's frequencies."""
        file = self.task.file
        shift = file.shift_at(round(self.task.start * file.rate))
        return abs(shift) + rates.half_band(self.blocks) <= file.rate / 2


def question_of(one: Sighting, file: RadioFile | None = None) -> Question:
    """Returns what is asked of a sighting, of another file if its own has only the middle of the carrier."""
    return Question(dataclasses.replace(one.task, file=file) if file else one.task, one.line, one.offset)


def is_open(line: Cell) -> bool:
    """Returns whether a line has no SIB1, and a list at another rate may have it."""
    is_read = line.rule != LONG_PREFIX.name and not str(line.no_sib1).startswith(NEEDS)
    return line.sib1 is None and is_read


# ---- answers


class Found(NamedTuple):
    """The line of a question with SIB1 and the block's hexadecimal digits, or with the reason why SIB1 is not read at the
    cell's bandwidth."""

    line: Cell
    block: str | None = None


def answered(question: Question) -> Found:
    """Returns what is read at the cell's bandwidth."""
    line = question.line
    if not question.is_held:
        return Found(dataclasses.replace(line, no_sib1=f"{NEEDS}{BLOCKS[line.bandwidth]} MHz"))
    recording, rule = recording_of(question), rule_of(line)
    every = programs.listed(Cell, ("search", *rule.arguments, "--json"), recording, "search")
    found = next((one for one in every if is_of(line, one)), None) or unlisted(line)
    block = None if found.sib1 is None else block_of(line, programs.evidence_of(recording, rule))
    return Found(dataclasses.replace(line, sib1=found.sib1, no_sib1=found.no_sib1), block)


def unlisted(line: Cell) -> Cell:
    """Returns a line with the rate at which no list has it, if its reason is that six resource blocks do not say more."""
    if str(line.no_sib1).split(" ")[0] not in OF_SIX:
        return line
    rate = rates.RATES[rates.lowest(int(line.bandwidth[1:]))]
    return dataclasses.replace(line, no_sib1=f"{NOT_LISTED}{rate}")


def rule_of(line: Cell) -> Rule:
    """Returns the rule of the list for a line's antenna ports."""
    return next(one for one in RULES if one.announced == line.ports)


def block_of(line: Cell, every: Iterable[Evidence]) -> str | None:
    """Returns the hexadecimal digits of the block of a line's SIB1, or None."""
    return next((one.sib1_block for one in every if is_of(line, one)), None)


def recording_of(question: Question) -> programs.Recording:
    """Returns a part of the window at the rate of the cell's bandwidth; a part of three frames that the conversion made
    shorter ends in silence."""
    task, rate = question.task, rates.lowest(question.blocks)
    data, _ = task.file.filtered(task.start, min(task.length, PART), question.offset, rate)
    data = data.ljust(4 * LEAST * rate // rates.NARROW, b"\0")
    return programs.Recording(data, rates.arguments_of(rate))


def is_of(line: Cell, other: Cell | Evidence) -> bool:
    """Returns whether two lines of a window have one identity, frame start and frame number."""
    return line.identity == other.identity and distance(epoch_of(line), epoch_of(other)) <= NEAR


def with_answer(one: Sighting, found: Found) -> Sighting:
    """Returns a sighting with SIB1 of an answer and its block, or with its reason."""
    if found.line.sib1 is None:
        return dataclasses.replace(one, unread=found.line.no_sib1)
    line = dataclasses.replace(one.line, sib1=found.line.sib1, no_sib1=None)
    return dataclasses.replace(one, line=line, sib1_block=found.block, is_wide=True)


def informed(one: Sighting) -> Sighting:
    """Returns a sighting with SIB1 if that is read at the cell's bandwidth, else with the reason."""
    return with_answer(one, answered(question_of(one))) if is_open(one.line) else one


# ---- cells


def inform(ask: Ask, cells: Sequence[SeenCell], files: Sequence[RadioFile] = ()) -> None:
    """Reads SIB1 of cells that have none, of the strongest window of each, then of the next for those that are left. The
    samples are those of the sightings, or of one file for each cell that has the same times."""
    strongest = [sorted(cell.seen, key=lambda one: one.strength, reverse=True)[:WINDOWS] for cell in cells]
    for number in range(WINDOWS):
        every = itertools.zip_longest(cells, strongest, files)
        asked = [(cell, seen[number], file) for cell, seen, file in every if is_open(cell.line) and seen[number:]]
        found = ask("SIB1", answered, [question_of(one, file) for _, one, file in asked])
        for (cell, one, _), answer in zip(asked, found):
            cell.replace(one, with_answer(one, answer))
