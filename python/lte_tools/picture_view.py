"""What is drawn of some seconds of a radio's file: the file as recorded, its recording, and what the programs say of it.

Debian: python3-numpy, python3-scipy.
"""
from __future__ import annotations

import dataclasses
from dataclasses import dataclass, field
from typing import Any, Mapping

import numpy as np
import numpy.typing as npt

from . import doubts, programs, radio, recorded, sightings, spectrum, wide
from .answers import Cell, Evidence, Identity, Offset, Tuning
from .options import PictureOptions
from .picture_style import dbfs, facts_of
from .programs import Answers
from .radio_file import LEAST, RadioFile
from .rules import BY_NAME, RULES

PRIMARY = 832  # sample of a frame at which the primary signal begins, with either prefix, and half a frame later
HALF = radio.FRAME // 2
FRAMES = 17  # of a window that is asked for SIB1
BAND = 540_000  # hertz on either side that six resource blocks take


@dataclass(frozen=True)
class View:
    """The first second from there on, at most: what the file has, and what the programs answer of its recording."""

    name: str
    facts: str  # a line on the file and the seconds
    seen: recorded.Recorded
    centre: float  # hertz at the file's centre, 0 where it is not known
    carrier: float  # hertz beside the file's centre at which the cell is looked for
    offset: float  # of these, what was taken off further to --shift
    is_as_it_is: bool  # whether the programs read the file's own samples
    samples: npt.NDArray[np.int64]  # of the recording, pairs of whole numbers
    full: float  # full scale of the file in it
    hits: Answers[Identity]
    tuning: Tuning
    lines: Answers[Cell]  # of all lists
    supports: dict[str, Answers[Evidence]]  # by a rule's name
    beside: float | None = None  # dBFS in 15 kHz outside the middle 1.08 MHz
    # lines with what lists at the cells' bandwidths say of SIB1, by identity, frame start and frame number
    at_bandwidth: Mapping[tuple[int, int, int], Cell] = field(default_factory=dict)

    @property
    def said(self) -> dict[str, Any]:
        """What the programs wrote, by their commands."""
        found: dict[str, Any] = {"lte_tune tell --json": self.tuning.to_json()}
        found["lte_cli ids --json"] = self.hits.to_json()
        found["lte_cli search --all --json"] = self.lines.to_json()
        for rule in RULES:
            found[f"lte_cli {' '.join(rule.evidence)}"] = self.supports[rule.name].to_json()
        return found

    @property
    def tuned(self) -> Offset | None:
        """The offset by lte_tune, or None."""
        return self.tuning.offset

    @property
    def listed(self) -> list[Cell]:
        """The lines of all lists, each position by the rule that says most."""
        found: dict[tuple[int, int, int], Cell] = {}
        for line in self.lines:
            key = sightings.place_of(line)
            found[key] = max(found.get(key, line), line, key=sightings.saying)
        return [self.at_bandwidth.get(key, line) for key, line in found.items()]

    @property
    def paths(self) -> list[list[Cell]]:
        """The lines of each cell, that of its strongest path first."""
        found: list[list[Cell]] = []
        for line in sorted(self.listed, key=lambda line: -self.evidence(line).peak):
            cell = next((cell for cell in found if is_echo(line, cell[0])), None)
            if cell:
                cell.append(line)
            else:
                found.append([line])
        return found

    @property
    def cells(self) -> list[Cell]:
        """The listed cells by their strongest paths, what is sure and strong first."""
        lines = [cell[0] for cell in self.paths]
        return sorted(lines, key=lambda line: (line.sib1 is None, -(self.level(line) or -1e9)))

    @property
    def echoes(self) -> list[str]:
        """The further paths of cells, as the survey has them."""
        return [self.echo_text(cell[0], line) for cell in self.paths for line in cell[1:]]

    def echo_text(self, cell: Cell, line: Cell) -> str:
        half = sightings.CYCLE // 2
        later = (sightings.epoch_of(line) - sightings.epoch_of(cell) + half) % sightings.CYCLE - half
        level = radio.decibels(self.evidence(line).peak / self.evidence(cell).peak) or 0.0
        return f"echo of PCI {cell.identity}: {1e6 * later / radio.RATE:.1f} us {level:.1f} dB"

    def ratio(self, line: Cell) -> float | None:
        """Returns signal to noise of a line in dB."""
        support = self.evidence(line)
        return radio.ratio(support.power, support.noise, BY_NAME[str(line.rule)])

    def doubts(self, line: Cell) -> list[str]:
        """Returns the words of doubts about a line."""
        if line.sib1 is not None:
            return []
        is_wider = sightings.is_narrow(line) and doubts.is_carrier(self.beside, self.level(line), self.ratio(line))
        return [doubts.TEST_MODEL] * (self.evidence(line).mib == doubts.ZEROS) + [doubts.WIDER] * is_wider

    @property
    def carriers(self) -> list[spectrum.Carrier]:
        """The carriers in the file elsewhere than looked for."""
        return spectrum.carriers_of(self.seen, self.carrier, self.centre)

    def evidence(self, line: Cell) -> Evidence:
        """Returns the numbers of `evidence` about a line, of its rule's list."""
        every = self.supports[str(line.rule)]
        return next(one for one in every if sightings.place_of(one) == sightings.place_of(line))

    def level(self, line: Cell) -> float | None:
        support = self.evidence(line)
        return radio.level(support.power, support.noise, self.full, BY_NAME[str(line.rule)])

    def cell_of(self, hit: Identity) -> Cell | None:
        """Returns the listed cell, by whichever rule, whose primary signal stands at a hit's place, or None."""
        there = [
            line
            for line in self.listed
            if line.identity % 3 == hit.n2 and sightings.distance(hit.t, line.at + PRIMARY, HALF) <= sightings.NEAR
        ]
        return max(there, key=lambda line: line.identity == hit.identity) if there else None

    def is_agreed(self, hit: Identity) -> bool:
        """Returns whether another detection has the same identity and frames."""
        return sum((one.identity, one.at) == (hit.identity, hit.at) for one in self.hits) > 1

    def name_of(self, hit: Identity) -> str:
        """Returns the identity of a listed cell, with `?` one that two hits tell and no list has, else nothing."""
        line = self.cell_of(hit)
        if line:
            return f"PCI {line.identity}"
        return f"PCI {hit.identity}?" if self.is_agreed(hit) else ""

    @property
    def nothing(self) -> str:
        """Why there is nothing to see, in a word or two, or nothing."""
        if self.seen.is_still:
            return "constant"
        return "noise only" if not self.hits and self.seen.is_noise else ""

    @property
    def is_beyond(self) -> bool:
        """Whether the file's rate leaves out a part of where the cell is looked for."""
        return abs(self.carrier) + BAND > self.seen.rate / 2

    def summary(self) -> list[str]:
        """Returns lines on the file, and on what the programs say."""
        seen, hits, count = self.seen, self.hits, len(self.cells)
        still = [f"constant: {1000 * start:,.1f} to {1000 * end:,.1f} ms" for start, end in seen.still]
        lines = [
            f"{seen.count:,} samples at {seen.rate / 1e6:.10g} Ms/s",
            f"mean {dbfs(seen.mean)}",
            f"maximum component {dbfs(seen.greatest ** 2)}",
            f"DC {dbfs(seen.dc)}, {'left as it is' if self.is_as_it_is else 'taken off for what follows'}",
            f"clipped samples: {share_text(seen.share_at_full)}",
            *(["the cell's 1.08 MHz are not all in the file"] if self.is_beyond else []),
            *still[:3],
            *([f"and {len(still) - 3} more constant stretches"] if still[3:] else []),
            "",
            f"hits: {len(hits)}" + (f", {sum(map(bool, map(self.cell_of, hits)))} of listed cells" if hits else ""),
            f"cells: {count}",
            *self.echoes,
            *self.offset_lines(),
        ]
        if not count:
            lines += ["", *self.why_none()]
        return lines

    def offset_lines(self) -> list[str]:
        """Returns the offset by lte_tune before it is corrected, and the cells then."""
        if self.tuned is None:
            return ["lte_tune: no primary signal, no offset told"]
        hertz = self.tuned.hertz
        line = f"lte_tune: {hertz:+,.0f} Hz" if hertz else "lte_tune: 0 Hz"
        if self.tuned.cells:
            return [f"{line}; cells then: {self.tuned.cells}"]
        return [f"{line}; no cell of one port then" if self.cells else f"{line}: a guess, no cell then"]

    def why_none(self) -> list[str]:
        """Returns what a list without cells mostly comes from."""
        if self.nothing == "constant":
            return ["All samples are one: nothing was received."]
        if self.nothing:
            return ["Noise only: level over frequency and time,", "and no symbol's end comes again as a prefix."]
        if self.carriers:
            return ["The spectrum shows", *(one.text for one in self.carriers)]
        if not self.tuned:
            return [
                "No signal: the rate or the form of",
                "the numbers, I and Q exchanged (--exchanged),",
                "noise, or no carrier.",
            ]
        if self.tuned.cells and not self.offset and abs(self.tuned.hertz) > 500:
            return ["The frequency offset hides the cell:", "--tune takes it off."]
        if self.hits:
            return [
                "Signal, but no master block: noise, a carrier",
                "beside the lines (--shift, --offset), I and Q",
                "exchanged, or what docs/DEFINITION.md names.",
            ]
        return ["No hit at this frequency: --shift", "and --offset say another."]


def share_text(share: float) -> str:
    """Returns a ratio in percent, to two digits."""
    return "none" if share == 0 else f"{100 * share:.2g} %" if share < 0.1 else f"{100 * share:.0f} %"


def view_of(options: PictureOptions, file: RadioFile) -> View:
    """Returns what is drawn of a file."""
    start, seconds = file.starts(options.at, 1, 1)[0]
    seen = recorded.recorded(file, start, seconds)
    offset = options.offset or 0
    data, full = recording_of(file, start, seconds, offset, seen)
    tuning, is_guess = programs.tell(data), False
    if options.tune and tuning.offset and tuning.offset.turn:
        tuned = offset + tuning.offset.hertz
        data_then, full_then = recording_of(file, start, seconds, tuned, seen)
        is_guess = not tuning.offset.cells and not programs.search(data_then, all=True)
        if not is_guess:
            data, full, offset = data_then, full_then, tuned
    recording = programs.Recording(data)
    shift, time = file.shift_at(round(start * file.rate)), file.time_at(start)
    facts = facts_of(file.form, file.rate, file.carrier, shift)
    facts.append(f"{1000 * seconds:,.0f} ms from second {start:g}" + (f" ({time})" if time else ""))
    facts += [f"{offset:+,.0f} Hz taken off"] * bool(offset) + ["no offset taken off: it is a guess"] * is_guess
    if options.title:
        facts.insert(0, file.path.name)
    view = View(
        name=options.title or str(file.path),
        facts=", ".join(facts),
        seen=seen,
        centre=file.carrier - shift if file.carrier else 0,
        carrier=shift + offset,
        offset=offset,
        is_as_it_is=file.is_recording() and offset == 0,
        samples=np.frombuffer(data, "<i2").astype(np.int64).reshape(-1, 2),
        full=full,
        beside=beside_of(file, start, seconds, shift + offset),
        hits=programs.ids(data),
        tuning=tuning,
        lines=programs.search(data, all=True),
        supports={rule.name: programs.listed(Evidence, rule.evidence, recording, "evidence") for rule in RULES},
    )
    task = sightings.Task(file, start, seconds, offset)
    wider = {sightings.place_of(line): wider_line(view, task, line) for line in view.cells if wide.is_open(line)}
    return dataclasses.replace(view, at_bandwidth=wider)


def wider_line(view: View, task: sightings.Task, line: Cell) -> Cell:
    """Returns a line with SIB1 if a list at the cell's bandwidth has it in one of the first windows, else with a reason."""
    left = sightings.Detection(line, (view.evidence(line),)).measured
    offset = task.offset + (left.hertz if left.error < sightings.VAGUE else 0)
    best = line
    for number in range(wide.WINDOWS):
        part = window_in(task, number)
        if part.length < LEAST / radio.RATE or not wide.is_open(best):
            break
        here = dataclasses.replace(line, sfn=(line.sfn + FRAMES * number) % 1024)
        found = wide.answered(wide.Question(part, here, offset)).line
        if best is line or found.sib1:
            best = dataclasses.replace(line, sib1=found.sib1, no_sib1=found.no_sib1)
    return best


def window_in(task: sightings.Task, number: int) -> sightings.Task:
    """Returns one of the windows of 17 frames in some seconds, of less at their end."""
    later = number * sightings.WINDOW
    return dataclasses.replace(task, start=task.start + later, length=min(task.length - later, sightings.WINDOW))


def is_echo(line: Cell, other: Cell) -> bool:
    """Returns whether a line is another path of a line's cell."""
    apart = sightings.distance(sightings.epoch_of(line), sightings.epoch_of(other))
    return apart <= sightings.ECHO and sightings.is_of_one_cell(line, other)


def beside_of(file: RadioFile, start: float, seconds: float, centre: float) -> float | None:
    """Returns the power in 15 kHz outside the middle 1.08 MHz of a file in dBFS."""
    x = file.samples(round(start * file.rate), round(seconds * file.rate))
    return radio.decibels(spectrum.beside(x - x.mean(), file.rate, centre))


def recording_of(
    file: RadioFile, start: float, seconds: float, offset: float, seen: recorded.Recorded
) -> tuple[bytes, float]:
    """Returns the recording, and what full scale of the file is in it; of one value alone it is silence."""
    data, full = file.recording(start, seconds, offset)
    return (bytes(len(data)), full) if seen.is_still else (data, full)
