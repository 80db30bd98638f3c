"""Looks for cells at each carrier frequency that a file holds: the raster of 100 kHz, with 540 kHz on either side.

Each window is transformed once, and the samples about each frequency are taken from that. `lte_tune tell` tells up to
60 kHz of offset, so a cell may be listed from two frequencies of the raster: it counts at the one that it is nearer to.
Where the file's centre is not known, it is taken as one of the raster.

Debian: python3-numpy, python3-scipy. Needs lte_cli and lte_tune.
"""
from __future__ import annotations

import dataclasses
import math
from typing import TYPE_CHECKING, Any, NamedTuple, Sequence

import numpy as np
from scipy import fft

from . import bands, hints, levels, parts, radio, radio_file, recorded, sources, wide
from .cells import SeenCell, joined
from .continuity import Jump, as_one
from .doubts import doubts_of
from .machine import Refused
from .options import SurveyOptions
from .radio_file import RadioFile
from .sightings import NEAR, WINDOW, Sighting, Task, distance, energy, offset_in, sightings
from .summary import Looked, survey_of_cells
from .survey_data import Scan, Spectrum, Survey, SurveyCell
from .to_ci16 import ratio_of

if TYPE_CHECKING:
    from .asking import Ask
    from .journal import Journal

SAME = 2_000  # hertz by which one cell may seem to stand elsewhere, by the raster's other frequency
HELD = 8  # bytes of a sample in memory
SPECTRA, BRIEF, FLOOR = 4, 0.05, 1e-20  # windows of a spectrum, seconds of each, and the least power of it
TOGETHER, EACH = 8, 4  # least frequencies that a process takes from one transform, and how often each has its turn
QUESTIONS = 64  # of a survey whose answers are kept, at least, as far as TOGETHER allows


def centre_of(file: RadioFile) -> float:
    """Returns the file's centre in hertz, 0 where it is not known."""
    return file.carrier - file.shift if file.carrier else 0


def raster(file: RadioFile) -> list[float]:
    """Returns how far above the centre each frequency is, in hertz."""
    centre, room = centre_of(file), file.rate / 2 - radio_file.BESIDE
    numbers = range(math.ceil((centre - room) / bands.RASTER), math.floor((centre + room) / bands.RASTER) + 1)
    if not numbers:
        raise Refused(f"{file.path}: no frequency of the raster has 540 kHz of it on either side")
    return [bands.RASTER * n - centre for n in numbers]


def shifts_of(options: SurveyOptions, file: RadioFile) -> list[float]:
    """Returns how far above the centre each frequency to look at is, in hertz."""
    if not options.carriers:
        return raster(file)
    centre = centre_of(file)
    if not centre:
        raise Refused(f"{file.path}: the file's centre is not known: with --carriers, --carrier HZ says it")
    shifts = sorted({carrier - centre for carrier in options.carriers})
    for shift in shifts:
        file.check_holds(shift, f"{centre + shift:,.0f} Hz")
    return shifts


# ---- one window


class Look(NamedTuple):
    """A window of a file, in seconds, the frequencies to look at, and the offset to correct, if one is given."""

    file: RadioFile
    start: float
    length: float
    shifts: list[float]
    offset: float | None


def seen_at_each(look: Look) -> list[list[Sighting]] | None:
    """Returns the sightings at each frequency; None where the samples are not numbers."""
    try:
        spectrum = transformed(look)
    except radio_file.Spoiled:
        return None
    return [at_frequency(look, channel_of(spectrum, look, shift)) for shift in look.shifts]


def transformed(look: Look) -> Any:
    """Returns the transform of a window, of so many samples that 1.92e6 has a whole number in its time."""
    rate = look.file.rate
    count, step = round(look.length * rate), ratio_of(rate).numerator
    x = look.file.samples(round(look.start * rate), count // step * step)
    x = x[: len(x) // step * step]
    return fft.fft((x - x.mean()).astype(np.complex64))


def channel_of(spectrum: Any, look: Look, shift: float) -> RadioFile:
    """Returns the samples about a frequency, at 1.92e6, held as a file of their own."""
    rate, count = look.file.rate, len(spectrum)
    ratio = ratio_of(rate)
    kept = count // ratio.numerator * ratio.denominator
    middle = round(shift * count / rate)
    bins = middle + np.arange(kept) - kept // 2
    part = np.where(abs(bins) <= count // 2, spectrum[bins % count], 0)
    x = fft.ifft(fft.ifftshift(part)) * (kept / count)
    first = round(look.start * radio.RATE)
    return dataclasses.replace(
        look.file,
        form="f32",
        rate=radio.RATE,
        count=first + kept,
        shift=shift - middle * rate / count,
        stretches=(),
        begins=-HELD * first,
        channels=1,
        channel=0,
        is_exchanged=False,
        held=x.astype("<c8").tobytes(),
    )


def at_frequency(look: Look, channel: RadioFile) -> list[Sighting]:
    """Returns the sightings of a window's channel, without its samples."""
    task = task_of(look, channel)
    offset = offset_in(task) if look.offset is None else look.offset
    found = [] if offset is None else sightings(task.with_offset(offset))
    return [one.bare() for one in found or []]


def task_of(look: Look, channel: RadioFile) -> Task:
    """Returns a window's channel with the offset to correct at first."""
    return Task(channel, look.start, (channel.count * HELD + channel.begins) / HELD / radio.RATE, look.offset or 0)


def reason_in(asked: tuple[Look, hints.Question]) -> str | None:
    """Returns the first rule that fails in a window, at the one of its frequencies with most energy."""
    look, question = asked
    try:
        spectrum = transformed(look)
    except radio_file.Spoiled:
        return None
    shift = max(look.shifts, key=lambda one: energy_at(spectrum, look.file.rate, one))
    reason = hints.sentence(hints.Asked(task_of(look, channel_of(spectrum, look, shift)), question))
    return reason and f"at {megahertz(look.file, shift)} {reason}"


def energy_at(spectrum: Any, rate: float, shift: float) -> float:
    """Returns the energy of the resource blocks about a frequency."""
    count = len(spectrum)
    bins = np.arange(
        round((shift - radio_file.BESIDE) * count / rate), round((shift + radio_file.BESIDE) * count / rate)
    )
    return float(np.sum(np.abs(spectrum[bins % count]) ** 2))


def megahertz(file: RadioFile, shift: float) -> str:
    """Returns the text of a frequency."""
    centre = centre_of(file)
    return f"{(centre + shift) / 1e6:g} MHz" if centre else f"{shift / 1e6:+g} MHz from the centre"


# ---- the file


def starts_of(options: SurveyOptions, file: RadioFile) -> list[tuple[float, float]]:
    """Returns where windows begin, and how long they are: in the captures of one centre."""
    stretches = tuple(one for one in file.stretches if one.shift == file.shift)
    return dataclasses.replace(file, stretches=stretches).starts(options.at, WINDOW, options.every, options.until)


def scanned(options: SurveyOptions, file: RadioFile, ask: Ask) -> Survey:
    """Returns the survey of all frequencies; `ask` answers for many windows."""
    starts = starts_of(options, file)
    own = parts.own(options.part, len(starts))
    looks = looks_of(options, file, starts)
    some = starts if own is None else starts[own.start : own.stop]
    looks = [look for look in looks if (look.start, look.length) in set(some)]
    return survey_of_looks(options, file, ask, some, list(zip(looks, ask("scan", seen_at_each, looks))))


def looks_of(options: SurveyOptions, file: RadioFile, starts: Sequence[tuple[float, float]]) -> list[Look]:
    """Returns what is asked of windows: some frequencies at a time, the same whoever asks where answers are kept."""
    shifts = shifts_of(options, file)
    together = math.ceil(len(shifts) * len(starts) / (EACH * options.jobs))
    if options.is_kept or options.dask is not None:
        together = math.ceil(len(shifts) / math.ceil(QUESTIONS / len(starts)))
    together = max(TOGETHER, together)
    some = [shifts[i : i + together] for i in range(0, len(shifts), together)]
    return [Look(file, *start, part, options.offset) for start in starts for part in some]


def so_far(options: SurveyOptions, file: RadioFile, kept: Journal, ask: Ask) -> tuple[Survey | None, list[float]]:
    """Returns the survey of those windows of which a journal has all frequencies, None if there is none, and when they
    begin; `ask` answers by the journal alone."""
    starts = starts_of(options, file)
    looks = looks_of(options, file, starts)
    found = list(zip(looks, ask("scan", seen_at_each, looks)))
    is_kept = [kept.has(kept.key_of("scan", seen_at_each, look)[0]) for look in looks]
    open_ = {look.start for look, is_one in zip(looks, is_kept) if not is_one}
    done = [one for one in starts if one[0] not in open_]
    found = [pair for pair in found if pair[0].start not in open_]
    hint = f"so far: {len(done):,} of {len(starts):,} windows"
    survey = survey_of_looks(options, file, ask, done, found, hint) if done else None
    return survey, [start for start, _ in done]


def survey_of_looks(
    options: SurveyOptions,
    file: RadioFile,
    ask: Ask,
    starts: Sequence[tuple[float, float]],
    found: Sequence[tuple[Look, list[list[Sighting]] | None]],
    hint: str | None = None,
) -> Survey:
    """Returns the survey of windows and what is seen in each at each frequency; `hint` is in place of what may be wrong where
    no cell is sure."""
    shifts = shifts_of(options, file)
    spoiled = [round(start, 6) for start in dict.fromkeys(look.start for look, one in found if one is None)]
    seen_by_shift: dict[float, list[Sighting]] = {shift: [] for shift in shifts}
    for look, one in found:
        for shift, seen in zip(look.shifts, one or []):
            seen_by_shift[shift] += seen
    whole = {shift: as_one(joined(seen)) for shift, seen in seen_by_shift.items()}
    by_shift = {shift: cells for shift, (cells, _) in whole.items()}
    levels.even([cell for cells in by_shift.values() for cell in cells], [], options.gain)
    kept = nearest(by_shift)
    files = [dataclasses.replace(file, shift=shift, stretches=()) for shift, _ in kept]
    wide.inform(ask, [cell for _, cell in kept], files)
    cells = tuple(cell_at(options, file, shift, cell, by_shift) for shift, cell in kept)
    if hint is None and all(cell.chance for cell in cells):
        hint = why_none(ask, found, by_shift)
    jumps = different([jump for _, own in whole.values() for jump in own])
    survey = survey_of_cells(options, file, [], Looked(len(starts), spoiled, jumps=jumps), hint)
    spectrum = spectrum_of(ask, file, starts)
    return dataclasses.replace(survey, cells=cells, scan=frequencies(file, shifts, spectrum))


def different(jumps: Sequence[Jump]) -> list[Jump]:
    """Returns the jumps that cells of different frequencies have, each once."""
    found: list[Jump] = []
    for jump in sorted(jumps):
        if not any(jump.is_like(other) for other in found):
            found.append(jump)
    return found


def why_none(
    ask: Ask, found: Sequence[tuple[Look, list[list[Sighting]] | None]], by_shift: dict[float, list[SeenCell]]
) -> str:
    """Returns what a scan says where no cell is sure: also which rule fails in one window at one frequency."""
    asked = None
    for shift, cell in sorted(nearest(by_shift), key=lambda pair: hints.order(pair[1])):
        looks = [(look, one) for look, one in found if shift in look.shifts]
        seen = [None if one is None else one[look.shifts.index(shift)] for look, one in looks]
        if (number := hints.next_to(cell, seen)) is not None:
            asked = looks[number][0]._replace(shifts=[shift]), hints.about(cell)
            break
    if asked is None:
        looked = list({look.start: look for look, _ in found}.values())
        strength = ask("level", energy, [Task(look.file, look.start, look.length) for look in looked])
        strongest = looked[max(range(len(looked)), key=strength.__getitem__)]
        listed = tuple(cell.line.identity for cells in by_shift.values() for cell in cells)
        asked = strongest._replace(shifts=list(by_shift)), hints.Question(listed=listed)
    return hints.added("no sure cell at any of these frequencies", ask("why", reason_in, [asked])[0])


def frequencies(file: RadioFile, shifts: Sequence[float], spectrum: Spectrum | None = None) -> Scan:
    """Returns which frequencies were looked at, in hertz, or above the centre where it is not known."""
    centre = centre_of(file)
    return Scan(sources.whole(centre + shifts[0]), sources.whole(centre + shifts[-1]), len(shifts), spectrum)


def spectrum_of(ask: Ask, file: RadioFile, starts: Sequence[tuple[float, float]]) -> Spectrum | None:
    """Returns the mean spectrum of some windows, None if none has numbers."""
    some = [starts[i] for i in sorted({len(starts) * k // SPECTRA for k in range(SPECTRA)})]
    tasks = [Task(file, start, min(length, BRIEF)) for start, length in some]
    found = [one for one in ask("spectrum", recorded_in, tasks) if one is not None]
    if not found:
        return None
    power = np.mean([one.power.mean(1) for one in found], axis=0)
    levels = tuple(round(float(level), 1) for level in 10 * np.log10(np.maximum(power, FLOOR)))
    return Spectrum(round(centre_of(file) + found[0].lowest, 1), round(found[0].step, 3), levels)


def recorded_in(task: Task) -> recorded.Recorded | None:
    """Returns what a window of the file is like, None if its samples are not numbers."""
    try:
        return recorded.recorded(task.file, task.start, task.length)
    except radio_file.Spoiled:
        return None


def nearest(by_shift: dict[float, list[SeenCell]]) -> list[tuple[float, SeenCell]]:
    """Returns pairs of a frequency and a cell, each cell once, in the order of frequency."""
    every = [(shift, cell) for shift, cells in by_shift.items() for cell in cells]
    every.sort(key=lambda pair: abs(offset_of(pair[1])))
    kept: list[tuple[float, SeenCell]] = []
    for shift, cell in every:
        if not any(is_same(shift, cell, *other) for other in kept):
            kept.append((shift, cell))
    return sorted(kept, key=lambda pair: (pair[0], -pair[1].windows))


def is_same(shift: float, cell: SeenCell, other_shift: float, other: SeenCell) -> bool:
    """Returns whether two cells of different frequencies of the raster are one."""
    return (
        shift != other_shift
        and cell.line.identity == other.line.identity
        and abs(shift + offset_of(cell) - other_shift - offset_of(other)) <= SAME
        and any(distance(a.epoch, b.epoch) <= NEAR for a in cell.seen for b in other.seen)
    )


def offset_of(cell: SeenCell) -> float:
    return cell.strongest.offset


def cell_at(
    options: SurveyOptions, file: RadioFile, shift: float, cell: SeenCell, by_shift: dict[float, list[SeenCell]]
) -> SurveyCell:
    """Returns a cell as the survey has it, and its frequency."""
    centre = centre_of(file)
    here = dataclasses.replace(file, carrier=sources.whole(centre + shift) if centre else 0)
    (found,) = survey_of_cells(options, here, [cell], Looked(1)).cells
    return dataclasses.replace(
        found,
        chance=cell.is_chance(by_shift[shift]),
        doubts=() if cell.is_chance(by_shift[shift]) else doubts_of(cell, by_shift[shift]),
        shift=sources.whole(shift),
        frequency=here.carrier or None,
        earfcns=tuple(bands.earfcns_of(here.carrier)) if centre else (),
    )
