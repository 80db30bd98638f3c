"""The survey's data: of each cell all that is known of it, as the table, the JSON and the pictures have it.

Debian: python3-numpy.
"""
from __future__ import annotations

import dataclasses
from typing import Mapping, NamedTuple, Sequence

import numpy as np

from . import radio
from .cells import SeenCell, less, less_or_none
from .continuity import Jump
from .doubts import doubts_of
from .identities import DeepSighting, SeenIdentity
from .options import SurveyOptions
from .radio_file import RadioFile
from .sightings import WINDOW, Sighting
from .survey_data import Detected, Part, Power, Seen, Step, Survey, SurveyCell, SurveyIdentity

SURE, BESIDE, LINE = 15, 0.5, 4  # hertz of an error; seconds about a sighting, and sightings that give a straight line
DOPPLER = 60  # hertz by which the offset of one cell mostly differs from another's


def surest_of(cells: Sequence[SeenCell]) -> dict[float, Sighting]:
    """Returns by each window the sighting whose offset is surest."""
    found: dict[float, Sighting] = {}
    for one in (one for cell in cells for one in cell.seen):
        found[one.task.start] = min(found.get(one.task.start, one), one, key=lambda sighting: sighting.error)
    return found


def smoothed(seen: Sequence[Sighting], surest: dict[float, Sighting]) -> list[float]:
    """Returns the offset at each sighting: its own where that is sure, else by those within half a second, and nearer to
    that of the surest cell of its window, from which it differs by a Doppler shift."""
    times, offsets = (np.array([getattr(one, key) for one in seen]) for key in ("seconds", "offset"))
    weights = 1 / np.maximum([one.error for one in seen], SURE)
    found = []
    for one, time in zip(seen, times):
        near = slice(*np.searchsorted(times, (time - BESIDE, time + BESIDE)))
        offset, other = one.offset, surest[one.task.start]
        if one.error > SURE and near.stop - near.start > 1:
            degree = int(near.stop - near.start >= LINE)
            offset = float(np.polyfit(times[near] - time, offsets[near], degree, w=weights[near])[-1])
        if one.error > SURE and other is not one:
            share = one.error**2 / (one.error**2 + other.error**2 + DOPPLER**2)
            offset += share * (other.offset - offset)
        found.append(offset)
    return found


# ---- the survey


class Looked(NamedTuple):
    """What is known of a file's windows: their number, those without numbers, the offsets that were found, missing samples,
    powers and steps of the gain, and the cells that no list has, None if they were not asked for."""

    windows: int
    spoiled: Sequence[float] = ()
    offsets: Sequence[tuple[float, float]] = ()
    jumps: Sequence[Jump] = ()
    powers: Sequence[Power] = ()
    steps: Sequence[Step] = ()
    identities: Sequence[SeenIdentity] | None = None


def survey_of_cells(
    options: SurveyOptions, file: RadioFile, cells: Sequence[SeenCell], looked: Looked, hint: str | None = None
) -> Survey:
    """Returns the survey of a file's cells."""
    surest, tops = surest_of(cells), tops_of(cells, looked.identities or ())
    return Survey(
        file=str(options.file),
        datetime=file.time_at(file.stretches[0].first / file.rate) if file.stretches else None,
        form=file.form,
        exchanged=file.is_exchanged,
        rate=file.rate,
        rate_error=round(file.rate_error, 3),
        shift=file.shift,
        carrier=file.carrier or None,
        unit="dBFS" if options.gain is None else "dBm",
        seconds=round(file.seconds, 6),
        window=round(WINDOW, 6),
        every=round(options.every, 6),
        windows=looked.windows,
        spoiled=tuple(looked.spoiled),
        hint=hint,
        offsets=tuple(looked.offsets),
        cells=tuple(
            dataclasses.replace(surveyed(cell, cells, file, surest), detected=every_detected(cell.detected, file, tops))
            for cell in cells
        ),
        gaps=tuple(jump.gap(file.rate) for jump in looked.jumps),
        powers=tuple(looked.powers),
        steps=tuple(looked.steps),
        parts=parts_of(file),
        identities=None
        if looked.identities is None
        else tuple(identity_of(one, file, tops) for one in looked.identities),
    )


def parts_of(file: RadioFile) -> tuple[Part, ...]:
    """Returns the stretches of a file that has several."""
    found = []
    for one in file.stretches if len(file.stretches) > 1 else ():
        first, seconds = (round(count / file.rate, 6) for count in (one.first, one.end - one.first))
        missing = None if one.missing is None else round(one.missing, 6)
        found.append(Part(str(file.part_at(one.first).name), first, seconds, file.time_at(first), missing))
    return tuple(found)


def surveyed(cell: SeenCell, cells: Sequence[SeenCell], file: RadioFile, surest: dict[float, Sighting]) -> SurveyCell:
    """Returns a cell as the survey has it."""
    line, strongest, offsets = cell.line, cell.strongest, smoothed(cell.seen, surest)
    offset, ratios = offsets[cell.seen.index(strongest)], [one.ratio for one in cell.seen if one.ratio is not None]
    return SurveyCell(
        identity=line.identity,
        rule=str(line.rule),
        rules=tuple(sorted({rule for one in cell.seen for rule in one.rules})),
        first=round(cell.seen[0].seconds, 4),
        last=round(cell.seen[-1].seconds, 4),
        datetime=file.time_at(cell.seen[0].seconds),
        windows=cell.windows,
        ports=line.ports,
        bandwidth=line.bandwidth,
        duration=line.duration,
        resource=line.resource,
        br=line.br,
        spare=line.spare,
        sib1=line.sib1,
        no_sib1=line.no_sib1,
        level=less_or_none(strongest.evened),
        ratio=less(float(np.median(ratios))) if ratios else None,
        ratios=(less(min(ratios)), less(max(ratios))) if ratios else None,
        offset=less(offset),
        ppm=less(1e6 * offset / file.carrier, digits=3) if file.carrier else None,
        echoes=cell.echoes,
        share=less(cell.share, digits=4),
        chance=cell.is_chance(cells),
        doubts=() if cell.is_chance(cells) else doubts_of(cell, cells),
        seen=tuple(seen_of(one, file, own) for one, own in zip(cell.seen, offsets)),
        repeats=None if cell.repeats is None else cell.repeats * radio.FRAME / radio.RATE,
    )


def seen_of(one: Sighting, file: RadioFile, offset: float) -> Seen:
    """Returns a sighting as the survey has it."""
    return Seen(
        seconds=round(one.seconds, 4),
        at=round(one.seconds * file.rate),
        datetime=file.time_at(one.seconds),
        sfn=one.line.sfn,
        level=less_or_none(one.evened),
        gain=less(one.gain),
        ratio=less_or_none(one.ratio),
        offset=less(offset),
        error=less(one.error),
        echoes=tuple((less(delay), less(level)) for delay, level in one.echoes),
        cost=one.cost,
        total=one.total,
        mib=one.mib,
        sib1_block=one.sib1_block,
    )


# ---- cells that no list has


def tops_of(cells: Sequence[SeenCell], identities: Sequence[SeenIdentity]) -> dict[float, float]:
    """Returns by the start of each window the level of its strongest cell, listed or not, that is no false detection."""
    sure = [cell for cell in cells if not cell.is_chance(cells)]
    listed = [one for cell in sure for one in cell.seen]
    detected = [
        one for line in (*(cell.detected for cell in sure), *(line.seen for line in identities)) for one in line
    ]
    found: dict[float, float] = {}
    for start, level in [*map(start_and_level, listed), *map(start_and_level, detected)]:
        if level is not None:
            found[start] = max(found.get(start, level), level)
    return found


def start_and_level(one: Sighting | DeepSighting) -> tuple[float, float | None]:
    """Returns the start of a cell's window, and the cell's level without the radio's gain."""
    return one.task.start, one.evened


def identity_of(line: SeenIdentity, file: RadioFile, tops: Mapping[float, float]) -> SurveyIdentity:
    """Returns a cell that no list has, as the survey has it; `tops` are the levels of the windows' strongest cells."""
    detected = every_detected(line.seen, file, tops)
    below = [one.below for one in detected if one.below is not None]
    return SurveyIdentity(
        identity=line.seen[0].cell.identity,
        first=detected[0].seconds,
        last=detected[-1].seconds,
        datetime=detected[0].datetime,
        windows=line.windows,
        level=less_or_none(line.strongest.evened),
        below=less(float(np.median(below))) if below else None,
        matches=max(one.matches for one in detected),
        detected=detected,
    )


def every_detected(seen: Sequence[DeepSighting], file: RadioFile, tops: Mapping[float, float]) -> tuple[Detected, ...]:
    """Returns detections of a cell as the survey has them."""
    return tuple(
        Detected(
            seconds=round(one.seconds, 4),
            at=round(one.seconds * file.rate),
            datetime=file.time_at(one.seconds),
            level=less_or_none(one.evened),
            below=None if one.evened is None else less(tops[one.task.start] - one.evened),
            matches=one.cell.matches,
            gain=less(one.gain),
        )
        for one in seen
    )
