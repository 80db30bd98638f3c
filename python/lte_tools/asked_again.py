"""A finished survey with a track, times, gain or carrier that were not known as it was made: all that needs no samples.

Levels are known to a tenth of a dB, and seconds to a sample, so what is made here may differ by so much from a survey that
had these options at first.

Debian: python3-numpy, python3-scipy.
"""
from __future__ import annotations

import dataclasses
from typing import Any, Callable, Iterator, Sequence, TypeVar

from . import levels, places, survey_windows
from .cells import less, less_or_none
from .drives import Stretch
from .machine import Refused, note
from .options import SurveyOptions
from .radio_file import RadioFile
from .survey_data import Detected, Power, Seen, Survey, SurveyCell, SurveyIdentity, every_seen

S = TypeVar("S", Seen, Detected)


def again(options: SurveyOptions, survey: Survey) -> Survey:
    """Returns a survey with what options say of its carrier, its gain, its begin and its track."""
    is_for_packets = options.earfcn is not None and (survey.scan is not None or survey.carrier is not None)
    if options.carrier and options.carrier != survey.carrier and not is_for_packets:
        survey = with_carrier(survey, options)
    if options.gain is not None:
        survey = with_gain(survey, options)
    if options.start is None and not options.has_places:
        return survey
    if survey.live is not None:
        raise Refused(f"{options.file}: a survey of a pipe, whose windows have their own times and places")
    file = places.begun(file_of(survey, options), options.start)
    if options.start is not None:
        survey = with_times(survey, file)
    if track := places.track_of(options, file):
        survey = places.with_places(survey, file, track, survey_windows.starts_of(survey))
    return survey


def file_of(survey: Survey, options: SurveyOptions) -> RadioFile:
    """Returns the file of a survey, of which only the times are known."""
    count, later = round(survey.seconds * survey.rate), 0.0
    stretches = []
    for one in survey.parts:
        later += one.missing or 0
        first = round(one.first * survey.rate)
        end = round((one.first + one.seconds) * survey.rate)
        stretches.append(Stretch(first, end, survey.shift, one.datetime, one.missing, later))
    whole = tuple(stretches) or (Stretch(0, count, survey.shift, survey.datetime),)
    return RadioFile(options.file, survey.form, survey.rate, count, survey.shift, survey.carrier or 0, whole)


# ---- every line


def with_windows(survey: Survey, change: Callable[[Any], Any]) -> Survey:
    """Returns a survey in which each window of each line is changed by a function that keeps its kind."""
    cells = tuple(
        dataclasses.replace(cell, seen=tuple(map(change, cell.seen)), detected=tuple(map(change, cell.detected)))
        for cell in survey.cells
    )
    identities = survey.identities
    if identities is not None:
        identities = tuple(dataclasses.replace(one, detected=tuple(map(change, one.detected))) for one in identities)
    return dataclasses.replace(survey, cells=cells, identities=identities)


# ---- the carrier


def with_carrier(survey: Survey, options: SurveyOptions) -> Survey:
    """Returns a survey with a carrier, and errors by it; refuses another carrier than it has, and a scan."""
    if survey.scan is not None:
        raise Refused(f"{options.file}: a scan, in which --carrier changes nothing")
    if survey.carrier is not None:
        raise Refused(f"{options.file}: its carrier is {survey.carrier:,.0f} Hz, not {options.carrier:,.0f} Hz")
    carrier = options.carrier
    cells = tuple(dataclasses.replace(cell, ppm=less(1e6 * cell.offset / carrier, digits=3)) for cell in survey.cells)
    return dataclasses.replace(survey, carrier=carrier, cells=cells)


def ppm_of(offset: float, carrier: float | None) -> float | None:
    """Returns an offset in millionths of the carrier, None if that is not known."""
    return less(1e6 * offset / carrier, digits=3) if carrier else None


# ---- the gain


def with_gain(survey: Survey, options: SurveyOptions) -> Survey:
    """Returns a survey with levels in dBm, by a gain or one over time; steps that were found stay if it is one."""
    gains, starts = levels.gains_of(options.gain), survey_windows.starts_of(survey)
    if len(gains.points) == 1:
        gains = gains.with_steps(survey.steps)
    if lost := sum(one.level is None for one in every_window(survey)):
        note(f"{options.file}: {lost} levels at steps of the gain are not known in it")

    def gained(one: S) -> S:
        gain, is_one = gains.within(survey_windows.start_of(one, starts, survey.window))
        level = None if one.level is None or not is_one else less(one.level + one.gain - gain)
        return dataclasses.replace(one, level=level, gain=less(gain))

    changed = with_windows(survey, gained)
    return dataclasses.replace(
        changed,
        unit="dBm",
        cells=tuple(with_strongest(cell, old, survey.carrier) for cell, old in zip(changed.cells, survey.cells)),
        identities=changed.identities and tuple(map(with_level, changed.identities)),
        powers=tuple(levels.at_gain(raw_power(one), gains) for one in survey.powers),
        steps=survey.steps if len(levels.gains_of(options.gain).points) == 1 else (),
    )


def every_window(survey: Survey) -> Iterator[Seen | Detected]:
    """Yields each window of each line."""
    for line in survey.lines:
        yield from every_seen(line)


def raw_power(one: Power) -> Power:
    """Returns a window's power in dBFS, with the radio's gain."""
    total, noise = (None if value is None else value + one.gain for value in (one.total, one.noise))
    return Power(one.seconds, total, noise)


def with_strongest(cell: SurveyCell, old: SurveyCell, carrier: float | None) -> SurveyCell:
    """Returns a cell with the level of its strongest window, and the offset there if another one was the strongest before."""
    before, now = strongest_of(old.seen), strongest_of(cell.seen)
    cell = dataclasses.replace(cell, level=now.level)
    if now.seconds == before.seconds:
        return cell
    return dataclasses.replace(cell, offset=now.offset, ppm=ppm_of(now.offset, carrier))


def strongest_of(seen: Sequence[Seen]) -> Seen:
    return max(seen, key=lambda one: -1e9 if one.level is None else one.level)


def with_level(one: SurveyIdentity) -> SurveyIdentity:
    """Returns a cell of which the identity alone is known with the level of its strongest window."""
    known = [found.level for found in one.detected if found.level is not None]
    return dataclasses.replace(one, level=less_or_none(max(known, default=None)))


# ---- times


def with_times(survey: Survey, file: RadioFile) -> Survey:
    """Returns a survey with the times that its file has by --start."""

    def timed(one: S) -> S:
        return dataclasses.replace(one, datetime=file.time_at(one.at / survey.rate))

    changed = with_windows(survey, timed)
    parts = tuple(dataclasses.replace(one, datetime=file.time_at(one.first)) for one in survey.parts)
    identities = changed.identities
    if identities is not None:
        identities = tuple(dataclasses.replace(one, datetime=first_time(one.detected)) for one in identities)
    return dataclasses.replace(
        changed,
        datetime=file.time_at(file.stretches[0].first / file.rate),
        cells=tuple(dataclasses.replace(one, datetime=first_time(one.seen)) for one in changed.cells),
        identities=identities,
        parts=parts,
    )


def first_time(seen: Sequence[Seen | Detected]) -> str | None:
    return seen[0].datetime
