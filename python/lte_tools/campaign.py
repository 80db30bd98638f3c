"""A survey that may be long: by several processes or machines, from a journal, in parts, and of what is done until now.

Debian: python3-numpy, python3-scipy. Needs lte_cli and lte_tune.
"""
from __future__ import annotations

import contextlib
import dataclasses
from typing import NamedTuple, Sequence

from . import asking, engine, journal, live, machine, parts, places, progress, radio_file, scan, surveying
from .journal import Journal
from .machine import Refused, note
from .options import SurveyOptions
from .radio_file import RadioFile
from .survey_data import Survey


def survey_of(options: SurveyOptions, mapped: engine.Map | None = None) -> Survey:
    """Returns the survey that options ask for; `mapped` is a function like `map` that answers for many windows."""
    file = live.opened(options) if options.is_input else radio_file.opened(options)
    file.check_holds(file.shift + (options.offset or 0), f"an offset of {options.offset or 0:,.0f} Hz")
    for name in ("lte_cli", "lte_tune"):
        machine.program(name)
    if options.is_input:
        return live.survey(options, file)
    file = places.begun(file, options.start)
    track = places.track_of(options, file)
    with contextlib.closing(journal.opened(file, options.resume, options.join, options.so_far)) as kept:
        found = so_far(options, file, kept) if options.so_far else asked(options, file, kept, mapped)
    return places.with_places(found.survey, file, track, found.starts) if track else found.survey


class Found(NamedTuple):
    """A survey, and the seconds at which its windows begin."""

    survey: Survey
    starts: Sequence[float]


def asked(options: SurveyOptions, file: RadioFile, kept: Journal, mapped: engine.Map | None) -> Found:
    """Returns the survey of all windows, or of those of a part; what a journal has is not asked again."""
    starts = starts_of(options, file)
    own = parts.own(options.part, len(starts))
    starts = starts if own is None else starts[own.start : own.stop]
    file = file if options.dask is None else absolute(file)
    shown = progress.Progress(planned(options, starts))
    try:
        with engine.engine_of(options.jobs, options.dask, mapped) as found:
            ask = asking.Questions(found, kept if options.is_kept else None, shown)
            survey = scan.scanned(options, file, ask) if options.is_scan else surveying.surveyed(options, file, ask)
    except KeyboardInterrupt as stop:
        shown.end()
        stop.args = (stopped_text(options, kept, shown),)
        raise
    if options.join and ask.asked:
        note(f"{ask.asked:,} questions have no answer in these journals, and were asked now")
    return Found(survey, starts)


def so_far(options: SurveyOptions, file: RadioFile, kept: Journal) -> Found:
    """Returns the survey of the windows that a journal has."""
    ask = asking.Kept(kept)
    if options.is_scan:
        survey, starts = scan.so_far(options, file, kept, ask)
    else:
        survey, starts = surveying.so_far(options, file, kept, starts_of(options, file))
    if survey is None:
        raise Refused(f"{options.resume}: no window of this survey is in it yet")
    return Found(survey, starts)


def starts_of(options: SurveyOptions, file: RadioFile) -> list[float]:
    """Returns the seconds at which all windows begin."""
    windows = scan.starts_of(options, file) if options.is_scan else surveying.windows_of(options, file)
    return [start for start, _ in windows]


def stopped_text(options: SurveyOptions, kept: Journal, shown: progress.Progress) -> str:
    """Returns what is said of a survey that was stopped: how far it was, and where that is kept."""
    where = f"{options.resume} has them: the same command goes on" if options.resume else "--resume FILE keeps them"
    return f"{shown.name} {shown.count:,} of {shown.total:,} windows: {where}"


def planned(options: SurveyOptions, starts: Sequence[float]) -> dict[str, float]:
    """Returns how many questions of each phase there will be, as far as that is known."""
    if options.is_scan:
        return {}
    return {"level": len(starts), "offset": 0, "cells": len(starts)}


def absolute(file: RadioFile) -> RadioFile:
    """Returns a file under a path that is the same for programs in another folder."""
    named = tuple(dataclasses.replace(one, path=one.path.absolute()) for one in file.parts)
    return dataclasses.replace(file, path=file.path.absolute(), parts=named)
