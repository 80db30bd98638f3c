"""A survey with places: each window of a cell gets the place that a track has at its time, and GeoJSON has them all.

GeoJSON is that of RFC 7946: a FeatureCollection of points in WGS84, longitude first. A feature of `kind` "window" is a
cell in a window, one of `kind` "cell" a cell where it was strongest, without a geometry where none of its windows has a
place, and one of `kind` "hole" a window without a certain cell. One of `kind` "identity" is a cell of which the identity
alone is known, where it was strongest, and one of `kind` "detected" a cell in a window that does not list it.
"""
from __future__ import annotations

import dataclasses
import datetime
import json
import pathlib
from typing import TYPE_CHECKING, Any, Sequence, TypeVar

from . import gpsd, survey_windows, track
from .drives import Stretch
from .machine import Refused, note
from .options import SurveyOptions
from .survey_data import Detected, Seen, Survey, SurveyCell, SurveyIdentity, Track, timestamp
from .survey_windows import Window
from .track import Track as Places

if TYPE_CHECKING:
    from .radio_file import RadioFile

DIGITS = 7  # of a degree: a centimetre
S = TypeVar("S", Seen, Detected)


# ---- times


def begun(file: RadioFile, start: datetime.datetime | None) -> RadioFile:
    """Returns a file with the time at which it began, where it does not have that itself."""
    if start is None:
        return file
    stretches = file.stretches or (Stretch(0, file.count, file.shift, None),)
    timed = tuple(one if one.datetime else with_time(one, file, start) for one in stretches)
    return dataclasses.replace(file, stretches=timed)


def with_time(stretch: Stretch, file: RadioFile, start: datetime.datetime) -> Stretch:
    try:
        later = datetime.timedelta(seconds=stretch.first / file.rate + stretch.later)
        return stretch._replace(datetime=(start + later).isoformat())
    except OverflowError:
        raise Refused(f"{file.path}: --start {start.isoformat()}: the file ends after the year 9999") from None


def time_at(file: RadioFile, second: float) -> float | None:
    """Returns the seconds since 1970 at a second of a file, or None. SigMF's times are UTC."""
    text = file.time_at(second)
    return None if text is None else timestamp(text)


def track_of(options: SurveyOptions, file: RadioFile) -> Places | None:
    """Returns the track that options name; notes where it does not have all of the file's time, and refuses one that has
    none of it."""
    source = options.track or options.gpsd
    if source is None:
        return None
    places = track.read(source) if options.track else gpsd.read(source)
    if places.wrong:
        kind = "that are not JSON" if options.gpsd else "with a wrong checksum or none"
        note(f"{source}: {places.wrong} lines {kind} were not read")
    check_span(options.file, file, places, source)
    return places


def check_track(path: pathlib.Path) -> None:
    """Refuses a track that is not there, or that its name does not say how to read; it may still grow."""
    if not track.is_named_as_one(path):
        track.read(path)
    path.stat()


def check_span(name: pathlib.Path, file: RadioFile, places: Places, source: pathlib.Path) -> None:
    """Notes where a track does not have all of a file's time, and refuses one that has none of it."""
    ends = [time_at(file, sample / file.rate) for one in file.stretches for sample in (one.first, one.end - 1)]
    times = sorted(time for time in ends if time is not None)
    if not times:
        raise Refused(f"{name}: no time in it: --start 2026-05-01T09:30:00+02:00 says when its first sample was")
    between = f"is from {span(times[0], times[-1])}, and {source} from {span(places.first, places.last)}"
    if times[0] > places.last or times[-1] < places.first:
        raise Refused(f"{name}: {between}: no place for any of it")
    if times[0] < places.first or times[-1] > places.last:
        note(f"{name}: {between}: no places before and after that")


def span(first: float, last: float) -> str:
    return f"{track.iso(first)} to {track.iso(last)}"


# ---- places


def with_places(survey: Survey, file: RadioFile, places: Places, starts: Sequence[float]) -> Survey:
    """Returns a survey whose windows have their places, longitude first, or None; notes how many have none. `starts` are
    the seconds at which all windows begin, whose places the survey's track has."""
    cells = tuple(placed(cell, file, places) for cell in survey.cells)
    identities = survey.identities and tuple(
        dataclasses.replace(one, detected=every_placed(one.detected, file, places)) for one in survey.identities
    )
    windows = [(round(start, 6), place_at(file, places, start)) for start in starts]
    every = [one for cell in cells for one in cell.seen]
    if without := sum(one.place is None for one in every):
        note(f"{without} of {len(every)} windows of cells have no place: the track has none within {track.NEAR} s")
    found = tuple((start, *place) for start, place in windows if place)
    where = Track(track.iso(places.first), track.iso(places.last), len(places.places), found)
    return dataclasses.replace(survey, cells=cells, identities=identities, track=where)


def placed(cell: SurveyCell, file: RadioFile, places: Places) -> SurveyCell:
    seen, detected = every_placed(cell.seen, file, places), every_placed(cell.detected, file, places)
    return dataclasses.replace(cell, seen=seen, detected=detected)


def every_placed(seen: Sequence[S], file: RadioFile, places: Places) -> tuple[S, ...]:
    """Returns what was measured in windows with the places of these."""
    return tuple(dataclasses.replace(one, place=place_at(file, places, one.seconds)) for one in seen)


def place_at(file: RadioFile, places: Places, second: float) -> tuple[float, float] | None:
    """Returns the place at a second of a file, longitude first, or None."""
    time = time_at(file, second)
    place = None if time is None else places.at(time)
    return (round(place.lon, DIGITS), round(place.lat, DIGITS)) if place else None


def geojson_of(survey: Survey) -> dict[str, Any]:
    """Returns a survey's cells, their windows, and the windows without a certain cell, as features."""
    windows = survey_windows.windows_of(survey)
    best = {id(one.seen) for window in windows for one in window.bests}
    features = []
    for cell in survey.cells:
        shared = properties_of(cell, survey)
        features.append(feature(cell.strongest_place, {"kind": "cell", **shared, **over_time(cell)}))
        features += [
            feature(one.place, {"kind": "window", **shared, **at_window(one), "strongest": id(one) in best})
            for one in cell.seen
            if one.place
        ]
        features += detections_of(cell.detected, shared)
    for line in survey.identities or ():
        shared = properties_of_identity(line, survey)
        features.append(feature(line.strongest_place, {"kind": "identity", **shared, **of_identity(line)}))
        features += detections_of(line.detected, shared)
    holes = (window for window in windows if window.place and not window.sure)
    features += [feature(window.place, {"kind": "hole", **hole_at(window)}) for window in holes]
    return {"type": "FeatureCollection", "features": features}


def detections_of(detected: Sequence[Detected], shared: dict[str, Any]) -> list[dict[str, Any]]:
    """Returns the windows with a place that detect a cell without listing it, as features."""
    return [feature(one.place, {"kind": "detected", **shared, **at_detection(one)}) for one in detected if one.place]


def feature(place: tuple[float, float] | None, properties: dict[str, Any]) -> dict[str, Any]:
    geometry = place and {"type": "Point", "coordinates": list(place)}
    return {"type": "Feature", "geometry": geometry, "properties": properties}


def properties_of(cell: SurveyCell, survey: Survey) -> dict[str, Any]:
    """Returns what is said of a cell wherever it was seen; None is what is not known."""
    sib1 = cell.sib1
    return {
        "identity": cell.identity,
        "plmn": " ".join(sib1.networks) if sib1 else None,
        "tac": sib1.tac if sib1 else None,
        "cell": sib1.cell if sib1 else None,
        "enodeb": sib1.enodeb if sib1 else None,
        "sector": sib1.sector if sib1 else None,
        "band": sib1.band if sib1 else None,
        "carrier": survey.carrier if cell.shift is None else cell.frequency,
        "bandwidth": cell.bandwidth,
        "ports": cell.ports,
        "chance": cell.chance,
        "unit": survey.unit,
    }


def properties_of_identity(line: SurveyIdentity, survey: Survey) -> dict[str, Any]:
    """Returns what is said of a cell of which the identity alone is known, wherever it was detected."""
    return {"identity": line.identity, "carrier": survey.carrier, "unit": survey.unit}


def of_identity(line: SurveyIdentity) -> dict[str, Any]:
    keys = ("level", "below", "matches", "windows", "first", "last", "datetime")
    return {key: getattr(line, key) for key in keys}


def at_detection(one: Detected) -> dict[str, Any]:
    """Returns what is said of a cell in a window that detects it without listing it."""
    return {**{key: getattr(one, key) for key in ("level", "below", "matches", "seconds")}, "time": iso(one.time)}


def over_time(cell: SurveyCell) -> dict[str, Any]:
    keys = ("level", "ratio", "offset", "windows", "first", "last", "datetime")
    return {key: getattr(cell, key) for key in keys}


def at_window(one: Seen) -> dict[str, Any]:
    keys = ("level", "ratio", "offset", "sfn", "seconds")
    return {**{key: getattr(one, key) for key in keys}, "time": iso(one.time)}


def hole_at(window: Window) -> dict[str, Any]:
    """Returns what is said of a window without a certain cell: its begin, and the noise floor in 15 kHz."""
    noise = window.power.noise if window.power else None
    return {"seconds": window.seconds, "time": iso(window.time), "noise": noise, "spoiled": window.is_spoiled}


def iso(time: float | None) -> str | None:
    """Returns seconds since 1970 as a text, if they are known and of a year with four digits."""
    return None if time is None or not track.FIRST <= time <= track.LAST else track.iso(time)


def geojson_text(survey: Survey, further: Sequence[dict[str, Any]] = ()) -> bytes:
    """Returns the GeoJSON of a survey, with further features, as bytes."""
    found = geojson_of(survey)
    found["features"] += further
    return (json.dumps(found, separators=(",", ":")) + "\n").encode()
