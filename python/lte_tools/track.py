"""Places by time, from a GPX, NMEA or CSV file, or from the JSON lines of gpsd.

GPX: each `trkpt` with a `time`. NMEA: RMC, which has the date, and GGA after one; a line whose checksum is wrong or
missing is counted and not read, nor is one without a fix. CSV: a head line with `time`, `lat` and `lon`, which may have
other columns; a time as in ISO 8601 with its zone, or seconds since 1970. gpsd: each TPV with a fix; a line that is not
JSON is counted and not read. Places are WGS84, in degrees.
"""
from __future__ import annotations

import bisect
import csv
import datetime
import io
import json
import pathlib
import re
import xml.parsers.expat
from typing import Callable, NamedTuple

from . import foreign
from .machine import Refused

NEAR = 10  # seconds between two places, above which no place between them is known
UTC = datetime.timezone.utc
DAY = 86_400
CENTURY = 80  # years of two digits from here on are of the last century
MOST_BYTES = 128_000_000  # of a track
MOST_PLACES = 2_000_000
DEEPEST = 100  # elements of GPX within one another
# other names of columns
NAMES = {"timestamp": "time", "datetime": "time", "latitude": "lat", "longitude": "lon", "long": "lon", "lng": "lon"}
FIRST, LAST = -62_000_000_000, 253_370_000_000  # seconds since 1970 of times that have four digits of a year


class Place(NamedTuple):
    """A place at a time, in seconds since 1970; latitude and longitude in degrees."""

    time: float
    lat: float
    lon: float


class Track(NamedTuple):
    """Places in the order of time; `wrong` counts lines of NMEA that were not read."""

    places: list[Place]
    wrong: int = 0

    @property
    def first(self) -> float:
        return self.places[0].time

    @property
    def last(self) -> float:
        return self.places[-1].time

    def at(self, time: float, near: float = NEAR) -> Place | None:
        """Returns the place at a time, on the straight line between two places near each other in time, or None."""
        i = bisect.bisect_left(self.places, time, key=lambda place: place.time)
        if i < len(self.places) and self.places[i].time == time:
            return self.places[i]
        if i in (0, len(self.places)) or self.places[i].time - self.places[i - 1].time > near:
            return None
        return on_line(self.places[i - 1], self.places[i], time)


def on_line(before: Place, after: Place, time: float) -> Place:
    """Returns the place of a time between two, the shorter way round across longitude 180."""
    part = (time - before.time) / (after.time - before.time)
    east = (after.lon - before.lon + 180) % 360 - 180
    lon = (before.lon + part * east + 180) % 360 - 180
    return Place(time, before.lat + part * (after.lat - before.lat), lon)


Reader = Callable[[str], "tuple[list[Place], int]"]


def readers() -> dict[str, Reader]:
    """Returns the readers by the end of a file's name."""
    return {
        ".gpx": of_gpx,
        ".nmea": of_nmea,
        ".nme": of_nmea,
        ".log": of_nmea,
        ".csv": of_csv,
        ".json": of_gpsd,
        ".jsonl": of_gpsd,
    }


def is_named_as_one(path: pathlib.Path) -> bool:
    """Returns whether a file's name is that of a track."""
    return path.suffix.lower() in readers()


def read(path: pathlib.Path) -> Track:
    """Returns the track of a file, by its name; refuses one that is not a track or has no place with a time."""
    reader = readers().get(path.suffix.lower())
    if reader is None:
        raise Refused(f"{path}: a track is .gpx, .nmea or .csv, or .json of gpsd")
    return of_text(path, foreign.read(path, MOST_BYTES), reader)


def of_text(path: pathlib.Path, data: bytes, reader: Reader) -> Track:
    """Returns the track of a file's bytes; refuses one that has no place with a time."""
    text = data.decode("utf-8-sig", errors="replace")
    try:
        places, wrong = reader(text)
    except BadTrack as fault:
        raise Refused(f"{path}: {fault}") from None
    if not places:
        why = "are not JSON" if reader is of_gpsd else "have a wrong checksum or none"
        no_line = f": {wrong} lines {why}" if wrong else ""
        raise Refused(f"{path}: no place with a time in it{no_line}")
    return Track(in_order(path, places), wrong)


class BadTrack(Exception):
    """What is wrong with a track."""


def in_order(path: pathlib.Path, places: list[Place]) -> list[Place]:
    """Returns the places with each time once; refuses a track whose times go back."""
    kept = places[:1]
    for place in places[1:]:
        if place.time < kept[-1].time:
            raise Refused(f"{path}: times go back, from {iso(kept[-1].time)} to {iso(place.time)}")
        if place.time > kept[-1].time:
            kept.append(place)
    return kept


def iso(time: float) -> str:
    """Returns seconds since 1970 as a text."""
    text = datetime.datetime.fromtimestamp(time, UTC).isoformat(timespec="milliseconds")
    return text.replace(".000+00:00", "Z").replace("+00:00", "Z")


def seconds_of(text: str) -> float:
    """Returns the seconds since 1970 of a time with its zone, or of a number of them."""
    try:
        return in_calendar(float(text), text)
    except ValueError:
        pass
    try:
        time = datetime.datetime.fromisoformat(text.strip())
        seconds = time.timestamp() if time.tzinfo else None
    except (ValueError, OverflowError):
        raise BadTrack(f"{foreign.shown(text)} is not a time") from None
    if seconds is None:
        raise BadTrack(f"{foreign.shown(text)} has no zone: Z, or +01:00, after it says which")
    return in_calendar(seconds, text)


def in_calendar(time: float, text: str) -> float:
    """Returns a time; refuses one of a year that does not have four digits."""
    if not FIRST <= time <= LAST:
        raise BadTrack(f"{foreign.shown(text)} is not a time of the years 6 to 9998")
    return time


def place_of(time: float, lat: str | None, lon: str | None) -> Place:
    """Returns a place; refuses texts that are no degrees."""
    try:
        place = Place(time, float(lat or ""), float(lon or ""))
    except ValueError:
        raise BadTrack(f"{foreign.shown(lat)}, {foreign.shown(lon)} is not a place") from None
    if not abs(place.lat) <= 90 or not abs(place.lon) <= 180:
        raise BadTrack(f"latitude {place.lat:g}, longitude {place.lon:g}: no place on earth")
    return place


def check_count(places: list[Place]) -> None:
    """Refuses a track of too many places."""
    if len(places) > MOST_PLACES:
        raise BadTrack(f"more than {MOST_PLACES:,} places")


# ---- GPX


class Gpx:
    """Reads each trkpt with a time; refuses a document type, which may declare entities, and deep nesting."""

    def __init__(self) -> None:
        self.places: list[Place] = []
        self.points, self.depth = 0, 0
        self.point: dict[str, str] | None = None
        self.time: list[str] | None = None
        self.parser = xml.parsers.expat.ParserCreate("UTF-8", " ")
        self.parser.StartDoctypeDeclHandler = self.doctype
        self.parser.StartElementHandler = self.begin
        self.parser.EndElementHandler = self.end
        self.parser.CharacterDataHandler = self.text
        self.timed_depth = 0

    def doctype(self, *_: object) -> None:
        raise BadTrack("a document type (DOCTYPE), which no GPX needs")

    def begin(self, name: str, keys: dict[str, str]) -> None:
        self.depth += 1
        if self.depth > DEEPEST:
            raise BadTrack(f"more than {DEEPEST} elements within one another")
        name = name.rpartition(" ")[2]
        if name == "trkpt":
            self.points += 1
            self.point, self.timed_depth = keys, self.depth + 1
            check_count(self.places)
        elif name == "time" and self.point is not None and self.depth == self.timed_depth:
            self.time = []

    def text(self, data: str) -> None:
        if self.time is not None:
            self.time.append(data)
            if len(self.time) > DEEPEST:
                raise BadTrack("a time of too many characters")

    def end(self, name: str) -> None:
        self.depth -= 1
        name = name.rpartition(" ")[2]
        if name == "trkpt":
            self.point = None
        elif name == "time" and self.time is not None and self.point is not None:
            text, self.time = "".join(self.time).strip(), None
            if text:
                self.places.append(place_of(seconds_of(text), self.point.get("lat"), self.point.get("lon")))


def of_gpx(text: str) -> tuple[list[Place], int]:
    """Returns the place of each trkpt that has a time."""
    gpx = Gpx()
    try:
        gpx.parser.Parse(text.encode(errors="replace"), True)
    except xml.parsers.expat.ExpatError as fault:
        raise BadTrack(f"not XML: {fault}") from None
    if not gpx.points:
        raise BadTrack("no trkpt in it")
    return gpx.places, 0


# ---- CSV


def of_csv(text: str) -> tuple[list[Place], int]:
    """Returns the place of each line below the head. Without commas between fields, decimals may have them."""
    delimiter = foreign.delimiter_of(text)
    rows = csv.DictReader(io.StringIO(text, newline=""), delimiter=delimiter)
    point = "," if delimiter == "," else "."
    places: list[Place] = []
    try:
        given = {name.strip().lower(): name for name in rows.fieldnames or [] if name}
        names = {NAMES[name]: given[name] for name in NAMES if name in given} | given
        if missing := [name for name in ("time", "lat", "lon") if name not in names]:
            raise BadTrack(f"no column {', '.join(missing)}: the first line is time,lat,lon")
        time, lat, lon = (names[name] for name in ("time", "lat", "lon"))
        for row in rows:
            place = [(row[name] or "").replace(",", point) for name in (lat, lon)]
            places.append(place_of(seconds_of(row[time] or ""), *place))
            check_count(places)
    except csv.Error as fault:
        raise BadTrack(f"line {rows.line_num + 1}: not CSV: {fault}") from None
    return places, 0


# ---- NMEA


def of_nmea(text: str) -> tuple[list[Place], int]:
    """Returns the place of each RMC, and of each GGA after one, that has a fix."""
    places: list[Place] = []
    wrong, date = 0, None
    for line in text.splitlines():
        if not line.strip():
            continue
        words = sentence(line)
        if words is None:
            wrong += 1
        elif words[0][2:] == "RMC" and len(words) > 9 and words[2] == "A":
            date = midnight(words[9])
            places.append(nmea_place(date + clock(words[1]), *words[3:7]))
        elif words[0][2:] == "GGA" and len(words) > 6 and words[6] not in ("", "0") and date is not None:
            date += DAY * is_next_day(places, date + clock(words[1]))
            places.append(nmea_place(date + clock(words[1]), *words[2:6]))
        check_count(places)
    return places, wrong


def sentence(line: str) -> list[str] | None:
    """Returns the words of a line whose checksum is right, or None."""
    found = re.search(r"\$([^*$]+)\*([0-9A-Fa-f]{2})\s*$", line)
    if not found:
        return None
    total = 0
    for letter in found[1].encode(errors="replace"):
        total ^= letter
    return found[1].split(",") if total == int(found[2], 16) else None


def is_next_day(places: list[Place], time: float) -> bool:
    """Returns whether a GGA that comes after midnight has the date of the day before."""
    return bool(places) and places[-1].time - time > DAY / 2


def midnight(text: str) -> float:
    """Returns the seconds since 1970 of a date ddmmyy."""
    if not re.fullmatch(r"[0-9]{6}", text):
        raise BadTrack(f"{foreign.shown(text)} is not a date ddmmyy")
    try:
        day, month, year = (int(text[i : i + 2]) for i in (0, 2, 4))
        year += 1900 if year >= CENTURY else 2000
        return datetime.datetime(year, month, day, tzinfo=UTC).timestamp()
    except ValueError:
        raise BadTrack(f"{foreign.shown(text)} is not a date ddmmyy") from None


def clock(text: str) -> float:
    """Returns the seconds of a day of a time hhmmss.ss."""
    if not re.fullmatch(r"[0-2][0-9][0-5][0-9][0-6][0-9](\.[0-9]{0,20})?", text):
        raise BadTrack(f"{foreign.shown(text)} is not a time hhmmss")
    return 3600 * int(text[:2]) + 60 * int(text[2:4]) + float(text[4:])


def nmea_place(time: float, lat: str, north: str, lon: str, east: str) -> Place:
    """Returns a place of NMEA's degrees and sides."""
    return place_of(time, str(degrees(lat, 2, north == "S")), str(degrees(lon, 3, east == "W")))


def degrees(text: str, digits: int, is_negative: bool) -> float:
    """Returns degrees of ddmm.mmm or dddmm.mmm."""
    if not re.fullmatch(rf"[0-9]{{{digits + 2}}}(\.[0-9]{{0,20}})?", text):
        raise BadTrack(f"{foreign.shown(text)} is not a place")
    value = int(text[:digits]) + float(text[digits:]) / 60
    return -value if is_negative else value


# ---- gpsd


def gpsd_place(line: str) -> Place | None:
    """Returns the place of a line of gpsd, None if it reports no fix; refuses one that is not a JSON object."""
    try:
        found = json.loads(line)
    except (ValueError, RecursionError):
        found = None
    if not isinstance(found, dict):
        raise BadTrack(f"{foreign.shown(line.strip())} is not an object of JSON")
    if found.get("class") != "TPV" or not isinstance(found.get("mode"), int) or found["mode"] < 2:
        return None
    time, lat, lon = (found.get(key) for key in ("time", "lat", "lon"))
    if time is None or lat is None or lon is None:
        return None
    return place_of(seconds_of(str(time)), str(lat), str(lon))


def of_gpsd(text: str) -> tuple[list[Place], int]:
    """Returns the place of each report of a fix that is later than those in front of it."""
    places: list[Place] = []
    wrong = 0
    for line in text.splitlines():
        if not line.strip():
            continue
        if not line.lstrip().startswith("{"):
            wrong += 1
            continue
        place = gpsd_place(line) if line.rstrip().endswith("}") else None
        wrong += not line.rstrip().endswith("}")
        if place is not None and (not places or place.time > places[-1].time):
            places.append(place)
            check_count(places)
    return places, wrong
