"""Places by time, from GPX, NMEA and CSV, and tracks that are refused."""
import datetime
import functools
import operator

import pytest

from lte_tools import machine, track

BEGIN = datetime.datetime(2026, 4, 30, 23, 59, 55, tzinfo=datetime.timezone.utc)
SECONDS = (0, 1, 2, 3, 4, 5, 6, 7, 60, 61)  # from the begin on, with a gap of 53 seconds and a change of the day
NORTH, EAST = -33.5, 179.9998  # degrees at the begin; the way crosses longitude 180
STEP = (0.0002, 0.0001)  # degrees in a second
NEAR = 1e-6  # degrees: NMEA is written to a ten thousandth of a minute


def where(second):
    """The place that was put in, longitude first."""
    return (EAST + STEP[1] * second + 180) % 360 - 180, NORTH + STEP[0] * second


def time(second):
    return BEGIN + datetime.timedelta(seconds=second)


def gpx():
    points = []
    for second in SECONDS:
        lon, lat = where(second)
        when = time(second).strftime("%Y-%m-%dT%H:%M:%SZ")
        points.append(f'<trkpt lat="{lat:.7f}" lon="{lon:.7f}"><ele>1</ele><time>{when}</time></trkpt>')
    space = 'xmlns="http://www.topografix.com/GPX/1/1" version="1.1"'
    return f"<?xml version='1.0'?><gpx {space}><trk><trkseg>{''.join(points)}</trkseg></trk></gpx>"


def table():
    rows = []
    for second in SECONDS:
        lon, lat = where(second)
        east_of_zone = time(second).astimezone(datetime.timezone(datetime.timedelta(hours=2)))
        rows.append(f"{lon:.7f},{east_of_zone.isoformat()},{lat:.7f}")
    return "\n".join(["lon,time,lat", *rows])


def sentence(text):
    return f"${text}*{functools.reduce(operator.xor, text.encode()):02X}"


def minutes(value, digits, names):
    size = abs(value)
    return f"{int(size):0{digits}}{60 * (size % 1):08.5f},{names[value < 0]}"


def nmea():
    """RMC and GGA by turns, with two lines that are spoiled and one without a fix."""
    lines = []
    for i, second in enumerate(SECONDS):
        lon, lat = where(second)
        clock, date = time(second).strftime("%H%M%S.00"), time(second).strftime("%d%m%y")
        place = f"{minutes(lat, 2, 'NS')},{minutes(lon, 3, 'EW')}"
        rmc, gga = f"GPRMC,{clock},A,{place},10.0,90.0,{date},,,A", f"GPGGA,{clock},{place},1,08,1.0,10.0,M,,M,,"
        lines.append(sentence(gga if i % 2 else rmc))
    wrong = [lines[3][:-2] + "00", "$GPRMC,no checksum"]
    return "\r\n".join([*lines, *wrong, "", sentence("GPRMC,000100.00,V,,,,,,,010526,,,N")])


def sheet():
    """The table as a spreadsheet writes it where decimals have a comma."""
    return table().replace(",", ";").replace("lon;time;lat", "Longitude;Timestamp;Latitude").replace(".", ",")


WAYS = {"a.gpx": (gpx(), 0), "a.nmea": (nmea(), 2), "a.csv": (table(), 0), "b.csv": (sheet(), 0)}


@pytest.mark.parametrize("name", WAYS)
def test_places_return(tmp_path, name):
    text, wrong = WAYS[name]
    (tmp_path / name).write_text(text)
    way = track.read(tmp_path / name)
    assert len(way.places) == len(SECONDS) and way.wrong == wrong
    for second in [*SECONDS, 0.25, 2.5, 6.999]:
        place = way.at(time(second).timestamp())
        assert abs(place.lat - where(second)[1]) < NEAR
        assert abs((place.lon - where(second)[0] + 180) % 360 - 180) < NEAR
    for second in (-0.5, 7.5, 30, 61.5):
        assert way.at(time(second).timestamp()) is None


POINT = "<trkpt lat='1' lon='2'><time>{}</time></trkpt>"
REFUSED = {
    "empty.gpx": ("", "not XML"),
    "untimed.gpx": ("<gpx><trk><trkseg><trkpt lat='1' lon='2'/></trkseg></trk></gpx>", "no place with a time"),
    "none.gpx": ("<gpx/>", "no trkpt"),
    "year.gpx": (f"<gpx>{POINT.format('0000-01-01T00:00:00Z')}</gpx>", "is not a time"),
    "early.gpx": (f"<gpx>{POINT.format('0001-01-01T00:00:00+23:00')}</gpx>", "not a time"),
    "doctype.gpx": ("<!DOCTYPE gpx [<!ENTITY a 'x'>]><gpx>&a;</gpx>", "DOCTYPE"),
    "deep.gpx": ("<a>" * 200_000, "within one another"),
    "lat.gpx": ("<gpx><trkpt lon='2'><time>2026-05-01T10:00:00Z</time></trkpt></gpx>", "is not a place"),
    "back.csv": ("time,lat,lon\n2026-05-01T10:00:05Z,1,2\n2026-05-01T10:00:04Z,1,2\n", "times go back"),
    "zone.csv": ("time,lat,lon\n2026-05-01T10:00:05,1,2\n", "no zone"),
    "head.csv": ("when,lat,lon\n", "no column time"),
    "north.csv": ("time,lat,lon\n2026-05-01T10:00:05Z,91,2\n", "no place on earth"),
    "nan.csv": ("time,lat,lon\n2026-05-01T10:00:05Z,nan,2\n", "no place on earth"),
    "text.csv": ("time,lat,lon\n2026-05-01T10:00:05Z,x,2\n", "is not a place"),
    "late.csv": ("time,lat,lon\n1e300,1,2\n1e299,1,2\n", "not a time"),
    "inf.csv": ("time,lat,lon\ninf,1,2\n", "not a time"),
    "short.csv": ("time,lat,lon\n2026-05-01T10:00:05Z\n", "is not a place"),
    "field.csv": (f"time,lat,lon\n{'1' * 200_000},1,2\n", "not CSV"),
    "none.csv": ("time,lat,lon\n", "no place with a time"),
    "sums.nmea": ("$GPRMC,100005.00,A,0100.0,N,00200.0,E,,,010526,,*00\n", "wrong checksum"),
    "date.nmea": (sentence("GPRMC,100005.00,A,0100.0,N,00200.0,E,,,310226,,"), "not a date"),
    "clock.nmea": (sentence("GPRMC,xx,A,0100.0,N,00200.0,E,,,010526,,"), "not a time hhmmss"),
    "place.nmea": (sentence("GPRMC,100005.00,A,x,N,00200.0,E,,,010526,,"), "not a place"),
    "walk.kml": ("<kml/>", ".gpx, .nmea or .csv"),
}


@pytest.mark.parametrize("name", REFUSED)
def test_refused(tmp_path, name):
    text, wanted = REFUSED[name]
    (tmp_path / name).write_text(text)
    with pytest.raises(machine.Refused, match="^[^\n]*$") as refused:
        track.read(tmp_path / name)
    assert wanted in str(refused.value) and name in str(refused.value)


def test_size_is_bounded(tmp_path, monkeypatch):
    monkeypatch.setattr(track, "MOST_BYTES", 100)
    (tmp_path / "a.csv").write_text(table())
    with pytest.raises(machine.Refused, match="more than 100 bytes"):
        track.read(tmp_path / "a.csv")


def test_count_is_bounded(tmp_path, monkeypatch):
    monkeypatch.setattr(track, "MOST_PLACES", 3)
    for name, (text, _) in WAYS.items():
        (tmp_path / name).write_text(text)
        with pytest.raises(machine.Refused, match="more than 3 places"):
            track.read(tmp_path / name)


def test_directory(tmp_path):
    (tmp_path / "a.csv").mkdir()
    with pytest.raises(machine.Refused, match="a directory"):
        track.read(tmp_path / "a.csv")
