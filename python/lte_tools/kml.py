"""A survey with places as KML 2.2 (OGC 07-147r2): the way, for each cell where it was strongest and its windows, and the
windows without a certain cell.
"""
from __future__ import annotations

import html
import re
from typing import Iterator, Sequence

from . import places, survey_windows
from .survey_data import Detected, Seen, Survey, SurveyCell, SurveyIdentity
from .survey_windows import InWindow, Window, are_next

# as KML has colours: opacity, blue, green, red
COLOURS = ("ffb46f1f", "ff1a73d9", "ff4e8f2f", "ffb04f8a", "ff3d38b8", "ff665c67")
HOLE, WAY = "ff808080", "ffbbbbbb"
ICON = "http://maps.google.com/mapfiles/kml/shapes/placemark_circle.png"
ON_GROUND = "<tessellate>1</tessellate>"  # a line that follows the ground; else hills hide it
HEAD = '<?xml version="1.0" encoding="UTF-8"?>\n<kml xmlns="http://www.opengis.net/kml/2.2"><Document>\n'
FOOT = "</Document></kml>\n"


def text(words: object) -> str:
    """Returns words as XML has them, with a question mark for a character that XML does not allow."""
    clean = re.sub(r"[^\t\n\r\x20-\ud7ff\ue000-\ufffd\U00010000-\U0010ffff]", "?", str(words))
    return html.escape(clean, quote=False)


def of_survey(survey: Survey) -> bytes:
    """Returns the KML of a survey."""
    windows = survey_windows.windows_of(survey)
    parts = [HEAD, f"<name>{text(survey.file)}</name>\n", *styles(), *way_of(windows, survey)]
    for number in range(len(survey.cells)):
        parts += folder_of(number, survey, windows)
    for number, line in enumerate(survey.identities or (), len(survey.cells)):
        parts += folder_of_identity(number, line, survey, windows)
    holes = [window for window in windows if window.place and not window.sure]
    if holes:
        parts += ["<Folder><name>No certain cell</name>\n", *map(hole, holes), "</Folder>\n"]
    return "".join([*parts, FOOT]).encode()


def styles() -> Iterator[str]:
    """Yields the styles: of cells, of windows without one, and of the way."""
    for name, colour in (*((f"cell{i}", colour) for i, colour in enumerate(COLOURS)), ("hole", HOLE)):
        icon = f"<IconStyle><color>{colour}</color><scale>0.5</scale><Icon><href>{ICON}</href></Icon></IconStyle>"
        yield f'<Style id="{name}">{icon}<LabelStyle><scale>0</scale></LabelStyle></Style>\n'
    yield f'<Style id="way"><LineStyle><color>{WAY}</color><width>2</width></LineStyle></Style>\n'


def way_of(windows: Sequence[Window], survey: Survey) -> list[str]:
    """Returns the way as lines, each of windows that follow each other."""
    lines: list[list[Window]] = []
    for window in windows:
        if window.place:
            if not lines or not are_next(survey, lines[-1][-1].seconds, window.seconds):
                lines.append([])
            lines[-1].append(window)
    shown = [" ".join(coordinates(window.place) for window in line if window.place) for line in lines if line[1:]]
    strings = "".join(f"<LineString>{ON_GROUND}<coordinates>{line}</coordinates></LineString>" for line in shown)
    name = "<name>Way</name><styleUrl>#way</styleUrl>"
    return [f"<Placemark>{name}<MultiGeometry>{strings}</MultiGeometry></Placemark>\n"] if shown else []


def coordinates(place: tuple[float, float]) -> str:
    return f"{place[0]:.7f},{place[1]:.7f}"


def name_of(cell: SurveyCell, survey: Survey) -> str:
    """Returns the name of a cell's folder, with eNodeB and number of the cell if other lines have its identity."""
    is_alone = [one.identity for one in survey.cells].count(cell.identity) == 1
    number = "" if is_alone or not cell.sib1 else f" ({cell.sib1.enodeb}, {cell.sib1.sector})"
    return f"PCI {cell.identity}{'?' * cell.chance}{number}"


def folder_of(number: int, survey: Survey, windows: Sequence[Window]) -> list[str]:
    """Returns a cell's folder: where it was strongest, and its windows."""
    cell = survey.cells[number]
    name = name_of(cell, survey)
    style = f"cell{number % len(COLOURS)}"
    shared = places.properties_of(cell, survey)
    parts = [f"<Folder><name>{text(name)}</name>\n"]
    if cell.strongest_place:
        parts.append(placemark(f"{name}, strongest", style, cell.strongest_place, shared | places.over_time(cell)))
    return [*parts, *windows_in(number, style, survey, windows), "</Folder>\n"]


def folder_of_identity(number: int, line: SurveyIdentity, survey: Survey, windows: Sequence[Window]) -> list[str]:
    """Returns the folder of a cell of which the identity alone is known."""
    name, style = f"PCI {line.identity}, identity only", f"cell{number % len(COLOURS)}"
    parts = [f"<Folder><name>{text(name)}</name>\n"]
    if line.strongest_place:
        values = places.properties_of_identity(line, survey) | places.of_identity(line)
        parts.append(placemark(f"{name}, strongest", style, line.strongest_place, values))
    parts += windows_in(number, style, survey, windows)
    return [*parts, "</Folder>\n"]


def windows_in(number: int, style: str, survey: Survey, windows: Sequence[Window]) -> list[str]:
    """Returns the windows with a place of a cell, by its number."""
    return [
        placemark(level_text(one, survey.unit), style, window.place, values_of(one.seen))
        for window in windows
        for one in window.cells
        if one.number == number and window.place
    ]


def values_of(seen: Seen | Detected) -> dict[str, object]:
    """Returns what is said of a cell in a window."""
    return places.at_window(seen) if isinstance(seen, Seen) else places.at_detection(seen)


def level_text(one: InWindow, unit: str) -> str:
    return "no level" if one.seen.level is None else f"{one.seen.level} {unit}"


def hole(window: Window) -> str:
    return placemark("no certain cell", "hole", window.place or (0, 0), places.hole_at(window))


def value_text(value: object) -> str:
    """Returns a value as XML has it: a truth value as `true` or `false`."""
    return text(str(value).lower() if isinstance(value, bool) else value)


def placemark(name: str, style: str, place: tuple[float, float], values: dict[str, object]) -> str:
    """Returns a point with its values, and its time if there is one."""
    time = values.get("time")
    when = f"<TimeStamp><when>{text(time)}</when></TimeStamp>" if time else ""
    data = "".join(
        f'<Data name="{text(key)}"><value>{value_text(value)}</value></Data>'
        for key, value in values.items()
        if value is not None
    )
    point = f"<Point><coordinates>{coordinates(place)}</coordinates></Point>"
    head = f"<name>{text(name)}</name>{when}<styleUrl>#{style}</styleUrl>"
    return f"<Placemark>{head}<ExtendedData>{data}</ExtendedData>{point}</Placemark>\n"
