"""Colours, marks and letters of many cells on a map: neighbours differ in colour, and letters do not lie on one another.

Debian: python3-numpy.
"""
from __future__ import annotations

import collections
import itertools
import math
from typing import Iterable, Mapping, NamedTuple, Sequence

import numpy as np

from . import survey_windows
from .picture_style import COLOURS, MARKS
from .radio import Real

MAP_COLOURS = (*COLOURS, "#12a3a3", "#cf3f93", "#8f7a12", "#7a4a2b", "#86b817")
MAP_MARKS = (*MARKS, "X", "p", "*", "h")
REACH = 90  # points within which two cells are neighbours
AWAY = (13, 17, 22, 29, 38, 50, 66, 86)  # points from a mark at which its letter may be
TURNS = 16  # directions in which it may be
APART = 110  # points between two of one letter
LINE = 19  # points from which on a line joins a letter and its mark
WIDE, TALL = 7.5, 10.5  # points of a letter
SHORT = 3  # marks of a run that gets no letter if its cell has one

Sign = tuple[str, str, str]  # letter, mark and colour


class Point(NamedTuple):
    """A mark: its place in points, half its width there, and its cell."""

    x: float
    y: float
    half: float
    cell: int | None


class Label(NamedTuple):
    """A letter's place in points, that of the mark that it belongs to, and the cell."""

    x: float
    y: float
    mark: Point
    cell: int

    @property
    def has_line(self) -> bool:
        return math.dist((self.x, self.y), self.mark[:2]) > LINE


# ---- signs


def neighbours_of(points: Sequence[Point]) -> Mapping[tuple[int, int], int]:
    """Returns for each pair of cells how many pairs of their marks are near each other."""
    marks = [one for one in points if one.cell is not None]
    found: collections.Counter[tuple[int, int]] = collections.Counter()
    places = np.array([one[:2] for one in marks]).reshape(-1, 2)
    for one, place in zip(marks, places):
        near = np.flatnonzero(np.hypot(*(places - place).T) < REACH)
        found.update((one.cell or 0, marks[i].cell or 0) for i in near)
    return found


def signs_of(cells: Iterable[int], points: Sequence[Point] = ()) -> dict[int, Sign]:
    """Returns a letter, a mark and a colour for each cell: the colour that is rarest among its neighbours."""
    near, found = neighbours_of(points), dict[int, Sign]()
    used: collections.Counter[str] = collections.Counter()
    for cell, letter in zip(cells, survey_windows.letters()):
        cost = {colour: 0 for colour in MAP_COLOURS}
        for other, (_, _, colour) in found.items():
            cost[colour] += near.get((cell, other), 0)
        colour = min(MAP_COLOURS, key=lambda one: (cost[one], used[one]))
        number = MAP_COLOURS.index(colour) + used[colour]
        found[cell] = letter, MAP_MARKS[number % len(MAP_MARKS)], colour
        used[colour] += 1
    return found


# ---- letters


class Boxes:
    """Rectangles that letters keep free of: middles and half sizes in points."""

    def __init__(self, points: Sequence[Point]) -> None:
        self.boxes: list[tuple[float, float, float, float]] = [(one.x, one.y, one.half, one.half) for one in points]

    def add(self, x: float, y: float, wide: float, tall: float) -> None:
        self.boxes.append((x, y, wide, tall))

    def overlap(self, x: float, y: float, wide: float, tall: float) -> float:
        """Returns the area that a rectangle shares with all others."""
        every: Real = np.array(self.boxes).reshape(-1, 4)
        shared_x = np.clip(wide + every[:, 2] - np.abs(every[:, 0] - x), 0, None)
        shared_y = np.clip(tall + every[:, 3] - np.abs(every[:, 1] - y), 0, None)
        return float(np.sum(shared_x * shared_y))


def runs_of(points: Sequence[Point]) -> list[tuple[int, int]]:
    """Returns places in the list of marks, from one up to another, with the same strongest cell, the longest first."""
    runs = []
    for cell, group in itertools.groupby(range(len(points)), key=lambda i: points[i].cell):
        places = list(group)
        if cell is not None:
            runs.append((places[0], places[-1] + 1))
    return sorted(runs, key=lambda run: run[0] - run[1])


def labels_of(
    points: Sequence[Point], names: Mapping[int, str], size: tuple[float, float], kept: Sequence[Label] = ()
) -> list[Label]:
    """Returns where letters are on a map of this width and height in points: one for each cell, then further ones of long
    runs that have room; `names` are the letters."""
    boxes, found = Boxes(points), list(kept)
    runs = runs_of(points)
    first = {points[begin].cell: (begin, end) for begin, end in reversed(runs)}
    for is_first, (begin, end) in [(True, run) for run in first.values()] + [(False, run) for run in runs]:
        mark = points[(begin + end - 1) // 2]
        if mark.cell is None or not is_first and not is_wanted(mark, end - begin, found):
            continue
        wide, tall = WIDE * len(names[mark.cell]) / 2 + 1, TALL / 2
        if (place := room_beside(mark, (wide, tall), boxes, size, not is_first)) is None:
            continue
        boxes.add(*place, wide, tall)
        found.append(Label(*place, mark, mark.cell))
    return found


def is_wanted(mark: Point, count: int, found: Sequence[Label]) -> bool:
    """Returns whether a further run of a cell, of so many marks, gets a letter too."""
    own = [one for one in found if one.cell == mark.cell]
    return count >= SHORT and all(math.dist(mark[:2], one.mark[:2]) > APART for one in own)


def room_beside(
    mark: Point, half: tuple[float, float], boxes: Boxes, size: tuple[float, float], is_near: bool
) -> tuple[float, float] | None:
    """Returns the nearest place beside a mark where a letter lies on nothing; else the one where it does so least, or None
    if it has to be near."""
    best, least = None, math.inf
    for away in AWAY[:3] if is_near else AWAY:
        for turn in range(TURNS):
            angle = 2 * math.pi * turn / TURNS
            x, y = mark.x + away * math.cos(angle), mark.y + away * math.sin(angle)
            if abs(x) + half[0] > size[0] / 2 or abs(y) + half[1] > size[1] / 2:
                continue
            overlap = boxes.overlap(x, y, *half)
            if overlap == 0:
                return x, y
            if overlap < least:
                best, least = (x, y), overlap
    return None if is_near else best
