"""Distances on a round earth: a plane in metres about a position, and the metres between two positions."""
from __future__ import annotations

import math
from typing import NamedTuple

DEGREE = 111_195  # metres of a degree of latitude on a round earth


class Ground(NamedTuple):
    """A plane on the earth, in metres east and north of a position."""

    lon: float
    lat: float

    def metres(self, lon: float, lat: float) -> tuple[float, float]:
        """Returns how far a place is to the east and to the north, the shorter way round across longitude 180."""
        east = (lon - self.lon + 180) % 360 - 180
        return DEGREE * east * math.cos(math.radians(self.lat)), DEGREE * (lat - self.lat)

    def place(self, east: float, north: float) -> tuple[float, float]:
        """Returns the longitude and latitude of so many metres to the east and to the north."""
        lon = self.lon + east / (DEGREE * max(math.cos(math.radians(self.lat)), 1e-6))
        return (lon + 180) % 360 - 180, self.lat + north / DEGREE


def distance(one: tuple[float, float], other: tuple[float, float]) -> float:
    """Returns the metres between two positions, each a longitude and a latitude; for those up to some 100 km apart."""
    between = Ground(one[0], (one[1] + other[1]) / 2)
    east, _ = between.metres(*other)
    return math.hypot(east, DEGREE * (other[1] - one[1]))
