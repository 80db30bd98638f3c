"""Places from gpsd as they come: lines of its JSON, as `gpspipe -w` writes them, from a file or a named pipe.

A place is a report TPV with a fix, and has the time of GPS. If this machine's clock, by which samples have their times, is
another one, then places get the time at which they came.
"""
from __future__ import annotations

import os
import pathlib
import stat
import statistics
import threading
import time

from . import foreign, track
from .machine import Refused, note

CLOCK = 2.0  # seconds by which this machine's clock may differ from that of GPS
SHOWN = 1 << 20  # characters of a line


def with_writer(path: str, _: int) -> int:
    """Opens a named pipe for reading and writing: so it does not end where its writer does."""
    return os.open(path, os.O_RDWR | os.O_CLOEXEC)


class Receiver:
    """Reads places from a named pipe in a thread, also from its next writers, as when gpspipe begins again."""

    def __init__(self, path: pathlib.Path) -> None:
        self.path = path
        self.places: list[track.Place] = []
        self.late: list[float] = []  # seconds by which places came after their times
        self.fault: str | None = None
        if str(path) == "-" or not path.exists() or not stat.S_ISFIFO(path.stat().st_mode):
            raise Refused(f"{path}: not a named pipe: mkfifo {path}; gpspipe -w > {path} & writes to one")
        self.thread = threading.Thread(target=self.read, daemon=True)
        self.thread.start()

    def read(self) -> None:
        """Keeps the position of each line that has one."""
        try:
            with open(self.path, encoding="utf-8", errors="replace", opener=with_writer) as file:
                while line := file.readline(SHOWN):
                    self.take(line)
        except OSError as fault:
            self.fault = fault.strerror

    def take(self, line: str) -> None:
        try:
            place = track.gpsd_place(line)
        except track.BadTrack as fault:
            self.fault = str(fault)
            return
        if place is not None and (not self.places or place.time > self.places[-1].time):
            self.places.append(place)
            self.late.append(time.time() - place.time)

    def track(self) -> track.Track:
        """Returns the positions until now, in this machine's time; refuses if there are none."""
        places, late = list(self.places), list(self.late)
        if not places:
            raise Refused(f"{self.path}: no place came from gpsd{f': {self.fault}' if self.fault else ''}")
        apart = statistics.median(late)
        if abs(apart) <= CLOCK:
            return track.Track(places)
        way = "ahead of" if apart > 0 else "behind"
        note(
            f"{self.path}: this machine's clock is {abs(apart):,.1f} s {way} GPS: places have the times at which they came"
        )
        return track.Track([place._replace(time=place.time + apart) for place in places])


def read(path: pathlib.Path) -> track.Track:
    """Returns the track of a file of gpsd's lines, or of standard input; refuses one without a place."""
    data = foreign.read_input(track.MOST_BYTES) if str(path) == "-" else foreign.read(path, track.MOST_BYTES)
    return track.of_text(path, data, track.of_gpsd)
