"""Windows of samples as they come on standard input: a thread reads, and a ring has what waits to be looked at."""
from __future__ import annotations

import collections
import fcntl
import os
import threading
import time
from typing import NamedTuple

PIPE = 1 << 20  # bytes that the pipe holds, where the system allows it
PAUSE = 0.5  # seconds without samples after which a radio began again
AGAIN = 0.1  # seconds until a named pipe without a writer is read again


class Pause(NamedTuple):
    """Samples came again: the byte from which on, after how many seconds, and when, in seconds since 1970."""

    place: int
    seconds: float
    time: float


class Window(NamedTuple):
    """Bytes from a sample on, and when the last of them came."""

    first: int
    data: bytes
    came: float


class Ring:
    """Windows that wait. Where there is no room the oldest is skipped, or the reader waits."""

    def __init__(self, room: int, waits: bool, stays: bool = False) -> None:
        self.room, self.waits = room, waits
        self.stays = stays  # whether a pipe that has no writer may get another one
        self.pauses: list[Pause] = []
        self.windows: collections.deque[Window] = collections.deque()
        self.changed = threading.Condition()
        self.skipped, self.size = 0, 0  # windows, and bytes that came
        self.begun: float | None = None  # when the first byte came
        self.is_ended, self.is_stopped = False, False  # by the reader, or by a signal

    def put(self, window: Window) -> None:
        with self.changed:
            while self.waits and len(self.windows) >= self.room and not self.is_ended:
                self.changed.wait()
            if self.is_ended:
                return
            if len(self.windows) >= self.room:
                self.windows.popleft()
                self.skipped += 1
            self.windows.append(window)
            self.changed.notify_all()

    def take(self) -> Window | None:
        """Returns the oldest window, or None."""
        with self.changed:
            self.changed.notify_all()
            return self.windows.popleft() if self.windows else None

    def is_over(self) -> bool:
        """Returns whether nothing waits, and nothing comes."""
        with self.changed:
            return self.is_ended and not self.windows

    def end(self) -> None:
        with self.changed:
            self.is_ended = True
            self.changed.notify_all()

    def drop(self) -> None:
        """Discards the buffered samples."""
        with self.changed:
            self.skipped += len(self.windows)
            self.windows.clear()

    def wake(self, *_: object) -> None:
        with self.changed:
            self.changed.notify_all()

    def wait(self, seconds: float) -> None:
        with self.changed:
            self.changed.wait(seconds)


class Shape(NamedTuple):
    """Bytes of a sample; samples before the first window, of a window, from one's beginning to the next, of the least."""

    width: int
    before: float
    length: int
    every: float
    least: int


def reading(source: int, ring: Ring, shape: Shape) -> None:
    """Starts a thread that reads from a descriptor into a ring, to the end or until the ring is ended."""
    try:
        fcntl.fcntl(source, fcntl.F_SETPIPE_SZ, PIPE)
    except (OSError, AttributeError):
        pass  # no pipe, or one that stays as it is
    threading.Thread(target=Reader(source, ring).read, args=(shape,), daemon=True).start()


class Reader:
    """What was read from a descriptor, and is held from a byte on."""

    def __init__(self, source: int, ring: Ring) -> None:
        self.source, self.ring = source, ring
        self.held = bytearray()
        self.begin, self.width = 0, 1

    def read(self, shape: Shape) -> None:
        """Puts each window into the ring."""
        try:
            number, self.width = 0, shape.width
            while not self.ring.is_ended:
                first = round(shape.before + number * shape.every)
                if not self.is_at(first * shape.width):
                    break
                self.fill(shape.length * shape.width)
                count = min(len(self.held) // shape.width, shape.length)
                if count < shape.least or self.ring.is_ended:
                    break
                self.ring.put(Window(first, bytes(self.held[: count * shape.width]), time.monotonic()))
                number += 1
        finally:
            self.ring.end()

    def is_at(self, place: int) -> bool:
        """Returns whether what is held begins at this byte now."""
        gone = min(len(self.held), place - self.begin)
        del self.held[:gone]
        self.begin += gone
        while self.begin < place and (data := self.more(place - self.begin)):
            self.begin += len(data)
        return self.begin == place

    def fill(self, size: int) -> None:
        """Holds this number of bytes, or all that there are."""
        while len(self.held) < size and (data := self.more(size - len(self.held))):
            self.held += data

    def more(self, size: int) -> bytes:
        """Returns some bytes, none at the end."""
        before = time.monotonic()
        data = self.read_some(size)
        if data and self.ring.begun is None:
            self.ring.begun = time.time()
        elif data and time.monotonic() - before > PAUSE and not self.ring.waits:
            self.ring.pauses.append(Pause(self.ring.size, time.monotonic() - before, time.time()))
        self.ring.size += len(data)
        return data

    def read_some(self, size: int) -> bytes:
        """Returns what a read gives. A sample that was cut when a radio ended is filled, and the next writer is awaited."""
        data = b"" if self.ring.is_ended else os.read(self.source, min(size, PIPE))
        while not data and self.ring.stays and not self.ring.is_ended:
            if cut := self.ring.size % self.width:
                return bytes(self.width - cut)
            time.sleep(AGAIN)
            data = os.read(self.source, min(size, PIPE))
        return data
