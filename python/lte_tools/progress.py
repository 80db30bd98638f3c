"""How far a long survey is: a bar on a terminal, else a line a minute on standard error, with the rate and the time left.

The time left is that of all phases, by what a question of each phase costs beside that of `cells`, and by how fast questions
were answered until now. What a journal has counts as done, and not as fast.

Debian: python3-tqdm, without which the bar is plain.
"""
from __future__ import annotations

import importlib.util
import sys
import time
from typing import Any, Mapping

from . import machine

EVERY = 60.0  # seconds from one line to the next, where there is no terminal
COSTS = {"level": 0.03, "offset": 1.5, "cells": 1.0, "scan": 10.0}  # of a question, beside that of `cells`
WIDTH, DRAWN = 30, 0.2  # characters of a plain bar, and seconds from one to the next
FORMAT = "{percentage:3.0f}% |{bar}| {desc}"  # of a bar of tqdm


def is_terminal() -> bool:
    """Returns whether standard error is a terminal."""
    return sys.stderr.isatty()


def has_tqdm() -> bool:
    """Returns whether bars may be those of tqdm."""
    return importlib.util.find_spec("tqdm") is not None


class Progress:
    """What is done of the phases that are planned: questions by the name of each."""

    def __init__(self, planned: Mapping[str, float] | None = None) -> None:
        self.planned = dict(planned or {})
        self.done = self.known = 0.0  # of all costs, and what of that a journal had
        self.name, self.count, self.total = "", 0, 0
        self.asked = 0  # questions of this phase that were answered now
        self.begun = self.shown = self.phase_begun = time.monotonic()
        self.bar: Any = None

    def begin(self, name: str, total: int, known: int) -> None:
        """Begins a phase, with so many questions, of which so many are answered by a journal."""
        self.name, self.count, self.total, self.asked = name, known, total, 0
        self.phase_begun = time.monotonic()
        self.planned[name] = max(self.planned.get(name, 0) - total, 0)
        self.done += known * cost_of(name)
        self.known += known * cost_of(name)
        if is_terminal() and self.bar is None and has_tqdm():
            self.bar = bar_of()

    def step(self) -> None:
        """Counts a question that was answered."""
        self.count += 1
        self.asked += 1
        self.done += cost_of(self.name)
        if is_terminal():
            self.draw()
        elif time.monotonic() - self.shown >= EVERY:
            self.shown = time.monotonic()
            machine.note(self.text)

    def end(self) -> None:
        """Removes the bar."""
        if self.bar is not None:
            self.bar.close()
            self.bar = None
        elif is_terminal() and self.name:
            print("\r\x1b[K", end="", file=sys.stderr, flush=True)

    @property
    def whole(self) -> float:
        """The cost of all that is known to be asked."""
        later = sum(count * cost_of(name) for name, count in self.planned.items())
        return self.done + (self.total - self.count) * cost_of(self.name) + later

    @property
    def left(self) -> float | None:
        """The seconds that are left, None before anything was answered."""
        done = self.done - self.known
        if done <= 0:
            return None
        return (self.whole - self.done) * (time.monotonic() - self.begun) / done

    @property
    def text(self) -> str:
        """The phase, what is done of it, the rate, and the time that is left."""
        seconds = time.monotonic() - self.phase_begun
        rate = f", {self.asked / seconds:.3g} a second" if seconds > 0 and self.asked else ""
        left = "" if self.left is None else f", about {duration(self.left)} left"
        return f"{self.name} {self.count:,} of {self.total:,} windows{rate}{left}"

    def draw(self) -> None:
        """Draws the bar of all phases."""
        share = min(self.done / self.whole, 1.0) if self.whole else 1.0
        if self.bar is not None:
            self.bar.set_description_str(self.text, refresh=False)
            self.bar.update(100 * share - self.bar.n)
        elif time.monotonic() - self.shown >= DRAWN:
            self.shown = time.monotonic()
            filled = int(WIDTH * share)
            bar = f"[{'#' * filled}{'.' * (WIDTH - filled)}]"
            print(f"\r{bar} {self.text}\x1b[K", end="", file=sys.stderr, flush=True)


def bar_of() -> Any:
    """Returns a bar of tqdm for 100 percent."""
    import tqdm

    return tqdm.tqdm(total=100, leave=False, file=sys.stderr, bar_format=FORMAT, mininterval=DRAWN, miniters=0)


def cost_of(name: str) -> float:
    return COSTS.get(name, 1.0)


def duration(seconds: float) -> str:
    """Returns a time as a text: 40 s, 24 min, 3 h 10 min."""
    if seconds < 90:
        return f"{max(round(seconds), 1)} s"
    minutes = round(seconds / 60)
    return f"{minutes} min" if minutes < 90 else f"{minutes // 60} h {minutes % 60} min"
