"""Questions about many windows: an engine answers them, a journal keeps what was answered, and progress is shown.

Debian: python3-numpy, python3-scipy.
"""
from __future__ import annotations

from typing import Any, Callable, Sequence

from . import journal, wide
from .engine import Engine
from .journal import Journal
from .progress import Progress

Ask = Callable[[str, Callable[[Any], Any], Sequence[Any]], "list[Any]"]


class Questions:
    """Asks a function about windows: what a journal has is not asked again."""

    def __init__(self, engine: Engine, kept: Journal | None = None, progress: Progress | None = None) -> None:
        self.engine, self.kept, self.progress = engine, kept, progress or Progress()
        self.asked = 0  # questions that no journal answered

    def __call__(self, phase: str, function: Callable[[Any], Any], tasks: Sequence[Any]) -> list[Any]:
        """Returns a function's answer for each task."""
        kept = self.kept if phase in journal.KEPT else None
        keys = [] if kept is None else [kept.key_of(phase, function, task) for task in tasks]
        open_ = [i for i in range(len(tasks)) if kept is None or not kept.has(keys[i][0])]
        self.progress.begin(phase, len(tasks), len(tasks) - len(open_))
        found: dict[int, Any] = {}
        for number, answer in self.engine(function, [tasks[i] for i in open_]):
            i = open_[number]
            found[i] = answer
            if kept is not None:
                kept.put(keys[i][0], phase, keys[i][1], answer)
            self.progress.step()
            self.asked += 1
        self.progress.end()
        if kept is not None:
            found |= {i: kept.answer(key) for i, (key, _) in enumerate(keys) if i not in found}
        return [found[i] for i in range(len(tasks))]


class Kept:
    """Asks nothing: what a journal has is answered, and SIB1 that it does not have stays unread."""

    def __init__(self, kept: Journal) -> None:
        self.kept = kept

    def __call__(self, phase: str, function: Callable[[Any], Any], tasks: Sequence[Any]) -> list[Any]:
        """Returns a function's answer for each task, None where a journal has none."""
        keys = [self.kept.key_of(phase, function, task)[0] for task in tasks] if phase in journal.KEPT else []
        found = [self.kept.answer(key) if self.kept.has(key) else None for key in keys] or [None] * len(tasks)
        if phase != "SIB1":
            return found
        return [wide.Found(task.line) if one is None else one for one, task in zip(found, tasks)]
