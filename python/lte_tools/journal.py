"""A journal of a survey: a line of JSON for each question about a window as it is answered, so that a survey can go on.

The first line has what the answers depend on: form, rate and frequency of the samples, a digest of the files, of the two
programs and of the modules that ask them. Each other line has the phase, a digest of the question, the question, the answer
(coded.py) and a checksum. A question that a journal has is not asked again, whatever else the options are. A survey that was
killed within a line leaves a part of it, which is cut off.

Debian: python3-numpy, python3-scipy.
"""
from __future__ import annotations

import fcntl
import functools
import hashlib
import json
import os
import pathlib
from typing import Any, BinaryIO, Callable, Iterable, NamedTuple, Sequence

from . import coded, machine
from .machine import Refused
from .radio_file import RadioFile

KEPT = ("level", "offset", "cells", "SIB1", "I and Q", "scan")  # phases whose answers a journal has
VERSION = 1
BLOCKS, BLOCK = 16, 65_536  # blocks of a file in its digest, evenly spaced, and bytes of each
DIGITS = 24  # hexadecimal digits of a digest
MOST = 1 << 32  # bytes of a journal
# modules on which answers depend
MODULES = (
    "answers cells forms identities levels neighbours pilots programs radio radio_file rates rules scan sightings "
    "spectrum to_ci16 wide"
).split()


# ---- what answers depend on


def digest(*parts: bytes) -> str:
    """Returns the hexadecimal digits of a digest."""
    found = hashlib.sha256()
    for part in parts:
        found.update(len(part).to_bytes(8, "little") + part)
    return found.hexdigest()[:DIGITS]


def digest_of_file(path: pathlib.Path) -> str:
    """Returns the digest of a file of samples: its size, and blocks of it."""
    with path.open("rb") as file:
        size = file.seek(0, os.SEEK_END)
        parts = [str(size).encode()]
        for i in range(BLOCKS):
            file.seek(max(size - BLOCK, 0) * i // (BLOCKS - 1))
            parts.append(file.read(BLOCK))
    return digest(*parts)


def head_of(file: RadioFile) -> dict[str, Any]:
    """Returns what the answers about a file depend on."""
    here = pathlib.Path(__file__).parent
    return {
        "journal": VERSION,
        "form": file.form,
        "rate": file.rate,
        "shift": file.shift,
        "exchanged": file.is_exchanged,
        "channel": [file.channel, file.channels, file.begins],
        "captures": [[one.first, one.end, one.shift] for one in file.stretches],
        "files": [digest_of_file(path) for path in [one.path for one in file.parts] or [file.path]],
        "programs": [digest(pathlib.Path(machine.program(name)).read_bytes()) for name in ("lte_cli", "lte_tune")],
        "tools": digest(*((here / f"{name}.py").read_bytes() for name in MODULES)),
    }


NAMES = {
    "files": "other files",
    "programs": "other programs lte_cli and lte_tune",
    "tools": "another version of these tools",
}


def check_head(path: pathlib.Path, line: bytes, head: dict[str, Any]) -> None:
    """Refuses a file that is not a journal, and a journal of other samples."""
    found = parsed(line)
    if not isinstance(found, dict) or found.get("journal") != VERSION:
        raise Refused(f"{path}: not a journal of lte_survey")
    for key in head:
        if found.get(key) != head[key]:
            other = NAMES.get(key) or f"other samples: {key} {found.get(key)}, and here {head[key]}"
            raise Refused(f"{path}: a journal of {other}")


def parsed(line: bytes) -> Any:
    """Returns the JSON of a line, None if it is none."""
    try:
        return json.loads(line)
    except (ValueError, RecursionError):
        return None


# ---- questions and answers


class Entry(NamedTuple):
    """A question and its answer, in JSON."""

    phase: str
    question: Any
    answer: Any


Function = Callable[[Any], Any]


def question_of(phase: str, function: Function, task: Any, file: RadioFile) -> tuple[str, Any]:
    """Returns the digest of a question, and its task in JSON."""
    inner = function.func if isinstance(function, functools.partial) else function
    keywords = function.keywords if isinstance(function, functools.partial) else {}
    found = coded.coded(task, file)
    return digest(text_of([phase, inner.__name__, keywords, found])), found


def text_of(value: Any) -> bytes:
    return json.dumps(value, sort_keys=True, separators=(",", ":"), ensure_ascii=True).encode()


def line_of(key: str, entry: Entry) -> bytes:
    """Returns a journal's line."""
    return text_of({"key": key, **entry._asdict(), "sum": sum_of(key, entry)}) + b"\n"


def sum_of(key: str, entry: Entry) -> str:
    return digest(text_of([key, *entry]))


class Journal:
    """What journals have about a file; `out` gets what is answered."""

    def __init__(self, file: RadioFile, out: BinaryIO | None = None) -> None:
        self.file, self.out = file, out
        self.entries: dict[str, Entry] = {}

    def key_of(self, phase: str, function: Function, task: Any) -> tuple[str, Any]:
        """Returns the digest of a question, and its task in JSON."""
        return question_of(phase, function, task, self.file)

    def has(self, key: str) -> bool:
        return key in self.entries

    def answer(self, key: str) -> Any:
        """Returns the answer of a question."""
        return coded.decoded(self.entries[key].answer, self.file)

    def put(self, key: str, phase: str, question: Any, answer: Any) -> None:
        """Keeps an answer, in the file too."""
        entry = Entry(phase, question, coded.coded(answer, self.file))
        self.entries[key] = entry
        if self.out is not None:
            self.out.write(line_of(key, entry))
            self.out.flush()

    def of_phase(self, phase: str) -> list[tuple[Any, Any]]:
        """Returns pairs of a task and its answer, in the order in which they were answered."""
        found = [one for one in self.entries.values() if one.phase == phase]
        return [(coded.decoded(one.question, self.file), coded.decoded(one.answer, self.file)) for one in found]

    def read(self, path: pathlib.Path, lines: Iterable[bytes]) -> None:
        """Adds what the lines of a journal have after its first one."""
        for number, line in enumerate(lines, 2):
            found = parsed(line)
            try:
                key, sum_, entry = found["key"], found["sum"], Entry(*(found[name] for name in Entry._fields))
            except (KeyError, TypeError):
                raise Refused(f"{path}: line {number} is damaged") from None
            if sum_ != sum_of(key, entry):
                raise Refused(f"{path}: line {number} is damaged")
            self.entries[key] = entry

    def close(self) -> None:
        if self.out is not None:
            self.out.close()


# ---- files


def opened(
    file: RadioFile, resume: pathlib.Path | None, others: Sequence[pathlib.Path] = (), is_read: bool = False
) -> Journal:
    """Returns the journal at a path, which goes on there, with what others have; with `is_read` it is only read. Another
    survey that writes it is refused."""
    found = Journal(file)
    head = head_of(file) if resume or others else {}
    for path in others:
        found.read(path, lines_of(path, path.read_bytes(), head)[0])
    if resume is not None and is_read:
        found.read(resume, lines_of(resume, resume.read_bytes(), head)[0])
    elif resume is not None:
        found.out = locked(resume)
        data = found.out.read(MOST)
        lines, size = lines_of(resume, data, head)
        found.read(resume, lines)
        found.out.truncate(size)
        if not size:
            found.out.write(text_of(head) + b"\n")
            found.out.flush()
    return found


def locked(path: pathlib.Path) -> BinaryIO:
    """Returns a journal to read and to write behind its end, which no other process writes."""
    if path.exists() and not path.is_file():
        raise Refused(f"{path}: not a regular file, and a journal is read again")
    out = path.open("a+b")
    try:
        fcntl.lockf(out, fcntl.LOCK_EX | fcntl.LOCK_NB)  # which processes that are forked do not have
    except (BlockingIOError, PermissionError):
        out.close()
        raise Refused(f"{path}: another survey writes it") from None
    out.seek(0)
    return out


def lines_of(path: pathlib.Path, data: bytes, head: dict[str, Any]) -> tuple[list[bytes], int]:
    """Returns a journal's lines after the first one, without the part of a line at its end, and their size with the first
    line; none of an empty file, or one with a part of the first line alone."""
    whole, part = data[: data.rfind(b"\n") + 1], data[data.rfind(b"\n") + 1 :]
    if not whole and text_of(head).startswith(part):
        return [], 0
    first, *lines = (whole or part).splitlines()
    check_head(path, first, head)
    return lines, len(whole)
