"""What the tools need from the machine: packages, the two programs, output files, and refusals in one line.

A tool that cannot go on raises `Refused`. `run` prints that as one line on standard error and exits with status 1.
"""
from __future__ import annotations

import importlib.util
import io
import json
import os
import pathlib
import re
import shutil
import signal
import stat
import subprocess
import sys
from types import FrameType
from typing import Any, Callable, Iterable, NoReturn

CONTROL = re.compile("[\x00-\x1f\x7f-\x9f\u200e\u200f\u2028-\u202e\u2066-\u2069]")  # with those that turn the direction
TERMINATED = 128 + signal.SIGTERM  # status of a tool that SIGTERM ended, as a shell has it
TOP = pathlib.Path(__file__).resolve().parent.parent.parent


class Refused(Exception):
    """A tool has no result; the text is one line that says why."""


class ProgramRefused(Refused):
    """A program refused its arguments or its recording.

    `cause` is the line that the program wrote on standard error, `exit_code` its exit code (1 to 255, negative for a
    signal), `command` its arguments.
    """

    def __init__(self, command: str, cause: str, exit_code: int) -> None:
        super().__init__(f"{command}: {cause}")
        self.command, self.cause, self.exit_code = command, cause, exit_code

    def __reduce__(self) -> tuple[type, tuple[str, str, int]]:
        """Returns how it is made again in another process."""
        return type(self), (self.command, self.cause, self.exit_code)


class Stopped(KeyboardInterrupt):
    """A signal ends the tool, by its number."""

    def __init__(self, kind: int) -> None:
        super().__init__()
        self.kind = kind


def stop(kind: int, _: FrameType | None) -> None:
    """Ends the tool at a signal, which may come to all its processes, and then once more."""
    for one in (signal.SIGINT, signal.SIGTERM):
        signal.signal(one, signal.SIG_IGN)
    raise Stopped(kind)


def hold_stop() -> None:
    """Holds SIGTERM back while a process is forked, where `stop` waits for it."""
    if signal.getsignal(signal.SIGTERM) is stop:
        signal.pthread_sigmask(signal.SIG_BLOCK, {signal.SIGTERM})


def release_stop() -> None:
    """Lets SIGTERM through again."""
    if signal.getsignal(signal.SIGTERM) is stop:
        signal.pthread_sigmask(signal.SIG_UNBLOCK, {signal.SIGTERM})


def end_at_once() -> None:
    """Lets SIGTERM end a process that was just forked, which else would go on as the tool itself at `stop`."""
    if signal.getsignal(signal.SIGTERM) is stop:
        signal.signal(signal.SIGTERM, signal.SIG_DFL)
        signal.pthread_sigmask(signal.SIG_UNBLOCK, {signal.SIGTERM})


os.register_at_fork(before=hold_stop, after_in_parent=release_stop, after_in_child=end_at_once)


def tool_name() -> str:
    """Returns the name by which this tool was called."""
    return pathlib.Path(sys.argv[0]).name


def plain(text: str) -> str:
    """Returns a text with a question mark for each control character, which a terminal would obey."""
    return CONTROL.sub("?", text)


def note(text: str) -> None:
    """Prints a line on standard error; the tool goes on."""
    print(f"{tool_name()}: {plain(text)}", file=sys.stderr)


def fail(text: str, status: int = 1) -> NoReturn:
    """Ends the tool with one line on standard error and a status."""
    line = plain(f"{tool_name()}: {' '.join(text.split())}")
    print(line.encode(errors="backslashreplace").decode(), file=sys.stderr)
    raise SystemExit(status)


def run(command: Callable[[], None], *packages: str, status: int = 1) -> None:
    """Runs a tool's command, which needs these Python packages, and turns its refusals into one line each, with a status."""
    check_packages(*packages, status=status)
    signal.signal(signal.SIGINT, stop)
    signal.signal(signal.SIGTERM, stop)
    if isinstance(sys.stdout, io.TextIOWrapper):
        sys.stdout.reconfigure(errors="surrogateescape")  # names of files that are not UTF-8
    try:
        command()
        sys.stdout.flush()
    except Refused as refusal:
        fail(str(refusal), status)
    except OSError as fault:
        if isinstance(fault, BrokenPipeError):
            os.dup2(os.open(os.devnull, os.O_WRONLY), 1)
        fail(f"{fault.filename or 'output'}: {fault.strerror}", status)
    except MemoryError:
        fail("out of memory: --every, or a shorter file, needs less", status)
    except KeyboardInterrupt as stopped:
        is_term = isinstance(stopped, Stopped) and stopped.kind == signal.SIGTERM
        fail(": ".join(["stopped", *map(str, stopped.args)]), TERMINATED if is_term else status)


def check_packages(*packages: str, status: int = 1) -> None:
    """Ends the tool with a status if this Python does not have these packages."""
    missing = [package for package in packages if importlib.util.find_spec(package) is None]
    if missing:
        names = " ".join(f"python3-{package}" for package in missing)
        fail(f"no {', no '.join(missing)} for {sys.executable} (Debian: {names}, for /usr/bin/python3)", status)


def check_place(path: pathlib.Path, inputs: Iterable[pathlib.Path | None] = ()) -> None:
    """Refuses a path at which no file can be written, or at which one of the files that are read is."""
    if path.exists() and any(one and one.exists() and one.samefile(path) for one in inputs):
        raise Refused(f"{path}: it is read, and would be overwritten")
    if path.is_dir():
        raise Refused(f"{path}: a folder")
    if is_stream(path):
        if not os.access(path, os.W_OK):
            raise Refused(f"{path}: it cannot be written")
    elif not os.access(os.path.dirname(os.path.realpath(path)), os.W_OK | os.X_OK):
        raise Refused(f"{path}: nothing can be written into its folder")


def is_stream(path: pathlib.Path) -> bool:
    """Returns whether a path is a device, a pipe or a socket, or the file that standard output or error goes to: bytes are
    written to it, and it is not replaced."""
    try:
        return not stat.S_ISREG(path.stat().st_mode) or standard_at(path) is not None
    except OSError:
        return False


def standard_at(path: pathlib.Path) -> int | None:
    """Returns the number of the standard stream, output or error, that goes to this path, or None."""
    found = path.stat()
    return next((number for number in (1, 2) if is_open(number) and os.path.samestat(os.fstat(number), found)), None)


def is_open(number: int) -> bool:
    """Returns whether this process has a file of this number."""
    try:
        os.fstat(number)
    except OSError:
        return False
    return True


def write(path: pathlib.Path, data: bytes) -> None:
    """Writes a file under another name first, so that an older one of this name stays if that fails. A link is followed; a
    device or a pipe gets the bytes as it is."""
    try:
        if is_stream(path):
            write_stream(path, data)
        else:
            replace(pathlib.Path(os.path.realpath(path)), data)
    except OSError as fault:
        fault.filename = str(path)
        raise


def write_stream(path: pathlib.Path, data: bytes) -> None:
    """Writes to a device or a pipe, or to a standard stream after what was printed before."""
    number = standard_at(path)
    if number is not None:
        sys.stdout.flush()
    with open(path if number is None else os.dup(number), "wb") as file:
        file.write(data)


def replace(path: pathlib.Path, data: bytes) -> None:
    """Writes a file under another name, and puts it in the place of that of this path."""
    part = path.with_name(f".{os.getpid()}.{path.name}")
    try:
        part.write_bytes(data)
        os.replace(part, path)
    finally:
        part.unlink(missing_ok=True)


def program(name: str) -> str:
    """Returns the path of a program: LTE_CLI or LTE_TUNE, else next to this tool, else built in this clone, else installed
    with this package, else PATH."""
    named = os.environ.get(name.upper())
    beside = pathlib.Path(sys.argv[0]).resolve().parent / name
    built, installed = TOP / "crates" / name / "out" / name, TOP.parent / "bin" / name
    for place in [named] if named else [str(beside), str(built), str(installed), name]:
        if found := shutil.which(place):
            return os.path.abspath(found)
    if named:
        raise Refused(f"no program at {named}, which {name.upper()} names")
    raise Refused(f"no {name}: `rt run -- version` in crates/{name} builds it, or {name.upper()} names it")


def answer(words: list[str], data: bytes) -> Any:
    """Returns a program's JSON answer for a recording, which it reads from a file in memory: a pipe holds a small part."""
    command = " ".join(words[1:])
    with open(os.memfd_create("recording"), "w+b", buffering=0) as file:
        file.write(data)
        file.seek(0)
        done = subprocess.run(words, stdin=file, capture_output=True, check=False)
    if done.returncode:
        cause = done.stderr.decode(errors="replace").strip() or f"status {done.returncode}"
        raise ProgramRefused(command, cause, done.returncode)
    try:
        return json.loads(done.stdout)
    except (ValueError, RecursionError):
        raise Refused(f"{words[0]} {command}: no JSON came: is it the program?") from None
