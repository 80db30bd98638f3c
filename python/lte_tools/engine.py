"""Where questions about windows are answered: in this process, in several, by any function like `map`, or by Dask.

An engine takes a function and tasks, and yields pairs of a task's number and its answer, in the order in which they are
answered. A process that is killed is replaced, and its task is asked again.

Debian: for Dask python3-distributed.
"""
from __future__ import annotations

import contextlib
import dataclasses
import functools
import importlib.util
import logging
import multiprocessing
import signal
import traceback
from multiprocessing import connection
from typing import Any, Callable, Iterable, Iterator, Sequence, Tuple

from .machine import Refused

Function = Callable[[Any], Any]
Answered = Iterator[Tuple[int, Any]]
Engine = Callable[[Function, Sequence[Any]], Answered]
Map = Callable[[Function, Iterable[Any]], Iterable[Any]]

TRIES = 3  # processes that may be killed with one task, before it is refused
CONNECT = 10  # seconds for a scheduler's answer
ENDED = "--dask: the scheduler has ended"
LOST = "a process was killed, and the next ones with its window too: is there enough memory?"


def by_map(mapped: Map, function: Function, tasks: Sequence[Any]) -> Answered:
    """Yields the answers of a function like `map`, which has to keep the order."""
    return iter(enumerate(mapped(function, tasks)))


@contextlib.contextmanager
def engine_of(jobs: int, dask: str | None = None, mapped: Map | None = None) -> Iterator[Engine]:
    """Gives the engine of `jobs` processes, of the Dask scheduler at an address, or of a function like `map`."""
    if dask is not None:
        with of_dask(dask) as found:
            yield found
    elif mapped is not None or jobs == 1:
        yield functools.partial(by_map, mapped or map)
    else:
        with contextlib.closing(Processes(jobs)) as several:
            yield several.each


# ---- processes of this machine


@dataclasses.dataclass
class Worker:
    """A process, this end of the pipe to it, and the number of the task that it has, None if it waits."""

    process: Any
    pipe: Any
    task: int | None = None


class Processes:
    """At most `jobs` processes, as many as there are tasks for."""

    def __init__(self, jobs: int) -> None:
        self.jobs, self.workers = jobs, list[Worker]()

    def each(self, function: Function, tasks: Sequence[Any]) -> Answered:
        """Yields the number and the answer of each task."""
        while len(self.workers) < min(self.jobs, len(tasks)):
            self.begin()
        try:
            yield from self.answers(function, tasks)
        finally:
            if any(one.task is not None for one in self.workers):
                self.close()

    def answers(self, function: Function, tasks: Sequence[Any]) -> Answered:
        """Yields the number and the answer of each task, by the processes that there are."""
        waiting, lost = list(range(len(tasks)))[::-1], [0] * len(tasks)
        while waiting or any(one.task is not None for one in self.workers):
            for one in self.workers:
                if one.task is None and waiting:
                    one.task = waiting.pop()
                    send(one, (function, tasks[one.task]))
            busy = {one.pipe: one for one in self.workers if one.task is not None}
            for one in map(busy.__getitem__, connection.wait(list(busy))):
                number, one.task = one.task or 0, None
                found = received(one)
                if found is None:
                    self.replace(one)
                    lost[number] += 1
                    if lost[number] == TRIES:
                        raise Refused(LOST)
                    waiting.append(number)
                elif found[1] is not None:
                    raise found[1]
                else:
                    yield number, found[0]

    def begin(self) -> None:
        """Starts a process."""
        here, there = multiprocessing.Pipe()
        others = [one.pipe for one in self.workers]
        process = multiprocessing.Process(target=work, args=(there, [here, *others]), daemon=True)
        process.start()
        there.close()
        self.workers.append(Worker(process, here))

    def replace(self, one: Worker) -> None:
        """Starts a process in the place of one that was killed."""
        self.workers.remove(one)
        end(one)
        self.begin()

    def close(self) -> None:
        """Ends all processes, what they do too."""
        for one in self.workers:
            one.process.terminate()
        for one in self.workers:
            end(one)
        self.workers = []


def send(one: Worker, what: Any) -> None:
    """Sends a task to a process; if it was killed, that is found as it does not answer."""
    with contextlib.suppress(BrokenPipeError, ConnectionResetError):
        one.pipe.send(what)


def received(one: Worker) -> tuple[Any, BaseException | None] | None:
    """Returns the answer of a process, or what it raised; None if the process was killed."""
    try:
        found: tuple[Any, BaseException | None] = one.pipe.recv()
        return found
    except (EOFError, OSError):
        return None


def end(one: Worker) -> None:
    """Waits until a process has ended."""
    one.pipe.close()
    one.process.join()


def work(pipe: Any, others: Sequence[Any]) -> None:
    """Answers tasks until the other end of the pipe is closed, also if that process was killed. A terminal's SIGINT is for
    that process, which ends this one."""
    signal.signal(signal.SIGINT, signal.SIG_IGN)
    signal.signal(signal.SIGTERM, signal.SIG_DFL)
    for other in others:  # else this process would keep them open after that one's end
        other.close()
    with contextlib.suppress(EOFError, OSError):
        while True:
            function, task = pipe.recv()
            pipe.send(answered(function, task))


def answered(function: Function, task: Any) -> tuple[Any, BaseException | None]:
    """Returns a function's answer, or what it raised."""
    try:
        return function(task), None
    except Exception as fault:  # pylint: disable=broad-except
        if not isinstance(fault, (Refused, OSError, MemoryError)):
            fault.add_note("".join(traceback.format_exception(fault)))
        return None, fault


# ---- Dask


@contextlib.contextmanager
def of_dask(address: str) -> Iterator[Engine]:
    """Gives the engine of the Dask scheduler at an address such as tcp://10.0.0.1:8786. Its workers need this package, the
    programs, and the file at the same path."""
    if importlib.util.find_spec("distributed") is None:
        raise Refused("--dask needs the package distributed (Debian: python3-distributed)")
    import distributed

    logging.getLogger("distributed").setLevel(logging.CRITICAL)  # what matters is refused in one line
    try:
        client = distributed.Client(address, timeout=CONNECT, set_as_default=False)
    except (OSError, ValueError, TypeError) as fault:
        raise Refused(f"--dask {address}: no scheduler answers there: {fault}") from None
    try:
        yield functools.partial(by_dask, client)
    finally:
        client.close(timeout=CONNECT)


def by_dask(client: Any, function: Function, tasks: Sequence[Any]) -> Answered:
    """Yields the answers of a Dask cluster; a worker's tasks go to others if it is lost."""
    import distributed

    numbers = {}
    for number, future in enumerate(client.map(function, tasks, pure=False)):
        numbers[future] = number
    for future in distributed.as_completed(list(numbers), loop=client.loop):
        number = numbers.pop(future)
        try:
            yield number, future.result()
        except distributed.KilledWorker:
            raise Refused(LOST) from None
        except distributed.CancelledError:
            raise Refused(ENDED) from None
        except OSError as fault:
            raise fault if fault.filename else Refused(ENDED) from None
