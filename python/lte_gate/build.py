"""build ROOM CRATE.. [--jobs N]

Builds crates of this repository and all crates below them, in the folder ROOM: each once, after those that it uses,
those with the longest chain of others above them first, as many side by side as there are processors and memory. What
an earlier run built from the same text stays. A program ends as ROOM/built/NAME/NAME.

The kit makes a library by `rt lib` in its folder, and a program by `rt run`. Such a command locks the folders of its
crate and of all below, so two in one checkout wait for each other. So ROOM has as many copies of the sources as crates
are built at once, and each gets the libraries that the others made, as hard links: what is built is never built again.
The kit's script runs by kit_once.py, which spares it most of its checksums. The output of each command is in ROOM/logs.
"""
import argparse
import contextlib
import fcntl
import os
import pathlib
import re
import shutil
import signal
import subprocess
import sys
import threading
import time
from dataclasses import dataclass

from .crates_list import PARTS, Crates
from .repository import TOP, Refused, run

SHARE = 0.85  # the part of the free memory that checks may take
FURTHER = 0.6  # the part of a check's memory that each further process of it takes
MOST = 4  # the maximum of processes of one check
KILLED = (-signal.SIGKILL, 256 - signal.SIGKILL)  # the kit's status if its check was killed, most likely for memory
GRACE = 10  # seconds that a command has to end before it is killed
KIT_ONCE = pathlib.Path(__file__).with_name("kit_once.py")


@dataclass
class Running:
    """A crate that is being built."""

    name: str
    copy: pathlib.Path
    memory: float
    jobs: int
    since: float
    process: subprocess.Popen


def number_in(path, pattern):
    """Returns a number in a file of the system, or None."""
    try:
        return int(re.search(pattern, pathlib.Path(path).read_text(encoding="utf-8"))[1])
    except (OSError, TypeError):
        return None


def processors():
    """Returns how many processors may be used, within the quota of the control group."""
    count, quotas = len(os.sched_getaffinity(0)), "/sys/fs/cgroup/cpu.max"
    quota, period = number_in(quotas, r"^(\d+)"), number_in(quotas, r" (\d+)")
    return min(count, max(1, quota // period)) if quota and period else count


def free_memory():
    """Returns how many bytes are free, within the limit of the control group."""
    free = 1024 * number_in("/proc/meminfo", r"MemAvailable:\s+(\d+)")
    limit, held = number_in("/sys/fs/cgroup/memory.max", r"(\d+)"), number_in(
        "/sys/fs/cgroup/memory.stat", r"anon (\d+)"
    )
    return free if limit is None or held is None else min(free, limit - held)


def kit():
    """Returns the kit's name for itself."""
    try:
        done = subprocess.run(["rt", "version"], capture_output=True, text=True, check=False)
    except OSError:
        raise Refused("rt is missing: Rattle's kit is not installed, or not in PATH") from None
    if done.returncode or not done.stdout.strip():
        raise Refused("rt version fails: Rattle's kit is incomplete")
    return done.stdout.strip()


def logic_of(text):
    """Returns the name of the kit's logic, by which kits of several letters prove the same, or the text without one."""
    found = re.search(r"\blogic [0-9a-f]+", text)
    return found[0] if found else text


def kit_command():
    """Returns the words that run the kit's script with its checksums kept."""
    return [sys.executable or "python3", str(KIT_ONCE), shutil.which("rt") or "rt"]


def second_names(source, target):
    """Links a library's files into another folder, or copies them if links fail; the kit never writes into one."""

    def link(old, new):
        try:
            os.link(old, new)
        except OSError:
            shutil.copy2(old, new)

    stamp = target / "stamp"
    if stamp.exists() and stamp.samefile(source / "stamp"):
        return
    shutil.rmtree(target, ignore_errors=True)
    target.parent.mkdir(parents=True, exist_ok=True)
    shutil.copytree(source, target, copy_function=link)


class Room:
    """The folder in which crates are built: copies of the sources, built files, and the kit's output."""

    def __init__(self, folder, crates, copies):
        self.crates, self.built, self.logs = crates, folder / "built", folder / "logs"
        self.sums = crates.sums(kit())
        self.copies, self.filled = [folder / f"copy-{number}" for number in range(copies)], set()
        for path in (self.built, self.logs):
            path.mkdir(parents=True, exist_ok=True)

    def fill(self, copy):
        """Has a copy hold the sources as they are now; the kit's kept results of a crate stay."""
        for crate in self.crates.by_name.values():
            folder = copy / "crates" / crate.name
            for part in PARTS:
                shutil.rmtree(folder / part, ignore_errors=True)
                if (crate.folder / part).is_dir():
                    shutil.copytree(crate.folder / part, folder / part)
        lines = [crate.line for crate in self.crates.by_name.values()]
        (copy / "crates.txt").write_text("\n".join(lines) + "\n", encoding="utf-8")
        if (self.crates.top / "HANDLES").is_file():
            shutil.copy2(self.crates.top / "HANDLES", copy / "HANDLES")
        self.filled.add(copy)

    def copy_for(self, name, taken):
        """Returns the copy in which to build a crate: one with kept work of it, else the first free."""
        free = [copy for copy in self.copies if copy not in taken]
        copy = next((copy for copy in free if (copy / "crates" / name / "out/incremental").is_dir()), free[0])
        if copy not in self.filled:
            self.fill(copy)
        return copy

    def is_built(self, name):
        """Returns whether the library or program in the room was built from the crate's present text."""
        kept = self.built / name / "sum"
        return kept.is_file() and kept.read_text(encoding="utf-8") == self.sums[name]

    def start(self, name, copy, jobs):
        """Starts the kit's command for a crate over the libraries that are built."""
        folder = copy / "crates" / name
        for low in self.crates.below[name]:
            second_names(self.built / low / "rlib", copy / "crates" / low / "out/rlib")
        words = ["lib", "--jobs", str(jobs)]
        if self.crates.by_name[name].is_program:
            words = ["run", "--jobs", str(jobs), "--", "version"]
        how = {"cwd": folder, "stdin": subprocess.DEVNULL, "stderr": subprocess.STDOUT}
        with (self.logs / f"{name}.log").open("wb") as log:
            return subprocess.Popen([*kit_command(), *words], stdout=log, **how)

    def keep(self, name, copy):
        """Keeps the output of a command, and whether it succeeded."""
        out, target = copy / "crates" / name / "out", self.built / name
        is_program = self.crates.by_name[name].is_program
        made = out / name if is_program else out / "rlib"
        if not made.exists():
            return False
        shutil.rmtree(target, ignore_errors=True)
        target.mkdir()
        if is_program:
            shutil.copy2(made, target / name)
        else:
            second_names(made, target / "rlib")
        shutil.rmtree(out / "incremental", ignore_errors=True)
        (target / "sum").write_text(self.sums[name], encoding="utf-8")
        return True

    def clear(self):
        """Removes the copies, which nothing needs once all is built."""
        for copy in self.copies[0].parent.glob("copy-*"):
            shutil.rmtree(copy, ignore_errors=True)


class Stop:
    """Notes SIGINT and SIGTERM while it is entered, and raises KeyboardInterrupt only where it is asked.

    A signal's exception may come anywhere: in `Popen`, whose process is then started and unknown, or after
    `Popen.poll` took its lock, for which `Popen.wait` then waits for ever.
    """

    def __init__(self):
        self.is_asked, self.before = False, {}

    def note(self, *_):
        self.is_asked = True

    def __enter__(self):
        if threading.current_thread() is threading.main_thread():
            self.before = {it: signal.signal(it, self.note) for it in (signal.SIGINT, signal.SIGTERM)}
        return self

    def __exit__(self, *_):
        for number, handler in self.before.items():
            signal.signal(number, handler)

    def look(self):
        """Raises KeyboardInterrupt if a signal came."""
        if self.is_asked:
            raise KeyboardInterrupt


class Build:
    """Crates being built side by side."""

    def __init__(self, room, memory, say):
        self.room, self.crates, self.memory, self.say = room, room.crates, memory, say
        chains = self.crates.chains()
        self.done = {name for name in self.crates if room.is_built(name)}
        self.left = sorted((name for name in self.crates if name not in self.done), key=lambda name: -chains[name])
        self.running, self.killed, self.since = [], set(), time.monotonic()
        self.stop = Stop()

    def run(self):
        """Builds all crates that are left, or raises for the crate that was not built."""
        if self.done:
            self.say(f"{self.count()} are there from an earlier run")
        with self.stop:
            try:
                while self.left or self.running:
                    self.start_all()
                    self.end(self.first_ended())
            finally:
                self.end_all()

    def count(self):
        return f"{len(self.done)} of {len(self.crates)} crates"

    def start_all(self):
        """Starts each crate whose libraries are built, as many as processors and memory hold."""
        ready = [name for name in self.left if self.done.issuperset(self.crates.below[name])]
        for place, name in enumerate(ready):
            idle = len(self.room.copies) - sum(one.jobs for one in self.running)
            room = self.memory - sum(one.memory for one in self.running)
            needs = float("inf") if name in self.killed else self.crates.memory(name)
            if idle <= 0 or self.running and needs > room:
                return
            spare = 1 + int(max(0, room / needs - 1) / FURTHER)
            jobs = max(1, min(MOST, idle // (len(ready) - place), spare))
            copy = self.room.copy_for(name, [one.copy for one in self.running])
            process = self.room.start(name, copy, jobs)
            self.left.remove(name)
            memory = needs * (1 + FURTHER * (jobs - 1))
            self.running.append(Running(name, copy, memory, jobs, time.monotonic(), process))

    def first_ended(self):
        """Waits until a command ends, and returns it."""
        while True:
            self.stop.look()
            for one in self.running:
                if one.process.poll() is not None:
                    return one
            time.sleep(0.05)

    def end(self, one):
        """Takes the library or program that a command made, or raises if it made none."""
        self.running.remove(one)
        if one.process.returncode in KILLED and one.name not in self.killed:
            self.say(f"{one.name} was killed, most likely for memory: once more, with nothing next to it")
            self.killed.add(one.name)
            self.left.insert(0, one.name)
            return
        if one.process.returncode or not self.room.keep(one.name, one.copy):
            raise Refused(f"{one.name} is not built: {self.room.logs / one.name}.log says why")
        self.done.add(one.name)
        took = time.monotonic() - one.since
        self.say(f"{self.count()}, {minutes(time.monotonic() - self.since)}: {one.name} in {took:.0f} s")

    def end_all(self):
        """Ends all commands that still run; the work that the kit kept serves the next run."""
        for one in self.running:
            one.process.terminate()
        for one in self.running:
            try:
                one.process.wait(GRACE)
            except subprocess.TimeoutExpired:
                one.process.kill()
                one.process.wait()


def minutes(seconds):
    return f"{seconds / 60:.0f} min"


@contextlib.contextmanager
def alone(folder):
    """Keeps a second build out of a room while it is entered."""
    folder.mkdir(parents=True, exist_ok=True)
    with (folder / "lock").open("w") as lock:
        try:
            fcntl.flock(lock, fcntl.LOCK_EX | fcntl.LOCK_NB)
        except BlockingIOError:
            raise Refused(f"another build works in {folder}") from None
        yield


def remove(folder):
    """Removes a room, if it is one."""
    if not (folder / "built").is_dir():
        return
    with alone(folder):
        for path in [folder / "built", folder / "logs", *folder.glob("copy-*")]:
            shutil.rmtree(path, ignore_errors=True)
        (folder / "lock").unlink()
    with contextlib.suppress(OSError):
        folder.rmdir()


def build(top, folder, names, jobs, say):
    """Builds these crates of a repository in a room, and returns the paths of their programs by name."""
    crates = Crates(top, names)
    with alone(folder):
        room = Room(folder, crates, min(jobs, len(crates)))
        if not all(map(room.is_built, crates)):
            Build(room, SHARE * free_memory(), say).run()
        room.clear()
    return {name: room.built / name / name for name in names if crates.by_name[name].is_program}


def at_least_one(text):
    """Returns a number above 0."""
    if not text.isdigit() or int(text) < 1:
        raise argparse.ArgumentTypeError(f"{text} is not a whole number above 0")
    return int(text)


def parser():
    """Returns the parser of the command's arguments."""
    made = argparse.ArgumentParser("build", description=__doc__, formatter_class=argparse.RawDescriptionHelpFormatter)
    made.add_argument("room", metavar="ROOM", type=pathlib.Path)
    made.add_argument("crates", metavar="CRATE", nargs="+")
    made.add_argument("--jobs", type=at_least_one, default=processors(), help="processes at once (one a processor)")
    made.add_argument("--top", type=pathlib.Path, default=TOP, help="the repository (this one)")
    return made


def main():
    args = parser().parse_args()
    build(args.top.resolve(), args.room.resolve(), args.crates, args.jobs, lambda text: print(text, flush=True))


if __name__ == "__main__":
    run(main, "build")
