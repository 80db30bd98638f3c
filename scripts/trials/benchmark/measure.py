#!/usr/bin/env python3
"""measure.py RUNS PROGRAM [OTHER] < CASES: the table that scripts/trials/benchmark.sh prints.

A case is a line: words with + between them, input file (with {} for the program's number), exit code, and what the
file is. The first run of a case goes through /usr/bin/time, which tells the peak memory: a process that Python itself
starts counts Python's memory as its own. That run counts no time, except where it is the only one. Output goes to
/dev/null.
"""
import os
import pathlib
import platform
import shutil
import statistics
import sys
import tempfile

LONG = 10  # seconds of processor time from which a case is not repeated


def run(words, source):
    """The exit code and the seconds of processor time of one run."""
    actions = [
        (os.POSIX_SPAWN_OPEN, 0, source, os.O_RDONLY, 0),
        (os.POSIX_SPAWN_OPEN, 1, os.devnull, os.O_WRONLY, 0),
        (os.POSIX_SPAWN_OPEN, 2, os.devnull, os.O_WRONLY, 0),
    ]
    process = os.posix_spawn(words[0], words, os.environ, file_actions=actions)
    _, status, usage = os.wait4(process, 0)
    return os.waitstatus_to_exitcode(status), usage.ru_utime + usage.ru_stime


class Series:
    """The runs of one case with one program."""

    def __init__(self, program, words, source, wanted):
        self.words, self.source, self.wanted = [program, *words], source, wanted
        self.times, self.memory, self.fault = [], "-", None
        self.first()

    def once(self, words):
        code, seconds = run(words, self.source)
        if code != self.wanted:
            self.fault = f"ended with {code}"
        return seconds

    def first(self):
        words, clock = self.words, shutil.which("time")
        with tempfile.NamedTemporaryFile("r") as usage:
            if clock:
                words = [clock, "-q", "-o", usage.name, "-f", "%M", *words]
            seconds = self.once(words)
            if clock:
                self.memory = usage.read().strip()
        self.long = seconds > LONG
        if self.long:
            self.times.append(seconds)

    def again(self):
        if not self.long and not self.fault:
            self.times.append(self.once(self.words))

    def median(self):
        return 1000 * statistics.median(self.times)

    def cells(self):
        if self.fault:
            return [self.fault, self.memory]
        if self.long:
            return [f"{self.median():.0f}*", self.memory]
        return [f"{self.median():.1f} ({1000 * min(self.times):.1f})", self.memory]


def processor():
    try:
        lines = pathlib.Path("/proc/cpuinfo").read_text().splitlines()
        return next(line.split(": ")[1] for line in lines if line.startswith("model name"))
    except (OSError, StopIteration, IndexError):
        return platform.processor() or platform.machine()


def row(cells):
    print("|", " | ".join(cells), "|", flush=True)


def main():
    runs, programs = int(sys.argv[1]), sys.argv[2:]
    names = ["this", "other"] if len(programs) == 2 else ["this"]
    print(
        f"Milliseconds of processor time, medians of {runs} runs (least in brackets; * one run), and peak memory in "
        f"kB. {processor()}, {os.cpu_count()} processors, load {os.getloadavg()[0]:.1f}.\n"
    )
    head = ["Words", "Input"] + [cell for name in names for cell in (f"{name}, ms", f"{name}, kB")]
    row(head + ["this / other"] * (len(programs) == 2))
    row(["---"] * (len(head) + (len(programs) == 2)))
    for line in sys.stdin:
        form, source, wanted, what = line.rstrip("\n").split(" ", 3)
        words = form.split("+")
        series = [Series(program, words, source.format(number), int(wanted)) for number, program in enumerate(programs)]
        for _ in range(runs):
            for one in series:
                one.again()
        cells = [cell for one in series for cell in one.cells()]
        if len(series) == 2:
            whole = not any(one.fault for one in series)
            cells.append(f"{series[0].median() / series[1].median():.2f}" if whole else "-")
        row([f"`{' '.join(words)}`", what] + cells)


main()
