#!/usr/bin/python3
"""live_pipe.py FILE [TIMES]

Tries whether survey.py keeps up with a radio: a file of bytes at 2.4 million samples per second (drive.cu8 of drive.py)
comes, so many times over, through `pv -L` at that rate into `survey.py - --follow` on two processors. Prints how many
windows were looked at and skipped, how far behind the survey came, what was heard, its memory in the first sixth and in
all, and the processor time. Then the stream is stopped by a signal. The status is 0 where no window was skipped, each
sure cell was printed as it came, and the signal ended it with a table.

Debian: python3-numpy, python3-scipy, pv. Needs lte_cli and lte_tune.
"""
import json
import os
import pathlib
import resource
import signal
import subprocess
import sys
import tempfile
import time

import packages

packages.add()
from lte_tools import machine

RATE = 2_400_000
SURVEY = [*packages.tool("survey"), *f"- --form u8 --rate {RATE} --follow --json --jobs 2".split()]
STOPPED = 15  # seconds after which a stream is stopped


def memory(leader):
    """Returns the megabytes that the processes of a session hold; shared memory is counted once."""
    total = 0
    for process in pathlib.Path("/proc").glob("[0-9]*"):
        try:
            if os.getsid(int(process.name)) == leader:
                total += int((process / "smaps_rollup").read_text().partition("\nPss:")[2].split()[0])
        except (OSError, IndexError):
            pass  # it has ended
    return total / 1000


class Followed:
    """A survey at the radio's rate, on two processors, with its output in a folder."""

    def __init__(self, files, room):
        self.table, self.lines = room / "table", room / "lines"
        pipe = subprocess.Popen(["pv", "-q", "-L", str(2 * RATE), *files], stdout=subprocess.PIPE)
        with self.table.open("wb") as table, self.lines.open("wb") as lines:
            command = ["taskset", "-c", "0,1", *SURVEY]
            keys = {"stdin": pipe.stdout, "stdout": table, "stderr": lines, "start_new_session": True}
            self.process = subprocess.Popen(command, **keys)
        pipe.stdout.close()

    def printed(self):
        return json.loads(self.table.read_text() or "{}")


def try_whole(files, room):
    """Says how the whole stream goes, and whether it goes as it should."""
    before, start = used(), time.monotonic()
    survey, held = Followed(files, room), []
    while survey.process.poll() is None:
        held.append((time.monotonic() - start, memory(survey.process.pid)))
        time.sleep(0.5)
    printed, seen = survey.printed(), survey.lines.read_text().count("behind\n")
    live, cells = printed["live"], {one["identity"]: one["windows"] for one in printed["cells"] if not one["chance"]}
    early = max((size for second, size in held if second <= printed["seconds"] / 6), default=0)
    print(
        f"{printed['seconds']:.1f} s, {printed['windows']} windows, {live['skipped']} skipped, "
        f"{live['behind']} s behind at most"
    )
    print(f"cells and their windows: {cells}, by {seen} lines before the table")
    print(f"memory: {early:.0f} MB at most in the first sixth, {max(size for _, size in held):.0f} MB in all")
    print(f"processor time: {used() - before:.1f} s")
    return not live["skipped"] and bool(cells) and seen >= sum(cells.values())


def used():
    """Seconds of processor time of all processes that ended."""
    times = resource.getrusage(resource.RUSAGE_CHILDREN)
    return times.ru_utime + times.ru_stime


def try_signal(files, room):
    """Says how a stream ends by a signal, and whether as it should."""
    survey = Followed(files, room)
    time.sleep(STOPPED)
    before = time.monotonic()
    survey.process.send_signal(signal.SIGINT)
    status = survey.process.wait(60)
    windows = survey.printed().get("windows", 0)
    print(f"a signal after {STOPPED} s: ended in {time.monotonic() - before:.1f} s, status {status}, {windows} windows")
    return status == 0 and windows > STOPPED


def main():
    files = sys.argv[1:2] * (int(sys.argv[2]) if sys.argv[2:] else 1)
    with tempfile.TemporaryDirectory() as folder:
        is_well = [attempt(files, pathlib.Path(folder)) for attempt in (try_whole, try_signal)]
    sys.exit(not all(is_well))


if __name__ == "__main__":
    if not 2 <= len(sys.argv) <= 3 or not all(word.isdigit() for word in sys.argv[2:]):
        sys.exit(__doc__)
    machine.run(main)
