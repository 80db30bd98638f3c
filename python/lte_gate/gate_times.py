"""gate_times [WORD ..]

Runs `rt ci WORD ..` at the top of the repository and prints, as a Markdown table, the processor time (user and system)
that each crate took of it: its proof, its tests (which prove the crate and the tests), the seed of its edits (one more
check, with which they begin) and the edits themselves. What `rt ci` says goes to standard error. `gate_times --anew`
measures the whole gate from nothing. The status is that of `rt ci`.

Each second it looks at the processes below `rt ci`, so of each its last second is missed; a process that another of
them started counts as a part of that one. The last line has what was not seen of any crate: the tests' runs, the
programs' runs, and `rt ci` itself.
"""
import argparse
import collections
import os
import pathlib
import re
import resource
import subprocess
import sys
import threading
import time

from .repository import TOP, run

TICK = os.sysconf("SC_CLK_TCK")
KINDS = ("proof", "tests", "seed", "edits")


def processes():
    """Returns, by process, its parent, its start, and its seconds with its ended children's."""
    found = {}
    for name in os.listdir("/proc"):
        if name.isdigit():
            try:
                text = pathlib.Path(f"/proc/{name}/stat").read_text(encoding="utf-8", errors="replace")
            except OSError:
                continue
            fields = text[text.rindex(")") + 2 :].split()
            found[int(name)] = int(fields[1]), fields[19], sum(map(int, fields[11:15])) / TICK
    return found


def below(root, found):
    """Returns the processes below one."""
    children = collections.defaultdict(list)
    for number, (parent, _, _) in found.items():
        children[parent].append(number)
    waiting, seen = [root], []
    while waiting:
        more = children[waiting.pop()]
        seen += more
        waiting += more
    return seen


def kind_of(words, folder):
    """Returns the crate that a process works on, and the kind of work, or None."""
    if (
        len(words) < 2
        or not words[0].endswith("/rattle")
        or words[1] not in ("build", "check")
        or "--crate-name" not in words
    ):
        return None
    crate = words[words.index("--crate-name") + 1]
    kept = words[words.index("--incremental") + 1] if "--incremental" in words else ""
    if kept.endswith("/seed"):
        return crate, "seed"
    if re.search(r"/rt-edits-[^/]*/\d+$", kept) or "/rt-edit-" in folder:
        return crate, "edits"
    return crate, "tests" if "--test" in words else "proof"


class Sampler:
    """The seconds of each crate and kind, and how many processes there were of it."""

    def __init__(self):
        self.kinds, self.seconds = {}, {}

    def look(self, root):
        found = processes()
        for number in below(root, found):
            key = number, found[number][1]
            parent = found[number][0]
            if parent in found and self.kinds.get((parent, found[parent][1])):
                # (its parent's seconds have those of a child that ended)
                continue
            if not self.kinds.get(key):
                # (a process begins with the words of the one that started it)
                try:
                    words = (
                        pathlib.Path(f"/proc/{number}/cmdline")
                        .read_text(encoding="utf-8", errors="replace")
                        .split("\0")
                    )
                    self.kinds[key] = kind_of(words, os.readlink(f"/proc/{number}/cwd"))
                except OSError:
                    continue
            if self.kinds[key]:
                self.seconds[key] = found[number][2]

    def table(self):
        sums, counts = collections.Counter(), collections.Counter()
        for key, seconds in self.seconds.items():
            sums[self.kinds[key]] += seconds
            counts[self.kinds[key]] += 1
        return sums, counts


def parser():
    """Returns the parser of the command's arguments, the same as of `rt ci`."""
    how = {"description": __doc__, "formatter_class": argparse.RawDescriptionHelpFormatter}
    made = argparse.ArgumentParser("gate_times", **how)
    made.add_argument("words", metavar="WORD", nargs=argparse.REMAINDER)
    return made


def main():
    words = parser().parse_args().words
    began = time.time()
    sampler, ended = Sampler(), threading.Event()
    with subprocess.Popen(["rt", "ci", *words], cwd=TOP, stdin=subprocess.DEVNULL, stdout=sys.stderr) as gate:

        def look():
            while not ended.wait(1):
                sampler.look(gate.pid)

        watch = threading.Thread(target=look)
        watch.start()
        status = gate.wait()
        ended.set()
        watch.join()
    used = resource.getrusage(resource.RUSAGE_CHILDREN)
    sums, counts = sampler.table()
    crates = {crate for crate, _ in sums}
    whole = {crate: sum(sums[crate, kind] for kind in KINDS) for crate in crates}
    print("| Crate | proof, s | tests, s | seed, s | edits | s of all edits | all, min |")
    print("| --- | --- | --- | --- | --- | --- | --- |")
    for crate in sorted(crates, key=lambda it: (-whole[it], it)):
        cells = [f"{sums[crate, kind]:.0f}" if counts[crate, kind] else "-" for kind in KINDS]
        cells.insert(3, str(counts[crate, "edits"] or "-"))
        print(f'| `{crate}` | {" | ".join(cells)} | {whole[crate] / 60:.1f} |')
    totals = [sum(sums[crate, kind] for crate in crates) for kind in KINDS]
    cells = [f"{seconds / 60:.0f} min" for seconds in totals]
    cells.insert(3, str(sum(counts[crate, "edits"] for crate in crates)))
    print(f'| all | {" | ".join(cells)} | {sum(totals) / 60:.0f} |')
    rest = used.ru_utime + used.ru_stime - sum(totals)
    print(
        f"\nThe whole run: {(time.time() - began) / 60:.0f} minutes, {(used.ru_utime + used.ru_stime) / 60:.0f} minutes of"
    )
    print(f"processor time, of which {rest / 60:.0f} are of no crate; it ended with status {status}.")
    return status


if __name__ == "__main__":
    run(main, "gate_times")
