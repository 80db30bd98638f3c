"""The kit's script over kit_once.py: how often the checksums are computed, with stand-ins for the kit."""
import json
import os
import subprocess
import sys
import textwrap

import pytest

from lte_gate import build, kit_once

CRATES = 12  # each on the two crates before it: 376 paths below the last
KIT = """\
#!/usr/bin/env python3
import collections, json, os, sys
counts = collections.Counter()
sums = {}

class Crate:
    def __init__(self, number, known):
        self.folder, self.said = f"crate {number}", {"name": number}
        self.deps = [known[it] for it in range(number - 2, number) if it >= 0]

    def stamp(self):
        %(stamp)s
        counts["stamp"] += 1
        found = repr((self.said, [it.stamp() for it in self.deps]))
        sums[id(self)] = str(hash(found))
        return sums[id(self)]

    def below(self):
        counts["below"] += 1
        found = []
        for dep in self.deps:
            found += [it for it in [*dep.below(), dep] if it not in found]
        return found

if __name__ == "__main__":
    known = {}
    for number in range(%(crates)d):
        known[number] = Crate(number, known)
    crate = known[number]
    sizes = [len(crate.below()), len(crate.below())]
    crate.below().clear()
    first = crate.stamp() == crate.stamp()
    crate.said["name"] = "another"
    json.dump([sys.argv, __file__, sys.path[0], sizes, first, sums[id(crate)] == crate.stamp(), counts], sys.stdout)
    sys.exit(7)
"""
OFTEN = {"stamp": "pass", "crates": CRATES}
KEPT = {"stamp": "if id(self) in sums and self.said['name'] != 'another': return sums[id(self)]", "crates": CRATES}


@pytest.fixture(name="run")
def run_of_kit(tmp_path, monkeypatch):
    """Returns a function that runs a kit with these words as build.py does."""

    def run(text, *words):
        script = tmp_path / "rt"
        script.write_text(textwrap.dedent(text))
        script.chmod(0o755)
        monkeypatch.setenv("PATH", f"{tmp_path}:{os.environ['PATH']}")
        return subprocess.run([*build.kit_command(), *words], capture_output=True, text=True, check=False)

    return run


@pytest.mark.parametrize("kit", (OFTEN, KEPT), ids=("often", "kept"))
def test_sums_and_lists_are_made_once_a_crate(run, tmp_path, kit):
    done = run(KIT % kit, "lib", "--jobs", "4")
    assert (done.returncode, done.stderr) == (7, "")
    argv, file, folder, sizes, is_same, is_new_for_new_line, counts = json.loads(done.stdout)
    assert argv == [str(tmp_path / "rt"), "lib", "--jobs", "4"]
    assert (file, folder) == (str(tmp_path / "rt"), str(tmp_path))
    assert (sizes, is_same, is_new_for_new_line) == ([CRATES - 1] * 2, True, False)
    assert counts["stamp"] <= CRATES + 1 and counts["below"] == CRATES


def test_without_it_they_are_made_for_each_path(tmp_path):
    script = tmp_path / "rt"
    script.write_text(KIT % OFTEN)
    done = subprocess.run([sys.executable, script], capture_output=True, text=True, check=False)
    assert json.loads(done.stdout)[-1]["stamp"] > 3 * 300


def test_kit_without_the_methods(run):
    done = run("#!/usr/bin/env python3\nclass Crate:\n    below = 3\nprint(Crate.below, Crate().__class__.__name__)\n")
    assert (done.returncode, done.stdout, done.stderr) == (0, "3 Crate\n", "")


def test_kit_that_is_not_python(run):
    done = run("#!/bin/sh\necho $# $1\nexit 5\n", "lib", "--jobs", "4")
    assert (done.returncode, done.stdout) == (5, "3 lib\n")


def test_method_with_arguments_is_not_kept():
    assert kit_once.once(lambda crate, more=0: more)(object(), 3) == 3
