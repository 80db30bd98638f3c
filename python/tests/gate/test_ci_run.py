"""The merge gate's script, with stand-ins for the package manager, for check.sh and for the kit."""
import os
import shutil
import subprocess

import pytest

from lte_gate.repository import TOP

STANDS_IN = {
    "dpkg": '[ "$2" != "$MISSING" ]',
    "apt-get": 'echo "$*" >> "$NOTES"; echo no network; exit "$APT"',
    "rt": 'echo "rt $*"; exit "$RT"',
    "id": 'echo "$USER_ID"',
    "timeout": 'shift; exec "$@"',
}


@pytest.fixture(name="run")
def run_of_gate(tmp_path):
    """Returns a function that runs the gate; it returns the status, the output, and what apt-get was asked."""
    for path in (".ci", "scripts", "bin"):
        (tmp_path / path).mkdir()
    shutil.copy(TOP / ".ci/run", tmp_path / ".ci/run")
    (tmp_path / "scripts/check.sh").write_text('echo "checked $*"\n[ "$1" = "$FAILS" ] && exit 1\nexit 0\n')
    for name, text in STANDS_IN.items():
        (tmp_path / "bin" / name).write_text(f"#!/bin/sh\n{text}\n")
        (tmp_path / "bin" / name).chmod(0o755)

    def run(missing="", apt=0, fails="", user=0, proofs=3):
        environment = {"PATH": f"{tmp_path / 'bin'}:{os.environ['PATH']}", "NOTES": str(tmp_path / "notes")}
        environment |= {"MISSING": missing, "APT": str(apt), "FAILS": fails, "USER_ID": str(user), "RT": str(proofs)}
        how = {"cwd": "/", "env": environment, "capture_output": True, "text": True, "check": False}
        done = subprocess.run(["bash", tmp_path / ".ci/run"], **how)
        notes = tmp_path / "notes"
        return done.returncode, done.stdout + done.stderr, notes.read_text() if notes.exists() else ""

    return run


def test_nothing_is_missing(run):
    assert run() == (3, "checked --sources\nrt ci\n", "")


def test_missing_package_is_installed(run):
    status, said, asked = run("mypy")
    assert (status, said) == (3, ".ci/run: installed: mypy\nchecked --sources\nrt ci\n")
    assert asked.endswith("install -y --no-install-recommends mypy\n")


def test_without_network_the_gate_goes_on_and_says_so(run):
    status, said, asked = run("mypy", apt=100)
    assert status == 3 and asked.count("\n") == 2
    assert ".ci/run: NOT INSTALLED: mypy; their checks are left out (no network)\n" in said
    assert "checked --sources\nrt ci\n" in said


def test_who_is_not_root_installs_nothing(run):
    status, said, asked = run("mypy", user=1000)
    assert (status, asked) == (3, "") and "NOT INSTALLED: mypy" in said


def test_failed_checks_end_the_gate(run):
    status, said, _ = run(fails="--sources")
    assert status == 1 and "rt ci" not in said.replace("rt ci was not run", "")


def test_tests_of_the_programs_follow_the_proofs(run):
    everything = "checked --sources\nrt ci\nchecked --programs\n"
    assert run(proofs=0) == (0, everything, "")
    assert run(proofs=0, fails="--programs") == (1, everything, "")
