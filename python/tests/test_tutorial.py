"""The commands of docs/TUTORIAL.md, one after the other in one folder, with the programs' stored answers."""
import os
import subprocess
import sys

from tests.conftest import TOP
from tests.pages import shown

PAGE = (TOP / "docs/TUTORIAL.md").read_text(encoding="utf-8")
TOOLS = {"lte_survey": "survey", "lte_convert": "to_ci16"}


def test_commands_print_what_the_page_shows(programs, tmp_path):
    for name, module in TOOLS.items():
        (programs / name).write_text(f'#!/bin/sh\nexec {sys.executable} -m lte_tools.{module} "$@"\n')
        (programs / name).chmod(0o755)
    for name in ("crates", "python"):
        (tmp_path / name).symlink_to(TOP / name)
    environment = {**os.environ, "PATH": f"{programs}:{os.environ['PATH']}", "PYTHONPATH": str(TOP / "python")}
    found = shown(PAGE)
    for one in found:
        script = one.command.replace("/usr/bin/python3", sys.executable)
        done = subprocess.run(
            ["bash", "-o", "pipefail", "-c", script],
            cwd=tmp_path,
            env=environment,
            capture_output=True,
            text=True,
            check=False,
        )
        assert done.returncode == 0, (one.command, done.stderr)
        assert done.stdout.splitlines() == one.lines, one.command
    assert len(found) == 17
