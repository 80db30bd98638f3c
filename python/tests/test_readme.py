"""The example of the README, from the command that writes its file to the survey's table, with stored answers."""
import re
import shlex

from lte_reference import wide_sender
from tests.conftest import TOP
from tests.pages import shown

README = (TOP / "README.md").read_text(encoding="utf-8")
MODULE = "PYTHONPATH=python /usr/bin/python3 -m lte_reference.wide_sender "
MOST = 1_500  # words


def example(page, command):
    """Returns the arguments of a command that a page shows, and the lines below it."""
    (found,) = [one for one in shown(page) if one.command.startswith(command)]
    return shlex.split(found.command.removeprefix(command)), found.lines


def test_survey_of_a_wide_cell(tool, tmp_path, monkeypatch):
    words, _ = example(README, MODULE)
    monkeypatch.chdir(tmp_path)
    monkeypatch.setattr("sys.argv", ["wide_sender", *words])
    wide_sender.main()
    words, lines = example(README, "lte_survey ")
    run = tool("survey", *words)
    assert (run.status, run.out.splitlines()) == (0, lines), run.err
    assert lines[0].startswith("wide.ci16: 0.20 s") and len(lines) == 3


def test_columns_are_those_of_the_example():
    _, (_, head, _) = example(README, "lte_survey ")
    table = README.partition("| Column |")[2].partition("\n\n")[0]
    names = re.findall(r"^\| ((?:`[^`]+`(?:, )?)+) \|", table, re.M)
    assert len(names) == 5
    assert [name for row in names for name in re.findall("`([^`]+)`", row) if name not in head] == []


def test_length():
    assert len(README.split()) <= MOST
