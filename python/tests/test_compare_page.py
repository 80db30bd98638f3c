"""The commands of docs/COMPARE.md, which print what stands there, and the files that they read."""
import json
import re
import shlex

import pytest

from tests import stand_in
from tests.conftest import EXAMPLES, TOP, as_radio

PAGE = (TOP / "docs/COMPARE.md").read_text()
BLOCKS = re.findall(r"^    \$ lte_compare (.+)\n((?:    .*\n)+)", PAGE, re.M)


@pytest.mark.parametrize("words, lines", BLOCKS)
def test_command_prints_what_the_page_has(tool, monkeypatch, words, lines):
    monkeypatch.chdir(EXAMPLES)
    run = tool("compare", *shlex.split(words))
    assert run.out == re.sub(r"^    ", "", lines, flags=re.M)
    assert run.status == (" differ" in run.out or "only" in run.out)


def test_page_has_its_commands():
    assert len(BLOCKS) >= 2


def test_stored_comparison(tool, monkeypatch):
    monkeypatch.chdir(EXAMPLES)
    run = tool("compare", "compare/ours.json", "compare/device.csv", "--json")
    assert run.out == (EXAMPLES / "outputs/compare.json").read_text()


def test_survey_of_the_page_is_that_of_the_stand_in(survey_json):
    found = json.loads((EXAMPLES / "compare/ours.json").read_text())
    assert found == stand_in.survey_of(stand_in.truth(), survey_json).to_json()


COMMANDS = re.findall(r"^    (lte_compare .+)$", PAGE, re.M)


def test_commands_with_files_run(tool, certifying, monkeypatch, tmp_path, sent):
    """The page's commands without output, one after the other, with files of these names."""
    (tmp_path / "recording.cu8").write_bytes(as_radio(sent, "u8", 2_400_000))
    (tmp_path / "device.csv").write_text("pci,tac\n217,1\n400,9\n")
    monkeypatch.chdir(tmp_path)
    found = {
        words: tool("compare", *shlex.split(words)[1:], *["--jobs", "1"] * ("--verify" not in words))
        for words in COMMANDS
    }
    assert len(found) == 3
    for words, run in found.items():
        assert run.status == ("--verify" not in words), (words, run.err)
        last = run.out.splitlines()[-1]
        assert last == "1 agree, 1 theirs only" or last.startswith("difference.tar: holds: "), (words, run.out)
