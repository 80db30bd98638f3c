"""Mutants: their parser, and what is wrong with one that cannot be applied."""
import pytest

from lte_gate import edit_file
from lte_gate.repository import TOP


@pytest.fixture(name="faults")
def faults_of_text(tmp_path):
    """Returns a function that lists the faults of a mutant over a small crate."""

    def faults(text):
        for folder in ("must-fail", "src"):
            (tmp_path / folder).mkdir(exist_ok=True)
        (tmp_path / "src/lib.rt").write_text("let a = 1;\nlet b = a + a;\n")
        file = tmp_path / "must-fail/one.edit"
        file.write_text(text)
        return list(edit_file.faults_of(edit_file.read(file)))

    return faults


@pytest.mark.parametrize(
    "text, fault",
    (
        ("file: src/lib.rt\nold: a + a\nnew: a\n", None),
        ("file: src/lib.rt\nold: a + a\nnew: a\nold: = a;\nnew: = 2;\n", None),
        ("file: src/lib.rt\nold: let b\nnew:\n", None),
        ("file: src/lib.rt\nold: let\nnew: set\n", "'let' is in src/lib.rt 2 times"),
        ("file: src/lib.rt\nold: nothing\nnew: x\n", "'nothing' is in src/lib.rt 0 times"),
        ("file: src/lib.rt\nold: a + a\nnew: a + a\n", "'a + a' is not changed"),
        ("file: src/no.rt\nold: a\nnew: b\n", "no file src/no.rt, or no `old:`"),
        ("file: src/lib.rt\nnew: b\n", "no file src/lib.rt, or no `old:`"),
        ("file: src/lib.rt\n", "no pair"),
    ),
)
def test_faults(faults, text, fault):
    assert faults(text) == ([fault] if fault else [])


def test_folders():
    edits = edit_file.edits_of(TOP)
    assert {edit.file.parent.name for edit in edits} == set(edit_file.FOLDERS)
    assert edits[0].is_in_gate and not edits[-1].is_in_gate and edits[0].crate.parent == TOP / "crates"
