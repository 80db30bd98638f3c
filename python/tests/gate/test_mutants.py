"""Mutants tried by a stand-in for `rt check`, and near copies, over a repository of one crate."""
import os

import pytest

from lte_gate import copies, edit_file, mutants

SOURCE = """\
pub fn first(n: u64) -> u64 {
    n + 1
}

pub fn second(n: u64) -> u64 {
    first(n) + 2
}

const TABLE: u64 = 7;
"""
KIT = """\
#!/bin/sh
# rt check: refuses lines that are marked
status=0
report() { echo "$1"; status=1; }
grep -q 'n - 1' src/lib.rt && report 'fn low::first: not proved' && report 'src/lib.rt:2:5: error: a goal is open'
grep -q '+ 3' src/lib.rt && report 'fn low::second: not proved' && report 'proofs/second/A.antt:1:1: error: x is not in scope'
grep -q 'n \\* 1' src/lib.rt && report 'fn low::second: no proof: it calls first'
grep -q ' 8' src/lib.rt && report 'fn low::other: not proved'
[ $status = 0 ] && echo logic=proved || echo logic=not-proved
exit $status
"""
EDITS = {
    "must-fail/less": ("n + 1", "n - 1"),
    "wrong/weak": ("+ 2", "+ 3"),
    "wrong/table": ("7;", "8;"),
    "wrong/stays": ("+ 2", "+ 2 + 0"),
}


@pytest.fixture(name="top")
def repository(tmp_path, monkeypatch):
    """Makes the repository and the stand-in."""
    crate = tmp_path / "crates/low"
    for folder in ("src", "must-fail", "wrong"):
        (crate / folder).mkdir(parents=True)
    (crate / "src/lib.rt").write_text(SOURCE)
    for name, (old, new) in EDITS.items():
        (crate / f"{name}.edit").write_text(f"file: src/lib.rt\nold: {old}\nnew: {new}\n")
    (tmp_path / "crates.txt").write_text("low:\n")
    (tmp_path / "HANDLES").write_text("Handles allowed: none.\n")
    (tmp_path / "bin").mkdir()
    (tmp_path / "bin/rt").write_text(KIT)
    (tmp_path / "bin/rt").chmod(0o755)
    monkeypatch.setenv("PATH", f"{tmp_path / 'bin'}:{os.environ['PATH']}")
    monkeypatch.setattr(mutants, "TOP", tmp_path)
    return tmp_path


def run(monkeypatch, capsys, *words):
    monkeypatch.setattr("sys.argv", ["mutants", *words])
    status = mutants.main()
    return status, capsys.readouterr().out.splitlines()


def test_verdicts_and_table(top, monkeypatch, capsys):
    status, lines = run(monkeypatch, capsys, "--lanes", "1")
    assert status == 1
    assert sorted(lines[:2]) == ["low/stays: proved", "low/weak: weak"]
    assert lines[2] == "| Crate | mutants | in the gate | checks | refused | weak | not refused |"
    assert lines[-1].split("|")[2:4] == [" 4 ", " 1 "] and lines[-1].split("|")[5:8] == [" 2 ", " 1 ", " 1 "]


def test_all_refused(top, monkeypatch, capsys):
    for name in ("wrong/weak", "wrong/stays"):
        (top / f"crates/low/{name}.edit").unlink()
    status, lines = run(monkeypatch, capsys, "low")
    assert status == 0 and len(lines) == 4


def test_one_mutant_of_each_function_a_check(top):
    bodies = [mutants.Mutant(edit) for edit in edit_file.edits_of(top)]
    assert [[body.name for body in check] for check in mutants.batches_of(bodies)] == [
        ["less", "stays"],
        ["table"],
        ["weak"],
    ]
    place = next(body.functions[0] for body in bodies if body.name == "weak")
    assert place == mutants.Place("src/lib.rt", "", "second", 5, 7)


def test_failure_of_a_called_function_is_not_its_own():
    place = mutants.Place("src/lib.rt", "", "second", 5, 7)
    assert mutants.verdict_on(place, ["fn low::second: no proof: it calls first"]) is None


def test_near_copies(top):
    lines = [f"    let a{i} = part({i});" for i in range(8)]
    texts = [f"pub fn {name}() {{\n" + "\n".join(lines) + "\n}\n" for name in ("one", "other")]
    (top / "crates/low/src/more.rt").write_text("\n".join(texts))
    pieces = copies.house(top)["src"]
    (family,) = copies.families_of(pieces, 80)
    assert (family.head.name, family.lines, family.is_over_crates) == ("one", 10, False)
    assert "10 lines, src" in "\n".join(copies.listed({"src": [family]}))
