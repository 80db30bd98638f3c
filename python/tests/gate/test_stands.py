"""Commits that do not stand as a whole, over a repository of two crates."""
import subprocess

import pytest

from lte_gate import stands

LOW = "pub enum Kind {\n    Short,\n    Long,\n}\n\npub fn count() -> u64 {\n    1\n}\n"
USER = """\
use low::{count, Kind};

fn of(kind: Kind) -> u64 {
    match kind {
        Kind::Short => count(),
        Kind::Long => 2,
    }
}
"""


@pytest.fixture(name="judged")
def judge_of_commits(tmp_path, monkeypatch):
    """Returns a function that commits these texts and lists the commit's faults."""
    monkeypatch.setattr(stands, "TOP", tmp_path)
    for name in ("GIT_DIR", "GIT_WORK_TREE", "GIT_INDEX_FILE"):
        monkeypatch.delenv(name, raising=False)

    def git(*words):
        how = ["git", "-c", "user.name=a", "-c", "user.email=a@b.example", *words]
        subprocess.run(how, cwd=tmp_path, check=True, capture_output=True)

    git("init")

    def judged(low=LOW, user=USER, crates="low:\nuser: low\n"):
        for name, text in (("low", low), ("user", user)):
            (tmp_path / "crates" / name / "src").mkdir(parents=True, exist_ok=True)
            (tmp_path / "crates" / name / "src/lib.rt").write_text(text)
        (tmp_path / "crates.txt").write_text(crates)
        git("add", "-A")
        git("commit", "--allow-empty", "-m", "a state")
        return stands.Judge().faults("HEAD")

    return judged


def test_whole_commit(judged):
    assert judged() == []


def test_name_that_is_gone(judged):
    assert judged(low=LOW.replace("count", "sum")) == ["crates/user/src/lib.rt:1: there is no low::count"]


def test_case_that_is_left_out(judged):
    assert judged(low=LOW.replace("    Long,\n", "    Long,\n    Wide,\n")) == [
        "crates/user/src/lib.rt:4: a match is without Wide"
    ]


def test_crate_without_an_entry(judged):
    assert "crates.txt: no line for user" in judged(crates="low:\n")
