"""The parser of crates.txt, and the checks of its entries and of the crates' sizes."""
import pytest

from lte_gate import crates_list, crates_picture, layers
from lte_gate.repository import TOP, Refused

LIST = "# a list\nlow:\n\n# ---- the upper group\nmid: low itoa    # why\nprogram backend=rattle: mid low\n"


def test_entries():
    found = crates_list.entries(LIST)
    assert [(it.name, it.below, it.group) for it in found] == [
        ("low", (), ""),
        ("mid", ("low", "itoa"), "the upper group"),
        ("program", ("mid", "low"), "the upper group"),
    ]
    assert found[2].line == "program backend=rattle: mid low"
    assert crates_picture.groups_of(found)[1] == (
        "the upper group",
        {"mid": ("low", "itoa"), "program": ("mid", "low")},
    )


@pytest.mark.parametrize("line", ("no colon", ": low"))
def test_line_without_name_or_colon(line):
    with pytest.raises(Refused, match="no name and colon"):
        crates_list.entries(line)


@pytest.fixture(name="top")
def repository(tmp_path):
    """Makes a repository of three crates."""
    (tmp_path / "crates.txt").write_text("low:\nother:\nmid: low other thiserror\n")
    texts = {"low": "pub fn f() {}\n", "other": "pub fn g() {}\n", "mid": "use low::f;\n// other::g and thiserror::E\n"}
    for name, text in texts.items():
        (tmp_path / "crates" / name / "src").mkdir(parents=True)
        (tmp_path / "crates" / name / "src/lib.rt").write_text(text)
    return tmp_path


def test_dead_entries(top):
    said = "crates.txt: no file of mid names {}"
    assert list(layers.dead_entries(top)) == [said.format("other"), said.format("thiserror")]
    (top / "crates/mid/proofs").mkdir()
    (top / "crates/mid/proofs/A.antt").write_text("use Rattle.other.specs.B -- Rattle.thiserror.C\n")
    assert list(layers.dead_entries(top)) == [said.format("thiserror")]
    (top / "crates/mid/src/more.rt").write_text("#[derive(thiserror::Error)]\nstruct A;\n")
    assert not list(layers.dead_entries(top))


def test_large_crates_need_a_reason(top):
    file = top / "crates/mid/src/lib.rt"
    file.write_text("use low::f;\n" + "fn h() {}\n" * 101)
    assert layers.sizes(top) == {"mid": 101}
    file.write_text("//! Mid.\n//! Size: one table.\n" + file.read_text())
    assert layers.sizes(top) == {}


def test_chains_and_memory_of_this_repository():
    crates = crates_list.Crates(TOP, ["lte_cli"])
    chains = crates.chains(lambda name: 1)
    assert max(chains.values()) == chains["finite"] and chains["lte_cli"] == 1
    assert crates.below["lte_cli"][-1] == "lte_top" and crates.memory("finite") > 1e9


def test_no_such_crate():
    with pytest.raises(Refused, match="no crate nothing"):
        crates_list.Crates(TOP, ["nothing"])
