"""Pages: names, paths and numbers that are not in the tree."""
import pytest

from lte_gate import documents


@pytest.mark.parametrize(
    "line, faults",
    (
        ("`finite/specs/Lib.antt`", 0),
        ("`finite/specs/Nothing.antt`", 1),
        ("`lte_types/src/lib.rt:no_such_call`", 1),
        ("`finite/specs/Lib.antt:no_such_name`", 1),
    ),
)
def test_places(line, faults):
    assert len(list(documents.faults_of_places(line))) == faults


def test_paths_and_scripts():
    assert list(documents.faults_of_paths("see scripts/check.sh and scripts/nothing.sh")) == ["no scripts/nothing.sh"]
    assert list(documents.faults_of_paths("python/lte_gate/*.py")) == []
    assert list(documents.faults_of_scripts("check.sh, gone.py", {"check.sh"})) == ["no script gone.py"]


def test_numbers():
    may = {"crates": {67}, "mutants": {3, 1137}}
    assert list(documents.faults_of_numbers("There are 67 crates. All 1,137 mutants.", may)) == []
    assert list(documents.faults_of_numbers("There are 66 crates.", may)) == ["66 crates, which the tree does not have"]
    assert list(documents.faults_of_numbers("On 2026-01-02 there were 66 crates.", may)) == []


def test_blocks_of_commands():
    assert list(documents.faults_of_block(["    cd crates/lte_cli; cat ../capture_example/stdin"])) == []
    assert list(documents.faults_of_block(["    cd crates/nothing"])) == ["no folder crates/nothing"]
    assert list(documents.faults_of_block(["    cd crates/lte_cli", "    cat ../nothing"])) == [
        "no ../nothing from lte_cli"
    ]
