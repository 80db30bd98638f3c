"""Why a cell is listed or not, from Python, with stored answers."""
import json

import numpy as np
import pytest

import lte_tools
from lte_tools import foreign, reasons, records
from tests.conftest import EXAMPLES, TOP

SHIPPED = TOP / "crates/capture_example/stdin"
LINES = {  # lines of docs/FORMATS.md, "why", as JSON, and the sentence of each
    271: ({"at": 14200, "ports": 1, "rule": "listed", "sfn": 512}, "listed, SFN 512 begins at sample 14,200"),
    1: (
        {
            "hit": 15032,
            "identity": 271,
            "own": -419638441845,
            "ratio": 999,
            "rule": "other-identity",
            "score": 13027760494413,
        },
        "another identity, PCI 271 scores 12,988,344,322,705 at sample 5,432, this one -439,452,021,545",
    ),
    270: (
        {"best": 5235, "needs": 250, "ratio": 130, "rule": "no-hit"},
        "no PSS detection, its signal is nowhere above 13 % of the energy, 25 % are needed",
    ),
}
MIB = {"at": 5000, "cost": 310, "hit": 5832, "phase": 2, "ports": 0, "ratio": 800, "rule": "cost", "total": 1000}
SENTENCES = [
    (MIB, "no codeword, 31 % of the soft values disagree, 25 % are allowed"),
    ({**MIB, "cost": 2501, "total": 10_000}, "no codeword, 25.1 % of the soft values disagree"),
    ({**MIB, "cost": 0, "total": 0}, "no codeword, all soft values are 0"),
    ({**MIB, "rule": "crc", "cost": 125}, "the CRC fails or the bandwidth code is above 5 (12.5 % of the soft values"),
    ({**MIB, "rule": "ports", "ports": 2}, "its MIB has 2 antenna ports, which this list does not read"),
    ({"hit": 140, "needs": 160, "ratio": 800, "rule": "no-room"}, "too early, detected at sample 140"),
    ({"best": 130, "needs": 250, "ratio": 400, "rule": "outside"}, "outside the search range (sample 130, 40 % of"),
]


def why_of(*found, identity=217):
    value = {"identity": identity, "list": "one-port", "reasons": list(found)}
    foreign.check(value, "why", "why")
    return records.from_json(reasons.Why, value)


@pytest.mark.parametrize("identity", LINES)
def test_shipped_recording(identity):
    row, text = LINES[identity]
    found = lte_tools.why(SHIPPED, identity)
    assert found.reasons[-1].to_json() == row and found.is_listed == (identity == 271)
    assert found.text.startswith(f"PCI {identity}: {text}")
    assert found.to_json() == {
        "identity": identity,
        "list": "one-port",
        "reasons": [one.to_json() for one in found.reasons],
    }


def test_stored_output():
    text = (EXAMPLES / "outputs/why.json").read_text()
    found = lte_tools.why(SHIPPED, 1)
    assert json.dumps(found.to_json(), separators=(",", ":")) + "\n" == text
    assert records.from_json(reasons.Why, json.loads(text)) == found


def test_other_lists():
    found = lte_tools.why(str(SHIPPED), 271, ports=2)
    assert found.list == "two-ports" and [one.rule for one in found.reasons] == ["ports", "ports"]
    assert found.furthest == found.reasons[0] and found.furthest.share == 0
    assert lte_tools.why(SHIPPED, 271, prefix="long").list == "long-prefix"


def test_samples_of_each_kind(recording, sent, drive):
    found = lte_tools.why(recording, 217)
    assert found.is_listed and found.reasons[0].sfn == 101
    assert lte_tools.why(recording.read_bytes(), 217) == found
    assert lte_tools.why(sent, np.int64(217)).is_listed
    assert lte_tools.why(drive, 217, rate=2.4e6, format="u8", shift=300e3).is_listed


@pytest.mark.parametrize("row, text", SENTENCES)
def test_sentences(row, text):
    found = why_of(row)
    assert text in found.text and not found.is_listed
    assert json.dumps(found.reasons[0].to_json()) == json.dumps(row)


def test_rows_and_furthest():
    other = {"hit": 5832, "identity": 1, "own": -5, "ratio": 990, "rule": "other-identity", "score": 7}
    found = why_of(other, MIB, {**MIB, "ratio": 900, "hit": 15_432})
    assert found.furthest is found.reasons[2]
    assert found.to_rows()[0] == {
        **{"identity": 217, "list": "one-port", "rule": "other-identity", "other": 1},
        **{"hit": 5832, "own": -5, "ratio": 990, "score": 7},
    }
    assert found.to_rows()[1]["identity"] == 217 and found.to_rows()[1]["cost"] == 310


def test_json_of_something_else():
    for row in (
        {**MIB, "rule": "other"},
        {**MIB, "ratio": 1001},
        {"best": 130, "needs": 251, "ratio": 0, "rule": "no-hit"},
    ):
        with pytest.raises(lte_tools.Refused):
            why_of(row)


def test_refusals(recording, tmp_path):
    for identity in (-1, 504, "217", 2.0, None):
        with pytest.raises(lte_tools.Refused, match="a whole number from 0 to 503"):
            lte_tools.why(recording, identity)
    with pytest.raises(lte_tools.Refused):
        lte_tools.why(recording, 217, ports=3)
    with pytest.raises(lte_tools.ProgramRefused, match="too short") as refused:
        lte_tools.why(bytes(400), 217)
    assert refused.value.exit_code == 4
    with pytest.raises(FileNotFoundError):
        lte_tools.why(tmp_path / "none.ci16", 217)
