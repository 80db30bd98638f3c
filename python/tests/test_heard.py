"""Which recordings of a radio meet the premise of reception: scripts/trials/heard_share.py and heard.py."""
import sys

import numpy as np
import pytest

from lte_reference import cell as reference_cell
from lte_reference import heard, nearest
from lte_reference.search import RULES
from tests.conftest import CELL, TOP

sys.path.append(str(TOP / "scripts/trials"))
import faithful
import heard_share
import on_air

FLAT = on_air.Air(30, "flat", 0, 40, 0.5, 16, 0.25, 14, 620e3)
ALL = {"signals", "identity", "broadcast", "indicator", "control", "block"}


def made(name, seed, air=FLAT, **keys):
    """Returns a cell of a transmission scheme, and its recording as bytes and as samples."""
    cell = {**CELL, "samples": 57_600, "ports": RULES[faithful.WORDS[name]].ports, **keys}
    return cell, *on_air.received(name, cell, air, np.random.default_rng(seed))


def failed(parts):
    return {name for name, is_met in parts._asdict().items() if is_met is False}


@pytest.mark.parametrize("name, keys", [("one", {}), ("two", {"sfn": 1023}), ("four", {"width": 5})])
def test_heard_cells_are_listed(name, keys):
    """Cells of 6 resource blocks with SIB1, and a wide one up to its master information block."""
    cell, data, r = made(name, 1, **keys)
    row = heard_share.looked_at(name, cell, 16, data, r)
    assert (row["master"], row["heard"], row["listed"], row["fault"]) == (True, True, True, None)
    assert row["sib1"] is (None if name == "four" else True)
    assert (row["near mib"], row["nearest"]) == (True, True)
    others = heard_share.looked_at(name, {**cell, "spare": 6}, 16, data, r)
    assert (others["broadcast"], others["listed"], others["fault"]) == (False, False, None)
    assert (others["near mib"], others["nearest"]) == (False, False)


def test_each_part_is_compared_with_what_was_sent():
    cell, _, r = made("two", 2)
    rule, (parts, shift) = RULES["--ports", "2"], heard.best_parts(r, cell, RULES["--ports", "2"])
    assert (parts.is_heard(), abs(shift) <= 1, failed(parts)) == (True, True, set())
    cell = heard.later(cell, shift)
    for keys, part in (
        ({"spare": 6}, {"broadcast"}),
        ({"identity": 218}, ALL),
        ({"sfn": 102}, {"broadcast", "control", "block"}),
        ({"mcs": 5}, {"control", "block"}),
        ({"sib1": {**CELL["sib1"], "tac": 2}}, {"block"}),
        ({"cfi": 3}, {"indicator", "control", "block"}),
    ):
        assert failed(heard.parts(r, {**cell, **keys}, rule)) == part
    assert "signals" in failed(heard.parts(r, heard.later(cell, 1), rule))


def test_a_promise_that_is_not_held_is_printed(capfd):
    want = {**faithful.wanted(RULES[()], CELL)}
    numbers = {name: want[name] for name in faithful.NUMBERS}
    assert faithful.fault_of(want, [want], [{**numbers, "cost": 0, "frames": 1, "frame": 0}]) is None
    assert faithful.fault_of(want, [want], [{**numbers, "cost": 3, "frames": 1, "frame": 1}]) == "cost 3, frame 1"
    assert faithful.fault_of(want, [{**want, "spare": 6}], []) == "spare 6"
    assert faithful.fault_of(want, [], []) == "0 entries"
    row = {"kind": "field", "seed": 4, "blocks": 6, "carrier": "one", "paths": "flat 0 Hz", **FLAT._asdict()}
    row |= {**dict.fromkeys(heard_share.SHARES, True), "sib1": None, "made": 1, "looked": 2, "fault": "0 entries"}
    assert heard_share.table([row, {**row, "fault": None, "decibels": 31, "block": False}]) == 1
    printed = capfd.readouterr().out.splitlines()
    assert printed[-2:] == [
        "field 4 one: not listed as promised: 0 entries",
        "1 of 2 that meet a premise are not listed as promised",
    ]
    shares = [*(6 * ["100.0"]), "50.0", *(4 * ["100.0"]), "-"]
    assert f"| all | 2 | {' | '.join(shares)} |" in printed


def test_sums_may_be_short_of_a_level():
    """The 15 smallest sums are above 0 together exactly if some level has a shortfall below 15 times the level; 14 weak
    values of 120 with wrong signs leave room, 15 do not."""
    rng = np.random.default_rng(1)
    met = []
    for _ in range(100):
        word, sums = [0] * 40, rng.integers(rng.integers(-12, 3), 60, (40, 3)).tolist()
        levels = {abs(value) for row in sums for value in row}
        met.append(nearest.room(sums, word) > 0)
        assert met[-1] == any(nearest.shortfall(sums, word, level) < 15 * level for level in levels)
        for wrong in (14, 15):
            sent = [[15] * 3 for _ in range(40)]
            for i in rng.permutation(120)[:wrong].tolist():
                sent[i // 3][i % 3] = -1
            assert nearest.shortfall(sent, [0] * 40, 15) == 16 * wrong
            assert (nearest.room(sent, [0] * 40) > 0) == (wrong == 14)
    assert 10 < sum(met) < 90


def test_recordings_follow_the_standard():
    """A pair's elements have half the energy at each port; a wide cell has the reference signals of a narrow one in its
    middle; an 8-bit converter gives bytes."""
    frame = on_air.ON_AIR["two"]({**CELL, "ports": 2}, 100, 0)
    grid = frame.elements(0, np.random.default_rng(1))
    plain = reference_cell.FrameOfTwo(CELL, 100, 0)
    plain.broadcast()
    assert np.allclose(abs(grid[9]), np.sqrt((plain.grid[9] ** 2).sum(1) / 2))
    wide = on_air.ON_AIR["one"]({**CELL, "width": 5}, 100).elements(1, np.random.default_rng(1))
    middle, places = on_air.WIDEST // 2 - 36, plain.grid[7].any(1) & (np.arange(72) % 6 == CELL["identity"] % 6)
    assert np.allclose(wide[7, middle:][:72][places], plain.grid[7][places] @ (1, 1j)) and wide.all(0).any()
    _, data, r = made("one", 3, FLAT._replace(bits=8, profile="EVA", doppler=70))
    assert len(data) == 2 * len(r) and set(np.unique(r % 2)) == {1}
    assert (r == 2 * np.frombuffer(data, np.uint8).astype(int).reshape(-1, 2) - 255).all()
