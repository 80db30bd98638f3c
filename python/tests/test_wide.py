"""The reference implementation at any bandwidth: what `wide_sender` sends, `wide_block` reads; and its halving."""
import numpy as np
import pytest

from lte_reference import search, wide_block, wide_frames, wide_grants, wide_search, wide_sender, wide_slots
from lte_reference.cell import sent, text
from lte_reference.wide_places import WIDTHS, Cell
from tests.conftest import CELL

SIB1 = {
    "plmns": [{"mcc": "001", "mnc": "01", "reserved": False}],
    "tac": 4660,
    "cell": 27447297,
    "barred": False,
    "intra": True,
    "csg": False,
    "csg_identity": None,
    "q_rx": -70,
    "q_offset": None,
    "p_max": None,
    "band": 3,
    "scheduling": [{"period": 16, "sibs": [0]}],
    "window": 10,
    "tag": 5,
}
PLAIN_LINE = "sib1 tac 1 cell 1 open allowed csg 0 - rx -70 offset - pmax - band 1 window ms1 tag 0 tdd - extension 0"
FORMS = {"1A": "1A", "1Ad": "1A distributed", "1C": "1C"}
# each width with each port count, of which each has each format twice
CELLS = [(n, p, list(FORMS)[(i + j) % 3]) for i, n in enumerate(WIDTHS) for j, p in enumerate((1, 2, 4))]


def plan_for(blocks, ports, form, draw):
    """Returns a plan with any identity; six virtual blocks, or eight from 50 blocks."""
    second = blocks >= 50 and ports == 4 and form != "1A"
    plan = wide_sender.Plan(int(draw.integers(504)), blocks, ports, text(SIB1), cfi=3, form=form, scheme=9)
    return plan._replace(extended=ports == 2, length=6 if blocks < 50 else 8, gap=int(second))


def answer_at_20_db(plan, sfn, draw):
    """Returns what subframe 5 of one frame tells."""
    rate = wide_sender.rate_of(plan.blocks)
    frame = wide_sender.Frame(plan, sfn, draw, (4, 5, 6))
    samples = wide_sender.received(frame.samples(rate), draw, 20)
    cell = Cell(plan.identity, plan.ports, plan.blocks, plan.extended, plan.resource)
    return wide_block.read(samples, rate, cell, 0, sfn)


def is_read(plan, sfn, draw):
    answer = answer_at_20_db(plan, sfn, draw)
    return (
        answer.block == (plan.text + [0] * plan.size)[: plan.size]
        and answer.cfi == plan.cfi
        and FORMS[plan.form] in [grant.form for _, grant in answer.grants]
        and answer.text.startswith("sib1 tac 4660 cell 27447297 open allowed")
    )


@pytest.mark.parametrize("blocks, ports, form", CELLS)
def test_a_sent_cell_is_read(blocks, ports, form):
    draw = np.random.default_rng((blocks, ports))
    assert is_read(plan_for(blocks, ports, form, draw), 2 * WIDTHS.index(blocks), draw)


@pytest.mark.parametrize("blocks", (15, 25, 75))
def test_the_blocks_that_the_synchronisation_signals_cut_are_read(blocks):
    draw = np.random.default_rng(blocks)
    assert is_read(plan_for(blocks, 4, "1A", draw)._replace(start=blocks // 2 - 3, length=7), 2, draw)


@pytest.mark.parametrize("version", range(4))
def test_each_redundancy_version_is_read(version):
    draw = np.random.default_rng(version)
    assert is_read(plan_for(25, 2, "1A", draw)._replace(version=version), 0, draw)


def test_a_cell_of_the_six_block_transmitter_is_read():
    described = {"gain2": [3, -4], "duration": "extended", "resource": "two", "cfi": 3, "mcs": 5, "load": 7}
    samples = sent({**CELL, **described, "offset": 0, "sfn": 4, "samples": 57_600}, "two").astype(np.int64)
    answer = wide_block.read(samples, 0, Cell(CELL["identity"], 2, 6, True, 3), 0, 4)
    assert answer.cfi == 3 and answer.text.startswith(f"sib1 tac {CELL['sib1']['tac']} ")


def test_frames_of_a_period_are_read_together():
    draw = np.random.default_rng(1)
    plan = wide_sender.Plan(101, 15, 2, text(SIB1), cfi=3, scheme=5, start=9, length=3)
    frames = [wide_sender.Frame(plan, sfn, draw, (5,)).samples(1) for sfn in range(8)]
    samples = wide_sender.received(np.concatenate(frames, 1), draw, -2)
    cell = Cell(plan.identity, plan.ports, plan.blocks)
    frames = list(wide_frames.tries(samples, 1, cell, 0, 0))
    assert len(frames) == 4 and all(frame.answer.block is None for frame in frames)
    lines, _ = wide_frames.read_together(cell, frames)
    assert lines.startswith("sib1 tac 4660 cell 27447297")


def test_a_wide_recording_is_listed():
    draw = np.random.default_rng(2)
    plan = wide_sender.Plan(302, 25, 4, text(SIB1), form="1C", level=8, scheme=9, extended=True, cfi=3, resource=3)
    waves = wide_sender.sent(plan, 1021, 4, 2, draw)[:, 4 * 7_000 :]
    lines = wide_search.list_lines(wide_sender.received(waves, draw, 10), 2, search.FOUR_PORTS)
    assert lines[:2] == ["cells 1", "cell 302 at 12200 sfn 1022 ports 4 n25 phich extended two br 0 spare 0"]
    assert lines[2].startswith("sib1 tac 4660 cell 27447297 open allowed")


def bits_of(form, **more):
    """Returns the payload for a plan with 6 blocks."""
    plan = wide_sender.Plan(0, 6, 1, [], form=form)._replace(**more)
    return wide_sender.information(plan, 0)


def test_alike_grants_have_one_mapping_run_and_size():
    grant = wide_grants.long_grant(6, bits_of("1A", version=0))
    spread = wide_grants.long_grant(6, bits_of("1Ad", version=0))
    assert {frozenset(blocks) for one in (grant, spread) for blocks in one.blocks} == {frozenset(range(6))}
    assert wide_frames.is_alike(grant, wide_grants.long_grant(6, bits_of("1A", version=2)))
    others = [bits_of("1A", start=1, length=5), bits_of("1A", length=5), bits_of("1A", scheme=6)]
    for other in (spread, *(wide_grants.long_grant(6, bits) for bits in others)):
        assert not wide_frames.is_alike(grant, other)


SENT = (
    ("--width", "15", "--ports", "4", "--form", "1Ad", "--cfi", "3", "--late", "700", "--sfn", "7", "--identity", "44"),
    ("--width", "6", "--ports", "2", "--cfi", "3", "--rate", "3.84", "--version", "2", "--phich", "extended"),
)
LISTED = (
    ("cell 44 at 700 sfn 7 ports 4 n15 phich normal one br 0 spare 0", 1, search.FOUR_PORTS),
    ("cell 0 at 0 sfn 0 ports 2 n6 phich extended one br 0 spare 0", 1, search.TWO_PORTS),
)


@pytest.mark.parametrize("words, listed", zip(SENT, LISTED))
def test_the_command_line_of_the_transmitter(words, listed, tmp_path, monkeypatch):
    line, rate, rule = listed
    monkeypatch.setattr("sys.argv", ["wide_sender", *words, "--snr", "15", "--out", str(tmp_path / "x")])
    wide_sender.main()
    samples = np.fromfile(tmp_path / "x", "<i2").astype(np.int64).reshape(-1, 2)
    assert wide_search.list_lines(samples, rate, rule)[1:3] == [line, PLAIN_LINE]


@pytest.mark.parametrize(
    "words, text",
    (
        ("--width 6 --cfi 1 --phich extended", "three control symbols"),
        ("--width 100 --rate 15.36", "15.36 holds no 100 blocks"),
        ("--width 6 --cfi 1 --ports 4", "only 1 control channel elements"),
        ("--mcs 0", "SIB1 has 113 bits, and the block 32"),
        ("--form 1C --start 3", "format 1C counts blocks by 4"),
        ("--form 1Ad --gap 1 --width 25", "the second gap"),
        ("--start 48", "there are 50 blocks"),
        ("--identity 504", "0 to 503"),
        ("--mcs 27", "0 to 26"),
    ),
)
def test_what_the_transmitter_refuses(words, text, monkeypatch):
    monkeypatch.setattr("sys.argv", ["wide_sender", *words.split()])
    with pytest.raises(SystemExit, match=text):
        wide_sender.main()


@pytest.mark.parametrize("place, taps", ((20, wide_slots.TAPS[1::2]), (21, wide_slots.TAPS[0::2])))
def test_an_impulse_leaves_every_second_tap(place, taps):
    samples = np.zeros((64, 2), np.int64)
    samples[place] = 4096, -8192
    found = wide_slots.halved(samples)
    first = (place - 6) // 2
    assert found[first : first + len(taps), 0].tolist() == list(taps)
    assert found[first : first + len(taps), 1].tolist() == [-2 * tap for tap in taps]
    assert abs(found).sum() == 3 * sum(map(abs, taps))


def test_a_constant_stays():
    narrow = wide_slots.narrowed(np.full((4096, 2), -32_768), 4)
    assert len(narrow) == 256 and (narrow[8:-8] == -32_768).all()


@pytest.mark.parametrize("rate, blocks", ((0, 6), (2, 25), (4, 100)))
def test_the_folded_sum_is_the_plain_one(rate, blocks):
    draw = np.random.default_rng(1)
    symbol = draw.integers(-32_768, 32_768, (128 << rate, 2))
    found = wide_slots.seen(rate, symbol[None], blocks)
    for k in draw.integers(0, 12 * blocks, 8):
        total = wide_slots.plain_sum(rate, symbol, int(wide_slots.frequencies(blocks)[k]))
        assert tuple(found[:, 0, k]) == tuple(x + (1 << 15 + rate) >> 16 + rate for x in total)
