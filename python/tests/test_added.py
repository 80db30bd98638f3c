"""The reference implementation of the MIB from added frames: counting on, the choice, ties and few frames."""
import numpy as np
import pytest

from lte_reference import added_master, added_rows

NOTHING = {1: [], 2: [], 4: []}


def received(ports, block, phase, count, amplitude=100, identity=7):
    """Returns frames without noise."""
    return added_rows.frames(identity, ports, block, phase, count, amplitude, 0, 1)


@pytest.mark.parametrize("ports, phase, block", ((1, 0, 0x48D1A4), (2, 3, 0x8BFE22), (4, 2, 0x0403FF)))
def test_finds_the_sent_mib(ports, phase, block):
    frames = NOTHING | {ports: received(ports, block, phase, 17)}
    assert added_master.master(7, frames) == (ports, phase, block, 120)


def test_the_number_is_that_of_frame_0():
    found = added_master.Master(1, 3, 0x8BFC00 | 0x222, 120)
    assert found.upper == 255 and found.frame_number == 1_023


def test_one_mib_for_one_port_count_alone():
    frames = received(1, 0x48D1A4, 1, 5)
    assert [one[:3] for one in added_master.masters(7, 1, frames)] == [(1, 1, 0x48D1A4)]
    assert not list(added_master.masters(7, 2, frames))


def test_equal_matches_choose_the_lowest_port_count():
    one, two = received(1, 0x48D1A4, 0, 4), received(2, 0x48D1A5, 0, 4)
    assert added_master.master(7, {1: one, 2: two, 4: two}) == (1, 0, 0x48D1A4, 120)


def test_more_matches_precede_the_port_count():
    one, two = np.array(received(1, 0x48D1A4, 0, 4)), received(2, 0x48D1A5, 0, 4)
    one[:, 10::120] = 0
    assert added_master.master(7, {1: one.tolist(), 2: two, 4: []}) == (2, 0, 0x48D1A5, 120)
    assert added_master.master(7, {1: one.tolist(), 2: [], 4: []}) == (1, 0, 0x48D1A4, 119)


@pytest.mark.parametrize("zeros, signs", ((18, 102), (19, None)))
def test_needs_102_signs(zeros, signs):
    frames = np.array(received(1, 0x48D1A4, 0, 4))
    for i in range(zeros):
        frames[:, i::120] = 0
    found = added_master.master(7, NOTHING | {1: frames.tolist()})
    assert (found and found.signs) == signs


@pytest.mark.parametrize("count", (0, 1, 2, 3))
def test_few_frames(count):
    """A single frame has its phase by the scrambling; no frame has no MIB."""
    found = added_master.master(7, NOTHING | {1: received(1, 0x48D1A4, 3, count)})
    assert found == ((1, 3, 0x48D1A4, 120) if count else None)


def test_silence_has_no_mib():
    assert added_master.master(7, {ports: [[0] * 480] * 17 for ports in (1, 2, 4)}) is None


def test_sums_are_bounded():
    frames = [[127] * 480 for _ in range(17)]
    sums = added_master.period_sums(7, 0, frames)
    assert abs(sums).max() <= 2_032 and abs(sum(abs(sums))).max() <= 10_160


def test_counting_on_does_not_depend_on_the_other_bits():
    for upper, d in ((0, 1), (255, 1), (127, 4), (5, 0)):
        words = [added_master.word_of(0x5C03FF & ~(255 << 10) | (upper + k) % 256 << 10, 4) for k in (0, d)]
        change = added_master.coded(words[0]) ^ added_master.coded(words[1])
        assert (change == added_master.changed(upper, d)).all()
