"""The reference implementation of the list over half-frames: cells in noise, constants, ties and full scale."""
import functools
import math
import pathlib

import numpy as np
import pytest

from lte_reference import deep, search, wide_sender
from tests.conftest import TOP


@functools.lru_cache(1)
def sent():
    """Returns the samples of a cell with load, as complex numbers of power 1 for each element."""
    plan = wide_sender.Plan(302, 6, 1, [0] * 144)
    return wide_sender.sent(plan, 0, 8, 0, np.random.default_rng(1))[0]


def whole(samples, scale):
    return np.clip(np.rint(np.stack([samples.real, samples.imag], 1) * scale), -32_768, 32_767).astype(np.int64)


def noise(seed, count, level):
    draw = np.random.default_rng(seed)
    return 10 ** (level / 20) * (draw.standard_normal((2, count)).T @ [1, 1j]) / math.sqrt(2)


def shipped():
    data = pathlib.Path(TOP / "crates/capture_example/stdin").read_bytes()
    return np.frombuffer(data, "<i2").astype(np.int64).reshape(-1, 2)


@pytest.mark.parametrize("samples, halves", ((57_600, 5), (326_400, 33), (1_920_000, 199), (67_463, 6), (67_464, 7)))
def test_counts_half_frames(samples, halves):
    assert deep.half_frames(samples) == halves
    assert 9_600 * halves + 264 <= samples < 9_600 * halves + 264 + 9_600


def test_lists_the_shipped_recording():
    assert deep.lines(shipped()) == [
        "deep 1 of 5",
        "5432 271 5 14200 matches 124 ratio 999 power 39622277833",
    ]


def test_has_the_list_as_json():
    found = {"at": 14_200, "identity": 271, "matches": 124, "power": 39_622_277_833, "ratio": 999}
    assert deep.value(shipped()) == {"cells": [found | {"subframe": 5, "t": 5_432}], "half_frames": 5}


def test_lists_a_cell_far_below_the_noise():
    r = whole(sent()[4_000:][:115_464] + noise(2, 115_464, 10), 1_000)
    (entry,) = deep.listed(r)
    assert (entry.identity, entry.start, entry.half) == (302, 15_200, 5) and entry.signs >= deep.SIGNS


def test_lists_a_neighbour_below_a_strong_cell():
    strong, weak = sent()[4_000:][:115_464], np.roll(sent(), 1_777)[:115_464]
    found = deep.listed(whole(strong + 0.3 * weak, 3_000))
    assert [(entry.identity, entry.start) for entry in found] == [(302, 1_777), (302, 15_200)]


@pytest.mark.parametrize("value", ((0, 0), (1, 0), (32_767, -32_768), (-32_768, -32_768)))
def test_lists_nothing_in_a_constant(value):
    assert deep.lines(np.full((57_600, 2), value)) == ["deep 0 of 5"]


def test_of_equal_maxima_the_first_on_the_circle_is_a_candidate():
    row = np.zeros(9_600, np.int64)
    row[[3, 9_597]] = 7
    assert deep.candidates(row).tolist() == [9_597]
    row[[3, 9_597]] = 0
    row[[100, 109, 200, 210]] = 7
    assert deep.candidates(row).tolist() == [100, 200, 210]
    assert deep.candidates(np.ones(9_600, np.int64)).tolist() == []


def test_the_greatest_maxima_are_candidates_and_of_equals_the_first():
    row = np.zeros(9_600, np.int64)
    row[::20] = 5
    row[4_000::20] = 6
    assert deep.candidates(row).tolist() == list(range(4_000, 4_000 + 64 * 20, 20))


def test_a_ratio_is_at_most_one():
    full = np.full((326_400, 2), 32_767)
    full[::2] = -32_768
    assert all(deep.ratios(r, 1).max() <= deep.ONE for r in (full, np.sign(full), shipped()))
    assert deep.ratios(shipped(), 0).max() > 0.99 * deep.ONE


def test_sums_of_full_scale_are_exact():
    draw = np.random.default_rng(3)
    r = np.where(draw.random((57_600, 2)) < 0.5, -32_768, 32_767)
    values, energy = deep.products(r, 1_000, 1, 5)
    p, q = (wave.tolist() for wave in deep.WAVES[1])
    for h in range(5):
        re, im = (column.tolist() for column in r[1_000 + 9_600 * h :][:128].T)
        before = r[863 + 9_600 * h :][:128]
        pairs = list(zip(re, im, p, q))
        z = sum(a * c + b * d for a, b, c, d in pairs), sum(b * c - a * d for a, b, c, d in pairs)
        first, last = search.seen(r, 863 + 9_600 * h)[[5, 66]].tolist()
        assert values[h, 0] == first[0] * z[0] + first[1] * z[1] and values[h, 61] == last[0] * z[0] + last[1] * z[1]
        assert energy[h] == sum(x * x for x in re + im) + int((before**2).sum())


def test_a_vote_is_rounded_toward_zero():
    assert deep.truncated(np.array([7, -7, 0]), np.array([2, 2, 1])).tolist() == [3, -3, 0]


def test_the_first_half_frames_decide():
    r = whole(sent()[:86_664] + noise(4, 86_664, 3), 1_000)
    assert deep.listed(r[: 9_600 * 6 + 264], 6) == deep.listed(r, 6)


def test_a_pattern_matches_by_coincidence_once_in_1400_recordings():
    ways = sum(math.comb(124, k) for k in range(deep.SIGNS, 125))
    assert ways == 234_004_971_861_876_424_919_930_303_080
    assert 1_400 * 3 * deep.CANDIDATES * 336 * ways <= 2**124
