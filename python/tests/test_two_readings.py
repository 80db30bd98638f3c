"""Inputs that decide between two readings of a sentence in docs/DEFINITION.md and docs/FORMATS.md."""
import numpy as np
import pytest

from lte_reference import deep, search, why, wide_grants

N1, N2 = 10, 0


def primary():
    """Returns the samples of a primary synchronisation signal."""
    return np.stack(search.wave(N2), 1)


def secondary(half=0):
    """Returns the samples of the secondary signal of a half-frame: 0, or 5 for the one of subframe 5."""
    signs = 127 * np.array(search.secondary(N1, N2, half))
    return np.stack([search.rounded(signs @ part[5:67], 17) for part in (search.W_REAL, search.W_IMAG)], 1)


def silence():
    return np.zeros((57_600, 2), np.int64)


def add(r, t, scale=8, half=0, has_secondary=True):
    """Adds both signals to a recording, the primary one at t."""
    r[t : t + 128] += scale * primary()
    r[t - 137 : t - 9] += has_secondary * scale * secondary(half)


def test_sum_of_votes_that_is_0_equals_neither_sign():
    r = silence()
    for h in range(5):
        add(r, 1_000 + 9_600 * h, has_secondary=h % 2 == 0)
    values, energy = deep.products(r, 1_000, N2, 5)
    signs = deep.signs_of(values, energy)
    pattern = deep.PATTERNS[N2][N1]
    assert (pattern == signs).sum() == 62 and set(signs[62:]) == {0}
    assert (pattern == np.where(signs == 0, 1, signs)).sum() >= deep.SIGNS
    assert deep.lines(r) == ["deep 0 of 5"]


def test_detection_that_is_not_listed_keeps_others_out(monkeypatch):
    """The last one has the greatest sum, then the middle one, which is not listed and keeps the first one out."""
    r = silence()
    for h in range(5):
        for t, scale in ((1_000, 15), (1_110, 17), (1_220, 15)):
            add(r, t + 9_600 * h, scale, half=5 * (h % 2))
    assert [entry.t for entry in deep.listed(r)] == [1_220]
    monkeypatch.setattr(deep, "ECHO", deep.REACH)
    found = sorted(deep.listed(r), key=lambda entry: -entry.ratio)
    assert [(entry.t, entry.identity) for entry in found] == [(t, 3 * N1 + N2) for t in (1_220, 1_110, 1_000)]


def test_outside_is_a_sample_that_excludes_hits():
    r = silence()
    r[128:256] += primary()
    assert search.hits(r) == []
    assert why.why(r, 3 * N1 + N2, search.RULES[()]) == [{"rule": "outside", "best": 128, "ratio": 1000, "needs": 250}]


def format_1a(blocks, start, length, distributed=True, second=False, scheme=5):
    """Returns the bits of a grant in format 1A, with the second gap or the first."""
    width = wide_grants.field_width(wide_grants.runs(blocks))
    fields = ((1, 1), (distributed, 1), (wide_grants.value_of(blocks, start, length), width), (scheme, 5), (0, 3))
    more = ((second, 1), (0, 2), (0, 2))
    return [int(bit) for value, size in (*fields, *more) for bit in f"{value:0{size}b}"]


@pytest.mark.parametrize(
    "blocks, start, length, keys, is_grant",
    (
        (25, 19, 5, {}, True),
        (25, 20, 5, {}, False),  # 24 virtual blocks
        (25, 20, 5, {"distributed": False}, True),
        (50, 32, 4, {"second": True}, True),
        (50, 34, 4, {"second": True}, False),  # 36 virtual blocks
        (15, 0, 3, {"scheme": 26, "distributed": False}, True),  # whose block is too large
        (15, 0, 3, {"scheme": 27, "distributed": False}, False),
    ),
)
def test_bits_without_a_grant(blocks, start, length, keys, is_grant):
    assert (wide_grants.long_grant(blocks, format_1a(blocks, start, length, **keys)) is not None) == is_grant
