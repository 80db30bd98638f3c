"""python3 -m lte_reference.deep_rows

Prints rows of `deep.py` for the recordings of crates/accumulated_tests: a line for each recording and N2, with the number
of candidates, the sum of their positions t, the sum of their A(t), and t and A(t) of the candidate that precedes all
others.
"""
import numpy as np

from .deep import FIRST, HALF_FRAME, WAVES, accumulated, candidates

COUNT = 57_600


def noise(period, seed):
    """Returns noise as in `wide_rows.py`, which begins again after each period."""
    numbers, state = [], seed
    for i in range(COUNT):
        state = state if i % period else seed
        for _ in range(2):
            state = (state * 1_103_515_245 + 12_345) % 2**31
            numbers.append((state >> 16) % 4_001 - 2_000)
    return np.array(numbers, dtype=np.int64).reshape(COUNT, 2)


def constant(re, im):
    return np.zeros((COUNT, 2), dtype=np.int64) + np.array([re, im])


def pulse():
    r = constant(0, 0)
    r[5_000] = [1_000, 0]
    return r


def signals(places):
    """Returns silence with the primary signal of N2 = 0 from each of these samples."""
    r = constant(0, 0)
    for t in places:
        r[t : t + 128] = np.stack(WAVES[0], axis=1)
    return r


def recordings():
    """Lists recordings, each with its number of half-frames."""
    return [
        (constant(0, 0), 1),
        (constant(100, -7), 1),
        (pulse(), 1),
        (signals(1_000 + HALF_FRAME * h for h in range(4)), 3),
        (signals([136, 9_736, 19_337, 28_799]), 3),
        (noise(COUNT, 1), 3),
        (noise(COUNT, 1), 1),
        (noise(HALF_FRAME, 2), 2),
        (noise(HALF_FRAME // 2, 3), 2),
    ]


def row(sums):
    found = candidates(sums).tolist()
    first = min(found, key=lambda i: (-sums[i], i), default=None)
    t, greatest = (0, 0) if first is None else (FIRST + first, int(sums[first]))
    return f"row({len(found)}, {sum(FIRST + i for i in found)}, {sum(int(sums[i]) for i in found)}, {t}, {greatest})"


def main():
    for r, halves in recordings():
        print(", ".join(row(sums) for sums in accumulated(r, halves)))


if __name__ == "__main__":
    main()
