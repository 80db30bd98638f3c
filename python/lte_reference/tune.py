#!/usr/bin/python3
"""python3 -m lte_reference.tune tell|apply|turn M [-- COMMAND] < RECORDING

A second program for the turn that takes a recording's frequency offset off, written from docs/DEFINITION.md, which
shares nothing with the repository's code. `tell` prints the count of hits at the coarse turn, the turn and the count of
cells; `apply` writes the recording turned by it, and `turn M` turned by M, from -2048 to 2047. Recordings are 16-bit,
as docs/FORMATS.md says.

Hits and lists are those of search.py (slow: seconds), or, with COMMAND, of `COMMAND hits` and `COMMAND search`,
as `-- lte_cli`. Whole numbers alone. Debian: python3-numpy, for search.py.
"""
import subprocess
import sys
import typing
from fractions import Fraction

HALF, SLOT, PRIMARY = 9_600, 960, 832
FRONT = 57_600  # hits look at the first 19,473 samples alone; a recording has at least these
MIDDLE = 170_000  # the prefixes that are looked at end below 9,600 + 960 * 160
# fmt: off
COSINES = (16384, 16364, 16305, 16207, 16069, 15893, 15679, 15426, 15137, 14811, 14449, 14053, 13623, 13160, 12665,
           12140, 11585, 11003, 10394, 9760, 9102, 8423, 7723, 7005, 6270, 5520, 4756, 3981, 3196, 2404, 1606, 804, 0)
# fmt: on


# ---- recordings turned


def cosine(m):
    """C(m), of period 128."""
    m %= 128
    if m > 64:
        m = 128 - m
    return COSINES[m] if m <= 32 else -COSINES[64 - m]


W = tuple((cosine(m), cosine(m - 32)) for m in range(128))


def samples_of(data):
    """The samples of 16-bit numbers."""
    assert len(data) % 4 == 0 and 57_600 <= len(data) // 4 <= 1_920_000, "not a recording"
    numbers = [int.from_bytes(data[i : i + 2], "little", signed=True) for i in range(0, len(data), 2)]
    return list(zip(numbers[0::2], numbers[1::2]))


def data_of(samples):
    """The other way."""
    return b"".join(z.to_bytes(2, "little", signed=True) for sample in samples for z in sample)


def mean(r):
    """The mean by components, rounded to the nearest, halves up."""
    n = len(r)
    return tuple((2 * sum(sample[k] for sample in r) + n) // (2 * n) for k in (0, 1))


def clamped(z):
    return max(-32_768, min(32_767, z))


def turned(r, m, centre, count):
    """The first samples of a recording without its mean, turned back by m."""
    out = []
    for i in range(min(count, len(r))):
        a, b = r[i][0] - centre[0], r[i][1] - centre[1]
        c, s = W[m * i // 128 % 128]
        out.append((clamped((a * c + b * s + 8_192) >> 14), clamped((b * c - a * s + 8_192) >> 14)))
    return out


# ---- hits and lists


class Second:
    """By search.py."""

    def __init__(self):
        import numpy
        from . import search as second_search

        self.numpy, self.search = numpy, second_search

    def hits(self, x):
        return [(int(t), int(n2)) for t, n2 in self.search.hits(self.numpy.array(x, dtype=self.numpy.int64))]

    def cells(self, x):
        return len(self.search.listed(self.numpy.array(x, dtype=self.numpy.int64)))

    def wave(self, n2):
        return [(int(a), int(b)) for a, b in zip(*self.search.wave(n2))]


class Program(Second):
    """By a program."""

    def __init__(self, command):
        super().__init__()
        self.command = command

    def lines(self, x, word):
        done = subprocess.run(self.command + [word], input=data_of(x), stdout=subprocess.PIPE, check=True)
        return done.stdout.decode().splitlines()

    def hits(self, x):
        return [tuple(int(number) for number in line.split()) for line in self.lines(x, "hits")[1:]]

    def cells(self, x):
        return int(self.lines(x, "search")[0].split()[1])


# ---- the estimated turn


class Candidate(typing.NamedTuple):
    """A coarse offset, the offset, the count of PSS detections, and C, E and P at the maximum fraction."""

    coarse: int
    turn: int
    hits: int
    peak: int
    energy: int
    power: int


def measures(x, t, wave):
    """Returns C, E and P of the PSS at position t."""
    re = im = energy = 0
    for (a, b), (p, q) in zip(x[t : t + 128], wave):
        re += a * p + b * q
        im += b * p - a * q
        energy += a * a + b * b
    return re * re + im * im, energy, sum(p * p + q * q for p, q in wave)


def prefixes(x, t):
    """The sum over the prefixes, from the half frame on that the primary signal at t is in."""
    re = im = 0
    for slot in range(160):
        for symbol in (0, 4, 5, 6) if slot % 10 == 0 else (0, 4):
            u = (t - PRIMARY) % HALF + SLOT * slot + 10 + 137 * symbol
            if u + 128 > len(x):
                continue
            for i in range(9):
                (a, b), (c, d) = x[u - 9 + i], x[u + 119 + i]
                re += a * c + b * d
                im += a * d - b * c
    return re, im


def rest(sums):
    """Returns the offset from -64 to 63 that fits the sum best; among equals the smallest in magnitude, then the lower."""
    re, im = sums
    best = None
    for m in sorted(range(-64, 64), key=lambda m: (abs(m), m)):
        fit = re * W[m % 128][0] + im * W[m % 128][1]
        if best is None or fit > best[0]:
            best = fit, m
    return best[1]


def taken(r, by):
    """The candidates that are taken, in their order."""
    centre, found, kept = mean(r), [], []
    for c in range(-16, 17):
        x = turned(r, 32 * c, centre, FRONT)
        hits = by.hits(x)
        if hits:
            all_measures = [measures(x, t, by.wave(n2)) for t, n2 in hits]
            fractions = [Fraction(peak, energy * power) for peak, energy, power in all_measures]
            i = fractions.index(max(fractions))
            found.append((-fractions[i], abs(c), c, hits[i][0], len(hits), all_measures[i]))
    for _, _, c, t, count, its in sorted(found):
        m = 32 * c + rest(prefixes(turned(r, 32 * c, centre, MIDDLE), t))
        if len(kept) < 4 and all(abs(m - other.turn) > 64 for other in kept):
            kept.append(Candidate(c, m, count, *its))
    return kept


def estimate(r, by, candidates):
    """Returns the candidate that is the estimate, and the count of its cells, or None."""
    centre = mean(r)
    for candidate in candidates:
        cells = by.cells(turned(r, candidate.turn, centre, len(r)))
        if cells:
            return candidate, cells
    return (candidates[0], 0) if candidates else None


def main():
    at = sys.argv.index("--") if "--" in sys.argv else len(sys.argv)
    words, command = sys.argv[1:at], sys.argv[at + 1 :]
    if words not in (["tell"], ["apply"]) and not (
        words[:1] == ["turn"] and len(words) == 2 and -2_048 <= int(words[1]) <= 2_047
    ):
        sys.exit(__doc__.splitlines()[0])
    r = samples_of(sys.stdin.buffer.read())
    if words[0] == "turn":
        sys.stdout.buffer.write(data_of(turned(r, int(words[1]), mean(r), len(r))))
        return
    by = Program(command) if command else Second()
    its = estimate(r, by, taken(r, by))
    if words[0] == "apply":
        sys.stdout.buffer.write(data_of(turned(r, its[0].turn if its else 0, mean(r), len(r))))
    else:
        print(f"hits {its[0].hits}\nturn {its[0].turn}\ncells {its[1]}" if its else "hits 0")


if __name__ == "__main__":
    main()
