#!/usr/bin/python3
"""deep_levels.py levels [--halves N] [--count N] [--seed N] [LEVEL ...]
deep_levels.py below [--halves N] [--count N] [--seed N] [LEVEL ...]
deep_levels.py ghosts [--halves N] [--count N] [--seed N] [KIND ...]

What the reference implementation of `ids --deep` lists of synthetic recordings. Observations, no claim.

levels: a cell in noise, at each level of Es/N0 in dB. Prints how many of the cells are listed (identity, and frame
start within 16 samples), and how many other entries.
below: a cell of 20 dB with load, and a neighbour that many dB below it, with any timing. Prints how many of the
neighbours and of the strong cells are listed, and how many other entries.
ghosts: recordings without a cell, of fourteen kinds of noise and interference. Prints for each kind how many candidates
match in at least 80, 84 and 88 of 124 signs, how many the binomial law expects, and how many entries are listed.

A recording has 33 half-frames (0.17 s) unless `--halves` is given; a second has 199. The seed is printed.
Debian: python3-numpy.
"""
import argparse
import math
import pathlib
import sys

import numpy as np

sys.path.insert(0, str(pathlib.Path(__file__).resolve().parents[2] / "python"))

from lte_reference import deep, wide_sender  # noqa: E402

LEVELS = {"levels": (-18, -17, -16, -15, -14, -13, -10), "below": (-3, -6, -10, -12, -14, -16)}
IDENTITIES = (271, 10, 500, 11, 99, 302, 274, 13, 400)
RATE = 1.92e6


# ---- cells


def pool_of(halves, load):
    """Returns the samples of some cells, each with a frame more than is needed at either end."""
    pool = []
    for identity in IDENTITIES:
        draw = np.random.default_rng(identity)
        plan = wide_sender.Plan(identity, 6, 1, [0] * 144, load=load)
        pool.append((identity, wide_sender.sent(plan, 0, halves // 2 + 4, 0, draw)[0]))
    return pool


def late(draw, samples, delay, length):
    """Returns samples of a cell whose first frame begins at a fraction of a sample, with any phase."""
    turns = np.exp(-2j * np.pi * np.fft.fftfreq(len(samples)) * delay + 2j * np.pi * draw.random())
    return np.fft.ifft(np.fft.fft(samples) * turns)[:length]


def noise(draw, length, level=0.0):
    """Returns noise this many dB above 1."""
    return 10 ** (level / 20) * (draw.standard_normal((2, length)).T @ [1, 1j]) / math.sqrt(2)


def whole(samples, scale=2_000):
    """Returns whole samples of this root mean square."""
    samples = samples * (scale / math.sqrt(np.mean(abs(samples) ** 2)))
    return np.clip(np.rint(np.stack([samples.real, samples.imag], 1)), -32_768, 32_767).astype(np.int64)


def is_found(found, identity, start):
    gaps = [(entry.start - start) % deep.FRAME for entry in found if entry.identity == identity]
    return any(min(gap, deep.FRAME - gap) <= 16 for gap in gaps)


def level_row(level, args, pool, length):
    draw = np.random.default_rng((args.seed, args.halves, level + 100))
    right, others = 0, 0
    for _ in range(args.count):
        identity, samples = pool[draw.integers(len(pool))]
        start = 300 + 9_000 * draw.random()
        found = deep.listed(whole(late(draw, samples, start, length) + noise(draw, length, -level)), args.halves)
        right += is_found(found, identity, start)
        others += sum(not is_found([entry], identity, start) for entry in found)
    print(f"{level} dB: {right} of {args.count} listed, {others} other entries", flush=True)


def below_row(level, args, pool, length):
    draw = np.random.default_rng((args.seed, args.halves, level + 200))
    right, strong, others = 0, 0, 0
    for _ in range(args.count):
        (first, loud), (second, quiet) = (pool[i] for i in draw.choice(len(pool), 2, replace=False))
        starts = 300 + 9_000 * draw.random(), 300 + 18_000 * draw.random()
        total = late(draw, loud, starts[0], length) + 10 ** (level / 20) * late(draw, quiet, starts[1], length)
        found = deep.listed(whole(total + noise(draw, length, -20)), args.halves)
        right += is_found(found, second, starts[1])
        strong += is_found(found, first, starts[0])
        cells = ((first, starts[0]), (second, starts[1]))
        others += sum(not any(is_found([entry], *cell) for cell in cells) for entry in found)
    print(f"{level} dB: {right} of {args.count} neighbours, {strong} strong cells, {others} other entries", flush=True)


# ---- recordings without a cell


def tone(draw, length, frequency):
    return np.exp(2j * np.pi * (frequency * np.arange(length) / RATE + draw.random()))


def repeated(draw, length, period):
    return np.resize(noise(draw, period), length) + 0.1 * noise(draw, length)


def impulses(draw, length, places):
    """Returns noise with bursts 40 dB above it at these positions."""
    return noise(draw, length) + 100 * places * noise(draw, length)


def bursts(draw, length):
    """Returns noise, and in each half-frame the same bursts of 200 samples in 960."""
    pattern = np.where(np.arange(9_600) % 960 < 200, 30 * noise(draw, 9_600), 0)
    return noise(draw, length) + np.resize(pattern, length)


def time_slots(draw, length):
    """Returns noise, and a carrier in one of eight slots of 577 microseconds."""
    is_sent = np.arange(length) // 1_108 % 8 == 3
    return noise(draw, length) + 20 * is_sent * np.convolve(noise(draw, length), np.ones(10) / math.sqrt(10), "same")


def narrow(draw, length):
    carrier = np.convolve(noise(draw, length), np.ones(128) / math.sqrt(128), "same")
    return noise(draw, length) + 10 * carrier * tone(draw, length, draw.uniform(-4e5, 4e5))


def comb(draw, length):
    return noise(draw, length) + sum(3 * tone(draw, length, 15e3 * k) for k in range(-30, 31, 6))


KINDS = {
    "noise": noise,
    "frame repeats": lambda draw, n: repeated(draw, n, 19_200),
    "half-frame repeats": lambda draw, n: repeated(draw, n, 9_600),
    "DC 20 dB": lambda draw, n: noise(draw, n) + 10 * tone(draw, n, 0),
    "DC 40 dB": lambda draw, n: noise(draw, n) + 100 * tone(draw, n, 0),
    "tone": lambda draw, n: noise(draw, n) + 10 * tone(draw, n, draw.uniform(-4.5e5, 4.5e5)),
    "tone on a subcarrier": lambda draw, n: noise(draw, n) + 10 * tone(draw, n, 15e3 * draw.integers(-30, 31)),
    "comb": comb,
    "narrow band": narrow,
    "impulses": lambda draw, n: impulses(draw, n, draw.random(n) < 5e-4),
    "impulses at 100 Hz": lambda draw, n: impulses(draw, n, np.arange(n) % 19_200 < 3),
    "bursts": bursts,
    "time slots": time_slots,
    "a tone alone": lambda draw, n: tone(draw, n, 1e5),
}


def expected(candidates, least):
    """Returns how many candidates match in this number of signs, if each sign is a coin toss."""
    return candidates * 336 * sum(math.comb(124, k) for k in range(least, 125)) / 2**124


def ghost_row(number, kind, args, length):
    draw = np.random.default_rng((args.seed, args.halves, number))
    matches, entries = [], []
    for _ in range(args.count):
        r = whole(KINDS[kind](draw, length), 30 if kind == "a tone alone" else 2_000)
        rows = deep.accumulated(r, args.halves)
        for n2 in range(3):
            for i in deep.candidates(rows[n2]).tolist():
                values, energy = deep.products(r, deep.FIRST + i, n2, args.halves)
                matches.append(int((deep.PATTERNS[n2] == deep.signs_of(values, energy)).sum(1).max()))
        entries += [m for m in matches if m >= deep.SIGNS][len(entries) :]
    counts = [f"{sum(m >= k for m in matches)} ({expected(len(matches), k):.1f})" for k in (80, 84, 88)]
    print(f"{kind}: {len(matches)} candidates, {', '.join(counts)}, {len(entries)} entries {entries or ''}", flush=True)
    return len(entries)


def main():
    words = argparse.ArgumentParser(usage=__doc__)
    words.add_argument("what", choices=("levels", "below", "ghosts"))
    words.add_argument("rows", nargs="*")
    words.add_argument("--halves", type=int, default=33)
    words.add_argument("--count", type=int, default=4)
    words.add_argument("--seed", type=int, default=1)
    words.add_argument("--load", type=float, default=0.6)
    args = words.parse_intermixed_args()
    length = 9_600 * args.halves + 264
    print(f"{args.what}: {args.halves} half-frames, {args.count} recordings a row, seed {args.seed}, load {args.load}")
    if args.what == "ghosts":
        total = sum(ghost_row(i, kind, args, length) for i, kind in enumerate(KINDS) if kind in (args.rows or KINDS))
        print(f"{total} entries")
        return
    pool = pool_of(args.halves, args.load)
    for level in [int(row) for row in args.rows] or LEVELS[args.what]:
        (level_row if args.what == "levels" else below_row)(level, args, pool, length)


if __name__ == "__main__":
    main()
