#!/usr/bin/python3
"""deep_agree.py [--first SEED] [--count N] [--program PATH] [--jobs N] [--answers FOLDER] [--write FOLDER]

Compares `lte_cli ids --deep` with the reference implementation, lte_reference/deep.py, byte for byte, over N (300)
recordings with seeds from SEED (0) on. A seed decides everything, so the trial can be run in parts. A test, no proof;
without PATH it needs crates/lte_cli/out/lte_cli, or the program that LTE_CLI names; `--program none` runs none.

A recording has 30 to 170 ms, and sometimes up to a second. Kinds: `noise`; `cell` (-20 to 20 dB, sometimes with an echo
or a frequency offset); `cells` (two to four, down to 18 dB below the strongest); `interference` of the fourteen kinds of
deep_levels.py, in half of them with a cell; `zeros`; `equal` (equal samples); `damaged` (stretches are replaced, samples
lost); `saturated`; `cut` (perhaps too short); `ragged`; `long` (perhaps too long). Each is listed over the first 326,400
samples or over all, as text or JSON, from 16 or 8 bits. For a recording that is refused, the exit code is compared.

Prints a line for each answer that differs, with its seed; how many recordings of each kind there were, and how many cells
they list. --answers keeps the reference's lists in a folder and takes them from there. --write keeps the recordings that
differ in a folder. The status is 0 if none differs. Debian: python3-numpy.
"""
import argparse
import collections
import functools
import hashlib
import json
import multiprocessing
import os
import pathlib
import subprocess
import sys
from typing import NamedTuple

import numpy as np

import packages

packages.add()
import deep_levels
import wide_agree
from lte_reference import deep

LEAST, MOST = wide_agree.LEAST, wide_agree.MOST
KINDS = {
    "noise": 4,
    "cell": 30,
    "cells": 20,
    "interference": 20,
    "zeros": 1,
    "equal": 1,
    "damaged": 10,
    "saturated": 6,
    "cut": 5,
    "ragged": 2,
    "long": 1,
}
FRAMES = 103  # that are sent of a cell: a second and a frame at either end


class Trial(NamedTuple):
    """A recording's bytes, the arguments, and its content."""

    data: bytes
    words: tuple
    kind: str
    plan: str


# ---- recordings


@functools.cache
def pool():
    """Returns the samples of some cells."""
    return deep_levels.pool_of(2 * (FRAMES - 4), 0.6)


def cell_of(draw, length):
    """Returns a cell's samples, which begin anywhere, sometimes with an echo or a frequency offset; and its identity."""
    identity, samples = pool()[draw.integers(len(pool()))]
    samples = deep_levels.late(draw, samples[: length + 19_200], 19_200 * draw.random(), length)
    if draw.random() < 0.2:
        later, gain = int(draw.integers(1, 300)), 10 ** (-draw.uniform(0, 9) / 20) * np.exp(2j * np.pi * draw.random())
        samples = samples + gain * np.pad(samples, (later, 0))[:length]
    if draw.random() < 0.3:
        samples = samples * np.exp(2j * np.pi * draw.uniform(-1_500, 1_500) / deep_levels.RATE * np.arange(length))
    return samples, identity


def cells_of(draw, length, levels):
    """Returns the sum of a cell at each of these levels, and its content."""
    total, names = np.zeros(length, complex), []
    for level in levels:
        samples, identity = cell_of(draw, length)
        total += 10 ** (level / 20) * samples
        names.append(f"{identity} at {level:.1f} dB")
    return total, ", ".join(names)


def signals_of(draw, kind, length):
    """Returns the received samples of a recording of this kind, and its content."""
    if kind == "noise":
        return deep_levels.noise(draw, length), kind
    if kind == "interference":
        name = list(deep_levels.KINDS)[int(draw.integers(len(deep_levels.KINDS)))]
        cell, plan = cells_of(draw, length, draw.uniform(-10, 20, int(draw.integers(2))))
        return deep_levels.KINDS[name](draw, length) + cell, f"{name} {plan}"
    first = draw.uniform(-20, 20) if kind == "cell" or draw.random() < 0.3 else 20
    count = int(draw.integers(1, 4)) if kind == "cells" else 0
    cells, plan = cells_of(draw, length, [first, *(first - draw.uniform(0, 18, count))])
    return cells + deep_levels.noise(draw, length), plan


def samples_of(draw, kind, length):
    """Returns the samples of a recording, and its content."""
    if kind in ("zeros", "equal"):
        return np.zeros((length, 2), np.int64) + (draw.integers(-9_000, 9_000, 2) if kind == "equal" else 0), kind
    signals, plan = signals_of(draw, kind, length)
    scale = float(draw.choice([2_000, 2_000, 8_000, 300, 20])) * (20 if kind == "saturated" else 1)
    samples = deep_levels.whole(signals, scale)
    return (wide_agree.damaged(draw, samples) if kind == "damaged" else samples), plan


def length_of(draw, kind):
    """Returns the number of samples: seldom more than `--deep` reads without `all`."""
    if kind == "long":
        return MOST + int(draw.integers(2))
    most = deep.KEPT if draw.random() < 0.85 else deep.KEPT * 2 if draw.random() < 0.8 else MOST
    return int(draw.integers(LEAST, most + 1))


def trial_of(seed):
    """Returns the trial of a seed."""
    draw = np.random.default_rng([seed, 4])
    weights = np.array(list(KINDS.values()))
    kind = list(KINDS)[int(draw.choice(len(KINDS), p=weights / weights.sum()))]
    samples, plan = samples_of(draw, kind, length_of(draw, kind))
    has_bytes = bool(draw.random() < 0.2)
    data = wide_agree.data_of(samples, has_bytes)
    if kind == "cut":
        data = data[: LEAST * (2 if has_bytes else 4) + 4 * int(draw.integers(-2, 3))]
    if kind == "ragged":
        data = data[: -int(draw.integers(1, 2 if has_bytes else 4))]
    words = ["ids", "--deep", *["all"] * int(draw.integers(2)), *["--json"] * int(draw.integers(2))]
    return Trial(data, (*words, *["--format", "cu8"] * has_bytes), kind, plan)


# ---- answers


def code_of(trial):
    """Returns the exit code by the size alone."""
    width = 2 if "cu8" in trial.words else 4
    if len(trial.data) > MOST * width:
        return 5
    return 3 if len(trial.data) % width else 4 if len(trial.data) < LEAST * width else 0


def answer_to(trial):
    """Returns the reference's output, and how many cells it has."""
    r = wide_agree.numbers_of(trial)
    span = len(r) if "all" in trial.words else deep.KEPT
    if "--json" in trial.words:
        value = deep.value(r, span)
        return json.dumps(value, separators=(",", ":")) + "\n", len(value["cells"])
    lines = deep.lines(r, span)
    return "\n".join(lines) + "\n", len(lines) - 1


def kept(trial, seed, folder):
    """Returns the result of `answer_to`, from the trial's file in the folder if it is there."""
    digest = hashlib.sha256(trial.data + " ".join(trial.words).encode()).hexdigest()[:12]
    file = folder and folder / f"{seed}-{digest}.json"
    if file and file.is_file():
        return json.loads(file.read_text())
    found = answer_to(trial)
    if file:
        file.write_text(json.dumps(found))
    return found


def compared(seed, program, answers):
    """Returns the seed's difference, or nothing, its trial, and the items to count."""
    trial, counts = trial_of(seed), collections.Counter()
    code, text, count = code_of(trial), "", 0
    if code == 0:
        text, count = kept(trial, seed, answers)
    counts[f"kind {trial.kind}"] += 1
    counts[f"refused: {wide_agree.REFUSALS[code]}" if code else f"listed, {count} cells"] += 1
    difference = ""
    if program != "none":
        done = subprocess.run([program, *trial.words], input=trial.data, capture_output=True, check=False)
        output = done.stdout.decode(errors="replace")
        if done.returncode != code:
            difference = f"code {done.returncode}, and {code} is right: {done.stderr.decode(errors='replace').strip()}"
        elif output != text:
            difference = wide_agree.first_difference(output, text)
    return difference, trial if difference else trial._replace(data=b""), counts


def main():
    words = argparse.ArgumentParser(usage=__doc__)
    words.add_argument("--first", type=int, default=0)
    words.add_argument("--count", type=int, default=300)
    words.add_argument("--program", default=os.environ.get("LTE_CLI", str(packages.TOP / "crates/lte_cli/out/lte_cli")))
    words.add_argument("--jobs", type=int, default=os.cpu_count())
    words.add_argument("--answers", type=pathlib.Path)
    words.add_argument("--write", type=pathlib.Path)
    args = words.parse_args()
    total, failed = collections.Counter(), 0
    seeds = range(args.first, args.first + args.count)
    with multiprocessing.Pool(args.jobs) as workers:
        found = workers.imap(functools.partial(compared, program=args.program, answers=args.answers), seeds)
        for seed, (difference, trial, counts) in zip(seeds, found):
            total += counts
            if difference:
                failed += 1
                print(f"{seed}: {trial.kind}, {' '.join(trial.words)}: {difference}\n    {trial.plan}", flush=True)
                if args.write:
                    (args.write / f"{seed}.bin").write_bytes(trial.data)
    print(f"{args.count} recordings, {failed} answers differ")
    for name, count in sorted(total.items()):
        print(f"  {name}: {count}")
    sys.exit(failed > 0)


if __name__ == "__main__":
    main()
