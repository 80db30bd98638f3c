#!/usr/bin/python3
"""wide_agree.py [--first SEED] [--count N] [--program PATH] [--jobs N] [--write FOLDER]

Compares `lte_cli search .. --rate R` with the reference implementation, lte_reference/wide_search.py, byte for byte, over
N (100) recordings with seeds from SEED (0) on. A seed decides everything, so the trial can be run in parts. A test, no
proof; without PATH it needs crates/lte_cli/out/lte_cli, or the program that LTE_CLI names.

A recording of 30 to 60 ms has 1 to 5 frames of a cell, which begin anywhere: any of the six bandwidths, 1, 2 or 4 ports,
format 1A (localized or distributed) or 1C, any candidate, a redundancy version by frame or a fixed one, load on some of
the other blocks, Es/N0 from -4 to 25 dB, sometimes an echo or a frequency offset, at the lowest rate that holds the cell
or a higher one. Kinds of recordings: `cell`, `two` (another cell too), `noise` alone, `zeros`, `damaged` (stretches are
replaced, samples lost), `saturated`, `low` (a rate too low for the bandwidth), `other` (another rate is given), `cut`
(perhaps too short), `ragged`, and `long` (perhaps too long). Each is listed by a rule (of its ports in half of the cases,
or by all), as text or JSON, from 16 or 8 bits. For a recording that is refused, the exit code is compared.

Prints a line for each answer that differs, with its seed; how many recordings of each kind there were; the entries by
where SIB1 was read, and the reasons why it was not. --write keeps the recordings that differ in a folder. The status is 0
if none differs. Debian: python3-numpy.
"""
import argparse
import collections
import functools
import multiprocessing
import os
import pathlib
import subprocess
import sys
from typing import NamedTuple

import numpy as np

import packages

packages.add()
import wide_levels
from lte_reference import forms, wide_search, wide_sender, wide_slots
from lte_reference.search import RULES
from lte_reference.wide_places import WIDTHS

LEAST, MOST = 57_600, 1_920_000  # samples of a recording at 1.92 million per second
KINDS = {
    "cell": 50,
    "two": 6,
    "noise": 3,
    "zeros": 1,
    "damaged": 10,
    "saturated": 5,
    "low": 6,
    "other": 5,
    "cut": 7,
    "ragged": 2,
    "long": 1,
}
RULE_OF_PORTS = {1: (), 2: ("--ports", "2"), 4: ("--ports", "4")}
REFUSALS = {3: "ragged", 4: "too short", 5: "too long"}


class Trial(NamedTuple):
    """A recording's bytes, the arguments, and its content."""

    data: bytes
    words: tuple
    kind: str
    plan: str


# ---- recordings


def waves_of(draw, plan, rate):
    """Returns the ports' samples of 1 to 5 frames within 30 to 60 ms: silent before and after, perhaps with an echo and a
    frequency offset."""
    frames, unit = int(draw.choice([1, 2, 3, 3, 4, 4, 4, 5, 5, 5])), 1 << rate
    waves = wide_sender.sent(plan, int(draw.integers(1024)), frames, rate, draw)
    length = max(LEAST + int(draw.integers(LEAST)), int(draw.integers(2)) * (19_200 * frames + 6_000)) * unit
    lead = int(draw.integers(0, 19_200 * unit)) if draw.random() < 0.8 else 0
    if draw.random() < 0.3:  # the recording begins within the first frame
        waves = waves[:, int(draw.integers(19_200 * unit)) :]
    waves = np.pad(waves, ((0, 0), (lead, max(0, length - lead - waves.shape[1]))))[:, :length]
    if draw.random() < 0.2:
        later = int(draw.integers(1, 9 * unit))
        gain = 10 ** (-draw.uniform(0, 9) / 20) * np.exp(2j * np.pi * draw.random())
        waves = waves + gain * np.pad(waves, ((0, 0), (later, 0)))[:, : waves.shape[1]]
    if draw.random() < 0.3:
        waves = waves * np.exp(2j * np.pi * draw.uniform(-700, 700) / (1.92e6 * unit) * np.arange(waves.shape[1]))
    return waves


def plan_of(draw, blocks):
    """Returns a plan of this many blocks, whose redundancy version follows the frame in half of the cases."""
    form, ports = ("1A", "1Ad", "1C")[int(draw.integers(3))], (1, 2, 4)[int(draw.integers(3))]
    plan, _ = wide_levels.plan_for(draw, blocks, ports, form)
    return plan._replace(version=plan.version if draw.random() < 0.5 else None, load=float(draw.choice([0, 0.3, 0.9])))


def rate_for(draw, blocks):
    """Returns the lowest rate that holds this number of blocks, or sometimes a higher one."""
    least = wide_sender.rate_of(blocks)
    return least if draw.random() < 0.75 else int(draw.integers(least, 5))


def damaged(draw, samples):
    """Returns samples with some stretches replaced by others, and sometimes a few lost."""
    samples = samples.copy()
    for _ in range(int(draw.integers(1, 6))):
        count = min(int(10 ** draw.uniform(0, 4.5)), len(samples))
        at = int(draw.integers(len(samples) - count + 1))
        loud = int(draw.choice([0, 1, 300, 32_767]))
        samples[at : at + count] = draw.integers(-loud, loud + 1, (count, 2))
    if draw.random() < 0.3:
        at = int(draw.integers(len(samples)))
        samples = np.delete(samples, np.s_[at : at + int(draw.integers(1, 40))], 0)
    return samples


def samples_of(draw, kind, plan, rate):
    """Returns the samples of a recording, and its rate."""
    level, scale = draw.uniform(-4, 25 if draw.random() < 0.6 else 4), float(
        draw.choice([2_500, 2_500, 8_000, 300, 20])
    )
    if kind == "zeros":
        return np.zeros((LEAST << rate, 2), np.int64)
    if kind == "noise":
        count = LEAST + int(draw.integers(LEAST)) << rate
        return np.clip(np.rint(scale * draw.standard_normal((count, 2))), -32_768, 32_767).astype(np.int64)
    waves = waves_of(draw, plan, rate)
    if kind == "two":
        second = wide_levels.plan_for(draw, plan.blocks, plan.ports, "1A")[0]
        other = waves_of(draw, second, rate)[:, : waves.shape[1]]
        waves = waves + draw.uniform(0.4, 1) * np.pad(other, ((0, 0), (0, waves.shape[1] - other.shape[1])))
    samples = wide_sender.received(waves, draw, level, scale * (30 if kind == "saturated" else 1))
    return damaged(draw, samples) if kind == "damaged" else samples


def words_of(draw, plan, rate, has_bytes):
    """Returns the arguments."""
    every = [*RULES, ("--all",)]
    rule = RULE_OF_PORTS[plan.ports] if draw.random() < 0.6 else every[int(draw.integers(len(every)))]
    json, form = ["--json"] * int(draw.integers(2)), ["--format", "cu8"] * has_bytes
    return ("search", *rule, *json, *form, "--rate", wide_search.RATES[rate])


def data_of(samples, has_bytes):
    """Returns the bytes of samples, of 8 bits each if asked: a byte v is the value 2 v - 255."""
    if has_bytes:
        return np.clip((samples // 16 + 255) // 2, 0, 255).astype("u1").tobytes()
    return samples.astype("<i2").tobytes()


def trial_of(seed):
    """Returns the trial of a seed."""
    draw = np.random.default_rng([seed, 1])
    weights = np.array(list(KINDS.values()))
    kind = list(KINDS)[int(draw.choice(len(KINDS), p=weights / weights.sum()))]
    blocks = int(draw.choice(WIDTHS[1:] if kind == "low" else WIDTHS))
    plan, rate = plan_of(draw, blocks), rate_for(draw, blocks)
    samples = samples_of(draw, kind, plan, rate)
    if kind == "low":
        times = rate - wide_sender.rate_of(blocks) + 1
        samples, rate = wide_slots.narrowed(samples, times), rate - times
    has_bytes = bool(draw.random() < 0.2)
    if kind == "other":
        rate = int((rate + draw.integers(1, 5)) % 5)
    if kind == "long":  # to one second, or beyond it by a sample
        rate = min(rate, 1)
        more = (MOST << rate) - len(samples) + int(draw.integers(2))
        samples = np.pad(samples, ((0, more), (0, 0)))
    data = data_of(samples, has_bytes)
    if kind == "cut":
        least = (LEAST << rate) * (2 if has_bytes else 4)
        data = data[: max(least + 4 * int(draw.integers(-2, 20_000)), 4)]
    if kind == "ragged":
        data = data[: -int(draw.integers(1, 2 if has_bytes else 4))]
    return Trial(data, words_of(draw, plan, rate, has_bytes), kind, f"{plan._replace(text=[])} rate {rate}")


# ---- answers


def code_of(trial):
    """Returns the exit code by the size alone."""
    width = 2 if "cu8" in trial.words else 4
    unit = width << wide_search.RATES.index(trial.words[-1])
    if len(trial.data) > MOST * unit:
        return 5
    return 3 if len(trial.data) % width else 4 if len(trial.data) < LEAST * unit else 0


def numbers_of(trial):
    """Returns the samples of a trial."""
    if "cu8" in trial.words:
        return 2 * np.frombuffer(trial.data, "u1").astype(np.int64).reshape(-1, 2) - 255
    return np.frombuffer(trial.data, "<i2").astype(np.int64).reshape(-1, 2)


def reference_of(trial):
    """Returns the text of the reference implementation, and the lines of the entries."""
    samples, rate = numbers_of(trial), wide_search.RATES.index(trial.words[-1])
    lines, text, values = [], [], []
    for words, name in forms.NAMES.items():
        if "--all" in trial.words or words == tuple(word for word in trial.words[1:3] if word in sum(RULES, ())):
            found = wide_search.lines_of(samples, rate, RULES[words])
            lines += found
            text += [f"rule {name}"] * ("--all" in trial.words) + wide_search.text_of(found)
            more = {"rule": name} if "--all" in trial.words else {}
            values += [{**value, **more} for value in forms.cells(wide_search.text_of(found))]
    return forms.as_json(values) if "--json" in trial.words else "\n".join(text), lines


def first_difference(one, other):
    """Returns the first lines that differ."""
    pairs = zip(one.split("\n") + ["(end)"], other.split("\n") + ["(end)"])
    return next((f"{a[:300]!r}, reference {b[:300]!r}" for a, b in pairs if a != b), "the end")


def compared(seed, program):
    """Returns the seed's difference, or nothing, and the items to count."""
    trial, counts = trial_of(seed), collections.Counter()
    done = subprocess.run([program, *trial.words], input=trial.data, capture_output=True, check=False)
    code, text, lines = code_of(trial), "", []
    if code == 0:
        text, lines = reference_of(trial)
        text += "\n"
    counts[f"kind {trial.kind}"] += 1
    counts[f"refused: {REFUSALS[code]}" if code else "listed, with an entry" if lines else "listed, without one"] += 1
    for line in lines:
        counts[f"SIB1 {' '.join(line.text.split()[1:3]) if line.source == 'none' else line.source}"] += 1
    if done.returncode != code:
        return (
            f"code {done.returncode}, and {code} is right: {done.stderr.decode(errors='replace').strip()}",
            trial,
            counts,
        )
    if done.stdout.decode(errors="replace") != text:
        return first_difference(done.stdout.decode(errors="replace"), text), trial, counts
    return "", trial._replace(data=b""), counts


def main():
    words = argparse.ArgumentParser(usage=__doc__)
    words.add_argument("--first", type=int, default=0)
    words.add_argument("--count", type=int, default=100)
    words.add_argument("--program", default=os.environ.get("LTE_CLI", str(packages.TOP / "crates/lte_cli/out/lte_cli")))
    words.add_argument("--jobs", type=int, default=os.cpu_count())
    words.add_argument("--write", type=pathlib.Path)
    args = words.parse_args()
    total, failed = collections.Counter(), 0
    seeds = range(args.first, args.first + args.count)
    with multiprocessing.Pool(args.jobs) as pool:
        found = pool.imap(functools.partial(compared, program=args.program), seeds)
        for seed, (difference, trial, counts) in zip(seeds, found):
            total += counts
            if difference:
                failed += 1
                print(f"{seed}: {trial.kind}, {' '.join(trial.words)}: {difference}\n    {trial.plan}", flush=True)
                if args.write:
                    (args.write / f"{seed}.bin").write_bytes(trial.data)
    print(f"{args.count} recordings, {failed} answers differ")
    for name, count in sorted(total.items()):
        print(f"  {name}: {count}")
    sys.exit(failed > 0)


if __name__ == "__main__":
    main()
