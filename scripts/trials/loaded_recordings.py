#!/usr/bin/python3
"""loaded_recordings.py [COUNT [SIZE]]

Cells that send something wherever their plan leaves places open, with errors of the greatest size that a clean recording
allows: of each kind (one antenna port, two, the extended prefix, four) COUNT (200) recordings with any elements of at most
SIZE (256), and COUNT with the load of a number, by the second transmitter. Of each the program has to list the cell
exactly as where it sends nothing else, and `evidence`, of one antenna port, has to tell the numbers of a clean cell. A
test, no proof; it needs crates/lte_cli/out/lte_cli. Prints a line for each recording of which this is not so, and a
count of each kind; the status is 0 where there is none.

Debian: python3-numpy.
"""
import itertools
import math
import random
import subprocess
import sys

import numpy as np

import packages

packages.add()
from lte_reference.cell import sent
from lte_reference.make import recipe

PROGRAM = packages.TOP / "crates/lte_cli/out/lte_cli"
GAINS = ("gain", "gain2", "gain3", "gain4")
WORDS = {"one": [], "two": ["--ports", "2"], "long": ["--prefix", "long"], "four": ["--ports", "4"]}


def size(gain):
    """The square of a gain's size."""
    return gain[0] ** 2 + gain[1] ** 2


def any_gain(draw, most=28):
    while True:
        gain = draw.randint(-most, most), draw.randint(-most, most)
        if 1 <= size(gain) <= most**2:
            return gain


def four_gains(draw):
    """Gains of which each pair of ports has three eighths of the sum (docs/CLAIMS.md)."""
    while True:
        gains = [any_gain(draw, 12), *(draw.choice([any_gain(draw, 12), (0, 0)]) for _ in range(3))]
        whole = sum(map(size, gains))
        if whole <= 196 and all(3 * whole <= 8 * sum(map(size, gains[port::2])) for port in (0, 1)):
            return gains


def recording(kind, cell, draw):
    """A recording of a cell, or None where it does not fit 16 bits."""
    gains = [any_gain(draw), any_gain(draw)]
    eps = math.isqrt(4 * size(gains[0]))
    if kind == "two":
        while sum(map(size, gains)) > 392:
            gains = [any_gain(draw), draw.choice([any_gain(draw), (0, 0)])]
        eps = min(math.isqrt(sum(map(size, gains)) // 4), math.isqrt(4 * size(gains[0])))
    elif kind == "four":
        gains = four_gains(draw)
        eps = min(math.isqrt(sum(map(size, gains)) // 64), math.isqrt(4 * size(gains[0])))
    clean = sent({**cell, **dict(zip(GAINS, gains))}, kind)
    samples = clean + np.random.default_rng(draw.randrange(2**32)).choice([-eps, eps], clean.shape)
    return samples.astype("<i2").tobytes() if abs(samples).max() <= 32_767 else None


def said(words, samples):
    return subprocess.run([PROGRAM, *words], input=samples, capture_output=True, check=True).stdout.decode()


def entries(text):
    """The entries of a list, each with the lines of its system information."""
    found = []
    for line in text.split("\n")[1:]:
        if line.startswith("cell "):
            found.append(line)
        elif line:
            found[-1] += "\n" + line
    return found


def is_clear(samples, place):
    """Returns whether `evidence` prints the numbers of a clean cell for the entry at a position."""
    lines = [line.split() for line in said(["evidence"], samples).split("\n")[1:]]
    listed = next(line for line in lines if line[:3] == place)
    numbers = {name: int(value) for name, value in zip(listed[3::2], listed[4::2])}
    return (
        (numbers["cost"], numbers["frames"], numbers["frame"]) == (0, 1, 0)
        and numbers["peak"] >= 999
        and 4 * numbers["noise"] <= numbers["power"]
    )


def is_listed(silent, loaded, identity, kind):
    """Whether the cell is listed as where it sends nothing else, whether its evidence is good, and the other entries."""
    wanted, found = entries(said(["search", *WORDS[kind]], silent)), entries(said(["search", *WORDS[kind]], loaded))
    own = [it for it in wanted if it.split()[1] == str(identity)]
    place = own[0].split()[1:6:2] if own else None
    is_held = len(own) == 1 and found.count(own[0]) == 1 and sum(it.split()[1:6:2] == place for it in found) == 1
    return is_held, is_held and (kind != "one" or is_clear(loaded, place)), len(found) - is_held


def main():
    count, greatest = list(map(int, sys.argv[1:])) + [200, 256][len(sys.argv) - 1 :]
    draw, wrong = random.Random(count), 0
    for what, kind in itertools.product(("traffic", "load"), WORDS):
        held, others, clear = 0, 0, 0
        for i in range(count):
            while True:
                cell = {**recipe(draw.randrange(2**32)), "samples": 57_600 + draw.randrange(30_000)}
                added = {what: draw.randrange(2**32) if what == "load" else greatest}
                loaded = recording(kind, {**cell, **added}, draw)
                silent = recording(kind, cell, draw)
                if loaded and silent:
                    break
            is_held, is_good, further = is_listed(silent, loaded, cell["identity"], kind)
            held, others, clear = held + is_held, others + further, clear + is_good
            if not is_good:
                wrong += 1
                print(f"{kind} {i}: not listed, or not clear: {cell}, {added}")
        clear_text = f", {clear} clear" if kind == "one" else ""
        print(f"{kind}, {what}: {held} of {count} held, {others} other entries{clear_text}", flush=True)
    return 1 if wrong else 0


if __name__ == "__main__":
    sys.exit(main())
