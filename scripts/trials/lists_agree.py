#!/usr/bin/python3
"""lists_agree.py [COUNT [SEED]]

Holds the program's lists against those of lte_reference/search.py: COUNT (100) recordings each by one antenna port, by two,
with the extended prefix and by four ports, and as many of each with load, from the second makers, of a cell or of two
at a time, with noise between none and more than a list can bear, so that frames are added, blocks are refused, and some
lists are empty. Each recording is listed by all four rules. A test, no proof; it needs crates/lte_cli/out/lte_cli.
Prints a line for each list that differs, and of each kind the lists that hold an entry, and those with an entry of
added frames; the status is 0 where none differs.

Debian: python3-numpy.
"""
import multiprocessing
import subprocess
import sys

import numpy as np

import packages

packages.add()
from lte_reference import four_ports as second_four_ports
from lte_reference import long_prefix as second_long_prefix
from lte_reference import make as second_make
from lte_reference import two_ports as second_two_ports

PROGRAM = packages.TOP / "crates/lte_cli/out/lte_cli"
MAKERS = {
    "one": second_make.recording,
    "two": second_two_ports.recording,
    "long": second_long_prefix.recording,
    "four": second_four_ports.recording,
}
KINDS = [*MAKERS, *(f"{kind} with load" for kind in MAKERS)]
RULES = ([], ["--ports", "2"], ["--prefix", "long"], ["--ports", "4"])


def recording(kind, seed):
    """A recording, its components within 16 bits."""
    draw = np.random.default_rng([seed, KINDS.index(kind)])
    number = int(draw.integers(2**32))
    load = {} if kind in MAKERS else {"load": int(draw.integers(2**32))}
    samples = MAKERS[kind.split()[0]](number, **load).astype(float)
    if draw.random() < 0.3:
        other = MAKERS[draw.choice(list(MAKERS))](int(draw.integers(2**32)))
        length = min(len(samples), len(other))
        samples = samples[:length] + other[:length]
    level = (samples**2).mean() ** 0.5
    noise = draw.choice([0, 0.3, 1, 1.6, 2.2, 3])
    samples += level * noise * draw.standard_normal(samples.shape)
    samples = samples[: int(draw.integers(57_600, len(samples) + 1))]
    return np.clip(np.round(samples * min(1, 20_000 / level)), -32_768, 32_767).astype("<i2").tobytes()


def said(words, data):
    return subprocess.run(words, input=data, stdout=subprocess.PIPE, check=True).stdout.decode()


def compared(case):
    """Returns the rules whose lists differ, the number of lists with an entry, and with one of added frames."""
    kind, seed = case
    data = recording(kind, seed)
    differ, some = [], 0
    for rule in RULES:
        here = said([PROGRAM, "search", *rule], data)
        differ += [" ".join(rule)] * (here != said([sys.executable, "-m", "lte_reference.search", *rule], data))
        some += here != "cells 0\n"
    evidence = said([PROGRAM, "evidence"], data)
    added = any(word == "frames" and count != "1" for line in evidence.splitlines() for word, count in pairs(line))
    return differ, some, added


def pairs(line):
    words = line.split()
    return zip(words, words[1:])


def main(count=100, seed=1):
    failed = False
    with multiprocessing.Pool() as pool:
        for kind in KINDS:
            seeds = [(kind, number) for number in range(seed, seed + count)]
            found = pool.map(compared, seeds, chunksize=1)
            for (_, number), (differ, _, _) in zip(seeds, found):
                for rule in differ:
                    print(f"{kind} {number}: search {rule} differs", flush=True)
            failed |= any(differ for differ, _, _ in found)
            lists, added = sum(some for _, some, _ in found), sum(added for _, _, added in found)
            print(
                f"{kind}: {len(RULES) * count} lists, {lists} with an entry, {added} by one port with added frames",
                flush=True,
            )
    sys.exit(failed)


if __name__ == "__main__":
    if len(sys.argv) > 3 or not all(word.isdigit() for word in sys.argv[1:]):
        sys.exit(__doc__)
    main(*map(int, sys.argv[1:]))
