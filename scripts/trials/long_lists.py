#!/usr/bin/python3
"""long_lists.py [COUNT [SEED]]

Holds what the program writes with the extended prefix against the second programs: of COUNT (200) recordings of a cell
each, with noise, and more of it in slot 1 of each frame, so that frames fail alone where two to four would tell a
master block together. Compared are `search`, `evidence` and `certify` with `--prefix long` (of a certificate its
values, its word and its cost), and the parts of `search --all`: this rule's with the second program's list, each with
what `search` by its rule writes. A test, no proof; it needs crates/lte_cli/out/lte_cli. Prints a line for each output
that differs, and how many lists hold an entry, how many one of a later frame than the first, and how many would be
others if frames were added as with the normal prefix. The status is 0 where none differs and the last number is not 0.

Debian: python3-numpy.
"""
import multiprocessing
import struct
import subprocess
import sys

import numpy as np

import packages

packages.add()
from lte_tools import check_certificate
from lte_reference import evidence as second_evidence
from lte_reference import long_prefix as second_long_prefix
from lte_reference import make as second_make
from lte_reference import search as second_search

PROGRAM = packages.TOP / "crates/lte_cli/out/lte_cli"
FRAME, SLOT = 19_200, 960
RULE = second_search.LONG_PREFIX
ADDING = RULE._replace(most=second_search.ONE_PORT.most)
LONG = ["--prefix", "long"]
RULES = {"one-port": [], "two-ports": ["--ports", "2"], "long-prefix": LONG, "four-ports": ["--ports", "4"]}


def recording(seed):
    """The samples of a cell with noise, within 16 bits."""
    draw = np.random.default_rng([seed, 0])
    number = int(draw.integers(2**32))
    samples = second_long_prefix.recording(number).astype(float)
    samples = samples[: int(draw.integers(100_000, len(samples) + 1))]
    level = (samples**2).mean() ** 0.5
    in_frame = (np.arange(len(samples)) + second_make.recipe(number)["offset"]) % FRAME
    noise = draw.choice([0, 0.5, 1]) + draw.choice([4, 6, 7, 8, 9]) * (in_frame // SLOT == 1)
    samples += level * noise[:, None] * draw.standard_normal(samples.shape)
    return np.clip(np.round(samples * min(1, 2_000 / level)), -32_768, 32_767).astype("<i2").tobytes()


def said(words, data):
    return subprocess.run([PROGRAM, *words], input=data, stdout=subprocess.PIPE, check=True).stdout


def lines_said(words, data):
    return said(words, data).decode().splitlines()


def certificates(data):
    """Returns the values, the word and the cost of each certificate."""
    found, at = [], 0
    while at < len(data):
        found.append((*struct.unpack_from("<120h", data, at + 4), data[at + 244 : at + 249], data[at + 249 : at + 253]))
        at += check_certificate.length_of(data, at)
    return found


def certified(r, entry, read):
    """The certificate of an entry that was read so."""
    values = second_evidence.sums(r, entry, *read[:3], RULE)
    cost, word = second_search.least(values)
    return (*(value for row in values for value in row), word.to_bytes(5, "big"), struct.pack("<I", cost))


def parts(lines):
    """Returns the output of `search --all`, by the names of its rules."""
    found = {}
    for line in lines:
        word, *name = line.split()
        if word == "rule":
            rest = found.setdefault(*name, [])
        else:
            rest.append(line)
    return found


def compared(seed):
    """The outputs that differ, the frame of each entry, and whether the list would be another with frames added."""
    data = recording(seed)
    r = np.frombuffer(data, "<i2").astype(np.int64).reshape(-1, 2)
    cells = second_search.listed(r, RULE)
    reads = [second_evidence.read(r, entry, RULE) for entry in cells]
    own, every = second_search.list_lines(r, cells, RULE), parts(lines_said(["search", "--all"], data))
    wanted = {
        "search": lines_said(["search", *LONG], data) == own,
        "evidence": lines_said(["evidence", *LONG], data) == second_evidence.lines(r, RULE),
        "certify": certificates(said(["certify", *LONG], data))
        == [certified(r, entry, read) for entry, read in zip(cells, reads)],
        "search --all": every["long-prefix"] == own
        and every == {name: lines_said(["search", *words], data) for name, words in RULES.items()},
    }
    differ = [name for name, same in wanted.items() if not same]
    return differ, [read[1] for read in reads], second_search.listed(r, ADDING) != cells


def main(count=200, seed=1):
    seeds = range(seed, seed + count)
    with multiprocessing.Pool() as pool:
        found = pool.map(compared, seeds, chunksize=1)
    for number, (differ, _, _) in zip(seeds, found):
        for name in differ:
            print(f"recording {number}: {name} differs")
    some, later = sum(bool(frames) for _, frames, _ in found), sum(any(frames) for _, frames, _ in found)
    others = sum(other for _, _, other in found)
    print(f"{count} lists, {some} with an entry, {later} with one of a later frame, {others} would be others")
    sys.exit(any(differ for differ, _, _ in found) or others == 0)


if __name__ == "__main__":
    if len(sys.argv) > 3 or not all(word.isdigit() for word in sys.argv[1:]):
        sys.exit(__doc__)
    main(*map(int, sys.argv[1:]))
