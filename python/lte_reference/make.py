#!/usr/bin/python3
"""python3 -m lte_reference.make [-i] N [FIRST [COUNT]]

A second maker of recordings by number: the recording that `make N` searches (docs/FORMATS.md), in the form of a
recording on standard output. The transmitter is that of cell.py; the recipe and the generator of errors stand
here. With -i it prints a few words of the generator, the bound, sums over all samples, and COUNT samples from sample
FIRST on.

    python3 -m lte_reference.make 7 | lte_cli search
    python3 -m lte_reference.make -i 7

Debian: python3-numpy.
"""
import sys

import numpy as np

from .cell import RESOURCES, WINDOWS, sent

MASK = 2**64 - 1


class Pcg32:
    """PCG XSH RR with 64 bits of state and words of 32 bits (M. E. O'Neill, pcg-random.org)."""

    def __init__(self, state, stream):
        self.increment = (stream << 1 | 1) & MASK
        self.state = 0
        self.next_word()
        self.state = (self.state + state) & MASK
        self.next_word()

    def next_word(self):
        state = self.state
        self.state = (state * 6364136223846793005 + self.increment) & MASK
        word, turn = ((state >> 18 ^ state) >> 27) & 0xFFFFFFFF, state >> 59
        return (word >> turn | word << (-turn & 31)) & 0xFFFFFFFF


def recipe(n):
    """Returns the content of recording number n, as a description of cell.py."""
    period = 8 << n % 7
    return {
        "identity": n % 504,
        "sfn": n % 1024,
        "offset": n % 19_200,
        "samples": 19_200 * (10 + n % 90),
        "gain": [1 + n % 19, n % 20],
        "duration": ("normal", "extended")[n % 2],
        "resource": RESOURCES[n % 4],
        "spare": n % 1024,
        "cfi": 2 + n % 2,
        "start": 0,
        "blocks": 6,
        "mcs": 5,
        "column": 2,
        "sib1": {
            "plmns": [{"mcc": "001", "mnc": "01", "reserved": False}],
            "tac": n % 65_536,
            "cell": n % 2**28,
            "barred": False,
            "intra": True,
            "csg": False,
            "csg_identity": None,
            "q_rx": -70 + n % 49,
            "q_offset": None,
            "p_max": None,
            "band": 1 + n % 64,
            "scheduling": [{"period": period, "sibs": []}, {"period": period, "sibs": [0, 2]}],
            "window": WINDOWS[n % 7],
            "tag": n % 32,
        },
    }


def bound(cell):
    a, b = cell["gain"]
    eps = 0
    while (eps + 1) ** 2 <= 4 * (a * a + b * b):
        eps += 1
    return eps


def with_errors(samples, n, eps):
    """The samples with the errors of recording number n, each of at most eps."""
    words = Pcg32(n, 1)
    errors = [words.next_word() % (2 * eps + 1) - eps for _ in range(samples.size)]
    return samples + np.array(errors).reshape(samples.shape)


def recording(n, **keys):
    """Recording number n; for trials with other values of keys."""
    cell = {**recipe(n), **keys}
    return with_errors(sent(cell), n, bound(cell))


def command(words, made, heading):
    """Writes the recording of a number, or with -i its heading, sums and some samples."""
    indexed = words[0] == "-i"
    n, *rest = map(int, words[indexed:])
    samples = made(n)
    if not indexed:
        sys.stdout.buffer.write(samples.astype("<i2").tobytes())
        return
    first, count = rest + [0, 8][len(rest) :]
    print(heading(n), "samples", len(samples))
    places = np.arange(1, len(samples) + 1).reshape(-1, 1)
    print("sums", *samples.sum(0), "weighted", *(samples * (places % 1_000)).sum(0))
    for i in range(first, first + count):
        print(i, *samples[i])


def heading_of(n):
    words = Pcg32(n, 1)
    front = " ".join(f"{words.next_word():08x}" for _ in range(6))
    return f"words {front}\nbound {bound(recipe(n))}"


if __name__ == "__main__":
    command(sys.argv[1:], recording, heading_of)
