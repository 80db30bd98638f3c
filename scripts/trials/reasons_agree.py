#!/usr/bin/python3
"""reasons_agree.py [COUNT [SEED]]

Holds `lte_cli why` against lte_reference/why.py over COUNT (300) recordings: those of lists_agree.py, with no cell, one
or two, noise and load, one third of them noise alone. Of each it asks by one of the four rules for the identity that
was sent, for one of the same root, and for one drawn at random; and it checks that `why` says `listed` exactly if
`search` with the same rule lists the identity. A test, no proof; it needs crates/lte_cli/out/lte_cli, or the program that
LTE_CLI names. Prints a line for each answer that differs, and how often each rule was the reason; the status is 0 if none
differs.

Debian: python3-numpy.
"""
import collections
import multiprocessing
import os
import subprocess
import sys

import numpy as np

import lists_agree
import packages

PROGRAM = os.environ.get("LTE_CLI", packages.TOP / "crates/lte_cli/out/lte_cli")


def said(words, data):
    return subprocess.run(words, input=data, stdout=subprocess.PIPE, check=True).stdout.decode()


def recording(seed):
    """A recording, and the identity of the cell that it was made of."""
    draw = np.random.default_rng([seed, 93])
    kind = lists_agree.KINDS[int(draw.integers(len(lists_agree.KINDS)))]
    if draw.random() < 0.34:
        return draw.normal(0, 300, (57_600, 2)).round().astype("<i2").tobytes(), int(draw.integers(504))
    number = np.random.default_rng([seed, lists_agree.KINDS.index(kind)]).integers(2**32)
    return lists_agree.recording(kind, seed), int(number) % 504


def compared(seed):
    """Returns the differences for a recording, and the rules that were reasons."""
    data, sent = recording(seed)
    draw = np.random.default_rng([seed, 94])
    rule = lists_agree.RULES[int(draw.integers(len(lists_agree.RULES)))]
    listed = {line.split()[1] for line in said([PROGRAM, "search", *rule], data).splitlines() if line[:5] == "cell "}
    differ, rules = [], collections.Counter()
    for identity in {sent, (sent + 3) % 504, int(draw.integers(504))}:
        for form in ([], ["--json"]):
            words = [str(identity), *rule, *form]
            here = said([PROGRAM, "why", *words], data)
            if here != said([sys.executable, "-m", "lte_reference.why", *words], data):
                differ.append(" ".join(words))
            if not form:
                names = [line.split()[0] for line in here.splitlines()[1:]]
                rules.update(names)
                if (str(identity) in listed) != ("listed" in names):
                    differ.append(f"{words}: listed")
    return differ, rules


def main(count=300, seed=1):
    rules, failed = collections.Counter(), 0
    with multiprocessing.Pool(int(os.environ.get("JOBS", "0")) or None) as pool:
        for number, (differ, found) in zip(range(seed, seed + count), pool.imap(compared, range(seed, seed + count))):
            for words in differ:
                print(f"{number}: why {words} differs", flush=True)
            failed += len(differ)
            rules.update(found)
    print(f"{count} recordings, {failed} answers differ:", ", ".join(f"{name} {n}" for name, n in rules.most_common()))
    sys.exit(failed > 0)


if __name__ == "__main__":
    if len(sys.argv) > 3 or not all(word.isdigit() for word in sys.argv[1:]):
        sys.exit(__doc__)
    main(*map(int, sys.argv[1:]))
