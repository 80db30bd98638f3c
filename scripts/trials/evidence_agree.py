#!/usr/bin/python3
"""evidence_agree.py [COUNT [SEED]]

Compares `lte_cli evidence` with the reference implementation, lte_reference/evidence.py, byte for byte, over COUNT (300)
recordings of lists_agree.py, from seed SEED (0) on: cells of each transmission scheme, with and without load, one or two
at a time, with noise. Each is listed for its own scheme. A test, no proof; it needs crates/lte_cli/out/lte_cli, or the
program that LTE_CLI names.

Prints a line for each output that differs; then how many entries there were, how many of them of added frames, and how
many with a positive room. The status is 0 if none differs. Debian: python3-numpy.
"""
import collections
import multiprocessing
import os
import sys

import lists_agree

PROGRAM = os.environ.get("LTE_CLI", str(lists_agree.PROGRAM))
RULES = dict(zip(lists_agree.MAKERS, lists_agree.RULES))


def case_of(number):
    """Returns the kind and the seed of a recording by its number."""
    return lists_agree.KINDS[number % len(lists_agree.KINDS)], number // len(lists_agree.KINDS)


def compared(number):
    """Returns the program's output for a recording, and whether the reference implementation has another."""
    kind, seed = case_of(number)
    data, rule = lists_agree.recording(kind, seed), RULES[kind.split()[0]]
    here = lists_agree.said([PROGRAM, "evidence", *rule], data)
    return here, here != lists_agree.said([sys.executable, "-m", "lte_reference.evidence", *rule], data)


def counted(output):
    """Returns how many entries an output has, of added frames, and with a positive room."""
    entries = [dict(lists_agree.pairs(line)) for line in output.splitlines()[1:]]
    added = sum(entry["frames"] != "1" for entry in entries)
    return {"entries": len(entries), "added": added, "room": sum(int(entry["room"]) > 0 for entry in entries)}


def main():
    count, seed = (int(word) for word in (*sys.argv[1:], *(300, 0)[len(sys.argv) - 1 :]))
    totals, differ = collections.Counter(), 0
    numbers = range(8 * seed, 8 * seed + count)
    with multiprocessing.Pool() as pool:
        for number, (output, other) in zip(numbers, pool.imap(compared, numbers)):
            totals.update(counted(output))
            if other:
                print(*case_of(number), "differs", flush=True)
            differ += other
    print(f"{count} recordings, {totals['entries']} entries, {totals['added']} of added frames, ", end="")
    print(f"{totals['room']} with a positive room; {differ} outputs differ")
    sys.exit(differ > 0)


if __name__ == "__main__":
    main()
