#!/usr/bin/python3
"""wide_levels.py [--program PATH] [--frames N] [CELLS [LEVEL ...]]

How often SIB1 of cells of any bandwidth is read from one subframe: at each level of Es/N0 (20, 5 and 0 dB), for each
bandwidth and port count, of so many cells (2) by each of the three formats. Observations, no claim. Without PATH the
reference implementation reads, at the cell's position; with it `PATH search --rate R` lists a recording of N frames (3),
the first of odd number, so that one of three frames carries SIB1, and four of nine.

A cell has any identity, PHICH, indicator, candidate, resource blocks (2 to 12), size and redundancy version (code rate
up to 0.6), and load on 60 % of the other blocks; its frame begins up to half a sample of 1.92 Ms/s off the assumed
place. Es is the mean power of an element of all ports together. Prints a row for each bandwidth, with the cells read by
1, 2 and 4 ports; then what was read of the others, and how many blocks were wrong. Debian: python3-numpy.
"""
import argparse
import collections
import pathlib
import subprocess
import sys

import numpy as np

sys.path.insert(0, str(pathlib.Path(__file__).resolve().parents[2] / "python"))

from lte_reference import wide_block, wide_grants, wide_places, wide_sender  # noqa: E402
from lte_reference.cell import text  # noqa: E402
from lte_reference.search import fields_lines  # noqa: E402
from lte_reference.wide_search import RATES  # noqa: E402

LEVELS, FORMS, PORTS = (20, 5, 0), ("1A", "1Ad", "1C"), (1, 2, 4)
LEAD = 20  # samples of 1.92 Ms/s before the frame


def sib1(draw):
    network = {"mcc": "001", "mnc": f"{draw.integers(100):02}", "reserved": False}
    entry = {
        "plmns": [network],
        "tac": int(draw.integers(2**16)),
        "cell": int(draw.integers(2**28)),
        "barred": False,
    }
    entry |= {"intra": True, "csg": False, "csg_identity": None, "q_rx": -64, "q_offset": None, "p_max": 23, "band": 3}
    return text(entry | {"scheduling": [{"period": 16, "sibs": [0]}], "window": 20, "tag": int(draw.integers(32))})


def placed(draw, cell, cfi, form):
    """Draws gap, start and length of an assignment."""
    n = cell.blocks
    gap = int(n >= 50 and form != "1A" and draw.integers(2))
    unit = wide_grants.step(n) if form == "1C" else 1
    total = (n if form == "1A" else wide_grants.virtual_count(n, bool(gap))) // unit
    length = int(draw.integers(-(-2 // unit), min(total, 12 // unit) + 1))
    return gap, unit * int(draw.integers(total - length + 1)), unit * length


def plan_for(draw, blocks, ports, form):
    """Draws a plan that can be sent, with a code rate up to 0.6."""
    bits = sib1(draw)
    while True:
        cell = wide_places.Cell(int(draw.integers(504)), ports, blocks, bool(draw.integers(2)), int(draw.integers(4)))
        cfi = int(draw.integers(1, 4))
        if cell.extended and wide_places.region(cell, cfi) < 3:
            continue
        room = wide_places.candidates(cell, cfi)
        if not room:
            continue
        level, element = room[draw.integers(len(room))]
        gap, start, length = placed(draw, cell, cfi, form)
        plan = wide_sender.Plan(
            cell.identity, blocks, ports, bits, cfi, cell.extended, cell.resource, form, level, element, start, length,
            gap, int(draw.integers(24 if form == "1C" else 17)), int(draw.integers(2, 4)), int(draw.integers(4)),
        )  # fmt: skip
        count = len(wide_places.shared_elements(cell, cfi, wide_sender.physical_blocks(plan)))
        if len(bits) <= plan.size <= 1_000 and plan.size + 24 <= 0.6 * 2 * count:
            return plan, cell


def received(draw, plan, level, sfn, frames):
    """Returns the samples of frames, or of subframes 4 to 6 of one, after LEAD samples and a fraction."""
    rate = wide_sender.rate_of(plan.blocks)
    if frames == 1:
        waves = wide_sender.Frame(plan, sfn, draw, (4, 5, 6)).samples(rate)
    else:
        waves = wide_sender.sent(plan, sfn, frames, rate, draw)
    lead = round((LEAD + draw.random() - 0.5) * 2**rate)
    behind = (frames > 1) * (4 << rate)  # since the listed start may be some samples late
    return wide_sender.received(np.pad(waves, ((0, 0), (lead, behind))), draw, level)


def outcome(draw, plan, cell, level):
    """Returns `read`, `wrong`, or why nothing was read."""
    rate, sfn = wide_sender.rate_of(plan.blocks), 2 * int(draw.integers(512))
    answer = wide_block.read(received(draw, plan, level, sfn, 1), rate, cell, LEAD, sfn)
    if answer.block is None:
        return " ".join(answer.text.split()[2:])
    return "read" if answer.block == block_of(plan) else "wrong"


def block_of(plan):
    """Returns the bits of the plan's transport block."""
    return (plan.text + [0] * plan.size)[: plan.size]


def outcome_of_program(draw, plan, level, program, frames):
    """Returns `read`, `wrong`, `not listed`, or why nothing was read by a program that lists so many frames, the second of
    which has an even number."""
    samples = received(draw, plan, level, 2 * int(draw.integers(512)) + 1, frames)
    ports = ["--ports", str(plan.ports)] * (plan.ports > 1)
    words = [program, "search", *ports, "--rate", RATES[wide_sender.rate_of(plan.blocks)]]
    done = subprocess.run(words, input=samples.astype("<i2").tobytes(), stdout=subprocess.PIPE, check=True)
    found = done.stdout.decode().split(f"\ncell {plan.identity} ")[1:]
    if not found:
        return "not listed"
    lines = found[0].split("\ncell ")[0].strip().split("\n")[1:]
    if lines[0].startswith("sib1 none"):
        return " ".join(lines[0].split()[2:])
    sent = int("".join(map(str, block_of(plan))), 2)
    return "read" if lines == fields_lines(sent, plan.size).split("\n") else "wrong"


def outcomes(draw, blocks, ports, level, count, program, frames):
    """Yields the outcome of this number of cells for each format."""
    for form in FORMS * count:
        plan, cell = plan_for(draw, blocks, ports, form)
        yield outcome_of_program(draw, plan, level, program, frames) if program else outcome(draw, plan, cell, level)


def main(count, levels, program, frames):
    for level in levels:
        print(f"{level} dB\n| Blocks | 1 port | 2 ports | 4 ports |\n|---|---|---|---|")
        every = collections.Counter()
        for blocks in wide_places.WIDTHS:
            row = []
            for ports in PORTS:
                draw = np.random.default_rng((blocks, ports, level + 100))
                found = list(outcomes(draw, blocks, ports, level, count, program, frames))
                every.update(found)
                row.append(f"{found.count('read')} of {len(found)}")
            print(f"| {blocks} | {' | '.join(row)} |", flush=True)
        print(", ".join(f"{name} {number}" for name, number in every.most_common()), flush=True)


if __name__ == "__main__":
    words = argparse.ArgumentParser(usage=__doc__)
    words.add_argument("numbers", nargs="*", type=int)
    words.add_argument("--program")
    words.add_argument("--frames", type=int, default=3)
    args = words.parse_args()
    main((args.numbers or [2])[0], args.numbers[1:] or LEVELS, args.program, args.frames)
