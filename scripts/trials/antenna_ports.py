#!/usr/bin/python3
"""antenna_ports.py PROGRAM [CELLS [2 | 4]]

Sends CELLS random cells (10) of two antenna ports, then of four, through flat channels of a random phase each, adds
noise, searches each, and prints of how many a list holds the cell: of two ports the list of one port, by how much
stronger port 1 is received than port 0; of four ports the lists of one port, of two and of four, by how strong the
others are received beside port 0. The synchronisation signals come from port 0 alone. These are observations: nothing
here is proved. The numbers are drawn with fixed seeds.

PROGRAM is lte_cli, or the word `second`: then lte_reference/cell.py sends, and lte_reference/search.py searches.

Debian: python3-numpy.
"""
import functools
import json
import subprocess
import sys
from typing import NamedTuple

import numpy as np

import packages

packages.add()
from lte_tools import radio
from lte_reference import cell as second_cell
from lte_reference import search as second_search

NOISE = 32_400  # of a sample, where a resource element of energy 2 * 90^2 has Es/N0 0 dB
NONE = -300  # dB of a port that is not received
MOST = 30_000  # to which a recording's greatest component is brought down
KEYS = ("gain", "gain2", "gain3", "gain4")
PLAIN = json.loads((packages.TOP / "scripts/examples/plain_cell.json").read_text())


class Carrier(NamedTuple):
    """Antenna ports, the gain of each as it is sent, the rules whose lists are asked, and rows: how many dB stronger
    the further ports are received than port 0, with a name."""

    ports: int
    gain: int
    rules: tuple
    rows: tuple
    ratios: tuple  # Es/N0 of port 0, in dB


TWO = Carrier(2, 13, ((),), tuple((f"{d} dB", (d,)) for d in (-10, 0, 3, 6, 8, 10)), (20, 3, 0))
FOUR = Carrier(
    4,
    7,
    ((), ("--ports", "2"), ("--ports", "4")),
    (
        ("ports 1 to 3: none", (NONE,) * 3),
        ("port 2: 0 dB; ports 1 and 3: none", (NONE, 0, NONE)),
        *((f"port 2: 0 dB; ports 1 and 3: {d} dB", (d, 0, d)) for d in (-10, -3, 0, 3, 6, 10, 15)),
        *((f"port 1: 0 dB; ports 2 and 3: {d} dB", (0, d, d)) for d in (-10, 3, 6, 10, 15)),
    ),
    (20, 3, 0),
)


def said(words, data):
    return subprocess.run(words, input=data, stdout=subprocess.PIPE, check=True).stdout


def sent(program, carrier, plan, gains):
    """Returns the sum of all ports' samples, each times its gain."""
    loud = {**plan, **{key: [gain, 0] for key, gain in zip(KEYS, gains)}}
    if program == "second":
        return second_cell.sent(loud, {2: "two", 4: "four"}[carrier.ports]) @ (1, 1j)
    words = [program, "transmit", "--ports", str(carrier.ports)]
    return radio.from_bytes(said(words, json.dumps(loud).encode()))


def lines_of(program, rule, x):
    """The lines of the list of a recording by this rule."""
    data = radio.to_bytes(x)
    if program != "second":
        return said([program, "search", *rule], data).decode().splitlines()
    r, rule = np.frombuffer(data, "<i2").astype(np.int64).reshape(-1, 2), second_search.RULES[rule]
    return second_search.list_lines(r, second_search.listed(r, rule), rule)


def drawn(carrier, seed):
    """A random cell's identity, frame number, offset and phases of its ports, and the generator that goes on."""
    draw = np.random.default_rng(seed)
    numbers = int(draw.integers(504)), int(draw.integers(1000)), int(draw.integers(200, 19_000))
    return *numbers, np.exp(2j * np.pi * draw.random(carrier.ports)), draw


@functools.cache
def each_sent(program, carrier, seed):
    """Returns the samples of each port of the cell."""
    cell, sfn, offset, *_ = drawn(carrier, seed)
    plan = {**PLAIN, "identity": cell, "sfn": sfn, "offset": offset, "samples": 5 * radio.FRAME}
    alone = [carrier.gain] + [0] * (carrier.ports - 1)
    first = sent(program, carrier, plan, alone)
    both = [alone[:port] + [carrier.gain] + alone[port + 1 :] for port in range(1, carrier.ports)]
    return [first] + [sent(program, carrier, plan, gains) - first for gains in both]


def are_held(program, carrier, seed, levels, ratio):
    """Which of the lists hold the cell."""
    cell, sfn, _, phases, draw = drawn(carrier, seed)
    ports = zip((0, *levels), phases, each_sent(program, carrier, seed))
    x = sum(10 ** (level / 20) * phase * samples for level, phase, samples in ports)
    size = carrier.gain * np.sqrt(NOISE / 10 ** (ratio / 10) / 2)
    x = x + size * (draw.standard_normal(len(x)) + 1j * draw.standard_normal(len(x)))
    x = x * min(1, MOST / radio.peak(x))
    front, back = f"cell {cell} at ", f" sfn {sfn + 1} ports {carrier.ports} "
    lists = [lines_of(program, rule, x) for rule in carrier.rules]
    return [any(line.startswith(front) and back in line for line in lines) for lines in lists]


def table(program, carrier, count):
    lists = "" if len(carrier.rules) == 1 else ", lists of one port, two and four"
    ratios = " | ".join(f"{ratio} dB" for ratio in carrier.ratios)
    print(f"| {carrier.ports} ports{lists} | {ratios} |\n|{'---|' * (1 + len(carrier.ratios))}")
    for name, levels in carrier.rows:
        cells = []
        for ratio in carrier.ratios:
            held = [are_held(program, carrier, seed, levels, ratio) for seed in range(count)]
            cells.append(", ".join(str(sum(its)) for its in zip(*held)))
        print(f"| {name} | {' | '.join(cells)} |", flush=True)


def main(program, count="10", ports="24"):
    for carrier in (TWO, FOUR):
        if str(carrier.ports) in ports:
            table(program, carrier, int(count))


if __name__ == "__main__":
    if not 2 <= len(sys.argv) <= 4:
        sys.exit(__doc__)
    main(*sys.argv[1:])
