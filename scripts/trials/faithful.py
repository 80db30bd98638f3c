"""Recordings that are faithful to a cell (crates/clean_air/specs/Faithful.antt), for held.py: what is sent, whole
samples that are off by an energy, and whether the list holds the cell.

Gains and values are in parts, 16,384 of them one. They are whole numbers below 2^53 in complex arrays, whose sums and
products are exact; energies are sums of whole numbers of 64 bits. Debian: python3-numpy.
"""
import json
import math
import subprocess

import numpy as np

import packages

packages.add()
import fuzz_inputs
from lte_tools import machine
from lte_reference import cell as second_cell
from lte_reference import search as second_search
from lte_reference import waveform
from lte_reference.search import FRAME, SIZES

PARTS = 16_384
UNIT = PARTS**2  # the square of a gain of 1
LATEST = 9  # samples by which a path may be later than the first
NUMBERS = ("identity", "at", "sfn")
READ_BY = {"cost": 0, "frames": 1, "frame": 0}  # keys of the evidence
GAINS = ("gain", "gain2", "gain3", "gain4")
WORDS = {"one": (), "two": ("--ports", "2"), "long": ("--prefix", "long"), "four": ("--ports", "4")}
EDGES = [*range(11), *range(19_189, 19_200), *range(667, 706), *range(10_267, 10_306)]  # offsets at ends of the span


def said(words, data):
    """Returns the output of lte_cli, or nothing if it refuses."""
    done = subprocess.run([machine.program("lte_cli"), *words], input=data, capture_output=True, check=False)
    return done.stdout if done.returncode == 0 else None


# ---- what is sent


def drawn(draw, **keys):
    """A description of a random cell; a plan that `transmit` refuses may be one of them."""
    column, blocks = draw.choice((2, 3)), draw.randint(1, 6)
    described = {
        **fuzz_inputs.valid_description(draw),
        "sfn": draw.choice([draw.randrange(1024), draw.randrange(1024), 0, 1023]),
        "offset": draw.choice([draw.randrange(FRAME), draw.randrange(FRAME), draw.choice(EDGES)]),
        "samples": 57_600 + draw.choice([0, 0, draw.randrange(40_000)]),
        "start": draw.randrange(7 - blocks),
        "blocks": blocks,
        "column": column,
        "mcs": draw.randrange(len(SIZES[column - 2])),
        "gain": [1, 0],
    }
    return {**described, **keys}


def hardly_resolved(draw, plan):
    """Keys of a plan, of indicator, count of blocks, scheme and column, with a text of SIB1 that fills the block."""
    cfi, blocks, mcs, column = plan
    sib1, size = fuzz_inputs.valid_description(draw)["sib1"], SIZES[column - 2][mcs]
    sib1 |= {"plmns": sib1["plmns"][:1], "csg_identity": None, "scheduling": [{"period": 8, "sibs": []}]}
    while len(second_cell.text(sib1)) + 13 <= size and len(sib1["scheduling"]) < 32:
        sib1["scheduling"].append({"period": 8 << draw.randrange(7), "sibs": [draw.randrange(16)]})
    start = draw.randrange(7 - blocks)
    return {"cfi": cfi, "start": start, "blocks": blocks, "mcs": mcs, "column": column, "sib1": sib1}


def transmitted(carrier, described, load=None, gains=((1, 0),)):
    """Returns the output of `transmit`, or nothing if it refuses."""
    plan = {**described, **dict(zip(GAINS, gains))}
    words = ["transmit", *WORDS[carrier], *([] if load is None else ["--load", str(load)])]
    data = said(words, json.dumps(plan).encode())
    return None if data is None else np.frombuffer(data, "<i2").astype(float).reshape(-1, 2) @ (1, 1j)


def early(described):
    """The description from as many samples earlier on as a path may be late, and how many these are."""
    before = min(described["offset"], LATEST)
    return {**described, "offset": described["offset"] - before, "samples": described["samples"] + before}, before


def sent(carrier, described, load=None):
    """Returns the samples of each antenna port, from LATEST samples before the recording, or nothing if refused."""
    described, before = early(described)
    count = second_search.RULES[WORDS[carrier]].ports
    first = ((1, 0),) + ((0, 0),) * (count - 1)
    ports = [transmitted(carrier, described, load, first)]
    if ports[0] is None:
        return None
    for port in range(1, count):
        both = [first[i] if i != port else (1, 0) for i in range(count)]
        ports.append(transmitted(carrier, described, load, both) - ports[0])
    return np.pad(ports, ((0, 0), (LATEST - before, 0)))


def sent_by_second(carrier, described, frame=None):
    """The same by the second transmitter, also of a description with `traffic`, and by another class of frames."""
    described, before = early(described)
    frame = frame or second_cell.CARRIERS[carrier]
    cell = {**described, **dict.fromkeys(GAINS, (1, 0))}
    numbers = [(described["sfn"] + j) % 1024 for j in range(-(-(described["offset"] + described["samples"]) // FRAME))]
    ports = [np.concatenate([frame(cell, sfn, port).samples() for sfn in numbers]) for port in range(frame.PORTS)]
    samples = np.array(ports)[:, described["offset"] :][:, : described["samples"]] @ (1, 1j)
    return np.pad(samples, ((0, 0), (LATEST - before, 0)))


# ---- gains


def squares_of(gains):
    return [int(gain.real) ** 2 + int(gain.imag) ** 2 for gain in gains]


def any_gains(carrier, most, draw, rng, is_great=False):
    """Gains of the ports in parts, whose squares add to so much at most."""
    ports = second_search.RULES[WORDS[carrier]].ports
    while True:
        power = draw.choice([draw.uniform(1, most**0.5) ** 2, draw.uniform(1, 1.1), draw.uniform(0.9, 1) * most])
        power = 0.9 * most if is_great else power
        sizes = np.array([draw.choice([0, draw.random(), 1]) for _ in range(ports)], float)
        sizes[0] = draw.uniform(0.05, 1)
        if carrier == "four":  # each pair has three eighths and more
            share = draw.choice([draw.uniform(0.376, 0.624), 0.3751, 0.6249])
            for pair, part in ((slice(0, 4, 2), share), (slice(1, 4, 2), 1 - share)):
                sizes[pair] *= math.sqrt(part / max(sum(sizes[pair] ** 2), 1e-9))
        gains = sizes * math.sqrt(power / sum(sizes**2)) * np.exp(2j * np.pi * rng.random(ports))
        gains = np.round(gains * PARTS) if draw.random() < 0.8 else PARTS * np.round(gains)
        squares = squares_of(gains)
        if UNIT <= squares[0] and sum(squares) <= most * UNIT and waveform.are_paired(squares):
            return gains


# ---- errors


def clipped(samples):
    return np.clip(samples.real, -32e3, 32e3) + 1j * np.clip(samples.imag, -32e3, 32e3)


def energy(samples, values):
    """Returns the energy of the difference between integer samples and values in parts, in squared parts."""
    off = PARTS * samples - values
    return int((off.real.astype(np.int64) ** 2 + off.imag.astype(np.int64) ** 2).sum())


def fitted(values, shape, limit):
    """Whole samples beside values in parts, with errors of this shape and nearly of this energy, or nothing where
    rounding alone has more."""
    best = np.round(values / PARTS)
    if energy(best, values) > limit:
        return None
    low, high = 0, 2 * math.sqrt(limit) / PARTS / max(math.sqrt(np.vdot(shape, shape).real), 1e-9)
    for _ in range(22):
        tried = np.round(values / PARTS + (low + high) / 2 * shape)
        if energy(tried, values) <= limit:
            low, best = (low + high) / 2, tried
        else:
            high = (low + high) / 2
    return best


# ---- whether the list holds the cell


def wanted(rule, described):
    """The cell's entry as `search --json` has it."""
    br, spare = divmod(described["spare"], 32)
    return {
        "identity": described["identity"],
        "at": -described["offset"] % FRAME,
        "sfn": (described["sfn"] + (described["offset"] > 0)) % 1024,
        "ports": rule.ports,
        "bandwidth": "n6",
        **{key: described[key] for key in ("duration", "resource")},
        "br": br,
        "spare": spare,
        "sib1": {"none": rule.unread} if rule.unread else {**described["sib1"], "tdd": None, "extension": False},
    }


def fault(carrier, described, data):
    """How the list fails to hold the cell, or nothing: one entry of its identity, start and frame number, with each
    field as it was sent, described by the first frame alone at no cost."""
    words = WORDS[carrier]
    listed, evidence = (json.loads(said([command, *words, "--json"], data)) for command in ("search", "evidence"))
    return fault_of(wanted(second_search.RULES[words], described), listed, evidence)


def fault_of(want, listed, evidence):
    """Returns how a list and its evidence fail to hold one entry with these keys at no cost, or None."""
    same, read = (
        [its for its in found if all(its[name] == want[name] for name in NUMBERS)] for found in (listed, evidence)
    )
    if len(same) != 1:
        return f"{len(same)} entries"
    its = {**same[0], "sib1": same[0]["sib1"].get("none", same[0]["sib1"])}
    if others := [f"{key} {its[key]}" for key in want if same[0][key] != want[key]]:
        return ", ".join(others)
    if others := [f"{name} {read[0][name]}" for name, value in READ_BY.items() if read[0][name] != value]:
        return ", ".join(others)
    return None
