#!/usr/bin/python3
"""python3 -m lte_reference.cell [--ports 2 | --ports 4 | --prefix long] [--load N] < DESCRIPTION > RECORDING

A second transmitter: whole frames of a cell of 6 resource blocks, in the form of a recording (docs/FORMATS.md).
Reference and synchronisation signals and PBCH; where `sib1` is described, PCFICH in every subframe, and in subframe 5
of frames of even number PDCCH and PDSCH with SystemInformationBlockType1. With --ports 2 there are two antenna ports
with transmit diversity, each with a gain of its own, with --ports 4 four; with --prefix long the cyclic prefix is
extended; with both of these no control region and no system information are sent. With --load N, of 32 bits, there are
points of QPSK at the places that the plan leaves open. Tables and sequences are those of search.py; what codes,
maps and sends stands here, from TS 36.211, 36.212, 36.213 and 36.331.

The description is JSON: the keys of `transmit`, with two ports `gain2` too, with four `gain2` to `gain4`, then, all or
none, `cfi`, `start`, `blocks`, `mcs`, `column` and `sib1`. Of a key that is written twice the last value stands. For
trials there are `control` (21 bits, sent in place of the grant), `block` (a transport block in hexadecimal, in place of
the text), `noise` (the greatest error of a component, drawn by the identity) and `traffic` (the greatest size of the
elements, 1 to 256, that are sent where the cell sends nothing that is read, but not beside the synchronisation signals,
as the traffic of a live cell; drawn by the identity, the frame's number and the port) and `width` (the code of the
bandwidth in the master block, 0 to 5). In Bash:

    D='"identity": 0, "sfn": 0, "offset": 0, "samples": 57600, "gain": [20, 9],
       "duration": "normal", "resource": "one", "spare": 0, "cfi": 2, "start": 0, "blocks": 6, "mcs": 4, "column": 2,
       "sib1": {"plmns": [{"mcc": "001", "mnc": "01", "reserved": false}], "tac": 1, "cell": 1, "barred": false,
                "intra": true, "csg": false, "csg_identity": null, "q_rx": -70, "q_offset": null, "p_max": null, "band": 1,
                "scheduling": [{"period": 8, "sibs": []}], "window": 1, "tag": 0}'

    # plain, its block is 404004030001000000180000000000; noise, read by the second frame of even number after 6 iterations
    python3 -m lte_reference.cell <<< "{$D}"
    python3 -m lte_reference.cell <<< "{$D, \"sfn\": 5, \"offset\": 7000, \"samples\": 115200, \"mcs\": 13, \"noise\": 3500}"
    # another identity and PHICH, and a frame of odd number at the start
    python3 -m lte_reference.cell <<< "{$D, \"identity\": 301, \"sfn\": 1022, \"offset\": 7000, \"cfi\": 3, \"mcs\": 5,
                                \"column\": 3, \"duration\": \"extended\", \"resource\": \"two\"}"
    # two ports, and four, and every open place taken
    python3 -m lte_reference.cell --ports 2 --load 7 <<< "{$D, \"gain\": [8, 7], \"gain2\": [7, -7]}"
    python3 -m lte_reference.cell --ports 4 --load 7 <<< "{$D, \"gain\": [6, 3], \"gain2\": [0, -7], \"gain3\": [5, 5],
                                \"gain4\": [-6, 4]}"
    # refused: another size is granted than is sent, not-decoded; a digit of 11, bad-fields 10
    python3 -m lte_reference.cell <<< "{$D, \"control\": \"100101100101000000000\"}"
    python3 -m lte_reference.cell <<< "{$D, \"block\": \"406c04030001000000180000000000\"}"

Debian: python3-numpy.
"""
import argparse
import json
import random
import sys

import numpy as np

from .search import (
    COLUMNS,
    INTERLEAVER,
    SIZES,
    TAPS,
    W_IMAG,
    W_REAL,
    crc,
    primary,
    pseudo_random,
    reference,
    rounded,
    secondary,
)

DURATIONS, RESOURCES = ("normal", "extended"), ("oneSixth", "half", "one", "two")
WINDOWS = (1, 2, 5, 10, 15, 20, 40)


# ---- bits and codes


def bits_of(number, count):
    return [number >> count - 1 - i & 1 for i in range(count)]


def with_check(bits, count, polynomial, mask=0):
    """Returns the bits and their CRC of this length (TS 36.212 section 5.1.1)."""
    number = int("".join(map(str, bits)), 2)
    return bits + bits_of(crc(number, len(bits), polynomial) ^ mask, count)


def matrix(items, columns, shift=0):
    """Interleaves a sub-block, with nulls: written by rows, read by columns (TS 36.212 section 5.1.4)."""
    rows = -(-len(items) // 32)
    cells = [None] * (32 * rows - len(items)) + items
    cells = cells[shift:] + cells[:shift]
    return [cells[32 * row + column] for column in columns for row in range(rows)]


def repeated(items, start, count):
    """Returns this number of items from a position, circularly, without nulls."""
    items = [item for item in items[start:] + items[:start] if item is not None]
    return [items[i % len(items)] for i in range(count)]


def convolutional(word, count):
    """The tail-biting code and its rate matching (TS 36.212 sections 5.1.3.1 and 5.1.4.2)."""
    streams = [[sum(word[k - tap] for tap in taps) % 2 for k in range(len(word))] for taps in TAPS]
    return repeated([bit for stream in streams for bit in matrix(stream, COLUMNS)], 0, count)


def constituent(word):
    """The parity bits of one encoder, and its tail in the order of sending (TS 36.212 section 5.1.3.2)."""
    a, parity, tail = [0, 0, 0], [], []
    for bit in word:
        a.append((bit + a[-2] + a[-3]) % 2)
        parity.append((a[-1] + a[-2] + a[-4]) % 2)
    for _ in range(3):
        tail.append((a[-2] + a[-3]) % 2)
        a.append(0)
        tail.append((a[-2] + a[-4]) % 2)
    return parity, tail


def turbo(word, rv, count):
    """The turbo code and its rate matching (TS 36.212 sections 5.1.3.2 and 5.1.4.1)."""
    f1, f2 = INTERLEAVER[len(word)]
    first, tail = constituent(word)
    second, other_tail = constituent([word[(f1 * i + f2 * i * i) % len(word)] for i in range(len(word))])
    tails = tail + other_tail
    in_order = [int(format(column, "05b")[::-1], 2) for column in range(32)]
    v0 = matrix(word + tails[0::3], in_order)
    v1 = matrix(first + tails[1::3], in_order)
    v2 = matrix(second + tails[2::3], in_order, 1)
    buffer = v0 + [bit for pair in zip(v1, v2) for bit in pair]
    rows = len(v0) // 32
    return repeated(buffer, rows * (2 * -(-len(buffer) // (8 * rows)) * rv + 2), count)


# ---- the text of SystemInformationBlockType1 (TS 36.331 section 6.2.2)


def number(value, count, first=0):
    """An integer field from a first value on, and no bits where it is absent."""
    return [] if value is None else bits_of(value - first, count)


def network(plmn):
    def digits(text):
        return [bit for digit in text for bit in bits_of(int(digit), 4)]

    mcc = [1] + digits(plmn["mcc"]) if plmn["mcc"] else [0]
    return mcc + [len(plmn["mnc"]) - 2] + digits(plmn["mnc"]) + [int(not plmn["reserved"])]


def message(entry):
    codes = [bits_of(code, 5) if code < 16 else [1, 0] + bits_of(code - 16, 6) for code in entry["sibs"]]
    return bits_of(entry["period"].bit_length() - 4, 3) + bits_of(len(codes), 5) + sum(codes, [])


def text(s):
    there = [int(s.get(key) is not None) for key in ("p_max", "tdd", "extension", "csg_identity")]
    bits = [0, 1] + there + bits_of(len(s["plmns"]) - 1, 3) + sum(map(network, s["plmns"]), [])
    bits += bits_of(s["tac"], 16) + bits_of(s["cell"], 28) + [int(not s["barred"]), int(not s["intra"]), int(s["csg"])]
    bits += number(s["csg_identity"], 27) + [int(s["q_offset"] is not None)]
    bits += (
        number(s["q_rx"], 6, -70) + number(s["q_offset"], 3, 1) + number(s["p_max"], 6, -30) + number(s["band"], 6, 1)
    )
    bits += bits_of(len(s["scheduling"]) - 1, 5) + sum(map(message, s["scheduling"]), [])
    if s.get("tdd") is not None:
        bits += bits_of(s["tdd"][0], 3) + bits_of(s["tdd"][1], 4)
    return bits + bits_of(WINDOWS.index(s["window"]), 3) + bits_of(s["tag"], 5)


# ---- the information words of a frame


def master_word(cell, sfn, mask):
    """Returns the 40 bits of PBCH: the master block, and its CRC with a mask by the antenna ports (TS 36.331 section
    6.2.2, TS 36.212 section 5.3.1.1)."""
    bits = bits_of(cell.get("width", 0), 3) + [DURATIONS.index(cell["duration"])]
    bits += bits_of(RESOURCES.index(cell["resource"]), 2) + bits_of(sfn // 4, 8) + bits_of(cell["spare"], 10)
    return with_check(bits, 16, 0x11021, mask)


def version(sfn):
    """Returns the redundancy version of SIB1 in a frame of even number (TS 36.321 section 5.3.1)."""
    return (0, 2, 3, 1)[sfn // 2 % 4]


def grant_word(cell, sfn):
    """Returns the 37 bits of PDCCH: format 1A and its CRC (TS 36.212 section 5.3.3.1.3)."""
    start, blocks = cell["start"], cell["blocks"]
    riv = 6 * (blocks - 1) + start if blocks - 1 <= 3 else 6 * (6 - blocks + 1) + 5 - start
    grant = [1, 0] + bits_of(riv, 5) + bits_of(cell["mcs"], 5) + [0] * 4 + bits_of(version(sfn), 2)
    grant = [int(bit) for bit in cell.get("control", grant + [0, cell["column"] - 2, 0])]
    return with_check(grant, 16, 0x11021, 0xFFFF)


def block_word(cell):
    """Returns the transport block of PDSCH, with zeros after the text of SIB1, and its CRC."""
    size = SIZES[cell["column"] - 2][cell["mcs"]]
    block = bits_of(int(cell["block"], 16), 4 * len(cell["block"])) if "block" in cell else text(cell["sib1"])
    return with_check((block + [0] * size)[:size], 24, 0x1864CFB)


def indicator_bits(cfi):
    """Returns the 32 bits of a control format indicator (TS 36.212 table 5.3.4-1)."""
    return [int((i - cfi + 1) % 3 != 0) for i in range(32)]


# ---- the grid of a frame: its symbols of 72 elements, pairs of real and imaginary part


def points(bits, c_init):
    """Scrambled bits as points of QPSK (TS 36.211 sections 7.1.2 and 7.2)."""
    sent = [90 - 180 * (bit ^ c) for bit, c in zip(bits, pseudo_random(c_init, len(bits)))]
    return list(zip(sent[0::2], sent[1::2]))


def drawn(size, count, *seed):
    """Returns integer elements of at most this magnitude, half of them close to it."""
    draw = np.random.default_rng(seed)
    sizes = size * np.where(draw.random(count) < 0.5, 1, draw.random(count))
    angles = 2 * np.pi * draw.random(count)
    return np.trunc(np.stack([sizes * np.cos(angles), sizes * np.sin(angles)], 1)).astype(np.int64)


class Frame:
    """The signal of an antenna port in a frame; here the only one, with the normal cyclic prefix."""

    PORTS = 1
    SYMBOLS, PREFIXES = 7, (10, 9, 9, 9, 9, 9, 9)  # of a slot
    N_CP = 1  # of its reference signals (TS 36.211 section 6.10.1.1)
    BLOCK, KEPT = 1920, (0, 1)  # bits of PBCH, and its symbols in which reference places of four ports are kept
    MASK = 0  # of the master block's check, with one antenna port (TS 36.212 section 5.3.1.1)
    HAS_CONTROL = True

    def __init__(self, cell, sfn, port=0):
        self.cell, self.sfn, self.identity, self.port = cell, sfn, cell["identity"], port
        self.grid = np.zeros((20 * self.SYMBOLS, 72, 2), np.int64)
        self.taken = np.zeros((20 * self.SYMBOLS, 72), bool)
        for slot in range(20):
            for any_port in range(self.PORTS):
                self.references(slot, any_port)

    def put(self, places, values):
        for (l, k), value in zip(places, values):
            self.grid[l, k], self.taken[l, k] = value, True

    def send(self, places, values):
        """The points of a channel: with one antenna port they are sent as they are."""
        self.put(places, values)

    def references(self, slot, port):
        """TS 36.211 section 6.10.1.2: the port's reference signals; empty at other ports' elements."""
        if port < 2:
            shifts = (0, 3 * port), (self.SYMBOLS - 3, 3 - 3 * port)
        else:
            shifts = ((1, 3 * (port - 2) + 3 * (slot % 2)),)
        for l, v in shifts:
            values = reference(self.identity, slot, l, self.N_CP) if port == self.port else [(0, 0)] * 12
            self.put([(self.SYMBOLS * slot + l, 6 * m + (v + self.identity) % 6) for m in range(12)], values)

    def synchronisation(self):
        """Port 0 alone sends it."""
        if self.port != 0:
            return
        n1, n2 = divmod(self.identity, 3)
        for half, slot in ((0, 0), (5, 10)):
            last = self.SYMBOLS * (slot + 1) - 1
            self.put([(last, k) for k in range(5, 67)], primary(n2))
            self.put([(last - 1, k) for k in range(5, 67)], [(127 * s, 0) for s in secondary(n1, n2, half)])

    def broadcast(self):
        """TS 36.211 section 6.6: as if there were four antenna ports, a third of some symbols is left out."""
        cell, count = self.cell, self.BLOCK // 8
        sent = points(convolutional(master_word(cell, self.sfn, self.MASK), self.BLOCK), self.identity)
        rows = [(l, k) for l in range(4) for k in range(72) if l not in self.KEPT or (k - self.identity) % 3]
        self.send([(self.SYMBOLS + l, k) for l, k in rows], sent[count * (self.sfn % 4) :][:count])

    def groups(self, l):
        """Returns each group's resource elements in a symbol of the control region (TS 36.211 section 6.2.4)."""
        if l == 0:
            return [[k for k in range(6 * n, 6 * n + 6) if (k - self.identity) % 3] for n in range(12)]
        return [[*range(4 * n, 4 * n + 4)] for n in range(18)]

    def indicator(self, subframe):
        """TS 36.211 section 6.7; gives the numbers of the groups that it takes."""
        sent = points(
            indicator_bits(self.cell["cfi"]), (subframe + 1) * (2 * self.identity + 1) * 2**9 + self.identity
        )
        mine = [(self.identity % 12 + 3 * i) % 12 for i in range(4)]
        self.send([(14 * subframe, k) for n in mine for k in self.groups(0)[n]], sent)
        return mine

    def control(self, indicator_groups, bits):
        """PDCCH in subframe 5 (TS 36.211 sections 6.8 and 6.9.3): its first 36 quadruplets."""
        lowest, left = {}, [[n for n in range(12) if n not in indicator_groups]] + [list(range(18))] * 3
        for l in range(self.cell["cfi"] + 1):
            lowest.update({((6 if l == 0 else 4) * n, l): self.groups(l)[n] for n in left[l]})
        for m in range(1 + (self.cell["resource"] == "two")):
            for i in range(3):
                l = i if self.cell["duration"] == "extended" else 0
                place = self.identity * len(left[l]) // len(left[0]) + m + i * len(left[l]) // 3
                lowest.pop(((6 if l == 0 else 4) * left[l][place % len(left[l])], l), None)
        groups = [(l, lowest[k, l]) for k, l in sorted(lowest)]
        order = [i for i in matrix(list(range(len(groups))), COLUMNS) if i is not None]
        sent = points(bits, 5 * 2**9 + self.identity)
        for i, (l, subcarriers) in enumerate(groups):
            quadruplet = order[(i + self.identity) % len(groups)]
            self.send([(70 + l, k) for k in subcarriers], sent[4 * quadruplet : 4 * quadruplet + 4])

    def system_information(self, indicator_groups):
        cell, start, blocks = self.cell, self.cell["start"], self.cell["blocks"]
        self.control(indicator_groups, convolutional(grant_word(cell, self.sfn), 288))
        places = [
            (70 + l, k)
            for l in range(cell["cfi"] + 1, 14)
            if l not in (5, 6)
            for k in range(12 * start, 12 * (start + blocks))
            if not self.taken[70 + l, k]
        ]
        sent = turbo(block_word(cell), version(self.sfn), 2 * len(places))
        self.send(places, points(sent, 65535 * 2**14 + 5 * 2**9 + self.identity))

    def open_places(self):
        """Returns where nothing is sent; next to the synchronisation signals there are no such elements."""
        is_open = ~self.taken
        for slot in (0, 10):
            last = self.SYMBOLS * (slot + 1) - 1
            is_open[last - 1 : last + 1] = False
        return is_open

    def load(self, number):
        """QPSK of a number at the open places, by a sequence of each port and subframe whose bits are the pairs of all
        places of the subframe, symbol by symbol."""
        is_open, rows = self.open_places(), 2 * self.SYMBOLS
        for subframe in range(10):
            c_init = (40_960 * number + 10_240 * self.port + 10 * self.sfn + subframe) % 2**31
            values = np.array(points([0] * (2 * 72 * rows), c_init)).reshape(rows, 72, 2)
            here = slice(rows * subframe, rows * (subframe + 1))
            self.grid[here][is_open[here]] = values[is_open[here]]

    def traffic(self, size, indicator_groups):
        """Any elements where nothing is sent that is read."""
        is_open = self.open_places()
        for subframe, mine in enumerate(indicator_groups):
            if (subframe, self.sfn % 2) != (5, 0):
                is_open[14 * subframe, [k for n in mine for k in self.groups(0)[n]]] = True
        self.grid[is_open] = drawn(size, is_open.sum(), self.identity, self.sfn, self.port)

    def elements(self):
        """Returns the grid with everything that the port sends in the frame."""
        self.synchronisation()
        self.broadcast()
        taken = []
        if self.HAS_CONTROL and "sib1" in self.cell:
            taken = [self.indicator(subframe) for subframe in range(10)]
            if self.sfn % 2 == 0:
                self.system_information(taken[5])
        if "load" in self.cell:
            self.load(self.cell["load"])
        if "traffic" in self.cell:
            self.traffic(self.cell["traffic"], taken)
        return self.grid

    def samples(self):
        (re, im), (a, b) = np.moveaxis(self.elements(), 2, 0), self.cell[("gain", "gain2", "gain3", "gain4")[self.port]]
        wave = np.stack([rounded(re @ W_REAL - im @ W_IMAG, 17), rounded(re @ W_IMAG + im @ W_REAL, 17)], 2)
        prefixes = [symbol[-self.PREFIXES[i % self.SYMBOLS] :] for i, symbol in enumerate(wave)]
        x, y = np.concatenate([part for pair in zip(prefixes, wave) for part in pair]).T
        return np.stack([a * x - b * y, a * y + b * x], 1)


class FrameOfTwo(Frame):
    """Two ports: transmit diversity (TS 36.211 sections 6.3.3.3 and 6.3.4.3) without its factor."""

    PORTS = 2
    MASK = 0xFFFF

    def send(self, places, values):
        """Two by two, so that the number of a pair is that of its layers by two."""
        for i in range(0, min(len(places), len(values)), 2):
            self.put(places[i : i + 2], self.pair(i // 2, *values[i : i + 2]))

    def pair(self, _, x, y):
        """Port 0 sends both, and port 1 sends -conj y and conj x."""
        return (x, y) if self.port == 0 else crosswise(x, y)


class FrameOfFour(FrameOfTwo):
    """A frame with four antenna ports, without control region and SIB1."""

    PORTS = 4
    MASK = 0x5555
    HAS_CONTROL = False

    def pair(self, number, x, y):
        """Pairs of even number use ports 0 and 2 as two ports do, and pairs of odd number use ports 1 and 3."""
        if number % 2 != self.port % 2:
            return (0, 0), (0, 0)
        return (x, y) if self.port < 2 else crosswise(x, y)


def crosswise(x, y):
    return (-y[0], y[1]), (x[0], -x[1])


class LongFrame(Frame):
    """With the extended cyclic prefix (TS 36.211 sections 6.6, 6.10.1, 6.11 and 6.12): no system information."""

    SYMBOLS, PREFIXES = 6, (32,) * 6
    N_CP = 0
    BLOCK, KEPT = 1728, (0, 1, 3)
    HAS_CONTROL = False


# ---- recordings

CARRIERS = {"one": Frame, "two": FrameOfTwo, "four": FrameOfFour, "long": LongFrame}


def sent(cell, carrier="one"):
    """Returns the samples of a described cell: the sum of its antenna ports."""
    numbers = [(cell["sfn"] + j) % 1024 for j in range(-(-(cell["offset"] + cell["samples"]) // 19_200))]
    frame = CARRIERS[carrier]
    ports = [np.concatenate([frame(cell, sfn, port).samples() for sfn in numbers]) for port in range(frame.PORTS)]
    return sum(ports)[cell["offset"] :][: cell["samples"]]


def main():
    words = argparse.ArgumentParser(usage=__doc__)
    carrier = words.add_mutually_exclusive_group()
    carrier.add_argument("--ports", choices=["2", "4"])
    carrier.add_argument("--prefix", choices=["long"])
    words.add_argument("--load", type=int)
    args = words.parse_args()
    cell = json.load(sys.stdin)
    if args.load is not None:
        cell["load"] = args.load
    samples = sent(cell, {"2": "two", "4": "four"}.get(args.ports) or args.prefix or "one")
    if "noise" in cell:
        draw, bound = random.Random(cell["identity"]), cell["noise"]
        samples = samples + np.array([draw.randint(-bound, bound) for _ in range(samples.size)]).reshape(samples.shape)
    sys.stdout.buffer.write(np.clip(samples, -32_768, 32_767).astype("<i2").tobytes())


if __name__ == "__main__":
    main()
