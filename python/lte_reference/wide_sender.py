#!/usr/bin/python3
"""python3 -m lte_reference.wide_sender [OPTION ..] [--out FILE]

A transmitter of cells of any bandwidth, 6 to 100 resource blocks, with 1, 2 or 4 antenna ports: whole frames with PSS,
SSS, PBCH, reference signals, PCFICH, PHICH, PDCCH, SIB1 by format 1A or 1C, and load on the other blocks. Writes a
recording, signed 16-bit I and Q, with noise (its generator is numpy's, so a recording depends on numpy's version). Its
rate is the lowest of 1.92, 3.84, 7.68, 15.36 and 30.72 million samples per second that holds the cell, or that of --rate.
A cell of 10 MHz with two ports, and its list:

    python3 -m lte_reference.wide_sender --identity 301 --width 50 --ports 2 --out wide.ci16
    python3 -m lte_reference.wide_search 15.36 --ports 2 < wide.ci16

Format 1C, 12 virtual blocks by the second gap in a candidate of 8 elements, 3 dB above the noise, for six frames:

    python3 -m lte_reference.wide_sender --width 100 --form 1C --level 8 --gap 1 --length 12 --mcs 9 --snr 3 --frames 6

In floating point, and apart from `wide_places.py` and `wide_grants.py`: here elements are claimed on a grid in the
standard's order, and virtual blocks go through the interleaver's matrix (TS 36.211 section 6.2.3.2). From `cell.py`: the
codes and the text of SIB1; from `search.py`: the sequences. Debian: python3-numpy.
"""
import argparse
import json
import pathlib
import sys
from typing import NamedTuple

import numpy as np

from .cell import RESOURCES, bits_of, convolutional, master_word, text, turbo, with_check
from .search import COLUMNS, primary, pseudo_random, secondary
from .wide_grants import SHORT_SIZES, SIZES

WIDTHS = (6, 15, 25, 50, 75, 100)
GAPS = {6: (3,), 15: (8,), 25: (12,), 50: (27, 9), 75: (32, 16), 100: (48, 16)}
ASSIGNMENT_BITS = {6: (5, 3), 15: (7, 5), 25: (9, 7), 50: (11, 7), 75: (12, 8), 100: (13, 9)}  # formats 1A and 1C
INDICATORS = {1: (0, 1, 1), 2: (1, 0, 1), 3: (1, 1, 0)}
MASKS = {1: 0, 2: 0xFFFF, 4: 0x5555}
RATES = ("1.92", "3.84", "7.68", "15.36", "30.72")  # million samples per second
PLAIN = {
    "plmns": [{"mcc": "001", "mnc": "01", "reserved": False}],
    **{"tac": 1, "cell": 1, "barred": False, "intra": True, "csg": False, "csg_identity": None, "q_rx": -70},
    **{"q_offset": None, "p_max": None, "band": 1, "scheduling": [{"period": 8, "sibs": []}], "window": 1, "tag": 0},
}
FREE, REFERENCE, TAKEN = 0, 1, 2


class Plan(NamedTuple):
    """A cell's signal. `form` is 1A, 1Ad (distributed) or 1C; the candidate is `level` and first `element`; `start`
    and `length` count (virtual) blocks; `gap` is 0 or 1; `column` is 2 or 3; `version` None follows the frame."""

    identity: int
    blocks: int
    ports: int
    text: list
    cfi: int = 2
    extended: bool = False
    resource: int = 2
    form: str = "1A"
    level: int = 4
    element: int = 0
    start: int = 0
    length: int = 6
    gap: int = 0
    scheme: int = 5
    column: int = 2
    version: int | None = None
    load: float = 0.6

    @property
    def control_symbols(self):
        return self.cfi + (self.blocks <= 10)

    @property
    def size(self):
        return SHORT_SIZES[self.scheme] if self.form == "1C" else SIZES[self.column - 2][self.scheme]


# ---- control information


def indication(count, start, length):
    """Returns the resource indication value (TS 36.213 section 7.1.6.3)."""
    if length - 1 <= count // 2:
        return count * (length - 1) + start
    return count * (count - length + 1) + (count - 1 - start)


def virtual_blocks(plan, gap):
    """Returns the number of distributed virtual blocks."""
    n, apart = plan.blocks, GAPS[plan.blocks][gap]
    return n // (2 * apart) * 2 * apart if gap else 2 * min(apart, n - apart)


def version_of(plan, sfn):
    """Returns the redundancy version in a frame of even number."""
    if plan.version is not None and plan.form != "1C":
        return plan.version
    return (0, 2, 3, 1)[sfn // 2 % 4]


def information(plan, sfn):
    """Returns the bits of the plan's format, without CRC (TS 36.212 sections 5.3.3.1.3 and 5.3.3.1.4)."""
    n, (long, short) = plan.blocks, ASSIGNMENT_BITS[plan.blocks]
    if plan.form == "1C":
        unit = 2 if n < 50 else 4
        steps = virtual_blocks(plan, plan.gap) // unit
        value = indication(steps, plan.start // unit, plan.length // unit)
        return [plan.gap] * (n >= 50) + bits_of(value, short) + bits_of(plan.scheme, 5)
    bits = [1, int(plan.form == "1Ad")] + bits_of(indication(n, plan.start, plan.length), long)
    bits += bits_of(plan.scheme, 5) + [0, 0, 0, plan.gap] + bits_of(version_of(plan, sfn), 2) + [0, plan.column - 2]
    return bits + [0] * (len(bits) in (20, 24, 26))


def physical_blocks(plan):
    """Returns the physical blocks of an even and an odd slot."""
    virtual = range(plan.start, plan.start + plan.length)
    if plan.form == "1A":
        return list(virtual), list(virtual)
    n, apart = plan.blocks, GAPS[plan.blocks][plan.gap]
    unit = 2 * apart if plan.gap else virtual_blocks(plan, 0)
    group = 1 if n <= 10 else 2 if n <= 26 else 3 if n <= 63 else 4
    rows = -(-unit // (4 * group)) * group
    cells, nulls = np.full((rows, 4), -1), 4 * rows - unit
    is_used = np.ones((rows, 4), bool)
    is_used[rows - nulls // 2 :, [1, 3]] = False
    cells[is_used] = np.arange(unit)
    order = cells.T[is_used.T].tolist()
    slots = [], []
    for v in virtual:
        even = order.index(v % unit)
        for found, at in zip(slots, (even, (even + unit // 2) % unit)):
            found.append(at + v // unit * unit + (apart - unit // 2 if at >= unit // 2 else 0))
    return slots


# ---- the grid


def qpsk(bits, c_init):
    """Returns scrambled bits as points of power 1."""
    sent = 1 - 2.0 * (np.array(bits) ^ np.array(pseudo_random(c_init, len(bits))))
    return (sent[0::2] + 1j * sent[1::2]) / np.sqrt(2)


def in_order(items):
    """The sub-block interleaver of the convolutional code, without nulls."""
    rows = -(-len(items) // 32)
    cells = np.full(32 * rows, -1)
    cells[32 * rows - len(items) :] = items
    return [int(x) for x in cells.reshape(rows, 32)[:, list(COLUMNS)].T.ravel() if x >= 0]


class Frame:
    """The grid of a frame: port, symbol 0 to 139, subcarrier; and for what each element is kept. Only these subframes
    are sent."""

    def __init__(self, plan, sfn, draw, subframes=range(10)):
        self.plan, self.sfn, self.draw, self.subframes = plan, sfn, draw, subframes
        self.width, self.middle = 12 * plan.blocks, 6 * plan.blocks - 36
        self.grid = np.zeros((plan.ports, 140, self.width), complex)
        self.kept = np.zeros((140, self.width), int)
        self.references()
        self.synchronisation()
        if 0 in subframes:
            self.broadcast()
        for subframe in subframes:
            self.control(subframe)
        if 5 in subframes and sfn % 2 == 0:
            self.system_information()
        self.traffic()

    def send(self, elements, points):
        """Sends points with transmit diversity (TS 36.211 section 6.3.4.3)."""
        symbols, subcarriers = np.array(elements).T
        self.kept[symbols, subcarriers] = TAKEN
        self.grid[:, symbols, subcarriers] = self.spread(points)

    def spread(self, points):
        """Returns each port's points."""
        if self.plan.ports == 1:
            return points[None, :]
        sent = np.zeros((self.plan.ports, len(points)), complex)
        for pair in range(len(points) // 2):
            lower = pair % 2 if self.plan.ports == 4 else 0
            a, b = points[2 * pair : 2 * pair + 2]
            sent[lower, 2 * pair : 2 * pair + 2] = a, b
            sent[lower + self.plan.ports // 2, 2 * pair : 2 * pair + 2] = -np.conj(b), np.conj(a)
        return sent / np.sqrt(2)

    def references(self):
        """Sends each port's reference signals (TS 36.211 section 6.10.1)."""
        n, shift = self.plan.identity, self.plan.identity % 6
        for slot in (2 * subframe + half for subframe in self.subframes for half in (0, 1)):
            odd = slot % 2
            places = [(0, 0, 0), (0, 4, 3), (1, 0, 3), (1, 4, 0), (2, 1, 3 * odd), (3, 1, 3 + 3 * odd)]
            for port, l, v in places[: (0, 2, 4, 4, 6)[self.plan.ports]]:
                c_init = 1024 * (7 * (slot + 1) + l + 1) * (2 * n + 1) + 2 * n + 1
                bits = 1 - 2.0 * np.array(pseudo_random(c_init, 440))
                values = ((bits[0::2] + 1j * bits[1::2]) / np.sqrt(2))[110 - self.plan.blocks : 110 + self.plan.blocks]
                k = np.arange(2 * self.plan.blocks) * 6 + (v + shift) % 6
                self.grid[port, 7 * slot + l, k] = values
                self.kept[7 * slot + l, k] = REFERENCE

    def synchronisation(self):
        """Sends PSS and SSS on port 0 (TS 36.211 section 6.11)."""
        n1, n2 = divmod(self.plan.identity, 3)
        at = slice(self.middle + 5, self.middle + 67)
        for slot in (2 * subframe for subframe in self.subframes if subframe in (0, 5)):
            self.grid[0, 7 * slot + 6, at] = primary(n2) @ [1, 1j] / 127
            self.grid[0, 7 * slot + 5, at] = secondary(n1, n2, slot // 2)
            self.kept[7 * slot + 5 : 7 * slot + 7, self.middle : self.middle + 72] = TAKEN

    def broadcast(self):
        """Sends PBCH (TS 36.211 section 6.6)."""
        plan = self.plan
        described = {
            "duration": ("normal", "extended")[plan.extended],
            "resource": RESOURCES[plan.resource],
            "spare": 0,
        }
        word = master_word(described | {"width": WIDTHS.index(plan.blocks)}, self.sfn, MASKS[plan.ports])
        bits = convolutional(word, 1920)[480 * (self.sfn % 4) : 480 * (self.sfn % 4) + 480]
        scrambling = pseudo_random(plan.identity, 1920)[480 * (self.sfn % 4) :]
        sent = 1 - 2.0 * (np.array(bits) ^ np.array(scrambling[:480]))
        middle = range(self.middle, self.middle + 72)
        places = [(l, k) for l in range(7, 11) for k in middle if l > 8 or k % 3 != plan.identity % 3]
        self.send(places, (sent[0::2] + 1j * sent[1::2]) / np.sqrt(2))
        self.kept[7:11, self.middle : self.middle + 72] = TAKEN

    def groups(self, symbol):
        """Lists a symbol's groups in a subframe by frequency, each as the list of its four subcarriers."""
        if symbol == 0 or symbol == 1 and self.plan.ports == 4:
            shift = self.plan.identity % 3
            return [[k for k in range(first, first + 6) if k % 3 != shift] for first in range(0, self.width, 6)]
        return [list(range(k, k + 4)) for k in range(0, self.width, 4)]

    def control(self, subframe):
        """Sends PCFICH, PHICH and PDCCH (TS 36.211 sections 6.7 to 6.9)."""
        plan = self.plan
        groups = [self.groups(symbol) for symbol in range(4)]
        quarter = [(plan.identity % (2 * plan.blocks) + i * plan.blocks // 2) % (2 * plan.blocks) for i in range(4)]
        bits = [INDICATORS[plan.cfi][i % 3] for i in range(32)]
        places = [(14 * subframe, k) for number in quarter for k in groups[0][number]]
        self.send(places, qpsk(bits, (subframe + 1) * (2 * plan.identity + 1) * 512 + plan.identity))
        groups[0] = [group for i, group in enumerate(groups[0]) if i not in quarter]
        taken = self.acknowledgements(subframe, groups)
        left = [
            [(14 * subframe + l, k) for k in group]
            for l in range(self.plan.control_symbols)
            for i, group in enumerate(groups[l])
            if (l, i) not in taken
        ]
        self.channel(subframe, sorted(left, key=self.order))

    def order(self, places):
        """Returns the place of a group in the order of PDCCH: its first subcarrier, with that of a reference signal,
        and its symbol."""
        symbol, k = places[0]
        is_wide = symbol % 14 == 0 or symbol % 14 == 1 and self.plan.ports == 4
        return k - k % (6 if is_wide else 4), symbol

    def acknowledgements(self, subframe, groups):
        """Sends any points in the groups of PHICH, and returns symbol and number of each."""
        plan, taken = self.plan, set()
        for unit in range(int(np.ceil((1 / 6, 1 / 2, 1, 2)[plan.resource] * plan.blocks / 8 - 1e-9))):
            for i in range(3):
                l = i if plan.extended else 0
                count = len(groups[l])
                number = (plan.identity * count // len(groups[0]) + unit + i * count // 3) % count
                taken.add((l, number))
                points = self.draw.choice([-1, 0, 1], 4) + 1j * self.draw.choice([-1, 0, 1], 4)
                self.send([(14 * subframe + l, k) for k in groups[l][number]], points / np.sqrt(2))
        return taken

    def channel(self, subframe, left):
        """Sends PDCCH in the groups that are left: SIB1's candidate, and any bits in most of the other elements."""
        plan, count = self.plan, len(left)
        if plan.element + plan.level > count // 9:
            raise ValueError(f"only {count // 9} control channel elements")
        bits, is_sent = self.draw.integers(0, 2, 8 * count), np.zeros(8 * count, bool)
        for element in range(count // 9):
            is_sent[72 * element : 72 * element + 72] = plan.load > 0 and self.draw.random() < 0.7
        if subframe == 5 and self.sfn % 2 == 0:
            word = with_check(information(plan, self.sfn), 16, 0x11021, 0xFFFF)
            at = slice(72 * plan.element, 72 * (plan.element + plan.level))
            bits[at], is_sent[at] = convolutional(word, 72 * plan.level), True
        points = np.where(is_sent[0::2], qpsk(bits, subframe * 512 + plan.identity), 0)
        order = in_order(range(count))
        places = {order[(i + plan.identity) % count]: group for i, group in enumerate(left)}
        self.send([place for quadruplet in range(count) for place in places[quadruplet]], points)

    def system_information(self):
        """Sends PDSCH with SIB1 in subframe 5 (TS 36.211 sections 6.3 and 6.4)."""
        plan, places = self.plan, []
        for l in range(self.plan.control_symbols, 14):
            for block in sorted(physical_blocks(plan)[l // 7]):
                for k in range(12 * block, 12 * block + 12):
                    if self.kept[70 + l, k] == FREE:
                        places.append((70 + l, k))
        block = (plan.text + [0] * plan.size)[: plan.size]
        coded = turbo(with_check(block, 24, 0x1864CFB), version_of(plan, self.sfn), 2 * len(places))
        points = qpsk(coded, 0xFFFF * 2**14 + 5 * 512 + plan.identity)
        self.send(places, points)

    def traffic(self):
        """Sends points of 64-QAM in some of the resource blocks, from the first symbol after the control region."""
        for subframe in self.subframes:
            blocks = self.draw.random(self.plan.blocks) < self.plan.load
            for l in range(14 * subframe + self.plan.control_symbols, 14 * subframe + 14):
                k = np.flatnonzero((self.kept[l] == FREE) & np.repeat(blocks, 12))
                levels = 2 * self.draw.integers(0, 8, (2, self.plan.ports, len(k))) - 7
                self.grid[:, l, k] = (levels[0] + 1j * levels[1]) / np.sqrt(42 * self.plan.ports)

    def samples(self, rate):
        """Returns each port's 19,200 * 2^rate samples; noise of power 1 has power 1 in each element too."""
        size, half = 128 << rate, self.width // 2
        spectrum = np.zeros((len(self.grid), 140, size), complex)
        spectrum[:, :, size - half :] = self.grid[:, :, :half]
        spectrum[:, :, 1 : half + 1] = self.grid[:, :, half:]
        wave = np.fft.ifft(spectrum) * np.sqrt(size)
        parts = []
        for l in range(140):
            prefix = (10 if l % 7 == 0 else 9) << rate
            parts += [wave[:, l, size - prefix :], wave[:, l]]
        return np.concatenate(parts, 1)


# ---- recordings


def rate_of(blocks):
    """Returns the minimum r at which 128 * 2^r points hold the subcarriers."""
    return next(r for r in range(5) if 12 * blocks < 128 << r)


def sent(plan, sfn, count, rate, draw):
    """Returns each port's samples over consecutive frames."""
    return np.concatenate([Frame(plan, (sfn + j) % 1024, draw).samples(rate) for j in range(count)], 1)


def received(waves, draw, level, scale=2_500):
    """Returns whole samples: ports by gains of magnitude 1 and any phase, with noise `level` dB below an element."""
    gains = np.exp(2j * np.pi * draw.random(len(waves)))
    noise = draw.standard_normal((2, waves.shape[1])) * np.sqrt(10 ** (-level / 10) / 2)
    total = gains @ waves + noise[0] + 1j * noise[1]
    total *= scale / np.sqrt(np.mean(abs(total) ** 2))
    return np.clip(np.rint(np.stack([total.real, total.imag], 1)), -32_768, 32_767).astype(np.int64)


def fault_of(plan):
    """Returns why a plan cannot be sent, or None; control channel elements are counted later."""
    if plan.gap and plan.blocks < 50:
        return "the second gap needs 50 resource blocks"
    unit = 1 if plan.form != "1C" else 2 if plan.blocks < 50 else 4
    count = plan.blocks if plan.form == "1A" else virtual_blocks(plan, plan.gap)
    sizes = SHORT_SIZES if plan.form == "1C" else SIZES[plan.column - 2]
    for is_fault, words in (
        (not 0 <= plan.identity <= 503, "an identity is 0 to 503"),
        (plan.extended and plan.control_symbols < 3, "an extended PHICH needs three control symbols"),
        (plan.start < 0 or plan.length < 1 or plan.start + plan.length > count, f"there are {count} blocks"),
        (plan.start % unit or plan.length % unit, f"format 1C counts blocks by {unit}"),
        (not 0 <= plan.scheme < len(sizes), f"a scheme is 0 to {len(sizes) - 1}"),
    ):
        if is_fault:
            return words
    return None if len(plan.text) <= plan.size else f"SIB1 has {len(plan.text)} bits, and the block {plan.size}"


def parser():
    """Returns the parser of the arguments."""
    words = argparse.ArgumentParser(description=__doc__, formatter_class=argparse.RawDescriptionHelpFormatter)
    add = words.add_argument
    add("--sib1", type=pathlib.Path, metavar="FILE", help="JSON with the key sib1 of `transmit` (a plain one)")
    add("--identity", type=int, default=0, help="0 to 503 (0)")
    add("--width", type=int, choices=WIDTHS, default=50, help="resource blocks (50)")
    add("--ports", type=int, choices=(1, 2, 4), default=1, help="antenna ports (1)")
    add("--cfi", type=int, choices=(1, 2, 3), default=2, help="control format indicator (2)")
    add("--phich", choices=("normal", "extended"), default="normal", help="duration of PHICH (normal)")
    add("--resource", choices=RESOURCES, default="one", help="resource of PHICH (one)")
    add(
        "--form", choices=("1A", "1Ad", "1C"), default="1A", help="format of the grant: localized, distributed, 1C (1A)"
    )
    add("--level", type=int, choices=(4, 8), default=4, help="control channel elements of the grant (4)")
    add("--element", type=int, choices=(0, 4, 8, 12), default=0, help="the first of them (0)")
    add("--start", type=int, default=0, help="the first (virtual) block of SIB1 (0)")
    add("--length", type=int, default=8, help="the count of its blocks (8; with 6 resource blocks 6)")
    add("--gap", type=int, choices=(0, 1), default=0, help="1 for the second gap of distributed blocks (0)")
    add("--mcs", type=int, default=5, help="modulation and coding scheme, which gives the size of the block (5)")
    add("--column", type=int, choices=(2, 3), default=2, help="column of the table of sizes, with 1A (2)")
    add(
        "--version",
        type=int,
        choices=range(4),
        help="redundancy version of each frame, with 1A (by the frame's number)",
    )
    add("--load", type=float, default=0.6, help="fraction of the other blocks that are sent (0.6)")
    add("--snr", type=float, default=20, metavar="DB", help="an element's mean power above the noise (20)")
    add("--frames", type=int, default=4, help="count of frames (4)")
    add("--sfn", type=int, default=0, help="number of the first frame (0)")
    add("--late", type=int, default=0, help="samples at 1.92 million per second of noise in front (0)")
    add("--rate", choices=RATES, help="million samples per second (the lowest that holds the cell)")
    add("--seed", type=int, default=1, help="of noise, load and gains (1)")
    add("--out", type=pathlib.Path, help="a file for the recording (standard output)")
    return words


def plan_of(args):
    """Returns the plan that arguments describe."""
    described = json.loads(args.sib1.read_text()) if args.sib1 else {"sib1": PLAIN}
    return Plan(
        identity=args.identity,
        blocks=args.width,
        ports=args.ports,
        text=text(described["sib1"]),
        cfi=args.cfi,
        extended=args.phich == "extended",
        resource=RESOURCES.index(args.resource),
        form=args.form,
        level=args.level,
        element=args.element,
        start=args.start,
        length=min(args.length, args.width),
        gap=args.gap,
        scheme=args.mcs,
        column=args.column,
        version=args.version,
        load=args.load,
    )


def recording_of(plan, args):
    """Returns the bytes of a recording; refuses a cell that cannot be sent."""
    rate = rate_of(plan.blocks) if args.rate is None else RATES.index(args.rate)
    fault = f"{args.rate} holds no {plan.blocks} blocks" if rate < rate_of(plan.blocks) else fault_of(plan)
    if fault:
        raise ValueError(fault)
    draw = np.random.default_rng(args.seed)
    waves = np.pad(sent(plan, args.sfn, args.frames, rate, draw), ((0, 0), (args.late << rate, 0)))
    return received(waves, draw, args.snr).astype("<i2").tobytes()


def main():
    args = parser().parse_args()
    try:
        data = recording_of(plan_of(args), args)
    except ValueError as fault:
        sys.exit(f"wide_sender: {fault}")
    if args.out:
        args.out.write_bytes(data)
    else:
        sys.stdout.buffer.write(data)


if __name__ == "__main__":
    main()
