#!/usr/bin/python3
"""held.py [KIND ..] [--count N] [--first SEED] [--times T] [--save FILE]
held.py KIND --find N

Makes recordings that are faithful to a cell (crates/clean_air/specs/Faithful.antt), just so, and looks whether the list
holds it: identity, start, frame number, antenna ports, each field of the master block and of SIB1, or the reason. Of
each kind N (200) recordings, from seeds 0, 1 and so on: random cells as `transmit` sends them, a third with its load, a
third with elements up to 256 by the second transmitter; random gains in parts of 2^-14; in the symbols that the list
looks at errors of as much energy as the premise allows, of several shapes; and anything elsewhere. That the premise
holds is checked in whole numbers. A line for each cell that is not held, and one for each kind with the count; the
status is 1 where one is not held. A test, no proof.

    near-one, near-two, near-long, near-four    errors relative to the waveform before rounding, with as much energy as
                   crates/waveform/specs/Waveform.antt allows; that this premise holds is checked too
    quiet, one     one antenna port; the energy of the errors is 1,024 or 1,800 times the gain's square
    two, long, four    the other carriers
    channel        each symbol has a gain of its own, as far as inequality (I) below allows
    offset30, offset60  a frequency offset of so many hertz, and small errors
    paths-a, paths-b, paths-c  further paths, up to 9 samples later

With --times the number of the kind is so many times that (energy, what (I) allows, hertz, sizes of further paths), the
plan one that hardly can be resolved, and the errors as bad as can be found; the premise is not met then, and a cell that
is not held is no fault. --find tells which of N such recordings is lost first, and at which number. --save writes the
last recording. LTE_CLI names the program. Debian: python3-numpy.
"""
import itertools
import math
import pathlib
import random
import sys
from typing import Any, Callable, NamedTuple

import numpy as np

import faithful
import seen_through
from adverse import ATTACKS, TURNS, Leaking, Slot, elements, traffic_against
from faithful import LATEST, PARTS, UNIT, energy, fitted, squares_of
from lte_reference import waveform
from lte_reference.search import RULES
from lte_tools.arguments import Parser
from seen_through import READ

# by carrier: the energy of a symbol's errors by the sum of the gains' squares, and by the first one's square; the most
# that the sum may be
QUOTA = {"one": 1_800, "two": 400, "long": 1_800, "four": 7}
BY_FIRST = {"two": 1_800}
MOST = {"one": 784, "two": 392, "long": 784, "four": 196}
SHAPES = ("white", "burst", "tone", "adverse")
FILLS = ("own", "noise", "zeros", "another", "moved", "beside", "signals")


class Trial:
    """A recording of a kind by its seed, and what it is made of; `times` is none, or how far beyond the kind's number
    the recording goes."""

    def __init__(self, name, seed, times=None):
        self.kind, self.times = KINDS[name], times or 1
        self.is_beyond = times is not None
        self.carrier, self.rule = self.kind.carrier, RULES[faithful.WORDS[self.kind.carrier]]
        self.draw, self.rng = random.Random(f"{name} {seed}"), np.random.default_rng([seed, *name.encode()])
        self.samples, self.seed = None, f"attack on {name} {seed}"
        while self.samples is None:
            self.send()
            self.samples = self.received()

    def send(self):
        """Draws a random cell, its ports' samples, and the symbols that the list reads."""
        ports = None
        while ports is None:
            self.described = faithful.drawn(self.draw)
            if self.is_beyond:
                self.described |= faithful.hardly_resolved(self.draw, self.draw.choice(HARD[self.kind.hard]))
            self.load = self.draw.choice([None, self.draw.randrange(2**32), self.draw.randrange(2**32)])
            ports = faithful.sent(self.carrier, self.described, self.load)
        self.cell = {**self.described, **({} if self.load is None else {"load": self.load})}
        if self.load and not self.is_beyond and self.draw.random() < 0.5:
            self.cell = {**self.described, "traffic": self.draw.choice([256, 200, 10])}
            ports = faithful.sent_by_second(self.carrier, self.cell)
        self.ports = ports
        self.symbols = list(waveform.read_symbols(self.rule, self.described))
        self.first = int(self.described["offset"] > 0)
        self.even = self.first + (self.described["sfn"] + self.first) % 2

    def received(self):
        """The samples, or nothing where whole numbers of 16 bits do not fit the premise."""
        self.gains = faithful.any_gains(self.carrier, MOST[self.carrier], self.draw, self.rng, self.is_beyond)
        values, limits = self.kind.through(self) or (None, None)
        if values is None:
            return None
        samples = self.elsewhere()
        shapes = self.shapes(values, limits)
        for symbol, its in values.items():
            found = fitted(its, shapes[symbol], limits[symbol])
            if self.is_beyond:
                found = faithful.clipped(found)
            if found is None or max(abs(found.real).max(), abs(found.imag).max()) > 32_767:
                return None
            samples[symbol.start : symbol.start + 128] = found
        if not self.is_beyond:
            assert all(energy(samples[s.start : s.start + 128], its) <= limits[s] for s, its in values.items())
            assert self.kind.through != by_waveform or self.is_near(samples)
        return samples

    def is_near(self, samples):
        """Whether the samples meet the premise on the waveform, in whole numbers."""
        r = np.stack([samples.real, samples.imag], 1).astype(np.int64)
        gains = [(int(gain.real), int(gain.imag)) for gain in self.gains]
        return waveform.excess(r, self.cell, self.carrier, self.rule, gains).is_near

    def data(self):
        return np.stack([self.samples.real, self.samples.imag], 1).astype("<i2").tobytes()

    def fault(self):
        return faithful.fault(self.carrier, self.described, self.data())

    # ---- what stands elsewhere

    def elsewhere(self):
        """Returns the samples where the list does not read."""
        count, fill = self.described["samples"], "zeros" if self.is_beyond else self.draw.choice(FILLS)
        own = np.round(self.gains @ self.ports / PARTS)[LATEST:]
        if fill == "noise":
            return self.rng.integers(-32_768, 32_768, count) + 1j * self.rng.integers(-32_768, 32_768, count)
        if fill == "another":
            keys = {"samples": count, **self.draw.choice([{}, {"identity": self.described["identity"]}])}
            other = None
            while other is None:
                other = faithful.transmitted("one", faithful.drawn(self.draw, **keys), 1)
            return np.round(self.draw.uniform(1, 28) * other)
        if fill == "moved":
            own = np.roll(own, self.draw.choice([-9600, -3, -1, 1, 2, 9, 137, 9600]))
        for s in self.symbols:
            if s.slot in (0, 10) and s.number == self.rule.symbols - 1 and fill in ("beside", "signals"):
                wave = own[s.start : s.start + 128].copy()
                own[s.start + 128 :][:9], own[max(0, s.start - 9) : s.start] = wave[-9:], wave[max(0, 9 - s.start) : 9]
        if fill == "signals":
            own = np.resize(wave, count)
        return np.zeros(count, complex) if fill == "zeros" else faithful.clipped(own)

    # ---- errors

    def shapes(self, values, limits):
        """The shape of the errors of each symbol."""
        style = "none" if self.is_beyond else self.draw.choice(SHAPES)
        found = {symbol: self.shape(style) for symbol in values}
        if style in ("none", "adverse"):
            for view, weights, symbols, seen in self.attacked(values):
                sizes = np.zeros(self.rule.symbols)
                for l, symbol in symbols.items():
                    sizes[l] = math.sqrt(limits[symbol] / 128) / PARTS
                errors = view.against(seen, weights, sizes)
                found.update({symbols[l]: errors[l] @ TURNS for l in symbols if errors[l].any()})
        return found

    def shape(self, style):
        if style == "tone":
            pilot = 3 * self.rng.integers(24) + self.described["identity"] % 3
            return TURNS[pilot] * np.exp(2j * np.pi * self.rng.random())
        if style == "burst":
            return np.eye(128)[self.rng.integers(128)] * np.exp(2j * np.pi * self.rng.random())
        return (self.rng.standard_normal(128) + 1j * self.rng.standard_normal(128)) * (style != "none")

    def attacked(self, values):
        """Of each slot that is read: its places, a weight of each value that is attacked, the symbols, and what is seen of
        them."""
        draw = random.Random(self.seed)
        attack = draw.choice(ATTACKS[1 : 3 if self.rule.unread else 4] if self.is_beyond else ATTACKS)
        slots = {}
        for symbol in values:
            if symbol.slot in READ and symbol.frame == (self.first if symbol.slot == 1 else self.even):
                slots.setdefault(symbol.slot, {})[symbol.number] = symbol
        for slot, symbols in slots.items():
            if self.rule.unread and slot != 1:
                continue
            view, seen, flat = Slot(self.rule, self.described, slot), *np.zeros((2, self.rule.symbols, 72), complex)
            for l, symbol in symbols.items():
                seen[l], flat[l] = elements(values[symbol]) / PARTS, elements(self.flat(symbol)) / PARTS
            signs = np.sign(view.values(flat))
            weights = signs * view.chosen(attack, draw, signs * view.values(seen), flat, signs)
            if weights.any():
                yield view, weights, symbols, seen

    def sent(self, symbol, late=0):
        """Returns each port's samples of a symbol, with a delay."""
        first = LATEST + symbol.start - late
        return self.ports[:, first : first + 128]

    def flat(self, symbol):
        """Returns the received symbol with one gain for each port, in parts."""
        return self.gains @ self.sent(symbol)


# ---- kinds: the values of each symbol that is looked at, and the greatest energy of its errors


def by_one_gain(trial):
    squares = squares_of(trial.gains)
    limit = trial.kind.number * sum(squares)
    if trial.carrier in BY_FIRST:
        limit = min(limit, BY_FIRST[trial.carrier] * squares[0])
    return {s: trial.flat(s) for s in trial.symbols}, dict.fromkeys(trial.symbols, int(trial.times * limit))


def by_waveform(trial):
    """What the ports transmit before rounding, each times its gain. Values are rounded to parts, which takes less than a
    4,096th of the errors."""
    sent, squares = waveform.Sent(trial.cell, trial.carrier), squares_of(trial.gains)
    values, limits = {}, {}
    for s in trial.symbols:
        values[s] = np.round(trial.gains @ [port @ (1, 1j) / 2**17 for port in sent.ports(s)])
        signal, slot = waveform.SIGNAL_QUOTA * squares[0], trial.kind.number * sum(squares)
        is_signal, is_decoded = waveform.is_signal(trial.rule, s), waveform.is_decoded(trial.rule, trial.cell, s)
        limit = min(signal if is_signal else slot, slot if is_decoded else signal)
        limits[s] = int(trial.times * (limit * 4095 // 4096))
    return values, limits


def by_offset(trial):
    """Values are rounded to parts, which takes less than a 4,096th of the errors."""
    hertz = trial.times * trial.kind.number * trial.draw.choice([-1, 1])
    if not trial.is_beyond:
        hertz *= trial.draw.choice([1, trial.draw.random()])
    (square,) = squares_of(trial.gains)
    turns = {s: np.exp(2j * np.pi * hertz / 1.92e6 * np.arange(s.start, s.start + 128)) for s in trial.symbols}
    if trial.is_beyond:
        leak(trial, turns)
    found = {s: np.round(trial.flat(s) * turns[s]) for s in trial.symbols}
    return found, dict.fromkeys(trial.symbols, trial.kind.errors * square * 4095 // 4096)


def leak(trial, turns):
    """Puts elements in the cell's open resource elements that leak most against the attacked values."""
    rows = {}
    for view, weights, symbols, seen in trial.attacked({s: trial.flat(s) * turns[s] for s in trial.symbols}):
        slope = view.slope(seen, weights)
        for l, s in symbols.items():
            sfn = (trial.described["sfn"] + s.frame) % 1024
            rows[sfn, 7 * s.slot + l] = traffic_against(slope[l], turns[s], trial.gains[0] / PARTS)
    cell = {**trial.described, "load": trial.load or 0, "rows": rows}
    trial.ports = faithful.sent_by_second(trial.carrier, cell, Leaking)


class Cone(NamedTuple):
    """The sizes of further paths by delay, each times its number, are together at most `most` first gains."""

    most: int
    least: int
    slope: int
    first: int

    def weight(self, delay):
        return max(self.least, self.slope * delay + self.first)


def by_paths(trial):
    cone, draw = trial.kind.number, trial.draw
    delays = draw.sample(range(1, LATEST + 1), draw.choice([1, 1, 2, 3, 9]))
    if trial.is_beyond:
        delays = draw.choice([[1], [2], delays])
    shares = [draw.random() for _ in delays]
    (square,) = squares_of(trial.gains)
    further = []
    for delay, share in zip(delays, shares):
        size = trial.times * share / sum(shares) * cone.most / cone.weight(delay) * math.sqrt(square)
        turn = draw.choice(range(8)) / 8 if trial.is_beyond else draw.random()
        gain = size * np.exp(2j * np.pi * turn) * trial.gains[0] / abs(trial.gains[0])
        further.append(complex(math.trunc(gain.real), math.trunc(gain.imag)))
    roots = [math.isqrt(its << 40) + 1 for its in squares_of(further)]
    total = sum(cone.weight(delay) * its for delay, its in zip(delays, roots))
    assert trial.is_beyond or total <= cone.most * math.isqrt(square << 40)
    found = {s: trial.flat(s) for s in trial.symbols}
    for s, (delay, gain) in itertools.product(trial.symbols, zip(delays, further)):
        found[s] = found[s] + gain * trial.sent(s, delay)[0]
    return found, dict.fromkeys(trial.symbols, trial.kind.errors * square)


# ---- a gain for each symbol


def by_own_gains(trial):
    """Gains that turn, fade, wander, or step at the first reference symbol of a slot, as strongly as leaves a part of the
    share for errors, which take the rest."""
    draw, way = trial.draw, "step" if trial.is_beyond else trial.draw.choice(["turn", "fade", "wander", "step"])
    turns, fades = draw.choice([-0.15, 0.15]), np.exp(2j * np.pi * draw.random()) * draw.random()
    period, phase = draw.uniform(15, 100), 2 * np.pi * draw.random()
    wander = {s: complex(draw.gauss(0, 1), draw.gauss(0, 1)) for s in trial.symbols}
    step = -np.exp(draw.choice([-1, 1]) * 0.25j * np.pi)

    def gain(symbol, strength):
        time = symbol.start / trial.rule.step
        of = {
            "turn": np.exp(1j * strength * turns * time),
            "fade": np.exp(strength * fades * np.sin(2 * np.pi * time / period + phase)),
            "wander": 1 + strength * wander[symbol],
            "step": 1 + strength * step * (symbol.number == 0),
        }
        return np.round(trial.gains[0] * of[way])

    read = [symbol for symbol in trial.symbols if seen_through.is_read(symbol)]
    low, high, part = 0, 1, trial.times * (0.99 if trial.is_beyond else draw.uniform(0.2, 0.99))
    for _ in range(12):
        middle = (low + high) / 2
        most = max(group.silent() for group in seen_through.groups({s: gain(s, middle) for s in read}))
        low, high = (middle, high) if most <= part else (low, middle)
    gains, limits = {s: gain(s, low) for s in read}, {}
    for group in seen_through.groups(gains):
        limits.update(group.limits(trial.times))
    values = {s: gains[s] * trial.sent(s)[0] for s in read}
    return (values, limits) if min(squares_of(gains.values())) >= UNIT else None


class Kind(NamedTuple):
    """A carrier, what is done to what is sent, the kind's number, the energy of errors by the gain's square where that
    is another, and which plan is sent beyond the premise."""

    carrier: str
    through: Callable
    number: Any
    errors: int = 0
    hard: str = "one"


KINDS = {
    "quiet": Kind("one", by_one_gain, 1_024),
    **{carrier: Kind(carrier, by_one_gain, quota, hard=carrier) for carrier, quota in QUOTA.items()},
    **{
        f"near-{carrier}": Kind(carrier, by_waveform, waveform.SLOT_QUOTA[rule.ports], hard=carrier)
        for carrier, rule in ((carrier, RULES[faithful.WORDS[carrier]]) for carrier in QUOTA)
    },
    "channel": Kind("one", by_own_gains, 1),
    "offset30": Kind("one", by_offset, 30, 700),
    "offset60": Kind("one", by_offset, 60, 144),
    "paths-a": Kind("one", by_paths, Cone(6, 20, 3, 6), 64),
    "paths-b": Kind("one", by_paths, Cone(4, 20, 3, 1), 256),
    "paths-c": Kind("one", by_paths, Cone(1, 17, 2, 3), 1_024),
}
# plans that hardly can be resolved (python/lte_reference/punctured_table.py): cfi, blocks, mcs, column
HARD = {
    "one": [(2, 3, 11, 2)],
    "two": [(2, 3, 5, 2)],
    "long": [(2, 6, 4, 2)],
    "four": [(2, 6, 4, 2)],
}


# ---- what is described


def tried(name, seeds):
    """How many are not held, with a line for each."""
    lost = 0
    for seed in seeds:
        fault = Trial(name, seed).fault()
        lost += fault is not None
        if fault:
            print(f"{name} {seed}: not held: {fault}", flush=True)
    print(f"{name}: {len(seeds) - lost} of {len(seeds)} held", flush=True)
    return lost


def first_lost(name, count, counts):
    """Prints the seed that is lost at the minimum number, by faults that count, and returns its fault."""

    def lost(times):
        fault = Trial(name, seed, times).fault()
        return fault if fault and counts(fault) else None

    least, best, found = 1e3 if KINDS[name].through in (by_one_gain, by_waveform) else 8, None, None
    for seed in range(count):
        if lost(0.99 * least):
            low, high = 1, 0.99 * least
            while high > 1.005 * low:
                middle = math.sqrt(low * high)
                low, high = (low, middle) if lost(middle) else (middle, high)
            least, best, found = high, seed, lost(high)
    print(f"{name}: of {count} seeds {best} is lost first, at {least:.3f} times: {found}", flush=True)
    return found


def main():
    parser = Parser(__doc__)
    parser.add_argument("kinds", nargs="*", metavar="KIND")
    parser.add_argument("--count", type=int, default=200)
    parser.add_argument("--first", type=int, default=0)
    parser.add_argument("--times", type=float)
    parser.add_argument("--find", type=int)
    parser.add_argument("--save", type=pathlib.Path)
    args = parser.parse_args()
    lost = 0
    for name in args.kinds or KINDS:
        if args.find:
            first = first_lost(name, args.find, lambda fault: True)
            if first and first.startswith("cost"):
                first_lost(name, args.find, lambda fault: not fault.startswith("cost"))
        elif args.times or args.save:
            trial = Trial(name, args.first, args.times)
            print(f"{name} {args.first} at {args.times or 1} times: {trial.fault() or 'held'}")
            if args.save:
                args.save.write_bytes(trial.data())
        else:
            lost += tried(name, range(args.first, args.first + args.count))
    sys.exit(lost > 0)


if __name__ == "__main__":
    main()
