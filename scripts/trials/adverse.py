"""Errors, and traffic, that lie as badly as possible for soft values (docs/DEFINITION.md, rules 5 to 8 and those of other
carriers), for held.py. Values are made here by floating point, without their last division. Debian: python3-numpy.
"""
import numpy as np

from lte_reference.cell import Frame
from lte_reference.search import FREQUENCY, TAPS, channel, coded_reading, reference, reference_places, shared_places

TURNS = np.exp(2j * np.pi * np.outer(FREQUENCY, np.arange(128)) / 128)  # of each subcarrier, by sample
ATTACKS = ("value", "bit", "word", "block")
MOST = 256  # size of an element of traffic


def elements(samples):
    """Returns the value of each subcarrier of 128 samples."""
    return samples @ TURNS.conj().T / 128


def broadcast_places(rule, plan):
    places = [(l, k) for l in range(4) for k in range(72)]
    return [(l, k) for l, k in places if l not in rule.beside or (k - plan["identity"]) % 3]


def block_places(rule, plan, slot):
    shared = shared_places(*(plan[key] for key in ("identity", "cfi", "start", "blocks")), rule)
    return [(l % 7, k) for l, k in shared if l // 7 == slot - 10]


class Slot:
    """The places of a slot that carry the broadcast channel or SIB1, and of each antenna port the symbols, subcarriers
    and values of its reference signals, and the line through its pilots."""

    def __init__(self, rule, plan, slot):
        self.rule, self.plan, self.slot = rule, plan, slot
        self.rows, self.columns = np.array(
            broadcast_places(rule, plan) if slot == 1 else block_places(rule, plan, slot)
        ).T
        self.ports = []
        for port in range(rule.ports):
            at = reference_places(plan["identity"], slot, port, rule)
            sent = np.array([complex(*reference(plan["identity"], slot, l, rule.n_cp)[k // 6]) for l, k in at])
            units = [[(float(i == j), 0.0) for j in range(len(at))] for i in range(len(at))]
            line = np.array([[channel(unit, at[0][1], k)[0] for unit in units] for k in range(72)]) * len(at) / 72
            self.ports.append((*np.array(at).T, sent / abs(sent), line))

    def values(self, seen):
        """Returns two values per resource element of symbols of 72 elements; further dimensions may precede these."""
        lines = [(seen[..., rows, columns] * sent.conj()) @ line.T for rows, columns, sent, line in self.ports]
        there = seen[..., self.rows, self.columns]
        if len(lines) == 1:
            points = there * lines[0][..., self.columns].conj()
        else:
            a, b, at = there[..., 0::2], there[..., 1::2], self.columns[0::2]
            further = len(lines) // 2
            way = np.arange(len(at)) % further  # of four ports pairs take turns
            h, g = (np.stack([lines[way[i] + port][..., k] for i, k in enumerate(at)], -1) for port in (0, further))
            points = np.stack([h.conj() * a + g * b.conj(), h.conj() * b - g * a.conj()], -1).reshape(there.shape)
        return np.stack([points.real, points.imag], -1)

    def chosen(self, attack, draw, rest, flat, signs):
        """Which values are attacked, by what they are: one; those of a coded bit of the broadcast channel, or of all of
        those that a bit of its word turns; those of SIB1 that fall where neighbouring pilots are turned."""
        if attack == "value":
            return rest == rest.min()
        if (attack == "block") == (self.slot == 1):
            return np.zeros(rest.shape, bool)
        if attack == "block":
            _, columns, *_ = self.ports[0]
            within = np.flatnonzero((columns >= self.columns.min()) & (columns <= self.columns.max()))
            return self.falling(flat, signs, draw.choice(within), draw.randint(1, 4), draw.choice([-0.3, 0.3]))
        first = self.rule.size * (self.plan["sfn"] + (self.plan["offset"] > 0))
        numbers = (first + np.arange(rest.size).reshape(rest.shape)) % 120
        if attack == "bit":
            return numbers == draw.choice([numbers.flat[rest.argmin()], draw.randrange(120)])
        bit = draw.randrange(40)
        own = {((bit + tap) % 40, stream) for stream, taps in enumerate(TAPS) for tap in taps}
        return np.isin(numbers, [i for i, at in enumerate(coded_reading(40)) if at in own])

    def falling(self, seen, signs, first, count, angle):
        """Returns the values that fall most if this number of pilots of each lower port is turned."""
        turned = seen.copy()
        for rows, columns, *_ in self.ports[:2]:
            turned[rows[first:][:count], columns[first:][:count]] *= np.exp(1j * angle)
        fall = signs * (self.values(turned) - self.values(seen))
        return fall < 0.8 * fall.min()

    def slope(self, seen, weights):
        """How the weighed sum of values grows with each element, of which it is a linear function by itself."""
        used = weights.any(1).reshape(-1, min(len(self.ports), 2)).any(1).repeat(min(len(self.ports), 2))
        at = {(l, k) for rows, columns, *_ in self.ports for l, k in zip(rows, columns)}
        rows, columns = np.array(sorted(at | set(zip(self.rows[used], self.columns[used])))).T
        found, now = np.zeros(seen.shape, complex), (weights * self.values(seen)).sum()
        for unit in (1, 1j):
            moved = np.repeat(seen[None], len(rows), 0)
            moved[np.arange(len(rows)), rows, columns] += unit
            found[rows, columns] += unit * ((weights * self.values(moved)).sum((-2, -1)) - now)
        return found

    def against(self, seen, weights, sizes):
        """Errors of the elements, in each symbol of this size, that bring down the weighed sum of values: each symbol's
        are the worst by those of the others, again and again."""
        errors = np.zeros(seen.shape, complex)
        for _ in range(6):
            slope = self.slope(seen + errors, weights)
            norms = np.sqrt((abs(slope) ** 2).sum(1))
            errors = -slope * np.where(norms > 1e-6 * norms.max(), sizes / np.maximum(norms, 1e-30), 0)[:, None]
        return errors


class Leaking(Frame):
    """A frame of a description with `rows`: by frame number and symbol 72 elements, sent where that is open."""

    def load(self, number):
        super().load(number)
        is_open = self.open_places()
        for (sfn, row), its in self.cell["rows"].items():
            if sfn == self.sfn:
                self.grid[row][is_open[row]] = its[is_open[row]]


def traffic_against(slopes, turned, gain):
    """The elements that leak most against a sum of values, by its slope at what is seen of a symbol, how the symbol's
    samples are turned, and the gain."""
    leaks = TURNS.conj() @ (turned[:, None] * TURNS.T) / 128  # seen at a subcarrier of each other's element
    worst = -(leaks * gain).conj().T @ slopes
    sent = MOST * worst / np.maximum(abs(worst), 1e-30)
    return np.trunc(np.stack([sent.real, sent.imag], 1)).astype(np.int64)
