"""Symbols that are received each with a gain of its own, for held.py: what errors a slot and the signals stand, in exact
numbers.

Let G be the least size of the gains of a slot's symbols that carry bits, rho how far the line through the gains of the
reference places is from the gain of such a symbol, by that gain's size, kap G the root of the mean square of the gains of
the reference places, and u units, each 64 G of what is seen, how far an element that is read may be off. Then the soft
values speak for their bits with size 1 and more where

    (128 kap + u)^2 / 12150 + 128 rho + (1 + rho) u + 1.0114 u + 0.0079 u^2 <= 90      (I)

and the secondary signal is known where, with rho how far its gain is from that of the primary one,

    (2 + rho) u + u^2 / 126.4 < 126.4 (1 - rho)
"""
import itertools
import math
from fractions import Fraction
from typing import NamedTuple

SENDING = Fraction(97, 16)  # units of a gain's size that an element may be off by what sending rounds
TRANSFORM = Fraction(16_385**2, 2**29)  # the square of units by the energy of errors
ROUNDING = 2**15  # the square of units, by that of G, that what is seen is rounded by
REFERENCES = (0, 4)  # the symbols of a slot that have them
READ = {1: range(4), 10: range(5), 11: range(7)}  # those whose places carry bits that are read, by slot
FAR = Fraction("126.4")  # the least size of a value of the primary signal
PRIMARY = 1_800  # the energy of the primary signal's errors by the square of its gain


def square(gain):
    return int(gain.real) ** 2 + int(gain.imag) ** 2


def root(number):
    """A little more than the root, in parts of 2^-20."""
    return Fraction(math.isqrt(int(number * 2**40)) + 1, 2**20)


def is_read(symbol):
    """Whether one of those that a list looks at is read."""
    return symbol.slot in (0, 11) or symbol.number <= 4 or symbol.slot == 10


class Group(NamedTuple):
    """Symbols that are read together, by their gains: of a slot, or the two signals."""

    gains: dict
    least: int  # the square of G
    rho: Fraction
    kap: Fraction  # of signals none

    def share(self, u):
        """Returns the used fraction of limit (I), or of the signals' limit."""
        rho, kap = self.rho, self.kap
        if kap is None:
            return ((2 + rho) * u + u**2 / FAR) / (FAR * (1 - rho)) if rho < 1 else Fraction(99)
        by_u = (1 + rho + Fraction("1.0114")) * u + Fraction("0.0079") * u**2
        return ((128 * kap + u) ** 2 / 12150 + 128 * rho + by_u) / 90

    def share_with(self, limits):
        """Returns the used fraction by the maximum error energy of each symbol."""
        return self.share(
            max(
                SENDING * root(Fraction(square(gain), self.least))
                + root(limits[symbol] * TRANSFORM / self.least)
                + root(Fraction(ROUNDING, self.least))
                for symbol, gain in self.gains.items()
            )
        )

    def silent(self):
        """The share without errors."""
        return self.share_with(dict.fromkeys(self.gains, 0))

    def limits(self, most):
        """Energies of errors by which this share is nearly used, where less is used without errors."""
        low, high = Fraction(0), Fraction(99)
        for _ in range(30):
            middle = (low + high) / 2
            low, high = (middle, high) if self.share(middle) <= most else (low, middle)
        found = {}
        for symbol, gain in self.gains.items():
            u = float(low) - 1e-5 - math.sqrt(ROUNDING / self.least) - SENDING * math.sqrt(square(gain) / self.least)
            found[symbol] = int(max(0, u) ** 2 * self.least / TRANSFORM)
            if self.kap is None and symbol.slot in (0, 10):
                found[symbol] = min(found[symbol], PRIMARY * square(gain))
        assert self.share_with(found) <= most
        return found


def of_slot(gains):
    """The symbols of a slot."""
    its = {symbol.number: gain for symbol, gain in gains.items()}
    (slot,) = {symbol.slot for symbol in gains}
    read, (first, second) = [its[l] for l in READ[slot]], (its[l] for l in REFERENCES)
    least = min(map(square, read))
    lines = (3 * first, 3 * second, 2 * first + second, first + 2 * second)
    away = max(Fraction(square(line - 3 * gain), 9 * square(gain)) for gain in read for line in lines)
    return Group(gains, least, root(away), root(Fraction(square(first) + square(second), 2 * least)))


def of_signals(gains):
    """Returns the SSS and the PSS; the PSS may be alone."""
    secondary, primary = [*gains.values()][0], [*gains.values()][-1]
    away = root(Fraction(square(secondary - primary), square(primary)))
    return Group(gains, min(map(square, gains.values())), away, None)


def groups(gains):
    """Returns the limits of the decoded symbols, by their gains."""
    found = []
    for key, symbols in itertools.groupby(gains, key=lambda s: (s.frame, s.slot, s.slot != 11 and s.number >= 5)):
        found.append((of_signals if key[2] else of_slot)({symbol: gains[symbol] for symbol in symbols}))
    return found
