#!/usr/bin/python3
"""python3 -m lte_reference.pairs [--ports 4]

The values of pairs of places with two antenna ports, or with four (TS 36.211 section 6.3.4.3, the receivers of
docs/DEFINITION.md), of a slot whose seen values are made by a rule: at symbol l and subcarrier k of slot 10 of identity
271, 64 * ((7l + 3k) mod 41 - 20) and 64 * ((5l + 11k) mod 37 - 18). Prints l, k and the values of a pair at k and the
next subcarrier; the lines are pairs number 0, 1 and so on. It shares the sequences with search.py and no code
with the program. The numbers stand in crates/list_tests/src/two_antenna_ports.rt and four_antenna_ports.rt.

    python3 -m lte_reference.pairs

Debian: python3-numpy.
"""
import sys

from .search import reference, times_conjugate

IDENTITY, SLOT = 271, 10


def seen(l, k):
    return 64 * ((7 * l + 3 * k) % 41 - 20), 64 * ((5 * l + 11 * k) % 37 - 18)


def places(port):
    """By subcarrier: port 0 has v = 0 in symbol 0 and 3 in symbol 4, port 1 the reverse; ports 2 and 3 stand in symbol 1
    alone, with v = 0 and 3 in a slot of even number, 3 and 0 in one of odd number."""
    if port >= 2:
        v = 3 * ((port + SLOT) % 2)
        return [(1, k) for k in range((IDENTITY + v) % 6, 72, 6)]
    of_symbol = {l: (IDENTITY + (0 if (l == 0) == (port == 0) else 3)) % 6 for l in (0, 4)}
    return [(0 if k % 6 == of_symbol[0] else 4, k) for k in range(IDENTITY % 3, 72, 3)]


def pilots(port):
    """Returns the received values of these resource elements, and the pilots."""
    sent = {l: reference(IDENTITY, SLOT, l) for l in (0, 1, 4)}
    at = [seen(l, k) for l, k in places(port)]
    return at, [times_conjugate(x, sent[l][k // 6]) for x, (l, k) in zip(at, places(port))]


def channel(port, k):
    """As many times the line through the pilots as there are subcarriers from one to the next."""
    _, of = pilots(port)
    standing = [subcarrier for _, subcarrier in places(port)]
    step = standing[1] - standing[0]
    if k < standing[0]:
        return tuple(step * x for x in of[0])
    if k >= standing[-1]:
        return tuple(step * x for x in of[-1])
    i, r = divmod(k - standing[0], step)
    return tuple((step - r) * x + r * y for x, y in zip(of[i], of[i + 1]))


def times(a, b):
    return a[0] * b[0] - a[1] * b[1], a[0] * b[1] + a[1] * b[0]


def conjugate(a):
    return a[0], -a[1]


def value(component, energy):
    if energy == 0:
        return 0
    size = min(6 * abs(component) // energy, 127)
    return size if component >= 0 else -size


def values(h, g, energy, a, b):
    """The values of both points, by the channels of the two ports that send them."""
    x = [p + q for p, q in zip(times(conjugate(h), a), times(g, conjugate(b)))]
    y = [p - q for p, q in zip(times(conjugate(h), b), times(g, conjugate(a)))]
    return [value(z, energy) for z in x + y]


def energy_at(*ports):
    return sum(x * x for port in ports for place in pilots(port)[0] for x in place)


def of_two(_, k, a, b):
    return values(channel(0, k), channel(1, k), energy_at(0, 1), a, b)


def of_four(number, k, a, b):
    """Over ports 0 and 2 where the number is even, else over 1 and 3; all channels six times."""
    lower, upper = number % 2, number % 2 + 2
    twice = tuple(2 * x for x in channel(lower, k))
    return values(twice, channel(upper, k), energy_at(0, 1) + 2 * energy_at(2, 3), a, b)


def main():
    rows, row_values = ((1, 0), (2, 1), (3, 2), (6, 35), (5, 70), (2, 71)), of_two
    if sys.argv[1:] == ["--ports", "4"]:
        rows += ((1, 4), (3, 0), (0, 5), (4, 66), (4, 67), (6, 68))
        row_values = of_four
    for number, (l, k) in enumerate(rows):
        print(l, k, row_values(number, k, seen(l, k), seen(l, (k + 1) % 72)))


if __name__ == "__main__":
    main()
