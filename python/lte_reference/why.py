#!/usr/bin/python3
"""python3 -m lte_reference.why PCI [--ports 2 | --ports 4 | --prefix long] [--json] < RECORDING

A reference implementation of `lte_cli why`, written from docs/FORMATS.md and docs/DEFINITION.md: prints what that
prints. Hits, identities, values, words of minimum cost and the lists are those of search.py, which shares nothing with
the repository's code. Slow: seconds for each hit. Debian: python3-numpy.
"""
import json
import sys

from .evidence import measures
from .forms import NAMES
from .search import (
    FIRST,
    PORTS,
    RULES,
    added,
    broadcast_values,
    coded_reading,
    crc,
    hits,
    identity,
    least,
    listed,
    metrics,
    pseudo_random,
    ranked,
    recording,
)


def strongest(r, n2):
    """The first of the samples 128 to 19,345 with the maximum C / E; with no energy anywhere, the first of them."""
    energy, by_n2 = metrics(r[: 19_346 + 127])
    peak, best = by_n2[n2][1], 0
    for i in range(1, len(energy)):
        if energy[i] and (not energy[best] or peak[i] * energy[best] > peak[best] * energy[i]):
            best = i
    return FIRST + best


def ratio(r, t, n2):
    """C / (E P) in thousandths, rounded down; 0 without energy."""
    c, e, p = measures(r, t, n2)
    return 1000 * c // (e * p) if e else 0


def no_hit(r, n2):
    """Why there is no hit of N2: its sample of the maximum C / E, which has too little or is outside the span."""
    t = strongest(r, n2)
    share = ratio(r, t, n2)
    return {"rule": "no-hit" if share < 250 else "outside", "best": t, "ratio": share, "needs": 250}


def attempt(r, cell, start, phase, rule):
    """Minimum cost, total and port count (0: no MIB) of frame 0 alone, with this number modulo 4."""
    first = rule.size * phase
    values = broadcast_values(r, cell, start, 0, rule)
    plain = [-value if bit else value for value, bit in zip(values, pseudo_random(cell, 1920)[first:])]
    sums = added(plain, coded_reading(40), first)
    total, (cost, word) = sum(abs(value) for row in sums for value in row), least(sums)
    ports = PORTS.get(crc(word >> 16, 24) ^ word & 0xFFFF, 0) if word >> 37 <= 5 else 0
    return phase, cost, total, ports if 0 < total >= 4 * cost else 0


def closest(attempts):
    """The attempt with the minimum cost / total, the first of several."""
    best = attempts[0]
    for other in attempts[1:]:
        if other[1] * best[2] < best[1] * other[2]:
            best = other
    return best


def reason(r, t, n2, cell, rule):
    """The first rule that fails for the cell at a hit."""
    at = {"hit": t, "ratio": ratio(r, t, n2)}
    if t < rule.step:
        return {"rule": "no-room", **at, "needs": rule.step}
    rows = ranked(r, t, n2, rule)
    best, _, group = rows[0]
    if 3 * group + n2 != cell:
        own = next(score for score, _, n1 in rows if n1 == cell // 3)
        return {"rule": "other-identity", **at, "identity": 3 * group + n2, "score": best, "own": own}
    start = identity(r, t, n2, rule)[1]
    phase, cost, total, ports = closest([attempt(r, cell, start, phase, rule) for phase in range(4)])
    failed = "ports" if ports else "crc" if 0 < total >= 4 * cost else "cost"
    return {"rule": failed, **at, "at": start, "phase": phase, "cost": cost, "total": total, "ports": ports}


def why(r, cell, rule):
    """The entries of the list with this identity; if there are none, why."""
    found = [entry for entry in listed(r, rule) if entry[1] == cell]
    if found:
        return [{"rule": "listed", "at": at, "sfn": sfn, "ports": ports} for at, _, sfn, ports, _ in found]
    at = [(t, n2) for t, n2 in hits(r) if n2 == cell % 3]
    return [reason(r, t, n2, cell, rule) for t, n2 in at] or [no_hit(r, cell % 3)]


def line(row):
    return " ".join([row["rule"], *(f"{name} {value}" for name, value in row.items() if name != "rule")])


def lines(r, cell, words):
    reasons = why(r, cell, RULES[words])
    return "\n".join([f"why {cell} {NAMES[words]} {len(reasons)}", *map(line, reasons)])


def as_json(r, cell, words):
    answer = {"identity": cell, "list": NAMES[words], "reasons": why(r, cell, RULES[words])}
    return json.dumps(answer, separators=(",", ":"), sort_keys=True)


if __name__ == "__main__":
    args, form = sys.argv[1:], lines
    if args[-1:] == ["--json"]:
        args, form = args[:-1], as_json
    pci, named = args[:1], tuple(args[1:])
    if not pci or not pci[0].isdecimal() or str(int(pci[0])) != pci[0] or int(pci[0]) > 503 or named not in RULES:
        sys.exit(__doc__)
    print(form(recording(), int(pci[0]), named))
