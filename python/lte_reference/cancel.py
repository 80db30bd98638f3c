#!/usr/bin/python3
"""python3 -m lte_reference.cancel < RECORDING

A second program for what `search --cancel` writes: the list of cells, and round after round the first listed cell whose
plan is known is cancelled, with the gain that leaves the least greatest component, and the list of the residue. The
list is that of search.py, what a cell sends that of cell.py, and which punctured blocks can be sent
that of erasure.py; nothing is shared with the repository's code.

    python3 -m lte_reference.cell < scripts/examples/plain_cell.json | python3 -m lte_reference.cancel

Debian: python3-numpy.
"""
import numpy as np

from .erasure import crc24a, resolves
from .cell import DURATIONS, RESOURCES, Frame
from .search import (
    FRAME,
    INTERLEAVER,
    Refused,
    added,
    control_groups,
    control_word,
    decoded,
    fields_lines,
    grant,
    indicator,
    list_lines,
    listed,
    pseudo_random,
    recording,
    shared_places,
    slot_values,
    turbo_reading,
    values_at,
    wave,
)


# ---- the plan of an entry


def is_text(block, size):
    try:
        return bool(fields_lines(block, size))
    except Refused:
        return False


def first_read(r, entry):
    """Indicator, 21 bits of control, and block of the first frame of even number that answers with fields."""
    start, cell, sfn, _, master = entry
    for j in range(sfn % 2, min(16, (len(r) - start) // FRAME), 2):
        frame = start + FRAME * j
        try:
            symbols = slot_values(r, frame, cell, 10) + slot_values(r, frame, cell, 11)
            cfi = indicator(symbols, cell)
            word = control_word(symbols, cell, control_groups(cell, cfi, master >> 20 & 1, master >> 18 & 3))
            first, count, size, rv = grant(word)
            places = shared_places(cell, cfi, first, count)
            values = values_at(symbols, places, pseudo_random(65_535 * 2**14 + 5 * 512 + cell, 2 * len(places)))
            block, _ = decoded(added(values, turbo_reading(size + 24, rv)), size)
            return cfi, word, block, fields_lines(block, size)
        except Refused:
            pass
    return None


def plan(r, entry):
    """The description of the entry's cell, as cell.py takes it, or nothing."""
    start, cell, sfn, ports, master = entry
    if ports != 1 or master >> 21:
        return None
    read = first_read(r, entry)
    if read is None:
        return None
    cfi, word, block, lines = read
    first, count, size, _ = grant(word)
    if " tdd - extension 0" not in lines.split("\n")[0]:
        return None
    used = next(n for n in range(size + 1) if is_text(block >> size - n, n))
    bits = [block >> size - 1 - i & 1 for i in range(used)] + [0] * (size - used)
    sent = 2 * len(shared_places(cell, cfi, first, count))
    if 3 * (size + 28) > sent:
        checked = bits + crc24a(bits)
        if not all(resolves(checked, (size + 24, *INTERLEAVER[size + 24]), rv, sent) for rv in range(4)):
            return None
    column = (word >> 1 & 1) + 2
    return {
        "identity": cell,
        "duration": DURATIONS[master >> 20 & 1],
        "resource": RESOURCES[master >> 18 & 3],
        "spare": master & 1023,
        "cfi": cfi,
        "start": first,
        "blocks": count,
        "mcs": word >> 9 & 31,
        "column": column,
        "gain": (1, 0),
        "sib1": None,
        "block": f"{int(''.join(map(str, bits)), 2):0{size // 4}x}",
    }


# ---- what is left of a recording


def sent_samples(description, count, start, sfn):
    offset, number = (FRAME - start) % FRAME, sfn if start == 0 else (sfn - 1) % 1024
    frames = [Frame(description, (number + j) % 1024).samples() for j in range(-(-(offset + count) // FRAME))]
    return np.concatenate(frames)[offset:][:count]


def estimate(r, n2, start):
    (re, im), (a, b) = wave(n2), r[start + 832 :][:128].T
    power = int((re * re + im * im).sum())
    return tuple((2 * int(z) + power) // (2 * power) for z in ((a * re + b * im).sum(), (b * re - a * im).sum()))


def left(r, sent, a, b):
    (x, y), (u, v) = r.T, sent.T
    return np.stack([x - a * u + b * v, y - a * v - b * u], 1)


def subtract(r, description, start, sfn):
    """Returns the gain, the maximum magnitude of a remaining component, and the residual, or nothing."""
    sent = sent_samples(description, len(r), start, sfn)
    p, q = estimate(r, description["identity"] % 3, start)
    gains = [
        (a, b)
        for a in range(p - 2, p + 3)
        for b in range(q - 2, q + 3)
        if 1 <= a * a + b * b <= 784 and (a - p) ** 2 + (b - q) ** 2 <= 4
    ]
    if not gains:
        return None
    greatest, a, b = min((int(abs(left(r, sent, a, b)).max()), a, b) for a, b in gains)
    return (a, b), greatest, np.clip(left(r, sent, a, b), -32_768, 32_767)


def power(r):
    return int((r * r).sum())


def rounds(r):
    found = listed(r)
    yield from list_lines(r, found)
    for _ in range(4):
        for entry in found:
            description = plan(r, entry)
            taken = description and subtract(r, description, entry[0], entry[2])
            if taken:
                break
        else:
            yield "cancelled none"
            return
        (a, b), greatest, rest = taken
        yield f"cancelled {entry[1]} gain {a} {b} residue {greatest}"
        yield f"power {power(r)} {power(rest)}"
        r, found = rest, listed(rest)
        yield from list_lines(r, found)


def main():
    for line in rounds(recording()):
        print(line)


if __name__ == "__main__":
    main()
