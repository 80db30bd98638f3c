"""python3 -m lte_reference.wide_rows TOPIC [--each]

Prints rows with the reference implementation's places, grants and soft values, for each bandwidth and port count, as
tests compare them: counts, and checksums over 24 cells. With --each a row is printed for each cell.

A checksum of whole numbers is h = (31 h + x + 2^26) mod 4,294,967,291, from 0 on. An element or group counts as
1,200 * symbol + subcarrier. Cell i of 24 has identity 21 i + i mod 3, an extended PHICH if i mod 4 = 3, resource i / 4
mod 4, and the indicator 1 + i mod 3, or 3 if PHICH is extended.
"""
import argparse
import functools

import numpy as np

from .wide_grants import distributed, long_grant, long_size, physical, short_grant, short_size, virtual_count
from .wide_places import WIDTHS, Cell, acknowledgement_groups, candidate_elements, candidates, control_groups
from .wide_places import control_init, indicator_elements, indicator_init, quadruplet_groups, reference_init
from .wide_places import shared_elements, shared_init
from .wide_slots import Slot, halved, seen, values_at

PORTS = (1, 2, 4)
CELLS = 24
MODULUS = 4_294_967_291


def checksum(values, start=0):
    return functools.reduce(lambda h, x: (31 * h + int(x) + 2**26) % MODULUS, values, start)


def numbers(elements):
    return [1200 * symbol + k for symbol, k in elements]


def cells(blocks, ports):
    """Lists the 24 cells of a bandwidth and port count, each with its indicator."""
    found = []
    for i in range(CELLS):
        extended = i % 4 == 3
        cell = Cell(21 * i + i % 3, ports, blocks, extended, i // 4 % 4)
        found.append((cell, 3 if extended else 1 + i % 3))
    return found


# ---- places


def control_lists(cell, cfi):
    """Lists PCFICH's elements, PHICH's groups, the control groups, those of the quadruplets, and the candidates'
    elements, as numbers."""
    of_candidates = [
        number for each in candidates(cell, cfi) for number in numbers(candidate_elements(cell, cfi, *each))
    ]
    return [
        numbers(indicator_elements(cell)),
        numbers(acknowledgement_groups(cell)),
        numbers(control_groups(cell, cfi)),
        numbers(quadruplet_groups(cell, cfi)),
        of_candidates,
    ]


def assigned(cell, cfi):
    """Returns the blocks of both slots for a trial: localized in every other cell, else distributed."""
    n = cell.blocks
    if cell.identity % 2:
        start, length = cell.identity % n, 1 + cell.identity % 7
        return (tuple(range(start, min(start + length, n))),) * 2
    second = n >= 50 and cfi == 2
    total = virtual_count(n, second)
    start, length = cell.identity % total, 1 + cell.identity % 7
    return distributed(n, second, start, min(length, total - start))


def shared_lists(cell, cfi):
    blocks = assigned(cell, cfi)
    whole = tuple(range(cell.blocks))
    return [numbers(shared_elements(cell, cfi, blocks)), numbers(shared_elements(cell, cfi, (whole, whole)))]


def rows_of_lists(lists_of, is_each):
    """Prints for each bandwidth and port count, or each cell, the total length and the checksum of each list."""
    for blocks in WIDTHS:
        for ports in PORTS:
            every = [(cell, lists_of(cell, cfi)) for cell, cfi in cells(blocks, ports)]
            groups = [[row] for row in every] if is_each else [every]
            for group in groups:
                counts = [sum(map(len, column)) for column in zip(*(lists for _, lists in group))]
                sums = [checksum(x for each in column for x in each) for column in zip(*(lists for _, lists in group))]
                name = f"{blocks}, {ports}" + (f", {group[0][0].identity}" if is_each else "")
                print(f"({name}, {counts}, {sums}),")


def whole_rows():
    """Prints N, P and identity of a cell with indicator 2; PCFICH's elements, PHICH's first three groups, the groups of
    quadruplets 0 to 8, and the first twelve elements of the first candidate."""
    for blocks in WIDTHS:
        for ports in PORTS:
            cell, cfi = cells(blocks, ports)[13]
            lists = control_lists(cell, cfi)
            cut = [part[:count] for part, count in zip(lists, (16, 3, 0, 9, 12)) if count]
            print(f"({blocks}, {ports}, {cell.identity}, {', '.join(map(str, cut))}),")


def init_rows(is_each):
    """Prints c_init of PCFICH, PDCCH and PDSCH, and of the reference signals in symbols 0, 1 and 4 of slots 10 and 11:
    for each identity with `is_each`, else the checksum over all."""
    total = 0
    for cell, _ in cells(6, 1):
        row = [indicator_init(cell), control_init(cell), shared_init(cell)]
        row += [reference_init(cell, slot, symbol) for slot in (10, 11) for symbol in (0, 1, 4)]
        total = checksum(row, total)
        if is_each:
            print(f"({cell.identity}, {row}),")
    if not is_each:
        print(f"({CELLS}, {total}),")


def distributed_rows():
    """Prints N, gap number, slot and the block of each virtual block."""
    for blocks in WIDTHS:
        for second in (False, True)[: 1 + (blocks >= 50)]:
            for odd in (False, True):
                row = [physical(blocks, second, odd, v) for v in range(virtual_count(blocks, second))]
                print(f"({blocks}, {int(second)}, {int(odd)}, {row}),")


# ---- grants


def drawn(seed):
    """Yields numbers of 15 bits: x = (1,103,515,245 x + 12,345) mod 2^31, divided by 65,536."""
    while True:
        seed = (seed * 1_103_515_245 + 12_345) % 2**31
        yield seed >> 16


def grant_numbers(grant):
    """Returns a grant as numbers: its size, version, and the blocks of both slots with their counts."""
    if grant is None:
        return [0]
    return [grant.size, grant.version] + [x for blocks in grant.blocks for x in [len(blocks), *blocks]]


def grant_rows():
    """Prints N, format, bits, how many of 2,000 words are grants, and the checksum of all; bit i of word w is the
    lowest bit of draw w * bits + i from seed N, and the frame number is 2 w."""
    for blocks in WIDTHS:
        for form, size in (("1A", long_size(blocks)), ("1C", short_size(blocks))):
            draw, found = drawn(blocks), []
            for w in range(2_000):
                bits = [next(draw) & 1 for _ in range(size)]
                grant = long_grant(blocks, bits) if form == "1A" else short_grant(blocks, bits, 2 * w)
                found.append(grant_numbers(grant))
            accepted = sum(row != [0] for row in found)
            print(f"({blocks}, {form}, {size}, {accepted}, {checksum(x for row in found for x in row)}),")


# ---- what is seen


def symbols_of(rate, seed, count):
    """Returns symbols of drawn samples, components from -2,000 to 2,000, in order re, im, sample, symbol."""
    draw = drawn(seed)
    size = 128 << rate
    return np.array([next(draw) % 4_001 - 2_000 for _ in range(2 * size * count)]).reshape(count, size, 2)


def rate_of(blocks):
    return {6: 0, 15: 1, 25: 2, 50: 3, 75: 3, 100: 4}[blocks]


def slots_for(cell):
    """Returns both slots of subframe 5 as seen of drawn samples."""
    values = seen(rate_of(cell.blocks), symbols_of(rate_of(cell.blocks), 7, 14), cell.blocks)
    return [Slot(cell, 10 + half, values[:, 7 * half : 7 * half + 7]) for half in (0, 1)]


def slot_rows():
    """Prints N, P and identity; the checksum of the seen values of both slots; for each slot the energy and the
    checksum of its channels, port by port."""
    for blocks in WIDTHS:
        for ports in PORTS:
            for cell, _ in cells(blocks, ports)[5::9]:
                slots, row = slots_for(cell), []
                every = [x for slot in slots for x in np.moveaxis(slot.values, 0, -1).ravel()]
                for slot in slots:
                    row += [slot.energy, checksum(x for port in slot.channels for x in port.T.ravel())]
                print(f"({blocks}, {ports}, {cell.identity}, {checksum(every)}, {row}),")


def value_row(cell, cfi):
    """Returns checksums of the values of PCFICH, of the first candidate with elements 0 to 3, and of a shared
    assignment, by the bits before scrambling; 0 without such a candidate."""
    slots = slots_for(cell)
    row = [checksum(values_at(slots, indicator_elements(cell), indicator_init(cell)))]
    candidate = candidate_elements(cell, cfi, 4, 0)
    row += [checksum(values_at(slots, candidate, control_init(cell))) if (4, 0) in candidates(cell, cfi) else 0]
    shared = shared_elements(cell, cfi, assigned(cell, cfi))
    return row + [checksum(values_at(slots, shared, shared_init(cell)))]


def value_rows(is_each):
    """Prints N and P, and for twelve of their cells the checksums of values: for each cell with `is_each`, else the
    checksums over all twelve."""
    for blocks in WIDTHS:
        for ports in PORTS:
            found = [(cell.identity, value_row(cell, cfi)) for cell, cfi in cells(blocks, ports)[1::2]]
            if is_each:
                for identity, row in found:
                    print(f"({blocks}, {ports}, {identity}, {row}),")
            else:
                print(f"({blocks}, {ports}, {[checksum(column) for column in zip(*(row for _, row in found))]}),")


def halving_rows():
    """Prints the first eight samples and the checksum of 4,096 drawn samples, halved once to four times."""
    samples = symbols_of(4, 9, 2).reshape(-1, 2)
    for times in range(1, 5):
        samples = halved(samples)
        print(f"({times}, {samples[:8].tolist()}, {checksum(samples.ravel())}),")


TOPICS = {
    "control": lambda is_each: rows_of_lists(control_lists, is_each),
    "shared": lambda is_each: rows_of_lists(shared_lists, is_each),
    "whole": lambda _: whole_rows(),
    "inits": init_rows,
    "distributed": lambda _: distributed_rows(),
    "grants": lambda _: grant_rows(),
    "halving": lambda _: halving_rows(),
    "slots": lambda _: slot_rows(),
    "values": value_rows,
}


def main():
    words = argparse.ArgumentParser(usage=__doc__)
    words.add_argument("topic", choices=TOPICS)
    words.add_argument("--each", action="store_true")
    args = words.parse_args()
    TOPICS[args.topic](args.each)


if __name__ == "__main__":
    main()
