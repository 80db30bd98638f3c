"""Resource elements of subframe 5 at any bandwidth, with 1, 2 or 4 antenna ports (TS 36.211 sections 6.2.4, 6.4, 6.7.4,
6.8.5, 6.9.3 and 6.10.1.2; TS 36.213 section 9.1.1).

Written from the standard, with the shared blocks of `wide_grants.py`. An element is a pair of symbol, 0 to 13 in the
subframe, and subcarrier, from 0 for the lowest frequency. A group (REG) is a pair of symbol and first subcarrier.
"""
import functools
from typing import NamedTuple

from .search import block_order

WIDTHS = (6, 15, 25, 50, 75, 100)
SIXTHS = (1, 3, 6, 12)  # six times N_g, by resource
CANDIDATES = ((8, 0), (8, 8), (4, 0), (4, 4), (4, 8), (4, 12))  # level and first element, in order (own)


class Cell(NamedTuple):
    """Identity 0 to 503; 1, 2 or 4 ports; one of WIDTHS; whether PHICH is extended; code of its resource, 0 to 3."""

    identity: int
    ports: int
    blocks: int
    extended: bool = False
    resource: int = 2

    @property
    def subcarriers(self):
        return 12 * self.blocks


def reference_symbols(cell, slot, port):
    """Lists a port's symbols with reference signals in a slot, each with its first subcarrier."""
    if port < 2:
        shifts = (0, 3 * port), (4, 3 - 3 * port)
    else:
        shifts = ((1, 3 * (port - 2) + 3 * (slot % 2)),)
    return [(symbol, (shift + cell.identity) % 6) for symbol, shift in shifts]


# ---- c_init of the pseudo-random sequences (TS 36.211 sections 6.3.1, 6.7.1, 6.8.2 and 6.10.1.1)


def reference_init(cell, slot, symbol):
    return 2**10 * (7 * (slot + 1) + symbol + 1) * (2 * cell.identity + 1) + 2 * cell.identity + 1


def indicator_init(cell):
    return 6 * (2 * cell.identity + 1) * 2**9 + cell.identity


def control_init(cell):
    return 5 * 2**9 + cell.identity


def shared_init(cell):
    """Returns c_init of PDSCH with SI-RNTI."""
    return 0xFFFF * 2**14 + 5 * 2**9 + cell.identity


# ---- the control region


def region(cell, cfi):
    """Returns the number of control symbols (TS 36.212 section 5.3.4)."""
    return cfi + 1 if cell.blocks <= 10 else cfi


def span(cell, symbol):
    """Returns the number of subcarriers of a group: 6 with reference signals, else 4."""
    return 6 if symbol == 0 or symbol == 1 and cell.ports == 4 else 4


def symbol_groups(cell, symbol):
    return [(symbol, first) for first in range(0, cell.subcarriers, span(cell, symbol))]


def group_elements(cell, group):
    """Lists the four elements of a group; symbol 0 keeps elements of ports 0 and 1 free, whatever the port count."""
    symbol, first = group
    every = range(first, first + span(cell, symbol))
    return [(symbol, k) for k in every if len(every) == 4 or k % 3 != cell.identity % 3]


def indicator_groups(cell):
    """Lists the groups of PCFICH (TS 36.211 section 6.7.4)."""
    first = 6 * (cell.identity % (2 * cell.blocks))
    return [(0, (first + 6 * (cell.blocks * i // 2)) % cell.subcarriers) for i in range(4)]


def left_groups(cell, symbol):
    """Lists the groups of a symbol that PCFICH leaves, by frequency."""
    taken = indicator_groups(cell)
    return [group for group in symbol_groups(cell, symbol) if group not in taken]


def acknowledgement_count(cell):
    """Returns the number of PHICH groups (TS 36.211 section 6.9)."""
    return -(-SIXTHS[cell.resource] * cell.blocks // 48)


@functools.lru_cache(64)
def acknowledgement_groups(cell):
    """Lists the groups of PHICH, three for each PHICH group (TS 36.211 section 6.9.3)."""
    left = [left_groups(cell, symbol) for symbol in range(3)]
    found = []
    for m in range(acknowledgement_count(cell)):
        for i in range(3):
            own = left[i if cell.extended else 0]
            count = len(own)
            found.append(own[(cell.identity * count // len(left[0]) + m + i * count // 3) % count])
    return found


@functools.lru_cache(64)
def control_groups(cell, cfi):
    """Lists the groups that PCFICH and PHICH leave, by first subcarrier, then by symbol (TS 36.211 section 6.8.5)."""
    taken = set(indicator_groups(cell) + acknowledgement_groups(cell))
    every = [group for symbol in range(region(cell, cfi)) for group in symbol_groups(cell, symbol)]
    return sorted((group for group in every if group not in taken), key=lambda group: group[::-1])


def element_count(cell, cfi):
    """Returns the number of control channel elements."""
    return len(control_groups(cell, cfi)) // 9


@functools.lru_cache(64)
def quadruplet_groups(cell, cfi):
    """Lists the control groups in the order of the quadruplets that they carry."""
    groups = control_groups(cell, cfi)
    order = block_order(len(groups))
    carried = [order[(i + cell.identity) % len(groups)] for i in range(len(groups))]
    return [group for _, group in sorted(zip(carried, groups))]


def candidates(cell, cfi):
    """Lists the candidates of the common search space whose elements exist, each as level and first element."""
    return [(level, first) for level, first in CANDIDATES if first + level <= element_count(cell, cfi)]


def candidate_elements(cell, cfi, level, first):
    """Lists the 36 * level resource elements of a candidate, in the order of its points."""
    groups = quadruplet_groups(cell, cfi)[9 * first : 9 * (first + level)]
    return [element for group in groups for element in group_elements(cell, group)]


def indicator_elements(cell):
    return [element for group in indicator_groups(cell) for element in group_elements(cell, group)]


# ---- the shared channel


def reference_elements(cell):
    """Returns the elements of subframe 5 with reference signals of any port."""
    return {
        (7 * half + symbol, k)
        for half in (0, 1)
        for port in range(cell.ports)
        for symbol, first in reference_symbols(cell, 10 + half, port)
        for k in range(first, cell.subcarriers, 6)
    }


def is_synchronisation(cell, symbol, k):
    """Whether PSS or SSS takes an element, or the five reserved ones on either side (own: these are left out too)."""
    return symbol in (5, 6) and abs(2 * (k - 6 * cell.blocks) + 1) < 72


def shared_elements(cell, cfi, blocks):
    """Lists the elements of PDSCH for the resource blocks of both slots (TS 36.211 sections 6.3.5 and 6.4)."""
    taken = reference_elements(cell)
    return [
        (symbol, k)
        for symbol in range(region(cell, cfi), 14)
        for block in sorted(blocks[symbol // 7])
        for k in range(12 * block, 12 * block + 12)
        if (symbol, k) not in taken and not is_synchronisation(cell, symbol, k)
    ]
