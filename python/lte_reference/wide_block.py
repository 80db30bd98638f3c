"""SIB1 from subframe 5 of a cell of any bandwidth, with 1, 2 or 4 antenna ports: the control format indicator, the
candidates of the common search space with formats 1A and 1C, the transport block and its fields.

Written from the standard. From `search.py`: the minimum-cost word, CRCs, rate matching and the text of SIB1; from
`turbo.py`: the decoder.
"""
from typing import NamedTuple

import numpy as np

from . import turbo
from .search import INTERLEAVER, Refused, added, coded_reading, crc, fields_lines, least, turbo_reading
from .wide_grants import long_grant, long_size, number, short_grant, short_size
from .wide_places import candidate_elements, candidates, control_init, element_count, indicator_elements
from .wide_places import indicator_init, shared_elements, shared_init
from .wide_slots import slots_of, values_at

MOST_VALUES = 5_760  # of PDSCH, 24 blocks of 120 elements: at most 32 for one coded bit (own)
MOST_BITS = 1_000  # of a transport block that is decoded (own)


class Answer(NamedTuple):
    """The indicator, each grant with its candidate, the block's bits or None, and its lines or why there are none."""

    cfi: int
    grants: list
    block: list | None
    text: str


# ---- control


def indicator(cell, slots):
    """Returns the control format indicator with the minimum cost (TS 36.212 section 5.3.4)."""
    values = values_at(slots, indicator_elements(cell), indicator_init(cell))
    zero = [np.arange(32) % 3 == cfi - 1 for cfi in (1, 2, 3)]
    return 1 + int(np.argmin([abs(values[(values < 0) == bits]).sum() for bits in zero]))


def control_word(values, size):
    """Returns the bits that values carry for a format of this size, or None if their CRC fails with SI-RNTI."""
    _, word = least(added(values.tolist(), coded_reading(size + 16)))
    if crc(word >> 16, size) ^ 0xFFFF != word & 0xFFFF:
        return None
    return [word >> 16 >> size - 1 - i & 1 for i in range(size)]


def grants_of(cell, sfn, slots, cfi):
    """Lists the grants of all candidates, in order, each with the candidate's level and first element."""
    found = []
    for level, first in candidates(cell, cfi):
        elements = candidate_elements(cell, cfi, level, first)
        values = values_at(slots, elements, control_init(cell), 72 * first)
        for size, read in (
            (long_size(cell.blocks), lambda bits: long_grant(cell.blocks, bits)),
            (short_size(cell.blocks), lambda bits: short_grant(cell.blocks, bits, sfn)),
        ):
            word = control_word(values, size)
            grant = word and read(word)
            if grant:
                found.append(((level, first), grant))
    return found


# ---- the block


def block_sums(cell, slots, cfi, grant):
    """Returns the sums of the values of each coded bit of a grant's block, by position and stream."""
    elements = shared_elements(cell, cfi, grant.blocks)[: MOST_VALUES // 2]
    values = values_at(slots, elements, shared_init(cell))
    return added(values.tolist(), turbo_reading(grant.size + 24, grant.version))


def decoded(sums, size):
    """Returns the block's bits."""
    answer = turbo.decoded(list(zip(*sums)), size + 24, *INTERLEAVER[size + 24])
    if answer is None:
        raise Refused("not-decoded")
    return answer[1]


def block_of(cell, slots, cfi, grant):
    """Returns the bits of a grant's block and its lines."""
    if grant.size > MOST_BITS:
        raise Refused("block-too-large")
    block = decoded(block_sums(cell, slots, cfi, grant), grant.size)
    return block, fields_lines(number(block), grant.size)


def read_slots(cell, sfn, slots):
    """Returns the answer of subframe 5 by its received slots: the first grant with fields, else the first's reason."""
    cfi = indicator(cell, slots)
    grants, reasons = grants_of(cell, sfn, slots, cfi), []
    for _, grant in grants:
        try:
            return Answer(cfi, grants, *block_of(cell, slots, cfi, grant))
        except Refused as reason:
            reasons.append(f"sib1 none {reason}")
    count = element_count(cell, cfi)
    reasons.append("sib1 none no-control" if count >= 4 else f"sib1 none no-search-space {count}")
    return Answer(cfi, grants, None, reasons[0])


def read(recording, rate, cell, frame, sfn):
    """Returns the answer of subframe 5 in the frame of number `sfn` that begins at sample `frame` at 1.92 million per
    second, in a recording of 1.92 * 2^rate million."""
    return read_slots(cell, sfn, slots_of(recording, rate, cell, frame))
