"""Whether the words that a cell sends are the nearest ones to the soft values at each of its PSS detections, as
crates/clean_air/specs/Nearest.antt defines it, in whole numbers. A cell is a description as in cell.py, also with
`ports`. Debian: python3-numpy.
"""
from typing import Optional

from .cell import DURATIONS, RESOURCES, block_word, constituent, convolutional, grant_word, indicator_bits, master_word
from .cell import version
from .heard import MASKS, NEAR, later, number_at_start, start_of
from .search import FRAME, INTERLEAVER, added, block_values, broadcast_values, candidate_values, coded_reading
from .search import control_groups, extrinsics, hits, identity, indicator_values, pseudo_random, subframe_values
from .search import turbo_reading

DISTANCE = 15  # coded bits in which two words of at least 22 bits differ
MOST = 500  # the largest margin of a transport block
FAR = 24  # samples


def towards(value, bit):
    """Returns a value in the direction of a bit: positive values are for the bit 0."""
    return -value if bit else value


def room(sums, word):
    """Returns the total of the 15 smallest sums, each in the direction of the word's coded bit. The sums fall short of
    some level by less than 15 times the level exactly if this is above 0."""
    count = len(word)
    bits = convolutional(word, 3 * count)
    values = [towards(sums[k][t], bit) for (k, t), bit in zip(coded_reading(count), bits)]
    return sum(sorted(values)[:DISTANCE])


def shortfall(sums, word, level):
    """Returns by how much the sums fall short of a level in all, in the direction of the word's coded bits."""
    bits = convolutional(word, 3 * len(word))
    return sum(max(0, level - towards(sums[k][t], bit)) for (k, t), bit in zip(coded_reading(len(word)), bits))


def block_margin(sums, word):
    """Returns by how much the first constituent decoder prefers a transport block to every other, at most 500, less the
    magnitudes of the second decoder's parity and tail values that contradict the block; 0 if a systematic bit's sum
    contradicts the block by more than three margins."""
    k, tail = len(word), [value for row in sums[len(word) :] for value in row]
    own, first, second = zip(*sums[:k])
    found = extrinsics(list(own), list(first), tail[:6], [0] * k)
    margin = min(MOST, *(towards(e + value, bit) for e, value, bit in zip(found, own, word)))
    if any(towards(value, bit) < -3 * margin for value, bit in zip(own, word)):
        return 0
    f1, f2 = INTERLEAVER[k]
    bits, ends = constituent([word[(f1 * i + f2 * i * i) % k] for i in range(k)])
    values = zip([*second, *tail[6:]], bits + ends)
    return margin + sum(min(0, towards(value, bit)) for value, bit in values)


def master(r, cell, rule):
    """Returns the room of the MIB in the first complete frame."""
    sfn, start, its = number_at_start(cell), start_of(cell), cell["identity"]
    scrambling = pseudo_random(its, 4 * rule.size)[rule.size * (sfn % 4) :][: rule.size]
    values = [-v if bit else v for v, bit in zip(broadcast_values(r, its, start, 0, rule), scrambling)]
    return room(added(values, coded_reading(40), rule.size * (sfn % 4)), master_word(cell, sfn, MASKS[cell["ports"]]))


def system(r, cell, rule):
    """Returns whether the indicator, the grant and the transport block are nearest in the first even-numbered frame."""
    j = number_at_start(cell) % 2
    sfn, its = (number_at_start(cell) + j) % 1024, cell["identity"]
    symbols = subframe_values(r, start_of(cell) + FRAME * j, its, rule)
    values = indicator_values(symbols, its)
    costs = {c: -sum(min(0, towards(v, b)) for v, b in zip(values, indicator_bits(c))) for c in (1, 2, 3)}
    phich = DURATIONS.index(cell["duration"]), RESOURCES.index(cell["resource"])
    candidate = candidate_values(symbols, its, control_groups(its, cell["cfi"], *phich))
    block = block_values(symbols, its, cell["cfi"], cell["start"], cell["blocks"], rule)
    word = block_word(cell)
    return (
        min((1, 2, 3), key=costs.get) == cell["cfi"]
        and room(added(candidate, coded_reading(37)), grant_word(cell, sfn)) > 0
        and block_margin(added(block, turbo_reading(len(word), version(sfn))), word) > 0
    )


def detected(r, cell, rule):
    """Returns, for each PSS detection that gives the cell, how many samples later than described its frames begin."""
    found = set()
    for t, n2 in hits(r):
        its, start = identity(r, t, n2, rule) if t >= rule.step and n2 == cell["identity"] % 3 else (None, 0)
        shift = (start - start_of(cell) + FRAME // 2) % FRAME - FRAME // 2
        if its == cell["identity"] and abs(shift) <= FAR:
            found.add(shift)
    return sorted(found)


def at_each(shifts, is_met):
    """Returns the shifts for which a condition is met, also at every other shift at most 9 samples from it."""
    met = {shift: is_met(shift) for shift in shifts}
    return [shift for shift in shifts if all(met[near] for near in shifts if abs(near - shift) <= NEAR)]


def nearest(r, cell, rule) -> tuple[list[int], Optional[list[int]]]:
    """Returns the shifts at which the MIB is nearest at each detection, and those at which the complete cell is; none
    where the receiver does not read subframe 5."""
    shifts = detected(r, cell, rule)
    masters = at_each(shifts, lambda shift: master(r, later(cell, shift), rule) > 0)
    if rule.unread or cell["ports"] != rule.ports or cell.get("width"):
        return masters, None
    systems = at_each(shifts, lambda shift: system(r, later(cell, shift), rule))
    return masters, [shift for shift in masters if shift in systems]
