"""Reception of a cell, part by part, as crates/clean_air/specs/Heard.antt defines it, in whole numbers: the values of
search.py are compared with the codewords of cell.py. A cell is a description as in cell.py, also with `ports`.
Debian: python3-numpy.
"""
from typing import NamedTuple, Optional

from .cell import DURATIONS, RESOURCES, block_word, convolutional, grant_word, indicator_bits, master_word
from .cell import turbo, version
from .evidence import measures
from .search import FRAME, PORTS, block_values, broadcast_values, candidate_values, control_groups, indicator_values
from .search import pseudo_random, ranked, subframe_values

NEAR = 9  # samples
LAST = 19_336  # the last sample at which a PSS detection may be
PRIMARY = {0: 832, 5: 10_432}  # the sample of a frame at which the primary signal of a half begins
MASKS = {ports: mask for mask, ports in PORTS.items()}


class Parts(NamedTuple):
    """Which parts of the premise hold; None where the receiver does not read subframe 5."""

    signals: bool
    identity: bool
    broadcast: bool
    indicator: Optional[bool] = None
    control: Optional[bool] = None
    block: Optional[bool] = None

    def is_master_heard(self):
        """Returns whether the receiver hears the master information block."""
        return self.signals and self.identity and self.broadcast

    def is_heard(self):
        """Returns whether the receiver hears the cell."""
        return all(part is not False for part in self)


def later(cell, samples):
    """Returns the description of a cell whose frames begin this many samples later in the recording."""
    frames, offset = divmod(cell["offset"] - samples, FRAME)
    return {**cell, "sfn": (cell["sfn"] + frames) % 1024, "offset": offset}


def start_of(cell):
    """Returns the sample at which the first whole frame begins."""
    return -cell["offset"] % FRAME


def number_at_start(cell):
    """Returns the frame number of the first whole frame."""
    return (cell["sfn"] + (cell["offset"] > 0)) % 1024


def primary_places(cell):
    """Returns the sample and the half of each primary signal that begins in the first two frames."""
    return [(FRAME * j + first - cell["offset"], half) for j in range(2) for half, first in PRIMARY.items()]


def last_place(cell):
    """Returns the sample and the half of the primary signal in the later half of the span."""
    return next((t, half) for t, half in primary_places(cell) if LAST - FRAME // 2 < t <= LAST)


# ---- up to the master information block


def stands_out(r, t, n2):
    """Returns whether the ratio at a sample is a quarter or more, and above the ratio at each other sample within 9."""
    c, e, power = measures(r, t, n2)
    if e == 0 or 1000 * c < 250 * e * power:
        return False
    near = (measures(r, u, n2) for u in range(max(0, t - NEAR), t + NEAR + 1) if u != t)
    return all(e_near == 0 or c_near * e < c * e_near for c_near, e_near, _ in near)


def signals(r, cell, rule):
    """Returns whether each PSS within 9 samples of the span is a unique maximum."""
    places = [t for t, _ in primary_places(cell) if rule.step - NEAR <= t <= LAST + NEAR]
    return all(stands_out(r, t, cell["identity"] % 3) for t in places)


def identity(r, cell, rule):
    """Returns whether the secondary signal in the later half gives the identity group and the half frame."""
    t, half = last_place(cell)
    n1, n2 = divmod(cell["identity"], 3)
    return ranked(r, t, n2, rule)[0][1:] == (half, n1)


def agree(values, bits):
    """Returns whether each value is positive for the bit 0 and negative for the bit 1."""
    return len(values) == len(bits) and all(value < 0 if bit else value > 0 for value, bit in zip(values, bits))


def broadcast(r, cell, rule):
    """Returns whether the values of PBCH in the first whole frame have the signs of the scrambled bits."""
    sfn, count = number_at_start(cell), 4 * rule.size
    word = master_word(cell, sfn, MASKS[cell["ports"]])
    sent = [a ^ b for a, b in zip(convolutional(word, count), pseudo_random(cell["identity"], count))]
    first = rule.size * (sfn % 4)
    return agree(broadcast_values(r, cell["identity"], start_of(cell), 0, rule), sent[first : first + rule.size])


# ---- system information


def system(r, cell, rule):
    """Returns whether the values of the indicator, of the control information and of the block have the signs of the
    bits, in the first whole frame of even number."""
    j = number_at_start(cell) % 2
    sfn, its = (number_at_start(cell) + j) % 1024, cell["identity"]
    symbols = subframe_values(r, start_of(cell) + FRAME * j, its, rule)
    phich = DURATIONS.index(cell["duration"]), RESOURCES.index(cell["resource"])
    candidate = candidate_values(symbols, its, control_groups(its, cell["cfi"], *phich))
    block = block_values(symbols, its, cell["cfi"], cell["start"], cell["blocks"], rule)
    return (
        agree(indicator_values(symbols, its), indicator_bits(cell["cfi"])),
        agree(candidate, convolutional(grant_word(cell, sfn), len(candidate))),
        agree(block, turbo(block_word(cell), version(sfn), len(block))),
    )


def parts(r, cell, rule):
    """Returns which parts hold for a cell in a recording with a receiver's rule."""
    reads_system = not rule.unread and cell["ports"] == rule.ports and not cell.get("width")
    found = signals(r, cell, rule), identity(r, cell, rule), broadcast(r, cell, rule)
    return Parts(*found, *(system(r, cell, rule) if reads_system else ()))


def best_parts(r, cell, rule):
    """Returns the parts that a cell meets if its frames begin up to 9 samples earlier or later, and how many samples
    later: where the primary signal of the later half stands out, otherwise where its ratio is greatest."""
    n2 = cell["identity"] % 3

    def ratio(shift):
        c, e, power = measures(r, last_place(later(cell, shift))[0], n2)
        return c / max(1, e * power)

    shifts = range(-NEAR, NEAR + 1)
    near = [s for s in shifts if stands_out(r, last_place(later(cell, s))[0], n2)] or [max(shifts, key=ratio)]
    found = [(parts(r, later(cell, shift), rule), shift) for shift in near]
    return max(found, key=lambda one: (one[0].is_heard(), one[0].is_master_heard(), sum(map(bool, one[0]))))
