"""SIB1 of a cell of any bandwidth from the frames of a recording: one frame after the other, then frames of one period
of 80 ms together, whose values of each coded bit are added (TS 36.331 section 5.2.1.2; the receiver is own)."""
from typing import NamedTuple

import numpy as np

from .search import FRAME, Refused, fields_lines
from .wide_block import MOST_BITS, Answer, block_sums, decoded, read_slots
from .wide_grants import number
from .wide_slots import slots_of

MOST_SUM = 4_096  # of a coded bit, as the decoder takes it (own)


class Try(NamedTuple):
    """A frame's period of 80 ms, both slots of its subframe 5, and their result."""

    period: int
    slots: list
    answer: Answer


def tries(recording, rate, cell, start, sfn):
    """Yields the frames that are tried: even-numbered ones of the first 16 that are complete."""
    frames = min(16, ((len(recording) >> rate) - start) // FRAME)
    for j in range(sfn % 2, frames, 2):
        slots = slots_of(recording, rate, cell, start + FRAME * j)
        yield Try((sfn + j) // 8, slots, read_slots(cell, (sfn + j) % 1024, slots))


def is_alike(one, other):
    """Whether two grants agree in mapping, run of virtual blocks, and size."""
    return (one.mapping, one.run, one.size) == (other.mapping, other.run, other.size)


class Found(NamedTuple):
    """Where SIB1 is read, its lines or why there are none, and the bits of its block or None."""

    source: str
    text: str
    block: list | None = None


def together(cell, frames, grant):
    """Returns the lines of a grant's block by all frames that have a grant alike, each by its first, and its bits."""
    total = np.zeros((grant.size + 28, 3), np.int64)
    for frame in frames:
        own = [other for _, other in frame.answer.grants if is_alike(other, grant)]
        if own:
            total += np.array(block_sums(cell, frame.slots, frame.answer.cfi, own[0]))
    block = decoded(np.clip(total, -MOST_SUM, MOST_SUM).tolist(), grant.size)
    return fields_lines(number(block), grant.size), block


def read_together(cell, frames):
    """Returns the lines and the block by the first period and grant that give fields together, or None."""
    for period in sorted({frame.period for frame in frames}):
        own = [frame for frame in frames if frame.period == period]
        for _, grant in (pair for frame in own for pair in frame.answer.grants if pair[1].size <= MOST_BITS):
            try:
                return together(cell, own, grant)
            except Refused:
                pass
    return None


def read_frames(recording, rate, cell, start, sfn):
    """Returns the SIB1 of a `frame` alone or several `frames` together, else `none`, for a cell whose frame of number
    `sfn` begins at sample `start` at 1.92 million per second."""
    frames = []
    for frame in tries(recording, rate, cell, start, sfn):
        if frame.answer.block is not None:
            return Found("frame", frame.answer.text, frame.answer.block)
        frames.append(frame)
    found = read_together(cell, frames)
    return Found("frames", *found) if found else Found("none", frames[0].answer.text)
