"""python3 -m lte_reference.wide_subframes [TOPIC]

Prints rows of subframe 5, for each what is sent, a checksum of its samples, and the answers of `wide_block.py` and
`wide_frames.py`, as tests compare them. TOPIC is `alone` (rows of one frame), `together` (rows of one cell that give
SIB1 only together), or `turned` (drawn samples, corrected by an offset). Without TOPIC all rows are printed.

What is sent is the grid of `wide_sender.py`: reference signals, PCFICH, and each grant's candidate and PDSCH. PHICH,
synchronisation signals and load are left out. Points are whole, without the standard's factors 1/sqrt(2), so components
are 1 or -1; port p has the gain GAINS[p]. `bits` has the sign bits of these points (port by port pairs: those before
precoding), from the highest bit of each number on: PCFICH, then candidate and PDSCH of each grant. Sample t of a symbol
is the sum of point times root(f t), where f is the subcarrier's frequency and 128 * 2^rate the period, divided by 2^30
and rounded down. Samples outside the 14 useful parts are 0. Debian: python3-numpy.
"""
import argparse
from typing import NamedTuple

import numpy as np

from .cell import text
from .tune import W, clamped, mean
from .wide_block import grants_of, indicator, read
from .wide_frames import read_frames
from .wide_places import Cell, candidate_elements, element_count, indicator_elements, shared_elements
from .wide_rows import checksum, drawn, rate_of
from .wide_sender import PLAIN, REFERENCE, Frame, Plan, physical_blocks, version_of
from .wide_slots import frequencies, slots_of, symbol_start

GAINS = ((5, 2), (-3, 4), (2, -5), (-4, -3))
STEP = (1_073_736_771, 3_294_193)  # 2^30 times the first root of unity of 2,048
FRAME = 19_200


class Sent(NamedTuple):
    """The plan of a grant, and the plan by which its block is sent if that differs."""

    plan: Plan
    block: Plan | None = None


class Row(NamedTuple):
    """A cell's plan with its control format indicator, the grants, and start and number of the first frame."""

    plan: Plan
    sent: tuple
    start: int
    sfn: int


# ---- what is sent


class Subframe(Frame):
    """A frame's subframe 5 without PHICH and synchronisation signals, whose elements stay free."""

    def __init__(self, sent, sfn):
        self.block = sent.block or sent.plan
        super().__init__(sent.plan._replace(load=0), sfn, np.random.default_rng(1), (5,))

    def synchronisation(self):
        super().synchronisation()
        self.grid[:, 75:77, self.middle : self.middle + 72] = 0

    def acknowledgements(self, subframe, groups):
        taken = super().acknowledgements(subframe, groups)
        for l, number in taken:
            self.grid[:, 14 * subframe + l, groups[l][number]] = 0
        return taken

    def system_information(self):
        plan, self.plan = self.plan, self.block
        super().system_information()
        self.plan = plan

    def points(self):
        """Returns the grid of subframe 5 in whole numbers, component, port, symbol and subcarrier."""
        is_data = self.kept[70:84] != REFERENCE
        scale = np.where(is_data & (len(self.grid) > 1), 2, np.sqrt(2))
        whole = self.grid[:, 70:84] * scale
        found = np.rint(np.stack([whole.real, whole.imag])).astype(np.int64)
        assert np.allclose(found[0] + 1j * found[1], whole)
        return found


def cell_of(plan):
    return Cell(plan.identity, plan.ports, plan.blocks, plan.extended, plan.resource)


def elements_of(plan):
    """Lists the elements of a grant's candidate, and of its PDSCH."""
    cell = cell_of(plan)
    blocks = tuple(tuple(sorted(slot)) for slot in physical_blocks(plan))
    return candidate_elements(cell, plan.cfi, plan.level, plan.element), shared_elements(cell, plan.cfi, blocks)


def sign_bits(points, elements):
    """Returns the sign bits of the points at elements, as they are before precoding."""
    pairs, ports = np.arange(len(elements)) // 2, points.shape[1]
    lower = pairs % 2 if ports == 4 else 0 * pairs
    l, k = np.array(elements).T
    values = points[:, lower, l, k]
    assert (abs(values) == 1).all()
    return (values < 0).astype(int).T.ravel().tolist()


def composed(row):
    """Returns the points of a row's subframe, and the sign bits of all points that are not reference signals."""
    frames = [Subframe(sent, row.sfn + row.sfn % 2) for sent in row.sent] or [Subframe(Sent(row.plan), 1)]
    first = frames[0].points()
    is_reference = frames[0].kept[70:84] == REFERENCE
    parts = [(first, indicator_elements(cell_of(row.plan)))]
    parts += [(frame.points(), each) for frame, sent in zip(frames, row.sent) for each in elements_of(sent.plan)]
    total, bits = np.where(is_reference, first, 0), []
    for points, elements in parts:
        l, k = np.array(elements).T
        total[:, :, l, k] = points[:, :, l, k]
        bits += sign_bits(points, elements)
    for frame in frames if row.sent else ():
        assert not (frame.points().any((0, 1)) & ~total.any((0, 1))).any(), "an element that is not listed"
    return total, bits


# ---- samples


def roots():
    """Returns 2^30 times the roots of unity of 2,048, each by the one before, rounded down."""
    found = [(2**30, 0)]
    for _ in range(2_047):
        a, b = found[-1]
        found.append(((a * STEP[0] - b * STEP[1]) >> 30, (a * STEP[1] + b * STEP[0]) >> 30))
    return np.array(found).T


def symbols_of(plan, points):
    """Returns the samples of the symbols with these points: symbol, sample and component."""
    gains = np.array(GAINS[: plan.ports])[:, :, None, None]
    re = (gains[:, 0] * points[0] - gains[:, 1] * points[1]).sum(0)
    im = (gains[:, 0] * points[1] + gains[:, 1] * points[0]).sum(0)
    size = 128 << rate_of(plan.blocks)
    at = np.outer(frequencies(plan.blocks), np.arange(size)) * (2_048 // size) % 2_048
    cosine, sine = roots()[:, at]
    return np.stack([re @ cosine - im @ sine, re @ sine + im @ cosine], 2) >> 30


def recording_of(frames):
    """Returns the 30 ms that begin at sample 0, from symbols by the first samples of their frames."""
    plan = frames[0][0]
    rate = rate_of(plan.blocks)
    found = np.zeros((57_600 << rate, 2), np.int64)
    for _, start, symbols in frames:
        for l, symbol in enumerate(symbols):
            first = symbol_start(rate, start, 10 + l // 7, l % 7)
            found[first : first + len(symbol)] = symbol
    assert abs(found).max() < 2**15
    return found


# ---- rows


def as_grant(plan, sfn):
    """Returns a plan's grant as the tests write it."""
    mapping = "Localized" if plan.form == "1A" else ("FirstGap", "SecondGap")[plan.gap]
    run = f"Run {{ start: {plan.start}, blocks: {plan.length} }}"
    return f"WideGrant {{ mapping: Mapping::{mapping}, run: {run}, size: {plan.size}, rv: {version_of(plan, sfn)} }}"


def as_numbers(bits):
    """Returns bits as numbers of 64 bits, from the highest bit on."""
    padded = bits + [0] * (-len(bits) % 64)
    numbers = (int("".join(map(str, padded[i : i + 64])), 2) for i in range(0, len(padded), 64))
    return ", ".join(f"{number:#018x}" for number in numbers)


def as_answer(lines):
    """Returns an answer as the tests write it: tracking area code and cell identity, or the reason for none."""
    words = lines.split("\n")[0].split()
    if words[1] == "none":
        name = "".join(part.title() for part in words[2].split("-"))
        return f"Err(Sib1Reason::{name}{f'({words[3]})' if words[3:] else ''})"
    return f"Ok(({words[2]}, {words[4]}))"


def seen_in(row, recording):
    """Returns the count of elements, the grants found, as indices of those sent, and the answers of the subframe alone
    and of the recording."""
    cell, rate = cell_of(row.plan), rate_of(row.plan.blocks)
    frame, sfn = row.start + FRAME * (row.sfn % 2), row.sfn + row.sfn % 2
    slots = slots_of(recording, rate, cell, frame)
    cfi = indicator(cell, slots)
    assert cfi == row.plan.cfi
    sent = [
        (
            ("localized", "first", "second")[(one.plan.form != "1A") * (1 + one.plan.gap)],
            one.plan.start,
            one.plan.length,
        )
        + (one.plan.size, version_of(one.plan, sfn))
        for one in row.sent
    ]
    found = [sent.index((one.mapping, *one.run, one.size, one.version)) for _, one in grants_of(cell, sfn, slots, cfi)]
    alone = read(recording, rate, cell, frame, sfn).text
    return (
        element_count(cell, cfi),
        found,
        as_answer(alone),
        as_answer(read_frames(recording, rate, cell, row.start, row.sfn)[1]),
    )


def row_text(row, recording, symbols, bits):
    """Returns a row as the tests write it."""
    plan, sfn = row.plan, row.sfn + row.sfn % 2
    elements, found, alone, answer = seen_in(row, recording)
    assert alone == answer
    duration = ("Normal", "Extended")[plan.extended]
    resource = ("OneSixth", "Half", "One", "Two")[plan.resource]
    grants = ", ".join(
        f"(DciFormat::Format{one.plan.form[:2]}, Candidate {{ level: {one.plan.level}, first: {one.plan.element} }}, "
        f"{as_grant(one.plan, sfn)})"
        for one in row.sent
    )
    return (
        f"Row {{ bandwidth: Bandwidth::N{plan.blocks}, ports: {plan.ports}, id: {plan.identity}, "
        f"duration: Duration::{duration}, resource: Resource::{resource}, cfi: {plan.cfi}, start: {row.start}, "
        f"sfn: {row.sfn}, sent: &[{grants}], bits: &[{as_numbers(bits)}], samples: {checksum(symbols.ravel())}, "
        f"elements: {elements}, found: &{found}, answer: {answer} }}"
    )


def block_of(tac, number):
    """Returns the bits of a plain SIB1 with a tracking area code and a cell identity."""
    return text(PLAIN | {"tac": tac, "cell": number})


def planned(identity, blocks, ports, number, **keys):
    """Returns the plan of a cell whose SIB1 has values of its own."""
    return Plan(identity, blocks, ports, block_of(1_000 + number, 20_000_000 + 77 * number), **keys)


def rows_alone():
    """Lists the rows of one frame."""
    found = []

    def add(sfn, start, *plans, cell=None):
        sent = tuple(plan if isinstance(plan, Sent) else Sent(plan) for plan in plans)
        found.append(Row(cell or sent[0].plan, sent, start, sfn))

    add(0, 0, planned(271, 6, 1, 1, start=1, length=4))
    add(1021, 19_199, planned(502, 15, 2, 2, cfi=3, form="1Ad", level=4, element=8, start=3, length=4, scheme=6))
    add(6, 1_234, planned(30, 25, 1, 3, form="1C", start=4, length=4, scheme=7))
    add(3, 700, planned(31, 50, 4, 4, form="1C", level=8, start=8, length=4, gap=1, scheme=9))
    add(
        12,
        9_600,
        planned(100, 50, 2, 5, cfi=3, resource=1, form="1Ad", level=8, element=8, start=20, length=3, gap=1, version=2),
    )
    add(2, 3, planned(401, 75, 1, 6, cfi=1, resource=0, element=8, start=35, length=4, scheme=8, column=3))
    add(511, 77, planned(58, 100, 2, 7, cfi=1, form="1Ad", element=12, start=90, length=3, version=1))
    add(1022, 5_000, planned(333, 100, 4, 8, cfi=3, extended=True, resource=3, level=8, start=48, length=4, scheme=11))
    large = planned(200, 25, 2, 9, start=2, length=2, scheme=20, column=3, version=0)
    add(4, 250, Sent(large, large._replace(scheme=5, column=2)))
    spoilt = planned(77, 15, 4, 10, cfi=3, start=4, length=3, version=0)
    add(8, 0, Sent(spoilt, spoilt._replace(version=2)))
    add(10, 4_321, cell=planned(9, 50, 1, 11))
    add(14, 1, cell=planned(10, 6, 1, 12, cfi=1, level=1))
    one = planned(64, 25, 1, 13, cfi=3, element=4, start=0, length=3, version=0)
    other = planned(64, 25, 1, 14, cfi=3, level=8, element=8, start=12, length=3, version=1)
    add(16, 2_000, one, other)
    return found


def rows_together():
    """Lists the rows of two frames of one cell: a block of 440 bits with 408 values in each frame."""
    plan = planned(123, 15, 2, 15, cfi=3, element=4, start=9, length=2, scheme=12)
    return [Row(plan, (Sent(plan),), 0, sfn) for sfn in (0, 2)]


def print_alone():
    for row in rows_alone():
        points, bits = composed(row)
        symbols = symbols_of(row.plan, points)
        recording = recording_of([(row.plan, row.start + FRAME * (row.sfn % 2), symbols)])
        print(row_text(row, recording, symbols, bits) + ",")


def print_together():
    frames, rows = [], rows_together()
    for row in rows:
        points, bits = composed(row)
        frames.append((row.plan, FRAME * (row.sfn - rows[0].sfn), symbols_of(row.plan, points)))
        alone = recording_of([(row.plan, row.start, frames[-1][2])])
        print(row_text(row, alone, frames[-1][2], bits) + ",")
    plan = rows[0].plan
    lines = read_frames(recording_of(frames), rate_of(plan.blocks), cell_of(plan), 0, rows[0].sfn)
    assert lines[0] == "frames"
    print(f"const TOGETHER: (u16, u32) = {as_answer(lines[1])[3:-1]};")


# ---- corrected samples


def turned(samples, rate, m):
    """Returns samples of 1.92 * 2^rate million per second without their mean, turned back by m (`docs/DEFINITION.md`)."""
    centre, found = mean(samples), []
    for i, (x, y) in enumerate(samples):
        a, b = x - centre[0], y - centre[1]
        c, s = W[m * i // (128 << rate) % 128]
        found += [clamped((a * c + b * s + 8_192) >> 14), clamped((b * c - a * s + 8_192) >> 14)]
    return found


def print_turned():
    draw = drawn(9)
    numbers = [next(draw) % 4_001 - 2_000 for _ in range(8_192)]
    samples = list(zip(numbers[0::2], numbers[1::2]))
    for rate, m in ((0, 77), (1, -2_048), (2, 2_047), (3, -500), (4, 1_234)):
        print(f"({rate}, {m}, {checksum(turned(samples, rate, m))}),")


TOPICS = {"alone": print_alone, "together": print_together, "turned": print_turned}


def main():
    words = argparse.ArgumentParser(usage=__doc__)
    words.add_argument("topic", nargs="?", choices=TOPICS)
    args = words.parse_args()
    for topic, printed in TOPICS.items():
        if args.topic in (None, topic):
            printed()


if __name__ == "__main__":
    main()
