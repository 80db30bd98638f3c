"""Formats 1A and 1C of control information for SIB1 at any bandwidth (TS 36.212 sections 5.3.3.1.3 and 5.3.3.1.4; TS
36.213 sections 7.1.6.3 and 7.1.7; TS 36.211 section 6.2.3.2; TS 36.321 section 5.3.1). Written from the standard."""
from typing import NamedTuple

# fmt: off
# sizes of blocks by MCS, for the low bit 0 and 1 of the power control command (TS 36.213 table 7.1.7.2.1-1)
SIZES = ((32, 56, 72, 104, 120, 144, 176, 224, 256, 296, 328, 376, 440, 488, 552, 600, 632, 696, 776, 840, 904, 1000,
          1064, 1128, 1192, 1256, 1480),
         (56, 88, 144, 176, 208, 224, 256, 328, 392, 456, 504, 584, 680, 744, 840, 904, 968, 1064, 1160, 1288, 1384,
          1480, 1608, 1736, 1800, 1864, 2216))
# sizes of format 1C (TS 36.213 table 7.1.7.2.3-1)
SHORT_SIZES = (40, 56, 72, 120, 136, 144, 176, 208, 224, 256, 280, 296, 328, 336, 392, 488, 552, 600, 632, 696, 776,
               840, 904, 1000, 1064, 1128, 1224, 1288, 1384, 1480, 1608, 1736)
# fmt: on
AMBIGUOUS = (12, 14, 16, 20, 24, 26, 32, 40, 44, 56)  # TS 36.212 table 5.3.3.1.2-1
FIRST_GAPS = {6: 3, 15: 8, 25: 12, 50: 27, 75: 32, 100: 48}


class Grant(NamedTuple):
    """Format; mapping (`localized`, or distributed by the `first` or `second` gap); start and length of the run of virtual
    blocks; the blocks of slots 10 and 11; size of the transport block in bits; and redundancy version."""

    form: str
    mapping: str
    run: tuple
    blocks: tuple
    size: int
    version: int


# ---- assignments


def runs(count):
    """Returns the number of ways to assign consecutive blocks out of all."""
    return count * (count + 1) // 2


def field_width(count):
    """Returns the number of bits for a value below a count."""
    return (count - 1).bit_length()


def run_of(count, value):
    """Returns start and length of the assignment with a resource indication value, for this number of blocks."""
    start, length = value % count, value // count + 1
    return (start, length) if start + length <= count else (count - 1 - start, count + 2 - length)


def value_of(count, start, length):
    """Returns the resource indication value (TS 36.213 section 7.1.6.3)."""
    if length - 1 <= count // 2:
        return count * (length - 1) + start
    return count * (count - length + 1) + count - 1 - start


# ---- distributed blocks


def gap(blocks, second):
    """Returns N_gap (TS 36.211 table 6.2.3.2-1); the second from 50 blocks."""
    if second:
        return 9 if blocks < 64 else 16
    return FIRST_GAPS[blocks]


def virtual_count(blocks, second):
    """Returns the number of distributed virtual blocks."""
    apart = gap(blocks, second)
    return blocks // (2 * apart) * 2 * apart if second else 2 * min(apart, blocks - apart)


def unit_size(blocks, second):
    """Returns the number of virtual blocks that are interleaved together."""
    return 2 * gap(blocks, second) if second else virtual_count(blocks, second)


def matrix_rows(blocks, second):
    """Returns the interleaver's rows, by the size of a resource block group (TS 36.213 table 7.1.6.1-1)."""
    group = 1 if blocks <= 10 else 2 if blocks <= 26 else 3 if blocks <= 63 else 4
    return -(-unit_size(blocks, second) // (4 * group)) * group


def physical(blocks, second, odd, virtual):
    """Returns the physical block of a distributed virtual block, in an even or odd slot."""
    unit, rows = unit_size(blocks, second), matrix_rows(blocks, second)
    nulls, v = 4 * rows - unit, virtual % unit
    if v < unit - nulls:
        at = rows * (v % 4) + v // 4 - (nulls // 2 if v % 4 >= 2 else 0)
    else:
        at = v // 2 + (rows if v % 2 else nulls // 2 - rows)
    at = ((at + unit // 2) % unit if odd else at) + virtual // unit * unit
    return at if at < unit // 2 else at + gap(blocks, second) - unit // 2


def distributed(blocks, second, start, length):
    """Returns the physical blocks of both slots for consecutive virtual blocks."""
    virtual = range(start, start + length)
    return tuple(tuple(sorted(physical(blocks, second, odd, v) for v in virtual)) for odd in (False, True))


def spread_grant(form, blocks, second, run, size, version):
    """Returns a grant of distributed blocks by one of the gaps."""
    mapping = "second" if second else "first"
    return Grant(form, mapping, run, distributed(blocks, second, *run), size, version)


# ---- bits


def number(bits):
    return int("0" + "".join(map(str, bits)), 2)


def long_size(blocks):
    """Returns the number of bits of format 1A."""
    size = 15 + field_width(runs(blocks))
    return size + 1 if size in AMBIGUOUS else size


def step(blocks):
    """Returns the number of virtual blocks in a unit of format 1C."""
    return 2 if blocks < 50 else 4


def short_steps(blocks, second):
    return virtual_count(blocks, second) // step(blocks)


def short_size(blocks):
    """Returns the number of bits of format 1C."""
    return (blocks >= 50) + field_width(runs(short_steps(blocks, False))) + 5


def version_at(sfn):
    """Returns the redundancy version of SIB1 by frame number, for format 1C."""
    return (3 * (sfn // 2 % 4) + 1) // 2 % 4


def long_grant(blocks, bits):
    """Returns the grant of format 1A with SI-RNTI, or None."""
    width = field_width(runs(blocks))
    value, scheme = number(bits[2 : 2 + width]), number(bits[2 + width : 7 + width])
    spread, version, column = bits[1] == 1, number(bits[11 + width : 13 + width]), bits[14 + width]
    if bits[0] == 0 or value >= runs(blocks) or scheme >= len(SIZES[column]):
        return None
    run, size = run_of(blocks, value), SIZES[column][scheme]
    if not spread:
        return Grant("1A", "localized", run, (tuple(range(run[0], sum(run))),) * 2, size, version)
    second = blocks >= 50 and bits[10 + width] == 1
    if sum(run) > virtual_count(blocks, second):
        return None
    return spread_grant("1A distributed", blocks, second, run, size, version)


def short_grant(blocks, bits, sfn):
    """Returns the grant of format 1C with SI-RNTI, or None."""
    second, rest = (bits[0] == 1, bits[1:]) if blocks >= 50 else (False, bits)
    value, count = number(rest[:-5]), short_steps(blocks, second)
    if value >= runs(count):
        return None
    run = tuple(step(blocks) * x for x in run_of(count, value))
    return spread_grant("1C", blocks, second, run, SHORT_SIZES[number(rest[-5:])], version_at(sfn))
