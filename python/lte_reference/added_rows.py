"""python3 -m lte_reference.added_rows

Prints how `added_master.py` decodes frames that a test makes again (crates/added_tests), a row for each as the test writes
it: identity; the ports by whose mask the MIB is sent; the 24 bits of the first frame's MIB; the phase of the first frame;
the number of frames; amplitude; the noise's level and seed; and the 24 bits of the decoded MIB, or 0 if there is none,
with the matching signs at the sent phase and number, and at the next phase. A soft value is the amplitude, negative for
the bit 1, with noise from -level to level, limited to -127 to 127.
"""
from . import added_master, search

ROWS = (
    # noise alone, silence, and a cell in noise, from each phase and with each port count
    (7, 1, 0x48D1A4, 0, 17, 0, 20, 1),
    (7, 1, 0x48D1A4, 0, 17, 0, 0, 2),
    (7, 1, 0x48D1A4, 0, 17, 2, 20, 3),
    (271, 2, 0x6FFC00, 1, 17, 2, 20, 4),
    (503, 4, 0x0403FF, 2, 16, 2, 20, 5),
    # the frame number begins again, from phase 3
    (100, 1, 0x8BFE22, 3, 17, 3, 20, 6),
    # three frames, one, and none
    (33, 1, 0x000004, 2, 3, 5, 20, 8),
    (33, 1, 0x0F0F0F, 3, 1, 100, 127, 9),
    (33, 1, 0x012345, 0, 0, 9, 20, 10),
    # a reserved bandwidth code, and saturated values
    (45, 1, 0xC00000, 0, 8, 9, 20, 11),
    (45, 1, 0x2468AC, 1, 12, 127, 100, 12),
)


def draws(seed):
    """Yields the states of the generator in `wide_rows.py`."""
    while True:
        seed = (seed * 1_103_515_245 + 12_345) & 0x7FFF_FFFF
        yield seed


def frame(identity, block, ports, phase, amplitude, level, states):
    """Returns the 480 soft values of a frame, scrambled."""
    bits = added_master.coded(added_master.word_of(block, ports))
    sequence = search.pseudo_random(identity, 1920)[480 * phase :]
    values = []
    for i in range(480):
        place, stream = added_master.READING[i % 120]
        noise = (next(states) >> 16) % (2 * level + 1) - level
        value = max(-127, min(127, (-amplitude if bits[place][stream] else amplitude) + noise))
        values.append(-value if sequence[i] else value)
    return values


def frames(identity, ports, block, phase, count, amplitude, level, seed):
    states, out = draws(seed), []
    for j in range(count):
        upper = ((block >> 10 & 255) + (phase + j) // 4) % 256
        here = block & ~(255 << 10) | upper << 10
        out.append(frame(identity, here, ports, (phase + j) % 4, amplitude, level, states))
    return out


def expected(identity, ports, block, phase, count, amplitude, level, seed):
    """Returns the numbers that the frames of a row decode to."""
    received = frames(identity, ports, block, phase, count, amplitude, level, seed)
    upper = block >> 10 & 255
    sums = added_master.added(added_master.period_sums(identity, phase, received), upper)
    others = added_master.added(added_master.period_sums(identity, (phase + 1) % 4, received), upper)
    (word, signs), (_, other) = added_master.decoded(sums), added_master.decoded(others)
    return [added_master.block_of(word, signs, ports, upper) or 0, signs, other]


def main():
    for each in ROWS:
        print(f"({', '.join(map(str, each))}, {expected(*each)}),")


if __name__ == "__main__":
    main()
