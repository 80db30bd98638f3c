"""python3 -m lte_reference.deep_list_rows

Prints the lists that `deep.py` makes of recordings that a test makes again (crates/accumulated_tests), a row for each as
the test writes it: the level, seed and constant of the noise; three cells by gain, identity, first subframe and position;
the number of half-frames; and up to three listed cells, by position, N2, identity, subframe, frame start, matching signs,
ratio and power. What is absent has zeros. The recordings are made as in `deep_sign_rows.py`.
"""
import numpy as np

from . import deep
from .deep_sign_rows import noise, send

NONE = (0, 0, 0, 137)
# of each recording the level, seed and constant of the noise, the cells, and the number of half-frames
RECORDINGS = (
    # silence, a constant, noise
    (0, 1, 0, (), 2),
    (0, 2, 12_345, (), 2),
    (300, 3, 0, (), 2),
    # two cells, one of which begins with subframe 5, in noise; over two half-frames, and over one
    (250, 4, 0, ((1, 301, 0, 4_321), (1, 8, 5, 9_000)), 5),
    (250, 4, 0, ((1, 301, 0, 4_321), (1, 8, 5, 9_000)), 2),
    (250, 4, 0, ((1, 301, 0, 4_321), (1, 8, 5, 9_000)), 1),
    # three primary signals, two of them at one position
    (60, 5, 0, ((1, 130, 5, 7_000), (1, 129, 0, 7_000), (1, 503, 0, 137)), 2),
    # an echo: later and weaker; and one at the other end of the circle
    (60, 6, 0, ((5, 77, 0, 2_000), (4, 77, 0, 2_050)), 2),
    (60, 7, 0, ((4, 160, 5, 9_700), (5, 160, 0, 140)), 2),
    # one identity at positions 137 apart, where the later one precedes, and 138 apart; two identities of one root near by
    (60, 8, 0, ((3, 95, 0, 5_000), (4, 95, 0, 5_137)), 2),
    (60, 9, 0, ((3, 95, 0, 5_000), (4, 95, 0, 5_138)), 2),
    (60, 10, 0, ((5, 95, 0, 5_000), (4, 98, 0, 5_100)), 2),
)


def recording(level, seed, constant, cells):
    r = noise(level, seed, constant)
    for gain, identity, half, t in cells:
        send(r, gain, identity // 3, identity % 3, half, t)
    return np.clip(r, -32_768, 32_767)


def numbers(entry):
    return [entry.t, entry.n2, entry.identity, entry.half, entry.start, entry.signs, entry.ratio, entry.power]


def sent(cells):
    found = [str(cell) for cell in cells] + ["NONE"] * (3 - len(cells))
    return f"[{', '.join(found)}]"


def row(level, seed, constant, cells, halves):
    found = [numbers(entry) for entry in deep.listed(recording(level, seed, constant, cells), halves)]
    found += [[0] * 8] * (3 - len(found))
    return f"({level}, {seed}, {constant}, {sent(cells)}, {halves}, {found}),"


def main():
    for each in RECORDINGS:
        print(row(*each))


if __name__ == "__main__":
    main()
