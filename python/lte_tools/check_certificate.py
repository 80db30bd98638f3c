#!/usr/bin/python3
"""lte_check_certificate < CERTIFICATES

Checks certificates as `lte_cli check` does, by an independent implementation, written from docs/CERTIFICATES.md alone. Prints
what `lte_cli check` prints, or `bad certificate at byte N` on standard error.

    lte_cli certify < recording.ci16 | lte_check_certificate
"""
from __future__ import annotations

import argparse
import struct
from typing import Callable, NoReturn, Sequence

from . import foreign, machine
from .arguments import Parser

MOST_BYTES = 67_108_864  # that `lte_cli check` reads
HEAD, TABLE = 10_501, 10_240
TAPS = ((0, 2, 3, 5, 6), (0, 1, 2, 3, 6), (0, 1, 2, 4, 6))
FREE = 2**32 - 1  # an entry that bounds nothing


def refuse(place: int) -> NoReturn:
    raise machine.Refused(f"bad certificate at byte {place}")


def cost(values: Sequence[int], back: Callable[[int], int]) -> int:
    """Returns the magnitudes of three values that disagree with the coded bits, where back(t) is the word's bit t places before."""
    bits = [sum(back(t) for t in taps) % 2 for taps in TAPS]
    return sum(abs(v) for v, bit in zip(values, bits) if (v > 0 and bit == 1) or (v < 0 and bit == 0))


def branches(values: Sequence[int]) -> list[tuple[int, int, int]]:
    """Returns from each state, by each bit: the state, the next state and the step's cost."""
    return [
        (x, x // 2 + 32 * bit, cost(values, lambda t: bit if t == 0 else x >> (6 - t) & 1))
        for x in range(64)
        for bit in (0, 1)
    ]


def holds(
    steps: Sequence[Sequence[tuple[int, int, int]]], row: Sequence[int], data: bytes, at: int
) -> Sequence[int] | None:
    """Returns the last row of the table at a place, where no step rises by more than it costs."""
    for i in range(40):
        after = struct.unpack_from("<64I", data, at + 256 * i)
        if any(row[x] != FREE and after[y] > row[x] + c for x, y, c in steps[i]):
            return None
        row = after
    return row


def length_of(data: bytes, at: int) -> int:
    """Returns how many bytes the certificate at a place has; refuses bytes that are none."""
    for p, byte in enumerate(bytes.fromhex("4c544332")):
        if at + p < len(data) and data[at + p] != byte:
            refuse(at + p)
    for p in range(at + 4, min(at + 244, len(data) - 1), 2):
        if abs(struct.unpack_from("<h", data, p)[0]) > 2032:
            refuse(p)
    size = HEAD
    if at + HEAD <= len(data):
        size += TABLE * bin(struct.unpack_from("<Q", data, at + HEAD - 8)[0]).count("1")
    if at + size > len(data):
        refuse(len(data))
    return size


def accepted(data: bytes) -> bool:
    """Returns whether a certificate is accepted."""
    flat = struct.unpack_from("<120h", data, 4)
    values = [flat[3 * k : 3 * k + 3] for k in range(40)]
    word = [int(bit) for bit in f'{int.from_bytes(data[244:249], "big"):040b}']
    (stated,) = struct.unpack_from("<I", data, 249)
    (own,) = struct.unpack_from("<Q", data, HEAD - 8)
    steps = [branches(v) for v in values]
    general = holds(steps, [0] * 64, data, 253)
    if general is None or stated != sum(cost(values[k], lambda t: word[(k - t) % 40]) for k in range(40)):
        return False
    at = HEAD
    for s in range(64):
        ends = general
        if own >> s & 1:
            own_ends = holds(steps, [0 if x == s else FREE for x in range(64)], data, at)
            if own_ends is None:
                return False
            ends = own_ends
            at += TABLE
        if ends[s] < stated:
            return False
    return True


def parser() -> argparse.ArgumentParser:
    """Returns the parser of the arguments, of which there are none."""
    return Parser(__doc__, brief=True)


def answers_of(data: bytes) -> list[bool]:
    """Returns whether each of the certificates in `data` is accepted."""
    at, answers = 0, list[bool]()
    while at < len(data):
        size = length_of(data, at)
        answers.append(accepted(data[at : at + size]))
        at += size
    return answers


def command() -> None:
    parser().parse_args()
    answers = answers_of(foreign.read_input(MOST_BYTES))
    print("certificates", len(answers))
    for n, answer in enumerate(answers):
        print(n, "yes" if answer else "no")


def main() -> None:
    machine.run(command)


if __name__ == "__main__":
    main()
