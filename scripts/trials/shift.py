#!/usr/bin/python3
"""shift.py HERTZ [REAL IMAGINARY] < RECORDING > RECORDING

Moves a recording by an offset in hertz, and then adds a constant (DC), as a cheap radio does: to try `lte_tune` on.
Each component is rounded and kept within 16 bits. Debian: python3-numpy.
"""
import sys

import packages

packages.add()
from lte_tools import radio


def main():
    hertz, *constant = (float(word) for word in sys.argv[1:])
    x = radio.from_bytes(sys.stdin.buffer.read())
    sys.stdout.buffer.write(radio.to_bytes(radio.shifted(x, hertz) + complex(*constant)))


main()
