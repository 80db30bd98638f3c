#!/usr/bin/python3
"""wide_scan.py FOLDER [OFFSET]

Tries `survey.py --scan` on a file of 20 MHz. Writes into a folder what a radio would have of a second of it, wide.cs16
(30.72 million samples per second about 806 MHz): cells of one, two and four antenna ports and of the extended prefix at
several frequencies of the raster, two of them neighbours, one at the centre with DC and one at the edge, OFFSET hertz
off (2,300), with noise. Each cell has to be one line at its frequency and number, with its offset within 60 Hz, and any
other line has to have the mark of chance. Prints the table, a line for what is not so, and the time by the clock and of
the processors; the status is 0 where all is.

Debian: python3-numpy, python3-scipy. Needs lte_cli and lte_tune.
"""
import json
import pathlib
import resource
import subprocess
import sys
import time
from typing import NamedTuple

import numpy as np
from scipy import fft

import packages

packages.add()
from lte_tools import machine
from lte_tools import radio
from lte_tools import survey_table
from lte_tools.survey_data import Survey

RATE, CENTRE = 30_720_000, 806_000_000
OFFSET, DC, NOISE = 2_300, 0.02, 20  # hertz; of full scale; dB by which noise is below an element of the strongest cell
CHANNEL = 700_000  # hertz on either side that a sender lets through
ELEMENT = 127 * 16 / 128  # the size of a reference element's wave where the gain is 1
GAIN, SCALE = 10, 0.0008
NEAR, LEVELS = 60, 1  # hertz and dB that are allowed


class Put(NamedTuple):
    """A cell that is put in: its frequency in units of 100 kHz, its EARFCN of band 20, and its level in dB."""

    identity: int
    frequency: int
    earfcn: int
    level: float
    words: tuple = ()
    keys: dict = {}


CELLS = (
    Put(217, 7960, 6200, 0),
    Put(91, 7974, 6214, -6),
    Put(150, 8013, 6253, -4, ("--ports", "2"), {"gain2": [-6, 8]}),
    Put(88, 8060, 6300, -8),
    Put(12, 8117, 6357, -6, ("--prefix", "long")),
    Put(333, 8159, 6399, -3, ("--ports", "4"), {"gain": [6, -3], "gain2": [5, 5], "gain3": [-4, 6], "gain4": [2, -6]}),
    Put(401, 8208, 6448, -2),
)


def sent(cell):
    """A second of a cell."""
    plan = json.loads((packages.TOP / "scripts/examples/usual_cell.json").read_text())
    plan |= {"identity": cell.identity, "samples": radio.RATE, "gain": [GAIN, 0], **cell.keys}
    plan |= {"offset": 40 * cell.identity, "sib1": {**plan["sib1"], "cell": 256 * cell.identity}}
    words = [machine.program("lte_cli"), "transmit", *cell.words, "--load", str(cell.identity)]
    done = subprocess.run(words, input=json.dumps(plan).encode(), stdout=subprocess.PIPE, check=True)
    return radio.from_bytes(done.stdout) / GAIN * 10 ** (cell.level / 20)


def written(path, offset):
    """A second of all cells."""
    spectrum, bins = np.zeros(RATE, np.complex64), np.arange(-CHANNEL, CHANNEL)
    for cell in CELLS:
        x = fft.fft(sent(cell)) * (RATE / radio.RATE)
        spectrum[(bins + cell.frequency * 100_000 - CENTRE + offset) % RATE] += x[bins].astype(np.complex64)
    noise = ELEMENT * np.sqrt(128 * RATE / radio.RATE / 2) / 10 ** (NOISE / 20)
    draw = np.random.default_rng(1)
    parts = fft.ifft(spectrum).view(np.float32) + np.float32(noise) * draw.standard_normal(2 * RATE, np.float32)
    parts = np.round((parts * SCALE + DC) * 32_768)
    np.clip(parts, -32_768, 32_767).astype("<i2").tofile(path)


def faults_of(found, offset):
    put = {(cell.identity, cell.frequency * 100_000): cell for cell in CELLS}
    sure = [line for line in found["cells"] if not line["chance"]]
    if sorted(names := [(line["identity"], line["frequency"]) for line in sure]) != sorted(put):
        yield f"lines of {names}"
    levels = []
    for line in sure:
        cell = put.get((line["identity"], line["frequency"]))
        if cell and [20, cell.earfcn] not in line["earfcns"]:
            yield f"PCI {cell.identity}: {line['earfcns']}, and not {cell.earfcn} of band 20"
        if cell and abs(line["offset"] - offset) > NEAR:
            yield f"PCI {cell.identity}: {line['offset']} Hz"
        if cell and not cell.words:
            levels.append(round(line["level"] - cell.level, 1))
            if line["sib1"].get("cell") != 256 * cell.identity:
                yield f"PCI {cell.identity}: SIB1 {line['sib1']}"
    if levels and max(levels) - min(levels) > LEVELS:
        yield f"levels by what was put in: {levels}"


def main(folder, offset=str(OFFSET)):
    path, offset = pathlib.Path(folder) / "wide.cs16", int(offset)
    path.parent.mkdir(exist_ok=True)
    written(path, offset)
    words = [*packages.tool("survey"), path, "--rate", str(RATE), "--carrier", str(CENTRE), "--scan", "--json"]
    before, start = resource.getrusage(resource.RUSAGE_CHILDREN), time.monotonic()
    found = json.loads(subprocess.run(words, stdout=subprocess.PIPE, check=True).stdout)
    seconds, used = time.monotonic() - start, resource.getrusage(resource.RUSAGE_CHILDREN)
    print(*survey_table.table_of(Survey.from_json(found)), *(faults := list(faults_of(found, offset))), sep="\n")
    busy = used.ru_utime + used.ru_stime - before.ru_utime - before.ru_stime
    print(f"scan: {seconds:.0f} s, {busy:.0f} s of processor time")
    sys.exit(bool(faults))


if __name__ == "__main__":
    if not 2 <= len(sys.argv) <= 3:
        sys.exit(__doc__)
    machine.run(lambda: main(*sys.argv[1:]))
