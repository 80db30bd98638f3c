"""Stands in for lte_cli and lte_tune, the first argument, in tests of long surveys: an answer made of a checksum of the samples.

The answers are those of scripts/examples, with other numbers. STAND_IN_SLEEP is the seconds that each takes; a file that
STAND_IN_COUNT names gets a line for each.
"""
import json
import os
import pathlib
import sys
import time
import zlib

OUTPUTS = pathlib.Path(__file__).resolve().parent.parent.parent / "scripts/examples/outputs"


def evidence(template, number):
    """Returns the lines of cell 271, of which every third window has none, and of one of three others without SIB1."""
    one = dict(template, cost=number % 300, power=template["power"] + number % 977)
    other = dict(one, identity=100 + number % 3, at=one["at"] + 700)
    if "bandwidth" in other:
        other |= {"bandwidth": "n25", "sib1": {"none": "bandwidth n25"}}
    return [one, other][number % 3 == 0 :]


def answer(name, arguments, data):
    number = zlib.crc32(data)
    if name == "lte_tune":
        found = json.loads((OUTPUTS / "tell.json").read_text())
        found["told"] = {"cells": 1, "hits": 2, "turn": number % 9}
        return found
    if arguments[0] == "ids":
        cell = {"at": 300, "identity": 33, "matches": 100, "power": 9_000 + number % 999, "ratio": 300, "subframe": 0}
        return {"cells": [{**cell, "t": 1132}], "half_frames": 34}
    if arguments[0] == "evidence":
        kind = "evidence_all" if "--all" in arguments else "evidence"
        return evidence(json.loads((OUTPUTS / f"{kind}.json").read_text())[0], number)
    return []


def main():
    time.sleep(float(os.environ.get("STAND_IN_SLEEP", "0")))
    if count := os.environ.get("STAND_IN_COUNT"):
        with open(count, "a") as file:
            file.write(f"{sys.argv[1]}\n")
    json.dump(answer(sys.argv[1], sys.argv[2:], sys.stdin.buffer.read()), sys.stdout)


if __name__ == "__main__":
    main()
