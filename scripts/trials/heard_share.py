#!/usr/bin/python3
"""heard_share.py [KIND ..] [--count N] [--first SEED] [--carrier NAME] [--rows FILE]
heard_share.py --table FILE ..

Makes recordings as a radio gives them (on_air.py) and evaluates both premises of reception on each: that the cell is
heard, part by part (crates/clean_air/specs/Heard.antt, by python/lte_reference/heard.py), and that it is nearest
(crates/clean_air/specs/Nearest.antt, by python/lte_reference/nearest.py). Prints the share of the recordings that meet
each part, the parts up to the master information block (`master`) and all parts (`heard`), the share in which the
master information block (`near mib`) and the complete cell (`nearest`) are nearest, and the share for which lte_cli
lists the cell (`listed`) and its SIB1 (`sib1`). Then prints each recording that meets a premise and is not listed as
promised. A cell that is heard is listed with its identity, start, frame number and master information block, at cost 0
from the first whole frame; a cell that is nearest is listed at most 9 samples away, at any cost. Both are listed with
SIB1 if the premise includes it. The status is 1 if there is such a recording.

    field      cells of 6 resource blocks, half of them with one antenna port, the others with two or four or with the
               extended cyclic prefix; frames begin between samples
    aligned    the same cells, with frames that begin at a sample
    wide       cells of 15 to 100 resource blocks, up to the master information block

Each kind has N (20) recordings of 57,600 samples, from seed SEED (0) on: Es/N0 15 to 45 dB, frequency offsets up to
300 Hz, flat channels or EPA, EVA and ETU with up to 70 Hz Doppler, load 0 to 1, 16 bits or bytes. --carrier selects one
transmission scheme. --rows appends a JSON line for each recording to a file, --table prints the tables of such files.
LTE_CLI names the program. Debian: python3-numpy, python3-scipy.
"""
import json
import pathlib
import random
import sys
import time

import numpy as np

import faithful
import on_air
from lte_reference import heard, nearest
from lte_reference.search import FRAME, RULES, WIDTHS
from lte_tools.arguments import Parser

KINDS = ("field", "aligned", "wide")
KEYS = {"decibels": "to {} dB", "hertz": "offset to {} Hz", "paths": "{}", "carrier": "{}", "blocks": "{} blocks"}
KEYS |= {"bits": "{} bits", "load": "load {}"}
CARRIERS = ("one", "one", "one", "one", "one", "two", "two", "four", "four", "long")
PATHS = [("flat", 0), ("EPA", 0), ("EPA", 5), ("EVA", 5), ("EVA", 70), ("ETU", 5), ("ETU", 70)]
OFFSETS = ((0, 0), (0, 30), (30, 100), (100, 300))  # hertz
FOUND_NEAR = 24  # samples
STEPS = {"decibels": (20, 25, 30, 35, 45), "hertz": (0, 30, 100, 300)}
SHARES = ("signals", "identity", "broadcast", "master", "indicator", "control", "block", "heard")
SHARES += ("near mib", "nearest", "listed", "sib1")


def drawn_cell(name, kind, draw):
    """Returns a random cell; if it is 6 resource blocks wide, `transmit` accepts its plan."""
    while True:
        cell = faithful.drawn(draw, samples=57_600)
        if kind == "wide":
            cell["width"] = draw.randrange(1, 6)
        cell["ports"] = RULES[faithful.WORDS[name]].ports
        plan = {key: value for key, value in cell.items() if key not in ("width", "ports")}
        gains = cell["ports"] * ((1, 0),)
        if kind == "wide" or faithful.transmitted(name, plan, None, gains) is not None:
            return cell


def drawn_air(kind, draw):
    """Returns random conditions."""
    profile, doppler = draw.choice(PATHS)
    return on_air.Air(
        decibels=draw.uniform(15, 45),
        profile=profile,
        doppler=doppler,
        hertz=draw.choice([-1, 1]) * draw.uniform(*draw.choice(OFFSETS)),
        load=draw.choice([0, 0.25, 0.5, 0.75, 1]),
        bits=draw.choice([8, 16]),
        fraction=0 if kind == "aligned" else draw.random(),
        room=draw.uniform(12, 18),
        cutoff=draw.choice([620e3, 900e3]),
    )


def wanted(name, cell, is_whole):
    """Returns the keys of the entry that is promised."""
    want = {**faithful.wanted(RULES[faithful.WORDS[name]], cell), "bandwidth": WIDTHS[cell.get("width", 0)]}
    return want if is_whole else {key: value for key, value in want.items() if key != "sib1"}


def is_near(entry, cell):
    """Returns whether an entry has a cell's identity and spare bits, and begins near it."""
    apart = (entry["at"] - heard.start_of(cell) + FRAME // 2) % FRAME - FRAME // 2
    its = entry["identity"], 32 * entry["br"] + entry["spare"]
    return its == (cell["identity"], cell["spare"]) and abs(apart) <= FOUND_NEAR


def near_fault(name, cell, listed, shifts, is_whole):
    """Returns the part of the promise for a cell that is nearest at these shifts that a list does not meet, or nothing."""
    keys = wanted(name, cell, is_whole)
    for entry in listed:
        its = heard.later(cell, (entry["at"] - heard.start_of(cell) + FRAME // 2) % FRAME - FRAME // 2)
        want = wanted(name, its, is_whole)
        gaps = [heard.start_of(its) - heard.start_of(heard.later(cell, shift)) for shift in shifts]
        is_close = any(min(gap % FRAME, -gap % FRAME) <= heard.NEAR for gap in gaps)
        if is_close and all(entry[key] == want[key] for key in keys):
            return None
    return f"no entry near {shifts}" if shifts else None


def looked_at(name, cell, bits, data, r):
    """Returns which parts a recording meets, whether the cell and its SIB1 are listed, and which promise is broken."""
    words = [*faithful.WORDS[name], "--json", *(("--format", "cu8") if bits == 8 else ())]
    listed = json.loads(faithful.said(["search", *words], data))
    parts, shift = heard.best_parts(r, cell, RULES[faithful.WORDS[name]])
    row = {**parts._asdict(), "shift": shift, "fault": None}
    row |= {"master": parts.is_master_heard(), "heard": parts.is_heard()}
    near = [entry for entry in listed if is_near(entry, cell)]
    row["listed"] = bool(near)
    row["sib1"] = None if parts.block is None else any("none" not in entry["sib1"] for entry in near)
    if row["master"]:
        want = wanted(name, heard.later(cell, shift), row["heard"] and not cell.get("width"))
        row["fault"] = faithful.fault_of(want, listed, json.loads(faithful.said(["evidence", *words], data)))
    masters, cells = nearest.nearest(r, cell, RULES[faithful.WORDS[name]])
    row |= {"near mib": bool(masters), "nearest": bool(masters if cells is None else cells)}
    row["fault"] = row["fault"] or near_fault(name, cell, listed, masters, False)
    if not cell.get("width"):
        row["fault"] = row["fault"] or near_fault(name, cell, listed, masters if cells is None else cells, True)
    return row


def recording(kind, seed, carrier=None):
    """Returns the carrier, the cell and the conditions of a seed, and the recording as bytes and as samples."""
    draw, rng = random.Random(f"{kind} {carrier} {seed}"), np.random.default_rng([seed, *kind.encode()])
    name = carrier or draw.choice(CARRIERS)
    cell, air = drawn_cell(name, kind, draw), drawn_air(kind, draw)
    return name, cell, air, *on_air.received(name, cell, air, rng)


def tried(kind, seed, carrier=None):
    """Returns the row of a recording: conditions, parts, listed cells, and seconds."""
    began = time.monotonic()
    name, cell, air, data, r = recording(kind, seed, carrier)
    made = time.monotonic()
    row = {"kind": kind, "seed": seed, "carrier": name, "blocks": on_air.WIDTHS[cell.get("width", 0)]}
    row |= {**air._asdict(), "paths": f"{air.profile} {air.doppler} Hz"}
    row |= looked_at(name, cell, air.bits, data, r)
    return {**row, "made": made - began, "looked": time.monotonic() - made}


def groups(rows):
    """Returns pairs of a name and a part of the rows: all rows, and the rows with each value of a condition."""
    found = [("all", rows)]
    for key, text in KEYS.items():
        steps = STEPS.get(key)
        values = [min(most for most in steps if abs(row[key]) <= most) if steps else row[key] for row in rows]
        for value in sorted(set(values)):
            found.append((text.format(value), [row for row, its in zip(rows, values) if its == value]))
    return found


def share(rows, name):
    """Returns how many rows of a hundred have a part, or a dash if none could."""
    its = [row[name] for row in rows if row.get(name) is not None]
    return f"{100 * sum(its) / len(its):.1f}" if its else "-"


def table(rows):
    """Prints the tables of rows, and the recordings that are not listed as promised; returns their number."""
    for kind in KINDS:
        its = [row for row in rows if row["kind"] == kind]
        if not its:
            continue
        print(f"\n| {kind} | n | {' | '.join(SHARES)} |\n|---|{'---|' * (1 + len(SHARES))}")
        for name, group in groups(its):
            print(f"| {name} | {len(group)} | {' | '.join(share(group, part) for part in SHARES)} |")
        seconds = [sum(row[key] for row in its) / len(its) for key in ("made", "looked")]
        print("\n{:.2f} s to make a recording, {:.2f} s to look at it".format(*seconds))
    faults = [row for row in rows if row["fault"]]
    for row in faults:
        print(f"{row['kind']} {row['seed']} {row['carrier']}: not listed as promised: {row['fault']}")
    count = sum(row["master"] or row.get("near mib", False) for row in rows)
    print(f"{len(faults)} of {count} that meet a premise are not listed as promised")
    return len(faults)


def main():
    parser = Parser(__doc__)
    parser.add_argument("kinds", nargs="*", metavar="KIND", choices=[*KINDS, []])
    parser.add_argument("--count", type=int, default=20)
    parser.add_argument("--first", type=int, default=0)
    parser.add_argument("--carrier", choices=sorted(set(CARRIERS)))
    parser.add_argument("--rows", type=pathlib.Path)
    parser.add_argument("--table", type=pathlib.Path, nargs="+", default=())
    args = parser.parse_args()
    rows = [json.loads(line) for path in args.table for line in path.read_text().splitlines()]
    for kind in () if args.table else args.kinds or KINDS:
        for seed in range(args.first, args.first + args.count):
            rows.append(tried(kind, seed, args.carrier))
            if args.rows:
                with args.rows.open("a") as file:
                    file.write(json.dumps(rows[-1]) + "\n")
    sys.exit(table(rows) > 0)


if __name__ == "__main__":
    main()
