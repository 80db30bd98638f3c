#!/usr/bin/python3
"""lte_diff BEFORE.json AFTER.json [OPTIONS]

Compares two surveys of one area (outputs of lte_survey --json): for each cell its level and S/N before and after, and
whether it appeared, disappeared, or changed its PCI.

If both surveys have positions (--track), squares of M metres that both tracks pass are compared. A cell's level in a
square is the median over the windows there that list it, and the difference is the median over the squares. Squares in
which only one survey lists the cell are counted as gained or lost. Without positions, the medians over all windows are
compared. Levels in dBFS can be compared only if the radio's gain was the same; lte_survey --gain gives dBm.

--csv-places writes a line for each cell and square, and for the strongest cell of each square. --picture draws the
squares on a map: how much the strongest cell's level changed, and where there is a cell only before, or only after.

    lte_diff before.json after.json
    lte_diff before.json after.json --picture changes.png --square 100

Debian: for --picture python3-numpy, python3-matplotlib.
"""
from __future__ import annotations

import argparse
import json
import pathlib

from . import machine, survey_diff
from .arguments import Parser, positive
from .machine import Refused
from .survey_data import Survey
from .survey_diff import SQUARE, Difference

FORMS = (".png", ".svg")


def parser() -> argparse.ArgumentParser:
    """Returns the parser of the arguments."""
    found = Parser(__doc__, brief=True)
    found.add_argument("before", metavar="BEFORE", type=pathlib.Path, help="the earlier survey (JSON)")
    found.add_argument("after", metavar="AFTER", type=pathlib.Path, help="the later survey (JSON)")
    by_place = found.add_argument_group("by place")
    by_place.add_argument(
        "--square", type=positive, metavar="M", default=SQUARE, help="side of a square in metres (50)"
    )
    by_place.add_argument("--csv-places", type=pathlib.Path, metavar="OUT", help="CSV with a line per cell and square")
    by_place.add_argument("--picture", type=pathlib.Path, metavar="OUT", help="a map (.png or .svg)")
    form = found.add_argument_group("output (default: a table)").add_mutually_exclusive_group()
    form.add_argument("--csv", action="store_true", help="one line per cell")
    form.add_argument("--json", action="store_true", help="all values of each cell and square")
    return found


def command() -> None:
    args = parser().parse_args()
    check_outputs(args)
    before, after = Survey.read(args.before), Survey.read(args.after)
    for path, survey in ((args.before, before), (args.after, after)):
        if (args.picture or args.csv_places) and not survey.is_placed:
            raise Refused(f"{path}: no place in it: lte_survey --track gives places")
    found = survey_diff.difference_of(before, after, args.square, (str(args.before), str(args.after)))
    if args.csv_places:
        machine.write(args.csv_places, survey_diff.csv_of_places(found).encode())
    if args.picture:
        draw(args.picture, found)
    if args.json:
        print(json.dumps(found.to_json(), sort_keys=True, separators=(",", ":")))
    elif args.csv:
        print(survey_diff.csv_of(found), end="")
    else:
        print("\n".join(map(machine.plain, survey_diff.table_of(found))))


def check_outputs(args: argparse.Namespace) -> None:
    """Refuses output files that cannot be written, and squares that are too small or too large."""
    if not 1 <= args.square <= 100_000:
        raise Refused(f"--square {args.square:g}: from 1 to 100,000 metres")
    if args.picture:
        machine.check_packages("numpy", "matplotlib")
        if args.picture.suffix not in FORMS:
            raise Refused(f"{args.picture}: .png or .svg is written")
    for out in (args.csv_places, args.picture):
        if out:
            machine.check_place(out, [args.before, args.after])


def draw(out: pathlib.Path, found: Difference) -> None:
    """Writes the map of a difference."""
    from . import picture_diff

    machine.write(out.resolve(), picture_diff.drawn(found, out.suffix[1:]))


def main() -> None:
    machine.run(command)


if __name__ == "__main__":
    main()
