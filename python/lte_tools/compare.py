#!/usr/bin/python3
"""compare.py OURS THEIRS [--as FORM] [--columns C=H,..] [--fields F,..] [--tolerance DB] [--csv | --json] [--html OUT]
compare.py RECORDING THEIRS --bundle OUT.tar
compare.py --verify BUNDLE.tar

Compares our list of cells with that of another receiver: a verdict for each cell, and for each field that differs. OURS is
a survey that lte_survey --json wrote, or a recording, of which lte_survey's list is made first, with its options. THEIRS
is what the other receiver printed, or - for standard input.

THEIRS is recognised by its content, or named by --as: srsran (cell_search, pdsch_ue, srsue), cell-scanner (CellSearch),
openlte (LTE_fdd_dl_scan), matlab (enb as JSON or CSV), pcap (GSMTAP or LTE RRC, read by Debian's tshark), csv with a head
line, or ours. Columns of CSV whose headings are not known are named by --columns pci=PCI,earfcn=Channel,level=RSRP.

A level is compared after one constant for the whole list, and so are frame starts, to within the cyclic prefix, and frame
numbers. Widths, PHICH resources, identities, carriers and cell identities are compared whatever their spelling.
Of a recording, each cell that only THEIRS has states what lte_cli why, ids and ids --deep report at its place.
docs/COMPARE.md says what each verdict means.

--bundle writes one file to send: both lists, the verdicts, the windows of the recording that the differences need, what
lte_cli reports of them, and certificates. --verify runs all of it again, and prints in one line whether it holds.

Debian: for recordings python3-numpy, python3-scipy; for captures tshark; for --html python3-matplotlib.
"""
from __future__ import annotations

import argparse
import json
import pathlib

from . import (
    compare_bundle,
    compare_forms,
    compare_lists,
    compare_outputs,
    compare_tables,
    compare_verdicts,
    foreign,
    machine,
    options,
)
from .arguments import Parser, decibels
from .compare_verdicts import FIELDS, TOLERANCE
from .machine import Refused
from .survey_data import Survey

MOST_BYTES = 256_000_000  # of a list or a capture
DIFFER, REFUSED = 1, 2  # exit status


def fields(text: str) -> tuple[str, ...]:
    """Returns the fields of a list such as identity,tac."""
    found = tuple(part.strip() for part in text.split(","))
    if wrong := [one for one in found if one not in FIELDS]:
        raise argparse.ArgumentTypeError(f"{wrong[0]!r} is not one of {', '.join(FIELDS)}")
    return found


def columns(text: str) -> dict[str, str]:
    """Returns the headings of columns, as pci=PCI,earfcn=Channel."""
    try:
        return compare_tables.given_columns(text)
    except ValueError as fault:
        raise argparse.ArgumentTypeError(str(fault)) from None


def parser() -> argparse.ArgumentParser:
    """Returns the parser of the arguments."""
    found = Parser(__doc__)
    options.add_file_arguments(found, metavar="OURS", nargs="?")
    found.add_argument("theirs", metavar="THEIRS", nargs="?", type=pathlib.Path)
    found.add_argument("--as", dest="form_of_theirs", choices=compare_forms.NAMES, help="the form of THEIRS")
    found.add_argument("--columns", type=columns, metavar="C=H,..", default={}, help="headings of columns of CSV")
    found.add_argument("--fields", type=fields, metavar="F,..", default=FIELDS, help="compare only these fields")
    found.add_argument(
        "--tolerance", type=decibels, metavar="DB", default=TOLERANCE, help="dB by which a level may differ (2)"
    )
    options.add_window_arguments(found)
    found.add_argument("--bundle", type=pathlib.Path, metavar="OUT.tar", help="a file to send with all that is needed")
    found.add_argument(
        "--verify", type=pathlib.Path, metavar="BUNDLE.tar", help="whether a bundle holds on this machine"
    )
    found.add_argument("--html", type=pathlib.Path, metavar="OUT", help="a page with the verdicts")
    form = found.add_mutually_exclusive_group()
    form.add_argument("--csv", action="store_true", help="the verdicts for other programs")
    form.add_argument("--json", action="store_true", help="verdicts, levels and constants (docs/FORMATS.md)")
    return found


def command() -> None:
    args = parser().parse_args()
    if args.verify:
        verify(args.verify)
        return
    if args.file is None or args.theirs is None:
        parser().error("OURS and THEIRS are needed, or --verify BUNDLE.tar")
    given = options.options_of(options.SurveyOptions, args)
    given = options.checked_survey(given, args.every is not None)
    check(args, given)
    data, theirs = read(args.theirs, args.form_of_theirs, args.columns)
    survey = survey_of(given)
    ours = compare_lists.of_survey(survey, str(given.file))
    found = compare_verdicts.comparison_of(ours, theirs, args.fields, args.tolerance)
    if not given.is_survey and not given.scan:
        from . import compare_reasons

        asker = compare_reasons.Asker(given, survey)
        found = compare_reasons.with_reasons(found, theirs, asker, survey)
        if args.bundle:
            parts = compare_reasons.parts_of(found, ours, asker)
            asked = {"as": args.form_of_theirs, "columns": args.columns}
            asked |= {"fields": list(args.fields), "tolerance": args.tolerance}
            files = compare_bundle.files_of(found, survey, data, asked, parts)
            machine.write(args.bundle, compare_bundle.archive(files))
    if args.html:
        machine.write(args.html, compare_outputs.page_of(found))
    print(text_of(args, found), end="", flush=True)
    if not found.agrees:
        raise SystemExit(DIFFER)


def check(args: argparse.Namespace, given: options.SurveyOptions) -> None:
    """Refuses inputs that cannot be read again, and output files that cannot be written."""
    if given.is_input:
        raise Refused("OURS is a survey or a file of samples: - is only for THEIRS")
    if args.tolerance < 0:
        raise Refused(f"--tolerance {args.tolerance:g}: below 0 dB")
    if args.bundle and (given.is_survey or given.scan):
        raise Refused("--bundle: OURS has to be a recording, without --scan: its windows are in the bundle")
    if args.html:
        machine.check_packages("matplotlib", status=REFUSED)
    for out in (args.html, args.bundle):
        if out:
            machine.check_place(out, [*given.files, args.theirs])


def text_of(args: argparse.Namespace, found: compare_verdicts.Comparison) -> str:
    """Returns what goes to standard output."""
    if args.json:
        return json.dumps(compare_outputs.json_of(found), sort_keys=True, separators=(",", ":")) + "\n"
    return compare_outputs.csv_of(found) if args.csv else "\n".join([*compare_outputs.table_of(found), ""])


def verify(path: pathlib.Path) -> None:
    """Prints whether a bundle holds on this machine."""
    faults = compare_bundle.verify(path)
    print(compare_bundle.sentence(path, faults), flush=True)
    if faults:
        raise SystemExit(DIFFER)


def read(path: pathlib.Path, form: str | None, named: dict[str, str]) -> tuple[bytes, compare_lists.CellList]:
    """Returns the bytes of their list, and the list."""
    is_input = str(path) == "-"
    data = foreign.read_input(MOST_BYTES) if is_input else foreign.read(path, MOST_BYTES)
    return data, compare_forms.read(data, "standard input" if is_input else str(path), form, named)


def survey_of(given: options.SurveyOptions) -> Survey:
    """Returns our survey: that of a file of JSON, or of a recording."""
    if given.is_survey:
        return Survey.read(given.file)
    machine.check_packages("numpy", "scipy", status=REFUSED)
    return compare_lists.of_recording(given)


def main() -> None:
    machine.run(command, status=REFUSED)


if __name__ == "__main__":
    main()
