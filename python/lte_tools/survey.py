#!/usr/bin/python3
"""survey.py FILE [--form u8|s8|s16|f32|sigmf] [--rate R] [--shift HZ] [--at S] [--every S] [--csv | --json]
survey.py PART.. [--rate R] [--json]
survey.py FILE --track TRACK [--start TIME] [--html OUT] [--geojson OUT]
survey.py FILE --pcap OUT.pcap
survey.py FILE --scan [--carrier CENTRE]
survey.py FILE --carriers LIST [--carrier CENTRE]
survey.py FILE --deep
survey.py FILE --resume JOURNAL [--so-far]
survey.py FILE --part K/N --resume JOURNAL
survey.py FILE --join JOURNAL..
survey.py SURVEY.json [--track TRACK] [--start TIME] [--gain DB] [--carrier HZ]
survey.py SURVEY.json [--plan CSV] [--clashes DB] [--coverage LEVEL,RATIO] [--csv-windows OUT] [--kml OUT]
survey.py SURVEY.json [--servers] [--grid M] [--pollution N] [--neighbours] [--classes]
rtl_sdr -f 796e6 -s 1.92e6 - | survey.py - --form u8 --rate 1.92e6 --follow

Prints one line for each LTE cell in a radio's file of any length: identity, MIB, SIB1, level, signal-to-noise ratio,
frequency offset, and the windows that list it. `?` marks a cell that chance explains, and a doubtful one has a word.
docs/RECORDINGS.md, "A whole file", describes each column.

The file is read in windows of 17 frames, one after the other or every S seconds. `lte_tune tell` estimates the
frequency offset, `lte_cli evidence --all` lists the cells of each window, and `lte_cli search --rate` reads SIB1 at any
bandwidth that the file holds. Lines are one cell if identity, frame numbers and offset fit. Missing samples, a restarted
radio and a repeated recording are stated below the table. If noise and cells step together, the radio's gain has
changed, and levels are those at the first gain; with --gain (-20, or by time 0:-20,14:-14: dBFS of a signal of 0 dBm)
steps are not searched for. If no cell is certain, I and Q are also tried exchanged.

Several files are one drive, in the order of their times, which SigMF, a WAV header or the names have. --track and --gpsd
give places by time. Standard input (-) is read as it comes. A survey that --json wrote (.json) may be given in place of
samples; it takes the options that need none.

Debian: python3-numpy, python3-scipy; for --html python3-matplotlib, for --dask python3-distributed. Needs lte_cli and
lte_tune (README, "Build").
"""
from __future__ import annotations

import argparse
import sys
import types
from typing import Any

from . import machine, options, programs


def parser() -> argparse.ArgumentParser:
    """Returns the parser of the arguments."""
    return options.survey_parser(__doc__)


def command() -> None:
    args = parser().parse_args()
    machine.check_packages("numpy", "scipy")
    given = options.checked_survey(options.options_of(options.SurveyOptions, args), args.every is not None)
    from . import survey_outputs

    planned = survey_outputs.planned_of(given)
    survey = programs.surveyed(given)
    survey_outputs.write(given, survey)
    print(survey_outputs.text_of(given, survey, planned), end="", flush=True)
    survey_outputs.write_page(given, survey, planned)


def main() -> None:
    machine.run(command)


class SurveyModule(types.ModuleType):
    """This module, which is also `lte_tools.survey`, the function of programs.py."""

    def __call__(self, *args: Any, **keys: Any) -> Any:
        return programs.survey(*args, **keys)


sys.modules[__name__].__class__ = SurveyModule


if __name__ == "__main__":
    main()
