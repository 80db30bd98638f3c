#!/usr/bin/python3
"""lte_picture FILE -o OUT.png|OUT.svg|OUT.html [OPTIONS]

Draws the first second of a file from --at: spectrogram and spectrum, the PSS correlation with its detections, and for
each listed cell the PBCH constellation, the channel, the soft bits of the MIB, and the fields. Given the output of
lte_survey --json, draws a map or a chart over time.

The picture begins with the file as recorded: its spectrum over time at its own rate, in dBFS on one scale for all
files, with DC, samples at full scale and constant stretches marked. Then it shows what a receiver sees: the fraction of
the energy that the primary synchronisation signal explains at each sample, with the detections, and panels for each
listed cell. If no cell is listed, the strongest detection is drawn. --tune corrects the offset that `lte_tune tell`
estimates, unless no list has a cell then.

A survey with positions (--track) is drawn as a map and a table, any other as a chart of each cell's level and
signal-to-noise ratio over time. An HTML page has both, and the outputs of the programs.

Detections, identities, cells, evidence and the offset are those of lte_cli and lte_tune. The correlation at other
samples, the points, the channel and the soft values are those of lte_reference.search, which was written from
docs/DEFINITION.md (lte_reference.cell has the code).

    lte_picture drive.cu8 --rate 2.4e6 --at 12.5 --tune -o second.png
    lte_picture survey.json -o map.html

Debian: python3-numpy, python3-scipy, python3-matplotlib. Needs lte_cli and lte_tune (README, "Build").
"""
from __future__ import annotations

import argparse
import pathlib
from typing import TYPE_CHECKING

from . import machine, options
from .machine import Refused
from .options import PictureOptions
from .survey_data import Survey

if TYPE_CHECKING:
    from .picture_view import View


def survey_in(path: pathlib.Path) -> Survey | None:
    """Returns the survey that a file of JSON has, or None if it is a file of samples."""
    return Survey.read(path) if path.suffix == ".json" else None


def drawn(given: PictureOptions, form: str) -> bytes:
    """Returns the bytes of the requested picture or page."""
    from . import picture_panels, picture_view, radio_file
    from .page import saved

    found = survey_in(given.file)
    if found:
        return of_survey(found, given, form)
    file = radio_file.opened(given)
    file.check_holds(file.shift + (given.offset or 0), f"an offset of {given.offset or 0:,.0f} Hz")
    view = picture_view.view_of(given, file)
    return page_of_view(view, given.cells) if form == "html" else saved(picture_panels.sheet(view, given.cells), form)


def page_of_view(view: View, count: int) -> bytes:
    """Returns a page with the picture of some seconds of a file, and the programs' output."""
    from . import picture_panels
    from .page import details, image, page, text

    lines = "\n".join(f"<li>{text(line)}" for line in view.summary() if line)
    sheet = image(picture_panels.sheet(view, count), view.name)
    said = [details(name, value) for name, value in view.said.items()]
    return page(view.name, [f"<p>{text(view.facts)}", sheet, f"<ul>\n{lines}</ul>", *said])


def of_survey(found: Survey, given: PictureOptions, form: str) -> bytes:
    """Returns the picture or the page of a survey."""
    from . import picture_map, survey_page
    from .page import saved

    if form == "html":
        return survey_page.page_of(found, given.title)
    is_map = found.is_placed and not given.time
    return saved((picture_map.map_sheet if is_map else picture_map.time_sheet)(found, given.title), form)


def form_of(out: pathlib.Path) -> str:
    """Returns the form of the output; refuses one that cannot be written."""
    if out.suffix not in (".png", ".svg", ".html"):
        raise Refused(f"{out}: the name has to end in .png, .svg or .html")
    machine.check_place(out)
    return out.suffix[1:]


def parser() -> argparse.ArgumentParser:
    """Returns the parser of the arguments."""
    return options.picture_parser(__doc__)


def command() -> None:
    args = parser().parse_args()
    machine.check_packages("numpy", "scipy", "matplotlib")
    if args.cells < 0:
        raise Refused("--at and --cells are not below 0")
    given = options.options_of(PictureOptions, args)
    form, place = form_of(given.out), given.out.resolve()
    from .picture_style import begin

    begin()
    machine.write(place, drawn(given, form))


def main() -> None:
    machine.run(command)


if __name__ == "__main__":
    main()
