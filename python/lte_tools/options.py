"""Options of lte_survey and lte_picture as frozen dataclasses, and the parsers of their arguments.

Nothing here needs numpy, so that manual pages and completion are made without it.
"""
from __future__ import annotations

import argparse
import dataclasses
import datetime
import os
import pathlib
from dataclasses import dataclass
from typing import Any, TypeVar, Union

from . import bands, machine, track
from .arguments import (
    Parser,
    apart,
    carriers,
    count,
    decibels,
    gain,
    limits,
    network,
    not_negative,
    number,
    part,
    positive,
    processes,
    rate,
    side,
)
from .arguments import form as form_argument
from .machine import Refused

WINDOW = 0.17  # seconds of a window: the 17 frames that a list depends on
EVERY_OF_SCAN = 10.0  # seconds from one window of a scan to the next
LOWEST = 1e6  # hertz of a carrier: a lower number was meant in megahertz
Gain = Union[float, "tuple[tuple[float, float], ...]", None]  # in dB, or pairs of a second and dB
# options that say how samples are read and looked at
OF_SAMPLES = (
    "form",
    "rate",
    "shift",
    "at",
    "until",
    "part",
    "resume",
    "join",
    "so_far",
    "dask",
    "exchanged",
    "channel",
    "offset",
    "scan",
    "carriers",
    "deep",
    "every",
)
# options that ask for a table besides that of the cells
TABLES = ("plan", "clashes", "coverage", "servers", "grid", "pollution", "neighbours", "classes")
FORMS = ("u8", "s8", "s16", "f32", "sigmf")


@dataclass(frozen=True)
class FileOptions:
    """Where samples are, and how they are read: `rate` in samples per second, `shift` in hertz above the file's centre,
    `carrier` in hertz (0: not known), `at` the second at which to begin. The samples of `further` files follow."""

    file: pathlib.Path
    form: str | None = None
    rate: float | None = None
    shift: float | None = None
    carrier: float = 0
    at: float = 0
    exchanged: bool = False
    channel: int | None = None
    further: tuple[pathlib.Path, ...] = ()

    @property
    def files(self) -> tuple[pathlib.Path, ...]:
        """The file, and those that go on where it ends."""
        return (self.file, *self.further)

    @property
    def is_input(self) -> bool:
        """Whether samples come on standard input."""
        return str(self.file) == "-"


@dataclass(frozen=True)
class SurveyOptions(FileOptions):
    """Options of a survey: `every` in seconds, `offset` in hertz, `gain` in dB, or pairs of a second of the file and the dB
    from there on, `jobs` processes, `network` as 262-02, `clashes` in dB, `coverage` a level in the survey's unit and a
    ratio in dB, `grid` metres of a square's side, `pollution` a number of cells. `until`
    is a second, `part` a number from 1 and the count of parts, `resume` and `join` are journals, `dask` is a scheduler's
    address."""

    every: float = WINDOW
    until: float | None = None
    part: tuple[int, int] | None = None
    resume: pathlib.Path | None = None
    join: tuple[pathlib.Path, ...] = ()
    so_far: bool = False
    dask: str | None = None
    offset: float | None = None
    gain: Gain = None
    jobs: int = 1
    scan: bool = False
    carriers: tuple[float, ...] = ()
    deep: bool = False
    earfcn: int | None = None
    follow: bool = False
    wait: bool = False
    track: pathlib.Path | None = None
    gpsd: pathlib.Path | None = None
    start: datetime.datetime | None = None
    geojson: pathlib.Path | None = None
    pcap: pathlib.Path | None = None
    html: pathlib.Path | None = None
    csv_windows: pathlib.Path | None = None
    kml: pathlib.Path | None = None
    plan: pathlib.Path | None = None
    network: str | None = None
    clashes: float | None = None
    coverage: tuple[float, float] | None = None
    servers: bool = False
    grid: float | None = None
    pollution: int | None = None
    neighbours: bool = False
    classes: bool = False
    csv: bool = False
    json: bool = False

    @property
    def has_places(self) -> bool:
        """Whether a track is asked for."""
        return self.track is not None or self.gpsd is not None

    @property
    def is_scan(self) -> bool:
        """Whether several frequencies are looked at."""
        return self.scan or bool(self.carriers)

    @property
    def is_kept(self) -> bool:
        """Whether a journal has answers, or gets them."""
        return self.resume is not None or bool(self.join)

    @property
    def is_survey(self) -> bool:
        """Whether the file is a survey that was made before, by its name."""
        return self.file.suffix == ".json"


@dataclass(frozen=True)
class PictureOptions(FileOptions):
    """Options of a picture: `offset` in hertz, `cells` at most, `title` in place of the file's name."""

    out: pathlib.Path = pathlib.Path("-")
    tune: bool = False
    offset: float | None = None
    cells: int = 4
    time: bool = False
    title: str | None = None


T = TypeVar("T", bound=FileOptions)


def options_of(kind: type[T], args: argparse.Namespace) -> T:
    """Returns the options that arguments name; the others keep their defaults."""
    names = {one.name for one in dataclasses.fields(kind)}
    found = {key: value for key, value in vars(args).items() if key in names and value is not None}
    if "join" in found:
        found["join"] = tuple(found["join"])
    if isinstance(found["file"], list):
        first, *further = found["file"]
        found |= {"file": first, "further": tuple(further)}
    return kind(**found)


# ---- parsers


def add_file_arguments(parser: Any, **keys: Any) -> None:
    """Adds what a tool asks of a file; `keys` are those of its argument."""
    found: dict[str, Any] = {"metavar": "FILE", "type": pathlib.Path, **keys}
    parser.add_argument("file", **found)
    says = "by the file's name where it is left out, else s16"
    parser.add_argument("--form", "--format", type=form_argument, choices=FORMS, help=says)
    parser.add_argument("--rate", type=rate, help="samples per second; of SigMF and WAV what they say, else 1.92e6")
    parser.add_argument("--shift", type=number, help="hertz above the file's centre at which the cell stands (0)")
    parser.add_argument(
        "--carrier", type=number, default=0, help="the cell's frequency in hertz, for ppm, SigMF and WAV"
    )
    parser.add_argument("--at", type=not_negative, default=0, help="the second at which to begin (0)")
    parser.add_argument("--exchanged", action="store_true", help="Q comes before I in the file")
    parser.add_argument("--channel", type=int, help="of several channels of SigMF this one, from 0")


def add_window_arguments(parser: argparse.ArgumentParser) -> None:
    """Adds how a survey looks at a file."""
    add: Any = parser.add_argument
    add("--every", type=apart, help="seconds from one window to the next (0.17, of --scan 10)")
    add("--offset", type=number, help="hertz to take off at first, in place of what lte_tune tells")
    add(
        "--gain",
        type=gain,
        help="dBFS of a signal of 0 dBm at the antenna: levels are in dBm then; or 0:-20,14:-14 by time",
    )
    add("--jobs", type=processes, default=os.cpu_count() or 1, help="processes (one a processor), at most one a window")
    add("--scan", action="store_true", help="look at each carrier of the 100 kHz raster in the file")
    add(
        "--deep",
        action="store_true",
        help="also cells far below the strongest one, of which the identity alone is read",
    )
    add("--earfcn", type=int, metavar="N", help="the cell's carrier by its number, for --carrier")


def time_of(text: str) -> datetime.datetime:
    """Returns a time with its zone."""
    try:
        return datetime.datetime.fromtimestamp(track.seconds_of(text), track.UTC)
    except (track.BadTrack, ValueError, OverflowError, OSError) as fault:
        raise argparse.ArgumentTypeError(str(fault)) from None


def survey_parser(text: str | None) -> argparse.ArgumentParser:
    """Returns the parser of lte_survey."""
    parser = Parser(text)
    add_file_arguments(parser, nargs="+", help="a file, or several that are one drive")
    add: Any = parser.add_argument
    add_window_arguments(parser)
    add("--until", type=positive, metavar="S", help="the second at which to end (the file's end)")
    add(
        "--resume",
        type=pathlib.Path,
        metavar="FILE",
        help="a journal: what it has is not asked again, the rest is added",
    )
    add(
        "--so-far",
        action="store_true",
        help="the survey of what the journal of --resume has, without further questions",
    )
    add("--part", type=part, metavar="K/N", help="the windows of part K of N alone, as for a job array")
    add(
        "--join",
        type=pathlib.Path,
        metavar="FILE",
        nargs="+",
        help="journals of parts: what they have is not asked again",
    )
    add("--dask", metavar="ADDRESS", help="ask the workers of this Dask scheduler, as tcp://10.0.0.1:8786")
    add("--carriers", type=carriers, metavar="LIST", help="scan these alone: EARFCNs or hertz, as 1500,1550,796e6")
    add(
        "--follow",
        action="store_true",
        help="of -: a line a window and cell as it is found; a named pipe may begin again",
    )
    add("--wait", action="store_true", help="of -: a pipe from a file, which waits: nothing is skipped")
    add("--track", type=pathlib.Path, help="places by time: a .gpx, .nmea or .csv file, or .json of gpsd")
    add("--gpsd", type=pathlib.Path, metavar="PIPE", help="places by time: JSON of gpsd, as gpspipe -w writes it")
    add("--start", type=time_of, help="when the first sample was, as 2026-05-01T09:30:00+02:00")
    add("--geojson", type=pathlib.Path, metavar="OUT", help="a file for the cells and their places")
    add("--pcap", type=pathlib.Path, metavar="OUT", help="a file for Wireshark with MIB and SIB1")
    add("--html", type=pathlib.Path, metavar="OUT", help="a page with the table, a map and pictures")
    add("--csv-windows", type=pathlib.Path, metavar="OUT", help="a table by window, also of windows without a cell")
    add("--kml", type=pathlib.Path, metavar="OUT", help="the way, the cells and their places for other maps")
    add("--plan", type=pathlib.Path, metavar="CSV", help="compare with planned cells: identity,cell,tac,lat,lon ..")
    add(
        "--network", type=network, metavar="PLMN", help="only the cells of this network, as 262-02, and on its carriers"
    )
    add("--clashes", type=decibels, metavar="DB", help="cells within DB in the same windows, with modulo 3, 6, 30")
    add("--coverage", type=limits, metavar="LEVEL,RATIO", help="how much is above a level and a ratio in dB")
    add("--servers", action="store_true", help="the best server along the way, with RSRP, RSRQ and SINR")
    add("--grid", type=side, metavar="M", help="the best server in squares of M metres, with a map in --html")
    add("--pollution", type=count, metavar="N", help="where N cells or more are within 6 dB of the best server")
    add("--neighbours", action="store_true", help="for each best server the cells that are heard with it")
    add("--classes", action="store_true", help="how much of the way each class of RSRP, RSRQ and SINR has")
    form = parser.add_mutually_exclusive_group()
    form.add_argument("--csv", action="store_true", help="the table for other programs, with the file's name")
    form.add_argument("--json", action="store_true", help="all that is known of each cell and window (docs/FORMATS.md)")
    return parser


def picture_parser(text: str | None) -> argparse.ArgumentParser:
    """Returns the parser of lte_picture."""
    parser = Parser(text, brief=True)
    add_file_arguments(parser.add_argument_group("file"))
    add: Any = parser.add_argument_group("picture").add_argument
    add("-o", dest="out", metavar="OUT", type=pathlib.Path, required=True, help="the picture (.png, .svg or .html)")
    add("--tune", action="store_true", help="correct the offset that lte_tune estimates")
    add("--offset", type=number, metavar="HZ", help="correct this frequency offset")
    add("--cells", type=int, metavar="N", default=4, help="maximum number of cells (4)")
    add("--time", action="store_true", help="for a survey with positions: over time, instead of the map")
    add("--title", metavar="TEXT", help="title, instead of the file's name")
    return parser


# ---- checks


def checked(options: T) -> T:
    """Returns options of a file; refuses a carrier that was meant in megahertz."""
    if options.carrier and options.carrier < LOWEST:
        raise Refused(f"--carrier {options.carrier:g}: that is in hertz, 796 MHz are 796e6")
    return options


def checked_survey(options: SurveyOptions, has_every: bool = True) -> SurveyOptions:
    """Returns the options of a survey with the carrier of --earfcn; refuses options that exclude each other, and output
    files that cannot be written."""
    if options.earfcn is not None:
        options = dataclasses.replace(options, carrier=carrier_of(options))
    if options.carriers:
        options = dataclasses.replace(options, carriers=tuple(map(hertz_of, options.carriers)))
    if options.is_scan and not has_every:
        options = dataclasses.replace(options, every=EVERY_OF_SCAN)
    check_input(options)
    check_campaign(options)
    check_tables(options)
    for name in ("geojson", "kml"):
        if getattr(options, name) and not options.has_places and not options.is_survey:
            raise Refused(f"--{name}: --track FILE says where the places are")
    if options.track and options.gpsd:
        raise Refused("--track and --gpsd: one of them says where the places are")
    for out in (options.geojson, options.kml, options.csv_windows, options.pcap, options.html):
        if out:
            machine.check_place(out, [*options.files, options.track, options.gpsd, options.plan])
    if options.html:
        machine.check_packages("matplotlib")
    return checked(options)


def hertz_of(carrier: float) -> float:
    """Returns the frequency in hertz of a carrier that --carriers names, by its number or its frequency."""
    frequency = carrier if carrier >= LOWEST else bands.frequency_of(round(carrier))
    if frequency is None:
        raise Refused(f"--carriers {carrier:g}: no downlink of an FDD band has it")
    return frequency


def carrier_of(options: SurveyOptions) -> float:
    """Returns the carrier in hertz of the number that --earfcn has."""
    if options.carrier:
        raise Refused("--earfcn and --carrier: one of them says the frequency")
    frequency = bands.frequency_of(options.earfcn or 0)
    if frequency is None:
        raise Refused(f"--earfcn {options.earfcn}: no downlink of an FDD band has it")
    return frequency


def check_input(options: SurveyOptions) -> None:
    """Refuses options that are only for standard input, or only for a file."""
    if options.further and pathlib.Path("-") in options.files:
        raise Refused("-: standard input is not one of several files")
    if options.deep and options.is_scan:
        raise Refused("--deep and --scan or --carriers: one of them")
    if options.scan and options.carriers:
        raise Refused("--scan and --carriers: one of them")
    if options.is_input:
        if options.is_scan:
            raise Refused(f"-: --{'scan' if options.scan else 'carriers'} needs a file")
        if options.wait and options.has_places and options.start is None:
            raise Refused("-: with --wait the samples come later than they were received: --start says when that was")
    elif options.follow or options.wait:
        raise Refused(f"{options.file}: --{'follow' if options.follow else 'wait'} is for -, standard input")


def check_campaign(options: SurveyOptions) -> None:
    """Refuses options of journals, parts and Dask that do not fit the others."""
    if options.is_input:
        for name in ("until", "part", "resume", "join", "dask"):
            if getattr(options, name):
                raise Refused(f"-: --{name} needs a file")
    if options.until is not None and options.until <= options.at:
        raise Refused(f"--until {options.until:g}: not after --at {options.at:g}")
    if options.so_far and options.resume is None:
        raise Refused("--so-far: --resume FILE says which journal")
    if options.so_far and (options.join or options.part):
        raise Refused("--so-far: without --join and --part")
    if options.join and options.part:
        raise Refused("--join and --part: a part has a journal of its own, by --resume")
    for one in options.join:
        if options.resume and one.exists() and options.resume.exists() and one.samefile(options.resume):
            raise Refused(f"{one}: --resume and --join have it both")
    if options.resume and not options.so_far:
        machine.check_place(options.resume, [*options.files, options.track, options.gpsd, options.plan])
    if options.dask is not None:
        machine.check_packages("distributed")


def check_tables(options: SurveyOptions) -> None:
    """Refuses two tables in one CSV, and options of samples for a survey that was made before."""
    asked = [name for name in TABLES if getattr(options, name) not in (None, False)]
    if options.csv and asked[1:]:
        raise Refused(f"--csv writes one table: --{asked[0]} or --{asked[1]}")
    if options.further and any(one.suffix == ".json" for one in options.files):
        raise Refused("a survey (.json) is not one of several files")
    if options.is_survey:
        defaults = SurveyOptions(options.file)
        for name in OF_SAMPLES:
            if getattr(options, name) != getattr(defaults, name):
                raise Refused(f"{options.file}: a survey, in which --{name} changes nothing")
