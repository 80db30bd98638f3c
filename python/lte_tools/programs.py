"""The programs from Python: lists of cells, reasons, detections, evidence, frequency offsets, transmissions and surveys.

    import lte_tools
    for cell in lte_tools.search("drive.cu8", rate=2.4e6, shift=300e3):
        print(cell.identity, cell.sib1)

`lte_cli` and `lte_tune` are the proved programs: those that LTE_CLI and LTE_TUNE name, else next to the command that was
called, else built in this clone, else on PATH. What they answer comes as frozen dataclasses (answers.py, reasons.py). If a
program refuses, `ProgramRefused` has its cause and exit code; what no program was asked for is `Refused`.

Samples are `bytes` of a recording (signed 16-bit I and Q at 1.92 million samples per second; with `format="u8"` bytes as
rtl_sdr writes them), a complex numpy array of any scale, or the path of a file that lte_survey reads. Of an array or a
file at most one second is read.

With `wide_rate` the program reads a recording at this rate (1.92e6, 3.84e6, 7.68e6, 15.36e6 or 30.72e6 samples per
second), so that SIB1 of cells with more than six resource blocks, or four ports, is read too (`lte_cli --rate`). Bytes
have this rate. An array or a file is converted to it, and 0.2 seconds are read: more than a list depends on.
"""
from __future__ import annotations

import json
import numbers
import os
import pathlib
import subprocess
from dataclasses import dataclass
from typing import TYPE_CHECKING, Any, Generic, Iterator, Mapping, TypeVar, Union

from . import foreign, machine, options, rates, records
from .answers import Answer, Cell, CellEvidence, Deep, Evidence, Hit, Identity, Tuning
from .machine import ProgramRefused, Refused
from .reasons import Why
from .rules import RULES, Rule
from .survey_data import Survey

if TYPE_CHECKING:
    from .engine import Map
    from .radio import Complex

Samples = Union[bytes, str, "os.PathLike[str]", "Complex"]
A = TypeVar("A", bound=Answer)
RATE = rates.NARROW  # samples per second of a recording
MOST_DESCRIPTION = 65_536  # bytes that `transmit` reads


@dataclass(frozen=True)
class Answers(Generic[A]):
    """The answers of one run, in the program's order."""

    items: tuple[A, ...]

    def __iter__(self) -> Iterator[A]:
        return iter(self.items)

    def __len__(self) -> int:
        return len(self.items)

    def __getitem__(self, place: int) -> A:
        return self.items[place]

    def to_json(self) -> list[dict[str, Any]]:
        """Returns the JSON that the program wrote."""
        return [one.to_json() for one in self.items]

    def to_rows(self) -> list[dict[str, Any]]:
        """Returns a row for each answer, for pandas.DataFrame."""
        return [one.to_row() for one in self.items]


@dataclass(frozen=True)
class Transmission:
    """The samples of a described cell: `data` are signed 16-bit I and Q at 1.92 million samples per second."""

    data: bytes

    @property
    def samples(self) -> "Complex":
        """The samples as a complex array, in units of the 16-bit numbers."""
        from . import radio

        return radio.from_bytes(self.data)


# ---- recordings


@dataclass(frozen=True)
class Recording:
    """What a program reads: bytes, and the arguments that say their form."""

    data: bytes
    arguments: tuple[str, ...] = ()


@dataclass(frozen=True)
class Reading:
    """How samples are read: `rate` in samples per second, `format`, `shift` in hertz, `at` in seconds, and `wide_rate`, the
    rate at which a program reads them, or None."""

    rate: float
    format: str | None
    shift: float
    at: float
    wide_rate: float | None = None

    @property
    def to(self) -> int:
        """The rate of the recording that is made."""
        return round(self.wide_rate or RATE)

    @property
    def seconds(self) -> float:
        """The seconds of the recording that is made."""
        return 1 if self.wide_rate is None else rates.SECONDS


def recording_of(samples: Samples, reading: Reading) -> Recording:
    """Returns the recording of samples, and the arguments that state its form."""
    arguments = rates.arguments_of(reading.wide_rate)
    if isinstance(samples, bytes):
        if reading.rate != RATE or reading.shift or reading.at or reading.format not in (None, "s16", "u8"):
            raise Refused(
                "bytes are a recording at 1.92e6 samples per second, or at wide_rate: name a file, or give an array"
            )
        return Recording(samples, (*(("--format", "cu8") if reading.format == "u8" else ()), *arguments))
    if isinstance(samples, (str, os.PathLike)):
        return Recording(of_file(pathlib.Path(samples), reading), arguments)
    return Recording(of_array(samples, reading), arguments)


def of_file(path: pathlib.Path, reading: Reading) -> bytes:
    """Returns the recording of the first seconds of a file."""
    from . import radio_file

    rate = None if reading.rate == RATE else reading.rate
    found = options.FileOptions(path, form=reading.format, rate=rate, shift=reading.shift, at=reading.at)
    return radio_file.opened(found).recording(reading.at, reading.seconds, rate=reading.to)[0]


def of_array(samples: Any, reading: Reading) -> bytes:
    """Returns the recording of the first seconds of a complex array."""
    import numpy as np

    from . import radio
    from .to_ci16 import converted

    x = np.asarray(samples, complex).ravel()[round(reading.at * reading.rate) :]
    x = x[: round(1.05 * reading.seconds * reading.rate)]
    if not len(x) or not np.all(np.isfinite(x.real) & np.isfinite(x.imag)):
        raise Refused("an array without samples, or with numbers that are not finite")
    is_as_it_is = reading.rate == reading.to and not reading.shift
    x = x if is_as_it_is else converted(x, reading.rate, reading.shift, reading.to)
    x = x[: round(reading.seconds * reading.to)]
    return radio.to_bytes(x * (radio.FULL / 2 / (radio.peak(x) or 1)))


def rule_of(ports: int, prefix: str) -> Rule:
    """Returns the rule for this many antenna ports and this cyclic prefix."""
    for rule in RULES:
        if (rule.name == "long-prefix") == (prefix == "long") and rule.ports == ports:
            return rule
    raise Refused(f"ports {ports}, prefix {prefix}: 1, 2 or 4 with prefix normal, or 1 with prefix long")


# ---- the programs


def answer(program: str, arguments: tuple[str, ...], data: bytes, definition: str) -> Any:
    """Returns a program's JSON answer for `data`, checked by a definition of the schema."""
    found = machine.answer([machine.program(program), *arguments], data)
    foreign.check(found, definition, f"{program} {' '.join(arguments)}")
    return found


def listed(kind: type[A], arguments: tuple[str, ...], recording: Recording, definition: str) -> Answers[A]:
    """Returns the answers of lte_cli."""
    found = answer("lte_cli", (*arguments, *recording.arguments), recording.data, definition)
    return Answers(records.typed(tuple[kind, ...], found))  # type: ignore[valid-type]


def hits(
    samples: Samples,
    *,
    rate: float = RATE,
    format: str | None = None,
    shift: float = 0,
    at: float = 0,
    wide_rate: float | None = None,
) -> Answers[Hit]:
    """Returns the PSS detections of a recording (`lte_cli hits`).

    `rate` is in samples per second, `format` u8, s8, s16, f32 or sigmf (by the file's name if it is None), `shift` how
    many hertz above the centre the cell is, `at` the second of the file at which to begin. `wide_rate` is the rate in
    samples per second at which the program reads the recording (`--rate`): 1.92e6, 3.84e6, 7.68e6, 15.36e6 or 30.72e6,
    or None for a recording at 1.92e6 without `--rate`; other values are refused. Positions are samples at 1.92e6 with
    each rate.
    """
    recording = recording_of(samples, Reading(rate, format, shift, at, wide_rate))
    return listed(Hit, ("hits", "--json"), recording, "hits")


def ids(
    samples: Samples,
    *,
    rate: float = RATE,
    format: str | None = None,
    shift: float = 0,
    at: float = 0,
    wide_rate: float | None = None,
) -> Answers[Identity]:
    """Returns the PSS detections with their cell identities (`lte_cli ids`); parameters as in `hits`."""
    recording = recording_of(samples, Reading(rate, format, shift, at, wide_rate))
    return listed(Identity, ("ids", "--json"), recording, "ids")


def deep(
    samples: Samples,
    *,
    rate: float = RATE,
    format: str | None = None,
    all: bool = False,
    shift: float = 0,
    at: float = 0,
    wide_rate: float | None = None,
) -> Deep:
    """Returns the cells that are detected over many half-frames, also far below the strongest one (`lte_cli ids --deep`).

    They are detected in the recording's first 326,400 samples, with `all` in all of it; the other parameters are as in
    `hits`.
    """
    return deep_of(recording_of(samples, Reading(rate, format, shift, at, wide_rate)), all)


def deep_of(recording: Recording, is_all: bool = False) -> Deep:
    """Returns the cells that are detected over many half-frames of a recording."""
    arguments = ("ids", "--deep", *(("all",) if is_all else ()), "--json", *recording.arguments)
    return records.from_json(Deep, answer("lte_cli", arguments, recording.data, "ids_deep"))


def search(
    samples: Samples,
    *,
    rate: float = RATE,
    format: str | None = None,
    ports: int = 1,
    prefix: str = "normal",
    all: bool = False,
    shift: float = 0,
    at: float = 0,
    wide_rate: float | None = None,
) -> Answers[Cell]:
    """Returns the list of cells (`lte_cli search`), exactly the one that docs/DEFINITION.md defines for the recording.

    `ports` (1, 2 or 4) and `prefix` (normal or long) select the rule; with `all` the lists of all four rules are
    returned, each cell with its `rule`. The other parameters are as in `hits`; with a `wide_rate` whose subcarriers hold
    the cell, SIB1 is read at any bandwidth and with four ports.
    """
    arguments = ("search", "--all", "--json") if all else ("search", *rule_of(ports, prefix).arguments, "--json")
    recording = recording_of(samples, Reading(rate, format, shift, at, wide_rate))
    return listed(Cell, arguments, recording, "search_all" if all else "search")


def evidence(
    samples: Samples,
    *,
    rate: float = RATE,
    format: str | None = None,
    ports: int = 1,
    prefix: str = "normal",
    all: bool = False,
    shift: float = 0,
    at: float = 0,
    wide_rate: float | None = None,
) -> Answers[Evidence]:
    """Returns what supports each cell of a list (`lte_cli evidence`); parameters as in `search`. With `all` the answers are
    `CellEvidence`: the cells of all four lists, each with its `rule` and what supports it."""
    recording = recording_of(samples, Reading(rate, format, shift, at, wide_rate))
    return Answers(every_evidence(recording).items) if all else evidence_of(recording, rule_of(ports, prefix))


def evidence_of(recording: Recording, rule: Rule) -> Answers[Evidence]:
    """Returns what supports each cell of a rule's list."""
    return listed(Evidence, rule.evidence, recording, "evidence")


def every_evidence(recording: Recording) -> Answers[CellEvidence]:
    """Returns the lines of all four lists, each with what supports it."""
    return listed(CellEvidence, ("evidence", "--all", "--json"), recording, "evidence_all")


def why(
    samples: Samples,
    identity: int,
    *,
    rate: float = RATE,
    format: str | None = None,
    ports: int = 1,
    prefix: str = "normal",
    shift: float = 0,
    at: float = 0,
    wide_rate: float | None = None,
) -> Why:
    """Returns why the list of `search` with the same parameters has the cell with this identity (0 to 503), or the first
    rule that it fails at each PSS detection (`lte_cli why`)."""
    if not isinstance(identity, numbers.Integral) or not 0 <= identity <= 503:
        raise Refused(f"identity {foreign.shown(identity)}: a whole number from 0 to 503 is needed")
    rule = rule_of(ports, prefix)
    return reasons_for(int(identity), rule, recording_of(samples, Reading(rate, format, shift, at, wide_rate)))


def reasons_for(identity: int, rule: Rule, recording: Recording) -> Why:
    """Returns the reasons for an identity in a rule's list of a recording."""
    arguments = ("why", str(identity), *rule.arguments, "--json", *recording.arguments)
    return records.from_json(Why, answer("lte_cli", arguments, recording.data, "why"))


def tell(
    samples: Samples,
    *,
    rate: float = RATE,
    format: str | None = None,
    shift: float = 0,
    at: float = 0,
    wide_rate: float | None = None,
) -> Tuning:
    """Returns the frequency offset of a recording (`lte_tune tell`); parameters as in `hits`."""
    recording = recording_of(samples, Reading(rate, format, shift, at, wide_rate))
    found = answer("lte_tune", ("tell", "--json", *recording.arguments), recording.data, "tell")
    return Tuning.from_json(found)


def transmit(
    description: Mapping[str, Any] | str | os.PathLike[str],
    *,
    ports: int = 1,
    prefix: str = "normal",
    load: int | None = None,
) -> Transmission:
    """Returns the samples of a described cell (`lte_cli transmit`).

    `description` is an object of docs/SYNTHETIC.md, "Descriptions", or the path of its file; `load` is the number of the
    load at all elements that the description leaves open, or None for none.
    """
    if isinstance(description, Mapping):
        data = json.dumps(description).encode()
    else:
        data = foreign.read(pathlib.Path(description), MOST_DESCRIPTION)
    more = () if load is None else ("--load", str(load))
    arguments = ("transmit", *rule_of(ports, prefix).arguments, *more)
    done = subprocess.run([machine.program("lte_cli"), *arguments], input=data, capture_output=True, check=False)
    if done.returncode:
        cause = done.stderr.decode(errors="replace").strip() or f"status {done.returncode}"
        raise ProgramRefused(" ".join(arguments), cause, done.returncode)
    return Transmission(done.stdout)


def survey(path: str | os.PathLike[str], *, map: Map | None = None, **keys: Any) -> Survey:
    """Returns the survey of a file, as `lte_survey` makes it, or the one that a file of JSON has.

    `map` answers for all windows in place of the processes of this machine: a function like the built-in one, which returns
    the answers in the order of its second argument, such as that of a `concurrent.futures.Executor` or a `joblib.Parallel`.

    `keys` are the fields of `lte_tools.SurveyOptions`: rate, form, shift, carrier, at, every, offset, gain, jobs, scan,
    track, start and others, in the units that it names; `further` are the other files of a drive. Files that they name
    for outputs (geojson, html and others) are written.
    """
    from . import survey_outputs

    for key in ("further", "join"):
        keys[key] = tuple(pathlib.Path(one) for one in keys.get(key, ()))
    for key in ("track", "gpsd", "geojson", "kml", "csv_windows", "pcap", "html", "plan", "resume"):
        if isinstance(keys.get(key), str):
            keys[key] = pathlib.Path(keys[key])
    given = options.checked_survey(options.SurveyOptions(pathlib.Path(path), **keys), "every" in keys)
    planned = survey_outputs.planned_of(given)
    found = surveyed(given, map)
    survey_outputs.write(given, found)
    survey_outputs.write_page(given, found, planned)
    return found


def surveyed(given: options.SurveyOptions, mapped: Map | None = None) -> Survey:
    """Returns the survey of a file of samples, or the one that a file of JSON has, with the cells of one network alone if
    that is asked; `mapped` is a function like `map`."""
    if given.is_survey:
        from . import asked_again

        found = asked_again.again(given, Survey.read(given.file))
    else:
        from . import campaign

        found = campaign.survey_of(given, mapped)
    return found if given.network is None else of_network(found, given.network)


def of_network(found: Survey, network: str) -> Survey:
    """Returns a survey with the cells of a network alone; says which networks there are if none is of it."""
    from . import carriers

    kept, known = carriers.of_network(found, network), carriers.networks_of(found)
    if network not in known:
        machine.note(f"no cell of {network}: {', '.join(known) or 'no network'} is in the survey")
    return kept
