"""The neighbour table of a survey: for each best server the other cells on its carrier that its windows have, how often, and
by how many dB they are below it. It is what automatic neighbour relations would build, as far as the survey heard it.
"""
from __future__ import annotations

import statistics
from dataclasses import dataclass
from typing import Mapping, NamedTuple, Sequence

from . import best_server, survey_windows
from .answers import Answer
from .carriers import Carrier
from .clashes import MODULI, Pair, time_of
from .columns import Column
from .survey_data import Survey
from .survey_windows import NEAR, InWindow

MANY = 20  # windows from which on the 5th and 95th percentile are those of all, else the minimum and maximum
# what the word of `confusion` means
MEANINGS = {
    "PCI": "the neighbour has the identity of the best server: a phone cannot tell them apart",
    "confusion": "another neighbour of the best server has this identity: a handover may go to the wrong one",
}


@dataclass(frozen=True)
class Neighbour(Answer):
    """A best server and a neighbour: identities, cell identities of SIB1 or None, names in the plan or None, the windows in
    which the first is the best server, those of them that have the neighbour too with their share, and those in which it is
    within 6 dB; by how many dB it is below (median, 5th and 95th percentile), and the median microseconds from a frame of the
    best server to the nearest frame of the neighbour. `moduli` are those by which the identities are equal, `confusion` is a
    word of MEANINGS or None, `group`, `plmn` and `frequency` are the carrier's."""

    group: str | None
    plmn: str | None
    frequency: float | None
    identity: int
    cell: int | None
    name: str | None
    other: int
    other_cell: int | None
    other_name: str | None
    windows: int
    together: int
    share: float
    near: int
    below: float | None
    least: float | None
    greatest: float | None
    time: float | None
    moduli: tuple[int, ...]
    confusion: str | None


class Heard(NamedTuple):
    """A best server, the neighbour, what the windows have of both, and how many windows have the best server."""

    one: InWindow
    other: InWindow
    pairs: list[Pair]
    windows: int


def neighbours_of(survey: Survey, names: Mapping[int, str] | None = None) -> list[Neighbour]:
    """Returns the neighbours of each best server, those of most windows first; `names` are those of the plan, by the number of
    a cell among the survey's lines."""
    found = []
    for carrier, placed in best_server.along(survey):
        served: dict[int, int] = {}
        heard: dict[tuple[int, int], Heard] = {}
        for window in (one.window for one in placed):
            best = window.leader
            if best is None:
                continue
            served[best.number] = served.get(best.number, 0) + 1
            for other in window.present:
                if other.number != best.number:
                    key = best.number, other.number
                    heard.setdefault(key, Heard(best, other, [], 0)).pairs.append(Pair(best.seen, other.seen))
        rows = [one._replace(windows=served[number]) for (number, _), one in heard.items()]
        rows.sort(key=lambda one: (-one.windows, one.one.number, -len(one.pairs)))
        found += [neighbour_of(one, rows, carrier, survey, names or {}) for one in rows]
    return found


def neighbour_of(
    heard: Heard, rows: Sequence[Heard], carrier: Carrier, survey: Survey, names: Mapping[int, str]
) -> Neighbour:
    """Returns a row of the table, of those of its carrier."""
    one, other = heard.one.cell, heard.other.cell
    below = sorted(-pair.difference for pair in heard.pairs if pair.difference is not None)
    least, greatest = ends_of(below)
    return Neighbour(
        group=carrier.text if carrier.shift is not None else None,
        plmn=" ".join(one.sib1.networks) if one.sib1 else " ".join(carrier.networks) or None,
        frequency=carrier.frequency,
        identity=one.identity,
        cell=one.sib1.cell if one.sib1 else None,
        name=names.get(heard.one.number),
        other=other.identity,
        other_cell=other.sib1.cell if other.sib1 else None,
        other_name=names.get(heard.other.number),
        windows=heard.windows,
        together=len(heard.pairs),
        share=round(len(heard.pairs) / heard.windows, 4),
        near=sum(one <= NEAR for one in below),
        below=survey_windows.median(below),
        least=least,
        greatest=greatest,
        time=time_of(heard.pairs, survey.rate),
        moduli=tuple(modulus for modulus in MODULI if one.identity % modulus == other.identity % modulus),
        confusion=confusion_of(heard, rows),
    )


def ends_of(values: Sequence[float]) -> tuple[float | None, float | None]:
    """Returns the 5th and 95th percentile of ordered values, of a few the minimum and maximum."""
    if not values:
        return None, None
    if len(values) < MANY:
        return round(values[0], 1) + 0.0, round(values[-1], 1) + 0.0
    parts = statistics.quantiles(values, n=20, method="inclusive")
    return round(parts[0], 1) + 0.0, round(parts[-1], 1) + 0.0


def confusion_of(heard: Heard, rows: Sequence[Heard]) -> str | None:
    """Returns the word for a neighbour whose identity the best server or another neighbour of it has too."""
    identity = heard.other.cell.identity
    if identity == heard.one.cell.identity:
        return "PCI"
    own = (row.other for row in rows if row.one.number == heard.one.number)
    return "confusion" if sum(one.cell.identity == identity for one in own) > 1 else None


def head_of(found: Sequence[Neighbour]) -> str:
    """Returns the line above the table."""
    servers = {(one.group, one.identity, one.cell) for one in found}
    return f"neighbours: {len(found)} of {len(servers)} best servers, with detected ones only if --deep was given"


# ---- the table


def percent(share: float) -> str:
    return f"{100 * share:.1f}"


COLUMNS: tuple[Column[Neighbour, Survey], ...] = (
    Column(
        "group", "carrier", "", None, "in a scan, the carrier with its networks", lambda one, _: one.group, is_left=True
    ),
    Column("plmn", None, "", None, "the best server's networks, or the carrier's", lambda one, _: one.plmn),
    Column("frequency", None, "Hz", None, "the carrier's frequency", lambda one, _: one.frequency),
    Column("identity", "PCI", "", None, "the best server's identity", lambda one, _: one.identity),
    Column("cell", "cell", "", None, "the cell identity of its SIB1", lambda one, _: one.cell),
    Column("name", "name", "", None, "its name in the plan", lambda one, _: one.name, is_left=True),
    Column("other", "neighbour PCI", "", None, "the neighbour's identity", lambda one, _: one.other),
    Column("other_cell", "neighbour cell", "", None, "the cell identity of its SIB1", lambda one, _: one.other_cell),
    Column(
        "other_name", "neighbour name", "", None, "its name in the plan", lambda one, _: one.other_name, is_left=True
    ),
    Column("together", "together", "", None, "windows of the best server that have both", lambda one, _: one.together),
    Column("windows", "of", "", None, "windows in which the first is the best server", lambda one, _: one.windows),
    Column(
        "share",
        "%",
        "",
        None,
        "the fraction of these that have both",
        lambda one, _: one.share,
        lambda one, _: percent(one.share),
    ),
    Column("near", f"within {NEAR} dB", "", None, f"windows in which it is within {NEAR} dB", lambda one, _: one.near),
    Column(
        "below",
        "dB below",
        "dB",
        None,
        "by how many dB it is below the best server: the median",
        lambda one, _: one.below,
    ),
    Column(
        "least",
        "5 %",
        "dB",
        None,
        f"the 5th percentile, of less than {MANY} windows the minimum",
        lambda one, _: one.least,
    ),
    Column(
        "greatest",
        "95 %",
        "dB",
        None,
        f"the 95th percentile, of less than {MANY} windows the maximum",
        lambda one, _: one.greatest,
    ),
    Column(
        "time",
        "later us",
        "us",
        None,
        "from a frame of the best server to the nearest of it: the median",
        lambda one, _: one.time,
    ),
    Column(
        "moduli",
        "modulo",
        "",
        None,
        "of 3, 6 and 30 those modulo which the identities are equal",
        lambda one, _: " ".join(map(str, one.moduli)),
    ),
    Column(
        "confusion",
        "clash",
        "",
        None,
        "; ".join(f"`{word}`: {meaning}" for word, meaning in MEANINGS.items()),
        lambda one, _: one.confusion,
        is_left=True,
    ),
)
