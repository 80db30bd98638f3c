"""Why a list has a cell or not (`lte_cli why`), as frozen dataclasses, each with a sentence in plain English.

Samples are those of the recording, 1,920,000 per second, from 0. A `ratio` is the part of the energy at a sample that the
primary signal explains, in thousandths, rounded down.
"""
from __future__ import annotations

from dataclasses import dataclass
from typing import Any, List

from . import records
from .answers import Answer

# A list asks these rules in this order; the last one is that nothing failed.
ORDER = ("no-hit", "outside", "no-room", "other-identity", "cost", "crc", "ports", "listed")


class Reason(Answer):
    """A line of `why`; `rule` is the rule that fails, or `listed`."""

    rule: str

    @property
    def text(self) -> str:
        """The rule and its number in plain English."""
        raise NotImplementedError

    @classmethod
    def from_json(cls, value: dict[str, Any]) -> Reason:
        """Returns the reason of a line of the program's JSON, by its rule."""
        found: Reason = records.from_json(KINDS[value["rule"]], value)
        return found


@dataclass(frozen=True)
class Listed(Reason):
    """The list has the cell (`listed`): frame start `at` in samples, antenna ports (1, 2 or 4), frame number `sfn`."""

    at: int
    ports: int
    rule: str
    sfn: int

    @property
    def text(self) -> str:
        return f"listed, SFN {self.sfn} begins at sample {self.at:,}, {ports_text(self.ports)}"


@dataclass(frozen=True)
class NoHit(Reason):
    """No PSS detection of the cell's root (`no-hit`, or `outside` the samples that are searched): the sample `best` at
    which the signal is strongest, its `ratio` there, and the ratio that a detection `needs`, both in thousandths."""

    best: int
    needs: int
    ratio: int
    rule: str

    @property
    def text(self) -> str:
        share = f"{percent(self.ratio)} of the energy"
        if self.rule == "outside":
            return f"no PSS detection, its signal is strongest outside the search range (sample {self.best:,}, {share})"
        return f"no PSS detection, its signal is nowhere above {share}, {percent(self.needs)} are needed"


@dataclass(frozen=True)
class NoRoom(Reason):
    """A detection too early for the extended prefix (`no-room`): its sample `hit`, its `ratio` in thousandths, and the
    samples that it `needs` before it."""

    hit: int
    needs: int
    ratio: int
    rule: str

    @property
    def text(self) -> str:
        return f"too early, detected at sample {self.hit:,}, the extended prefix needs {self.needs} before it"


@dataclass(frozen=True)
class OtherIdentity(Reason):
    """A detection with another identity (`other-identity`): its sample `hit`, its `ratio` in thousandths, the `identity`
    (0 to 503) and `score` that it has, and the `own` score of the identity asked for. Scores have no unit. In a row its
    identity is `other`."""

    hit: int
    identity: int
    own: int
    ratio: int
    rule: str
    score: int

    def to_row(self) -> dict[str, Any]:
        """Returns the fields, with `other` in place of `identity`."""
        found = super().to_row()
        return {"other": found.pop("identity"), **found}

    @property
    def text(self) -> str:
        return (
            f"another identity, PCI {self.identity} scores {self.score:,} at sample {self.hit:,}, this one {self.own:,}"
        )


@dataclass(frozen=True)
class NoMib(Reason):
    """A detection with the identity, and no MIB that the list takes: too many soft values disagree (`cost`), the CRC fails
    (`crc`), or the MIB has a number of antenna ports that this list does not read (`ports`).

    `hit` is the detection's sample, `ratio` in thousandths, `at` the frame start in samples. Of the first frame alone, at
    the phase (frame number modulo 4) with the least ratio: `cost` of `total` soft values disagree; `ports` is 0 without a
    MIB.
    """

    at: int
    cost: int
    hit: int
    phase: int
    ports: int
    ratio: int
    rule: str
    total: int

    @property
    def share(self) -> float | None:
        """The cost's ratio to the total, at most 0.25 of a MIB; None if all soft values are 0."""
        return self.cost / self.total if self.total else None

    @property
    def text(self) -> str:
        if self.rule == "ports":
            return f"its MIB has {ports_text(self.ports)}, which this list does not read"
        if not self.total:
            return "no codeword, all soft values are 0"
        disagree = f"{percent(-(-1000 * self.cost // self.total))} of the soft values disagree, 25 % are allowed"
        if self.rule == "crc":
            return f"no MIB, the CRC fails or the bandwidth code is above 5 ({disagree})"
        return f"no codeword, {disagree}"


KINDS: dict[str, type[Reason]] = {
    "listed": Listed,
    "no-hit": NoHit,
    "outside": NoHit,
    "no-room": NoRoom,
    "other-identity": OtherIdentity,
    "cost": NoMib,
    "crc": NoMib,
    "ports": NoMib,
}


@dataclass(frozen=True)
class Why(Answer):
    """Why a list has a cell or not (`lte_cli why`): its physical-layer cell identity, 0 to 503, the `list` (the name of its
    rule), and its reasons: one for each line of the list; else one for each PSS detection of the cell's root; else one.
    """

    identity: int
    list: str
    reasons: tuple[Reason, ...]

    @property
    def is_listed(self) -> bool:
        """Whether the list has the cell."""
        return self.reasons[0].rule == "listed"

    @property
    def furthest(self) -> Reason:
        """The reason that passes most rules, of several the strongest detection's."""
        return max(self.reasons, key=lambda one: (ORDER.index(one.rule), getattr(one, "ratio", 0)))

    @property
    def text(self) -> str:
        """The furthest reason in plain English, after the identity."""
        return f"PCI {self.identity}: {self.furthest.text}"

    def to_rows(self) -> List[dict[str, Any]]:
        """Returns a row for each reason, for pandas.DataFrame."""
        return [{**self.to_row(), **one.to_row()} for one in self.reasons]


def percent(thousandths: int) -> str:
    return f"{thousandths / 10:g} %"


def ports_text(ports: int) -> str:
    return f"{ports} antenna port{'s' if ports > 1 else ''}"
