"""The carriers of a survey, each with its networks: a scan has several, another survey has one. Levels of cells on different
carriers or of different networks are not compared: a phone that may use one of them may not use the other.
"""
from __future__ import annotations

import collections
import dataclasses
from typing import NamedTuple, Sequence

from .columns import earfcn_text, megahertz_text
from .survey_data import Survey, SurveyCell, SurveyIdentity


class Carrier(NamedTuple):
    """A carrier of a scan: hertz above the file's centre (None: the one carrier of another survey), its frequency in hertz if
    that is known, its networks, that of most cells first, and its EARFCN or frequency as a text."""

    shift: float | None
    frequency: float | None
    networks: tuple[str, ...] = ()
    number: str = ""

    @property
    def text(self) -> str:
        """Its networks and its EARFCN or frequency."""
        return " ".join([*self.networks, self.number])

    def has(self, cell: SurveyCell | SurveyIdentity) -> bool:
        """Returns whether a cell is on this carrier."""
        return cell.shift == self.shift


def carriers_of(survey: Survey) -> list[Carrier]:
    """Returns the carriers that have a cell which is no false detection, in the order of frequency."""
    by_shift: dict[float | None, list[SurveyCell]] = {}
    for cell in survey.cells:
        if not cell.chance:
            by_shift.setdefault(cell.shift, []).append(cell)
    order = sorted(by_shift, key=lambda shift: shift or 0.0)
    return [carrier_of(by_shift[shift], survey) for shift in order]


def carrier_of(cells: Sequence[SurveyCell], survey: Survey) -> Carrier:
    """Returns the carrier of cells."""
    networks = collections.Counter(name for cell in cells if cell.sib1 for name in cell.sib1.networks)
    first = next((cell for cell in cells if cell.sib1), cells[0])
    number = earfcn_text(first) if first.earfcns else f"{megahertz_text(first)} MHz"
    frequency = survey.carrier if first.shift is None else first.frequency
    return Carrier(first.shift, frequency, tuple(name for name, _ in networks.most_common()), number)


def on_carrier(survey: Survey, carrier: Carrier) -> Survey:
    """Returns a survey with the cells of one carrier alone."""
    return dataclasses.replace(survey, cells=tuple(filter(carrier.has, survey.cells)))


def by_carrier(survey: Survey) -> list[Survey]:
    """Returns the survey of each carrier; the survey itself if it has one carrier, or none."""
    found = carriers_of(survey)
    return [on_carrier(survey, one) for one in found] if found[1:] else [survey]


def networks_of(survey: Survey) -> list[str]:
    """Returns the networks of a survey's cells, each once."""
    return list(dict.fromkeys(name for one in carriers_of(survey) for name in one.networks))


def of_network(survey: Survey, network: str) -> Survey:
    """Returns a survey with the cells of one network, and those on its carriers whose network is not known."""
    shifts = {one.shift for one in carriers_of(survey) if network in one.networks}
    cells = tuple(cell for cell in survey.cells if cell.shift in shifts and may_be_of(cell, network))
    identities = survey.identities if None in shifts or survey.identities is None else ()
    return dataclasses.replace(survey, cells=cells, identities=identities)


def may_be_of(cell: SurveyCell, network: str) -> bool:
    """Returns whether a cell is of a network, as far as SIB1 was read."""
    return cell.sib1 is None or network in cell.sib1.networks


def every_of(survey: Survey) -> list[Carrier]:
    """Returns the carriers of a survey; the one that was looked at if no cell is certain."""
    return carriers_of(survey) or [Carrier(None, survey.carrier)]
