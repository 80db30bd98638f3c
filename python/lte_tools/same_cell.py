"""Lines of a survey that are one cell: those with one network and cell identity in SIB1, whatever their frames; without
SIB1, those of one physical-layer identity on one carrier. Lines of false detections are left out.
"""
from __future__ import annotations

from typing import NamedTuple, Union

from .answers import Sib1
from .survey_data import Seen, Survey, SurveyCell, SurveyIdentity

Key = tuple[Union[str, int, float, None], ...]


class Lines(NamedTuple):
    """The lines of one cell, those of most windows first, and its carrier in hertz, or None."""

    key: Key
    cells: tuple[SurveyCell | SurveyIdentity, ...]
    frequency: float | None

    @property
    def identity(self) -> int:
        return self.cells[0].identity

    @property
    def sib1(self) -> Sib1 | None:
        return self.cells[0].sib1

    @property
    def windows(self) -> int:
        return sum(cell.windows for cell in self.cells)

    @property
    def seen(self) -> list[Seen]:
        return [one for cell in self.cells if isinstance(cell, SurveyCell) for one in cell.seen]

    @property
    def level(self) -> float | None:
        """The maximum level."""
        return max((one.level for one in self.cells if one.level is not None), default=None)

    @property
    def strongest_place(self) -> tuple[float, float] | None:
        """Where it was strongest, of the windows with a place."""
        placed = [cell for cell in self.cells if cell.strongest_place]
        best = max(placed, key=lambda cell: -1e9 if cell.level is None else cell.level, default=None)
        return best.strongest_place if best else None

    def is_confused_with(self, other: Lines) -> bool:
        """Returns whether another cell has this one's identity on the same carrier, as far as carriers are known."""
        is_carrier = None in (self.frequency, other.frequency) or self.frequency == other.frequency
        is_other = self.sib1 is not None and other.sib1 is not None and self.key != other.key
        return self.identity == other.identity and is_carrier and is_other


def key_of(cell: SurveyCell, frequency: float | None) -> Key:
    """Returns what two lines of one cell have in common."""
    if cell.sib1:
        return "cell", cell.sib1.networks[0], cell.sib1.cell
    return "identity", cell.identity, frequency if cell.shift is None or frequency else cell.shift


def lines_of(survey: Survey) -> list[Lines]:
    """Returns the cells of a survey, in the order of their first lines."""
    found: dict[Key, Lines] = {}
    for cell in survey.cells:
        if not cell.chance:
            frequency = survey.carrier if cell.shift is None else cell.frequency
            key = key_of(cell, frequency)
            before = found.get(key, Lines(key, (), frequency))
            cells = sorted((*before.cells, cell), key=lambda one: -one.windows)
            found[key] = before._replace(cells=tuple(cells))
    return list(found.values())


def identities_of(survey: Survey) -> list[Lines]:
    """Returns the cells of which the identity alone is known."""
    carrier = survey.carrier
    return [Lines(("identity", one.identity, carrier), (one,), carrier) for one in survey.identities or ()]
