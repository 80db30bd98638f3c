"""Tools over lte_cli and lte_tune: surveys, pictures, captures and conversions of radio recordings.

From Python, `lte_tools.search`, `why`, `hits`, `ids`, `deep`, `evidence`, `tell`, `transmit` and `survey` run the programs
and return frozen dataclasses (docs/NOTEBOOKS.md).
"""
import importlib
from typing import TYPE_CHECKING, Any

from .answers import Cell, CellEvidence, Deep, DetectedCell, Evidence, Hit, Identity, Sib1, Tuning
from .machine import ProgramRefused, Refused
from .options import SurveyOptions
from .programs import Answers, Transmission, deep, evidence, hits, ids, search, tell, transmit, why
from .reasons import Listed, NoHit, NoMib, NoRoom, OtherIdentity, Reason, Why
from .survey_data import Detected, Seen, Survey, SurveyCell, SurveyIdentity

if TYPE_CHECKING:
    from .programs import survey

__all__ = [
    "Answers",
    "Cell",
    "CellEvidence",
    "Deep",
    "Detected",
    "DetectedCell",
    "Evidence",
    "Hit",
    "Identity",
    "Listed",
    "NoHit",
    "NoMib",
    "NoRoom",
    "OtherIdentity",
    "ProgramRefused",
    "Reason",
    "Refused",
    "Seen",
    "Sib1",
    "Survey",
    "SurveyCell",
    "SurveyIdentity",
    "SurveyOptions",
    "Transmission",
    "Tuning",
    "Why",
    "deep",
    "evidence",
    "hits",
    "ids",
    "search",
    "survey",
    "tell",
    "transmit",
    "why",
]


def __getattr__(name: str) -> Any:
    """Returns the module `survey`, which is also a function."""
    if name == "survey":
        return importlib.import_module("lte_tools.survey")
    raise AttributeError(f"module {__name__!r} has no attribute {name!r}")
