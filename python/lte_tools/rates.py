"""The rates at which lte_cli and lte_tune read recordings, and the bandwidths that they hold (docs/FORMATS.md, "--rate")."""
from __future__ import annotations

from . import foreign
from .machine import Refused

RATES = {1_920_000: "1.92", 3_840_000: "3.84", 7_680_000: "7.68", 15_360_000: "15.36", 30_720_000: "30.72"}
NARROW = 1_920_000  # samples per second without `--rate`
SECONDS = 0.2  # that are read of a file for a recording with `--rate`: a list depends on 0.17
SPACING = 15_000  # hertz from a subcarrier to the next
SUBCARRIERS = 12  # of a resource block


def arguments_of(rate: float | None) -> tuple[str, ...]:
    """Returns the arguments for a recording at a rate in samples per second, none for None; refuses other rates."""
    if rate is None:
        return ()
    for known, text in RATES.items():
        if rate == known:
            return ("--rate", text)
    raise Refused(f"wide_rate {foreign.shown(rate)}: 1.92e6, 3.84e6, 7.68e6, 15.36e6 or 30.72e6 samples per second")


def lowest(blocks: int) -> int:
    """Returns the lowest rate whose subcarriers are more than those of so many resource blocks."""
    return next(rate for rate in RATES if rate // SPACING > SUBCARRIERS * blocks)


def half_band(blocks: int) -> int:
    """Returns the hertz that this number of resource blocks takes on either side of its carrier."""
    return SPACING * SUBCARRIERS * blocks // 2
