"""Parts of a survey for several machines: part K of N has every window from the (K - 1)/N-th of all up to the K/N-th.

A part asks what a survey of the whole would ask about its windows, and nothing else but the level of all windows. So the
journals of all parts together have what a survey of the whole needs.
"""
from __future__ import annotations

import bisect
from typing import Sequence, Tuple

from .machine import Refused

Part = Tuple[int, int]  # number, from 1, and count
BESIDE = 3  # windows beside a part that are asked for their offsets at first


def own(part: Part | None, count: int) -> range | None:
    """Returns the numbers of a part's windows, None for all; refuses a part without a window."""
    if part is None:
        return None
    number, parts = part
    found = range(count * (number - 1) // parts, count * number // parts)
    if not found:
        raise Refused(f"--part {number}/{parts}: there are only {count} windows")
    return found


def around(windows: range, some: Sequence[int], beside: int) -> tuple[int, int]:
    """Returns which of some windows, in their order, are among a part's, or the nearest ones beside them: the place of the
    first, and that behind the last."""
    first, last = bisect.bisect_left(some, windows.start), bisect.bisect_left(some, windows.stop)
    return max(first - beside, 0), min(last + beside, len(some))


def is_enough(windows: range, points: Sequence[int], is_first: bool, is_last: bool) -> bool:
    """Returns whether the offsets of a part's windows follow from those of some windows. The outermost ones do not count,
    since what is beside them may contradict them; but the file's first and last one do."""
    before, after = (points if is_first else points[1:]), (points if is_last else points[:-1])
    has_before = is_first or any(i <= windows.start for i in before)
    return has_before and (is_last or any(i >= windows.stop - 1 for i in after))
