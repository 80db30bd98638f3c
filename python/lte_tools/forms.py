"""Forms of the numbers of a radio's file, and how it shows that one was read as another.

Debian: python3-numpy.
"""
from __future__ import annotations

from typing import Any, NamedTuple

import numpy as np
import numpy.typing as npt

Bytes = npt.NDArray[np.uint8]


class Form(NamedTuple):
    """numpy's name of a component, the number that stands for 0, and full scale from there."""

    numbers: str
    middle: float
    full: float

    @property
    def width(self) -> int:
        """Bytes of a sample of one channel."""
        return 2 * np.dtype(self.numbers).itemsize

    @property
    def rounding(self) -> float:
        """The power of the error of a sample whose components are rounded to whole numbers: a twelfth of a step squared for
        each; 0 for floating-point numbers."""
        return 0.0 if np.dtype(self.numbers).kind == "f" else 1 / (6 * self.full**2)


FORMS = {
    "u8": Form("u1", 127.5, 127.5),
    "s8": Form("i1", 0, 128),
    "s16": Form("<i2", 0, 32_768),
    "f32": Form("<f4", 0, 1),
}
GREAT, SMALL = 1e9, 1e-20  # magnitudes that no component of f32 has
COARSE = 8  # low bytes for each high byte of s16 that a converter of few bits gives, at most
LOUD, ENOUGH = 512, 1_000  # components of s16 whose low bytes are looked at, and how many of them are needed


def is_number(parts: npt.NDArray[Any]) -> npt.NDArray[np.bool_]:
    """Returns which components of f32 a radio may have written."""
    with np.errstate(invalid="ignore"):
        found: npt.NDArray[np.bool_] = np.abs(parts) < GREAT
        return found


def fault_of(data: Bytes, form: str) -> str | None:
    """Returns what is wrong with bytes of components read in this form, as the end of a sentence, or None."""
    readers = {"u8": fault_of_bytes, "s8": fault_of_bytes, "s16": fault_of_words, "f32": fault_of_floats}
    return readers[form](data, form)


def fault_of_bytes(data: Bytes, form: str) -> str | None:
    """Bytes of the other form are frequent near both ends, and rare near the middle."""
    values = data.astype(int) - 128 if form == "u8" else data.view("i1").astype(int)
    high, low = (float(np.mean((sign * values >= 96) & (sign * values < 126))) for sign in (1, -1))
    middle = float(np.mean(np.abs(values) < 31))
    ends = float(np.mean((values >= 126) | (values < -126)))
    if min(high, low) > 0.01 and high + low > 3 * middle or ends > 0.95:
        return f"its numbers wrap round: --form {'s8' if form == 'u8' else 'u8'} may be right"
    low_bytes, high_bytes = (np.ascontiguousarray(part) for part in data[: len(data) // 2 * 2].reshape(-1, 2).T)
    loud = np.abs(high_bytes.view("i1").astype(int)) >= LOUD >> 8
    if np.sum(loud) >= ENOUGH and unevenness(low_bytes[loud]) < 0.1 and unevenness(high_bytes[loud]) > 0.3:
        return "the first byte of two is even and the second is not: --form s16 may be right"
    return None


def fault_of_words(data: Bytes, _: str) -> str | None:
    """The low byte of loud components is as good as random; if not, it is another form's, or few values go with each high
    byte, as in numbers of a converter of 8 to 11 bits that were multiplied."""
    words = data[: len(data) // 4 * 4].view("<i2").astype(int)
    if not len(words):
        return None
    size = words & 0x7FFF
    if np.mean((size[1::2] > 0x3000) & (size[1::2] < 0x4200)) > 0.9 and np.mean(size[0::2] > 0x4200) > 0.1:
        return "every second number is the high half of a floating-point number: --form f32 may be right"
    loud = words[np.abs(words) >= LOUD]
    if len(loud) < ENOUGH:
        return None
    low, high = loud & 0xFF, loud >> 8
    if unevenness(low) < 0.3 or len(np.unique(loud)) <= COARSE * len(np.unique(high)):
        return None
    if unevenness(high & 0xFF) < 0.1:
        return "the low byte is even and the high one is not: the high byte may come first, which is not read"
    return "its low bytes are no low bytes: --form u8 or s8 may be right"


def unevenness(values: npt.NDArray[Any]) -> float:
    """Returns how far bytes are from being as frequent in each of 16 parts of their range, 0 to 1."""
    share = np.bincount(values // 16, minlength=16) / len(values)
    return float(np.abs(share - 1 / 16).sum() / 2)


def fault_of_floats(data: Bytes, _: str) -> str | None:
    """Numbers of another form are often not numbers, or of impossible magnitudes."""
    parts = data[: len(data) // 4 * 4].view("<f4")
    if not len(parts):
        return None
    with np.errstate(invalid="ignore"):
        strange = ~is_number(parts) | (parts != 0) & (np.abs(parts) < SMALL)
    return "one number in five is none: name another --form" if np.mean(strange) > 0.2 else None
