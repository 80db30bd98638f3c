"""What the pictures share: colours and marks, texts that fit, and what a file is, in words.

Debian: python3-numpy, python3-matplotlib.
"""
from __future__ import annotations

import textwrap
from typing import Any

import matplotlib
import numpy as np

WIDTH = 12  # inches, at 100 dots
COLOURS = ("#1f6fb4", "#d9731a", "#2f8f4e", "#8a4fb0", "#b8383d", "#5c6670")
MARKS = ("o", "s", "^", "D", "v", "P")
LINES = ("-", "--", "-.", ":")
STYLE = {
    "font.size": 8.5,
    "axes.titlesize": 9.5,
    "axes.titlelocation": "left",
    "axes.spines.top": False,
    "axes.grid": True,
    "grid.color": "#dddddd",
    "grid.linewidth": 0.6,
    "axes.axisbelow": True,
    "svg.hashsalt": "lte_cli",
    "svg.fonttype": "path",
    "text.parse_math": False,  # a file's name may have $ in it
}


def begin() -> None:
    """Makes matplotlib draw into files alone, in this style."""
    matplotlib.use("Agg")
    matplotlib.rcParams.update(STYLE)


def fitted(text: str, width: int, rows: int = 2) -> str:
    """Returns the text in so many rows of so many characters at most; what is longer is cut in its middle."""
    text = text.encode(errors="replace").decode()
    keep = len(text)
    while len(lines := textwrap.wrap(cut(text, keep), width)) > rows:
        keep -= 3
    return "\n".join(lines)


def cut(text: str, count: int) -> str:
    """Returns this number of characters of a text: its beginning and its end."""
    if len(text) <= count:
        return text
    front = count // 2
    return f"{text[:front]}\N{HORIZONTAL ELLIPSIS}{text[len(text) - (count - front) + 1:]}"


def headed(figure: Any, name: str, facts: str) -> Any:
    """Adds the picture's name, and below it what it is of, as a text in the figure."""
    text = f"{fitted(name, 95)}\n{fitted(facts, 150)}"
    return figure.suptitle(text, fontsize=9.5, linespacing=1.4)


def rate_text(rate: float) -> str:
    return f"{rate / 1e6:.10g} Ms/s"


def carrier_text(hertz: float) -> str:
    return f"{hertz / 1e6:.10g} MHz"


def facts_of(form: str, rate: float, carrier: float | None, shift: float) -> list[str]:
    """Returns the form, rate and carrier of a file, as far as they are known."""
    facts = [f"{form} at {rate_text(rate)}"]
    if carrier:
        facts.append(f"carrier {carrier_text(carrier)}")
    if shift:
        facts.append(f"{shift:+,.0f} Hz from the file's centre")
    return facts


def dbfs(power: float) -> str:
    return "none" if power <= 0 else f"{10 * np.log10(power):.1f} dBFS"


def number_text(number: float | None) -> str:
    return "-" if number is None else f"{number:.1f}"
