"""Arguments of the tools: a parser that refuses in one line, and types of numbers."""
from __future__ import annotations

import argparse
import re
from typing import Any, NoReturn


VERSION = "0.9.0"  # of the tools, as pyproject.toml has it
MULTIPLES = {"k": 1e3, "M": 1e6}  # of hertz, and of samples per second
SLOWEST = 1e3  # samples per second: a lower number was meant in millions


class Parser(argparse.ArgumentParser):
    """Refuses in one line, and takes a number such as -80e3 as the value of an option or an argument.

    `text` begins with a paragraph on usage, and has further ones for the manual page. With `brief` the help shows only
    the second paragraph, and the examples, which are indented; an installed command is named as in the text."""

    def __init__(self, text: str | None, brief: bool = False, **keys: Any) -> None:
        self.text = text or ""
        parts = self.text.strip().split("\n\n")
        if brief and parts[0].startswith("lte_"):
            keys["prog"] = parts[0].split()[0]
        if brief:
            keys["epilog"] = "\n".join(["examples:", *(part for part in parts if part.startswith("    "))])
        described = parts[1] if brief else text
        super().__init__(description=described, formatter_class=argparse.RawDescriptionHelpFormatter, **keys)
        self._negative_number_matcher = re.compile(r"-\.?\d.*")
        self.add_argument(
            "--version", action="version", version=f"%(prog)s {VERSION}", help="print the version and exit"
        )

    def error(self, message: str) -> NoReturn:
        self.exit(2, f"{self.prog}: {message}\n")


GREATEST = 1e15  # absolute value of a number
FASTEST = 1e10  # samples per second
HERTZ = 1e6  # from which on the number of a carrier is its frequency
SHORTEST = 0.001  # seconds from one window to the next
MOST_PROCESSES = 1_024


def number(text: str) -> float:
    """Returns a number whose absolute value is not above GREATEST; `k` or `M` after it multiply it, as in 2.4M."""
    try:
        value = float(text[:-1]) * MULTIPLES[text[-1:]] if text[-1:] in MULTIPLES else float(text)
    except ValueError:
        raise argparse.ArgumentTypeError(f"{text!r} is not a number") from None
    if not abs(value) <= GREATEST:
        raise argparse.ArgumentTypeError(f"{text} is not a number up to {GREATEST:g}")
    return value


def positive(text: str) -> float:
    """Returns a number above 0."""
    value = number(text)
    if value <= 0:
        raise argparse.ArgumentTypeError(f"{text} is not above 0")
    return value


def rate(text: str) -> float:
    """Returns a number of samples per second."""
    value = positive(text)
    if value < SLOWEST:
        raise argparse.ArgumentTypeError(f"{text} is in samples per second; {text} million are {text}e6")
    if value > FASTEST:
        raise argparse.ArgumentTypeError(f"{text} is above {FASTEST:g} samples per second")
    return value


def apart(text: str) -> float:
    """Returns the seconds from one window to the next."""
    value = positive(text)
    if value < SHORTEST:
        raise argparse.ArgumentTypeError(f"{text} is below {SHORTEST} s")
    return value


def decibels(text: str) -> float:
    """Returns a number of decibels, -1000 to 1000."""
    value = number(text)
    if abs(value) > 1000:
        raise argparse.ArgumentTypeError(f"{text} is not between -1000 and 1000 dB")
    return value


def gain(text: str) -> float | tuple[tuple[float, float], ...]:
    """Returns a number of decibels, or pairs of a second and the decibels from there on, as 0:-20,14.5:-14."""
    if ":" not in text:
        return decibels(text)
    pairs = [part.split(":") for part in text.split(",")]
    if any(len(pair) != 2 for pair in pairs):
        raise argparse.ArgumentTypeError(f"{text!r} is not a list such as 0:-20,14.5:-14")
    found = tuple((not_negative(second), decibels(level)) for second, level in pairs)
    if any(b <= a for (a, _), (b, _) in zip(found, found[1:])):
        raise argparse.ArgumentTypeError(f"{text!r}: seconds have to rise")
    return found


def network(text: str) -> str:
    """Returns a network with a hyphen, as 262-02."""
    found = re.fullmatch(r"([0-9]{3})-?([0-9]{2,3})", text)
    if not found:
        raise argparse.ArgumentTypeError(f"{text!r} is not a network such as 262-02")
    return f"{found[1]}-{found[2]}"


def side(text: str) -> float:
    """Returns the side of a square in metres, 1 to 100,000."""
    value = number(text)
    if not 1 <= value <= 100_000:
        raise argparse.ArgumentTypeError(f"{text} is not between 1 and 100,000 metres")
    return value


def count(text: str) -> int:
    """Returns a number of cells, 2 to 504."""
    value = int(text)
    if not 2 <= value <= 504:
        raise argparse.ArgumentTypeError(f"{text} is not a number of cells from 2 to 504")
    return value


def limits(text: str) -> tuple[float, float]:
    """Returns a level and a signal to noise ratio in dB, as -100,5."""
    parts = text.split(",")
    if len(parts) != 2:
        raise argparse.ArgumentTypeError(f"{text!r} is not a level and a ratio such as -100,5")
    return decibels(parts[0]), decibels(parts[1])


def part(text: str) -> tuple[int, int]:
    """Returns a part's number and the count of parts, as 3/40."""
    found = re.fullmatch(r"(\d{1,6})/(\d{1,6})", text)
    if not found or not 1 <= int(found[1]) <= int(found[2]):
        raise argparse.ArgumentTypeError(f"{text!r} is not a part such as 3/40, from 1/40 to 40/40")
    return int(found[1]), int(found[2])


def carriers(text: str) -> tuple[float, ...]:
    """Returns carriers, each as an EARFCN or as a frequency in hertz, as 1500,1550,796e6."""
    found = tuple(positive(one) if one.strip() != "0" else 0.0 for one in text.split(","))
    if any(one < HERTZ and one != round(one) for one in found):
        raise argparse.ArgumentTypeError(
            f"{text!r} is not a list of EARFCNs and of frequencies in hertz, as 1500,796e6"
        )
    return found


def not_negative(text: str) -> float:
    """Returns a number of 0 or more."""
    value = number(text)
    if value < 0:
        raise argparse.ArgumentTypeError(f"{text} is below 0")
    return value


def processes(text: str) -> int:
    """Returns a number of processes, from 1 to MOST_PROCESSES."""
    value = int(text)
    if not 1 <= value <= MOST_PROCESSES:
        raise argparse.ArgumentTypeError(f"{text} is not a number from 1 to {MOST_PROCESSES:,}")
    return value


# number formats by the ends of files' names, which are also the names that SigMF and lte_cli have
# fmt: off
SUFFIXES = {"cu8": "u8", "u8": "u8", "cs8": "s8", "ci8": "s8", "s8": "s8", "ci16": "s16", "cs16": "s16", "sc16": "s16",
            "s16": "s16", "cf32": "f32", "fc32": "f32", "f32": "f32", "cfile": "f32", "sigmf-meta": "sigmf",
            "sigmf-data": "sigmf", "sigmf": "sigmf"}
# fmt: on


def form(text: str) -> str:
    """Returns the name that the tools have for a number format."""
    return SUFFIXES.get(text, text)
