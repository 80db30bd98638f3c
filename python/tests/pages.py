"""Blocks of commands on a page, and their outputs."""
import re
from typing import NamedTuple


class Shown(NamedTuple):
    """A command that a page shows behind `$`, and the lines below it."""

    command: str
    lines: list


def shown(page):
    """Returns the commands of a page, in order. A blank line within a block belongs to the output above it."""
    found = []
    for block in re.findall(r"^(?:    .*\n|\n(?=    (?!\$)))+", page, re.M):
        for line in block.split("\n")[:-1]:
            text = line.removeprefix("    ")
            if text.startswith("$ "):
                found.append(Shown(text[2:], []))
            elif found and block.startswith("    $ "):
                found[-1].lines.append(text)
    return found
