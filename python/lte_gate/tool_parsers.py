"""The tools that are installed, with the parsers of their arguments."""
import argparse
import importlib
from dataclasses import dataclass

from .install import commands


def installed(text):
    """Returns a text with the installed commands in place of their modules' files."""
    for name, (module, _) in commands().items():
        file = f"{module.partition('.')[2]}.py"
        for path in (f"python/lte_tools/{file}", file):
            text = text.replace(path, name)
    return text


@dataclass(frozen=True)
class Tool:
    """A tool: its command and the parser of its arguments."""

    name: str
    parser: argparse.ArgumentParser

    @property
    def options(self):
        """Returns the options, in the parser's order."""
        return [action for action in self.parser._actions if action.option_strings]

    @property
    def places(self):
        """Returns the positional arguments."""
        return [action for action in self.parser._actions if not action.option_strings]

    def about(self):
        """Returns the paragraphs of its text except the first, which is its usage."""
        parts = self.parser.text.split("\n\n")[1:]
        return [" ".join(installed(part).split()) for part in parts if not part.startswith("    ")]


def tools():
    """Returns the tools in the order of pyproject.toml."""
    return [Tool(name, importlib.import_module(module).parser()) for name, (module, _) in commands().items()]


def value_of(action):
    """Returns the name of an option's value, or an empty text if it has none."""
    if action.nargs == 0:
        return ""
    if action.choices:
        return "|".join(map(str, action.choices))
    return action.metavar or action.dest.upper()
