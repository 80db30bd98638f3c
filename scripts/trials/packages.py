"""The packages of this clone's python/, for the trials and for what they start; the repository's folder is TOP."""
import os
import pathlib
import sys

TOP = pathlib.Path(__file__).resolve().parents[2]


def add():
    """Makes lte_tools and lte_reference importable here and in started programs."""
    sys.path.append(str(TOP / "python"))
    os.environ["PYTHONPATH"] = str(TOP / "python")


def tool(name):
    """Returns the beginning of a command that runs a tool of lte_tools."""
    return [sys.executable, "-m", f"lte_tools.{name}"]
