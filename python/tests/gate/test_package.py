"""Rules that all modules of lte_gate follow: no effect on import, and a parser in each command with arguments."""
import ast
import importlib
import pathlib
import re
import subprocess
import sys

import pytest

import lte_gate
from lte_gate.__main__ import commands
from lte_gate.repository import TOP

FOLDER = pathlib.Path(lte_gate.__file__).parent
MODULES = sorted(file.stem for file in FOLDER.glob("[a-z]*.py"))
COMMANDS = commands()
IMPORTS = """
import importlib, pathlib, signal, subprocess, sys
import argparse, concurrent.futures, importlib.metadata, tomllib
try:
    import jsonschema, numpy
except ImportError:
    sys.exit()

def state():
    return list(sys.path), signal.getsignal(signal.SIGINT), signal.getsignal(signal.SIGTERM)

def refuse(*words, **more):
    raise SystemExit(f"effect: {words}")

before = state()
subprocess.Popen = pathlib.Path.read_text = pathlib.Path.read_bytes = pathlib.Path.write_text = refuse
for name in sys.argv[1:]:
    importlib.import_module(f"lte_gate.{name}")
assert before == state()
"""


def test_imports_have_no_effect():
    """Nothing is printed, run or read, and sys.path and the handlers of signals stay."""
    words = [sys.executable, "-c", IMPORTS, *MODULES]
    done = subprocess.run(words, cwd=TOP / "python", capture_output=True, text=True, check=False)
    assert (done.returncode, done.stdout, done.stderr) == (0, "", "")


@pytest.mark.parametrize("name", COMMANDS)
def test_command(name):
    """Its text begins with its name and arguments, and its parser, if it has arguments, has this text."""
    text = COMMANDS[name]
    words = text.splitlines()[0].split()
    assert words[0] in (name, f"{name}.py", "install.sh")
    if words[1:] and name != "kit_once":
        assert importlib.import_module(f"lte_gate.{name}").parser().description.strip() == text.strip()


def test_docstrings_begin_with_a_verb():
    """The rule of the guide for comments of functions, over this package."""
    odd = []
    for name in MODULES:
        for node in ast.walk(ast.parse((FOLDER / f"{name}.py").read_text())):
            text = ast.get_docstring(node) if isinstance(node, ast.FunctionDef) else None
            if text and not re.match(r"[A-Z][a-z]+s\b", text):
                odd.append(f"{name}.{node.name}: {text}")
    assert not odd


def test_list_of_commands():
    done = subprocess.run(["bash", TOP / "scripts/gate.sh"], cwd="/", capture_output=True, text=True, check=True)
    assert [line.split()[0] for line in done.stdout.splitlines()] == list(COMMANDS)
