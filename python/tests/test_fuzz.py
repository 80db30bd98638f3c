"""Mutated foreign files; `python3 -m tests.fuzz` tries more of them."""
from lte_tools import machine, radio_file
from tests import fuzz


def test_mutated_inputs(monkeypatch):
    for module in (machine, radio_file):
        monkeypatch.setattr(module, "note", lambda text: None)
    assert list(fuzz.faults(200, 7)) == []
