"""The worked example of docs/NOTEBOOKS.md."""
import doctest

from tests.conftest import TOP


def test_example(monkeypatch):
    monkeypatch.chdir(TOP)
    found = doctest.testfile(str(TOP / "docs/NOTEBOOKS.md"), module_relative=False)
    assert found.attempted >= 14 and found.failed == 0
