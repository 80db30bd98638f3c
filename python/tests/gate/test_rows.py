"""Rows of the reference implementations: patterns, and which outputs are kept."""
import pytest

from lte_gate import rows


@pytest.fixture(autouse=True)
def cache(tmp_path, monkeypatch):
    monkeypatch.setenv("XDG_CACHE_HOME", str(tmp_path / "cache"))


def test_run_is_kept_until_its_command_or_input_changes(tmp_path):
    count = tmp_path / "count"
    command = f"cat; echo run >> {count}"
    assert rows.output_of(rows.Look("", command, None, b"12")) == (b"12", True)
    assert rows.output_of(rows.Look("", command, None, b"12")) == (b"12", False)
    assert rows.output_of(rows.Look("", command, None, b"13")) == (b"13", True)
    rows.RUN.clear()
    assert rows.output_of(rows.Look("", command, None, b"12"), True) == (b"12", True)
    assert rows.output_of(rows.Look("", command, None, b"12"), True) == (b"12", False)
    assert count.read_text() == "run\n" * 3


def test_rows_are_looked_up_in_kept_output_too():
    good = rows.Look("HANDLES", "echo 'Handles allowed: none.'", rows.lines_together)
    assert rows.looked_up(good) == (1, [], True)
    assert rows.looked_up(good) == (1, [], False)
    other = rows.Look("HANDLES", "echo 'Handles allowed: none.'", lambda text: ["another"])
    assert rows.looked_up(other) == (1, [f"rows: {other.command}: not in HANDLES: another"], False)


def test_failed_run_is_a_fault_and_not_kept():
    look = rows.Look("HANDLES", "echo no >&2; exit 3", rows.lines_together)
    assert [rows.looked_up(look) for _ in range(2)] == [(1, ["rows: echo no >&2; exit 3: status 3, no\n"], True)] * 2
    assert rows.looked_up(rows.Look("HANDLES", "true", lambda _: []))[1] == ["rows: true: prints no row"]


def test_command_depends_on_its_modules_and_files():
    names = {file.name for file in rows.files_of("$PY -m lte_reference.evidence < examples/plain_cell.json")}
    assert {"evidence.py", "search.py", "plain_cell.json"} <= names and "turbo.py" not in names
    assert [file.name for file in rows.files_of("cat ../crates/capture_example/stdin")] == ["stdin"]


def test_pressed_text():
    assert rows.pressed("[1_000, [0; 3],\n &x,]") == "[1000,[0,0,0],x]"
    assert rows.constants("const A: [u8; 1] = [1];")[0] == r"constA:[^=]*=\[1\];"
