"""What docs/PROVED.md quotes is in the files that it names."""
import re

from lte_gate.repository import TOP

PAGE = (TOP / "docs/PROVED.md").read_text(encoding="utf-8")


def blocks():
    """Yields the lines of each indented block, with the file of crates/ that was named last above it."""
    file = None
    for line, block in re.findall(r"^(\S.*)\n|^((?:    .*\n)+)", PAGE, re.M):
        for name in re.findall(r"`(crates/[\w/.-]+\.(?:rt|antt|edit))`", line):
            file = TOP / name
        if block:
            yield file, [one.removeprefix("    ") for one in block.splitlines()]


def test_quoted_code_is_in_its_file():
    found = [(file, lines) for file, lines in blocks() if lines[0].startswith(("pub ", "file: "))]
    assert [file.name for file, _ in found] == ["list.rt", "Hits.antt", "threshold_missed_by_equals.edit"]
    assert [file.name for file, lines in found if "\n".join(lines) not in file.read_text(encoding="utf-8")] == []
