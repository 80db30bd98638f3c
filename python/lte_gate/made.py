"""made [--write]

Compares generated files with the files that are made now. They are the manual pages (scripts/install/man), the completion
(scripts/install/completion), the table of columns in docs/RECORDINGS.md, and docs/OUTPUTS.md. They are made from the
command forms of `help`, docs/FORMATS.md, the tools' parsers, the survey's columns, and the schema of the JSON outputs. The
status is 1 if one differs. With --write it writes them.

Needs numpy, scipy and matplotlib (Debian: python3-numpy, python3-scipy, python3-matplotlib), which the tools import.
"""
import argparse
import itertools

from lte_tools import columns

from . import command_forms, completions, man_pages, outputs_page, tool_parsers
from .repository import TOP, Refused, report, run

HERE = TOP / "scripts/install"
RECORDINGS = TOP / "docs/RECORDINGS.md"


def made():
    """Returns each file that is made, and its text."""
    programs, tools = command_forms.programs(), tool_parsers.tools()
    found = {HERE / "man" / name: text for name, text in man_pages.pages(programs, tools).items()}
    found |= {HERE / "completion" / name: text for name, text in completions.texts(programs, tools).items()}
    found[outputs_page.PAGE] = outputs_page.page()
    return found | {RECORDINGS: with_columns(RECORDINGS.read_text(encoding="utf-8"))}


def with_columns(page):
    """Returns the page with the table of the survey's columns as it is now."""
    rows = columns.page_rows()
    before, head, after = page.partition("\n".join(rows[:2]) + "\n")
    if not head:
        raise Refused(f"{RECORDINGS.relative_to(TOP)}: no table of columns")
    rest = itertools.dropwhile(lambda line: line.startswith("|"), after.splitlines(keepends=True))
    return "".join([before, *(f"{row}\n" for row in rows), *rest])


def write(files):
    """Writes the files."""
    for path, text in files.items():
        path.parent.mkdir(exist_ok=True)
        path.write_text(text, encoding="utf-8")


def different(files):
    """Yields the files that differ, and those that nothing makes."""
    there = {path for folder in ("man", "completion") for path in (HERE / folder).glob("*")}
    there |= {path for path in (RECORDINGS, outputs_page.PAGE) if path.is_file()}
    yield from (path for path, text in files.items() if path not in there or path.read_text(encoding="utf-8") != text)
    yield from sorted(there - files.keys())


def parser():
    """Returns the parser of the command's arguments."""
    found = argparse.ArgumentParser("made", description=__doc__, formatter_class=argparse.RawDescriptionHelpFormatter)
    found.add_argument("--write", action="store_true", help="write the files")
    return found


def main():
    args, files = parser().parse_args(), made()
    if args.write:
        write(files)
    faults = [f"{path.relative_to(TOP)}: differs: scripts/gate.sh made --write" for path in different(files)]
    return report("manual pages, completion, table of columns and page of outputs", faults, f"{len(files)} files")


if __name__ == "__main__":
    run(main, "made")
