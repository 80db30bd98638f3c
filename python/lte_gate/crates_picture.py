"""crates_picture [--write] [PAGE]

The picture of the crates, from crates.txt: its groups, the highest first, and in each its crates line by line. A
crate stands on crates of lines below its own, never on one of its own line or above. And the list of the crates, the
lowest group first: behind a sentence on each, which is the page's own, the calls that its lib.rt publishes, and the
files of its specs/, both in the order of the source; of programs and crates of tests there are neither.

    crates_picture                  prints both, with the first sentence of each crate's source
    crates_picture PAGE             checks that the page has both; the status is 1 if it does not
    crates_picture --write PAGE     writes both into the page, whose sentences stay
"""
import argparse
import pathlib
import re
import textwrap

from .crates_list import entries_of
from .rattle_source import is_of_tests, root_of
from .repository import TOP, report, run

WIDTH = 116
PICTURE = re.compile(r"(?:^    [^\n]+\n)+", re.M)
LIST = re.compile(r"^### .*?(?=^## )", re.M | re.S)
LINE = re.compile(r"^- `(\w+)`: (.*?\.)(?: `.*)?$", re.M)


def groups_of(entries):
    """Returns the groups of crates.txt from the bottom up: each title, and the entries' names with those below them."""
    groups = {}
    for entry in entries:
        groups.setdefault(entry.group, {})[entry.name] = entry.below
    return list(groups.items())


# ---- the picture


def rows_of(crates):
    """Returns the crates of a group in rows: each stands on crates of the rows in front of its own."""
    heights = {}
    for name, below in crates.items():
        heights[name] = max((heights[other] + 1 for other in below if other in heights), default=0)
    return [[name for name in crates if heights[name] == height] for height in sorted(set(heights.values()))]


def picture_of(groups):
    lines = []
    for title, crates in reversed(groups):
        lines.append(title)
        for row in reversed(rows_of(crates)):
            indent = "    "
            lines += textwrap.wrap("   ".join(row), WIDTH, initial_indent=indent, subsequent_indent=indent)
    return "".join(f"    {line}\n" for line in lines)


# ---- the list


def sentence_of(crate):
    """Returns the first sentence of the comment at the head of a crate's root file."""
    words = " ".join(re.findall(r"^//! ?(.*)$", root_of(crate), re.M))
    return re.split(r"(?<=\.) (?=[A-Z`])", words)[0]


def calls_of(crate):
    """Returns the functions that a library publishes, in the order of its source; types and constants are left out."""
    parts = re.findall(r"^pub use [\w:]+::(?:\{([^}]*)\}|(\w+));|^pub (?:const )?fn (\w+)", root_of(crate), re.M)
    return [name for part in parts for name in re.findall(r"\w+", " ".join(part)) if name[0].islower()]


def definitions_of(crate):
    lib = crate / "specs/Lib.antt"
    return re.findall(r"^pub mod (\w+)", lib.read_text(encoding="utf-8"), re.M) if lib.exists() else []


def line_of(crate, sentence):
    tests = is_of_tests(crate.name) and crate.name != "published_calls"
    names = [calls_of(crate), definitions_of(crate)] if not tests else []
    lists = "; ".join(", ".join(f"`{name}`" for name in part) for part in names if part)
    return f"- `{crate.name}`: {sentence}{lists and ' '}{lists}\n"


def list_of(groups, folder, sentences):
    parts = []
    for title, crates in groups:
        lines = [line_of(folder / name, sentences.get(name) or sentence_of(folder / name)) for name in crates]
        parts.append(f"### {title[0].upper()}{title[1:].split(':')[0]}\n\n{''.join(lines)}\n")
    return "".join(parts)


# ---- the page


def replaced(page, part, new):
    """Returns a page with another text in place of the longest match of a pattern."""
    old = max(part.findall(page), key=len)
    return page.replace(old, new)


def parser():
    """Returns the parser of the command's arguments."""
    how = {"description": __doc__, "formatter_class": argparse.RawDescriptionHelpFormatter}
    made = argparse.ArgumentParser("crates_picture", **how)
    made.add_argument("--write", action="store_true", help="write both into the page")
    made.add_argument("page", metavar="PAGE", nargs="?", type=pathlib.Path)
    return made


def main():
    args = parser().parse_args()
    page = args.page.read_text(encoding="utf-8") if args.page else ""
    groups = groups_of(entries_of(TOP))
    picture, crates = picture_of(groups), list_of(groups, TOP / "crates", dict(LINE.findall(page)))
    if not page:
        print(f"{picture}\n{crates}", end="")
        return 0
    if args.write:
        page = replaced(replaced(page, PICTURE, picture), LIST, crates)
        args.page.write_text(page, encoding="utf-8")
    parts = {"picture": picture, "list": crates}
    faults = [
        f"{args.page}: another {kind} of the crates than the tree has: crates_picture --write writes it"
        for kind, part in parts.items()
        if part not in page
    ]
    return report("crates_picture", faults, f"{sum(len(names) for _, names in groups)} crates")


if __name__ == "__main__":
    run(main, "crates_picture")
