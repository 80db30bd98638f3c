"""layers

Checks crates.txt against the crates. Each name behind a crate's colon has to be named by a file of the crate: src/ by
`name::` or `use name`, specs/ and proofs/ by `Rattle.name`. A crate of code with more than 100 functions needs a reason:
a line of its root file that begins with `//! Size:`. Prints a line for each fault, and a count; the status is 1 if
there is one.
"""
import argparse
import re

from .crates_list import entries_of
from .rattle_source import functions_of, is_of_tests, quiet, root_of
from .repository import TOP, report, run

MOST = 100
ANTT_COMMENT = re.compile(r"(?m)(?:^|(?<= ))--( [^\n]*)?$")


def named_by(crate):
    """Returns the names of other crates that the files of a crate have."""
    found = set()
    for file in crate.glob("src/**/*.rt"):
        text = file.read_text(encoding="utf-8")
        code = quiet(text)
        found.update(re.findall(r"(?<![\w:])(\w+)::", code), re.findall(r"\buse (\w+)\b", code))
        found.update(re.findall(r"\bRattle\.(\w+)", code))
    for file in [*crate.glob("specs/**/*.antt"), *crate.glob("proofs/**/*.antt")]:
        text = ANTT_COMMENT.sub("", file.read_text(encoding="utf-8"))
        found.update(re.findall(r"\bRattle\.(\w+)", text))
    return found


def dead_entries(top):
    """Yields a line for each name of crates.txt that no file of its crate names."""
    for entry in entries_of(top):
        named = named_by(top / "crates" / entry.name)
        for name in entry.below:
            if name not in named:
                yield f"crates.txt: no file of {entry.name} names {name}"


def sizes(top):
    """Returns, for each crate of code without a reason for its size, its count of functions if that is above 100."""
    found = {}
    for entry in entries_of(top):
        crate = top / "crates" / entry.name
        if is_of_tests(entry.name) or re.search(r"^//! Size:", root_of(crate), re.M):
            continue
        files = [file.read_text(encoding="utf-8") for file in crate.glob("src/**/*.rt")]
        count = sum(len(functions_of(text)) for text in files)
        if count > MOST:
            found[entry.name] = count
    return found


def parser():
    """Returns the parser of the command's arguments."""
    return argparse.ArgumentParser("layers", description=__doc__, formatter_class=argparse.RawDescriptionHelpFormatter)


def main():
    parser().parse_args()
    faults = [*dead_entries(TOP)]
    faults += [
        f"{name}: {count} functions, above {MOST}: split it, or say why in a line `//! Size:`"
        for name, count in sizes(TOP).items()
    ]
    return report("crates.txt", faults, f"{len(entries_of(TOP))} crates")


if __name__ == "__main__":
    run(main, "layers")
