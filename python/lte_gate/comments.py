"""comments [CRATE ..]

Checks the comments of specs/ (`--`) and src/ (`//`, `///`, `//!`). In crates of code, each has to be readable by itself:
none may begin with words that need what stands above it ("those of a list", "it is the first"), or end with a bare verb
("the others do").

In all crates, those of tests too: no "told" or "tells" outside of quotation, no sentence with a fronted "Of", and for
the doc comment of a function a verb in the third person first (or "A law"), fewer than 40 words, and backticks around
parameters whose names are not English words. Prints each fault, in the named crates or in all, and a count; the status
is 1 if there is one.
"""
import argparse

from . import english
from .rattle_source import comments_of
from .repository import TOP, report, run


def files_of(crate):
    """Returns the files of a crate whose comments are checked."""
    return sorted([*crate.glob("specs/**/*.antt"), *crate.glob("src/**/*.rt")])


def leaning(text):
    """Yields the line's number and what is wrong for each comment that needs what stands above it."""
    for comment in comments_of(text):
        if english.leans(comment.words):
            yield comment.line, f"leans on what stands above it: {comment.words[:60]}"


def faults_in(crate):
    """Yields the faults of a crate's comments, each with its file and line."""
    for file in files_of(crate):
        text, place = file.read_text(encoding="utf-8"), file.relative_to(TOP)
        for line, fault in [*leaning(text), *english.faults_of(text)]:
            yield f"{place}:{line}: {fault}"


def parser():
    """Returns the parser of the command's arguments."""
    made = argparse.ArgumentParser(
        "comments", description=__doc__, formatter_class=argparse.RawDescriptionHelpFormatter
    )
    made.add_argument("crates", metavar="CRATE", nargs="*")
    return made


def main():
    args = parser().parse_args()
    crates = [crate for crate in sorted((TOP / "crates").iterdir()) if crate.is_dir()]
    read = [crate for crate in crates if not args.crates or crate.name in args.crates]
    return report("comments", [fault for crate in read for fault in faults_in(crate)], f"{len(read)} crates")


if __name__ == "__main__":
    run(main, "comments")
