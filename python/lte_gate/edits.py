"""edits

Checks that each mutant, crates/*/must-fail/*.edit and crates/*/wrong/*.edit, can be applied: each `old:` is in its file
exactly once after the pairs before it, and each `new:` is another text. Prints a line for each fault, and a count; the
status is 1 if there is a fault.
"""
from . import edit_file
from .repository import TOP, report, run


def main():
    edits = edit_file.edits_of(TOP)
    faults = [f"{edit.file.relative_to(TOP)}: {fault}" for edit in edits for fault in edit_file.faults_of(edit)]
    return report("mutants", faults, f"{len(edits)} checked")


if __name__ == "__main__":
    run(main, "edits")
