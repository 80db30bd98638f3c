"""form_list [--write]

Compares scripts/forms.txt, the list of examples of all command forms, with the forms that `help` lists: each example is of
a form, and each form, with each of its options, has an example. Compares the forms of crates/fault_tests with those that
are made from the list; with --write it writes them. The status is 1 if there is a fault.
"""
import argparse
import re
import textwrap
from dataclasses import dataclass

from . import command_forms
from .repository import TOP, Refused, report, run

LIST = TOP / "scripts/forms.txt"
RUST = TOP / "crates/fault_tests/src/forms.rt"
INPUTS = {
    "nothing": "Nothing",
    "cell": "Cell16",
    "cell-of-8-bits": "Cell8",
    "two-ports": "TwoPorts",
    "four-ports": "FourPorts",
    "long-prefix": "LongPrefix",
    "description": "Description",
    "two-ports-description": "TwoPortsDescription",
    "four-ports-description": "FourPortsDescription",
    "certificate-of-zeros": "ZeroCertificate",
    "certificates": "Certificates",
    "wide": "Wide",
}
HEAD = """\
//! The command forms, each with a valid input. Made from scripts/forms.txt by `scripts/gate.sh form_list --write`.

use crate::inputs::Input;

/// A form's command line, and its input.
pub type Form = (&'static str, Input);
"""


@dataclass(frozen=True)
class Example:
    """The words of a form, and the name of a valid input."""

    words: str
    given: str


@dataclass
class Group:
    """Examples that are tested together."""

    name: str
    says: str
    examples: list[Example]

    @property
    def in_crate(self):
        """Returns whether the tests of faults run the group: the names of the others are in small letters."""
        return self.name.isupper()


def groups(text):
    """Returns the groups of a list."""
    found = []
    for number, line in enumerate(text.splitlines(), 1):
        head, row = re.fullmatch(r"\[(\w+)\] (.+)", line), re.fullmatch(r"([a-z0-9-]+): (.+)", line)
        if head:
            found.append(Group(head[1], head[2], []))
        elif row and found and row[1] in INPUTS:
            found[-1].examples.append(Example(row[2], row[1]))
        elif line and not line.startswith("#"):
            raise Refused(f"{LIST.name}:{number}: neither a group nor a form with an input")
    return found


def examples():
    """Returns all examples of the list."""
    return [one for group in groups(LIST.read_text(encoding="utf-8")) for one in group.examples]


def rust_of(found):
    """Returns the source of the forms of these groups."""
    return HEAD + "".join(rust_of_group(group) for group in found if group.in_crate)


def rust_of_group(group):
    says = "\n".join(f"/// {line}" for line in textwrap.wrap(group.says, 116))
    rows = [f'("{one.words}", Input::{INPUTS[one.given]})' for one in group.examples]
    front = f"pub const {group.name}: [Form; {len(rows)}] = ["
    line = f"{front}{', '.join(rows)}];"
    if len(line) > 100:
        line = f"{front}\n" + "".join(f"    {row},\n" for row in rows) + "];"
    return f"\n{says}\n{line}\n"


def is_word(asked, word):
    """Returns whether a word of an example is an instance of a word of `help`."""
    if asked in command_forms.CHOICES:
        return word in command_forms.CHOICES[asked]
    return bool(re.fullmatch(command_forms.NUMBERS[asked], word)) if asked in command_forms.NUMBERS else asked == word


def is_of(sequence, words):
    """Returns whether the words are of this sequence of `help`."""
    return len(sequence) == len(words) and all(map(is_word, sequence, words))


def parts(sequence):
    """Returns the parts of a sequence that need an example: the command alone, and with each option or alternative."""
    command, *rest = sequence
    numbers = command_forms.NUMBERS | command_forms.CHOICES
    return {command} | {f"{command} {word}" for word in rest if word not in numbers}


def faults_of(found, sequences):
    """Yields the faults of these examples for the sequences that `help` allows."""
    shown = set()
    for one in found:
        matches = [sequence for sequence in sequences if is_of(sequence, one.words.split())]
        if not matches:
            yield f"{LIST.name}: no form of help: {one.words}"
        shown |= {part for sequence in matches for part in parts(sequence)}
    asked = {part for sequence in sequences for part in parts(sequence)}
    yield from (f"{LIST.name}: no example: {part}" for part in sorted(asked - shown))


def parser():
    """Returns the parser of the command's arguments."""
    found = argparse.ArgumentParser(
        "form_list", description=__doc__, formatter_class=argparse.RawDescriptionHelpFormatter
    )
    found.add_argument("--write", action="store_true", help="write the forms of crates/fault_tests")
    return found


def main():
    found = groups(LIST.read_text(encoding="utf-8"))
    source = rust_of(found)
    if parser().parse_args().write:
        RUST.write_text(source, encoding="utf-8")
    rows = [one for group in found for one in group.examples]
    sequences = [sequence for program in command_forms.programs() for sequence in program.sequences()]
    faults = list(faults_of(rows, sequences))
    if RUST.read_text(encoding="utf-8") != source:
        faults.append(f"{RUST.relative_to(TOP)}: differs: scripts/gate.sh form_list --write")
    return report("forms", faults, f"{len(rows)} examples")


if __name__ == "__main__":
    run(main, "form_list")
