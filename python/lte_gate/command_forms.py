"""The command forms of lte_cli and lte_tune, from the text of their `help` (the constants `_HELP: &str`): the one table
from which manual pages and completion are made.
"""
import itertools
import re
from dataclasses import dataclass, field

from .repository import TOP, Refused

# the words that a word in capitals stands for: as a regular expression, or all of them
NUMBERS = {"PCI": "[0-9]|[1-9][0-9]|[1-4][0-9][0-9]|50[0-3]", "N": "0|[1-9][0-9]*", "M": "0|-?[1-9][0-9]*"}
CHOICES = {"R": ("1.92", "3.84", "7.68", "15.36", "30.72")}


GROUP = re.compile(r"([A-Z][A-Z ]+)[:,]")  # the heading of a group of options
ITEM = re.compile(r"  (\S+(?: \S+)*)(?:  +(\S.*))?")  # its words, and their meaning or the first line of it
GOES_ON = re.compile(r" {20,}(\S.*)")
ONLY = re.compile(r"\((not )?(\w+(?:, \w+)*)\)$")  # the commands that take an option, or do not take it


@dataclass
class Option:
    """Optional words, such as `--ports 2 | --ports 4`, and their effect."""

    words: str
    says: str

    def is_of(self, command, commands):
        """Returns whether the command takes the option, by the note at the end of its meaning."""
        note = ONLY.search(self.says)
        names = note[2].split(", ") if note else []
        return not names or not commands.issuperset(names) or (command in names) != bool(note[1])


@dataclass
class Form:
    """A line of help: its words, the optional ones in brackets, and their meaning."""

    words: str
    says: str

    @property
    def command(self):
        return self.words.split()[0].rstrip(",")


@dataclass
class Group:
    """A group of options, by the name that forms have in brackets, and its heading."""

    name: str
    head: str
    options: list[Option] = field(default_factory=list)


@dataclass(frozen=True)
class Program:
    """A program, its line of usage, and its forms and groups of options in the order of help."""

    name: str
    usage: str
    forms: list[Form]
    groups: list[Group]

    def sequences(self):
        """Returns each sequence of words that the program takes."""
        return [sequence for form in self.forms for sequence in self.sequences_of(form)]

    def sequences_of(self, form):
        """Returns each sequence of words that the form allows, the longest first."""
        parts = re.findall(r"\[[^]]*\](?:\.\.)?|[^][]+", form.words)
        chosen = [choices for part in parts if part.strip() for choices in self.choices(part.strip(), form.command)]
        return [tuple(word for part in one for word in part) for one in itertools.product(*chosen)]

    def choices(self, part, command):
        """Returns lists of alternatives for a part of a form: `[A | B]` is A, B or nothing, `A, B` is A or B, `[GROUP]` is
        one option of the group or nothing, and `[GROUP]..` any of them, in order."""
        if not part.startswith("["):
            return [alternatives(part, ", ")]
        name = part.rstrip(".")[1:-1]
        found = next((group.options for group in self.groups if group.name == name), None)
        if found is None:
            return [[*alternatives(name, " | "), ()]]
        commands = {one.command for one in self.forms}
        options = [alternatives(one.words, " | ") for one in found if one.is_of(command, commands)]
        if part.endswith(".."):
            return [[*words, ()] for words in options]
        return [[*itertools.chain(*options), ()]]


def alternatives(text, mark):
    """Returns the words of each alternative in a text."""
    return [tuple(words.split()) for words in text.split(mark)]


def found(name, pattern):
    """Returns all matches of a pattern in the sources of this name."""
    sources = sorted(TOP.glob(f"crates/*/src/{name}"))
    return [one for file in sources for one in re.findall(pattern, file.read_text(encoding="utf-8"), re.M | re.S)]


def programs():
    """Returns both programs."""
    texts = found("pages.rt", r'^const \w+_HELP: &str = "\\\n(.*?)";$')
    if len(texts) != 2:
        raise Refused(f"crates/*/src/pages.rt: {len(texts)} texts of help, and not 2")
    return [program_of(text) for text in texts]


def program_of(text):
    """Returns the program of a help text."""
    usage, *lines = text.splitlines()
    name = re.fullmatch(r"usage: (\w+) [^(]*?(?: +\(.*\))?", usage)
    if not name:
        raise Refused(f"no line of usage: {usage}")
    groups: list[Group] = []
    forms: list[Form] = []
    rows: list[Form | Option] = []
    options = None  # those of the group that is read
    for line in lines:
        head, item, more = GROUP.match(line), ITEM.fullmatch(line), GOES_ON.fullmatch(line)
        if line[:1].strip():
            options = None
        if head:
            groups.append(Group(head[1], line))
            options = groups[-1].options
        elif more and rows:
            rows[-1].says = f"{rows[-1].says} {more[1]}".strip()
        elif item:
            rows.append((Form if options is None else Option)(item[1], item[2] or ""))
            (forms if options is None else options).append(rows[-1])
        elif line.startswith(" "):
            raise Refused(f"{name[1]}: a line of help that is no form and no option: {line}")
    if not forms or not all(row.says for row in rows):
        raise Refused(f"{name[1]}: a form of help without a meaning")
    return Program(name[1], usage.removeprefix("usage: ").partition("   ")[0], forms, groups)


def version():
    """Returns the version of both programs."""
    numbers = found("version.rt", r'\bVERSION: &str = "([^"]+)"')
    if len(numbers) != 1:
        raise Refused(f"crates/*/src/version.rt: {len(numbers)} versions, and not 1")
    return numbers[0]
