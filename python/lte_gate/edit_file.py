"""Mutants: files `.edit` of crates/*/must-fail and crates/*/wrong, each with lines `file:`, `old:` and `new:`."""
import dataclasses
import pathlib

FOLDERS = ("must-fail", "wrong")


@dataclasses.dataclass(frozen=True)
class Pair:
    """A line of a file, from the folder of the crate, and the line in its place; None for what is missing."""

    path: str | None
    old: str | None
    new: str


@dataclasses.dataclass(frozen=True)
class Edit:
    """A mutant of a crate."""

    file: pathlib.Path
    pairs: tuple[Pair, ...]

    @property
    def name(self):
        return self.file.stem

    @property
    def crate(self):
        """Returns the folder of the crate."""
        return self.file.parent.parent

    @property
    def is_in_gate(self):
        return self.file.parent.name == FOLDERS[0]


def pairs_of(text):
    """Returns the pairs of a text; the last `file:` and `old:` above a `new:` belong to it."""
    found, path, old = [], None, None
    for line in text.split("\n"):
        if line.startswith("file: "):
            path = line[6:].strip()
        elif line.startswith("old: "):
            old = line[5:]
        elif line.startswith("new:"):
            found.append(Pair(path, old, line[4:].removeprefix(" ")))
    return tuple(found)


def read(file):
    """Returns the mutant of a file."""
    return Edit(file, pairs_of(file.read_text(encoding="utf-8")))


def edits_of(top, folders=FOLDERS):
    """Returns the mutants of a repository, in the order of the folders."""
    return [read(file) for folder in folders for file in sorted(top.glob(f"crates/*/{folder}/*.edit"))]


def faults_of(edit):
    """Yields a line for each pair that cannot be applied after those before it."""
    texts = {}
    for pair in edit.pairs:
        if pair.path is None or pair.old is None or not (edit.crate / pair.path).is_file():
            yield f"no file {pair.path}, or no `old:`"
            continue
        text = texts.get(pair.path) or (edit.crate / pair.path).read_text(encoding="utf-8")
        if text.count(pair.old) != 1:
            yield f"{pair.old!r} is in {pair.path} {text.count(pair.old)} times"
        elif pair.old == pair.new:
            yield f"{pair.old!r} is not changed"
        texts[pair.path] = text.replace(pair.old, pair.new, 1)
    if not edit.pairs:
        yield "no pair"
