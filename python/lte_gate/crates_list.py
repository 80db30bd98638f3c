"""crates.txt: its one parser, the crates below each crate, how much text each has, and checksums of their files."""
import functools
import hashlib
import pathlib
from dataclasses import dataclass

from .repository import Refused

PARTS = ("src", "specs", "proofs")


@dataclass(frozen=True)
class Entry:
    """A crate's line of crates.txt: its name, all names after the colon, the line, and the title of its group."""

    name: str
    below: tuple[str, ...]
    line: str
    group: str


def entries(text):
    """Returns the entries of a text of crates.txt, in its order."""
    found, group = [], ""
    for row in text.splitlines():
        if row.startswith("# ----"):
            group = row.removeprefix("# ----").strip()
        line = row.partition("#")[0].strip()
        if not line:
            continue
        names, colon, below = line.partition(":")
        if not colon or not names.split():
            raise Refused(f"crates.txt: no name and colon in the line {row}")
        found.append(Entry(names.split()[0], tuple(below.split()), line, group))
    return found


def entries_of(top):
    """Returns the entries of a repository's crates.txt."""
    return entries((top / "crates.txt").read_text(encoding="utf-8"))


@dataclass(frozen=True)
class Crate:
    """A crate of the repository, and the crates of the repository that its line names."""

    folder: pathlib.Path
    line: str
    uses: tuple[str, ...]

    @property
    def name(self):
        return self.folder.name

    @property
    def is_program(self):
        return (self.folder / "src/main.rt").is_file()

    @functools.cached_property
    def files(self):
        return sorted(file for part in PARTS for file in (self.folder / part).rglob("*") if file.is_file())

    def lines(self, suffix):
        """Returns how many lines its files with a suffix have."""
        return sum(file.read_bytes().count(b"\n") for file in self.files if file.suffix == suffix)


class Crates:
    """Some crates of a repository and all crates below them, each after those that it uses."""

    def __init__(self, top, names):
        self.top = top
        listed = read(top)
        for name in names:
            if name not in listed:
                raise Refused(f"crates.txt has no crate {name}")
        needed, queue = set(), list(names)
        while queue:
            name = queue.pop()
            if name not in needed:
                needed.add(name)
                queue += listed[name].uses
        self.by_name = {name: crate for name, crate in listed.items() if name in needed}
        self.below = {}
        for name, crate in self.by_name.items():
            under = {low for use in crate.uses for low in (*self.below[use], use)}
            self.below[name] = [low for low in self.below if low in under]

    def __iter__(self):
        return iter(self.by_name)

    def __len__(self):
        return len(self.by_name)

    def work(self, name):
        """Returns how much work a crate is, in lines."""
        crate = self.by_name[name]
        return crate.lines(".rt") + crate.lines(".antt")

    def chains(self, work=None):
        """Returns, by crate, the work of the longest chain of crates that begins with it and leads up."""
        work, longest = work or self.work, {}
        for name in reversed(list(self)):
            above = [longest[other] for other in longest if name in self.by_name[other].uses]
            longest[name] = work(name) + max(above, default=0)
        return longest

    def memory(self, name):
        """Returns the maximum of bytes that a check of a crate is likely to take, by the kit's own estimate."""
        crate = self.by_name[name]
        under = sum(self.by_name[low].lines(".rt") for low in self.below[name])
        return 1_000_000_000 + 1_000_000 * crate.lines(".rt") + 200_000 * crate.lines(".antt") + 80_000 * under

    def sums(self, kit):
        """Returns, by crate, a checksum of all it is made of: the kit, its line, its text, the sums of its uses."""
        found = {}
        for name, crate in self.by_name.items():
            total = hashlib.sha256(f"{kit}\n{crate.line}\n".encode())
            for file in crate.files:
                total.update(
                    f"{file.relative_to(crate.folder)}\n{hashlib.sha256(file.read_bytes()).hexdigest()}\n".encode()
                )
            total.update("".join(found[use] for use in crate.uses).encode())
            found[name] = total.hexdigest()
        return found


def read(top):
    """Returns the crates of a repository's crates.txt by name, in its order."""
    found = {}
    for entry in entries_of(top):
        folder = top / "crates" / entry.name
        if not folder.is_dir():
            raise Refused(f"crates.txt names {entry.name}, and there is no folder crates/{entry.name}")
        found[entry.name] = Crate(folder, entry.line, tuple(use for use in entry.below if use in found))
    return found
