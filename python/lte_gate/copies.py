"""copies [--likeness PERCENT] [--list] [FOLDER]

Counts near copies: in src/ of functions with their clauses, in specs/ of paragraphs of definitions, in proofs/ of
paragraphs of lemmas and definitions, and apart from these of the functions of crates of tests. A piece counts from 6
lines on, in specs/ from 3, without comments, imports and blank lines. The likeness of two pieces is twice the longest
common subsequence of their tokens (words, and other characters one by one) by both their lengths. The longest piece
heads a family, with each piece that is as like it as PERCENT says (80 where nothing does); then the longest of those
that are left, and so on. Counted are the lines of a family beyond its head: what one copy would spare.

Prints a table of the rooms: pieces, families, lines, and how many of these lines stand in families over several crates.
With --list each family follows, greatest first, and its pieces, the head first: likeness to the head in percent, lines,
place, name. FOLDER is the top of another tree (`git archive COMMIT crates | tar -x -C FOLDER`). It takes less than a
minute of one processor, and numpy (Debian: python3-numpy). The status is 0.
"""
import argparse
import collections
import dataclasses
import pathlib
import re

import numpy

from .rattle_source import functions_of, is_of_tests, paragraphs_of
from .repository import TOP, Refused, run

ROOMS = ("src", "tests", "specs", "proofs")
LEAST = {"src": 6, "tests": 6, "specs": 3, "proofs": 6}
BUCKETS = 128
TOKEN = re.compile(r"\w+|[^\w\s]")


@dataclasses.dataclass(frozen=True)
class Piece:
    """A function, a lemma or a paragraph of definitions, without its comments."""

    room: str
    crate: str
    place: str
    name: str
    lines: int
    tokens: tuple


@dataclasses.dataclass(frozen=True)
class Family:
    """A longest piece, and those that are like it, each with its likeness."""

    head: Piece
    others: tuple

    @property
    def lines(self):
        return sum(piece.lines for piece, _ in self.others)

    @property
    def is_over_crates(self):
        return any(piece.crate != self.head.crate for piece, _ in self.others)


# ---- the pieces


def outermost(functions):
    """Yields the functions that are in no other."""
    last = 0
    for function in functions:
        if function.first > last:
            last = function.last
            yield function


def parts_of(text, is_code):
    """Yields the name, the first line and the lines of each function, or of each paragraph."""
    if not is_code:
        yield from paragraphs_of(text)
        return
    lines = text.split("\n")
    for function in outermost(functions_of(text)):
        yield function.name, function.first, lines[function.first - 1 : function.last]


def pieces_of(room, crate, file, top):
    """Yields the pieces of a file."""
    is_code = file.suffix == ".rt"
    mark = "//" if is_code else "--"
    for name, first, part in parts_of(file.read_text(encoding="utf-8"), is_code):
        kept = [line for line in part if line.strip() and not line.strip().startswith((mark, "use "))]
        if len(kept) >= LEAST[room]:
            bare = [re.sub(rf"(?:^|\s){mark} .*", "", line) for line in kept]
            tokens = tuple(TOKEN.findall(" ".join(bare)))
            yield Piece(room, crate, f"{file.relative_to(top)}:{first}", name, len(kept), tokens)


def house(top):
    """Returns the pieces of each room."""
    pieces = {room: [] for room in ROOMS}
    for file in sorted(top.glob("crates/*/*/**/*")):
        crate, folder = file.relative_to(top).parts[1:3]
        if folder in LEAST and file.suffix in (".rt", ".antt"):
            room = "tests" if is_of_tests(crate) else folder
            pieces[room] += pieces_of(room, crate, file, top)
    return pieces


# ---- likeness


def common(one, other):
    """Returns the length of the longest common subsequence of two token lists, with one bit per token of the first."""
    places = collections.defaultdict(int)
    for at, token in enumerate(one):
        places[token] |= 1 << at
    whole = (1 << len(one)) - 1
    row = whole
    for token in other:
        found = row & places.get(token, 0)
        row = ((row + found) | (row - found)) & whole
    return len(one) - row.bit_count()


def counts_of(pieces):
    """Returns, by piece, how many tokens each bucket has: the lesser of two counts bounds what is common."""
    numbers = {}
    counts = numpy.zeros((len(pieces), BUCKETS), dtype=numpy.int16)
    for row, piece in zip(counts, pieces):
        for token in piece.tokens:
            row[numbers.setdefault(token, len(numbers)) % BUCKETS] += 1
    return counts


def alike(pieces, percent):
    """Yields, by piece number, the later pieces that are like it, each with its likeness in percent."""
    counts = counts_of(pieces)
    lengths = counts.sum(axis=1, dtype=numpy.int64)
    for head, piece in enumerate(pieces):
        later = numpy.arange(head + 1, len(pieces))
        least = percent * (lengths[head] + lengths[later])
        later = later[200 * numpy.minimum(lengths[head], lengths[later]) >= least]
        most = numpy.minimum(counts[head], counts[later]).sum(axis=1, dtype=numpy.int64)
        later = later[200 * most >= percent * (lengths[head] + lengths[later])]
        likeness = [(at, 200 * common(piece.tokens, pieces[at].tokens) / (lengths[head] + lengths[at])) for at in later]
        yield head, [(at, part) for at, part in likeness if part >= percent]


def families_of(pieces, percent):
    """Returns the families of a room, the largest first."""
    ordered = sorted(pieces, key=lambda piece: (-piece.lines, -len(piece.tokens), piece.place))
    taken, families = set(), []
    for head, others in alike(ordered, percent):
        own = [(at, part) for at, part in others if at not in taken]
        if head not in taken and own:
            taken.update(at for at, _ in own)
            families.append(Family(ordered[head], tuple((ordered[at], part) for at, part in own)))
    return sorted(families, key=lambda family: -family.lines)


# ---- what is printed


def table(pieces, families):
    """Yields the lines of the table of all rooms."""
    yield "| Room | pieces | families | lines | of these over several crates |"
    yield "| --- | --- | --- | --- | --- |"
    sums = [0, 0, 0, 0]
    for room in ROOMS:
        lines = sum(family.lines for family in families[room])
        over = sum(family.lines for family in families[room] if family.is_over_crates)
        row = [len(pieces[room]), len(families[room]), lines, over]
        sums = [whole + part for whole, part in zip(sums, row)]
        yield f"| {room} | " + " | ".join(f"{number:,}" for number in row) + " |"
    yield "| all | " + " | ".join(f"{number:,}" for number in sums) + " |"


def listed(families):
    for family in sorted(sum(families.values(), []), key=lambda family: -family.lines):
        yield f"\n{family.lines} lines, {family.head.room}{', over crates' if family.is_over_crates else ''}"
        for piece, likeness in ((family.head, 100), *family.others):
            yield f"  {likeness:3.0f} % {piece.lines:4} {piece.place} {piece.name}"


def parser():
    """Returns the parser of the command's arguments."""
    made = argparse.ArgumentParser("copies", description=__doc__, formatter_class=argparse.RawDescriptionHelpFormatter)
    made.add_argument("--likeness", metavar="PERCENT", type=float, default=80.0)
    made.add_argument("--list", action="store_true", help="each family too, with its positions")
    made.add_argument("folder", metavar="FOLDER", nargs="?", type=pathlib.Path, default=TOP)
    return made


def main():
    args = parser().parse_args()
    if not 0 < args.likeness <= 100:
        raise Refused("a likeness is above 0 and at most 100 percent")
    if not (args.folder / "crates").is_dir():
        raise Refused(f"no crates in {args.folder}")
    pieces = house(args.folder)
    families = {room: families_of(pieces[room], args.likeness) for room in ROOMS}
    print("\n".join(table(pieces, families)))
    if args.list:
        print("\n".join(listed(families)))
    return 0


if __name__ == "__main__":
    run(main, "copies")
