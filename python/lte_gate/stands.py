"""stands [--all] [BASE[..END]]

Tells of each commit behind BASE, up to END (HEAD where none is named), whether its crates stand as a whole by their
names: each `use` of a module, an item or a case of the tree's crates, and each import in src/, specs/ and proofs/, is of
what that commit defines and publishes; the crate's line of crates.txt has each crate that is named; and where a match,
or a function by equations, tells apart nothing but cases of one enum, it has all of them. Without words BASE is where
HEAD left origin/main. Nothing is checked out or built, so that types fit and proofs hold is not looked at.

Prints a line for each commit that does not stand, with its first fault (with --all every fault), and a count; the
status is 0 where all stand. It takes some five seconds of one processor, and a tenth of one a commit.
"""
import argparse
import dataclasses
import functools
import pathlib
import subprocess

from .crates_list import entries
from .rattle_source import antt_file, rust_file
from .repository import TOP, Refused, run

LANDED = "origin/main"
FOREIGN = ("", (), "")
OUR_OWN = ("crate", "self", "super")
ALWAYS_THERE = ("std", "core", "alloc")
INNER = ("TheVariants", "TheInside", "TheConstants")
MADE = ("Given", "Goals")


# ---- commits


def git(*words):
    """Returns the output of git; if it fails, the refusal has its last line."""
    done = subprocess.run(["git", *words], cwd=TOP, capture_output=True, encoding="utf-8", errors="replace")
    if done.returncode:
        last = (done.stderr.strip().splitlines() or ["nothing found"])[-1]
        raise Refused(f"git {words[0]}: {last}")
    return done.stdout


class Blobs:
    """Texts by their names in the repository, from one `git cat-file`."""

    def __init__(self):
        words = ["git", "cat-file", "--batch"]
        self.process = subprocess.Popen(words, cwd=TOP, stdin=subprocess.PIPE, stdout=subprocess.PIPE)

    def text(self, name):
        """Returns a text, or nothing if there is none."""
        self.process.stdin.write(f"{name}\n".encode())
        self.process.stdin.flush()
        head = self.process.stdout.readline().split()
        if head[-1] == b"missing":
            return ""
        text = self.process.stdout.read(int(head[2]))
        self.process.stdout.read(1)
        return text.decode("utf-8", errors="replace")


@dataclasses.dataclass(frozen=True)
class Crate:
    """The definitions and names of a crate's files: src/ by module, specs/ and proofs/ by path."""

    name: str
    src: dict
    antt: dict
    paths: dict
    digest: int


def module_of(path):
    """Returns the module of a file of src/, as a path."""
    parts = tuple(path.removesuffix(".rt").split("/")[1:])
    return parts[:-1] if parts[-1] in ("lib", "main", "mod") else parts


class Reader:
    """Crates by their trees; a file that was read is kept."""

    def __init__(self):
        self.blobs = Blobs()

    @functools.cache
    def file(self, blob, is_code):
        text = self.blobs.text(blob)
        return rust_file(text) if is_code else antt_file(text)

    @functools.cache
    def crate(self, name, tree):
        src, antt, paths, published = {}, {}, {}, []
        for line in git("ls-tree", "-r", tree).splitlines():
            head, path = line.split("\t")
            folder, suffix = path.split("/")[0], pathlib.PurePath(path).suffix
            if (folder, suffix) == ("src", ".rt"):
                key = module_of(path)
                src[key] = found = self.file(head.split()[2], True)
                published.append(repr((key, found.items, found.variants, sorted(found.methods), found.exports)))
            elif folder in ("specs", "proofs") and suffix == ".antt":
                key = tuple(path.removesuffix(".antt").split("/"))
                antt[key] = found = self.file(head.split()[2], False)
                published.append(repr((key, sorted(found.names), found.modules)))
            else:
                continue
            paths[key] = f"crates/{name}/{path}"
        return Crate(name, src, antt, paths, hash(tuple(published)))


# ---- what a name stands for


class Tree:
    """The crates of a commit, and what each stands on by crates.txt."""

    def __init__(self, crates, text):
        self.crates = crates
        self.below = {entry.name: frozenset(entry.below) for entry in entries(text)}
        self.order = {name: place for place, name in enumerate(self.below)} if "stand above it" in text else {}

    def all_below(self, name):
        """Returns the crates of the tree below a crate."""
        found, waiting = set(), [name]
        while waiting:
            more = self.below.get(waiting.pop(), frozenset()) & self.crates.keys() - found
            found |= more
            waiting += more
        return sorted(found)

    def item(self, crate, module, name, outside, tried=()):
        """Returns the crate, module and name that define an item of a module, FOREIGN or None."""
        file = self.crates[crate].src.get(module)
        if file is None or (crate, module, name) in tried:
            return None
        if name in file.items and (file.items[name] or not outside):
            return crate, module, name
        if name in file.exports and (file.exports[name][0] or not outside):
            return self.used(crate, module, file.exports[name][1], (*tried, (crate, module, name)))
        return None

    def walk(self, crate, module, rest, outside, tried=()):
        """Returns the item that a path names, from a module."""
        file = self.crates[crate].src.get(module)
        if file is None:
            return None
        if not rest or rest[0] == "*":
            return crate, module, ""
        name = rest[0]
        if len(rest) > 1 and name in file.modules and (file.items[name] or not outside):
            return FOREIGN if name in file.inner else self.walk(crate, (*module, name), rest[1:], outside, tried)
        found = self.item(crate, module, name, outside, tried)
        return self.inside(found, rest[1:], outside, tried) if found and len(rest) > 1 else found

    def inside(self, found, rest, outside, tried):
        """Returns what a path names in an item: a case of an enum, or something in a module that is published again."""
        if found == FOREIGN:
            return FOREIGN
        crate, module, name = found
        file = self.crates[crate].src[module]
        if name in file.variants:
            return found if rest[0] in (*file.variants[name], "*") else None
        return self.walk(crate, (*module, name) if name else module, rest, outside, tried)

    def used(self, crate, module, path, tried=()):
        """Returns the item that a path of `use` in a module names."""
        file, first = self.crates[crate].src[module], path[0]
        if first == "crate":
            return self.walk(crate, (), path[1:], False, tried)
        if first in ("self", "super"):
            return self.walk(crate, module if first == "self" else module[:-1], path[1:], False, tried)
        if first in file.modules or first in file.variants:
            return self.walk(crate, module, path, False, tried)
        if first in self.crates:
            return self.walk(first, (), path[1:], True, tried)
        is_own = len(path) > 1 and first in file.exports and first != file.exports[first][1][0]
        return self.walk(crate, module, path, False, tried) if is_own else FOREIGN

    def variants(self, found):
        """Returns the cases of an enum, or None if it is not an enum."""
        if not found or found == FOREIGN:
            return None
        return self.crates[found[0]].src[found[1]].variants.get(found[2])


# ---- faults


def declared_fault(crate, path, name):
    """Returns the fault of an import of a type that src/ declares, or of a name in it, or None."""
    place = next((at for at, part in enumerate(path) if part in INNER), len(path))
    module, kind = path[: place - 1], path[place - 1]
    if path[-1] == "TheConstants":
        return None if path[:-1] in crate.src else f"{crate.name} has no module {'.'.join(path[:-1])}"
    file = crate.src.get(module)
    if file is None or kind not in {**file.items, **file.exports}:
        return f"{crate.name} declares no {'.'.join((*module, kind))}"
    if "TheVariants" in path and name and name not in file.variants.get(kind, ()):
        return f"{crate.name}: {kind} has no case {name}"
    return None


def made_fault(crate, path):
    """Returns the fault of an import made of a function of a module or of a type, or None."""
    *front, name = path[:-1] + (path[-1].removeprefix("+"),)
    own = crate.src.get(tuple(front))
    if own and ("", name) in own.methods:
        return None
    if front and any((front[-1], name) in file.methods for file in crate.src.values()):
        return None
    return f"{crate.name} has no function {'.'.join(path)}"


def defined_fault(crate, path, name, outside):
    """Returns the fault of an import of a definition or a lemma, or None."""
    file, lib = crate.antt.get(path), crate.antt.get((path[0], "Lib"))
    if file is None:
        return f"{crate.name} has no {'.'.join(path)}"
    if len(path) == 2 and not (lib and path[1] in lib.modules and (lib.modules[path[1]] or not outside)):
        return f"{crate.name}: {path[0]}/Lib.antt has no {path[1]}"
    if name and name not in file.names:
        return f"{crate.name}: {'.'.join(path)} has no {name}"
    return None


def import_fault(tree, crate, named):
    """Returns the fault of an import of the kit's names, or None."""
    other, path = named.path[1], named.path[2:]
    if other not in (crate.name, *ALWAYS_THERE) and other not in tree.below.get(crate.name, ()):
        return f"crates.txt has no {other} for {crate.name}"
    if other not in tree.crates:
        return None
    name = path[-1] if named.alias else None
    path = path[:-1] if named.alias else path
    if path[:2] == ("specs", "contracts"):
        return None
    if path[:2] == ("specs", "declared"):
        return declared_fault(tree.crates[other], path[2:], name)
    if path[0] == "proofs" and path[-1] in MADE:
        return made_fault(tree.crates[other], path[1:-1])
    return defined_fault(tree.crates[other], path, name, other != crate.name)


def use_fault(tree, crate, module, named):
    """Returns the fault of a `use`, or None."""
    first, file = named.path[0], crate.src[module]
    is_own = first in (*OUR_OWN, *ALWAYS_THERE, *file.modules, *file.variants)
    is_other = not is_own and (first in tree.crates or first not in file.exports)
    if is_other and first not in tree.below.get(crate.name, ()):
        return f"crates.txt has no {first} for {crate.name}"
    if tree.used(crate.name, module, named.path) is None:
        return f"there is no {'::'.join(named.path)}"
    return None


def case_fault(variants, cases):
    """Returns which cases are missing, or None."""
    lacking = [name for name in variants or () if name not in cases.names]
    return f"{cases.what} is without {', '.join(lacking)}" if lacking else None


def enum_of(tree, crate, module, name):
    """Returns the cases of the enum that a file of src/ calls by a name, of which it may have a `use`."""
    path, exports = tuple(name.split("::")), crate.src[module].exports
    path = exports[path[0]][1] + path[1:] if path[0] in exports else path
    return tree.variants(tree.used(crate.name, module, path) or None)


def antt_enum_of(tree, path):
    """Returns the cases of the enum whose cases an import names."""
    crate = tree.crates.get(path[1])
    file = crate and crate.src.get(path[4:-1])
    return file.variants.get(path[-1]) if file else None


def faults_of(tree, crate):
    """Yields each fault of a crate, with its file and line."""
    for key, file in crate.src.items():
        where = crate.paths[key]
        for name in file.modules - file.inner:
            if (*key, name) not in crate.src:
                yield f"{where}: there is no module {name}"
        found = [(named.line, use_fault(tree, crate, key, named)) for named in file.uses]
        found += [(named.line, import_fault(tree, crate, named)) for named in file.ghost_uses]
        for cases in file.cases:
            found.append((cases.line, case_fault(enum_of(tree, crate, key, cases.type_name), cases)))
        for line, kind, name in file.mentions:
            if name not in (enum_of(tree, crate, key, kind) or name):
                found.append((line, f"{kind} has no case {name}"))
        yield from (f"{where}:{line}: {fault}" for line, fault in dict.fromkeys(found) if fault)
    for key, file in crate.antt.items():
        found = [(named.line, import_fault(tree, crate, named)) for named in file.uses]
        found += [(cases.line, case_fault(antt_enum_of(tree, cases.type_name), cases)) for cases in file.cases]
        if key[1:] == ("Lib",):
            lost = [name for name in file.modules if (key[0], name) not in crate.antt]
            found += [(1, f"there is no {key[0]}/{name}.antt") for name in lost]
        yield from (f"{crate.paths[key]}:{line}: {fault}" for line, fault in dict.fromkeys(found) if fault)


def listing_faults(tree):
    """Faults of crates.txt."""
    for name in tree.crates:
        if name not in tree.below:
            yield f"crates.txt: no line for {name}"
    for name, below in tree.below.items():
        for other in sorted(below):
            if other in tree.crates and tree.order.get(other, -1) >= tree.order.get(name, 0):
                yield f"crates.txt: {other} stands not above {name}"


class Judge:
    """The faults of commits; of a crate that stands as it did, on what stands as it did, they are kept."""

    def __init__(self):
        self.reader, self.kept = Reader(), {}

    def tree(self, commit):
        lines = [line.split("\t") for line in git("ls-tree", commit, "crates/").splitlines()]
        trees = {path.split("/")[1]: head.split()[2] for head, path in lines if head.split()[1] == "tree"}
        crates = {name: self.reader.crate(name, tree) for name, tree in trees.items()}
        return Tree(crates, self.reader.blobs.text(f"{commit}:crates.txt"))

    def faults(self, commit):
        tree = self.tree(commit)
        digests = {name: crate.digest for name, crate in tree.crates.items()}
        found = list(listing_faults(tree))
        for crate in tree.crates.values():
            key = id(crate), tree.below.get(crate.name), *((name, digests[name]) for name in tree.all_below(crate.name))
            if key not in self.kept:
                self.kept[key] = list(faults_of(tree, crate))
            found += self.kept[key]
        return found


def commits_of(words):
    """Returns the commits after a base up to an end, the oldest first."""
    base, _, end = words.partition("..")
    base = base or git("merge-base", "HEAD", LANDED).strip()
    return git("rev-list", "--reverse", f"{base}..{end or 'HEAD'}", "--").split()


def parser():
    """Returns the parser of the command's arguments."""
    made = argparse.ArgumentParser("stands", description=__doc__, formatter_class=argparse.RawDescriptionHelpFormatter)
    made.add_argument("--all", action="store_true", help="every fault")
    made.add_argument("commits", metavar="BASE[..END]", nargs="?", default="")
    return made


def main():
    args = parser().parse_args()
    judge, commits, fallen = Judge(), commits_of(args.commits), 0
    for commit in commits:
        faults = judge.faults(commit)
        if faults:
            fallen += 1
            subject = git("log", "-1", "--format=%h %s", commit).strip()
            print(f"{subject}: {len(faults)} faults, {faults[0]}", flush=True)
            for fault in faults[1:] if args.all else ():
                print(f"    {fault}")
    print(f"{len(commits)} commits, {fallen} do not stand")
    return 1 if fallen else 0


if __name__ == "__main__":
    run(main, "stands")
