"""mutants [--lanes N] [--wrong] [CRATE ..]

Tries every mutant (a planted bug that the prover must refuse) of the named crates, or of all: those of `must-fail/`,
which the gate tries too, and those of `wrong/`, which only this tries (with --wrong nothing else). Each has to be
refused at the function that it changes. The prover checks each function by itself, against the contracts of the
functions that it calls, so one check takes one mutant of each function, and a crate needs as many checks as the function
with the most mutants. A mutant counts as refused if `rt check` reports its function as not proved for a reason of its
own, not for a function that it calls. A mutant that changes no function (a table, say) has a check of its own, and so
has each that a shared check did not refuse. A mutant is weak if only a proof file that names a removed name refuses it:
that says little about the contract.

The checks are those of `rt check` in copies of the repository, N at a time (2). They begin with what `rt check` kept in
this repository, so run it in each crate before. Each crate is first checked without a mutant. Prints a line for each
mutant that is weak or not refused, and a table; the status is 0 if all were tried and refused.
"""
import argparse
import collections
import pathlib
import re
import shutil
import subprocess
import tempfile
import threading

from . import edit_file
from .rattle_source import functions_of, line_at
from .repository import TOP, Refused, run

REFUSED = "logic=not-proved"
NAMES = re.compile(r"has no field|is not in scope|has no `|was not admitted")

# A function of a file: its path, the type that it belongs to, or nothing, its name, its first and its last line.
Place = collections.namedtuple("Place", "path owner name first last")


class Mutant:
    """A mutant, the lines that it changes, and the functions that these are in, or None for a line outside of them."""

    def __init__(self, edit):
        self.name, self.crate, self.in_gate = edit.name, edit.crate, edit.is_in_gate
        self.pairs = [(pair.path, pair.old, pair.new) for pair in edit.pairs]
        self.lines = [self.line_of(path, old) for path, old, _ in self.pairs]
        self.functions = [self.function_at(path, line) for (path, _, _), line in zip(self.pairs, self.lines)]

    def line_of(self, path, old):
        """Returns the number of the line that has this text."""
        text = (self.crate / path).read_text(encoding="utf-8")
        if text.count(old) != 1:
            raise Refused(f"{self.crate.name}/{self.name}: {old!r} is in {path} {text.count(old)} times")
        return line_at(text, text.index(old))

    def function_at(self, path, line):
        """Returns the first function that has this line."""
        functions = functions_of((self.crate / path).read_text(encoding="utf-8"))
        return next((Place(path, *map(vars(it).get, Place._fields[1:])) for it in functions if is_in(it, line)), None)

    def apply(self, crate):
        """Changes the lines with these texts, and no others: a text is one line, before and after."""
        for (path, old, new), line in zip(self.pairs, self.lines):
            file = crate / path
            lines = file.read_text(encoding="utf-8").split("\n")
            lines[line - 1] = lines[line - 1].replace(old, new)
            file.write_text("\n".join(lines), encoding="utf-8")

    def verdict(self, said):
        """Returns 'refused', 'weak' if a proof file only names a removed name, or None if a check did not refuse it."""
        if None in self.functions:
            return "refused"
        verdicts = {verdict_on(it, said) for it in self.functions}
        return next((it for it in ("refused", "weak") if it in verdicts), None)


def is_in(function, line):
    """Returns whether a function has this line."""
    return function.first <= line <= function.last


def verdict_on(function, said):
    """Returns the verdict on one function."""
    if not any(is_own_failure(line, function) for line in said):
        return None
    reasons = [line for line in said if is_at(line, function)]
    return "weak" if reasons and all("proofs/" in line and NAMES.search(line) for line in reasons) else "refused"


def module_of(path):
    """Returns the names of a file's module: a and b for `src/a/b.rt`, none for the root."""
    return [it for it in path.removeprefix("src/").removesuffix(".rt").split("/") if it not in ("lib", "main", "mod")]


def is_own_failure(line, function):
    """Returns whether a line reports the function, or a closure in it, as not proved for a reason of its own."""
    found = re.match(r"fn (\S+): (?:not proved|no proof: (?!it calls|it passes))", line)
    if not found:
        return False
    crate, *names = re.split(r"::|\+\+?", found[1])
    names = names[1:] if names[:1] == [crate] else names
    if function.name not in names:
        return False
    before = names[: len(names) - 1 - names[::-1].index(function.name)]  # a function may have its module's name
    return (
        bool(before) and before[-1].startswith(function.owner) if function.owner else before == module_of(function.path)
    )


def is_at(line, function):
    """Returns whether a line of a check is in the function, in its text or in its proof."""
    at = re.match(r"(?:note: )?(?:\./)?([\w/.+-]+):(\d+):\d+: ", line)
    if not at:
        return False
    if at[1] == function.path:
        return function.first <= int(at[2]) <= function.last
    folders = at[1].split("/")
    return (
        folders[0] == "proofs"
        and ": error" in line
        and folders[-2] == function.name
        and (folders[-3].startswith(function.owner) if function.owner else folders[1:-2] == module_of(function.path))
    )


def batches_of(bodies):
    """Returns the mutants of each check: one of each function, and alone those that change no function."""
    checks = []
    for body in bodies:
        free = (
            it
            for it in checks
            if None not in body.functions
            and all(None not in other.functions and not set(other.functions) & set(body.functions) for other in it)
        )
        check = next(free, None)
        if check is None:
            checks.append([body])
        else:
            check.append(body)
    return checks


class Lane:
    """A copy of the repository, in which mutants are tried."""

    def __init__(self, room, number):
        self.top = pathlib.Path(room) / f"lane{number}"
        self.top.mkdir()
        for name in ("crates.txt", "HANDLES"):
            shutil.copy(TOP / name, self.top)
        shutil.copytree(TOP / "crates", self.top / "crates", ignore=shutil.ignore_patterns("out"))

    def check(self, name, bodies):
        """Returns the lines of a check of a crate with these mutants, and its status."""
        crate = self.top / "crates" / name
        for body in bodies:
            body.apply(crate)
        done = subprocess.run(
            ["rt", "check", "--jobs", "1"],
            cwd=crate,
            stdin=subprocess.DEVNULL,
            capture_output=True,
            text=True,
            errors="replace",
            check=False,
        )
        shutil.rmtree(crate / "src")
        shutil.copytree(TOP / "crates" / name / "src", crate / "src")
        return (done.stdout + done.stderr).split("\n"), done.returncode

    def tried(self, name, bodies):
        """Returns the outcome of each mutant of a check, or of the crate without one, and how many checks it took."""
        said, status = self.check(name, bodies)
        is_checked = status and any(line.startswith(REFUSED) for line in said)
        if not bodies:
            return {name: "not proved as it stands" if status else "proved"}, 1
        seen = {it: it.verdict(said) for it in bodies if is_checked}
        left = [it for it in bodies if not seen.get(it)]
        if len(bodies) == 1:
            why = "refused at another place" if is_checked else f'not tried: {" ".join(said)[:300]}'
            return {**seen, **{it: why if status else "proved" for it in left}}, 1
        checks = 1
        for body in left:
            one, count = self.tried(name, [body])
            seen.update(one)
            checks += count
        return seen, checks


def work(lane, waiting, counts, seen, alone):
    """Tries the waiting mutants, check by check."""
    while True:
        with alone:
            if not waiting:
                return
            name, check = waiting.pop(0)
        found, checks = lane.tried(name, check)
        with alone:
            counts[name] += checks
            seen.update(found)
            for it, what in found.items():
                if what != ("refused" if check else "proved"):
                    print(f'{name}/{it.name if check else ""}: {what}', flush=True)


def parser():
    """Returns the parser of the command's arguments."""
    made = argparse.ArgumentParser("mutants", description=__doc__, formatter_class=argparse.RawDescriptionHelpFormatter)
    made.add_argument("--lanes", metavar="N", type=int, default=2, help="checks at once (2)")
    made.add_argument("--wrong", action="store_true", help="only the mutants in wrong/")
    made.add_argument("crates", metavar="CRATE", nargs="*")
    return made


def main():
    args = parser().parse_args()
    bodies = collections.defaultdict(list)
    for edit in edit_file.edits_of(TOP, edit_file.FOLDERS[1:] if args.wrong else edit_file.FOLDERS):
        if not args.crates or edit.crate.name in args.crates:
            bodies[edit.crate.name].append(Mutant(edit))
    if set(args.crates) - set(bodies):
        raise Refused(f"no mutants of {' '.join(sorted(set(args.crates) - set(bodies)))}")
    waiting = [(name, check) for name in sorted(bodies) for check in [[], *batches_of(bodies[name])]]
    counts, seen, alone = collections.Counter(), {}, threading.Lock()
    with tempfile.TemporaryDirectory(prefix="mutants-") as room:
        lanes = [
            threading.Thread(target=work, args=(Lane(room, number), waiting, counts, seen, alone))
            for number in range(args.lanes)
        ]
        for lane in lanes:
            lane.start()
        for lane in lanes:
            lane.join()
    print("| Crate | mutants | in the gate | checks | refused | weak | not refused |")
    print("| --- | --- | --- | --- | --- | --- | --- |")
    whole = [0] * 6
    for name in sorted(bodies):
        counted = collections.Counter(seen.get(it) for it in bodies[name])
        left = (
            len(bodies[name]) - counted["refused"] - counted["weak"]
            if seen.get(name) == "proved"
            else len(bodies[name])
        )
        row = [
            len(bodies[name]),
            sum(it.in_gate for it in bodies[name]),
            counts[name],
            counted["refused"],
            counted["weak"],
            left,
        ]
        whole = [one + other for one, other in zip(whole, row)]
        print(f'| `{name}` | {" | ".join(map(str, row))} |')
    print(f'| all | {" | ".join(map(str, whole))} |')
    return 1 if whole[5] else 0


if __name__ == "__main__":
    run(main, "mutants")
