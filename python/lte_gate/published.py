"""published [NAME ..]

Tries changes that no mutant can show, since the changed crate is right and its users do not compile: a further public
field of a published record, and a further required method of a published trait. Each is made in a copy of the
repository, in the crate of the record or the trait, with a value wherever that crate makes the record, or a body
wherever it implements the trait. Then `rt try --test`, which compiles without a proof, must refuse `published_calls`,
and name the file that reads the record by all its fields or implements the trait. NAME is a record or a trait; without
names all are tried. Prints a line for each; the status is 0 if all were refused.
"""
import argparse
import collections
import pathlib
import re
import shutil
import subprocess
import tempfile

from .repository import TOP, Refused, run

# A published record or trait: its crate, and the crate and the file whose code does not compile once it has one more
# field or required method.
Item = collections.namedtuple("Item", "crate guard file")

RECORDS = {
    "Coded": Item("turbo_code", "published_calls", "turbo.rt"),
    "Combined": Item("turbo_code", "published_calls", "turbo.rt"),
    "Transmission": Item("cell_plan", "published_calls", "transmissions.rt"),
    "Made": Item("capture_make", "published_calls", "transmissions.rt"),
    "TwoMade": Item("two_tx", "published_calls", "port_samples.rt"),
    "LongMade": Item("long_prefix", "published_calls", "extended_samples.rt"),
    "Subtracted": Item("cancel", "published_calls", "residues.rt"),
}

TRAITS = {
    "Source": Item("cs_outside", "published_calls", "published_conditions/src/outside.rt"),
    "Sink": Item("cs_outside", "published_calls", "published_conditions/src/outside.rt"),
}

ITEMS = RECORDS | TRAITS


def with_field(text, name):
    """Returns the text of a file with one more field in the record of this name, and a value for it where it is made."""
    declared = re.sub(rf"^(pub struct {name} \{{)$", r"\1\n    pub further: bool,", text, flags=re.M)
    before = "".join(f"(?<!{word} )" for word in ("struct", "impl", "for", "let", "->"))
    return re.sub(rf"{before}\b{name} \{{", rf"{name} {{ further: false,", declared)


def with_method(text, name):
    """Returns the text of a file with one more required method in the trait of this name, and a body in each impl."""
    declared = re.sub(rf"^(pub trait {name} \{{)$", r"\1\n    fn further(&self) -> bool;\n", text, flags=re.M)
    body = "\n    fn further(&self) -> bool {\n        false\n    }\n"
    return re.sub(rf"^(impl(<.*>)? {name} for .* \{{)$", rf"\1{body}", declared, flags=re.M)


def change(top, name):
    """Adds a field to a record, or a required method to a trait, in a copy of the repository."""
    changed = False
    further = with_method if name in TRAITS else with_field
    for file in (top / "crates" / ITEMS[name].crate / "src").rglob("*.rt"):
        text = file.read_text(encoding="utf-8")
        new = further(text, name)
        file.write_text(new, encoding="utf-8")
        changed = changed or new != text
    if not changed:
        raise Refused(f"{name} is not in {ITEMS[name].crate}")


def compiled(top, crate):
    """Returns the lines of `rt try --test` of a crate, and its status."""
    done = subprocess.run(
        ["rt", "try", "--test"],
        cwd=top / "crates" / crate,
        stdin=subprocess.DEVNULL,
        capture_output=True,
        text=True,
        errors="replace",
        check=False,
    )
    return (done.stdout + done.stderr).split("\n"), done.returncode


def copy_of(room):
    """Returns a copy of the repository, without built files."""
    top = pathlib.Path(room) / "copy"
    top.mkdir()
    for name in ("crates.txt", "HANDLES"):
        shutil.copy(TOP / name, top)
    shutil.copytree(TOP / "crates", top / "crates", ignore=shutil.ignore_patterns("out"))
    return top


def outcome(name):
    """Returns the outcome of a further field or required method."""
    item = ITEMS[name]
    with tempfile.TemporaryDirectory(prefix="published-") as room:
        top = copy_of(room)
        change(top, name)
        said, status = compiled(top, item.guard)
    at_guard = [line for line in said if item.file in line]
    if status and at_guard:
        return f"refused: {at_guard[0].strip()}"
    return f'not refused at {item.file}: {" ".join(said)[-300:]}'


def parser():
    """Returns the parser of the command's arguments."""
    made = argparse.ArgumentParser(
        "published", description=__doc__, formatter_class=argparse.RawDescriptionHelpFormatter
    )
    made.add_argument("names", metavar="NAME", nargs="*")
    return made


def main():
    args = parser().parse_args()
    if set(args.names) - set(ITEMS):
        raise Refused(f"no item {' '.join(sorted(set(args.names) - set(ITEMS)))}")
    outcomes = {}
    for name in args.names or ITEMS:
        outcomes[name] = outcome(name)
        print(f"{name}: {outcomes[name]}", flush=True)
    return 0 if all(it.startswith("refused") for it in outcomes.values()) else 1


if __name__ == "__main__":
    run(main, "published")
