#!/usr/bin/env python3
"""refused_memory.py [PROGRAM [TUNER]]

Refuses each growth of memory of PROGRAM and TUNER in turn (crates/lte_cli/out/lte_cli and crates/lte_tune/out/lte_tune
where they are left out), for each form of scripts/forms.txt on its input: the first allocation, then the second, until
there is none to refuse. That run has to end as without a refusal, and each before it with code 8, its text and nothing
written. Prints how many growths each form has, and what it found; the status is 0 where nothing was found. It takes a C
compiler (CC or cc), and a program that takes its memory from the C library.
"""
import os
import pathlib
import subprocess
import sys
import tempfile

HERE = pathlib.Path(__file__).resolve().parent
TOP = HERE.parent.parent
CRATES = TOP / "crates"
sys.path.insert(0, str(TOP / "python"))

from lte_gate import form_list  # noqa: E402

CELL, TURNED = CRATES / "capture_example/stdin", CRATES / "lte_tune/stdin"
MOST = 1000  # growths of one run


def run(program, words, data):
    done = subprocess.run([program, *words], input=data, capture_output=True, env={}, check=False)
    return done.returncode, done.stdout, done.stderr


def run_refused(program, words, data, shim, number):
    """The ending of a run whose growth of this number is refused, and whether there was one."""
    with tempfile.TemporaryFile() as report:
        environment = {"LD_PRELOAD": str(shim), "REFUSE": str(number), "REPORT": str(report.fileno())}
        done = subprocess.run(
            [program, *words],
            input=data,
            capture_output=True,
            env=environment,
            pass_fds=[report.fileno()],
            check=False,
        )
        refused = os.fstat(report.fileno()).st_size > 0
    return (done.returncode, done.stdout, done.stderr), refused


def as_bytes(data):
    """A recording of 8-bit numbers from one of 16 bits."""
    numbers = [int.from_bytes(data[i : i + 2], "little", signed=True) for i in range(0, len(data), 2)]
    greatest = max(map(abs, numbers))
    return bytes(round(127.5 + 127 * number / greatest) for number in numbers)


EXAMPLES = HERE.parent / "examples"
DESCRIPTIONS = {
    "description": "plain_cell.json",
    "two-ports-description": "two_ports_cell.json",
    "four-ports-description": "four_ports_cell.json",
}
SENT = ("two-ports", "four-ports", "long-prefix")
WIDE = "--identity 301 --width 50 --ports 2 --snr 15 --frames 4 --out"


def reference(module, *words):
    """Returns the output of a module of lte_reference."""
    words = ["/usr/bin/python3", "-m", f"lte_reference.{module}", *words]
    return subprocess.run(words, check=True, env={"PYTHONPATH": str(TOP / "python")}, capture_output=True).stdout


class Inputs:
    """The valid inputs that scripts/forms.txt names; the cell's certificate replaces the one of zeros."""

    def __init__(self, program, room):
        self.program, self.room, self.known = program, pathlib.Path(room), {"nothing": b""}

    def named(self, name):
        if name not in self.known:
            self.known[name] = self.made(name)
        return self.known[name]

    def made(self, name):
        if name == "cell":
            return CELL.read_bytes()
        if name == "cell-of-8-bits":
            return as_bytes(self.named("cell"))
        if name in SENT:
            return reference(name.replace("-", "_"), "90")
        if name in DESCRIPTIONS:
            return (EXAMPLES / DESCRIPTIONS[name]).read_bytes()
        if name == "wide":
            return self.wide()
        certificate = run(self.program, ["certify"], self.named("cell"))[1]
        return 3 * certificate if name == "certificates" else certificate

    def wide(self):
        file = self.room / "wide.ci16"
        reference("wide_sender", *WIDE.split(), str(file))
        return file.read_bytes()


def is_of_tuner(words):
    return words[0] in ("tell", "apply")


def runs(program, tuner, room):
    """Yields each program, arguments and input of the list; for the pages, of both programs."""
    inputs = Inputs(program, room)
    for one in form_list.examples():
        words, data = one.words.split(), inputs.named(one.given)
        if is_of_tuner(words) and one.given == "cell":
            data = TURNED.read_bytes()
        if one.given == "nothing" and words[0] != "make":
            yield tuner, words, data
        yield tuner if is_of_tuner(words) else program, words, data


def refusals(program, shim, words, data):
    """Returns the number of growths that the form has, and the faults."""
    whole, found = run(program, words, data), []
    if whole[0] != 0:
        return 0, [f"code {whole[0]} without a refusal"]
    for number in range(1, MOST):
        ending, refused = run_refused(program, words, data, shim, number)
        if not refused:
            return number - 1, found + ["another ending without a refusal"] * (ending != whole)
        name = os.path.basename(program).encode()
        if ending[:2] != (8, b"") or not ending[2].startswith(name + b": out of memory: "):
            found.append(f"growth {number}: code {ending[0]}, {len(ending[1])} bytes, {ending[2][:60]!r}")
    return MOST, found + ["no end"]


def main():
    given = sys.argv[1:]
    program = os.path.abspath(given[0] if given else CRATES / "lte_cli/out/lte_cli")
    tuner = os.path.abspath(given[1] if len(given) > 1 else CRATES / "lte_tune/out/lte_tune")
    for one in (program, tuner):
        if not os.access(one, os.X_OK):
            sys.exit(f"refused_memory.py: no program at {one}; rt run in its crate builds it")
    count = 0
    with tempfile.TemporaryDirectory() as room:
        shim = pathlib.Path(room) / "refuse.so"
        source = HERE / "refused_memory" / "refuse.c"
        subprocess.run(
            [os.environ.get("CC", "cc"), "-O1", "-fno-builtin", "-shared", "-fPIC", "-o", shim, source], check=True
        )
        print("| Words | growths refused | found |")
        print("| --- | --- | --- |")
        for run_program, words, data in runs(program, tuner, room):
            growths, found = refusals(run_program, shim, words, data)
            count += len(found) + (growths == 0)
            print(f"| `{' '.join(words)}` | {growths} | {'; '.join(found[:3]) or '-'} |", flush=True)
    sys.exit(count > 0)


main()
