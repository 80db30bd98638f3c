#!/usr/bin/env python3
"""fuzz.py SECONDS PROGRAM [OTHER]: what scripts/trials/fuzz.sh says. The inputs are made in fuzz_inputs.py."""
import collections
import json
import os
import pathlib
import random as randomness
import re
import select
import sys
import tempfile
import time

import fuzz_inputs

LIMIT = 20  # seconds of processor time
HANG = 300  # seconds after which a run is ended
TEXTS = {
    2: "usage",
    3: "ragged",
    4: "too short",
    5: "too long",
    6: "read fault",
    7: "write fault",
    8: "out of memory",
    9: r"bad cell: \w+",
    10: r"bad certificate at byte \d+",
}
CODES = {"check": {0, 5, 10}, "transmit": {0, 5, 9}}
NONSENSE = "no command"
# how often a command of lte_cli and of lte_tune is given
SHARES_OF_TUNE = {"tell": 40, "apply": 50, fuzz_inputs.PAGE: 1, NONSENSE: 10}
SHARES = {
    "hits": 14,
    "ids": 12,
    "search": 22,
    "evidence": 8,
    "certify": 12,
    "check": 12,
    "transmit": 20,
    "make": 0.2,
    fuzz_inputs.PAGE: 1,
    NONSENSE: 8,
}
Input = collections.namedtuple("Input", "label words data way program")
Ending = collections.namedtuple("Ending", "code output text seconds")


def piped(file):
    """The read end of a pipe that a child fills with the file, in pieces of odd sizes."""
    reading, writing = os.pipe()
    feeder = os.fork()
    if feeder == 0:
        os.close(reading)
        try:
            data, at, sizes = pathlib.Path(file).read_bytes(), 0, (1, 3, 4095, 1021, 70_001)
            while at < len(data):
                at += os.write(writing, data[at : at + sizes[at % 5]])
        finally:  # also where the reader has closed
            os._exit(0)
    os.close(writing)
    return reading, feeder


class Runner:
    """Runs a program on the input in a file of the folder."""

    def __init__(self, room, program):
        self.program = program
        self.input, self.output, self.text = (os.path.join(room, name) for name in ("input", "output", "text"))

    def run(self, words, way="file"):
        """`way`: file, pipe (input in pieces), folder (reading fails) or full (writing fails)."""
        reading, feeder = piped(self.input) if way == "pipe" else (None, None)
        opened = "/" if way == "folder" else self.input
        actions = (
            [(os.POSIX_SPAWN_DUP2, reading, 0)] if way == "pipe" else [(os.POSIX_SPAWN_OPEN, 0, opened, os.O_RDONLY, 0)]
        )
        for number, name in ((1, "/dev/full" if way == "full" else self.output), (2, self.text)):
            actions.append((os.POSIX_SPAWN_OPEN, number, name, os.O_WRONLY | os.O_CREAT | os.O_TRUNC, 0o600))
        process = os.posix_spawn(self.program, [self.program, *words], {}, file_actions=actions)
        if reading is not None:
            os.close(reading)
        handle = os.pidfd_open(process)
        if not select.select([handle], [], [], HANG)[0]:
            os.kill(process, 9)
        os.close(handle)
        _, status, usage = os.wait4(process, 0)
        if feeder:
            os.waitpid(feeder, 0)
        output = b"" if way == "full" else pathlib.Path(self.output).read_bytes()
        text = pathlib.Path(self.text).read_bytes()
        return Ending(os.waitstatus_to_exitcode(status), output, text, usage.ru_utime + usage.ru_stime)


def codes_of_recording(words, length):
    """The codes that a command on a recording may end with."""
    if not fuzz_inputs.is_form(words):
        return {2}
    words, factor = fuzz_inputs.rate_of(words)
    size = 2 if words[-2:] == ["--format", "cu8"] else 4
    most, least = (limit * factor // 4 for limit in (fuzz_inputs.MOST, fuzz_inputs.LEAST))
    long, short = length > size * most, length < size * least
    code = 5 if long else 3 if length % size else 4 if short else 0
    return {code}


def wanted_codes(given):
    """The codes that words and length, and a folder as input or a full device as output, may lead to."""
    if given.label == NONSENSE:
        return {2}
    command = given.words[0]
    if command == "transmit" and not fuzz_inputs.is_sent(given.words):
        codes = {2}
    elif command in CODES:
        codes = CODES[command]
    elif command == "make":
        codes = {0} if given.words[2:] in fuzz_inputs.CARRIERS else {2}
    elif command in fuzz_inputs.PAGES:
        codes = {2} if given.words[1:] else {0}
    else:
        codes = codes_of_recording(given.words, len(given.data))
    if given.way == "folder" and command not in ("make", *fuzz_inputs.PAGES):
        return codes & {2} | {6}
    if given.way == "full" and 0 in codes:
        return codes | {7} if command == "certify" else codes - {0} | {7}  # no entry, no certificate to write
    return codes


def faults(given, ending):
    """Yields violations of docs/FORMATS.md, in words."""
    code = ending.code
    if code < 0:
        yield f"signal {-code}"
    elif code != 0 and code not in TEXTS:
        yield f"code {code}"
    elif not re.fullmatch(
        given.program.encode() + b": " + TEXTS[code].encode() + b"[:;] [^\n]+\n" if code else b"", ending.text
    ):
        yield f"text {ending.text[:80]!r} with code {code}"
    if code not in (0, 7) and ending.output:
        yield f"output with code {code}"
    if ending.seconds > LIMIT:
        yield f"{ending.seconds:.0f} seconds"
    wanted = wanted_codes(given)
    if code not in wanted:
        yield f'code {code}, and {" or ".join(map(str, sorted(wanted)))} was to come'
    if code == 0 and "--json" in given.words:
        try:
            json.loads(ending.output)
        except ValueError:
            yield "no JSON"


def differences(ending, other):
    if ending.code != other.code:
        yield f"codes {ending.code} and {other.code}"
    if ending.output != other.output:
        yield "another output"
    if ending.text != other.text:
        yield "another text"


class Findings:
    """The findings so far, whose inputs are kept."""

    def __init__(self):
        self.count, self.room = 0, None

    def add(self, number, given, found):
        self.count += 1
        self.room = self.room or tempfile.mkdtemp(prefix="fuzz-")
        name = os.path.join(self.room, str(number))
        if self.count <= 100:
            pathlib.Path(name).write_bytes(given.data)
        shown = [word[:60] for word in given.words]
        print(f'FOUND {"; ".join(found)}: {ascii(shown)} ({given.way}), input {name}', flush=True)


class Inputs:
    """Words and inputs, drawn by the seed."""

    def __init__(self, seed, runner):
        self.random = randomness.Random(seed)
        self.program = os.path.basename(runner.program)
        self.shares = SHARES_OF_TUNE if self.program == "lte_tune" else SHARES
        self.shown = fuzz_inputs.shown_descriptions()
        crates = fuzz_inputs.SCRIPTS.parent / "crates"
        self.sent = [(crates / crate / "stdin").read_bytes() for crate in ("capture_example", "lte_tune")]
        self.certificates = [fuzz_inputs.old_certificate(self.random)]
        if self.program == "lte_tune":
            return
        for _ in range(5):
            value = {
                **fuzz_inputs.short_plain_cell(),
                "gain": [20, 9],
                "identity": self.random.randrange(504),
                "offset": self.random.randrange(19200),
            }
            sent = self.made(runner, ["transmit"], json.dumps(value).encode())
            self.sent += [sent] if sent else []
        made = [self.made(runner, ["certify"], sent) for sent in self.sent[:3]]
        self.certificates = [certificate for certificate in made if certificate] or self.certificates

    @staticmethod
    def made(runner, words, data):
        pathlib.Path(runner.input).write_bytes(data)
        ending = runner.run(words)
        if ending.code:
            print(f"fuzz.py: {words[0]} on a good input ended with {ending.code}", flush=True)
        return ending.output

    def next(self):
        random = self.random
        command = random.choices(list(self.shares), list(self.shares.values()))[0]
        way = random.choices(["file", "pipe", "folder", "full"], [93, 5, 1, 1])[0]
        if command == NONSENSE:
            return Input(
                command, fuzz_inputs.nonsense(random), random.randbytes(random.randrange(50)), way, self.program
            )
        words = fuzz_inputs.words(random, command)
        kind = {"transmit": "description", "check": "certificates"}.get(command, "recording")
        if random.random() < 0.02:
            kind = random.choice(["recording", "description", "certificates"])
        if kind == "description":
            behind = dict(zip(words, words[1:])).get("--ports")
            data = fuzz_inputs.description(random, self.shown, {"2": 2, "4": 4}.get(behind, 1))
        elif kind == "certificates":
            data = fuzz_inputs.certificates(random, self.certificates)
        else:
            data = fuzz_inputs.recording(random, self.sent)
            if words[-1] == "cu8" and random.random() < 0.7:
                data = fuzz_inputs.as_bytes(data)
        return Input(fuzz_inputs.shown(words), words, data, way, self.program)


def print_counts(counts):
    codes = sorted({code for row in counts.values() for code in row})
    rows = [["Words", *(f"code {code}" for code in codes), "all"]]
    for name in sorted(counts):
        rows.append([name, *(str(counts[name][code] or "") for code in codes), str(sum(counts[name].values()))])
    rows.append(
        [
            "all",
            *(str(sum(row[code] for row in counts.values())) for code in codes),
            str(sum(sum(row.values()) for row in counts.values())),
        ]
    )
    rows.insert(1, ["---"] * len(rows[0]))
    for row in rows:
        print("|", " | ".join(row), "|")


def main():
    seconds, programs = float(sys.argv[1]), [os.path.abspath(name) for name in sys.argv[2:]]
    seed = int(os.environ.get("SEED") or time.time_ns() % 2**32)
    print(f"SEED={seed}", flush=True)
    findings, counts, slowest, number = Findings(), collections.defaultdict(collections.Counter), (0, ""), 0
    with tempfile.TemporaryDirectory(dir="/dev/shm" if os.path.isdir("/dev/shm") else None) as room:
        runners = [Runner(room, program) for program in programs]
        inputs = Inputs(seed, runners[0])
        end = time.monotonic() + seconds
        while time.monotonic() < end:
            given = inputs.next()
            number += 1
            pathlib.Path(runners[0].input).write_bytes(given.data)
            endings = [runner.run(given.words, given.way) for runner in runners]
            found = [fault for ending in endings for fault in faults(given, ending)]
            found += differences(*endings) if len(endings) == 2 else []
            if found:
                findings.add(number, given, found)
            counts[given.label][endings[0].code] += 1
            slowest = max(slowest, (endings[0].seconds, given.label))
    print_counts(counts)
    print(f"{number} inputs, {findings.count} findings; the slowest run took {slowest[0]:.2f} s: {slowest[1]}")
    sys.exit(findings.count > 0)


main()
