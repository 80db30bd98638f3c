"""rows [--all] [--anew]

Runs the reference implementations of python/lte_reference that end in some seconds, and looks up what they print in the
tests and pages that have their expected values from it: a changed row is a fault, and so is a changed reference
implementation. The two shipped recordings are compared byte by byte. With --all it runs two more, which take half a
minute each.

What a run prints is kept in ~/.cache/lte_gate (XDG_CACHE_HOME), and the run is repeated only if its reference
implementation, a file that its command reads, or its input has changed; its rows are looked up every time. It is kept
there and not in the repository, since a checksum that is committed shows only that somebody wrote it, not that the run
was made. --anew runs all again.

Prints a line for each row that is not found, and a count; the status is 1 if there is one. Without numpy (Debian:
python3-numpy) the runs that need it are left out, with a line that says so.
"""
import argparse
import ast
import collections
import concurrent.futures
import functools
import hashlib
import importlib.metadata
import importlib.util
import json
import os
import pathlib
import re
import subprocess
import sys
import threading
import typing

from .repository import TOP, Refused, report, run

REFERENCE = TOP / "python/lte_reference"
PUNCTURED = "crates/code_tests/src/punctured_blocks.rt"
TRANSMISSIONS = "crates/sent_tests/src/transmissions.rt"
# the description of the test's table TURNED, with the text of the plain cell
TURNED = dict(identity=503, sfn=1023, offset=19199, samples=57600, gain=[-11, 23], duration="extended", spare=677)
TURNED |= dict(resource="oneSixth", cfi=3, start=1, blocks=5, mcs=2, column=3)
# those of the tables of two ports, of four and of the extended prefix
EMISSIONS = "crates/sent_tests/src/emissions.rt"
TWO_PORTS = dict(identity=302, sfn=1022, offset=9595, samples=57600, gain=[-9, 12], gain2=[4, 11], spare=341)
TWO_PORTS |= dict(resource="two", mcs=5)
FOUR_PORTS = dict(identity=59, sfn=1022, offset=10000, samples=57600, gain=[-5, 4], gain2=[6, -2], gain3=[3, 7])
FOUR_PORTS |= dict(gain4=[-7, -1], duration="extended", spare=682, resource="oneSixth")
LONG_PREFIX = dict(identity=167, sfn=511, offset=18000, samples=57600, gain=[5, -27], duration="extended", spare=1023)
LONG_PREFIX |= dict(resource="half")


def pressed(text):
    """Returns a text without its layout: space, `&`, ends of lines, `_` in numbers, last commas, lists in short."""
    text = re.sub(r"\b(0x[0-9a-f_]+|\d[\d_]*)", lambda it: it[0].replace("_", ""), text.replace("\\n", "\n"))
    text = re.sub(r"[\s&\\]", "", text)
    text = re.sub(r"\[(-?\d+);(\d{1,2})\]", lambda it: f"[{','.join([it[1]] * int(it[2]))}]", text)
    return re.sub(r",([\])}])", r"\1", text)


def exactly(text):
    """Returns a pattern for the text itself."""
    return re.escape(pressed(text))


def unpressed(pattern):
    """Returns the beginning of a pattern, to be shown."""
    return re.sub(r"\\(.)", r"\1", pattern)[:200]


# ---- of what is printed, the patterns that have to be met in a file's pressed text


def lines_together(text):
    """Returns one pattern for all lines, in their order and without others between them."""
    return [exactly(text)]


def each_line(text):
    """Returns a pattern for each line, in any order, without a comma at its end."""
    return [exactly(line.rstrip(",")) for line in text.splitlines()]


NUMBERS = ("t", "peak", "cost", "total", "frames", "frame", "phase", "power", "noise")


def named_numbers(text):
    """Returns, for each entry of `evidence` or its JSON, patterns for the numbers by name, the channel and the values."""
    if not text.startswith("["):
        return [exactly(" ".join(line.split()[3:])) for line in text.splitlines()[1:]]
    found = []
    for entry in json.loads(text):
        found += [exactly(" ".join(f"{name} {entry[name]}" for name in NUMBERS))]
        found += [exactly(f'"{key}":{json.dumps(entry[key])}') for key in ("channel", "values")]
    return found


def constants(text):
    """Constants of rows of subcarriers, and of coded bits."""
    found = re.findall(r"const (\w+):[^=]*=\s*(\[.*?\]|b\".*?\");", text, re.S)
    return [rf"const{name}:[^=]*={exactly(value)};" for name, value in found]


def values(text):
    """Returns patterns for the constants' values, whatever their names are."""
    return [pattern.partition("[^=]*=")[2].removesuffix(";") for pattern in constants(text)]


def checksums(text):
    """Returns a pattern for the last list, or the last number, of each row, with any underscores in its numbers."""
    found = re.findall(r"(\[[\d, ]+\]|\d+)\),$", text, re.M)
    return [",".join("_?".join(number) for number in re.findall(r"\d+", row)) for row in found]


def pairs(text):
    """Returns a pattern for each pair: its number and its values."""
    found = re.findall(r"\d+ \d+ (\[.*\])", text)
    return [exactly(f"({number}, {values})") for number, values in enumerate(found)]


def pair_places(text):
    """Returns a pattern for all pairs' symbols and first subcarriers, in their order."""
    found = re.findall(r"(\d+) (\d+) \[", text)
    return [exactly(f"[{', '.join(f'({l}, {k})' for l, k in found)}]")]


def turbo(text):
    """Returns extrinsic values; for receptions the block, gain, spread, seed, sizes, and the outcome."""
    found = []
    for line in text.splitlines():
        if line.startswith("["):
            found.append(exactly(line.replace("] [", "], [")))
            continue
        block, gain, spread, seed, sizes, outcome = line.split()[:6]
        if len(block) == 8:
            row = f"0x{block},{gain},{spread},{seed},{sizes}"
        else:
            row = f"gain:{gain},spread:{spread},seed:{seed},sizes:{sizes}"
        found.append(rf"{row}\b((?!Answer::).)*Answer::{outcome.title()}\b")
    return found


def letters(text):
    """Returns, by indicator, count of blocks and column, patterns for the answers to a plan, scheme by scheme."""
    rows = [line.split() for line in text.splitlines()]
    return [rf'\({blocks},{column},"{row}"\)((?!#\[test).)*are_answers\({cfi},' for cfi, blocks, column, row in rows]


def counts(text):
    """Returns a message for each minimum count of the test that is not printed, or that is printed one lower too."""
    test = pressed((TOP / PUNCTURED).read_text(encoding="utf-8"))
    found = [
        (size, kind, sent)
        for size, kinds, sent in re.findall(r"is_least\((\d+),(\d+|kind),(\d+)\)", test)
        for kind in (kinds if kinds != "kind" else "123")
    ]
    found += [(size, "0", sent) for size, sent in re.findall(r"\((\d+),(\d+)\)(?=[^]]*\]\{assert!\(rt;is_least)", test)]
    rows = text.splitlines()
    is_printed = [f"{s} {k} {n} True" in rows and f"{s} {k} {int(n) - 1} False" in rows for s, k, n in found]
    return ["" if fits else f"(least count {case} is not printed)" for fits, case in zip(is_printed, found)]


def made(number):
    """Returns the pattern of a recording's row by number: its gains if it has any, the bound, and its contents."""

    def patterns(text):
        gains = ", ".join(f"({a}, {b})" for a, b in re.findall(r"(?:\(|gain )(-?\d+),? (-?\d+)", text))
        bound, count = re.search(r"bound (\d+) samples (\d+)", text).groups()
        sums = ", ".join(re.search(r"sums (\S+) (\S+) weighted (\S+) (\S+)", text).groups())
        front = ", ".join(f"({a}, {b})" for a, b in re.findall(r"^\d+ (-?\d+) (-?\d+)$", text, re.M)[:4])
        holds = f"Summary {{ count: {count}, front: [{front}], sums: [{sums}] }}"
        return [exactly(f"({number}, ") + rf"\[?{exactly(gains)}\]?,?" + exactly(f"{bound}, {holds})")]

    return patterns


def numbers_of(data):
    return [int.from_bytes(data[i : i + 2], "little", signed=True) for i in range(0, len(data), 2)]


def table(name, file=TRANSMISSIONS):
    """Returns patterns for a recording's samples at the positions of the test's table of this name."""

    def patterns(data):
        rows = re.search(rf"const {name}: [^=]*= \[(.*?)\];", (TOP / file).read_text(encoding="utf-8"), re.S)[1]
        places = [int(place) for place in re.findall(r"\((\d+),", rows)]
        numbers = numbers_of(data)
        return [exactly(f"({i}, {numbers[2 * i]}, {numbers[2 * i + 1]})") for i in places]

    return patterns


def sums_by_place(data):
    """Returns the sums of the real and of the imaginary components, each times its index modulo 997."""
    numbers = numbers_of(data)
    return tuple(sum(i % 997 * number for i, number in enumerate(numbers[first::2])) for first in (0, 1))


def sums_of(name):
    """Returns the pattern of the sums of the recording that the test calls so."""
    return lambda data: [exactly(f"has_sums(&{name}, {sums_by_place(data)})")]


def table_and_sums(name):
    """Returns patterns for the samples at the positions of the table of this name, and for their sums."""

    def patterns(data):
        sums = exactly(f"const {name}_SUMS: (i64, i64) = {sums_by_place(data)};")
        return [*table(name, EMISSIONS)(data), sums]

    return patterns


def file_itself(name):
    """Returns a message if the output differs from the file."""
    return lambda data: ["" if data == (TOP / name).read_bytes() else f"(other bytes than those of {name})"]


# ---- what is run


class Look(typing.NamedTuple):
    """Files, a command of Bash in the folder scripts, whose $PY is this Python, what is looked up, and the input."""

    files: str
    command: str
    patterns: typing.Callable
    data: bytes = b""
    is_text: bool = True


def described(**keys):
    """Returns the plain cell's description with other values."""
    return json.dumps({**json.loads((TOP / "scripts/examples/plain_cell.json").read_text()), **keys}).encode()


def all_sizes():
    """Returns the 57,600 samples of crates/list_tests/src/turned.rt."""
    numbers = (
        part for i in range(57_600) for part in (i * 7_919 % 65_536 - 32_768, (i * 104_729 + 5) % 65_536 - 32_768)
    )
    return b"".join(number.to_bytes(2, "little", signed=True) for number in numbers)


# a folder of its own, where the top's paths lead on
ROOM = """room=$(mktemp -d); trap 'rm -rf "$room"' EXIT; ln -s "$PWD" "$PWD/../crates" "$room"; cd "$room"\n"""
PEERS = {
    "lte_cli transmit": "$PY -m lte_reference.cell",
    "lte_cli evidence": "$PY -m lte_reference.evidence",
    "lte_cli why": "$PY -m lte_reference.why",
    "lte_cli search --cancel": "$PY -m lte_reference.cancel",
    "lte_cli search": "$PY -m lte_reference.search",
    "lte_tune tell": "$PY -m lte_reference.tune tell",
    "python3": "$PY",
}


# words that the reference implementations have too
FURTHER = r"(?: \d{1,3}\b)?(?: --ports [24]| --prefix long| --load \d+)*"


def shown(page):
    """Yields a look for each block of a page whose commands the reference implementations can run."""
    for block in re.findall(r"(?:^    .*\n)+", (TOP / page).read_text(encoding="utf-8"), re.M):
        script = "\n".join(re.findall(r"^    \$ (.*)", block, re.M))
        for words, peer in PEERS.items():
            script = re.sub(rf"\b{words}({FURTHER})(?= [<|]| -m|$)", peer + r"\1", script, flags=re.M)
        if script and not re.search(r"\blte_(?!reference\b)\w+", re.sub(r"crates/\S+", "", script)):
            yield Look(page, ROOM + script, lines_together)


def of_forms(recording, files, by_name=lines_together):
    """Returns a look for each form: the output of lte_reference.forms for a recording, and the file that has it."""
    return [
        Look(file, f"{recording} | $PY -m lte_reference.forms {words}", by_name if file == NAMED else lines_together)
        for words, file in files
    ]


TESTS = "crates/top_tests/src/"
NAMED = TESTS + "evidence_of_cells.rt"  # looks most numbers up by their names
PLAIN = "$PY -m lte_reference.cell < examples/plain_cell.json"
PLAIN_FORMS = (
    ("hits --json", TESTS + "hits.rt"),
    ("ids --json", TESTS + "ids.rt"),
    ("evidence --json", TESTS + "evidence_of_cells.rt"),
    ("search --json", TESTS + "search.rt"),
    ("search --all", TESTS + "search_all.rt"),
    ("search --cancel --json", TESTS + "search_cancel.rt"),
    ("evidence --all", TESTS + "evidence_all.rt"),
    ("ids --deep", TESTS + "deep.rt"),
    ("ids --deep --json", TESTS + "deep.rt"),
    ("tell --json", TESTS + "tell_and_apply.rt"),
)
LONG_FORMS = (("ids --deep", TESTS + "deep.rt"), ("ids --deep all", TESTS + "deep.rt"))
TWO_PORTS_FORMS = (
    ("search --ports 2 --json", TESTS + "search_two_ports.rt"),
    ("evidence --ports 2 --json", TESTS + "evidence_of_cells.rt"),
    ("search --all --json", TESTS + "search_all.rt"),
    ("evidence --all --json", TESTS + "evidence_all.rt"),
)
FOUR_PORTS_FORMS = (
    ("search --ports 4 --json", TESTS + "search_four_ports.rt"),
    ("search --all", TESTS + "search_all.rt"),
    ("evidence --ports 4 --json", TESTS + "evidence_of_cells.rt"),
    ("evidence --all", TESTS + "evidence_all.rt"),
)
LONG_PREFIX_FORMS = (
    ("search --prefix long --json", TESTS + "search_long_prefix.rt"),
    ("evidence --prefix long --json", TESTS + "evidence_of_cells.rt"),
)
OUTPUTS = "scripts/examples/outputs/"
SHOWN_FORMS = (
    ("hits --json", "docs/FORMATS.md"),
    ("search --json", "docs/FORMATS.md"),
    ("search --all", "docs/FORMATS.md"),
    ("ids --deep", "docs/FORMATS.md"),
    ("ids --deep --json", "docs/FORMATS.md"),
    ("ids --json", OUTPUTS + "ids.json"),
    ("evidence --json", OUTPUTS + "evidence.json"),
    ("search --cancel --json", OUTPUTS + "search_cancel.json"),
    ("search --all --json", OUTPUTS + "search_all.json"),
    ("evidence --all", "docs/FORMATS.md"),
    ("evidence --all --json", OUTPUTS + "evidence_all.json"),
)
OTHER_CARRIERS = (
    ("two_ports", "--ports 2"),
    ("four_ports", "--ports 4"),
    ("long_prefix", "--prefix long"),
)
CHANCE = "$PY -m lte_reference.cell < examples/chance_line.json | $PY -m lte_reference.evidence"
SENT_FORMS = (
    ("LOADED", TURNED, "--load 4294967295"),
    ("TWO_PORTS", TWO_PORTS, "--ports 2"),
    ("LOADED_TWO_PORTS", TWO_PORTS, "--ports 2 --load 7"),
    ("FOUR_PORTS", FOUR_PORTS, "--ports 4"),
    ("LOADED_FOUR_PORTS", FOUR_PORTS, "--ports 4 --load 3735928559"),
    ("LONG_PREFIX", LONG_PREFIX, "--prefix long"),
    ("LOADED_LONG_PREFIX", LONG_PREFIX, "--prefix long --load 2863311530"),
)


def slow_looks():
    """Returns the looks that are made by hand alone."""
    return [
        Look(PUNCTURED, "$PY -m lte_reference.erasure", counts),
        Look(TRANSMISSIONS, "$PY -m lte_reference.punctured_table", letters),
        Look("crates/wide_tests/src/values.rt", "$PY -m lte_reference.wide_rows values", checksums),
    ]


def plain_looks():
    """Returns the looks that need no numpy."""
    found = [
        Look("crates/slot_tests/src/*.rt", "$PY -m lte_reference.subframe", constants),
        Look("crates/slot_tests/src/masters.rt crates/list_tests/src/rows.rt", "$PY -m lte_reference.frames", values),
        Look("crates/code_tests/src/turbo_decoding.rt", "$PY -m lte_reference.turbo", turbo),
    ]
    found += [
        Look(
            "crates/list_tests/src/turned.rt", f"$PY -m lte_reference.tune turn {m}", sums_of(name), all_sizes(), False
        )
        for m, name in ((-2048, "back"), (77, "forth"))
    ]
    return found


def numpy_looks():
    """Returns the looks that need numpy."""
    found = [
        *(
            Look(f"crates/wide_tests/src/{file}.rt", f"$PY -m lte_reference.wide_rows {topic}", checksums)
            for topic, file in (("control", "places"), ("shared", "places"), ("inits", "inits"))
        ),
        Look("crates/accumulated_tests/src/primary_candidates.rt", "$PY -m lte_reference.deep_rows", each_line),
        Look("crates/accumulated_tests/src/secondary_signs.rt", "$PY -m lte_reference.deep_sign_rows", each_line),
        Look("crates/accumulated_tests/src/lists.rt", "$PY -m lte_reference.deep_list_rows", each_line),
        Look("crates/added_tests/src/masters.rt", "$PY -m lte_reference.added_rows", each_line),
        *(
            Look(f"crates/wide_tests/src/{file}.rt", f"$PY -m lte_reference.wide_subframes {topic}", each_line)
            for topic, file in (("alone", "rows"), ("together", "rows"), ("turned", "lists"))
        ),
        Look(
            "crates/list_tests/src/rounds_of_recordings.rt",
            "$PY -m lte_reference.cell | $PY -m lte_reference.cancel",
            lines_together,
            described(gain=[20, 9]),
        ),
        Look(
            "crates/top_tests/src/make.rt", "$PY -m lte_reference.make 0 | $PY -m lte_reference.search", lines_together
        ),
        Look(NAMED, CHANCE, lines_together),
        *(
            Look(
                TESTS + "why.rt",
                f"$PY -m lte_reference.cell | $PY -m lte_reference.why {words}",
                lines_together,
                described(),
            )
            for words in (
                "0",
                "3",
                "1",
                "0 --ports 2",
                "503 --prefix long",
                "0 --json",
                "3 --json",
                "0 --ports 4 --json",
            )
        ),
        *(
            Look(file, f"$PY -m lte_reference.why {words} --json < ../crates/capture_example/stdin", lines_together)
            for words, file in (("271", "docs/FORMATS.md"), ("1", OUTPUTS + "why.json"))
        ),
        Look(
            NAMED,
            "$PY -m lte_reference.cell | $PY -m lte_reference.evidence",
            lines_together,
            described(),
        ),
        *(
            Look(file, f"$PY -m lte_reference.{peer} 90 | $PY -m lte_reference.evidence {carrier}", patterns)
            for peer, carrier in OTHER_CARRIERS
            for file, patterns in ((NAMED, named_numbers), ("docs/FORMATS.md", lines_together))
        ),
        Look("crates/list_tests/src/two_antenna_ports.rt", "$PY -m lte_reference.pairs", pairs),
        Look("crates/list_tests/src/four_antenna_ports.rt", "$PY -m lte_reference.pairs --ports 4", pairs),
        Look("crates/list_tests/src/ports.rt", "$PY -m lte_reference.pairs --ports 4", pair_places),
        Look(TRANSMISSIONS, "$PY -m lte_reference.cell", table("ROW"), described(), False),
        Look(TRANSMISSIONS, "$PY -m lte_reference.cell", table("TURNED"), described(**TURNED), False),
        Look(
            "crates/capture_example/stdout",
            "$PY -m lte_reference.search < ../crates/capture_example/stdin",
            lines_together,
        ),
        *(
            Look("docs/TUTORIAL.md", f"$PY -m lte_reference.{words} < ../crates/capture_example/stdin", lines_together)
            for words in ("why 271", "why 270", "why 1", "evidence")
        ),
        Look(
            "docs/TUTORIAL.md",
            "$PY -m lte_reference.wide_sender --identity 301 --width 50 --ports 2 --snr 15 --frames 20"
            " | $PY -m lte_reference.wide_search 15.36 --ports 2",
            lines_together,
        ),
        Look(
            "",
            "$PY -m lte_reference.cell < examples/shipped_cell.json",
            file_itself("crates/capture_example/stdin"),
            b"",
            False,
        ),
        Look(
            "",
            "$PY -m lte_reference.cell < examples/shifted_cell.json | $PY trials/shift.py 26000 300 -180",
            file_itself("crates/lte_tune/stdin"),
            b"",
            False,
        ),
    ]
    found += [
        Look(EMISSIONS, f"$PY -m lte_reference.cell {words}", table_and_sums(name), described(**keys), False)
        for name, keys, words in SENT_FORMS
    ]
    found += [look for page in ("README.md", "docs/FORMATS.md", "docs/SYNTHETIC.md") for look in shown(page)]
    found += of_forms(PLAIN, PLAIN_FORMS)
    found += of_forms(f"{{ {PLAIN}; $PY -m lte_reference.two_ports 90; }}", [("ids --deep", TESTS + "deep.rt")])
    found += of_forms(f"for i in 1 2 3 4 5 6; do {PLAIN}; done", LONG_FORMS)
    found += of_forms("$PY -m lte_reference.two_ports 90", TWO_PORTS_FORMS, named_numbers)
    found += of_forms("$PY -m lte_reference.four_ports 90", FOUR_PORTS_FORMS, named_numbers)
    found += of_forms("$PY -m lte_reference.long_prefix 90", LONG_PREFIX_FORMS, named_numbers)
    found += of_forms("cat ../crates/capture_example/stdin", SHOWN_FORMS)
    found += of_forms("cat ../crates/lte_tune/stdin", [("tell --json", OUTPUTS + "tell.json")])
    for n in ("0", "7", "4294967221"):
        found += [
            Look("crates/sent_tests/src/made_recordings.rt", f"$PY -m lte_reference.make -i {n}", made(n)),
            Look("crates/sent_tests/src/two_antenna_ports.rt", f"$PY -m lte_reference.two_ports -i {n}", made(n)),
            Look("crates/sent_tests/src/four_antenna_ports.rt", f"$PY -m lte_reference.four_ports -i {n}", made(n)),
            Look("crates/list_tests/src/extended_prefix.rt", f"$PY -m lte_reference.long_prefix -i {n}", made(n)),
        ]
    return found


# ---- what was printed before


# outputs are by their keys: of each one run at a time, and once a process
TURNS = collections.defaultdict(threading.Lock)
RUN = set()


def kept_in():
    """Returns the folder of the outputs of earlier runs."""
    return pathlib.Path(os.environ.get("XDG_CACHE_HOME") or pathlib.Path.home() / ".cache") / "lte_gate/rows"


@functools.cache
def digest_of(path):
    """Returns the checksum of a file."""
    return hashlib.sha256(path.read_bytes()).hexdigest()


@functools.cache
def modules_of(name):
    """Returns the files of a module of lte_reference and of all modules of it that it imports."""
    found, waiting = set(), [REFERENCE / f"{name}.py"]
    while waiting:
        file = waiting.pop()
        if file in found or not file.is_file():
            continue
        found.add(file)
        for node in ast.walk(ast.parse(file.read_bytes())):
            if isinstance(node, ast.ImportFrom):
                names = [(node.module or "").split(".")[-1], *(alias.name for alias in node.names)]
                waiting += [file.parent / f"{it}.py" for it in names]
            elif isinstance(node, ast.Import):
                waiting += [REFERENCE / f"{alias.name.split('.')[-1]}.py" for alias in node.names]
    return frozenset(found)


def files_of(command):
    """Returns the files on which the output of a command depends."""
    found = {file for name in re.findall(r"\blte_reference\.(\w+)", command) for file in modules_of(name)}
    for word in re.findall(r"[\w.]+(?:/[\w.]+)+", command):
        found.update(path.resolve() for path in (TOP / "scripts" / word, TOP / word) if path.is_file())
    return sorted(found)


def key_of(look):
    """Returns a checksum of all on which the output of a look's command depends."""
    files = [(str(file.relative_to(TOP)), digest_of(file)) for file in files_of(look.command)]
    parts = [look.command, hashlib.sha256(look.data).hexdigest(), sys.version, version_of("numpy"), files]
    return hashlib.sha256(repr(parts).encode()).hexdigest()


@functools.cache
def version_of(package):
    """Returns the version of a package, or nothing if it is not installed."""
    try:
        return importlib.metadata.version(package)
    except importlib.metadata.PackageNotFoundError:
        return ""


def printed(look):
    """Runs the command of a look; returns its output, or raises with its last words."""
    words = ["bash", "-c", "set -eo pipefail; " + look.command]
    environment = {**os.environ, "PY": sys.executable, "PYTHONDONTWRITEBYTECODE": "1"}
    environment["PYTHONPATH"] = str(TOP / "python")
    how = {"cwd": TOP / "scripts", "env": environment, "capture_output": True, "check": False}
    done = subprocess.run(words, input=look.data, **how)
    if done.returncode:
        raise Refused(f"rows: {look.command}: status {done.returncode}, {done.stderr.decode()[-300:]}")
    return done.stdout


def output_of(look, is_anew=False):
    """Returns the output of a look's command, kept from an earlier run if nothing changed, and whether it was run."""
    key = key_of(look)
    file = kept_in() / key
    with TURNS[key]:
        if file.is_file() and (key in RUN or not is_anew):
            return file.read_bytes(), False
        output = printed(look)
        file.parent.mkdir(parents=True, exist_ok=True)
        part = file.with_name(f"{key}.{os.getpid()}")
        part.write_bytes(output)
        part.replace(file)
        RUN.add(key)
        return output, True


# ---- the looks


def looked_up(look, is_anew=False):
    """Returns the count of patterns of a run, a line for each that is not met, and whether it was run."""
    try:
        output, is_run = output_of(look, is_anew)
    except Refused as refusal:
        return 1, [str(refusal)], True
    patterns = look.patterns(output.decode() if look.is_text else output)
    files = [file for name in look.files.split() for file in sorted(TOP.glob(name))]
    text = "\0".join(pressed(file.read_text(encoding="utf-8")) for file in files)
    missing = [pattern for pattern in patterns if not re.search(pattern, text)]
    if not patterns:
        return 1, [f"rows: {look.command}: prints no row"], is_run
    lines = [f"rows: {look.command}: not in {look.files}: {unpressed(pattern)}" for pattern in missing]
    return len(patterns), lines, is_run


def parser():
    """Returns the parser of the command's arguments."""
    made = argparse.ArgumentParser("rows", description=__doc__, formatter_class=argparse.RawDescriptionHelpFormatter)
    made.add_argument("--all", action="store_true", help="the two slow ones too")
    made.add_argument("--anew", action="store_true", help="run all again")
    return made


def main():
    args, looks = parser().parse_args(), plain_looks()
    if importlib.util.find_spec("numpy"):
        looks += numpy_looks() + (slow_looks() if args.all else [])
    else:
        print(f"left out: {len(numpy_looks())} runs of reference implementations: no numpy (Debian: python3-numpy)")
    with concurrent.futures.ThreadPoolExecutor(os.cpu_count()) as lanes:
        found = list(lanes.map(lambda look: looked_up(look, args.anew), looks))
    missing = [line for _, lines, _ in found for line in lines]
    run_now = sum(is_run for _, _, is_run in found)
    return report("rows", missing, f"{sum(count for count, _, _ in found)} of {len(looks)} runs, {run_now} run now")


if __name__ == "__main__":
    run(main, "rows")
