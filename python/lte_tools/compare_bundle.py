"""One file to send: both lists, the windows of the recording that the differences need, what lte_cli reports of them, and
certificates; and its check, which runs all of it again.

The file is ustar with sorted names, time 0 and owner 0, so that equal input makes equal bytes. `bundle.json` has the SHA-256
of each other file. Windows are recordings of 17 frames at 1.92 million samples per second, with the offset of the survey
corrected, as the programs read them. Debian: to write one python3-numpy, python3-scipy. Needs lte_cli.
"""
from __future__ import annotations

import dataclasses
import hashlib
import io
import json
import os
import pathlib
import subprocess
import tarfile
from typing import Any, Iterator, NamedTuple, Sequence

from . import check_certificate, compare_forms, compare_lists, compare_outputs, compare_tables, compare_verdicts
from . import foreign, machine
from .compare_verdicts import Comparison
from .machine import ProgramRefused, Refused
from .rules import RULES, Rule
from .survey_data import Survey

MOST_BYTES = 256_000_000
MOST_FILES = 2_000
MOST_WINDOWS = 40
FORMAT = 1  # of bundle.json
HEAD, LISTS, README, SCRIPT = "bundle.json", ("ours.json", "theirs"), "README.txt", "verify"
WORD, MIB_BITS = slice(244, 249), 16  # of a certificate: the information word, and the bits of its CRC
TEXT = """A comparison of two lists of LTE cells, by lte_compare.

ours.json          our survey of {ours}
theirs             the other receiver's list, as it was
comparison.json    the verdicts of ours.json and theirs (lte_compare ours.json theirs --json, with the options of bundle.json)
reasons.json       the same verdicts, with the reasons for cells that only theirs has
windows/N.ci16     windows of the recording: 16-bit I and Q at 1.92 million samples per second
windows/N.*.json   what lte_cli reports of a window: evidence --all, ids, and why for each cell that differs there
windows/N.*.cert   certificates of its cells (lte_cli certify)
bundle.json        versions, options, and the SHA-256 of each file
verify             runs lte_cli on each window again, and compares

    lte_compare --verify THIS.tar    runs everything again, and checks certificates with a second checker
    sh verify                        in a folder with these files: compares what lte_cli reports

Made with: {version}
SIB1 of cells with more than 6 resource blocks is not in the answers about a window, since the window has 1.92 million
samples per second; its blocks are in ours.json.
"""


class Part(NamedTuple):
    """A window in a bundle: its second in the recording, its samples, and the identities that differ there."""

    start: float
    data: bytes
    identities: tuple[int, ...]


# ---- what lte_cli reports


def answer(arguments: Sequence[str], data: bytes) -> bytes:
    """Returns what lte_cli writes for a window; refuses what it refuses."""
    words = [machine.program("lte_cli"), *arguments]
    done = subprocess.run(words, input=data, capture_output=True, check=False)
    if done.returncode:
        cause = done.stderr.decode(errors="replace").strip() or f"status {done.returncode}"
        raise ProgramRefused(" ".join(arguments), cause, done.returncode)
    return done.stdout


def version() -> str:
    """Returns the versions of lte_cli and its definition."""
    return " ".join(answer(("version",), b"").decode(errors="replace").split())


def commands_of(identities: Sequence[int]) -> dict[str, tuple[str, ...]]:
    """Returns the arguments of lte_cli for a window, by the last part of the file that has their answer."""
    found: dict[str, tuple[str, ...]] = {
        "evidence.json": ("evidence", "--all", "--json"),
        "ids.json": ("ids", "--json"),
        "deep.json": ("ids", "--deep", "--json"),
    }
    for rule in RULES:
        found[f"{rule.name}.cert"] = ("certify", *rule.arguments)
        found |= {f"why-{one}-{rule.name}.json": ("why", str(one), *rule.arguments, "--json") for one in identities}
    return found


# ---- what is written


def files_of(
    found: Comparison, survey: Survey, theirs: bytes, options: dict[str, Any], parts: Sequence[Part]
) -> dict[str, bytes]:
    """Returns the files of a bundle by name; none depends on the folders of its inputs."""
    name = pathlib.Path(survey.file).name
    parts_of_drive = tuple(dataclasses.replace(one, file=pathlib.Path(one.file).name) for one in survey.parts)
    survey = dataclasses.replace(survey, file=name, parts=parts_of_drive)
    found = dataclasses.replace(found, ours=name, theirs="theirs")
    files = {"ours.json": json_text(survey.to_json()), "theirs": theirs}
    files["reasons.json"] = json_text(compare_outputs.json_of(found))
    files["comparison.json"] = json_text(compared(files, options))
    lines = ["#!/bin/sh", "# compares what lte_cli reports of each window with the answers in this folder", "status=0"]
    for number, part in enumerate(parts):
        window = f"windows/{number}"
        files[f"{window}.ci16"] = part.data
        for ending, arguments in commands_of(part.identities).items():
            files[f"{window}.{ending}"] = answer(arguments, part.data)
            lines.append(f"lte_cli {' '.join(arguments)} < {window}.ci16 | cmp - {window}.{ending} || status=1")
    made_by = version()
    files[README] = TEXT.format(ours=name, version=made_by).encode(errors="replace")
    files[SCRIPT] = "\n".join([*lines, "exit $status", ""]).encode()
    windows = [{"start": round(part.start, 6), "identities": list(part.identities)} for part in parts]
    sums = {name: hashlib.sha256(data).hexdigest() for name, data in sorted(files.items())}
    head = {"format": FORMAT, "options": options, "sums": sums, "version": made_by, "windows": windows}
    return {**files, HEAD: json_text(head)}


def compared(files: dict[str, bytes], options: dict[str, Any]) -> dict[str, Any]:
    """Returns the comparison of a bundle's lists as JSON, without reasons."""
    theirs = compare_forms.read(files["theirs"], "theirs", options["as"], options["columns"])
    ours = compare_lists.of_survey(
        Survey.from_json(foreign.parsed(files["ours.json"], "ours.json"), "ours.json"), "ours"
    )
    found = compare_verdicts.comparison_of(ours, theirs, options["fields"], options["tolerance"])
    return compare_outputs.json_of(found)


def json_text(value: Any) -> bytes:
    return (json.dumps(value, sort_keys=True, separators=(",", ":")) + "\n").encode()


def archive(files: dict[str, bytes]) -> bytes:
    """Returns the files as ustar."""
    out = io.BytesIO()
    with tarfile.open(fileobj=out, mode="w", format=tarfile.USTAR_FORMAT) as tar:
        for name in sorted(files):
            info = tarfile.TarInfo(name)
            info.size, info.mode = len(files[name]), 0o755 if name == SCRIPT else 0o644
            tar.addfile(info, io.BytesIO(files[name]))
    return out.getvalue()


# ---- what is checked


def verify(path: pathlib.Path) -> list[str]:
    """Returns what of a bundle does not hold on this machine, and nothing if all of it does."""
    data = foreign.read(path, MOST_BYTES)
    files = read(data, str(path))
    head = head_of(files, str(path))
    try:
        return list(faults_of(files, head, data))
    except Refused as refusal:
        raise Refused(f"{path}: {refusal}") from None


def read(data: bytes, name: str) -> dict[str, bytes]:
    """Returns the files of an archive by name; refuses one that is no archive of regular files."""
    found: dict[str, bytes] = {}
    try:
        with tarfile.open(fileobj=io.BytesIO(data), mode="r:") as tar:
            for member in tar:
                file = tar.extractfile(member) if member.isreg() else None
                if file is None or member.name in found or len(found) >= MOST_FILES:
                    raise Refused(f"{name}: {foreign.shown(member.name)}: not a bundle of lte_compare")
                found[member.name] = file.read()
    except (tarfile.TarError, ValueError, EOFError, OverflowError) as fault:
        raise Refused(f"{name}: not an archive: {fault}") from None
    return found


def head_of(files: dict[str, bytes], name: str) -> dict[str, Any]:
    """Returns bundle.json; refuses one that is wrong."""
    if HEAD not in files:
        raise Refused(f"{name}: no {HEAD} in it: not a bundle of lte_compare")
    head: dict[str, Any] = foreign.parsed(files[HEAD], f"{name}: {HEAD}")
    foreign.check(head, "bundle", f"{name}: {HEAD}")
    columns = head["options"]["columns"]
    if not all(column in compare_tables.HEADINGS and isinstance(heading, str) for column, heading in columns.items()):
        raise Refused(f"{name}: {HEAD}: columns that --columns does not have")
    return head


def faults_of(files: dict[str, bytes], head: dict[str, Any], data: bytes) -> Iterator[str]:
    """Yields what does not hold: files with other bytes, answers and verdicts that differ now, and certificates."""
    sums = head["sums"]
    wrong = [name for name in sorted({*sums, *files} - {HEAD}) if digest(files.get(name)) != sums.get(name)]
    yield from (f"{name}: other bytes than {HEAD} states" for name in wrong)
    needed = {"comparison.json", *LISTS, *names_of(head)}
    yield from (f"{name}: it is missing" for name in sorted(needed - set(files)))
    if wrong or needed - set(files):
        return
    if archive(files) != data:
        yield "the archive: other bytes than lte_compare writes for these files"
    if files["comparison.json"] != json_text(compared(files, head["options"])):
        yield "comparison.json: the verdicts differ now"
    for number, window in enumerate(head["windows"]):
        yield from window_faults(f"windows/{number}", files, window["identities"])


def digest(data: bytes | None) -> str | None:
    return None if data is None else hashlib.sha256(data).hexdigest()


def names_of(head: dict[str, Any]) -> Iterator[str]:
    """Yields the names of the files of all windows."""
    for number, window in enumerate(head["windows"]):
        yield f"windows/{number}.ci16"
        yield from (f"windows/{number}.{ending}" for ending in commands_of(window["identities"]))


def window_faults(name: str, files: dict[str, bytes], identities: Sequence[int]) -> Iterator[str]:
    """Yields what does not hold of a window."""
    for ending, arguments in commands_of(identities).items():
        try:
            found = answer(arguments, files[f"{name}.ci16"])
        except ProgramRefused as refusal:
            yield f"{name}.{ending}: {refusal}"
            continue
        if found != files[f"{name}.{ending}"]:
            yield f"{name}.{ending}: lte_cli {' '.join(arguments)} reports something else now"
    try:
        lines = foreign.parsed(files[f"{name}.evidence.json"], f"{name}.evidence.json")
        foreign.check(lines, "evidence_all", f"{name}.evidence.json")
    except Refused as refusal:
        yield str(refusal)
        return
    for rule in RULES:
        blocks = [line["mib"] for line in lines if line["rule"] == rule.name]
        yield from certificate_faults(f"{name}.{rule.name}.cert", files[f"{name}.{rule.name}.cert"], blocks, rule)


def certificate_faults(name: str, data: bytes, blocks: Sequence[str | None], rule: Rule) -> Iterator[str]:
    """Yields what does not hold of a list's certificates: each has to be accepted, and to be of its line's MIB."""
    try:
        answers = check_certificate.answers_of(data)
    except Refused as refusal:
        yield f"{name}: {refusal}"
        return
    if len(answers) != len(blocks):
        yield f"{name}: {len(answers)} certificates of {len(blocks)} cells"
    yield from (f"{name}: certificate {i} is not accepted" for i, is_accepted in enumerate(answers) if not is_accepted)
    at = 0
    for i, block in enumerate(blocks[: len(answers)]):
        word = int.from_bytes(data[at:][WORD], "big")
        if block is not None and f"{word >> MIB_BITS:06x}" != block:
            yield f"{name}: certificate {i} is of another MIB than the evidence of {rule.name}"
        at += check_certificate.length_of(data, at)


def sentence(path: os.PathLike[str], faults: Sequence[str]) -> str:
    """Returns in one line whether a bundle holds."""
    if not faults:
        return f"{path}: holds: lists, verdicts, answers of lte_cli and certificates are the same on this machine"
    more = f", and {len(faults) - 1} further" if len(faults) > 1 else ""
    return f"{path}: does not hold: {faults[0]}{more}"
