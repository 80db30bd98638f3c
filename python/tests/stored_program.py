#!/usr/bin/python3
"""Stands in for lte_cli and lte_tune, the first argument: replays answers that are stored beside it.

An answer is found by the arguments and by 64 samples of the recording, each within 3 of the stored ones, so that another
rounding of a resampler does not matter. With LTE_RECORD=1 an answer that is not stored is asked of the reference
implementation (python/lte_reference) and stored. The status is 70 where there is no answer.
"""
import array
import json
import os
import pathlib
import subprocess
import sys

HERE = pathlib.Path(__file__).resolve().parent
STORED = HERE / "stored"
COUNT, NEAR = 64, 3
LEAST = 57_600  # samples at 1.92 million per second
REFUSALS = {
    "too short: the recording has less than 30 ms (57,600 samples without --rate); record more": 4,
    "ragged: the input ends within a sample; check the format, or cut the last bytes": 3,
}


def signature(data):
    """Returns some components of a recording, evenly spaced."""
    numbers = array.array("h", data[: len(data) // 2 * 2])
    step = max(1, len(numbers) // COUNT)
    return list(numbers[step // 2 :: step][:COUNT])


def is_near(one, other):
    return len(one) == len(other) and all(abs(a - b) <= NEAR for a, b in zip(one, other))


def reference_of(command, *rest):
    """Returns the module of the reference implementation for a command, and its arguments."""
    if command in ("transmit", "why"):
        return ["cell" if command == "transmit" else "why", *rest]
    if command in ("tell", "apply") and not rest:
        return ["tune", command]
    is_text = not {"--json", "--all", "--cancel"}.intersection(rest)
    if command == "search" and is_text:
        *scheme, option, rate = rest if rest[-2:-1] == ("--rate",) else (*rest, "", "")
        return ["wide_search", rate, *scheme] if option else ["search", *rest]
    return ["evidence", *rest] if command == "evidence" and is_text else ["forms", command, *rest]


def of_reference(name, arguments, data):
    """Returns what the reference implementation writes."""
    module, *rest = reference_of(*arguments)
    words = [sys.executable, "-m", f"lte_reference.{module}", *rest]
    environment = {**os.environ, "PYTHONPATH": str(HERE.parent)}
    return subprocess.run(words, input=data, stdout=subprocess.PIPE, check=True, env=environment).stdout


def transmitted(name, arguments, data):
    """Writes the samples of a description, by the reference implementation."""
    if "sib1" not in json.loads(data):
        print(f"{name}: bad cell: no sib1", file=sys.stderr)
        return 9
    sys.stdout.buffer.write(of_reference(name, arguments, data))
    return 0


def corrected(name, arguments, data):
    """Writes a recording with its frequency offset corrected, by the reference implementation."""
    sys.stdout.buffer.write(of_reference(name, arguments, data))
    return 0


def samples_of(arguments):
    """Returns the fewest samples of a recording, by its rate."""
    rate = float(arguments[-1]) if arguments[-2:-1] == ["--rate"] else 1.92
    return LEAST * round(rate / 1.92)


def main():
    (name, *arguments), data = sys.argv[1:], sys.stdin.buffer.read()
    if arguments[:1] == ["transmit"]:
        return transmitted(name, arguments, data)
    if arguments == ["apply"]:
        return corrected(name, arguments, data)
    if len(data) % 4 or len(data) < 4 * samples_of(arguments):
        cause = list(REFUSALS)[len(data) % 4 != 0]
        print(f"{name}: {cause}", file=sys.stderr)
        return REFUSALS[cause]
    path, found = STORED / f"{name}.jsonl", signature(data)
    for line in path.read_text().splitlines() if path.exists() else ():
        one = json.loads(line)
        if (one["arguments"], one["bytes"]) == (arguments, len(data)) and is_near(one["samples"], found):
            sys.stdout.write(one["answer"])
            return 0
    if not os.environ.get("LTE_RECORD"):
        print(f"{name}: no answer is stored for {' '.join(arguments)}, {len(data)} bytes", file=sys.stderr)
        return 70
    answer = of_reference(name, arguments, data).decode()
    with path.open("a") as file:
        file.write(json.dumps({"arguments": arguments, "bytes": len(data), "samples": found, "answer": answer}) + "\n")
    sys.stdout.write(answer)
    return 0


if __name__ == "__main__":
    sys.exit(main())
