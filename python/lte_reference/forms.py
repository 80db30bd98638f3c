#!/usr/bin/python3
"""python3 -m lte_reference.forms WORDS < RECORDING

A second program for what stands in docs/FORMATS.md for these words: it prints what `lte_cli` writes, and `lte_tune` for
the last ones.

    hits --json, ids --json
    ids --deep [all], ids --deep [all] --json
    evidence [--ports 2 | --ports 4 | --prefix long | --all] --json
    search [--ports 2 | --ports 4 | --prefix long | --cancel | --all] --json
    evidence --all, search --all
    tell --json

Behind those of `search` without `--cancel`, of hits, ids and evidence, `--rate R` says that the recording has R million
samples per second (`wide_search.py`).

Hits, lists, rounds, evidence and candidates are those of the other second programs, whose lines are read here; nothing
is shared with the repository's code. Recordings are 16-bit. Slow: seconds for each hit. Debian: python3-numpy.
"""
import functools
import itertools
import json
import sys
from typing import NamedTuple

import numpy as np

from . import cancel as second_cancel
from . import deep
from . import evidence as second_evidence
from . import tune as tune_reference
from .search import FRAME, RULES, hits, identity, list_lines, listed, ranked, recording
from .wide_search import KEPT, RATES
from .wide_search import lines_of as wide_cells
from .wide_search import list_lines as wide_lines
from .wide_slots import narrowed

NAMES = dict(zip(RULES, ("one-port", "two-ports", "long-prefix", "four-ports")))


def by_names(words):
    """Returns the values after each name of a line."""
    return dict(zip(words[0::2], words[1::2]))


def number(word):
    """A number, or null for a field that is absent."""
    return None if word == "-" else int(word)


# ---- hits


def of_hits(r):
    return [{"t": t, "n2": n2, **measured(r, t, n2)} for t, n2 in hits(r)]


def measured(r, t, n2):
    return dict(zip(("peak", "energy", "power"), second_evidence.measures(r, t, n2)))


def of_ids(r):
    found = []
    for value in of_hits(r):
        cell, start = identity(r, value["t"], value["n2"])
        half = 0 if (value["t"] - 832) % FRAME == start else 5
        two = {"secondary": two_best(r, value["t"], value["n2"])}
        found.append({**value, **two, "identity": cell, "subframe": half, "at": start})
    return found


def two_best(r, t, n2):
    """The best and the second of all groups and halves."""
    return {
        name: {"group": n1, "subframe": half, "score": score}
        for name, (score, half, n1) in zip(("best", "second"), ranked(r, t, n2))
    }


# ---- lists, by their lines


def network(line):
    _, mcc, mnc, use = line.split()
    return {"mcc": None if mcc == "-" else mcc, "mnc": mnc, "reserved": use == "reserved"}


def schedule(line):
    _, period, codes = line.split()
    return {"period": int(period[2:]), "sibs": [] if codes == "-" else [int(code) for code in codes.split(",")]}


def system(lines):
    """The value of `sib1`."""
    words = lines[0].split()
    if words[1] == "none":
        return {"none": " ".join(words[2:])}
    _, _, tac, _, cell, barred, intra, _, group, group_identity, *rest = words
    fields = by_names(rest)
    return {
        "tac": int(tac),
        "cell": int(cell),
        "barred": barred == "barred",
        "intra": intra == "allowed",
        "csg": group == "1",
        "csg_identity": number(group_identity),
        "q_rx": int(fields["rx"]),
        "q_offset": number(fields["offset"]),
        "p_max": number(fields["pmax"]),
        "band": int(fields["band"]),
        "window": int(fields["window"][2:]),
        "tag": int(fields["tag"]),
        "tdd": None if fields["tdd"] == "-" else [int(part) for part in fields["tdd"].split("/")],
        "extension": fields["extension"] == "1",
        "plmns": [network(line) for line in lines if line.startswith("plmn")],
        "scheduling": [schedule(line) for line in lines if line.startswith("si ")],
    }


def cell(lines):
    """Returns the object of a line `cell` and the lines after it."""
    words = lines[0].split()
    fields = by_names(words[2:8] + words[12:])
    return {
        "identity": int(words[1]),
        **{name: int(fields[name]) for name in ("at", "sfn", "ports", "br", "spare")},
        "bandwidth": words[8],
        "duration": words[10],
        "resource": words[11],
        "sib1": system(lines[1:]),
    }


def parted(lines, word):
    """The lines before the first that begins with this word, then those from each such line on to the next."""
    numbers = itertools.accumulate(line.split()[0] == word for line in lines)
    parts = itertools.groupby(zip(numbers, lines), key=lambda pair: pair[0])
    return [[line for _, line in part] for _, part in parts]


def cells(lines):
    """The array of a list, by its lines from `cells` on."""
    return [cell(part) for part in parted(lines, "cell")[1:]]


class Lists(NamedTuple):
    """A recording, and of wide ones the number of the rate."""

    samples: np.ndarray
    rate: int | None = None

    def lines(self, words):
        """Returns the lines of a list."""
        rule = RULES[words]
        if self.rate is None:
            return list_lines(self.samples, listed(self.samples, rule), rule)
        return wide_lines(self.samples, self.rate, rule)

    def wide_blocks(self, words):
        """Returns for each cell of a list the bits of the block from which SIB1 is read in the wide samples, or None."""
        if self.rate is None:
            return itertools.repeat(None)
        found = wide_cells(self.samples, self.rate, RULES[words])
        return [one.block if one.source in ("frame", "frames") else None for one in found]

    @property
    def narrow(self):
        """The samples at 1.92 million per second."""
        return self.samples if self.rate is None else narrowed(self.samples[: KEPT << self.rate], self.rate)


def of_search(lists, words):
    return cells(lists.lines(words))


def of_all(lists):
    return [{**value, "rule": name} for words, name in NAMES.items() for value in of_search(lists, words)]


def lines_of_all(lists):
    for words, name in NAMES.items():
        yield f"rule {name}"
        yield from lists.lines(words)


def of_cancel(r):
    first, *rounds = parted(list(second_cancel.rounds(r)), "cancelled")
    ended = bool(rounds) and rounds[-1] == ["cancelled none"]
    taken = []
    for line, power, *rest in rounds[: len(rounds) - ended]:
        _, taken_off, _, a, b, _, residue = line.split()
        taken.append(
            {
                "identity": int(taken_off),
                "gain": [int(a), int(b)],
                "residue": int(residue),
                "power": [int(word) for word in power.split()[1:]],
                "cells": cells(rest),
            }
        )
    return {"cells": cells(first), "rounds": taken, "ended": ended}


# ---- evidence, and a turn


def of_evidence(lists, words):
    r, rule, names = lists.narrow, RULES[words], ("identity", "at", "sfn")
    found = []
    for entry, line, block in zip(listed(r, rule), second_evidence.lines(r, rule)[1:], lists.wide_blocks(words)):
        row = line.split()
        numbers = {name: int(word) for name, word in (*zip(names, row), *by_names(row[3:]).items())}
        shown = second_evidence.shown(r, entry, numbers["frame"], rule)
        if block is not None:
            shown["sib1_block"] = second_evidence.hexadecimal("".join(map(str, block)))
        found.append(numbers | shown)
    return found


def of_all_evidence(lists):
    """The cells of all lists, each with its evidence."""
    found = []
    for words, name in NAMES.items():
        for value, support in zip(of_search(lists, words), of_evidence(lists, words), strict=True):
            if any(value[key] != support[key] for key in value.keys() & support.keys()):
                raise ValueError(value)
            found.append({**value, **support, "rule": name})
    return found


def lines_of_all_evidence(r):
    for words, name in NAMES.items():
        yield f"rule {name}"
        yield from second_evidence.lines(r, RULES[words])


def of_tell(samples):
    by = tune_reference.Second()
    taken = tune_reference.taken(samples, by)
    its = tune_reference.estimate(samples, by, taken)
    names = ("coarse", "turn", "peak", "energy", "power")
    return {
        "told": {"hits": its[0].hits, "turn": its[0].turn, "cells": its[1]} if its else None,
        "candidates": [{name: getattr(candidate, name) for name in names} for candidate in taken],
    }


LISTS = {"search --all --json": of_all}
LISTS |= {" ".join(["search", *words, "--json"]): functools.partial(of_search, words=words) for words in RULES}
LISTS |= {" ".join(["evidence", *words, "--json"]): functools.partial(of_evidence, words=words) for words in RULES}
LISTS["evidence --all --json"] = of_all_evidence
FORMS = {"hits --json": of_hits, "ids --json": of_ids, "search --cancel --json": of_cancel}
FORMS |= {"ids --deep --json": deep.value, "ids --deep all --json": lambda r: deep.value(r, len(r))}
TEXTS = {"search --all": lines_of_all, "evidence --all": lambda lists: lines_of_all_evidence(lists.narrow)}
TEXTS |= {
    "ids --deep": lambda lists: deep.lines(lists.narrow),
    "ids --deep all": lambda lists: deep.lines(lists.narrow, len(lists.narrow)),
}


def main():
    words, rate = sys.argv[1:], None
    if words[-2:-1] == ["--rate"] and words[-1] in RATES:
        words, rate = words[:-2], RATES.index(words[-1])
    form = " ".join(words)
    if form == "tell --json" and rate is None:
        print(as_json(of_tell(tune_reference.samples_of(sys.stdin.buffer.read()))))
    elif form in (*LISTS, *FORMS, *TEXTS) and (rate is None or "--cancel" not in words):
        print(text_of(form, Lists(recording(), rate)))
    else:
        sys.exit(__doc__)


def text_of(form, lists):
    if form in TEXTS:
        return "\n".join(TEXTS[form](lists))
    return as_json(LISTS[form](lists) if form in LISTS else FORMS[form](lists.narrow))


def as_json(value):
    return json.dumps(value, sort_keys=True, separators=(",", ":"))


if __name__ == "__main__":
    main()
