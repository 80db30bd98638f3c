"""The reference implementations give the shipped recording, its list and its evidence; rows.py looks up the others."""
import json
import random
import subprocess
import sys

import numpy as np

from lte_reference import cell, evidence, forms, search
from tests.conftest import CELL, EXAMPLES, TOP

SHIPPED = TOP / "crates/capture_example"


def shipped():
    return np.frombuffer((SHIPPED / "stdin").read_bytes(), "<i2").astype(np.int64).reshape(-1, 2)


def test_sends_the_shipped_recording():
    words = [sys.executable, "-m", "lte_reference.cell"]
    with (EXAMPLES / "shipped_cell.json").open() as file:
        done = subprocess.run(words, stdin=file, stdout=subprocess.PIPE, check=True, cwd=TOP / "python")
    assert done.stdout == (SHIPPED / "stdin").read_bytes()


def test_lists_the_shipped_recording():
    found = search.list_lines(shipped(), search.listed(shipped()))
    assert found == (SHIPPED / "stdout").read_text().splitlines()


def test_evidence_of_the_shipped_recording():
    (line,) = json.loads((EXAMPLES / "outputs/evidence.json").read_text())
    text = " ".join(evidence.lines(shipped(), search.ONE_PORT))
    assert f"cost {line['cost']} total {line['total']}" in text or str(line["total"]) in text
    assert text.endswith(f" room {line['room']}")


def test_the_room_bounds_the_cost_of_other_words():
    draw, word = random.Random(9), 0x0A0000_1234
    sent = [[-9 if bit else 9 for bit in bits] for bits in evidence.coded(word, 40)]
    values = [[value + draw.randint(-4, 4) for value in row] for row in sent]
    room = evidence.room(values, word)
    assert search.least(values) == (0, word) and 15 * 5 <= room < 15 * 9 == evidence.room(sent, word)
    costs = [cost_of(values, word ^ change) for change in (1, 0b11, 0b101101, 1 << 39, *(1 << i for i in range(1, 39)))]
    assert min(costs) >= room and min(cost_of(sent, word ^ 1 << i) for i in range(40)) >= 15 * 9
    assert evidence.room([[-value for value in row] for row in values], word) <= -15 * 9


def cost_of(values, word):
    rows = zip(values, evidence.coded(word, len(values)))
    return sum(abs(value) for row, bits in rows for value, bit in zip(row, bits) if (value < 0) != bit and value)


def test_a_sent_cell_is_listed_by_its_rule():
    r = cell.sent({**CELL, "samples": 57_600}).astype(np.int64)
    assert [line.split()[1] for line in search.list_lines(r, search.listed(r)) if line.startswith("cell ")] == ["217"]
    assert forms.number("-") is None and forms.number("7") == 7
