"""The reference implementations print what the proved programs print."""
import sys

import numpy as np
import pytest

from lte_reference import wide_slots
from lte_reference.search import RULES
from tests.conftest import CELL, EXAMPLES, RECEIVER, TOP
from tests.test_recipes import transmitted

pytestmark = pytest.mark.program
FORMS = (
    "evidence",
    "search",
    "hits --json",
    "ids --json",
    "ids --deep",
    "ids --deep all --json",
    "evidence --json",
    "search --json",
    "search --all --json",
    "search --cancel --json",
    "search --all",
    "evidence --all",
    "evidence --all --json",
)
SCHEMES = (("two_ports", "--ports 2"), ("four_ports", "--ports 4"), ("long_prefix", "--prefix long"))


@pytest.fixture(scope="module")
def recordings():
    """The bytes of five frames of a cell, of a cell with a false detection, and of the shipped recording."""
    chance = (EXAMPLES / "chance_line.json").read_bytes()
    return {
        "sent": transmitted(CELL),
        "chance_line": transmitted(chance),
        "shipped": (TOP / "crates/capture_example/stdin").read_bytes(),
    }


@pytest.fixture
def reference(command):
    def run(module, *words, stdin=b""):
        return command(sys.executable, "-m", f"lte_reference.{module}", *words, stdin=stdin)

    return run


@pytest.mark.slow
@pytest.mark.parametrize("name", ["sent", "chance_line", "shipped"])
@pytest.mark.parametrize("form", FORMS)
def test_forms(command, reference, recordings, form, name):
    words = form.split()
    module = words if len(words) == 1 else ["forms", *words]
    assert reference(*module, stdin=recordings[name]) == command(RECEIVER, *words, stdin=recordings[name])


@pytest.mark.slow
@pytest.mark.parametrize("maker, scheme", SCHEMES)
def test_other_schemes(command, reference, maker, scheme):
    words, data = scheme.split(), reference(maker, 90)
    assert reference("evidence", *words, stdin=data) == command(RECEIVER, "evidence", *words, stdin=data)
    certificate = command(RECEIVER, "certify", *words, stdin=data)
    assert command(sys.executable, "-m", "lte_tools.check_certificate", stdin=certificate) == b"certificates 1\n0 yes\n"


SENT = {
    "7.68": ("--width", "25", "--ports", "2", "--form", "1C", "--cfi", "3", "--mcs", "9", "--late", "900"),
    "1.92": ("--width", "6", "--ports", "4", "--cfi", "3", "--late", "15000", "--sfn", "3"),
    "3.84": ("--width", "50", "--ports", "2", "--rate", "15.36"),  # read at too low a rate
}
RATE_FORMS = (
    "search",
    "search --ports 2",
    "search --ports 4 --json",
    "search --all",
    "hits --json",
    "evidence --json",
    "evidence --ports 2 --json",
    "evidence --ports 4 --json",
    "evidence --all --json",
)


@pytest.mark.slow
@pytest.mark.parametrize("rate", SENT)
@pytest.mark.parametrize("form", RATE_FORMS)
def test_rates(command, reference, form, rate):
    data, words = reference("wide_sender", *SENT[rate], "--snr", "12"), form.split()
    if rate == "3.84":
        samples = np.frombuffer(data, "<i2").reshape(-1, 2)
        data = wide_slots.narrowed(samples, 2).astype("<i2").tobytes()
    is_text = words[0] == "search" and form in (" ".join(["search", *rule]) for rule in RULES)
    asked = ["wide_search", rate, *words[1:]] if is_text else ["forms", *words, "--rate", rate]
    assert reference(*asked, stdin=data) == command(RECEIVER, *words, "--rate", rate, stdin=data)
