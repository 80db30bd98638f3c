"""The rules of comments."""
import pytest

from lte_gate import comments, english, python_texts


@pytest.mark.parametrize(
    "text, kinds",
    (
        ("/// Returns the bit at `i`.\nfn bit(i: u64) -> bool {}\n", []),
        ("/// The bit at `i`.\nfn bit(i: u64) -> bool {}\n", ["begins"]),
        ("/// Values of a word.\nfn bits() {}\n", ["begins"]),
        ("/// This adds one.\nfn add() {}\n", ["begins"]),
        ("/// A law: each list holds its cells.\nfn law() {}\n", []),
        ("/// Returns the bit at i.\n#[inline]\npub fn bit(i: u64) -> bool {}\n", ["names"]),
        ("/// Returns the first_bit of a word.\nfn bit(first_bit: &[u8], word: u64) -> bool {}\n", ["names"]),
        ("/// Returns 2^n, or f(n).\nfn power(n: u64) -> u64 {}\n", ["names"]),
        (f"/// Returns {'one ' * 39}.\nfn long() {{}}\n", ["has"]),
        (f"/// Returns {'one ' * 38}\nfn long() {{}}\n", []),
        ("/// What the reader told.\nstruct A;\n", ["says"]),
        ('// A field that `tell` prints, "told".\n', []),
        ("-- Of several faults the first\n", ["has"]),
        ("-- the first. Of these the sum\n", ["has"]),
        ("-- a sum of several, often\n", []),
    ),
)
def test_rules(text, kinds):
    assert [fault.split(" ")[0] for _, fault in english.faults_of(text)] == kinds


@pytest.mark.parametrize(
    "comment, leans",
    (
        ("it is the first", True),
        ("those of a list", True),
        ("the same", True),
        ("the same as in a list", False),
        ("the values of all places do", True),
        ("there is one", False),
        ("the first block", False),
    ),
)
def test_comments_that_need_the_one_above(comment, leans):
    assert english.leans(comment) is leans
    assert bool(list(comments.leaning(f"-- {comment}\n"))) is leans


@pytest.mark.parametrize(
    "text, marks",
    (
        ("Returns the remaining offset in hertz.", []),
        ("Returns what is left.", ["says what"]),
        ("Says what if a file is empty.", []),
        ("The field `told`, at least twice.", []),
        ("Cells that are taken off, so many.", ["says taken off", "says so many"]),
        ("Of two ports the second.", ["has a fronted Of"]),
        ("word " * 40, ["has 40 words in its first sentence"]),
    ),
)
def test_marks_of_a_text_of_python(text, marks):
    assert english.marks_of(text) == marks


def test_texts_of_python_are_docstrings_helps_and_refusals():
    source = '''"""A module."""


class A:
    """A class."""

    def f(self, x):
        """A function."""
        y = "no text"
        raise Refused(f"{x}: a refusal")


made = argparse.ArgumentParser("name", description="a description", epilog="an end")
made.add_argument("--list", help="a help" " in two parts")
sys.exit("an end of " + "the program")
'''
    assert [text for _, text in python_texts.texts_of(source)] == [
        "A module.",
        "A class.",
        "A function.",
        "`..`: a refusal",
        "a description",
        "an end",
        "a help in two parts",
        "an end of the program",
    ]


def test_a_budget_may_not_be_exceeded(monkeypatch):
    monkeypatch.setattr(english, "BUDGETS", {"a": 2})
    assert not english.budget_faults("a", 2)
    assert english.budget_faults("a", 3) == ["a: 3 marked texts, 2 are allowed (--list prints them)"]
