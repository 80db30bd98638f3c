"""The list of examples of the command forms."""
import pytest

from lte_gate import form_list
from lte_gate.form_list import Example
from lte_gate.repository import Refused

LIST = """\
# a comment

[SOME] The forms of some.
cell: hits
nothing: make 7

[wide] Those at a rate.
wide: hits --rate 15.36
"""
SEQUENCES = [("hits", "--rate", "R"), ("hits",), ("make", "N")]


def test_groups_and_their_examples():
    some, wide = form_list.groups(LIST)
    assert (some.name, some.says, some.in_crate) == ("SOME", "The forms of some.", True)
    assert some.examples == [Example("hits", "cell"), Example("make 7", "nothing")]
    assert (wide.in_crate, wide.examples) == (False, [Example("hits --rate 15.36", "wide")])


@pytest.mark.parametrize("line", ["hits", "unknown: hits", "[SOME]", "[two words] Text."])
def test_other_lines_are_refused(line):
    with pytest.raises(Refused, match="forms.txt:9: neither"):
        form_list.groups(f"{LIST}{line}\n")


def test_source_has_the_groups_in_capitals():
    source = form_list.rust_of(form_list.groups(LIST))
    assert source.endswith(
        "\n/// The forms of some.\npub const SOME: [Form; 2] = "
        '[("hits", Input::Cell16), ("make 7", Input::Nothing)];\n'
    )


def test_examples_of_each_form_are_no_fault():
    rows = [one for group in form_list.groups(LIST) for one in group.examples]
    assert not list(form_list.faults_of(rows, SEQUENCES))


def test_missing_and_foreign_examples_are_faults():
    rows = [Example("make 7", "nothing"), Example("hits --rate 2.4", "cell")]
    assert list(form_list.faults_of(rows, SEQUENCES)) == [
        "forms.txt: no form of help: hits --rate 2.4",
        "forms.txt: no example: hits",
        "forms.txt: no example: hits --rate",
    ]


def test_forms_of_the_repository():
    assert not list(form_list.faults_of(form_list.examples(), sequences())) and len(form_list.examples()) > 100


def sequences():
    return [sequence for program in form_list.command_forms.programs() for sequence in program.sequences()]
