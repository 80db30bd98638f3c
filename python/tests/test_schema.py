"""The names in report.schema.json against the names in the definitions of the program's outputs."""
import json
import re
from typing import Any

import pytest

from tests.conftest import TOP

SCHEMA: dict[str, Any] = json.loads((TOP / "python/lte_tools/report.schema.json").read_text(encoding="utf-8"))["$defs"]


def names_of(file: str, definition: str) -> set[str]:
    """Returns the names of the fields that a definition of `crates/` lists."""
    text = (TOP / "crates" / file).read_text(encoding="utf-8")
    equation = re.search(rf"^{definition} .*=\n((?:    .*\n)+)", text, re.MULTILINE)
    assert equation, definition
    return set(re.findall(r'\(codes "(\w+)",', equation[1]))


def reasons() -> dict[str, dict[str, Any]]:
    """Returns the definition of each reason's object, by the first rule that it allows."""
    rules = ((form, form["properties"]["rule"]) for form in SCHEMA["why_reason"]["oneOf"])
    return {rule.get("const") or rule["enum"][0]: form for form, rule in rules}


def is_closed_with(form: dict[str, Any], names: set[str]) -> bool:
    """Whether an object has exactly these names, each of them required."""
    return not form["additionalProperties"] and set(form["required"]) == names == set(form["properties"])


def test_ids_deep():
    assert is_closed_with(SCHEMA["ids_deep"], names_of("accumulated_report/specs/Json.antt", "list_fields"))
    assert is_closed_with(SCHEMA["detected"], names_of("accumulated_report/specs/Fields.antt", "cell_fields"))


def test_why():
    assert is_closed_with(SCHEMA["why"], names_of("reason_report/specs/Json.antt", "why_fields"))


REASONS = [
    ("listed", "listed_fields"),
    ("no-hit", "strongest_fields"),
    ("no-room", "room_fields"),
    ("other-identity", "other_fields"),
    ("cost", "unread_fields"),
]


@pytest.mark.parametrize("rule, definition", REASONS)
def test_reason_of_why(rule: str, definition: str):
    names = names_of("reason_report/specs/Fields.antt", definition)
    assert is_closed_with(reasons()[rule], names | {"rule"})


def test_each_reason_is_compared():
    assert set(reasons()) == {rule for rule, _ in REASONS}


def test_evidence():
    place, numbers = (names_of("report_parts/specs/Numbers.antt", name) for name in ("place_in", "numbers_in"))
    assert is_closed_with(SCHEMA["support"], place | numbers | {"channel", "mib", "room", "sib1_block", "values"})


def test_evidence_of_all_lists():
    assert is_closed_with(SCHEMA["supported"], set(SCHEMA["support"]["required"]) | set(SCHEMA["ruled"]["required"]))
