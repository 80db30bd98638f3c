"""docs/OUTPUTS.md and the descriptions of the JSON outputs' keys."""
import json

import pytest

from lte_gate import documents, outputs_page
from lte_gate.outputs_page import Schema
from lte_gate.repository import Refused

ROOT = json.loads(outputs_page.SCHEMA.read_text(encoding="utf-8"))
SMALL = {
    "$defs": {
        "identity": {"description": "the PCI", "type": "integer", "minimum": 0, "maximum": 503},
        "inner": {"description": "A pair.", "type": "object", "required": [], "properties": {}},
    }
}


def properties_in(form, place=""):
    """Yields each property below a form, with its place."""
    if isinstance(form, list):
        for i, one in enumerate(form):
            yield from properties_in(one, f"{place}/{i}")
    if isinstance(form, dict):
        if isinstance(form.get("properties"), dict) and "type" in form:
            yield from ((f"{place}/{key}", one) for key, one in form["properties"].items())
        for key, one in form.items():
            yield from properties_in(one, f"{place}/{key}")


def rows_of(properties, required=()):
    return list(Schema(SMALL).rows_of({"properties": properties, "required": list(required)}))


def test_each_property_has_a_description():
    found, schema = dict(properties_in(ROOT)), Schema(ROOT)
    assert len(found) > 400
    assert [place for place, form in found.items() if not schema.description_of(form)] == []


def test_each_description_is_one_line():
    texts = [one["description"] for _, one in properties_in(ROOT) if "description" in one]
    assert [text for text in texts if "\n" in text or text.endswith(".") or len(text.split()) > 60] == []


def test_page_is_that_of_the_schema():
    assert outputs_page.PAGE.read_text(encoding="utf-8") == outputs_page.page()


def test_each_output_and_each_object_has_a_section():
    assert set(documents.OUTPUTS) <= set(outputs_page.COMMANDS)
    schema, page = Schema(ROOT), outputs_page.page()
    named = {name for name in schema.definitions if schema.section_of({"$ref": f"#/$defs/{name}"})}
    missing = [name for name in named - set(outputs_page.COMMANDS) if f"\n### `{name}`\n" not in page]
    assert missing == []
    assert [name for name, command in outputs_page.COMMANDS.items() if f"\n## `{command}`\n" not in page] == []


def test_row_has_type_values_and_meaning():
    form = {"description": "level in dB", "type": ["number", "null"], "minimum": -5, "maximum": 1e12}
    assert rows_of({"level": form}, ["level"]) == ["| `level` | number or null | from -5 | level in dB |"]
    form = {"description": "a | b", "enum": ["x", "y", None]}
    assert rows_of({"key": form}) == ["| `key` | string or null, *optional* | `x`, `y`, `null` | a \\| b |"]


def test_reference_gives_type_values_and_description():
    null_or = {"oneOf": [{"type": "null"}, {"$ref": "#/$defs/identity"}]}
    assert rows_of({"other": null_or}, ["other"]) == ["| `other` | integer or null | 0 to 503 | the PCI |"]
    many = {"description": "pairs", "type": "array", "items": {"$ref": "#/$defs/inner"}, "minItems": 1}
    assert rows_of({"pairs": many}, ["pairs"]) == ["| `pairs` | array of [`inner`](#inner) | at least 1 item | pairs |"]


def test_inner_object_has_its_keys_after_its_own():
    inner = {"type": "object", "required": ["x"], "properties": {"x": {"description": "one", "type": "boolean"}}}
    rows = rows_of({"list": {"description": "all", "type": "array", "items": inner}}, ["list"])
    assert rows == ["| `list` | array of objects |  | all |", "| `list[].x` | Boolean |  | one |"]


def test_key_without_description_is_refused():
    with pytest.raises(Refused, match="key has no description"):
        rows_of({"key": {"type": "string"}})
