"""The page docs/OUTPUTS.md, made from python/lte_tools/report.schema.json: a section for each JSON output, then one for
each object in them, with a row for each key.
"""
import json

from .repository import TOP, Refused

SCHEMA = TOP / "python/lte_tools/report.schema.json"
PAGE = TOP / "docs/OUTPUTS.md"
COMMANDS = {
    "hits": "lte_cli hits --json",
    "ids": "lte_cli ids --json",
    "ids_deep": "lte_cli ids --deep --json",
    "search": "lte_cli search --json",
    "search_all": "lte_cli search --all --json",
    "search_cancel": "lte_cli search --cancel --json",
    "evidence": "lte_cli evidence --json",
    "evidence_all": "lte_cli evidence --all --json",
    "why": "lte_cli why PCI --json",
    "tell": "lte_tune tell --json",
    "survey": "lte_survey --json",
    "diff": "lte_diff --json",
    "compare": "lte_compare --json",
    "bundle": "lte_compare --bundle FILE.tar",
}  # by definition of the schema
HEAD = """# Outputs

This page lists the keys of each JSON output. It is made from `python/lte_tools/report.schema.json` by `scripts/gate.sh made --write`: change the descriptions there. `docs/FORMATS.md` describes the text outputs, CSV and examples, and `docs/GLOSSARY.md` lists the keys that have more than one meaning.

A key is always present, except those marked *optional*. `[]` after a key stands for each item of its array. "Or null" means that the value can be null. Ranges are those that the schema accepts; its bounds for times, rates and frequencies that only protect readers are left out.
"""
TABLE = "| Key | Type | Values | Meaning |\n|---|---|---|---|\n"
KINDS = {"boolean": "Boolean"}
NULL = {"type": "null"}
PROTECTING = 1e9  # a bound of a float from here on only limits what a reader accepts


class Schema:
    """The definitions of a schema, and the questions that the page asks of a form in it."""

    def __init__(self, root):
        self.root, self.definitions = root, root["$defs"]

    def referred(self, reference):
        """Returns the form that a reference names."""
        found = self.root
        for part in reference.removeprefix("#/").split("/"):
            found = found[part]
        return found

    def description_of(self, form):
        """Returns a form's own description, else the description of the form that it refers to, else None."""
        if "description" in form:
            return form["description"]
        if "$ref" in form:
            return self.description_of(self.referred(form["$ref"]))
        others = [one for one in form.get("oneOf", ()) if one != NULL]
        return self.description_of(others[0]) if len(others) == 1 else None

    def section_of(self, form):
        """Returns the name of the definition that a form refers to, if that has a section of its own; else None."""
        name = form.get("$ref", "").removeprefix("#/$defs/")
        if name not in self.definitions:
            return None
        target = self.definitions[name]
        return name if target.get("type") == "object" or "oneOf" in target else None

    def plain(self, form):
        """Returns a form with its references followed, except those to a definition with a section."""
        while "$ref" in form and not self.section_of(form):
            form = self.referred(form["$ref"])
        return form

    def type_of(self, form):
        """Returns the words for the type of a form."""
        form = self.plain(form)
        if name := self.section_of(form):
            return link(name)
        if "oneOf" in form:
            return " or ".join(sorted(map(self.type_of, form["oneOf"]), key=lambda word: word == "null"))
        if form.get("type") == "array" or form.get("type") == ["array", "null"]:
            low, high = form.get("minItems"), form.get("maxItems")
            item = plural(self.type_of(form["prefixItems"][0] if "prefixItems" in form else form["items"]))
            return f"array of {f'{low} ' if low == high and low else ''}{item}{' or null' * (form['type'] != 'array')}"
        kinds = form["type"] if "type" in form else kinds_of(form.get("enum", [form.get("const")]))
        kinds = [kinds] if isinstance(kinds, str) else kinds
        return " or ".join(KINDS.get(kind, kind) for kind in kinds)

    def values_of(self, form):
        """Returns the words for the values that a form accepts, or nothing."""
        form = self.plain(form)
        if "oneOf" in form:
            return "; ".join(filter(None, map(self.values_of, form["oneOf"])))
        if "enum" in form or "const" in form:
            listed = form["enum"] if "enum" in form else [form["const"]]
            return ", ".join(f"`{value(one)}`" for one in listed)
        if "examples" in form:
            return f"as `{form['examples'][0]}`"
        if "pattern" in form:
            return f"`{cell(form['pattern'])}`"
        if "items" in form or "prefixItems" in form:
            return "; ".join(filter(None, [items_of(form), *self.values_of_items(form)]))
        return range_of(form)

    def values_of_items(self, form):
        """Yields the words for the values of an array's items."""
        for one in form.get("prefixItems", ()):
            yield self.values_of(one)
        if "items" in form and not self.section_of(form["items"]):
            yield self.values_of(form["items"])

    def rows_of(self, form, prefix=""):
        """Yields a row of a table for each key of an object, and for each key of objects in it without a section."""
        for key, inner in sorted(form["properties"].items()):
            text = self.description_of(inner)
            if not text:
                raise Refused(f"{SCHEMA.relative_to(TOP)}: {prefix}{key} has no description")
            optional = "" if key in form["required"] else ", *optional*"
            yield f"| `{prefix}{key}` | {self.type_of(inner)}{optional} | {self.values_of(inner)} | {cell(text)} |"
            found, mark = inner_object(inner)
            if found:
                yield from self.rows_of(found, f"{prefix}{key}{mark}.")

    def table_of(self, form):
        return TABLE + "\n".join(self.rows_of(form)) + "\n"

    def tables_of(self, name):
        """Returns the tables of a definition: one, or one for each form of its objects."""
        form = self.definitions[name]
        return "\n".join(map(self.table_of, form["oneOf"] if "oneOf" in form else [form]))

    def names_in(self, form):
        """Yields the names of the definitions with a section that a form refers to, in the order of its keys."""
        if name := self.section_of(form):
            yield name
        elif "$ref" in form:
            yield from self.names_in(self.referred(form["$ref"]))
        for part in (*form.get("oneOf", ()), *form.get("prefixItems", ()), form.get("items")):
            yield from self.names_in(part) if part else ()
        for _, inner in sorted(form.get("properties", {}).items()):
            yield from self.names_in(inner)


def link(name):
    return f"[`{name}`](#{name})"


def plural(kind):
    """Returns the plural of a type's word; a link stays."""
    if kind.startswith("array"):
        return f"arrays{kind.removeprefix('array')}"
    return kind if kind.startswith("[") or " " in kind else f"{kind}s"


def kinds_of(values):
    """Returns the types of listed values, null last."""
    kinds = {"null" if one is None else "integer" if isinstance(one, int) else "string" for one in values}
    return sorted(kinds, key=lambda kind: kind == "null")


def inner_object(form):
    """Returns the object that a form has without a reference, and `[]` if it is the item of an array; else None."""
    if "properties" in form:
        return form, ""
    if "items" in form and "properties" in form["items"]:
        return form["items"], "[]"
    found = [one for one in form.get("oneOf", ()) if "properties" in one]
    return (found[0], "") if found else (None, "")


def value(one):
    return one if isinstance(one, str) else json.dumps(one)


def cell(text):
    """Returns a text for a cell of a table."""
    return text.replace("|", "\\|")


def number(one):
    return f"{int(one):,}" if one == int(one) else str(one)


def items_of(form):
    """Returns the words for the number of an array's items, if that is bounded and not in its type."""
    low, high = form.get("minItems"), form.get("maxItems")
    if low == high:
        return ""
    if high is None:
        return f"at least {number(low)} item{'s' * (low > 1)}"
    return f"{number(low)} to {number(high)} items" if low else f"at most {number(high)} items"


def range_of(form):
    """Returns the words for the range of a number, without bounds that only protect a reader; or nothing."""
    low, above, high = (form.get(key) for key in ("minimum", "exclusiveMinimum", "maximum"))
    low, high = (None if isinstance(one, float) and abs(one) >= PROTECTING else one for one in (low, high))
    if low is None and above is None:
        return "" if high is None else f"at most {number(high)}"
    first = number(low) if above is None else f"above {number(above)}"
    if high is None:
        return f"from {first}" if above is None else first
    return f"{first} to {number(high)}" if above is None else f"{first}, at most {number(high)}"


def output_of(schema, name):
    """Returns the section of an output."""
    form = schema.definitions[name]
    parts = [f"\n## `{COMMANDS[name]}`\n", schema.description_of(form) + "\n"]
    if form["type"] == "array":
        return "\n".join([*parts, f"An array of {schema.type_of(form['items'])}.\n"])
    return "\n".join([*parts, schema.table_of(form)])


def objects_of(schema):
    """Returns the names of the definitions with a section of their own, in the order in which outputs lead to them."""
    waiting, found = [schema.definitions[name] for name in COMMANDS], []
    while waiting:
        form = waiting.pop(0)
        names = [name for name in dict.fromkeys(schema.names_in(form)) if name not in (*found, *COMMANDS)]
        found += names
        waiting += [schema.definitions[name] for name in names]
    return found


def object_of(schema, name):
    """Returns the section of an object."""
    form = schema.definitions[name]
    return f"\n### `{name}`\n\n{schema.description_of(form)}\n\n{schema.tables_of(name)}"


def page():
    """Returns the page."""
    schema = Schema(json.loads(SCHEMA.read_text(encoding="utf-8")))
    outputs = [output_of(schema, name) for name in COMMANDS]
    objects = [object_of(schema, name) for name in objects_of(schema)]
    return "".join([HEAD, *outputs, "\n## Objects\n", *objects])
