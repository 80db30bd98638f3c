"""Tables of a page: a click on a heading sorts, and each heading and word states on hovering what it means."""
from __future__ import annotations

from typing import Any, Callable, Collection, NamedTuple, Sequence

from .columns import Column, word_meaning
from .page import details, image, text
from .survey_data import Survey
from .tables import Report, texts_of

STYLE = """table { font-size: 12.5px }
td, th { padding: 2px 5px }
th { vertical-align: bottom; border-bottom: 1px solid #777 }
th button { all: unset; cursor: pointer; font-weight: bold }
th button:focus-visible { outline: 2px solid }
th[aria-sort=ascending] button::after { content: " \\2191" }
th[aria-sort=descending] button::after { content: " \\2193" }
td.number, th.number { text-align: right; font-variant-numeric: tabular-nums }
td.word { text-decoration: underline dotted #777; text-underline-offset: 3px }
tr > :first-child { position: sticky; left: 0; background: white }
tbody tr:hover > * { background: #f3f3f3 }
dt { font-weight: bold }
.tall th { position: sticky; top: 0; background: white }
.tall tr > th:first-child { z-index: 1 }
@media screen { .tall { max-height: 75vh; overflow-y: auto } }
"""
# sorts by a column: numbers by size, texts by their numbers and letters, what is not known last
SCRIPT = """<script>
const number = /^[+-]?[0-9.]+/, known = word => word !== "" && word !== "-";
function order(a, b) {
  const sizes = number.test(a) && number.test(b) ? parseFloat(a) - parseFloat(b) : 0;
  return sizes || a.localeCompare(b, "en", { numeric: true });
}
for (const table of document.querySelectorAll("table")) {
  const body = table.tBodies[0], heads = [...table.tHead.rows[0].cells];
  heads.forEach((head, place) => head.firstChild.onclick = () => {
    const sign = head.getAttribute("aria-sort") === "ascending" ? -1 : 1;
    heads.forEach(other => other.setAttribute("aria-sort", "none"));
    head.setAttribute("aria-sort", sign > 0 ? "ascending" : "descending");
    const word = row => row.cells[place].textContent.trim();
    body.append(...[...body.rows].sort((one, other) => {
      const a = word(one), b = word(other);
      return known(a) && known(b) ? sign * order(a, b) : known(b) - known(a);
    }));
  });
}
</script>"""


class Words(NamedTuple):
    """What a table's headings mean, what a word below a heading means (nothing for a number), and the headings whose
    columns are aligned to the left."""

    of_heading: Callable[[str], str]
    of_word: Callable[[str, str], str]
    left: Collection[str]


def table(label: str, rows: Sequence[dict[str, str]], words: Words, classes: str = "wide") -> str:
    """Returns the rows, of which there is at least one, as a table of this label that sorts."""
    kind = {name: "" if name in words.left else "number" for name in rows[0]}
    heads = "".join(
        f'<th scope="col" aria-sort="none" class="{kind[name]}" title="{text(words.of_heading(name))}">'
        f'<button>{text(name or "?")}</button></th>'
        for name in rows[0]
    )
    lines = [
        "<tr>" + "".join(cell_of(name, word, kind[name], words) for name, word in row.items()) + "</tr>" for row in rows
    ]
    body = "\n".join(lines)
    return (
        f'<div class="{classes}" tabindex="0" role="region" aria-label="{text(label)}">'
        f"<table><thead><tr>{heads}</tr></thead>\n<tbody>\n{body}\n</tbody></table></div>"
    )


def cell_of(name: str, word: str, kind: str, words: Words) -> str:
    says = words.of_word(name, word)
    classes = " ".join(filter(None, (kind, "word" if says and word != "-" else "")))
    shown = f"{name or '?'}: {words.of_heading(name)}" if not says else says
    return f'<td class="{classes}" title="{text(shown)}">{text(word)}</td>'


def words_of(rows: Sequence[dict[str, str]], words: Words) -> str:
    """Returns what the words of the table mean, for those who do not hover."""
    lines = []
    for name in rows[0]:
        meanings = {row[name]: words.of_word(name, row[name]) for row in rows if row[name] not in ("", "-", "?")}
        said = "; ".join(f"<i>{text(word)}</i> {text(says)}" for word, says in meanings.items() if says)
        lines.append(f"<dt>{text(name or '?')}<dd>{text(words.of_heading(name))}{': ' * bool(said)}{said}")
    return details("What the words say", f"<dl>{''.join(lines)}</dl>")


# ---- tables besides that of the cells


def report_parts(report: Report, survey: Survey) -> list[str]:
    """Returns a table besides that of the cells, with its heading and the line above it."""
    rows, words = texts_of(report.columns, report.rows, survey), report_words(report)
    parts = [f"<h2>{text(report.title)}</h2><p>{text(report.head)}."]
    if not rows:
        return [*parts, "<p>None."]
    parts += [image(figure, says) for says, figure in (report.draw() if report.draw else ())]
    return [*parts, table(report.title, rows, words, "wide tall"), words_of(rows, words)]


def report_words(report: Report) -> Words:
    """Returns what the words of such a table mean."""
    columns: dict[str, Column[Any, Survey]] = {column.heading or "": column for column in report.columns}

    def of_word(heading: str, word: str) -> str:
        if word == "-" or heading.endswith("cell"):
            return word_meaning("cell", word)
        return report.meanings.get(heading, {}).get(word, "")

    left = {heading for heading, column in columns.items() if column.is_left}
    return Words(lambda heading: columns[heading].meaning.replace("`", ""), of_word, left)
