"""Pages of Markdown, of the few forms that docs/ has, as man(7) macros."""
import re
import textwrap

WIDTH = 78
SPANS = re.compile(r"`([^`]+)`|\*\*([^*]+)\*\*")
ITEM = re.compile(r"(-|\d+\.) ")
OPTION = re.compile(r"(?<![\w-])--?[A-Za-z][\w-]*")


def plain(text):
    """Returns a text whose backslashes are not escapes, and whose options can be copied from the page."""
    return OPTION.sub(lambda found: found[0].replace("-", r"\-"), text.replace("\\", r"\e"))


def exact(text):
    """Returns a text whose hyphens, quotes and accents stay ASCII, so that it can be copied from the page."""
    text = text.replace("\\", r"\e")
    for character, escape in (("-", r"\-"), ("'", r"\(aq"), ("`", r"\(ga"), ("^", r"\(ha"), ("~", r"\(ti")):
        text = text.replace(character, escape)
    return text


def bold(words):
    return rf"\fB{exact(words)}\fR"


def spans(text):
    """Returns a text in which code and marked words are bold."""
    parts, end = [], 0
    for span in SPANS.finditer(text):
        parts += [plain(text[end : span.start()]), bold(span[1]) if span[1] else rf"\fB{plain(span[2])}\fR"]
        end = span.end()
    return "".join(parts) + plain(text[end:])


def safe(line):
    """Returns a line that does not begin a macro."""
    return rf"\&{line}" if line.startswith((".", "'")) else line


def filled(text):
    """Returns the lines of a paragraph."""
    lines = textwrap.wrap(spans(text), WIDTH, break_long_words=False, break_on_hyphens=False)
    return [safe(line) for line in lines]


def labelled(label, text):
    """Returns the lines of a term and its text."""
    return [".TP", safe(label), *filled(text)]


def code(lines, is_first=False):
    """Lines that stay as they are."""
    return [*([] if is_first else [".sp"]), ".RS 4", ".EX", *(safe(exact(line)) for line in lines), ".EE", ".RE"]


def blocks(text):
    """Returns the blocks of a text: lines of code, of a list or of a table together, else one line."""
    kinds = (("code", "    "), ("table", "|"), ("head", "#"))
    found = []
    for line in text.splitlines():
        kind = next((kind for kind, begin in kinds if line.startswith(begin)), "item" if ITEM.match(line) else "text")
        if not line:
            found.append(("", []))
        elif found and found[-1][0] == kind and kind in ("code", "table", "item"):
            found[-1][1].append(line)
        else:
            found.append((kind, [line]))
    return [(kind, lines) for kind, lines in found if kind]


def table(lines):
    """Returns the rows of a table, each below its first cell; beyond two columns the others have headings."""
    heads, *rows = [[cell.strip() for cell in line.strip("|").split("|")] for line in lines if "|---" not in line]
    page = []
    for first, *others in rows:
        text = "; ".join(f"{head}: {cell}" for head, cell in zip(heads[1:], others)) if others[1:] else others[0]
        page += labelled(spans(first), text)
    return page


def items(lines):
    page = []
    for line in lines:
        mark, text = ITEM.match(line)[1], ITEM.sub("", line, count=1)
        page += [r".IP \(bu 2" if mark == "-" else f".IP {mark} 4", *filled(text)]
    return page


def of_markdown(text):
    """Returns the macros of a text; headings below its own are subsections."""
    page, is_first = [], True
    for kind, lines in blocks(text):
        if kind == "head":
            page += [f".SS {exact(lines[0].lstrip('# ').replace('`', ''))}"]
        elif kind == "code":
            page += code((line[4:] for line in lines), is_first)
        elif kind == "table":
            page += table(lines)
        elif kind == "item":
            page += items(lines)
        else:
            page += ([] if is_first else [".PP"]) + filled(lines[0])
        is_first = kind == "head"
    return page
