"""Pages of HTML that open without a network: pictures and what was said stand in them.

Debian: python3-matplotlib.
"""
from __future__ import annotations

import base64
import html
import io
import json
import re
from typing import Any, Sequence

from matplotlib import pyplot


def saved(figure: Any, form: str, dpi: int = 100) -> bytes:
    """Returns the figure's bytes, without the time at which it was made; of .svg without what only makes it longer."""
    out = io.BytesIO()
    figure.savefig(out, format=form, dpi=dpi, metadata={"Date": None} if form == "svg" else {"Software": None})
    pyplot.close(figure)
    data = out.getvalue()
    if form == "svg":
        data = re.sub(rb' (d|x|y)="[^"]*"', lambda part: re.sub(rb"(\.\d)\d+", rb"\1", part[0]), data)
        data = re.sub(rb"<!--.*?-->|\n +(?=<)", b"", data, flags=re.S).replace(b"DejaVuSans-", b"g")
    return data


PAGE = """<!doctype html>
<html lang="en"><head><meta charset="utf-8"><meta name="viewport" content="width=device-width, initial-scale=1">
<title>{title}</title>
<style>
body {{ font: 14px/1.4 sans-serif; max-width: 1300px; margin: 1em auto; padding: 0 10px; background: white; color: black }}
h1, pre, dd {{ overflow-wrap: anywhere }}
h1 {{ font-size: 1.5em }}
h2 {{ font-size: 1.15em; margin-top: 1.6em }}
pre {{ white-space: pre-wrap }}
.wide {{ overflow-x: auto }}
.wide img {{ display: block; width: 100% }}
table {{ border-collapse: collapse }}
td, th {{ padding: 2px 9px; text-align: left; border-bottom: 1px solid #ddd; white-space: nowrap }}
{style}</style></head>
<body><h1>{title}</h1>
{body}
</body></html>
"""


def page(title: str, parts: Sequence[str], style: str = "") -> bytes:
    """Returns a page of these parts."""
    return PAGE.format(title=text(title), body="\n".join(parts), style=style).encode()


def text(words: object) -> str:
    """Returns words as HTML has them, also those of a file's name that are no text."""
    return html.escape(str(words).encode(errors="replace").decode())


def image(figure: Any, says: str, is_dense: bool = False) -> str:
    """Returns a figure in the page, by points where lines would be too many; wider than the window it is pushed sideways."""
    wide = 100 * figure.get_size_inches()[0]
    kind, data = ("png", saved(figure, "png", 200)) if is_dense else ("svg+xml", saved(figure, "svg"))
    keys = f'style="max-width: {wide:.0f}px; min-width: {0.8 * wide:.0f}px" alt="{text(says)}"'
    return f'<div class="wide"><img {keys} src="data:image/{kind};base64,{base64.b64encode(data).decode()}"></div>'


def details(name: str, value: object) -> str:
    """Returns a part that is shown when it is opened: a text, or a program's output."""
    shown = value if isinstance(value, str) else f"<pre>{text(json.dumps(value, indent=1, sort_keys=True))}</pre>"
    return f"<details><summary>{text(name)}</summary>{shown}</details>"
