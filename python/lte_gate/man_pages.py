"""The manual pages: for lte_cli and lte_tune from their forms and docs/FORMATS.md, for the tools from their parsers,
their texts and the same page. Their date is the first day of the month of CHANGELOG.md's newest part.
"""
import re
import time

from . import roff, tool_parsers
from .command_forms import version
from .repository import TOP, Refused

SAYS = {
    "lte_cli": "list the LTE cells in an I/Q recording, and the reason for each",
    "lte_tune": "estimate and correct the frequency offset of an LTE recording",
    "lte_survey": "list the LTE cells in a radio's I/Q file",
    "lte_picture": "draw what an LTE receiver sees in a recording",
    "lte_diff": "compare two surveys of LTE cells",
    "lte_compare": "compare our list of LTE cells with another receiver's",
    "lte_pcap": "write MIB and SIB1 of LTE cells as packets for Wireshark",
    "lte_convert": "convert a radio's I/Q file to a recording for lte_cli",
    "lte_check_certificate": "check certificates of lte_cli, independently",
}
# the paragraphs of a program's description
ABOUT = {
    "lte_cli": (
        "Lists the cells in a recording of an LTE FDD downlink: physical cell identity (PCI), frame number, MIB and SIB1, "
        "from 1.4 to 20 MHz, with 1, 2 or 4 antenna ports. Each step is a short written rule (`docs/DEFINITION.md`), and "
        "the program is proved to follow the rules. `why` names the rule by which a cell is listed or not.",
        "A recording is read from standard input, not from a file that an argument names. It has no header: I before Q, "
        "16-bit or 8-bit numbers, 30 ms to one second, with the cell at frequency 0. `lte_convert` makes recordings of "
        "other files, `lte_tune` corrects a frequency offset, and `lte_survey` does both, for files of any length.",
    ),
    "lte_tune": (
        "Estimates the frequency offset of a recording, up to 60 kHz either way, and corrects it, so that `lte_cli` finds "
        "the cells. The mean of the samples is subtracted too. A phase step is 117.1875 Hz.",
    ),
}
# the sections of docs/FORMATS.md that a page has, each with its heading there
STATUS = ("Exit codes", "EXIT STATUS")
SECTIONS = {
    "lte_cli": (STATUS,),
    "lte_tune": (("`lte_tune`", "OUTPUT"), STATUS),
    "lte_diff": (("Two surveys", "OUTPUT"),),
    "lte_compare": (("Two receivers", "OUTPUT"),),
}
EXAMPLES = {
    "lte_cli": [
        "lte_cli search < recording.ci16",
        "lte_cli search --all --json --format cu8 < recording.cu8",
        "lte_cli search --rate 15.36 < recording_at_15_36.ci16",
        "lte_tune apply < recording.ci16 | lte_cli search",
    ],
    "lte_tune": ["lte_tune tell < recording.ci16", "lte_tune apply --format cu8 < recording.cu8 | lte_cli search"],
    "lte_survey": [
        "lte_survey drive.cu8 --rate 2.4e6 --carrier 796e6",
        "lte_survey drive.sigmf-meta --track drive.gpx --html drive.html --geojson drive.geojson",
        "rtl_sdr -f 796e6 -s 1.92e6 - | lte_survey - --form u8 --follow",
        "lte_survey drive.json --plan sites.csv --clashes 6 --coverage -100,5",
        "lte_survey drive.cu8 --rate 2.4e6 --carrier 796e6 --resume drive.jsonl --json",
    ],
    "lte_picture": ["lte_picture recording.ci16 -o picture.png", "lte_picture survey.json -o map.png"],
    "lte_diff": [
        "lte_diff before.json after.json",
        "lte_diff before.json after.json --picture changes.png --square 100",
    ],
    "lte_compare": [
        "lte_compare drive.json scanner.csv",
        "lte_compare drive.json scanner.csv --columns pci=Cell,level=Power --fields identity,level",
        "cell_search | lte_compare recording.cu8 - --rate 2.4e6 --as srsran",
    ],
    "lte_pcap": ["lte_cli evidence --json < recording.ci16 | lte_pcap -o packets.pcap"],
    "lte_convert": ["lte_convert u8 2.4e6 < drive.cu8 > recording.ci16"],
    "lte_check_certificate": ["lte_cli certify < recording.ci16 | lte_check_certificate"],
}
ASKS_PROGRAMS = ("lte_survey", "lte_picture", "lte_compare")
# exit status and meaning, of tools whose own are others than STATUSES
STATUSES = {
    "0": "the result was written",
    "1": "there is no result; a line on standard error says why",
    "2": "the arguments are wrong; nothing was read",
}
OWN_STATUSES = {
    "lte_compare": {
        "0": "the lists agree, or a bundle holds",
        "1": "the lists differ, or a bundle does not hold",
        "2": "there is no result; a line on standard error says why",
    }
}
PLACES = (
    "Files below `docs/` and `scripts/examples/` are installed in `../share/doc/lte_cli`, relative to these programs, for "
    "example in `/usr/share/doc/lte_cli/docs`. Sections in quotation marks that are not on this page are in "
    "`docs/FORMATS.md` there."
)
FILES = (
    ("docs/FORMATS.md", "all inputs and outputs, byte by byte, with the keys of JSON and CSV"),
    ("docs/TUTORIAL.md", "from a file to a table, a question and an answer"),
    ("docs/TROUBLESHOOTING.md", "causes of missing cells, refusals and other symptoms"),
    ("docs/RECORDINGS.md", "recipes for other files, and what was observed"),
    ("docs/DEFINITION.md", "the rules by which a cell is listed"),
    ("docs/GLOSSARY.md", "the words of these pages"),
)


def day():
    """Returns the first day of the month of the newest part of the changes."""
    text = (TOP / "CHANGELOG.md").read_text(encoding="utf-8")
    for head in re.findall(r"^## (?:.*: )?(?:\d+ )?(\w+ \d{4})$", text, re.M):
        try:
            return time.strftime("%Y-%m-%d", time.strptime(head, "%B %Y"))
        except ValueError:
            continue
    raise Refused("CHANGELOG.md: no heading with a month")


def head(name):
    """Returns the lines at the head of a page."""
    return [
        r".\" Made by scripts/gate.sh made --write: change its sources, not this file.",
        f'.TH {name.upper()} 1 {day()} "lte_cli {version()}" "User Commands"',
        ".nh",
        ".ad l",
        ".SH NAME",
        rf"{name} \- {roff.plain(SAYS[name])}",
    ]


def foot(name):
    """Returns the sections at the end of a page."""
    others = [f"{roff.bold(other)}(1)" for other in SAYS if other != name]
    return [
        ".SH EXAMPLES",
        ".EX",
        *map(roff.exact, EXAMPLES[name]),
        ".EE",
        ".SH FILES",
        *roff.filled(PLACES),
        *(line for name, says in FILES for line in roff.labelled(roff.bold(name), says)),
        ".SH SEE ALSO",
        *(f"{other}{',' * (other != others[-1])}" for other in others),
    ]


def sections(name):
    """Returns a page's sections of docs/FORMATS.md, except the text of help, which the page has as its forms."""
    text = (TOP / "docs/FORMATS.md").read_text(encoding="utf-8")
    parts = dict(re.findall(r"^## (.+?)\n(.*?)(?=^## |\Z)", text, re.M | re.S))
    page = []
    for title, name_here in SECTIONS.get(name, ()):
        if title not in parts:
            raise Refused(f"docs/FORMATS.md: no section {title}")
        part = re.sub(r"^    \$ lte_\w+ help\n(?:    .*\n|\n(?=    (?!\$)))+\n", "", parts[title], flags=re.M)
        page += [f".SH {name_here}", *roff.of_markdown(tool_parsers.installed(part))]
    return page


def words_of(text):
    """Returns a form's words, with those that stand for others in italics."""
    parts = re.split(r"\b(INPUT OPTION|OPTION|LIST|COMMAND|INPUT|OUTPUT|PCI|[NMR])\b", text)
    return "".join(rf"\fI{part}\fR" if i % 2 else roff.bold(part) if part else "" for i, part in enumerate(parts))


def of_program(program):
    """Returns the page of a program."""
    page = [*head(program.name), ".SH SYNOPSIS", words_of(program.usage)]
    for i, part in enumerate(ABOUT[program.name]):
        page += [".PP" if i else ".SH DESCRIPTION", *roff.filled(part)]
    page.append(".SH COMMANDS")
    for form in program.forms:
        page += roff.labelled(words_of(form.words), form.says)
    for group in program.groups:
        page += [f".SH {group.name}", roff.plain(f"{group.head[len(group.name) + 1 :].strip()}.")]
        for option in group.options:
            page += roff.labelled(words_of(option.words), option.says)
    return "\n".join([*page, *sections(program.name), *foot(program.name)]) + "\n"


def option_text(action):
    """Returns an option with its value."""
    if not action.option_strings:
        return place_text(action)
    value = tool_parsers.value_of(action)
    shown = roff.bold(value) if action.choices else rf"\fI{value}\fR"
    return ", ".join(map(roff.bold, action.option_strings)) + (f" {shown}" if value else "")


def place_text(action):
    """Returns a positional argument, in brackets if it is optional, with dots if there may be several."""
    name = rf"\fI{tool_parsers.value_of(action)}\fR" + r"...\&" * (action.nargs == "+")
    return f"[{name}]" if action.nargs == "?" else name


def of_tool(tool):
    """Returns the page of a tool."""
    needed = "".join(f" {option_text(action)}" for action in tool.options if action.required)
    places = "".join(f" {place_text(action)}" for action in tool.places)
    further = r" [\fIOPTION\fR]...\&" if len(tool.options) > 1 else ""
    page = [*head(tool.name), ".SH SYNOPSIS", f"{roff.bold(tool.name)}{places}{needed}{further}"]
    for i, part in enumerate(tool.about()):
        page += [".PP" if i else ".SH DESCRIPTION", *roff.filled(part)]
    page.append(".SH OPTIONS")
    for action in [*tool.places, *tool.options]:
        if action.help or action.option_strings:
            page += roff.labelled(option_text(action), action.help or "")
    return "\n".join([*page, *sections(tool.name), *ends_of(tool), *foot(tool.name)]) + "\n"


def ends_of(tool):
    """Returns the sections on a tool's exit status and environment."""
    page = [".SH EXIT STATUS"]
    for status, meaning in OWN_STATUSES.get(tool.name, STATUSES).items():
        page += roff.labelled(status, meaning)
    if tool.name in ASKS_PROGRAMS:
        page += [
            ".SH ENVIRONMENT",
            *roff.labelled(
                f"{roff.bold('LTE_CLI')}, {roff.bold('LTE_TUNE')}",
                f"the programs that `{tool.name}` runs, instead of those that are installed next to it",
            ),
        ]
    return page


def pages(programs, scripts):
    """Returns each page by its name."""
    found = {f"{program.name}.1": of_program(program) for program in programs}
    return found | {f"{tool.name}.1": of_tool(tool) for tool in scripts}
