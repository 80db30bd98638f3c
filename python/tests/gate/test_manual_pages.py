"""Manual pages and completion: command forms from help, Markdown to man(7), and the tools' parsers."""
import pytest

from lte_gate import command_forms, completions, install, made, man_pages, roff
from lte_gate.install import missing_packages
from lte_gate.repository import Refused, TOP
from lte_tools import arguments

MOST_WORDS = 1_200  # of a manual page
HELP = """\
usage: lte_cli COMMAND [OPTION]..      (in order)

It reads a recording.
  search [LIST] [FORM]..       the list
  check [LIST] [--load N | --quiet]
                               each certificate
                               that is accepted

LIST: which cells
  --ports 2 | --ports 4        two or four ports
  --all                        every list (search)

FORM, in order
  --json                       one line (not check)
  --format cu8                 bytes

Others
  help, --help                 this text

Example: lte_cli search"""


def test_forms_of_help():
    program = command_forms.program_of(HELP)
    assert (program.name, program.usage) == ("lte_cli", "lte_cli COMMAND [OPTION]..")
    assert [form.command for form in program.forms] == ["search", "check", "help"]
    search, check, shown = map(program.sequences_of, program.forms)
    assert len(search) == 16 and ("search", "--ports", "4", "--json", "--format", "cu8") in search
    assert search[-1] == ("search",) and ("search", "--all") in search
    assert len(check) == 9 and ("check", "--ports", "2", "--load", "N") in check
    assert shown == [("help",), ("--help",)]
    assert program.forms[1].says == "each certificate that is accepted"
    assert [option.words for option in program.groups[0].options] == ["--ports 2 | --ports 4", "--all"]


def test_table_of_columns():
    page = "# Files\n\n| Column | Meaning |\n|---|---|\n| `old` | gone |\n\n| Other | Table |\n"
    made_now = made.with_columns(page)
    assert "old" not in made_now and "| `PCI` |" in made_now
    assert made_now.startswith("# Files\n\n| Column |") and made_now.endswith("|\n\n| Other | Table |\n")
    assert made.with_columns(made_now) == made_now
    with pytest.raises(Refused, match="no table of columns"):
        made.with_columns("# Files\n")


def test_page_of_forms():
    page = man_pages.of_program(command_forms.program_of(HELP))
    assert ".TH LTE_CLI 1" in page and r"\fB\-\-ports 2 | \-\-ports 4\fR" in page
    assert ".SH EXIT STATUS" in page and ".SH DESCRIPTION" in page and ".SH LIST" in page


@pytest.mark.parametrize("text", ("", "no usage\n  help  x", "usage: a B\n  help", "usage: a B\n   help  x"))
def test_text_that_is_not_help(text):
    with pytest.raises((Refused, ValueError)):
        command_forms.program_of(text)


@pytest.mark.parametrize(
    "text, lines",
    (
        ("a `b-c` d", [r"a \fBb\-c\fR d"]),
        (".dot", [r"\&.dot"]),
        ("1-2, --gain-by and -o", [r"1-2, \-\-gain\-by and \-o"]),
        ("- one\n- two", [r".IP \(bu 2", "one", r".IP \(bu 2", "two"]),
        ("1. one", [".IP 1. 4", "one"]),
        ("    code 'x'", [".RS 4", ".EX", r"code \(aqx\(aq", ".EE", ".RE"]),
        ("### A `head`", [".SS A head"]),
        ("| A | B |\n|---|---|\n| `x` | text |", [".TP", r"\fBx\fR", "text"]),
        ("| A | B | C |\n|---|---|---|\n| x | y | z |", [".TP", "x", "B: y; C: z"]),
        ("one\n\ntwo", ["one", ".PP", "two"]),
        ("**bold** \\", [r"\fBbold\fR \e"]),
    ),
)
def test_markdown(text, lines):
    assert roff.of_markdown(text) == lines


def test_both_programs_and_their_version():
    assert [program.name for program in command_forms.programs()] == ["lte_cli", "lte_tune"]
    assert command_forms.version() == install.project()["version"] == arguments.VERSION


def test_completion_of_a_program():
    text = completions.program_text(completions.BASH_PROGRAM, completions.BASH_NUMBER, command_forms.program_of(HELP))
    assert "search --ports 2 --json\n" in text and "complete -o nosort -F _lte_cli lte_cli" in text


@pytest.mark.skipif(bool(missing_packages()), reason="no numpy, scipy or matplotlib")
def test_files_are_those_made_now():
    files = made.made()
    assert not list(made.different(files))
    assert [path.name for path, text in files.items() if path.suffix == ".1" and len(text.split()) > MOST_WORDS] == []
    assert TOP / "scripts/install/man/lte_pcap.1" in files
