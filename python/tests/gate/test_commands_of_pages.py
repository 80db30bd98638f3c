"""The commands that pages print: each is a form of its program, or has options that its tool takes."""
import re
import shlex

import pytest

from lte_gate import command_forms, documents, tool_parsers
from lte_gate.install import missing_packages

PROGRAMS = {program.name: program for program in command_forms.programs()}
STANDS_FOR = command_forms.NUMBERS | {name: "|".join(words) for name, words in command_forms.CHOICES.items()}
SPAN = re.compile(r"`([^`\n]+)`")


def pages():
    """Returns the pages for readers of this version; CHANGELOG names former commands."""
    return [page for page in documents.pages() if page.name not in documents.HISTORY]


def pieces(page):
    """Yields the lines of a page's blocks, and its text in backquotes, without outputs."""
    for line in page.read_text(encoding="utf-8").splitlines():
        if line.startswith("    "):
            yield re.sub(r"\s# .*", "", line.strip().removeprefix("$ "))
        else:
            yield from (span.replace("\\|", "|") for span in SPAN.findall(line))


def calls(names):
    """Yields a page's name, a command and its arguments up to a redirection, for each call of these commands."""
    for page in pages():
        for piece in pieces(page):
            for part in re.split(r"\s*(?:[|;&]+|[<>])\s*", piece):
                words = part.split()
                while words and re.fullmatch(r"[A-Z_]+=\S*", words[0]):
                    words.pop(0)
                if words[1:] and words[0] in names:
                    yield page.name, words[0], words[1:]


def is_meant(words, sequence):
    """Whether a page's words are a form's, or stand for them: a name in capitals, a number."""
    return len(words) == len(sequence) and all(
        word == one or one in STANDS_FOR and (word == one or re.fullmatch(STANDS_FOR[one], word))
        for word, one in zip(words, sequence)
    )


def is_front(words, sequence):
    """Whether words are those with which a form begins, as pages name a part of a command."""
    return is_meant(words, sequence[: len(words)])


def is_command(words):
    """Whether words after a program's name are a command, and not an output or a list of names."""
    return words[0] not in (*PROGRAMS, "..", "COMMAND") and not words[0][0].isdigit()


def test_programs_take_each_command():
    found = [(page, name, words) for page, name, words in calls(PROGRAMS) if is_command(words)]
    forms = {name: program.sequences() for name, program in PROGRAMS.items()}
    assert [one for one in found if not any(is_front(one[2], form) for form in forms[one[1]])] == []
    assert len(found) > 100


@pytest.mark.skipif(bool(missing_packages()), reason="no numpy, scipy or matplotlib")
def test_tools_take_each_option():
    tools = {tool.name: tool for tool in tool_parsers.tools()}
    found = list(calls(tools))
    options = {name: {word for one in tool.options for word in one.option_strings} for name, tool in tools.items()}
    wrong = [
        (page, name, word)
        for page, name, words in found
        for word in shlex.split(" ".join(words), comments=True)
        if word.startswith("-") and not re.fullmatch(r"-?\d.*|-", word) and word.split("=")[0] not in options[name]
    ]
    assert wrong == [] and len(found) > 30
