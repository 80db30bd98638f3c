"""Completion for bash and zsh: for lte_cli and lte_tune exactly the words of their forms, in their order; for the tools
their options, the values of these, and files.
"""
import re
import shlex

from . import command_forms

MADE = "# Made by scripts/gate.sh made --write: change its sources, not this file."

BASH_PROGRAM = """\
# bash completion for {name}
{made}
_{name}_forms='{forms}'
_{name}() {{
    local word next form given=() skips='' current=${{COMP_WORDS[COMP_CWORD]}}
    COMPREPLY=()
    for word in "${{COMP_WORDS[@]:1:COMP_CWORD - 1}}"; do     # files that are read or written are no words of a form
        case $word in
            [\\<\\>]*) skips=yes ;;
            *) if [ "$skips" ]; then skips=''; else given+=("$word"); fi ;;
        esac
    done
    if [ "$skips" ] || [[ $current == [\\<\\>]* ]]; then
        compopt -o filenames 2> /dev/null
        mapfile -t COMPREPLY < <(compgen -f -- "${{current##[<>]}}")
        return
    fi
    while read -ra form; do
        for word in "${{!given[@]}}"; do
            case ${{form[word]-}} in
{numbers}
                "${{given[word]}}") ;;
                *) continue 2 ;;
            esac
        done
        next=${{form[${{#given[@]}}]-}}
        case $next in
            '' | {placeholders}) continue ;;
{choices}
        esac
        for next in $next; do
            if [[ $next == "$current"* && " ${{COMPREPLY[*]}} " != *" $next "* ]]; then COMPREPLY+=("$next"); fi
        done
    done <<< "$_{name}_forms"
}}
complete -o nosort -F _{name} {name}
"""
CHOICE = "{indent}{letter}) next='{words}' ;;"
BASH_NUMBER = "                {letter}) [[ ${{given[word]}} =~ ^({pattern})$ ]] || continue 2 ;;"

ZSH_PROGRAM = """\
#compdef {name}
{made}
local line next forms='{forms}'
local -i place
local -a words_of_form found
for line in ${{(f)forms}}; do
    words_of_form=(${{=line}})
    for ((place = 1; place < CURRENT - 1; place++)); do
        case ${{words_of_form[place]}} in
{numbers}
            ${{words[place + 1]}}) ;;
            *) continue 2 ;;
        esac
    done
    next=${{words_of_form[CURRENT - 1]}}
    case $next in
        '' | {placeholders}) continue ;;
{choices}
    esac
    for next in ${{=next}}; do
        if ((! ${{found[(Ie)$next]}})); then found+=($next); fi
    done
done
compadd -V forms -- $found
"""
ZSH_NUMBER = "            {letter}) [[ ${{words[place + 1]}} =~ '^({pattern})$' ]] || continue 2 ;;"

BASH_TOOL = """\
# bash completion for {name}
{made}
_{name}() {{
    local current=${{COMP_WORDS[COMP_CWORD]}} choices=''
    COMPREPLY=()
    case ${{COMP_WORDS[COMP_CWORD - 1]}} in
{values}
        *) if [[ $current == -* ]]; then choices='{options}'; else return; fi ;;
    esac
    mapfile -t COMPREPLY < <(compgen -W "$choices" -- "$current")
}}
complete -o nosort -o default -F _{name} {name}
"""

ZSH_TOOL = """\
#compdef {name}
{made}
_arguments \\
{options}
"""


def numbers(template):
    """Returns the lines for words that represent numbers."""
    rates = {letter: "|".join(map(re.escape, words)) for letter, words in command_forms.CHOICES.items()}
    patterns = command_forms.NUMBERS | rates
    return "\n".join(template.format(letter=letter, pattern=pattern) for letter, pattern in patterns.items())


def choices(indent):
    """Returns the lines for words that represent one of several words."""
    return "\n".join(
        CHOICE.format(indent=indent, letter=letter, words=" ".join(words))
        for letter, words in command_forms.CHOICES.items()
    )


def program_text(template, number, program):
    """Returns the completion of a program in a shell."""
    lines = "\n".join(" ".join(sequence) for sequence in program.sequences())
    return template.format(
        name=program.name,
        made=MADE,
        forms=lines,
        numbers=numbers(number),
        placeholders="|".join(command_forms.NUMBERS),
        choices=choices(number[: number.index("{") - 4]),
    )


def takes_file(action):
    """Returns whether an option's value is a path."""
    return getattr(action.type, "__name__", "") == "Path"


def bash_tool(tool):
    """Returns the completion of a tool in bash."""
    values = []
    for action in tool.options:
        pattern = " | ".join(action.option_strings)
        if action.choices:
            values.append(f"        {pattern}) choices='{' '.join(map(str, action.choices))}' ;;")
        elif takes_file(action):
            values.append(f"        {pattern}) return ;;")
        elif action.nargs != 0:
            values.append(f"        {pattern}) compopt +o default 2> /dev/null; return ;;")
    options = " ".join(word for action in tool.options for word in action.option_strings)
    return BASH_TOOL.format(name=tool.name, made=MADE, values="\n".join(values), options=options)


def zsh_option(action, word):
    """Returns an option in the language of zsh's `_arguments`."""
    says = (action.help or "").replace("[", "\\[").replace("]", "\\]").replace(":", "\\:")
    value = ""
    if action.choices:
        value = f":{action.dest}:({' '.join(map(str, action.choices))})"
    elif takes_file(action):
        value = f":{action.dest}:_files"
    elif action.nargs != 0:
        value = f":{action.dest}: "
    others = [other for other in action.option_strings if other != word]
    return f"{'(' + ' '.join(others) + ')' if others else ''}{word}[{says}]{value}"


def zsh_tool(tool):
    """Returns the completion of a tool in zsh."""
    options = [zsh_option(action, word) for action in tool.options for word in action.option_strings]
    options += [f"*:{action.dest}:_files" for action in tool.places]
    lines = " \\\n".join(f"    {shlex.quote(option)}" for option in options)
    return ZSH_TOOL.format(name=tool.name, made=MADE, options=lines)


def texts(programs, scripts):
    """Returns each completion file by its name."""
    found = {}
    for program in programs:
        found[f"{program.name}.bash"] = program_text(BASH_PROGRAM, BASH_NUMBER, program)
        found[f"_{program.name}"] = program_text(ZSH_PROGRAM, ZSH_NUMBER, program)
    for tool in scripts:
        found[f"{tool.name}.bash"] = bash_tool(tool)
        found[f"_{tool.name}"] = zsh_tool(tool)
    return found
