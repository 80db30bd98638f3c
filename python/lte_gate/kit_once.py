#!/usr/bin/env python3
"""kit_once.py SCRIPT WORD..

Runs the kit's script `rt` in this process, with two results kept per crate: the checksum of a crate's sources (method
`stamp` of the kit's class `Crate`) and the list of crates below it (`below`). Some kits, 13b for one, compute both once
for each path of dependencies, 58,192 times below lte_top, so that a build waits for them for an hour. Newer kits keep
sums themselves, and then this changes nothing; nor does it in a kit without such methods. A script that is not Python
is run as it is.

Only build.py uses it, in its own copies of the sources, which do not change while a command runs there.
"""
import builtins
import functools
import os
import runpy
import sys
import types

KEPT = ("stamp", "below")


def once(method):
    """Returns the method with its result kept per crate, until the crate's own line or its dependencies change."""
    found = {}

    @functools.wraps(method)
    def kept(crate, *given, **named):
        if given or named:
            return method(crate, *given, **named)
        state = repr(getattr(crate, "said", None)), tuple(map(id, getattr(crate, "deps", ())))
        if id(crate) not in found or found[id(crate)][1] != state:
            found[id(crate)] = crate, state, method(crate)
        result = found[id(crate)][2]
        return list(result) if isinstance(result, list) else result

    return kept


def keeping(build_class):
    """Returns the function that makes classes, such that a class `Crate` with both methods keeps their results."""

    def build(body, name, *bases, **words):
        made = build_class(body, name, *bases, **words)
        if name == "Crate" and all(isinstance(vars(made).get(it), types.FunctionType) for it in KEPT):
            for it in KEPT:
                setattr(made, it, once(vars(made)[it]))
        return made

    return build


def is_python(script):
    """Returns whether a script's first line names Python."""
    with open(script, "rb") as file:
        line = file.readline()
    return line.startswith(b"#!") and b"python" in line


def main():
    script = os.path.realpath(sys.argv[1])
    if not is_python(script):
        os.execv(script, [script, *sys.argv[2:]])
    sys.argv = sys.argv[1:]
    sys.path[0] = os.path.dirname(script)
    builtins.__build_class__ = keeping(builtins.__build_class__)
    runpy.run_path(script, run_name="__main__")


if __name__ == "__main__":
    main()
