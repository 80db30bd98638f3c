"""Rattle source, read from its text alone: what a file defines and names (`rust_file` for src/, `antt_file` for specs/
and proofs/), the functions and paragraphs of a file with their lines, its comments, and its crate's root file.
"""
import collections
import dataclasses
import re

QUIET = re.compile(r'"(?:[^"\\]|\\[\s\S])*"|\'(?:[^\'\\\n]|\\[^\']+)\'|//[^\n]*')
ITEM = re.compile(
    r"^(pub(?:\([^)]*\))? )?(?:(?:(?:const |unsafe |ghost )*fn|struct|enum|trait|const|static|type|mod) |macro_rules! )(\w+)",
    re.M,
)
MODULE = re.compile(r"^(?:pub(?:\([^)]*\))? )?mod (\w+)( \{)?", re.M)
ENUM = re.compile(r"^(?:pub(?:\([^)]*\))? )?enum (\w+)[^{]*\{(.*?)^\}", re.M | re.S)
VARIANT = re.compile(r"^    (\w+)", re.M)
BLOCK = re.compile(r"^(?:pub(?:\([^)]*\))? )?(impl|trait)\b(?:<(?:[^<>]|<[^<>]*>)*>)? ?([^{\n]*)\{?", re.M)
METHOD = re.compile(r"^( *)(?:pub(?:\([^)]*\))? )?(?:(?:const|unsafe|ghost) )*fn (\w+)", re.M)
DEFINED = re.compile(r"\s*(?:(?:abbrev|unfoldable|pub|record|data|module) )*([^\s:]+)")
COMMENT = re.compile(r"\s*(--|//[/!]?)(?:\s+|$)(?:---- )?(.*)")
USE = re.compile(r"^ *(pub(?:\([^)]*\))? )?use ([^;]+);", re.M)
GHOST_USE = re.compile(r"^ *ghost use ([^;]+);", re.M)
ANTT_USE = re.compile(r"^ *use (Rattle\.[^\s{]+(?:\{[^}]*\})?)", re.M)
ANTT_PUBLIC = re.compile(r"^ *(?:(?:abbrev|unfoldable|opaque) )*pub (?:(?:abbrev|record|data) )*([^({:\n]+)", re.M)
ANTT_DATA = re.compile(r"^ *(?:pub )?data [^\n]*\n((?: +[^\n]*\n)+)", re.M)
CONSTRUCTOR = re.compile(r"^ +([^\s:]+) :", re.M)
ANTT_MODULE = re.compile(r"^(pub )?mod (\w+)", re.M)
EQUATION = re.compile(r"^( *)(?!pub |abbrev |let )([\w◌][^\s=:(]*)((?: [^\n]*?)?) =(?: |$)", re.M)
MATCH = re.compile(r"\bmatch\b")
MENTION = re.compile(r"(?<![\w:>])((?:\w+::)*[A-Z]\w*)::([A-Z]\w*[a-z]\w*)\b")
PATTERN = re.compile(r"&?(?:mut )?((?:\w+::)*\w+)::(\w+)(?:\s*[({].*)?", re.S)
OPENING, CLOSING = "([{", ")]}"


@dataclasses.dataclass(frozen=True)
class Named:
    """A path that a file names, and where; `alias` is its name in the file."""

    line: int
    path: tuple
    alias: str


@dataclasses.dataclass(frozen=True)
class Cases:
    """Cases of a type that a match or equations have without a rest; only a match has the type's name."""

    line: int
    what: str
    type_name: str
    names: frozenset


@dataclasses.dataclass(frozen=True)
class RustFile:
    """The definitions and names of a file of src/. Published `items` and `exports` are true."""

    items: dict
    modules: frozenset
    inner: frozenset
    variants: dict
    methods: frozenset
    exports: dict
    uses: tuple
    ghost_uses: tuple
    cases: tuple
    mentions: tuple


@dataclasses.dataclass(frozen=True)
class AnttFile:
    """The definitions and names of a file of specs/ or proofs/. Published `modules` are true."""

    names: frozenset
    modules: dict
    uses: tuple
    cases: tuple


def line_at(text, at):
    """Returns the number of the line at an offset."""
    return text.count("\n", 0, at) + 1


# ---- pieces of a file, with their lines


@dataclasses.dataclass(frozen=True)
class Function:
    """A function in the layout of `rt fmt`: its type if it has one, its name, and its lines, from 1."""

    owner: str
    name: str
    first: int
    last: int


@dataclasses.dataclass(frozen=True)
class Comment:
    """Comment lines of one mark that follow one another: the first line's number, their count, the mark, the words."""

    line: int
    count: int
    mark: str
    words: str


def last_line_of(lines, first, indent):
    """Returns the last line of the function whose head is line `first`, both from 1, in a text without comments."""
    depth = 0
    for at in range(first, len(lines) + 1):
        line = lines[at - 1].rstrip()
        depth += sum((letter in OPENING) - (letter in CLOSING) for letter in line)
        if depth == 0 and (line == f"{indent}}}" or line.endswith((" {}", "{}", ";"))):
            return at
    return len(lines)


def owner_of(line):
    """Returns the type that the head of a block `impl` or `trait` names, else its trait, with a capital letter."""
    head = re.sub(r"<.*?>|\bwhere\b.*", "", BLOCK.match(line)[2])
    names = [re.sub(r"\W.*", "", part.strip(" &").split("::")[-1]) for part in reversed(head.split(" for "))]
    name = next(filter(None, names), "")
    return name[:1].upper() + name[1:]


def functions_of(text):
    """Returns the functions of a file of src/, those inside of others too."""
    lines, found, owner = quiet(text).split("\n"), [], ""
    for first, line in enumerate(lines, 1):
        head = METHOD.match(line)
        if BLOCK.match(line):
            owner = owner_of(line)
        elif head:
            found.append(Function(owner if head[1] else "", head[2], first, last_line_of(lines, first, head[1])))
    return found


def paragraphs_of(text):
    """Yields each paragraph of a file of specs/ or proofs/: its first name, its first line, from 1, its lines."""
    part = []
    for at, line in enumerate([*text.split("\n"), ""]):
        if line.strip():
            part.append(line)
        elif part:
            first = next((number for number, line in enumerate(part) if not line.strip().startswith("--")), 0)
            yield DEFINED.match(part[first])[1], at - len(part) + first + 1, part[first:]
            part = []


def comments_of(text):
    """Yields the comments of a file."""
    first, mark, words = 0, "", []
    for number, line in enumerate([*text.split("\n"), ""], 1):
        found = COMMENT.match(line)
        if words and (not found or found[1] != mark):
            yield Comment(first, len(words), mark, " ".join(words).strip())
            words = []
        if found:
            first, mark = (first, mark) if words else (number, found[1])
            words.append(found[2])


def root_of(crate):
    """Returns the text of a crate's root file, of a library or of a program."""
    files = [crate / "src/lib.rt", crate / "src/main.rt"]
    return next((file.read_text(encoding="utf-8") for file in files if file.exists()), "")


def is_of_tests(crate):
    """Returns whether a crate of this name is of tests."""
    return crate.endswith("_tests") or crate in ("test_support", "run_support", "published_calls")


# ---- src/


def quiet(text):
    """Returns a text of src/ without comments and the contents of quotes, line by line."""
    return QUIET.sub(lambda found: "" if found[0][0] == "/" else '""' + "\n" * found[0].count("\n"), text)


def split_outside(text, mark):
    """Returns the parts of a text between marks that are in no bracket."""
    parts, depth, begun = [], 0, 0
    for at, letter in enumerate(text):
        depth += (letter in OPENING) - (letter in CLOSING)
        if depth == 0 and letter == mark:
            parts.append(text[begun:at])
            begun = at + 1
    return [part.strip() for part in [*parts, text[begun:]] if part.strip()]


def leaves(tree, before=()):
    """Yields the paths of a tree of `use`, each with the file's name for it."""
    tree = tree.strip()
    if tree.endswith("}"):
        front, _, rest = tree.partition("{")
        path = before + tuple(front.strip().removesuffix("::").split("::")) if front.strip() else before
        for part in split_outside(rest[:-1], ","):
            yield from leaves(part, path)
    else:
        tree, _, alias = tree.partition(" as ")
        path = before + tuple(tree.strip().split("::"))
        path = path[:-1] if path[-1] == "self" and len(path) > 1 else path
        yield path, alias.strip() or path[-1]


def dotted(words):
    """Returns the paths of an import `Rattle.A.B.{x, y as z}` or `Rattle.A.B as z`, each with its alias."""
    path, brace, rest = words.partition("{")
    parts = tuple(path.split(" as ")[0].strip().removesuffix(".").split("."))
    if not brace:
        return [(parts, "")]
    names = [name.split(" as ") for name in rest.rstrip(" }\n").replace("\n", " ").split(",") if name.strip()]
    return [((*parts, name[0].strip()), name[-1].strip()) for name in names]


def blocks_of(text):
    """Pairs of where a block of `impl` or `trait` begins and the name that proofs have for it."""
    for found in BLOCK.finditer(text):
        head = re.sub(r"<.*?>|\bwhere\b.*|^&", "", found[2]).strip()
        kept = [re.sub(r"\W.*", "", part.strip().split("::")[-1]) for part in head.split(" for ")]
        yield found.start(), "".join(reversed(kept))


def methods_of(text):
    """Yields the functions of a file, each with its type if it has one."""
    blocks = list(blocks_of(text))
    for found in METHOD.finditer(text):
        inside = [name for at, name in blocks if at < found.start()]
        yield (inside[-1] if found[1] and inside else "", found[2])


def end_of(text, at):
    """Returns the offset at which the bracket at an offset ends."""
    depth = 0
    for place in range(at, len(text)):
        depth += (text[place] in OPENING) - (text[place] in CLOSING)
        if depth == 0:
            return place
    return len(text)


def arms_of(text):
    """Yields the patterns of a match, from the text in its braces."""
    at = 0
    while "=>" in text[at:]:
        arrow = text.index("=>", at)
        yield text[at:arrow].strip(" ,\n")
        at = arrow + 2
        while at < len(text) and text[at] != ",":
            if text[at] in OPENING:
                at, block = end_of(text, at), text[at] == "{" and not text[arrow + 2 : at].strip()
                if block:
                    break
            at += 1
        at += 1


def matches_of(text):
    """Yields the cases of each match whose patterns are all cases of one type, without a rest."""
    blocks = list(blocks_of(text))
    for found in MATCH.finditer(text):
        opened = found.end()
        while opened < len(text) and text[opened] != "{":
            opened = end_of(text, opened) + 1 if text[opened] in OPENING else opened + 1
        arms = list(arms_of(text[opened + 1 : end_of(text, opened)]))
        parts = [PATTERN.fullmatch(part) for arm in arms for part in split_outside(arm.split(" if ")[0], "|")]
        types = {part[1] if part else None for part in parts}
        if len(types) == 1 and None not in types:
            own = [name for at, name in blocks if at < found.start()]
            name = types.pop()
            name = own[-1] if name == "Self" and own else name
            yield Cases(line_at(text, found.start()), "a match", name, frozenset(part[2] for part in parts))


def mentions_of(text):
    """Returns each pair of a type and a case-like name after it, with the first line that has it."""
    seen = {}
    for found in MENTION.finditer(text):
        seen.setdefault((found[1], found[2]), line_at(text, found.start()))
    return tuple((line, *pair) for pair, line in seen.items())


def rust_file(text):
    text = quiet(text)
    uses = [(found, path, alias) for found in USE.finditer(text) for path, alias in leaves(found[2])]
    ghosts = [(found, *pair) for found in GHOST_USE.finditer(text) for pair in dotted(found[1])]
    return RustFile(
        items={found[2]: found[1] == "pub " for found in ITEM.finditer(text)},
        modules=frozenset(found[1] for found in MODULE.finditer(text)),
        inner=frozenset(found[1] for found in MODULE.finditer(text) if found[2]),
        variants={found[1]: tuple(VARIANT.findall(re.sub(r"#\[.*?\]", "", found[2]))) for found in ENUM.finditer(text)},
        methods=frozenset(methods_of(text)),
        exports={alias: (found[1] == "pub ", path) for found, path, alias in uses},
        uses=tuple(Named(line_at(text, found.start(2)), path, alias) for found, path, alias in uses),
        ghost_uses=tuple(Named(line_at(text, found.start(1)), path, alias) for found, path, alias in ghosts),
        cases=tuple(matches_of(text)),
        mentions=mentions_of(text),
    )


# ---- specs/ and proofs/


def cases_of(text, variants):
    """Yields the cases of each function by equations that has only cases of one type at one position."""
    groups = collections.defaultdict(list)
    for found in EQUATION.finditer(text):
        groups[found[1], found[2]].append((line_at(text, found.start()), split_outside(found[3], " ")))
    for (_, name), equations in groups.items():
        for place in range(min(len(parts) for _, parts in equations)):
            found = [parts[place] for _, parts in equations]
            types = {variants.get(part, (None, None))[0] for part in found}
            if len(types) == 1 and None not in types:
                names = frozenset(variants[part][1] for part in found)
                yield Cases(equations[0][0], name, types.pop(), names)


def antt_file(text):
    text = re.sub(r"(?m)(?:^|(?<= ))--( [^\n]*)?$", "", text) + "\n"
    uses = [(found, *pair) for found in ANTT_USE.finditer(text) for pair in dotted(found[1])]
    variants = {alias: (path[:-2], path[-1]) for _, path, alias in uses if "TheVariants" in path}
    names = {name for found in ANTT_PUBLIC.finditer(text) for name in found[1].split()}
    names |= {name for found in ANTT_DATA.finditer(text) for name in CONSTRUCTOR.findall(found[1])}
    return AnttFile(
        names=frozenset(names),
        modules={found[2]: bool(found[1]) for found in ANTT_MODULE.finditer(text)},
        uses=tuple(Named(line_at(text, found.start(1)), path, alias) for found, path, alias in uses),
        cases=tuple(cases_of(text, variants)),
    )
