"""english [--list] [FOLDER ..]

Counts the marked texts of each folder of Python: docstrings, help texts and refusals with a retired word, a fronted
"Of", or 40 words in a function's first sentence. The status is 1 if a folder has more than its budget in
BUDGETS, which may only fall. With --list each marked text is printed. Comments of src/ and specs/ have their own rules
(`faults_of`), which the command comments applies.
"""
import argparse
import re

from .python_texts import texts_of
from .rattle_source import METHOD, comments_of
from .repository import TOP, Refused, report, run

BUDGETS = {
    "scripts/trials": 32,
    "python/lte_reference": 42,
    "python/lte_gate": 27,
    "python/lte_tools": 420,
}  # marked texts of a folder: may only fall
RETIRED = re.compile(
    r"""\b(?:
    told | tells? | telling | speaks? | spoken | so[ ]many | alike | chance | besides? | behind | wanting
    | taken[ ]off | takes?[ ]off | stands?(?:[ ]at)? | least | greatest | places? | that[ ]of | those[ ]of | dear
    | what (?![ ](?:if|kind|is[ ]the)\b)
    )\b(?![(_-])""",
    re.X | re.I,
)
KEPT = re.compile(r"(?i)\b(?:at least|stand-in|in place|takes? place|least squares|least significant)\b")

MOST_WORDS = 39  # of the comment of a function
QUOTED = re.compile(r"`[^`]*`|\"[^\"]*\"")
TOLD = re.compile(r"\b(?:told|tells?|telling)\b", re.I)
FRONTED = re.compile(r"(?:^|[.:;] )Of\b")
VERB = re.compile(r"[A-Z][a-z]*(?:s|s,)(?= |$)(?! (?:of|that|which|are|were|have)\b)|Does not\b|A law\b")
NO_VERB = ("This", "Its", "Is", "Was", "Has", "Thus", "Less", "Plus", "Minus", "Always", "As", "Yes", "Us", "Towards")
LEANING = re.compile(
    r"""
    (?: it | its | they | their | them | that | those        # pronouns for a thing that was named before
      | (?:this|these) (?= [ ](?:is|has|was|too|alone)\b | [,;:.] | $ )
      | (?:both|all|each|none|some|one) (?= [ ](?:do|does|are|is|have|has|of[ ](?:it|them))\b | [.]? $ )
      | the[ ](?:others?|rest|former|latter|second|next) (?= [ ](?:do|does|is|are|of[ ](?:it|them))\b | [.]? $ )
      | another | such | here | there (?! [ ](?:is|are|was|were)\b )
      | and | or | so | but | nor | then | also | too | else | again | otherwise | likewise
      | of | with | by                                         # a preposition, without the thing
      | as[ ](?:above|before|there|here|it|they|that|those|to)
      | (?:in|on|at|to|from|for|as|without|beside)[ ](?:it|them|that|those|which|one|two)
      | (?:what|whether|where|which|when|how(?:[ ]\w+)?)[ ](?:it|they|that|those)
      | (?:whether|where)[ ]\w+[ ](?:do|does)
      | in[ ]a[ ]recording (?= [:,] ) | which (?= [ ](?:is|are|has|have)\b ) | whose
      | \w+[ ]times (?= [.]? $ )
      | \w+s[ ](?:it|its|them|their)                          # a verb with such a pronoun: "adds its schedule"
      | (?:\w+[ ]){1,5} of[ ](?:it|them) (?= [.]? $ )
    )\b
    """,
    re.X | re.I,
)
SAME = re.compile(r"(?:the same|as many|as much)\b(?!.* as )", re.I)
HANGING = re.compile(r"(?!what\b)[^,:;]*\b(?:do|does|so|likewise)(?:[.]?$|[:;])", re.I)
PARAMETERS = re.compile(r"\bfn \w+[^(]*\((.*?)\)(?: ->|\s*$|\s*\{|\s*where|\s*requires|\s*ensures)", re.S | re.M)


def leans(comment):
    """Returns whether a comment needs the text above it: it begins with a pronoun or ends with a bare verb."""
    return bool(LEANING.match(comment) or SAME.match(comment) or HANGING.match(comment))


def head_below(lines, number):
    """Returns the head of the function that begins at a line, below attributes, or nothing if none does."""
    while number <= len(lines) and lines[number - 1].strip().startswith("#["):
        number += 1
    if number > len(lines) or not METHOD.match(lines[number - 1]):
        return ""
    return "\n".join(lines[number - 1 : number + 9])


def parameters_of(head):
    """Returns the parameters' names that are not words of English: with an underscore or of a single letter."""
    found = PARAMETERS.search(head)
    names = re.findall(r"(?:^|,)\s*(?:mut )?(\w+):", found[1]) if found else []
    return [name for name in names if "_" in name or len(name) == 1 and name not in "aI"]


def function_faults(comment, head):
    """Yields the faults of a function's comment."""
    words, bare = comment.words, QUOTED.sub("", comment.words)
    first = words.split(" ")[0]
    if not VERB.match(words) or first in NO_VERB:
        yield f"begins with no verb in the third person: {words[:40]}"
    if len(words.split()) > MOST_WORDS:
        yield f"has {len(words.split())} words"
    for name in parameters_of(head):
        if re.search(rf"(?<![\w'^-]){re.escape(name)}(?![\w'^(-])", bare):
            yield f"names `{name}` without backticks"


def faults_of(text):
    """Yields pairs of a line's number and a fault of the comment there, for a file of src/ or specs/."""
    lines = text.split("\n")
    for comment in comments_of(text):
        bare = QUOTED.sub("", comment.words)
        for found in TOLD.findall(bare):
            yield comment.line, f"says {found}: {comment.words[:50]}"
        if FRONTED.search(bare):
            yield comment.line, f"has a fronted Of: {comment.words[:50]}"
        if comment.mark == "///":
            head = head_below(lines, comment.line + comment.count)
            if head:
                yield from ((comment.line, fault) for fault in function_faults(comment, head))


def marks_of(text):
    """Returns why an English text of Python is marked: its retired words, a fronted Of, or a long first sentence."""
    bare = KEPT.sub("", QUOTED.sub("", text))
    marks = [f"says {word.lower()}" for word in RETIRED.findall(bare)]
    if FRONTED.search(bare):
        marks.append("has a fronted Of")
    first = re.split(r"[.:;](?:\s|$)", bare)[0].split()
    if len(first) > MOST_WORDS:
        marks.append(f"has {len(first)} words in its first sentence")
    return marks


def marked_in(folder):
    """Yields a line for each marked text of a folder's Python files, with its file and line number."""
    for file in sorted((TOP / folder).glob("*.py")):
        for line, text in texts_of(file.read_text(encoding="utf-8")):
            marks = marks_of(text)
            if marks:
                yield f"{folder}/{file.name}:{line}: {', '.join(marks)}: {' '.join(text.split())}"


def budget_faults(folder, count):
    """Returns the fault of a folder with more marked texts than its budget, or nothing."""
    over = count > BUDGETS[folder]
    return [f"{folder}: {count} marked texts, {BUDGETS[folder]} are allowed (--list prints them)"] if over else []


def parser():
    """Returns the parser of the command's arguments."""
    made = argparse.ArgumentParser("english", description=__doc__, formatter_class=argparse.RawDescriptionHelpFormatter)
    made.add_argument("--list", action="store_true", help="print each marked text")
    made.add_argument("folders", metavar="FOLDER", nargs="*", help=f"default: {', '.join(BUDGETS)}")
    return made


def main():
    args = parser().parse_args()
    faults, counts = [], []
    for folder in args.folders or BUDGETS:
        if folder not in BUDGETS:
            raise Refused(f"{folder} has no budget: {', '.join(BUDGETS)}")
        marked = list(marked_in(folder))
        if args.list:
            print(*marked, sep="\n")
        counts.append(f"{folder} {len(marked)}")
        faults += budget_faults(folder, len(marked))
    return report("english", faults, ", ".join(counts))


if __name__ == "__main__":
    run(main, "english")
