"""The English texts of a Python file: `texts_of` its docstrings, help texts and refusals."""
import ast

HELP = ("description", "help", "epilog")  # arguments of argparse that hold text
REFUSALS = ("Refused", "exit", "fail", "error")
DOCUMENTED = (ast.Module, ast.ClassDef, ast.FunctionDef, ast.AsyncFunctionDef)


def string_of(node):
    """Returns the text of a string or f-string, with `..` for each inserted value; nothing for another expression."""
    if isinstance(node, ast.Constant) and isinstance(node.value, str):
        return node.value
    if isinstance(node, ast.JoinedStr):
        return "".join(part.value if isinstance(part, ast.Constant) else "`..`" for part in node.values)
    if isinstance(node, ast.BinOp) and isinstance(node.op, (ast.Add, ast.Mod)):
        return string_of(node.left) + (string_of(node.right) if isinstance(node.op, ast.Add) else "")
    return ""


def docstring_of(node):
    """Returns the line and text of a module's, class's or function's docstring, or nothing."""
    text = ast.get_docstring(node) if isinstance(node, DOCUMENTED) else None
    return [(node.body[0].lineno, text)] if text else []


def call_texts(call):
    """Returns the lines and texts of a call's help arguments, and of the first argument of a refusal."""
    name = call.func.attr if isinstance(call.func, ast.Attribute) else getattr(call.func, "id", "")
    nodes = [keyword.value for keyword in call.keywords if keyword.arg in HELP]
    nodes += call.args[:1] if name in REFUSALS else []
    return [(node.lineno, string_of(node)) for node in nodes if string_of(node)]


def texts_of(source):
    """Returns pairs of a line's number and a text, in the order of the file, for all docstrings, helps and refusals."""
    found = []
    for node in ast.walk(ast.parse(source)):
        found += call_texts(node) if isinstance(node, ast.Call) else docstring_of(node)
    return sorted(found)
