"""Lists the commands of this package, each with the first line of its text."""
import ast
import pathlib


def is_command(tree):
    """Returns whether a module does something when it is run."""
    return any(isinstance(node, ast.If) and "__name__" in ast.unparse(node.test) for node in tree.body)


def commands():
    """Returns the text of each command by its name."""
    files = sorted(pathlib.Path(__file__).parent.glob("[a-z]*.py"))
    trees = {file.stem: ast.parse(file.read_text(encoding="utf-8")) for file in files}
    return {name: ast.get_docstring(tree) for name, tree in trees.items() if is_command(tree)}


if __name__ == "__main__":
    for command, text in commands().items():
        print(f"{command:16}{text.splitlines()[0]}")
