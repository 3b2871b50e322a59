"""Finds the functions of more than 60 lines in sources of Python and of the shell.

    long_functions.py FILE..    prints how many functions there are, and then a line for each that is too long
"""

import ast
import re
import sys

MOST = 60
HEREDOC = re.compile(r"(?<!<)<<-?\s*(['\"]?)([A-Za-z_]\w*)\1")


def functions_in_python(text):
    """Yields the name and the number of lines of each function."""
    for node in ast.walk(ast.parse(text)):
        if isinstance(node, (ast.FunctionDef, ast.AsyncFunctionDef)):
            yield node.name, node.end_lineno - node.lineno + 1


def functions_in_shell(text):
    """The same of a script. A function ends at the first line that is its closing bracket alone, and no line of a heredoc."""
    name, first, closing, heredoc = "", 0, "", ""
    for number, line in enumerate(text.split("\n"), 1):
        if heredoc:
            heredoc = "" if line.strip() == heredoc else heredoc
            continue
        opened = HEREDOC.search(line)
        heredoc = opened.group(2) if opened else ""
        begun = re.match(r"(\w+)\(\) ([{(])(?!\(|.*[})]$)", line)
        if not name and begun:
            name, first, closing = begun.group(1), number, {"{": "}", "(": ")"}[begun.group(2)]
        elif not name and re.match(r"\w+\(\) [{(]", line):
            yield line.partition("(")[0], 1
        elif name and line == closing:
            yield name, number - first + 1
            name = ""
    if name or heredoc:
        raise ValueError(f"{name} has no line that is {closing!r} alone" if name else f"the heredoc {heredoc} does not end")


def main(paths):
    total, wrong = 0, []
    for path in paths:
        with open(path, encoding="utf-8") as file:
            text = file.read()
        is_python = path.endswith((".py", ".pyi")) or "python" in text.partition("\n")[0]
        for name, lines in (functions_in_python if is_python else functions_in_shell)(text):
            total += 1
            if lines > MOST:
                wrong.append(f"{path}: {name} has {lines} lines")
    print("\n".join([str(total), *wrong]))


main(sys.argv[1:])
