"""What attributes say: their arguments, and the values of these if they are constants of numbers."""

import ast
import operator
import re
from typing import List, Optional, Tuple

# In `[[gnu::format(..)]]` the name has that of its vendor.
VENDOR = r"(?:(?:__)?gnu(?:__)?\s*::\s*)?"
FORMAT = re.compile(VENDOR + r"(?:__)?format(?:__)?\s*\(")
FORMAT_ARGUMENT = re.compile(VENDOR + r"(?:__)?format_arg(?:__)?\s*\(")
PRINTF = ("printf", "__printf__")
SUFFIX = re.compile(r"(?<=[\da-fA-F])[uUlL]+\b")
OPERATORS = {ast.Add: operator.add, ast.Sub: operator.sub, ast.Mult: operator.mul}


def constant_of(text: str) -> Optional[int]:
    """Returns the value of an expression of numbers, `+`, `-`, `*` and parentheses; None of another."""
    try:
        return value_of(ast.parse(SUFFIX.sub("", " ".join(text.split())), mode="eval").body)
    except (SyntaxError, ValueError):
        return None


def value_of(node: ast.AST) -> int:
    if isinstance(node, ast.Constant) and type(node.value) is int:
        return node.value
    if isinstance(node, ast.BinOp) and type(node.op) in OPERATORS:
        return int(OPERATORS[type(node.op)](value_of(node.left), value_of(node.right)))
    raise ValueError("not a number")


def arguments_in(text: str, start: int) -> List[str]:
    """Returns the arguments that begin at an offset, after a parenthesis, and end with the one that closes it."""
    depth, last, found = 0, start, []
    for at in range(start, len(text)):
        depth += (text[at] == "(") - (text[at] == ")")
        if depth < 0 or (depth == 0 and text[at] == ","):
            found.append(text[last:at].strip())
            last = at + 1
        if depth < 0:
            break
    return found


def printf_indexes(text: str) -> Optional[Tuple[Optional[int], Optional[int]]]:
    """Returns the two numbers of an attribute `format(printf, ..)`, or None if it is another attribute. A number that
    isn't a constant of numbers is None.
    """
    found = FORMAT.match(text)
    archetype, *numbers = arguments_in(text, found.end()) if found else [""]
    if archetype not in PRINTF or len(numbers) != 2:
        return None
    return constant_of(numbers[0]), constant_of(numbers[1])


def returned_index(text: str) -> Optional[int]:
    """Returns the number of an attribute `format_arg(..)`, or None if it is another attribute."""
    found = FORMAT_ARGUMENT.match(text)
    numbers = arguments_in(text, found.end()) if found else []
    return constant_of(numbers[0]) if len(numbers) == 1 else None
