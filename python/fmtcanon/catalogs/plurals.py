"""Evaluates the expression of Plural-Forms, which says which form is for a number."""

import collections
import re
from typing import Dict, Iterable, List, NamedTuple, Optional, Union

# As in msgfmt: a form for at most 4 of the numbers up to 1000 is for few numbers, and may leave arguments out.
FEW_NUMBERS = 4
NUMBERS = range(1001)
# Numbers are of the type unsigned long.
SIZE = 1 << 64
INT_MAX = (1 << 31) - 1
# The form is computed for a thousand numbers, so this bounds the time. Brackets are not steps.
MOST_STEPS = 1000
MOST_LENGTH = 100_000
# How many numbers' forms are kept.
MOST_KEPT = 10_000
SPACE = " \t"
TOKEN = re.compile(r"[ \t]*([0-9]+|n|\|\||&&|[=!<>]=|[-+*/%<>?:()!])")
# How many forms a header says that there are, as strtoul reads it.
COUNT = re.compile(r"nplurals=\s*([0-9]+)")
RANGE = re.compile(r"range:[\s,]+([0-9]+)\.\.([0-9]+)")
# The operators of C by precedence. `?` and `:` come below all others.
LEVELS = [["||"], ["&&"], ["==", "!="], ["<", ">", "<=", ">="], ["+", "-"], ["*", "/", "%"]]
LEVEL_OF: Dict[str, int] = {name: level for level, names in enumerate(LEVELS) for name in names}
UNARY_LEVEL = len(LEVELS)

# The value of a part that divides by zero. It is a fault only if the value is needed, as it isn't in `n && 1 / n`.
Value = Optional[int]


def applied(name: str, left: Value, right: Value) -> Value:
    """Returns the value of a binary operator."""
    if name in ("||", "&&"):
        if left is None:
            return None
        if bool(left) == (name == "||"):
            return int(name == "||")
        return None if right is None else int(bool(right))
    if left is None or right is None or (name in "/%" and right == 0):
        return None
    return arithmetic(name, left, right)


def arithmetic(name: str, left: int, right: int) -> int:
    """Returns the value of an arithmetic operator or a comparison, in unsigned long."""
    if name in ("==", "!="):
        return int((left == right) == (name == "=="))
    if name in ("<", ">="):
        return int((left < right) == (name == "<"))
    if name in (">", "<="):
        return int((left > right) == (name == ">"))
    if name == "/":
        return left // right
    if name == "%":
        return left % right
    return {"+": left + right, "-": left - right, "*": left * right}[name] % SIZE


class Unruly(ValueError):
    """The expression is not one of C, or it divides by zero."""

    def __init__(self) -> None:
        super().__init__("the expression of Plural-Forms can't be read")


def postfix(text: str) -> List[str]:
    """Returns the expression in postfix order. It needs no recursion, so brackets may nest to any depth."""
    out: List[str] = []
    stack: List[str] = []
    is_operand = True
    for token in tokens(text):
        if is_operand:
            if token in ("!", "("):
                stack.append(token)
            elif token == "n" or token[0].isdigit():
                out.append(token)
                is_operand = False
            else:
                raise Unruly
        elif token == ")":
            pop_until("(", stack, out)
        else:
            push_operator(token, stack, out)
            is_operand = True
    if is_operand:
        raise Unruly
    pop_until(None, stack, out)
    if len(out) > MOST_STEPS:
        raise Unruly
    return out


def tokens(text: str) -> Iterable[str]:
    at = 0
    text = text.rstrip(SPACE)
    if len(text) > MOST_LENGTH:
        raise Unruly
    while at < len(text):
        match = TOKEN.match(text, at)
        if match is None:
            raise Unruly
        yield match.group(1)
        at = match.end()


def number_of(digits: str) -> int:
    """Returns a number as unsigned long, in which msgfmt computes it digit by digit."""
    value = 0
    for at in range(0, len(digits), 18):
        part = digits[at : at + 18]
        value = (value * 10 ** len(part) + int(part)) % SIZE
    return value


def push_operator(token: str, stack: List[str], out: List[str]) -> None:
    if token == ":":
        # The `?` of this `:` is on the stack, below what is between them.
        pop_until("?", stack, out)
        stack.append("?:")
        return
    if token != "?" and token not in LEVEL_OF:
        raise Unruly
    level = LEVEL_OF.get(token, -1)
    while stack and stack[-1] not in ("(", "?", "?:") and (LEVEL_OF.get(stack[-1], UNARY_LEVEL) >= level):
        out.append(stack.pop())
    stack.append(token)


def pop_until(opening: Optional[str], stack: List[str], out: List[str]) -> None:
    """Moves operators to the output, up to the opening one, which it drops; to the end if there isn't one."""
    while stack:
        top = stack.pop()
        if top == opening:
            return
        if top in ("(", "?"):
            raise Unruly
        out.append(top)
    if opening is not None:
        raise Unruly


class PluralRule:
    """An expression, the form that it gives for each number, and how many forms there are, if the header says so."""

    def __init__(self, text: str, count: Optional[int] = None) -> None:
        self.count = count
        self.steps: List[Union[int, str]] = [number_of(it) if it[0].isdigit() else it for it in postfix(text)]
        self.form_of: Dict[int, int] = {}
        for number in NUMBERS:
            self.form_of[number] = self.form(number)
        self.counts = collections.Counter(self.form_of.values())

    def form(self, number: int) -> int:
        """Returns the form for a number."""
        values: List[Value] = []
        for step in self.steps:
            if isinstance(step, int):
                values.append(step)
            elif step == "n":
                values.append(number)
            elif step == "!":
                top = values.pop()
                values.append(None if top is None else int(not top))
            elif step == "?:":
                no, yes, test = values.pop(), values.pop(), values.pop()
                values.append(None if test is None else (yes if test else no))
            else:
                right, left = values.pop(), values.pop()
                values.append(applied(step, left, right))
        if values[0] is None:
            raise Unruly
        return values[0]

    def is_few(self, form: int, flags: Iterable[str]) -> bool:
        """Says whether a form is for few numbers, or for at most one of the range of its message."""
        if self.counts[form] <= FEW_NUMBERS:
            return True
        span = range_of(flags)
        if span is None:
            return False
        # As in msgfmt, which doesn't look at more than a thousand numbers.
        numbers = range(span.first, min(span.last, span.first + 1000) + 1)
        return sum(self.known_form(number) == form for number in numbers) <= 1

    def known_form(self, number: int) -> int:
        """Returns the form for a number, and keeps some of them: a message asks about the same ones for each form."""
        if number not in self.form_of:
            if len(self.form_of) > MOST_KEPT:
                self.form_of = {it: self.form_of[it] for it in NUMBERS}
            self.form_of[number] = self.form(number)
        return self.form_of[number]


class Range(NamedTuple):
    """The flag `range:` of a message."""

    first: int
    last: int


def range_of(flags: Iterable[str]) -> Optional[Range]:
    """Returns the range that the flags give, or None. A number has no bound, and counts as the largest int."""
    span = None
    for flag in flags:
        match = RANGE.fullmatch(flag)
        if match:
            first, last = (bounded(number) for number in match.groups())
            span = Range(first, last) if first <= last else span
    return span


def bounded(digits: str) -> int:
    digits = digits.lstrip("0") or "0"
    return INT_MAX if len(digits) > 10 else min(int(digits), INT_MAX)


def fault_of(header: str, rule: Optional[PluralRule]) -> str:
    """Returns why a header doesn't say which of how many forms is for a number, or nothing."""
    missing = [it for it, is_there in (("nplurals=", "nplurals=" in header), ("plural=", rule)) if not is_there]
    if missing or rule is None:
        return f"the header has no {' and no '.join(missing)}"
    if rule.count is None:
        return "nplurals of the header is not a number"
    last = max(rule.counts)
    return f"the expression of the header gives form {last}, and nplurals is {rule.count}" if last >= rule.count else ""


def rule_of(header: str) -> Optional[PluralRule]:
    """Returns the rule of a header, or None if it has none."""
    _, name, expression = header.partition("plural=")
    count = COUNT.search(header)
    if not name:
        return None
    return PluralRule(re.split("[;\n]", expression, maxsplit=1)[0], number_of(count[1]) if count else None)
