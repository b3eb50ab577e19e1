"""Makes the twin of a mutant by a rule: the mutant's shape, with what the code means.

Of a copy: each `return` returns what the last expression of its body is, the call of the function. Of an edit of an arm
of a match or of a field: its value is named first, `{ let it = VALUE; it }`.
"""

import re

RETURN = re.compile(r"return [^;]*;")
ARM_OR_FIELD = re.compile(r"(.* => | *\w+: )(.*?)(,?)")


def last_expression(body):
    """Returns the expression at the end of a body, after its statements."""
    depth = at = 0
    for index, letter in enumerate(body):
        depth += {"(": 1, "[": 1, "{": 1, ")": -1, "]": -1, "}": -1}.get(letter, 0)
        ends_block = letter == "}" and body[index + 1 : index + 2] == " " and not body.startswith(
            ("else", "."), index + 2
        )
        if depth == 0 and (letter == ";" or ends_block):
            at = index + 1
    return body[at:].strip()


def twin_of_copy(new):
    """Returns the body of the twin of a copy, or None if no rule makes one."""
    call = last_expression(new)
    front = new[: len(new) - len(call)]
    made = RETURN.sub(f"return {call};", front) + call
    return None if made == new else made


def twin_of_edit(old):
    """Returns the text of the twin of an edit, or None if no rule makes one."""
    found = ARM_OR_FIELD.fullmatch(old)
    return f"{found[1]}{{ let it = {found[2]}; it }}{found[3]}" if found else None
