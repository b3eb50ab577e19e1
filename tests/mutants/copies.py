"""Copies functions of a source file, with their contracts.

A method of a trait has no place for a copy in its block. If it has a contract of its own, the copy is a method of the
type. If it has the trait's, the copy is in a copy of the block, for another type; that is, if the type has no fields.
"""

import re

from tests.mutants import rattle_functions


def type_with_trait(function):
    """Returns the type for which a function is a method of a trait, or nothing."""
    _, head = rattle_functions.split_parameters(function.block)
    _, is_of_trait, of_type = head.partition(" for ")
    return of_type.strip() if is_of_trait else ""


def has_own_contract(function):
    return function.contract != function.start


def name_of(function, mark):
    """Returns the name of a copy that ends in a mark: that of a function, or of the type that has it."""
    words = f"{function.path.rpartition('::')[2]}_{mark}".split("_")
    is_type = type_with_trait(function) and not has_own_contract(function)
    return "".join(it.capitalize() for it in words) if is_type else "_".join(words)


def block_of_type(function):
    """Returns the head of a block of the type of a trait's method: `<R: Read> Read for Cut<R>` is `<R: Read> Cut<R>`.
    """
    _, rest = rattle_functions.split_parameters(function.block)
    return f"{function.block[: len(function.block) - len(rest)]} {type_with_trait(function)}".strip()


def listed(text, function, mark, homes, file):
    """Returns the path under which a check lists a copy."""
    *module, last = function.path.split("::")
    name, of_type = name_of(function, mark), type_with_trait(function)
    if not of_type:
        return "::".join([*module, name])
    if has_own_contract(function):
        return "::".join([*rattle_functions.block_path(block_of_type(function), module[:-1], homes), name])
    return "::".join([*module[:-1], name + module[-1][len(of_type) :], last])


def with_copy(text, function, mark, body):
    """Returns the text of a file with a copy of a function, which has this body."""
    name, of_type = name_of(function, mark), type_with_trait(function)
    head = re.sub(r"^fn\s+\w+", f"fn {name}", text[function.head : function.start].rstrip())
    if not of_type:
        return f"{text[: function.end]}\n\n{head}\n{{ {body} }}\n{text[function.end :]}"
    begin = text.rindex(impl(function.block), 0, function.head)
    end = rattle_functions.group_end(rattle_functions.blanked(text), text.index("{", begin))
    if has_own_contract(function):
        uses = "".join(re.findall(r"^ *ghost use [^;]*;\n", text[begin:end], re.MULTILINE))
        return (
            f"{text[:end]}\n\n{impl(block_of_type(function))} {{\n{uses}\n    {head}\n    {{ {body} }}\n}}\n"
            f"{text[end:]}"
        )
    if not re.search(rf"\bstruct {re.escape(of_type)};", text):
        raise ValueError(f"{function.path} has the contract of a trait, and {of_type} has fields or parameters")
    head = text[begin : function.head] + named(text[function.head : function.start])
    block = f"{head}{{ {body} }}{text[function.end : end]}"
    blocks = [block, *(it for it in blocks_of(text, of_type) if it != text[begin:end])]
    renamed = "\n\n".join(re.sub(rf" for {of_type}\b", f" for {name}", it, count=1) for it in blocks)
    return f"{text[:end]}\n\npub struct {name};\n\n{renamed}\n{text[end:]}"


def impl(head):
    """Returns how a block with this head begins."""
    return f"impl{head}" if head.startswith("<") else f"impl {head}"


def named(head):
    """Returns a function's head with names for its parameters that have none."""
    names = iter(["unnamed", "unnamed_2", "unnamed_3"])
    return re.sub(r"\b_(?=:)", lambda _: next(names), head)


def blocks_of(text, of_type):
    """Returns the blocks of a file in which a type has traits."""
    starts = [it.start() for it in re.finditer(rf"^impl \w+ for {of_type} \{{", text, re.MULTILINE)]
    code = rattle_functions.blanked(text)
    return [text[it : rattle_functions.group_end(code, text.index("{", it))] for it in starts]
