"""Finds the functions of a Rattle source file, with the names by which a check knows them, and where their bodies
are.
"""

import re
from dataclasses import dataclass
from functools import lru_cache

# What a brace group of a function's head begins with; the group after these is the body.
CLAUSES = re.compile(r"\b(requires|ensures|ghost|decreases)\b")
ITEM = re.compile(r"\b(?:(?P<kind>fn|trait|mod)\s+(?P<name>\w+)|impl\b(?P<head>[^;{]*)(?=\{))")
NO_CODE = re.compile(r"""//[^\n]*|/\*.*?\*/|b?"(?:\\.|[^"\\])*"|b?'(?:\\(?:x..|u\{[^}]*\}|.)|[^'\\])'""", re.DOTALL)


@dataclass(frozen=True)
class Function:
    """A function: its path below the crate, and the offsets at which its `fn`, its contract and its body begin and its
    body ends.

    It may have `pub` or `pub(..)` before its name, with `extern` after that, the head of the block that it is in, where
    it is in one, and the `tactic` attributes in the lines above it.
    """

    path: str
    head: int
    contract: int
    start: int
    end: int
    visibility: str = ""
    block: str = ""
    attributes: tuple = ()


def blanked(text):
    """The text with spaces in the place of comments and literals."""
    return NO_CODE.sub(lambda found: re.sub(r"[^\n]", " ", found[0]), text)


def group_end(code, start):
    """The offset after the brace that closes the one at start."""
    depth = 0
    for at in range(start, len(code)):
        depth += {"{": 1, "}": -1}.get(code[at], 0)
        if depth == 0:
            return at + 1
    raise ValueError("a brace is not closed")


def plain_name(type_text):
    """A type or trait without its arguments, references and path: `&mut io::Cut<T>` is `Cut`, and `(P, Q)` is `Tuple2`.
    """
    text = type_text.replace("->", "").split(" where ")[0].strip()
    if text.startswith("("):
        return f"Tuple{text.count(',') + 1}"
    while re.search(r"<[^<>]*>", text):
        text = re.sub(r"<[^<>]*>", "", text)
    names = re.findall(r"(?<!')\b[A-Za-z]\w*", re.sub(r"\bmut\b", "", text))
    return names[-1] if names else ""


def split_parameters(head):
    """The parameters in the first angle brackets of a block's head, and what comes after them."""
    depth = 0
    for at, letter in enumerate(head if head.startswith("<") else ""):
        depth += {"<": 1, ">": -1}.get(letter, 0)
        if depth == 0:
            return set(re.findall(r"[A-Z]\w*", head[:at])), head[at + 1 :]
    return set(), head


def full_name(type_text, parameters):
    """The name with those of its arguments that are no parameters: `From<Refusal>` is `FromRefusal`."""
    arguments = re.search(r"<(.*)>", type_text)
    words = re.findall(r"(?<!')\b[A-Za-z]\w*", arguments[1]) if arguments else []
    names = [plain_name(type_text), *(it for it in words if it not in parameters)]
    return "".join(it[:1].upper() + it[1:] for it in names)


def block_path(head, module, homes):
    """The path of a block: that of its type, or where it is of a trait its module and `TypeTrait`, as
    `OutcomeFromFault`.
    """
    parameters, head = split_parameters(head.strip())
    of_trait, is_of_trait, of_type = head.partition(" for ")
    name = plain_name(of_type if is_of_trait else head)
    if not is_of_trait or plain_name(of_trait) == "Drop":
        return [*homes.get(name, module), name]
    return [*module, full_name(of_type, parameters) + full_name(of_trait, parameters)]


def module_of(path):
    """The module of the file at path, as `src/a/b.rt`, below the crate."""
    module = re.sub(r"^src/|\.rt$", "", path).split("/")
    return [] if module in (["lib"], ["main"]) else module


def homes_of(texts):
    """The module that declares each type, of the texts of the files by their path."""
    found = {}
    for path, text in texts.items():
        for name in re.findall(r"\b(?:struct|enum)\s+(\w+)", blanked(text)):
            found.setdefault(name, module_of(path))
    return found


def body_of(code, start):
    """Where the function whose head begins at start has its contract, its body and its end, or None without a body."""
    at, contract = start, None
    while True:
        opens, ends = code.find("{", at), code.find(";", at)
        # A semicolon in the head can only be in an array's type.
        ends_here = (
            ends != -1 and (opens == -1 or ends < opens) and code[start:ends].count("[") == code[start:ends].count("]")
        )
        if opens == -1 or ends_here:
            return None
        closes = group_end(code, opens)
        clause = CLAUSES.search(code, at, opens)
        if clause is None:
            return (opens if contract is None else contract), opens, closes
        contract = clause.start() if contract is None else contract
        at = closes


def functions(text, path, homes):
    """The functions of the file at path, as `src/a/b.rt`, that are in no other; homes are the modules of the types."""
    return list(functions_once(text, path, tuple((name, tuple(module)) for name, module in homes.items())))


@lru_cache(maxsize=400)
def functions_once(text, path, homes):
    """`functions`, which reads a text only once."""
    code, found = blanked(text), []
    walk(code, (0, len(code)), module_of(path), {name: list(module) for name, module in homes}, found)
    return found


def visibility_at(code, at):
    """What comes before the `fn` at this offset: `pub` or `pub(..)`, with `extern` where C calls the function."""
    words = re.search(r"\b(pub(?:\([\w: ]*\))?)((?:\s+(?:const|unsafe|extern))*)\s+$", code[max(0, at - 80) : at])
    return words[1] + " extern" * ("extern" in words[2]) if words else ""


def attributes_at(code, at):
    """The `tactic` attributes between the `fn` at this offset and the item before it."""
    begin = max(code.rfind(it, 0, at) for it in "{};")
    return tuple(re.findall(r"#\[tactic\b.*?\]", " ".join(code[begin + 1 : at].split())))


def walk(code, span, names, homes, found, block=""):
    """Adds the functions between two offsets, which are in the module, block or trait of these names."""
    at, end = span
    while True:
        item = ITEM.search(code, at, end)
        if item is None:
            return
        if item["kind"] == "fn":
            body = body_of(code, item.end())
            if body:
                path = "::".join([*names, item["name"]])
                before = visibility_at(code, item.start()), block, attributes_at(code, item.start())
                found.append(Function(path, item.start(), *body, *before))
            at = body[2] if body else item.end()
            continue
        opens = code.find("{", item.end())
        ends = code.find(";", item.end())
        if opens == -1 or -1 < ends < opens:
            at = item.end()
            continue
        closes = group_end(code, opens)
        inside = [*names, item["name"]] if item["head"] is None else block_path(item["head"], names, homes)
        walk(code, (opens + 1, closes - 1), inside, homes, found, (item["head"] or "").strip())
        at = closes
