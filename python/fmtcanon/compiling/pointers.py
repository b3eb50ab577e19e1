"""What pointers to functions are given that may print as `printf` does: a member, a variable, a parameter, or all that
a typedef names.
"""

import re
from typing import Any, Dict, Iterable, Iterator, List, Optional, Sequence, Set, Tuple

from ..source.known import KNOWN, Shape
from .call_sites import KEYWORDS, VARIADIC, beginning, declarators, is_byte
from .closure import LEFT, Candidate, Handing
from .formats import bare_of, is_null
from .functions import FUNCTIONS, Callees, function_of, is_list, keys_of
from .line_markers import SPACE
from .parsing import CALL_EXPR, VISIT_INSIDE, Parsed

# A declaration of a pointer to a function with a list or further arguments, or a typedef of such a function.
POINTER = re.compile(rf"\){SPACE}\((?:[^()]|\([^()]*\))*(?:\.\.\.|va_list\s*\w*){SPACE}\)")
TYPEDEF = re.compile(rf"typedef\b[^;{{}}]*\.\.\.{SPACE}\)")
# What is before and after a name that may be a value, and no call: what has one in parentheses after a keyword gives it
# to nobody. And what is after one that gets a value.
BEFORE = re.compile(
    r"(?:[=,?:{&.>]|\*/|(?<!\bif)(?<!\breturn)(?<!\bwhile)(?<!\bswitch)\s?\()\s*(?:\(\s*void\s*\*\s*\)\s*)?\Z"
)
AFTER = re.compile(r"\s*[,);}:]")
ASSIGNED = re.compile(r"\s*(?:\[[^\]=;]*\]\s*)*=(?!=)")
LONGEST = 80
# As the C interface of libclang numbers them: a variable, operators of two operands and of one, and a list of values.
VAR_DECL, UNARY, BINARY, INIT_LIST = 9, 112, 114, 119
REFERENCES = ("DECL_REF_EXPR", "MEMBER_REF_EXPR")
POINTERS = ("FIELD_DECL", "VAR_DECL", "PARM_DECL")
OWNERS = (*FUNCTIONS, "VAR_DECL")

Span = Tuple[int, int]


def has_pointers(text: str, spans: Sequence[Span]) -> bool:
    """Returns whether pointers to functions with further arguments may be declared in parts of a text."""
    return any(pattern.search(text, *it) for it in spans for pattern in (POINTER, TYPEDEF))


def names_among(text: str, spans: Sequence[Span]) -> Set[str]:
    """Returns the names of variadic functions and of pointers to such that are declared in parts of a text."""
    names: Set[str] = set()
    types: Set[str] = set()
    for at in (it.start() for span in spans for it in VARIADIC.finditer(text, *span)):
        start, declared = declarators(text, at)
        # What is before the name may be the type that is returned.
        (types if "typedef" in text[start:at] else names).update(declared[-1:])
    seen: Set[str] = set()
    types -= KEYWORDS
    while types - seen:
        pattern = re.compile(rf"\b(?:{'|'.join(map(re.escape, sorted(types - seen)))})\b[\s*]*(\w+)\s*[;,)=\[]")
        seen |= types
        for found in (it for span in spans for it in pattern.finditer(text, *span)):
            is_type = "typedef" in text[beginning(text, found.start()) : found.start()]
            (types if is_type else names).add(found[1])
    return names - KEYWORDS


def given_in(unit: Parsed, callees: Callees, names: Set[str], spans: Sequence[Span]) -> Iterator[Candidate]:
    """Yields what is given to pointers in parts of a unit's text, in which these names are of variadic functions and of
    pointers to such.
    """
    plain, wanted = unit.text.decode("latin-1"), names | KNOWN.keys()
    giving = Giving(unit, callees)
    for start, end in spans:
        done = start
        for at in sorted(at for at, last in names_at(plain, wanted, start, end) if is_given(plain, at, last)):
            owner = unit.cursor_at(at).semantic_parent if at >= done else None
            if owner is not None and owner.kind.name in OWNERS:
                done = max(done, owner.extent.end.offset)
                giving.read(owner)
    yield from giving.found.values()


def names_at(text: str, names: Iterable[str], start: int = 0, end: Optional[int] = None) -> Iterator[Span]:
    """Yields where these names are in a part of a text. To look for one after another is faster than a pattern of all.
    """
    for name in names:
        at = text.find(name, start, end)
        while at >= 0:
            last = at + len(name)
            if not is_byte(text[at - 1 : at] or " ") and not is_byte(text[last : last + 1] or " "):
                yield at, last
            at = text.find(name, last, end)


def is_value(text: str, at: int, last: int) -> bool:
    """Returns whether a name may be a value."""
    return bool(AFTER.match(text, last) and BEFORE.search(text[max(0, at - LONGEST) : at]))


def is_given(text: str, at: int, last: int) -> bool:
    """Returns whether a name may be a value, or get one."""
    return is_value(text, at, last) or ASSIGNED.match(text, last) is not None


class Giving:
    """What is given to pointers in functions and variables of a unit."""

    def __init__(self, unit: Parsed, callees: Callees) -> None:
        self.unit, self.callees = unit, callees
        # By the pointer and what it is given: the first place is enough.
        self.found: Dict[Tuple[str, int, Tuple[str, ...], str], Candidate] = {}
        self.parameters: Dict[int, List[Tuple[int, Any]]] = {}

    def read(self, owner: Any) -> None:
        """Reads a function or a variable."""
        self.note(owner)
        self.unit.visit(self.note, owner)

    def note(self, cursor: Any) -> int:
        """Notes an expression or a declaration that gives a pointer a value."""
        kind = cursor._kind_id
        if kind == CALL_EXPR:
            self.note_call(cursor)
        elif kind == BINARY:
            self.note_assignment(cursor)
        elif kind == VAR_DECL and type_of(cursor):
            for value in list(cursor.get_children())[-1:]:
                if value.kind.is_expression():
                    self.give(cursor, value)
        elif kind == INIT_LIST:
            self.note_members(cursor)
        elif kind == UNARY:
            self.note_address(cursor)
        return VISIT_INSIDE

    def note_call(self, call: Any) -> None:
        function = call.referenced
        if function is None:
            return
        if function.hash not in self.parameters:
            listed = enumerate(function.get_arguments())
            self.parameters[function.hash] = [(at, it) for at, it in listed if type_of(it)]
        if self.parameters[function.hash]:
            values = list(call.get_arguments())
            for at, parameter in self.parameters[function.hash]:
                if at < len(values):
                    self.give(parameter, values[at])

    def note_assignment(self, cursor: Any) -> None:
        first, second = operands = list(cursor.get_children())[:2]
        declared = bare_of(first).referenced if type_of(first) else None
        if declared is not None and self.unit.operator_of(operands) == "=" and declared.kind.name in POINTERS:
            self.give(declared, second)

    def note_members(self, values: Any) -> None:
        type = values.type.get_canonical()
        fields = list(type.get_fields()) if type.kind.name == "RECORD" else []
        for index, child in enumerate(values.get_children() if fields else ()):
            inside = list(child.get_children())
            named = inside[0].referenced if len(inside) == 2 and inside[0].kind.name == "MEMBER_REF" else None
            field = named or (fields[index] if index < len(fields) else None)
            if field is not None and type_of(field):
                self.give(field, inside[-1] if named else child)

    def note_address(self, cursor: Any) -> None:
        """Notes a pointer whose address is taken: what it is given then isn't known."""
        inside = next(iter(cursor.get_children()), None)
        declared = inside.referenced if inside is not None and inside.kind.name in REFERENCES else None
        if declared is not None and declared.kind.name in POINTERS and type_of(declared):
            if self.unit.text_of(cursor).startswith("&"):
                self.add(declared, None)

    def give(self, pointer: Any, value: Any) -> None:
        """Notes all that a value may be."""
        waiting = [value]
        while waiting:
            bare = bare_of(waiting.pop())
            kind = bare.kind.name
            if is_null(bare) or kind in ("GNU_NULL_EXPR", "CXX_NULL_PTR_LITERAL_EXPR"):
                continue
            if kind == "CONDITIONAL_OPERATOR":
                waiting += list(bare.get_children())[1:]
            elif kind in ("UNARY_OPERATOR", "ARRAY_SUBSCRIPT_EXPR", "INIT_LIST_EXPR"):
                waiting += list(bare.get_children())[: 1 if kind != "INIT_LIST_EXPR" else None]
            else:
                is_known = kind in REFERENCES and bare.referenced is not None
                self.add(pointer, bare.referenced if is_known else None, bare)

    def add(self, pointer: Any, to: Any, value: Any = None) -> None:
        """Notes a function or another pointer that a pointer is given, or None for what isn't known."""
        type = type_of(pointer)
        parameters, is_variadic = len(list(type.argument_types())), bool(type.is_function_variadic())
        keys, name = tuple(keys_of(to)) if to is not None else (), to.spelling if to is not None else ""
        for key in keys_of(pointer):
            known = (key, parameters, keys, name)
            if known in self.found:
                continue
            handings: Tuple[Handing, ...] = ()
            if to is not None and type_of(to):
                shape, place = self.callees.declared(to)[0].shape, self.unit.place_of(value.location)
                is_right = shape is not None and shape == Shape(shape.format, parameters if is_variadic else None)
                formats = ((shape.format, shape.format),) if shape and is_right else ()
                handings = (Handing(() if formats else keys, parameters_of(to), formats, name, *place),)
            against = "" if handings else LEFT
            self.found[known] = Candidate(key, pointer.spelling, parameters, is_variadic, handings, (), against, True)


def parameters_of(declared: Any) -> int:
    type = function_of(declared.type)
    return len(list(type.argument_types())) if type.kind.name == "FUNCTIONPROTO" else -1


def type_of(cursor: Any) -> Any:
    """Returns the type of a function with further arguments, or a list of them, that something is or points to, or
    None.
    """
    type = function_of(cursor.type)
    if type is None or type.kind.name != "FUNCTIONPROTO":
        return None
    return type if type.is_function_variadic() or any(map(is_list, type.argument_types())) else None
