"""Which functions of a unit hand their format, and the arguments after it, on to one that prints as `vprintf` does:
they print as `printf` does, though nothing declares that.

A function hands its format on if it gives the parameter as it is, or translated, and a `va_list` that begins at its own
further arguments, or is its parameter. What speaks against it counts, too: if the list or the format goes to any other
place, the function may have directives of its own.
"""

import re
from typing import Any, Iterable, Iterator, List, Optional, Sequence, Set, Tuple

from ..source.attributes import returned_index
from ..source.known import BUILT_IN_PREFIX, GETTEXT, Shape
from .closure import LEFT, TAKING, Candidate, Handing
from .formats import AROUND, bare_of
from .functions import FUNCTIONS, Callees, is_list, is_system, keys_of
from .line_markers import SPACE
from .parsing import Parsed

# Where a function may begin a list of its further arguments, or have a parameter that is one. Patterns that begin with
# plain text are found several times faster.
START = re.compile(r"__builtin_va_start\s*\(")
LIST = re.compile(r"va_list\s+(?=\w)")
# In a function: the lists that begin at its arguments, the copies of these, and those that it takes arguments of.
STARTED = re.compile(rf"\b__builtin_va_start{SPACE}\({SPACE}\(?{SPACE}(\w+)")
COPIED = re.compile(rf"\b__builtin_va_copy{SPACE}\({SPACE}\(?{SPACE}(\w+){SPACE}\)?{SPACE},{SPACE}\(?{SPACE}(\w+)")
TAKEN = re.compile(rf"\b__builtin_va_arg{SPACE}\({SPACE}\(?{SPACE}[*&]?{SPACE}(\w+)")
CHARACTERS = ("CHAR_S", "CHAR_U", "SCHAR", "UCHAR")
# What begins, copies and ends a list.
OF_LISTS = ("__builtin_va_start", "__builtin_va_copy", "__builtin_va_end")
# Functions that only look at a text; the last return a place in it.
LOOKING = "strlen strnlen strcmp strncmp strcasecmp strncasecmp memcmp strspn strcspn".split()
FINDING = "strchr strrchr strstr strpbrk index".split()
# What becomes of a value: it is only looked at, it may go anywhere, or it is changed or its address is taken.
LOOKED_AT, GIVEN, CHANGED = "looked at", "given", "changed"
# An expression, and what becomes of its value.
Used = Tuple[Any, str]


def candidates_in(unit: Parsed, callees: Callees, spans: Iterable[Tuple[int, int]]) -> Iterator[Candidate]:
    """Yields the functions of a unit, in these parts of its text, that have lists of arguments."""
    plain, seen = unit.text.decode("latin-1"), set()
    for start, end in spans:
        for pattern in (START, LIST):
            for found in pattern.finditer(plain, start, end):
                at = found.start() if pattern is START else found.end()
                function = unit.cursor_at(at).semantic_parent
                if function is None or function.kind.name not in FUNCTIONS or function.hash in seen:
                    continue
                seen.add(function.hash)
                if function.is_definition() and not is_system(function):
                    shape = callees.declared(function)[0].shape
                    reading = Reading(unit, callees, function)
                    yield reading.declared(shape) if shape else reading.candidate()


class Reading:
    """What a function does with its parameters that may be formats, and with its further arguments."""

    def __init__(self, unit: Parsed, callees: Callees, function: Any) -> None:
        self.unit, self.callees, self.function = unit, callees, function
        self.parameters = list(function.get_arguments())
        self.indexes = {it.hash: index for index, it in enumerate(self.parameters)}
        self.is_variadic = bool(function.type.is_function_variadic())
        text = unit.text_of(function)
        self.lists: Set[str] = set(STARTED.findall(text))
        if not self.is_variadic:
            self.lists = {it.spelling for it in self.parameters if is_list(it.type)}
        copies = [it for it in COPIED.findall(text) if it[1] in self.lists]
        self.lists |= {it for it, _ in copies}
        self.against = TAKING if any(it in self.lists for it in TAKEN.findall(text)) else ""
        self.handings: List[Handing] = []
        # The parameters that go anywhere but to a function as its format.
        self.elsewhere: Set[int] = set()

    def declared(self, shape: Shape) -> Candidate:
        """Returns a function that is known by its declaration."""
        place = self.unit.place_of(self.function.location)
        self.handings = [Handing((), 0, ((shape.format, shape.format),), self.function.spelling, *place)]
        self.against = ""
        return self.made()

    def candidate(self) -> Candidate:
        """Returns a function by what it does."""
        waiting: List[Used] = [(self.function, LOOKED_AT)] if self.lists and not self.against else []
        while waiting:
            waiting += self.inside(*waiting.pop())
        return self.made()

    def made(self) -> Candidate:
        key, name, count = self.function.get_usr(), self.function.spelling, len(self.parameters)
        # The first in the text is named.
        handings = tuple(sorted(self.handings, key=lambda it: (it.file, it.line)))
        return Candidate(key, name, count, self.is_variadic, handings, tuple(sorted(self.elsewhere)), self.against)

    def inside(self, cursor: Any, use: str) -> Sequence[Used]:
        """Returns the parts of a statement or an expression, and what becomes of the value of each."""
        kind = cursor.kind.name
        if kind == "DECL_REF_EXPR":
            self.note(cursor, use)
            return ()
        if kind == "CALL_EXPR":
            return self.inside_call(cursor, use)
        children = list(cursor.get_children())
        if kind in AROUND:
            return [(it, use) for it in children]
        if kind == "CSTYLE_CAST_EXPR":
            return [(it, LOOKED_AT if cursor.type.kind.name == "VOID" else use) for it in children]
        if kind == "CONDITIONAL_OPERATOR":
            return [(children[0], LOOKED_AT), *((it, use) for it in children[1:])]
        if kind in ("ARRAY_SUBSCRIPT_EXPR", "UNARY_OPERATOR"):
            return [(it, self.use_in_place(cursor, kind, use)) for it in children]
        if kind in ("BINARY_OPERATOR", "COMPOUND_ASSIGNMENT_OPERATOR") and len(children) == 2:
            return self.operands(cursor, children, use)
        is_statement = kind.endswith("_STMT") and kind != "RETURN_STMT"
        return [(it, LOOKED_AT if is_statement or it.kind.name.endswith("_STMT") else GIVEN) for it in children]

    def use_in_place(self, cursor: Any, kind: str, use: str) -> str:
        """Returns what becomes of the operand of a subscript or a unary operator."""
        text = self.unit.text_of(cursor)
        if kind == "ARRAY_SUBSCRIPT_EXPR" or text.startswith("*"):
            return GIVEN if use == CHANGED else LOOKED_AT
        if text.startswith(("&", "++", "--")) or text.endswith(("++", "--")):
            return CHANGED
        return LOOKED_AT if text.startswith(("!", "sizeof")) else use

    def operands(self, cursor: Any, children: Sequence[Any], use: str) -> Sequence[Used]:
        """Returns the operands of an operator, and what becomes of them: a parameter may be replaced by its
        translation.
        """
        first, second = children
        operator = self.unit.operator_of(children)
        if operator == "=":
            index = self.parameter_of(first)
            return () if index is not None and self.format_of(second) == index else [(first, CHANGED), (second, GIVEN)]
        if cursor.kind.name == "COMPOUND_ASSIGNMENT_OPERATOR":
            return [(first, CHANGED), (second, GIVEN)]
        if operator == ",":
            return [(first, LOOKED_AT), (second, use)]
        is_pointer = cursor.type.get_canonical().kind.name == "POINTER"
        return [(it, GIVEN if is_pointer else LOOKED_AT) for it in children]

    def note(self, reference: Any, use: str) -> None:
        """Notes where a list or a parameter is named, but not given to what may print it."""
        if reference.spelling in self.lists and is_list(reference.type):
            self.against = self.against or LEFT
        index = self.parameter_of(reference)
        if index is not None and use != LOOKED_AT:
            self.elsewhere.add(index)

    def inside_call(self, call: Any, use: str) -> Sequence[Used]:
        """Returns the arguments of a call that may go anywhere, and notes those that it prints."""
        arguments = list(call.get_arguments())
        if call.spelling in OF_LISTS:
            return ()
        function = [(it, LOOKED_AT) for it in list(call.get_children())[: -len(arguments) or None]]
        lists = [at for at, it in enumerate(arguments) if self.is_own_list(it)]
        callee = self.callees.callee(call)
        if not lists:
            name = call.spelling[len(BUILT_IN_PREFIX) :] if call.spelling.startswith(BUILT_IN_PREFIX) else call.spelling
            looked = LOOKED_AT if name in LOOKING else use if name in FINDING else GIVEN
            at = callee.shape.format if callee and callee.shape else -1
            return [*function, *((it, LOOKED_AT if index == at else looked) for index, it in enumerate(arguments))]
        pairs = [(own, at) for at, it in enumerate(arguments) for own in [self.format_of(it)] if own is not None]
        if callee and callee.shape:
            pairs = [it for it in pairs if callee.shape.first is None and it[1] == callee.shape.format]
            self.hand_on(call, (), callee.name, pairs)
        else:
            declared = call.referenced
            keys = tuple(keys_of(declared)) if declared is not None else ()
            self.hand_on(call, keys, declared.spelling if keys else "", pairs if keys else [])
        handed = {*lists, *(at for _, at in pairs)}
        return [*function, *((it, GIVEN) for at, it in enumerate(arguments) if at not in handed)]

    def hand_on(self, call: Any, keys: Tuple[str, ...], name: str, pairs: Sequence[Tuple[int, int]]) -> None:
        """Notes that a list is handed on, with parameters that may be its format; without any it goes elsewhere."""
        if pairs:
            place = self.unit.place_of(call.location)
            self.handings.append(Handing(keys, len(list(call.get_arguments())), tuple(pairs), name, *place))
        else:
            self.against = self.against or LEFT

    def is_own_list(self, argument: Any) -> bool:
        """Returns whether an argument is a list of the function's own arguments."""
        bare = bare_of(argument)
        return bare.kind.name == "DECL_REF_EXPR" and bare.spelling in self.lists and is_list(bare.type)

    def format_of(self, argument: Any) -> Optional[int]:
        """Returns the index of the parameter that an expression is, as it is or translated."""
        bare = bare_of(argument)
        if bare.kind.name == "CALL_EXPR":
            inside = [self.parameter_of(it) for it in translated(bare, self.unit)]
            return next((it for it in inside if it is not None), None)
        return self.parameter_of(bare)

    def parameter_of(self, cursor: Any) -> Optional[int]:
        """Returns the index of the parameter, a pointer to characters, that an expression is."""
        bare = bare_of(cursor)
        declared = bare.referenced if bare.kind.name == "DECL_REF_EXPR" else None
        if declared is None or declared.kind.name != "PARM_DECL":
            return None
        type = declared.type.get_canonical()
        is_text = type.kind.name == "POINTER" and type.get_pointee().get_canonical().kind.name in CHARACTERS
        return self.indexes.get(declared.hash) if is_text else None


def translated(call: Any, unit: Parsed) -> List[Any]:
    """Returns the arguments of a call that it returns translated."""
    function, arguments = call.referenced, list(call.get_arguments())
    if function is None:
        return []
    numbers = [it for it in map(returned_index, unit.attributes_of(function)) if it is not None]
    if numbers:
        return [arguments[it - 1] for it in numbers if 0 < it <= len(arguments)]
    return arguments if GETTEXT.fullmatch(function.spelling) else []
