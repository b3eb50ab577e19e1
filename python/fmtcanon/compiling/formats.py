"""What may be the format of a call: the string literals that the value of an expression may be."""

import ctypes
import re
from typing import Any, Dict, Iterator, List, NamedTuple, Optional, Sequence, Tuple

from ..source.attributes import returned_index
from ..source.known import GETTEXT
from .libclang import cindex
from .parsing import LINE_MARKER, TYPEDEF_DECL, VISIT_INSIDE, Parsed
from .retargeting import PRI_MARK

# Kinds of what is around an expression without a change of its value.
AROUND = ("UNEXPOSED_EXPR", "PAREN_EXPR")
TOKEN = re.compile(r'(?:u8)?("(?:[^"\\]|\\.)*")\s*(?:' + PRI_MARK + ")?", re.DOTALL)
TRIGRAPH, NEXT_MARK = re.compile(r"\?\?[=/'()!<>-]"), re.compile(r"(?<=\?)\?")
MARK_AFTER = re.compile(r"\s*" + PRI_MARK)
# The longest text of a mark, and what is before it.
LONGEST_MARK = 64
CHOOSE = "__builtin_choose_expr"
IS_TYPE = re.compile(r"(?:(?:const|volatile|(?:un)?signed|char|short|int|long|float|double|_Bool|void|\*)\s*)+")
QUALIFIERS = ("const", "volatile", "restrict")
# The most parts of an expression that are looked at.
MOST_PARTS = 10_000
# How the C interface of libclang numbers an integer as the result of an evaluation.
IS_INTEGER = 1


class Literal(NamedTuple):
    """A string literal in the text, and the PRI macro that made it, or an empty name."""

    source: str
    macro: str = ""


class Format(NamedTuple):
    """What may be the format of a call: its literals together, and as the text has them; how many of the first bytes
    are left out, as in `"x%d" + 1`; and the file and the line where it begins.
    """

    source: str
    tokens: Tuple[Literal, ...]
    skipped: int = 0
    place: Tuple[str, int] = ("", 0)


# An expression whose value is another's, and how many bytes further that one's begins.
Inside = Tuple[Any, int]


class Formats:
    """Reads what may be the formats in the text of a unit."""

    def __init__(self, unit: Parsed) -> None:
        self.unit = unit
        # The typedefs of the unit, if a format needs them.
        self.typedefs: Optional[List[Any]] = None
        # Whether a value that was computed chose a format, or where one begins: it may be another elsewhere.
        self.is_computed = False

    def read(self, cursor: Any) -> Iterator[Optional[Format]]:
        """Yields the formats that the value of an expression may be, and None for what can't be read. Exceptions of
        libclang's visitors are lost, so nothing here is as deep as the expression.
        """
        bare = unparenthesized(cursor)
        if bare.kind.name == "STRING_LITERAL":
            yield self.format_of(bare, 0)
            return
        waiting: List[Inside] = [(cursor, 0)]
        for _ in range(MOST_PARTS):
            if not waiting:
                return
            part, skipped = waiting.pop()
            if part.kind.name == "STRING_LITERAL":
                yield self.format_of(part, skipped) if skipped >= 0 else None
            elif not is_null(part):
                inside = self.inside(part)
                if not inside:
                    yield None
                waiting += [(child, skipped + more) for child, more in reversed(inside)]
        yield None

    def format_of(self, literal: Any, skipped: int) -> Format:
        text, end = self.unit.text_of(literal), literal.extent.end.offset
        mark = MARK_AFTER.match(self.unit.text[end : end + LONGEST_MARK].decode(errors="replace"))
        text = LINE_MARKER.sub("", text + (mark.group() if mark else ""))
        tokens = tuple(Literal(it[1], it[2] or "") for it in TOKEN.finditer(text))
        source = literal.spelling
        if not any(TRIGRAPH.search(it.source) for it in tokens):
            # libclang's own spelling of a literal leaves out what keeps question marks from being a trigraph.
            source = NEXT_MARK.sub(r"\?", source)
        plain = source[source.index('"') :] if source.startswith("u8") else source
        return Format(plain, tokens, skipped, self.unit.place_of(literal.location))

    def inside(self, cursor: Any) -> Sequence[Inside]:
        """Returns the expressions whose value an expression may have; none if that can't be read."""
        kind, children = cursor.kind.name, list(cursor.get_children())
        if kind == "DECL_REF_EXPR" and is_constant(cursor.referenced):
            return [(it, 0) for it in list(cursor.referenced.get_children())[-1:]]
        if kind == "CALL_EXPR":
            return [(it, 0) for it in self.returned(cursor)]
        if not children:
            return []
        if kind in (*AROUND, "CSTYLE_CAST_EXPR"):
            return [(it, 0) for it in self.unwrapped(cursor, children)]
        if kind == "CONDITIONAL_OPERATOR":
            value = self.value_of(children[0])
            return [(it, 0) for it in (children[1:] if value is None else [children[1 if value else 2]])]
        if kind == "GENERIC_SELECTION_EXPR":
            return [(it, 0) for it in self.selected(cursor, children)]
        if kind in ("COMPOUND_LITERAL_EXPR", "INIT_LIST_EXPR") and len(children) <= 2:
            return [(it, 0) for it in children[-1:] if it.kind.name in ("INIT_LIST_EXPR", "STRING_LITERAL")]
        if kind == "StmtExpr":
            return [(it, 0) for it in list(children[-1].get_children())[-1:]]
        if kind in ("BINARY_OPERATOR", "UNARY_OPERATOR"):
            return self.computed(cursor, children)
        return []

    def unwrapped(self, cursor: Any, children: Sequence[Any]) -> Sequence[Any]:
        """Returns what is in an expression that libclang has no kind for, in parentheses, or in a cast."""
        if len(children) == 1 or cursor.kind.name == "CSTYLE_CAST_EXPR":
            return children[-1:]
        text = self.unit.text_of(cursor)
        if len(children) == 3 and text.startswith(CHOOSE):
            value = self.value_of(children[0])
            return [] if value is None else [children[1 if value else 2]]
        # `a ?: b`, whose `a` comes three times.
        return [children[0], children[3]] if len(children) == 4 else []

    def computed(self, cursor: Any, children: Sequence[Any]) -> Sequence[Inside]:
        """Returns what a comma, an addition, `__extension__` or the address of an element begins with."""
        if cursor.kind.name == "UNARY_OPERATOR":
            text = self.unit.text_of(cursor)
            if text.startswith("__extension__"):
                return [(children[0], 0)]
            element, is_address = unparenthesized(children[0]), text.startswith("&")
            parts = list(element.get_children())
            is_element = is_address and element.kind.name == "ARRAY_SUBSCRIPT_EXPR" and len(parts) == 2
            return self.moved(parts[0], parts[1], 1) if is_element else []
        first, second = children[0].extent.end.offset, children[1].extent.start.offset
        between = LINE_MARKER.sub("", self.unit.text[first:second].decode(errors="replace")).strip()
        if between == ",":
            return [(children[1], 0)]
        if between == "+" and children[1].type.get_canonical().kind.name == "POINTER":
            return self.moved(children[1], children[0], 1)
        return self.moved(children[0], children[1], 1 if between == "+" else -1) if between in ("+", "-") else []

    def value_of(self, cursor: Any) -> Optional[int]:
        """Returns the value of an expression that chooses, or None."""
        value = integer_of(cursor)
        self.is_computed = self.is_computed or value is not None
        return value

    def moved(self, pointer: Any, number: Any, sign: int) -> List[Inside]:
        """Returns where a pointer points if a constant number is added; nothing if it isn't a constant."""
        value = self.value_of(number)
        return [] if value is None else [(pointer, sign * value)]

    def selected(self, cursor: Any, children: Sequence[Any]) -> Sequence[Any]:
        """Returns the expression that `_Generic` selects by the names of types before each; none if that isn't known.
        """
        wanted, default = type_name_of(children[0].type.get_canonical().spelling), []
        typedefs = self.typedefs_before(cursor)
        for before, child in zip(children, children[1:]):
            text = self.unit.text[before.extent.end.offset : child.extent.start.offset].decode(errors="replace")
            name = LINE_MARKER.sub("", text).strip().lstrip(",)").strip().rstrip("(").strip()[:-1].strip()
            if name == "default":
                default = [child]
                continue
            known = typedefs.get(name)
            spelled = known.underlying_typedef_type.get_canonical().spelling if known else name
            if type_name_of(spelled) == wanted:
                return [child]
            if not known and not IS_TYPE.fullmatch(name):
                return []
        return default

    def typedefs_before(self, cursor: Any) -> Dict[str, Any]:
        """Returns the typedefs in the text before a cursor, by their names."""
        if self.typedefs is None:
            self.typedefs = []
            self.unit.visit(self.note_typedef)
        start = cursor.extent.start.offset
        return {it.spelling: it for it in self.typedefs if it.location.offset < start}

    def note_typedef(self, cursor: Any) -> int:
        if cursor._kind_id == TYPEDEF_DECL and self.typedefs is not None:
            self.typedefs.append(cursor)
        return VISIT_INSIDE

    def returned(self, call: Any) -> Sequence[Any]:
        """Returns the arguments that a function returns as they are or translated: by its attributes, or its name."""
        function, arguments = call.referenced, list(call.get_arguments())
        if function is None:
            return []
        numbers = [it for it in map(returned_index, self.unit.attributes_of(function)) if it is not None]
        if numbers:
            return [arguments[it - 1] for it in numbers if 0 < it <= len(arguments)]
        if not GETTEXT.fullmatch(function.spelling):
            return []
        # The name of a domain may be a variable, and a number comes after the messages.
        literals = [it for it in arguments if any(self.read(it))]
        return literals or arguments[:1]


def type_name_of(spelling: str) -> str:
    """Returns a name of an unqualified type that all spellings of it have in common."""
    words = re.findall(r"\w+|\S", spelling)
    at = words.index("*") if "*" in words else len(words)
    base, rest = [it for it in words[:at] if at < len(words) or it not in QUALIFIERS], words[at:]
    while rest and rest[-1] in QUALIFIERS:
        rest.pop()
    is_long = any(it in base for it in ("long", "short", "unsigned"))
    kept = [it for it in base if it != "signed" or "char" in base]
    kept = [it for it in kept if it != "int" or not is_long] or ["int"]
    return " ".join([*sorted(kept), *rest])


def integer_of(cursor: Any) -> Optional[int]:
    """Returns the value of a constant integer expression, or None."""
    library = cindex.conf.lib
    library.clang_Cursor_Evaluate.argtypes, library.clang_Cursor_Evaluate.restype = [cindex.Cursor], ctypes.c_void_p
    for name in ("clang_EvalResult_getKind", "clang_EvalResult_getAsInt", "clang_EvalResult_dispose"):
        getattr(library, name).argtypes = [ctypes.c_void_p]
    result = library.clang_Cursor_Evaluate(cursor)
    if not result:
        return None
    is_integer = library.clang_EvalResult_getKind(result) == IS_INTEGER
    value = int(library.clang_EvalResult_getAsInt(result)) if is_integer else None
    library.clang_EvalResult_dispose(result)
    return value


def unparenthesized(cursor: Any) -> Any:
    """Returns what is in parentheses."""
    while cursor.kind.name in AROUND:
        children = list(cursor.get_children())
        if len(children) != 1:
            break
        cursor = children[0]
    return cursor


def bare_of(cursor: Any) -> Any:
    """Returns what is in parentheses and casts."""
    while cursor.kind.name in (*AROUND, "CSTYLE_CAST_EXPR"):
        children = list(cursor.get_children())
        if not children:
            break
        cursor = children[-1]
    return cursor


def is_null(cursor: Any) -> bool:
    """Returns whether an expression is a null pointer, which no call prints."""
    while cursor.kind.name in (*AROUND, "CSTYLE_CAST_EXPR"):
        children = list(cursor.get_children())
        if len(children) != 1:
            return False
        cursor = children[0]
    return cursor.kind.name == "INTEGER_LITERAL" and integer_of(cursor) == 0


def is_constant(variable: Any) -> bool:
    """Returns whether a cursor is an array of constant characters, or a constant pointer to such."""
    if variable is None or variable.kind.name != "VAR_DECL":
        return False
    type = variable.type
    if type.kind.name == "CONSTANTARRAY":
        return bool(type.element_type.is_const_qualified())
    return bool(type.kind.name == "POINTER" and type.is_const_qualified() and type.get_pointee().is_const_qualified())
