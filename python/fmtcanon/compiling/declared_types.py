"""What the source declares the type of an expression as: `long`, which it is on every platform then, or a typedef of
the C library, whose type on each platform is known.
"""

from typing import Any, List, Set

from .formats import AROUND, unparenthesized
from .functions import is_system
from .parsing import Parsed
from .platforms import COMPILED, FILE_TYPES, OF_FILES, OF_TIMES, PLATFORMS
from .retargeting import TYPE_MARK

REFERENCES = ("DECL_REF_EXPR", "MEMBER_REF_EXPR")
CASTS = ("CSTYLE_CAST_EXPR", "CXX_STATIC_CAST_EXPR", "CXX_FUNCTIONAL_CAST_EXPR")
OPERATORS = ("BINARY_OPERATOR", "UNARY_OPERATOR", "CONDITIONAL_OPERATOR")
# The operators whose result has the type that both operands are converted to; and types that `int` has all values of.
ARITHMETIC = tuple("+-*/%&|^")
SMALL = ("BOOL", "CHAR_S", "CHAR_U", "SCHAR", "UCHAR", "SHORT", "USHORT", "INT")
VARIABLES = ("VAR_DECL", "PARM_DECL", "FIELD_DECL")
FUNCTIONS = ("FUNCTION_DECL", "CXX_METHOD")
# Where typedefs are whose types depend on no parameter of a template.
OUTSIDE = ("TRANSLATION_UNIT", "NAMESPACE", "LINKAGE_SPEC", "UNEXPOSED_DECL", "FUNCTION_DECL")
# A unit may ask for other types of these; and a function whose result has another type in the C library of Windows.
ASKED_FOR = {*OF_FILES, *OF_TIMES, *FILE_TYPES}
OTHER_RESULT = "__ctype_get_mb_cur_max"
LONGS = ("long", "unsigned long")
# The typedefs that are `long` where a unit is compiled, and have a type elsewhere that isn't promoted.
TYPEDEFS = {
    name: type
    for name, type in COMPILED.types.items()
    if type in LONGS and name not in ASKED_FOR and not any("short" in it.types[name] for it in PLATFORMS)
}


def is_declared_long(cursor: Any) -> bool:
    """Returns whether an expression is a cast to `long` by that name, or what the source declares so: not a typedef,
    whose type may be another elsewhere, nor a member of the C library's or a bit-field. A call of a function that clang
    knows has its result's type without the name of the typedef.
    """
    return cursor.kind.name == CASTS[0] or is_own_variable(cursor)


def is_own_variable(cursor: Any) -> bool:
    """Returns whether an expression is a variable or a member that has the type of its declaration on every platform.
    """
    found = cursor.referenced if cursor.kind.name in REFERENCES else None
    if found is None or found.kind.name not in VARIABLES:
        return False
    return found.kind.name != "FIELD_DECL" or not (is_system(found) or found.is_bitfield())


def typedef_of(cursor: Any, unit: Parsed) -> str:
    """Returns the name of the typedef of the C library that the type of an expression is declared with, or nothing."""
    kind = cursor.kind.name
    if kind == "CXX_UNARY_EXPR":
        return "size_t"
    if kind in CASTS:
        return named_by(cursor.type)
    if kind in REFERENCES:
        return named_by(cursor.referenced.type) if is_own_variable(cursor) else ""
    if kind == "CALL_EXPR":
        function = cursor.referenced
        is_known = function is not None and function.kind.name in FUNCTIONS and function.spelling != OTHER_RESULT
        return named_by(function.result_type) if is_known else ""
    is_indirect = kind == "UNARY_OPERATOR" and unit.text_of(cursor).startswith("*")
    if is_indirect or kind == "ARRAY_SUBSCRIPT_EXPR":
        pointer = unparenthesized(next(iter(cursor.get_children()), cursor))
        return named_by(cursor.type) if is_own_variable(pointer) else ""
    return typedef_of_operands(cursor, unit) if kind in OPERATORS else ""


def typedef_of_operands(cursor: Any, unit: Parsed) -> str:
    """Returns the name of the typedef that all operands of an expression have which are `long`, if the others are
    converted to it on each platform, or nothing.
    """
    names: Set[str] = set()
    has_unsigned, waiting = False, operands_of(cursor, unit)
    while waiting:
        part = unparenthesized(waiting.pop())
        kind = part.type.get_canonical().kind.name
        has_unsigned = has_unsigned or kind == "UINT"
        if kind in ("LONG", "ULONG"):
            operands = operands_of(part, unit)
            waiting += operands
            names.update(() if operands else [typedef_of(part, unit)])
        elif kind not in (*SMALL, "UINT"):
            return ""
    name = names.pop() if len(names) == 1 else ""
    return "" if has_unsigned and TYPEDEFS.get(name) == "long" else name


def operands_of(cursor: Any, unit: Parsed) -> List[Any]:
    """Returns the operands that give an expression its type; none if it is anything else."""
    kind, children = cursor.kind.name, list(cursor.get_children())
    if kind == "CONDITIONAL_OPERATOR":
        return children[1:]
    if kind == "UNARY_OPERATOR":
        return children if unit.text_of(cursor).startswith(("+", "-", "~")) else []
    is_known = kind == "BINARY_OPERATOR" and unit.operator_of(children) in ARITHMETIC
    return children if is_known else []


def named_by(type: Any) -> str:
    """Returns the name of the typedef of the C library that names a type, or nothing."""
    while True:
        kind = type.kind.name
        if kind == "ELABORATED":
            type = type.get_named_type()
        elif kind == "LVALUEREFERENCE":
            type = type.get_pointee()
        elif kind == "TYPEDEF":
            declaration = type.get_declaration()
            name, type = str(declaration.spelling), declaration.underlying_typedef_type
            if name.startswith(TYPE_MARK):
                return name[len(TYPE_MARK) :] if name[len(TYPE_MARK) :] in TYPEDEFS else ""
            # One that another platform's text has as it is begins with another name, or has an attribute.
            if is_system(declaration) and type.spelling == TYPEDEFS.get(name):
                return name
            if declaration.semantic_parent.kind.name not in OUTSIDE:
                return ""
        else:
            return ""


def part_name(cursor: Any) -> str:
    """Returns the name of the typedef of the C library that the first operand of an operator has for its type, of those
    that have the type of the whole, or nothing.
    """
    waiting, whole = [cursor], cursor.type.get_canonical().spelling
    while waiting:
        part = unparenthesized(waiting.pop())
        if part.kind.name in OPERATORS:
            children = list(part.get_children())
            waiting += reversed(children[1:] if part.kind.name == "CONDITIONAL_OPERATOR" else children)
        elif part is not cursor and part.type.get_canonical().spelling == whole:
            found = "size_t" if part.kind.name == "CXX_UNARY_EXPR" else library_name(part.type)
            if found:
                return found
    return ""


def library_name(type: Any) -> str:
    """Returns the first typedef of the C library in the names of a type, or nothing."""
    while type.kind.name in ("ELABORATED", "TYPEDEF"):
        if type.kind.name == "ELABORATED":
            type = type.get_named_type()
            continue
        declaration = type.get_declaration()
        name = str(declaration.spelling).replace(TYPE_MARK, "")
        name = name[2:] if name[:2] == "__" else name
        if name in COMPILED.types:
            return name
        type = declaration.underlying_typedef_type
    return ""
