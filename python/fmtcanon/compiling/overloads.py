"""Says whether a call of C++ could call another function elsewhere, or have arguments of other types, because a type
that is another there chooses an overload or what a template makes.
"""

import re
from typing import Any, Dict, Set

from .declared_types import CASTS, FUNCTIONS, OUTSIDE, REFERENCES, VARIABLES
from .formats import AROUND
from .libclang import cindex
from .parsing import Parsed

SCALARS = (
    "BOOL CHAR_U CHAR_S SCHAR UCHAR SHORT USHORT INT UINT LONG ULONG LONGLONG ULONGLONG FLOAT DOUBLE LONGDOUBLE ENUM"
).split()
LITERALS = ("INTEGER_LITERAL", "FLOATING_LITERAL", "CHARACTER_LITERAL", "STRING_LITERAL", "CXX_BOOL_LITERAL_EXPR")
# Expressions whose types follow from those of their parts, or are written.
PLAIN = {
    *LITERALS,
    *AROUND,
    *REFERENCES,
    *CASTS,
    "CXX_NULL_PTR_LITERAL_EXPR",
    "CXX_THIS_EXPR",
    "CXX_CONST_CAST_EXPR",
    "CXX_REINTERPRET_CAST_EXPR",
    "CXX_UNARY_EXPR",
    "ARRAY_SUBSCRIPT_EXPR",
    "BINARY_OPERATOR",
    "UNARY_OPERATOR",
    "COMPOUND_ASSIGNMENT_OPERATOR",
    "CONDITIONAL_OPERATOR",
    "NAMESPACE_REF",
    "TYPE_REF",
    "TEMPLATE_REF",
}
CALLED = (*FUNCTIONS, "CONSTRUCTOR", "CONVERSION_FUNCTION")
CLASSES = ("CLASS_DECL", "STRUCT_DECL", "UNION_DECL")
DECLARED = (*CALLED, "FUNCTION_TEMPLATE", "USING_DECLARATION")
# `long` in the name of a type, alone or in what it points to or is made of; `long long` is the same everywhere.
LONG = re.compile(r"(?<!long )\blong\b(?! long| double)")
# The most places of a name that are looked at.
MOST_PLACES = 1_000


class Overloads:
    """What is known of the functions of a unit."""

    def __init__(self, unit: Parsed) -> None:
        self.unit = unit
        self.only: Dict[str, bool] = {}
        self.text = unit.text.decode("latin-1")

    def is_settled(self, call: Any) -> bool:
        """Returns whether a call, and each that is in it, calls the same elsewhere, with arguments of types that are
        written or follow from those of their parts.
        """
        waiting = [call]
        while waiting:
            part = waiting.pop()
            kind = part.kind.name
            if kind == "CALL_EXPR":
                if not self.is_one(part):
                    return False
            elif kind not in PLAIN or (kind in REFERENCES and not is_written(part)):
                return False
            waiting += part.get_children()
        return True

    def is_one(self, call: Any) -> bool:
        """Returns whether a call has one function to call, or if its arguments choose among several, the same ones."""
        function = call.referenced
        if function is None or function.kind.name not in (*CALLED, *VARIABLES):
            return False
        if function.kind.name in VARIABLES:
            return True
        called = next(iter(call.get_children()), call)
        if function.spelling.isidentifier() and called.kind.name != "CALL_EXPR" and "<" in self.unit.text_of(called):
            # The arguments of a template are written, and may be sizes.
            return False
        parameters = len(list(function.type.argument_types()))
        chosen = list(call.get_arguments())[:parameters]
        return not any(map(could_be_another, chosen)) or self.is_only(function)

    def is_only(self, function: Any) -> bool:
        """Returns whether no other function in the text has the name of one."""
        name = function.spelling
        if function.kind.name not in FUNCTIONS or not name.isidentifier():
            return False
        if name not in self.only:
            self.only[name] = len(self.declared(name)) == 1
        return self.only[name]

    def declared(self, name: str) -> Set[int]:
        """Returns what tells apart the functions that have a name, or may have it."""
        found = set()
        for count, place in enumerate(re.finditer(rf"\b{name}\b", self.text)):
            cursor = self.unit.cursor_at(place.start())
            if count == MOST_PLACES:
                return set()
            if cursor.kind.name in DECLARED and cursor.spelling == name:
                found.add(cursor.canonical.hash)
        return found


def could_be_another(argument: Any) -> bool:
    """Returns whether the type of an argument could be another elsewhere, so that it could choose another function."""
    while argument.kind.name in AROUND:
        children = list(argument.get_children())
        if len(children) != 1:
            break
        argument = children[0]
    type = argument.type.get_canonical()
    if type.kind.name == "ENUM":
        type = type.get_declaration().enum_type.get_canonical()
    return bool(LONG.search(type.spelling))


def is_written(reference: Any) -> bool:
    """Returns whether what an expression refers to has a type that is written: that of a variable or a member isn't if
    it is deduced, or if a template makes it.
    """
    found = reference.referenced
    if found is None:
        return False
    return found.kind.name not in VARIABLES or not is_deduced(found.type)


def is_deduced(type: Any) -> bool:
    while True:
        kind = type.kind.name
        if kind == "ELABORATED":
            type = type.get_named_type()
        elif kind in ("POINTER", "LVALUEREFERENCE", "RVALUEREFERENCE"):
            type = type.get_pointee()
        elif kind in ("CONSTANTARRAY", "INCOMPLETEARRAY", "VARIABLEARRAY"):
            type = type.element_type
        elif kind == "TYPEDEF":
            declaration = type.get_declaration()
            if not is_fixed(declaration.semantic_parent):
                return True
            type = declaration.underlying_typedef_type
        else:
            is_class = kind == "UNEXPOSED" and type.get_canonical().kind.name == "RECORD"
            return kind not in (*SCALARS, "VOID", "RECORD", "FUNCTIONPROTO") and not is_class


def is_fixed(scope: Any) -> bool:
    """Returns whether what is declared in a scope depends on no parameter of a template."""
    if scope.kind.name in CLASSES:
        return cindex.conf.lib.clang_getSpecializedCursorTemplate(scope) is None and is_fixed(scope.semantic_parent)
    return scope.kind.name in OUTSIDE
