"""Which functions are known to take a format: by an option, by an attribute, or as the C library's."""

import re
from typing import AbstractSet, Any, Dict, Iterator, List, Mapping, NamedTuple, Optional, Sequence, Tuple

from ..source.attributes import FORMAT
from ..source.known import BUILT_IN, BUILT_IN_PREFIX, KNOWN, Shape
from .formats import AROUND
from .libclang import cindex
from .parsing import Parsed, has_prototype

DECLARED = ("FUNCTION_DECL", "VAR_DECL", "FIELD_DECL", "PARM_DECL")
FUNCTIONS = ("FUNCTION_DECL", "CXX_METHOD")
REFERENCES = ("DECL_REF_EXPR", "MEMBER_REF_EXPR")
OFFSET = re.compile(r"(?<=\w)@\d+@(?=F@)")
ARRAYS = ("CONSTANTARRAY", "INCOMPLETEARRAY", "VARIABLEARRAY")


class Wrapper(NamedTuple):
    """A function that hands its format on to another, or a pointer that is given one that prints as `printf` does: how
    many parameters it has, where its format is, the name of the other, and where that is.
    """

    parameters: int
    shape: Shape
    to: str
    file: str
    line: int
    is_given: bool = False


class Functions(NamedTuple):
    """What is known of functions: where some have their formats, by the options, whether attributes count, those that
    hand their formats on, by what tells them apart; whether those of a unit count that nothing else does; and the names
    of those that a unit may call, if it was read before.
    """

    given: Mapping[str, Shape] = {}
    by_attribute: bool = True
    found: Mapping[str, Tuple[Wrapper, ...]] = {}
    with_own: bool = False
    callable: AbstractSet[str] = frozenset()


class Callee(NamedTuple):
    """What a call calls: its name, where it has its format, if it has one, and whether that is said by an option or an
    attribute.

    `doubt` is why it may be another function than that of the C library with its name: compilers take it for that all
    the same if it has a shape. `last` is the index of the last parameter of a variadic function that isn't known, and
    may have a format there. `has_prototype` is whether a function with a name of the C library has one.
    """

    name: str
    shape: Optional[Shape]
    is_chosen: bool = False
    doubt: str = ""
    last: Optional[int] = None
    has_prototype: bool = True
    key: str = ""
    is_library: bool = False
    keys: Tuple[str, ...] = ()


class Callees:
    """What the calls in the text of a unit call."""

    def __init__(self, unit: Parsed, functions: Functions) -> None:
        self.unit, self.functions = unit, functions
        # By what is declared: that, and whether a call that refers to it calls nothing else.
        self.known: Dict[Any, Tuple[Callee, bool]] = {}

    def callee(self, call: Any) -> Optional[Callee]:
        """Returns what a call calls, of several the first that has a format; None if nothing is known of that."""
        declaration = call.referenced
        if declaration is not None and declaration.kind.name in DECLARED:
            callee, is_all = self.declared(declaration)
            if is_all:
                return callee
        called = next(iter(call.get_children()), None)
        found = list(self.callees(called)) if called is not None else []
        return next((it for it in found if it.shape), found[0] if found else None)

    def declared(self, declaration: Any) -> Tuple[Callee, bool]:
        """Returns a function or a pointer, and whether it returns no pointer that a call could call."""
        if declaration.hash not in self.known:
            type, callee = function_of(declaration.type), self.known_as(declaration)
            if not callee.shape and self.functions.found:
                callee = self.handing(declaration, callee)
            if type and not callee.shape and not is_system(declaration):
                is_known = type.kind.name == "FUNCTIONPROTO" or callee.name not in KNOWN
                last = self.last_of(declaration, type)
                keys = tuple(keys_of(declaration)) if last is not None else ()
                callee = callee._replace(last=last, has_prototype=is_known, keys=keys)
            is_all = type is not None and function_of(type.get_result()) is None
            self.known[declaration.hash] = callee, is_all
        return self.known[declaration.hash]

    def handing(self, declaration: Any, callee: Callee) -> Callee:
        """Returns a function as one that hands its format on, or a pointer as one that is given such a function, if it
        is one of these by its name and its parameters.
        """
        type = function_of(declaration.type)
        if type is None or type.kind.name != "FUNCTIONPROTO":
            return callee
        for key in keys_of(declaration):
            for one in self.functions.found.get(key, ()):
                is_variadic = one.shape.first is not None
                if len(list(type.argument_types())) == one.parameters and type.is_function_variadic() == is_variadic:
                    return callee._replace(shape=one.shape, doubt="", key=key)
        return callee

    def last_of(self, declaration: Any, type: Any) -> Optional[int]:
        """Returns the index of the last parameter of a variadic function without an attribute `format`."""
        if type.kind.name != "FUNCTIONPROTO" or not type.is_function_variadic():
            return None
        is_other = any(map(FORMAT.match, self.unit.attributes_of(declaration)))
        return None if is_other else len(list(type.argument_types())) - 1

    def callees(self, called: Any) -> Iterator[Callee]:
        """Yields what an expression may call."""
        waiting = [called]
        while waiting:
            part = waiting.pop()
            kind, children = part.kind.name, list(part.get_children())
            declaration = part.referenced if kind in REFERENCES else None
            if declaration is not None:
                yield self.declared(declaration)[0]
                continue
            if kind in ("CALL_EXPR", "CSTYLE_CAST_EXPR"):
                yield Callee(self.unit.text_of(part), self.shape_of_type(part.type))
            waiting += reversed(inside(kind, children))

    def known_as(self, declaration: Any) -> Callee:
        """Returns what is declared, with where it has its format."""
        name = declaration.spelling
        given = self.functions.given.get(name) or self.shape_by_attribute(declaration)
        if declaration.kind.name != "FUNCTION_DECL":
            return Callee(name, given, given is not None)
        library = self.of_library(declaration)
        return library if not given else Callee(name, given, True, is_library=library.is_library)

    def shape_by_attribute(self, declaration: Any) -> Optional[Shape]:
        """Returns what the attributes of a declaration, of the first one of its function, or of its type say."""
        if not self.functions.by_attribute:
            return None
        found = map(self.unit.format_by_attribute, (declaration, declaration.canonical))
        return next(filter(None, found), None) or self.shape_of_type(declaration.type)

    def shape_of_type(self, type: Any) -> Optional[Shape]:
        """Returns what the attributes of typedefs say that a type is made of."""
        return next(filter(None, map(self.unit.format_by_attribute, typedefs_of(type))), None)

    def of_library(self, function: Any) -> Callee:
        """Returns a function with its shape if it is the C library's, or one that compilers know by its name."""
        name = function.spelling
        is_built_in = name.startswith(BUILT_IN_PREFIX)
        known = KNOWN.get(name[len(BUILT_IN_PREFIX) :] if is_built_in else name)
        if not known:
            return Callee(name, None)
        doubt = "" if is_built_in else self.unit.why_another(function, known) or ""
        # Without a prototype it has that which compilers know.
        own = function if function.type.get_canonical().kind.name == "FUNCTIONPROTO" else function.canonical
        is_known = not doubt or (name in BUILT_IN and has_prototype(own, known))
        return Callee(name, Shape(known.index, known.first) if is_known else None, doubt=doubt, is_library=not doubt)


def keys_of(declaration: Any) -> Iterator[str]:
    """Yields what tells a function apart, or a pointer to one: the typedefs of its type, and its own name, or that of
    its function and its index if it is a parameter.
    """
    kind = declaration.kind.name
    if kind != "FUNCTION_DECL":
        for typedef in typedefs_of(declaration.type):
            if function_of(typedef.underlying_typedef_type):
                # In C the key of a typedef has the name of its file.
                yield "@T@" + str(typedef.get_usr()).rpartition("@T@")[2]
    function = declaration.semantic_parent if kind == "PARM_DECL" else None
    if function is None or function.kind.name not in FUNCTIONS:
        # That of a local variable has its offset, which is another on each platform.
        yield OFFSET.sub("@", str(declaration.get_usr()))
        return
    for index, parameter in enumerate(function.get_arguments()):
        if parameter.hash == declaration.hash:
            yield f"{function.get_usr()}#{index}"


def function_of(type: Any) -> Any:
    """Returns the type of a function that a type is or points to, or None."""
    type = type.get_canonical()
    while type.kind.name in ("POINTER", *ARRAYS):
        type = (type.get_pointee() if type.kind.name == "POINTER" else type.element_type).get_canonical()
    return type if type.kind.name in ("FUNCTIONPROTO", "FUNCTIONNOPROTO") else None


def is_list(type: Any) -> bool:
    """Returns whether a type is that of a `va_list`, or what it is as a parameter."""
    spelling = type.get_canonical().spelling
    return "__va_list_tag" in spelling or "__builtin_va_list" in spelling


def is_system(declaration: Any) -> bool:
    return bool(cindex.conf.lib.clang_Location_isInSystemHeader(declaration.location))


def inside(kind: str, children: Sequence[Any]) -> List[Any]:
    """Returns the expressions that an expression of this kind may call."""
    if kind == "CONDITIONAL_OPERATOR":
        return list(children[1:])
    if kind == "ARRAY_SUBSCRIPT_EXPR":
        return list(children[:1])
    if kind == "StmtExpr":
        return list(children[-1].get_children())[-1:]
    return list(children[-1:]) if kind in (*AROUND, "UNARY_OPERATOR", "BINARY_OPERATOR") else []


def typedefs_of(type: Any) -> Iterator[Any]:
    """Yields the typedefs that a type, an element of it, or what it points to is named by."""
    while True:
        kind = type.kind.name
        if kind == "TYPEDEF":
            declaration = type.get_declaration()
            yield declaration
            type = declaration.underlying_typedef_type
        elif kind == "ELABORATED":
            type = type.get_named_type()
        elif kind == "POINTER":
            type = type.get_pointee()
        elif kind in ARRAYS:
            type = type.element_type
        else:
            return
