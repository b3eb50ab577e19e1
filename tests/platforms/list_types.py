"""Lists expressions of integers that headers declare: typedefs, members, results of functions, and macros.

Usage: list_types.py FOLDER HEADER.., where FOLDER/HEADER.i is what the preprocessor makes of a header, and
FOLDER/HEADER.macros what it prints with -dM. It prints a list of the expressions of each header in JSON.
"""

import json
import re
import sys
from pathlib import Path

from clang import cindex

INTEGERS = "BOOL CHAR_U UCHAR USHORT UINT ULONG ULONGLONG CHAR_S SCHAR SHORT INT LONG LONGLONG".split()
SHIMS = ["-D_Float128=__float128", "-D_Float64x=double", "-D_Float64=double", "-D_Float32x=double", "-D_Float32=float"]
# A macro without arguments, and what isn't an expression.
MACRO = re.compile(r"(?m)^#define ([A-Za-z_]\w*) (.+)$")
NO_EXPRESSION = re.compile(
    r'[{};#"\\]|\b(?:extern|typedef|struct|union|return|do|goto|if|else|asm|__asm__|__attribute__)\b'
)


def is_integer(type):
    return type.get_canonical().kind.name in INTEGERS


def members_of(type, before, depth=0):
    """The expressions of the members of a struct that are integers."""
    for field in type.get_canonical().get_fields():
        inner, name = field.type.get_canonical(), f"{before}.{field.spelling}" if field.spelling else before
        while inner.kind.name == "CONSTANTARRAY":
            inner, name = inner.element_type.get_canonical(), f"{name}[0]"
        if is_integer(inner):
            yield name
        elif inner.kind.name == "RECORD" and depth < 4:
            yield from members_of(inner, name, depth + 1)


def expressions_of(cursor):
    """The expressions of a declaration."""
    kind, name, type = cursor.kind.name, cursor.spelling, cursor.type
    if kind == "TYPEDEF_DECL" and is_integer(type):
        yield f"({name}) 0"
    elif kind == "TYPEDEF_DECL" and type.get_canonical().kind.name == "RECORD":
        yield from members_of(type, f"(*({name} *) 0)")
    elif (
        kind in ("STRUCT_DECL", "UNION_DECL")
        and cursor.is_definition()
        and re.fullmatch(r"(?:struct|union) \w+", type.spelling)
    ):
        yield from members_of(type, f"(*({type.spelling} *) 0)")
    elif kind == "FUNCTION_DECL" and is_integer(type.get_result()) and type.kind.name == "FUNCTIONPROTO":
        taken = [it.spelling for it in type.argument_types()]
        if not any("va_list" in it or "(" in it or "[" in it for it in taken):
            yield f"{name}({', '.join(f'*(__typeof__({it}) *) 0' for it in taken)})"
    elif kind == "VAR_DECL" and is_integer(type):
        yield name


def main(folder, *headers):
    seen = set()
    for header in headers:
        text = Path(folder, header.replace("/", "-") + ".i").read_text(errors="replace")
        unit = cindex.Index.create().parse(
            "/u.c", args=["-xc", "-w", "-undef", "-nostdinc", *SHIMS], unsaved_files=[("/u.c", text)]
        )
        listed = [it for cursor in unit.cursor.get_children() for it in expressions_of(cursor)]
        macros = Path(folder, header.replace("/", "-") + ".macros").read_text(errors="replace")
        listed += [name for name, value in MACRO.findall(macros) if not NO_EXPRESSION.search(value)]
        new = [it for it in dict.fromkeys(listed) if it not in seen]
        seen.update(new)
        print(json.dumps(new))


main(*sys.argv[1:])
