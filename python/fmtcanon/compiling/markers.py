"""What libclang finds in preprocessed text: which call has a marker as its format."""

import os
import re
from typing import Any, Dict, List, Optional, Set

from ..source.known import GETTEXT, KNOWN
from .calls import Calls
from .closure import own_among
from .compile_commands import CompileCommand
from .functions import Callees, Functions, keys_of
from .left import Left
from .parsing import CALL_EXPR, FUNCTION_DECL, SCOPES, TYPES, VISIT_INSIDE, VISIT_NEXT
from .retargeting import own_spans
from .wrappers import candidates_in

# An attribute that has another function's code run under a name.
ALIAS = re.compile(r"(?<![\w$])_*(alias|weakref|ifunc)(?![\w$])")


class Marker:
    """The text of the literal that replaces a place, while libclang looks at a file."""

    def __init__(self) -> None:
        self.tag = os.urandom(8).hex()
        self.pattern = re.compile(f'"fmtcanon_{self.tag}_(\\d+)_"')

    def literal(self, number: int) -> bytes:
        return f'"fmtcanon_{self.tag}_{number}_"'.encode()

    def number(self, literal: str) -> Optional[int]:
        """Returns the number of the place that a literal replaces, or None if it isn't just a marker."""
        found = self.pattern.fullmatch(literal)
        return int(found[1]) if found else None

    def numbers(self, word: bytes) -> List[int]:
        """Returns the numbers of the places whose markers are in a token."""
        return (
            [int(it) for it in re.findall(f"fmtcanon_{self.tag}_(\\d+)_".encode(), word)]
            if b"fmtcanon_" in word
            else []
        )


class MarkedCalls(Calls):
    """The calls in preprocessed text that have a marker among their arguments."""

    def __init__(self, command: CompileCommand, text: bytes, marker: Marker, functions: Functions) -> None:
        super().__init__(command, text, functions)
        errors = self.errors()
        if errors:
            raise Left(f"libclang can't parse it: {errors[0]}")
        self.marker, self.functions = marker, functions
        # Where a known name is declared outside of the C library's headers.
        self.declared: Dict[str, str] = {}
        # Why a known name doesn't mean its function.
        self.renamed: Dict[str, str] = {}
        # Functions that are known by the options, whoever declares them.
        self.chosen: Set[str] = set()
        self.uses: Dict[int, List[str]] = {}
        self.why: Dict[int, str] = {}
        self.names = {*KNOWN, *functions.given}
        if functions.with_own:
            spans = own_spans(self.text.decode("latin-1"))
            plain = Callees(self, functions._replace(found={}))
            own = own_among(list(candidates_in(self, plain, spans)), functions.found)
            self.callees = Callees(self, functions._replace(found=own))
        # In C, what declares types has no calls.
        self.without_calls = () if command.is_cxx() else TYPES
        self.visit(self.note)

    def note(self, cursor: Any) -> int:
        """Notes a cursor. Returns whether what is inside is visited, too."""
        kind = cursor._kind_id
        if kind == CALL_EXPR:
            self.note_call(cursor)
        elif kind == FUNCTION_DECL and cursor.spelling in self.names:
            self.note_declaration(cursor)
        return VISIT_NEXT if kind in self.without_calls else VISIT_INSIDE

    def note_declaration(self, function: Any) -> None:
        file, known = self.file_of(function.location), KNOWN.get(function.spelling)
        scope = function.semantic_parent.kind.name if function.semantic_parent else ""
        if not (known and self.is_own_header(file, known.header)) and scope not in SCOPES:
            self.declared.setdefault(function.spelling, file)
        for child in function.get_children():
            if child.kind.name == "ASM_LABEL_ATTR":
                self.renamed[function.spelling] = "has an asm label"
            elif child.kind.name == "UNEXPOSED_ATTR":
                alias = ALIAS.search(self.text_of(child))
                if alias:
                    self.renamed[function.spelling] = f"has the attribute {alias[1]}"

    def note_call(self, call: Any) -> None:
        """Notes the markers among the arguments of a call, and why each isn't the format of a known function."""
        for index, argument in enumerate(call.get_arguments()):
            number = self.marker_of(argument)
            if number is not None:
                function = call.referenced
                name = function.spelling if function is not None else call.spelling
                self.uses.setdefault(number, []).append(name)
                why = self.why_unknown(function, name, index)
                if why:
                    self.why.setdefault(number, why)

    def marker_of(self, cursor: Any) -> Optional[int]:
        """Returns the number of the place whose marker an argument is, or None."""
        while cursor is not None and cursor.kind.name in ("UNEXPOSED_EXPR", "PAREN_EXPR"):
            inside = list(cursor.get_children())
            cursor = inside[0] if len(inside) == 1 else None
        is_literal = cursor is not None and cursor.kind.name == "STRING_LITERAL"
        return self.marker.number(cursor.spelling) if is_literal else None

    def why_unknown(self, function: Any, name: str, index: int) -> Optional[str]:
        """Returns why an argument isn't the format of a known function, or None."""
        if function is None or function.kind.name != "FUNCTION_DECL":
            return (
                f"argument of {name or 'a pointer'}, which is no function"
                if function is not None
                else f"the function {name or 'that is called'} isn't declared"
            )
        callee = self.callees.declared(function)[0]
        if callee.shape and not callee.doubt and index == callee.shape.format:
            self.chosen.update([name] if callee.is_chosen else ())
            return None
        if GETTEXT.fullmatch(name):
            return f"a key for translators, argument of {name}"
        if callee.shape or callee.doubt:
            return callee.doubt or f"it isn't the format of {name}"
        if any(it in self.functions.found for it in keys_of(function)):
            return f"argument of {name}, which another file defines, and which isn't declared with the attribute format"
        is_attributed = not self.functions.by_attribute and self.format_by_attribute(function)
        return f"argument of {name}, not a known printf-like function{'; try --attribute' if is_attributed else ''}"

    def why_left(self, number: int, count: int) -> Optional[str]:
        """Returns why the place of this number is left, whose marker is in the text so often; None if each is the
        format of a known function.
        """
        if number in self.why:
            return self.why[number]
        names = self.uses.get(number, [])
        if not names:
            return "it isn't the whole argument of a call"
        if len(names) != count:
            return "a macro uses it for something else, too"
        for name in names:
            if name in self.declared and name not in self.chosen:
                return f"{name} is declared in {os.path.basename(self.declared[name])}, too"
            if name in self.renamed and name not in self.chosen:
                return f"{name} {self.renamed[name]}"
        return None
