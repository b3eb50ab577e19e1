"""What makes it doubtful that a name of the C library means its function: found in preprocessed text, whatever libclang
says of it.
"""

import functools
import os
import re
from typing import Iterator, Set, Tuple

from ..compiling.compile_commands import CompileCommand
from ..compiling.left import Left
from ..compiling.line_markers import parts_in, path_in
from ..source.files import read_file
from ..source.known import KNOWN
from ..source.respelling import decoded
from ..source.tokens import PREPROCESSED, without_splices

NAMES = re.compile(rb"(?<![\w$])_*(?:" + b"|".join(sorted(it.encode() for it in KNOWN)) + rb")(?![\w$])")
# A comment matches in one way only, so that a search that fails takes linear time.
SPACE = rb"(?:[ \t\f\v]|/\*(?:[^*\n]|\*(?!/))*\*/)*"
LINE_DIRECTIVE = re.compile(rb"^" + SPACE + rb"(?:#|%:|\?\?=)" + SPACE + rb"(?:line\b|[0-9])", re.MULTILINE)
ASM = (b"asm", b"__asm", b"__asm__")
# Directives of an assembler that read a file or build names out of parts, and built-in functions that tell a column.
OF_ASSEMBLER = re.compile(rb"\.(?:incbin|include|macro|altmacro|irpc?|rept)\b", re.IGNORECASE)
COLUMN = re.compile(rb"\b__builtin_(?:COLUMN|source_location)\b")


def project_part(command: CompileCommand, text: bytes) -> Tuple[bytes, Set[str]]:
    """Returns the parts of preprocessed text that aren't from the compiler's own headers, and the files that these are
    from.
    """
    folders = tuple(f"{it}/" for it in command.system_folders())
    parts, files, own = [], set(), os.stat(command.file)
    for marker, start, end in parts_in(text):
        file = path_in(marker[2], command.folder)
        if b" 1" in marker[3] and os.path.exists(file) and os.path.samestat(os.stat(file), own):
            raise Left("it includes itself")
        if not file.startswith(folders):
            files.add(file)
            parts.append(text[start:end])
    return b"\n".join(parts), {it for it in files if os.path.isfile(it)}


@functools.lru_cache(maxsize=None)
def has_line_directive(file: str, _time: int) -> bool:
    """Returns whether a file, as it was at this time, says that its lines are another file's."""
    return bool(LINE_DIRECTIVE.search(without_splices(read_file(file).data)))


def check(command: CompileCommand, text: bytes) -> None:
    """Raises Left if something in preprocessed text could make a known name mean another function, or hide where it is
    declared.
    """
    mine, files = project_part(command, text)
    for file in sorted(files):
        if has_line_directive(file, os.stat(file).st_mtime_ns):
            raise Left(f"{file} has #line or a line marker")
    for line in re.findall(rb"^#pragma.*", text, re.MULTILINE):
        named = NAMES.search(line)
        if named:
            raise Left(f"a pragma names {named.group().decode()}")
    check_words(mine)


def check_words(text: bytes) -> None:
    """Raises Left for a word that lets a program change what printf prints, or an asm that could name a function of the
    C library.
    """
    before, braces = b";", 0
    found = PREPROCESSED.finditer(text)
    for token in found:
        word = token.group()
        if word in ASM:
            if before in (b";", b"}") and braces == 0:
                raise Left("it has an asm at file scope")
            check_asm(b"".join(parts_in_brackets(found)))
        elif word.startswith(b"register_printf_"):
            raise Left(f"it names {word.decode()}")
        braces += (word == b"{") - (word == b"}")
        before = word


def parts_in_brackets(tokens: Iterator["re.Match[bytes]"]) -> Iterator[bytes]:
    """Yields the bytes of the string literals up to the bracket that closes the first one that opens, and of operands
    the names that no variable has.
    """
    depth = 0
    for token in tokens:
        word = token.group()
        depth += (word == b"(") - (word == b")")
        if token["string"]:
            text = decoded(word)
            yield word if text is None else text
        elif b"printf" in word or b"syslog" in word:
            yield b" " + word + b" "
        if depth == 0 and word == b")":
            return


def check_asm(text: bytes) -> None:
    """Raises Left if an asm names a known function, reads a file, or could build a name out of parts."""
    named = NAMES.search(text) or OF_ASSEMBLER.search(text)
    if named:
        raise Left(f"an asm names {named.group().decode()}")


def check_columns(text: bytes) -> None:
    """Raises Left if preprocessed text asks for a column, which a literal of another length would change."""
    named = COLUMN.search(text)
    if named:
        raise Left(f"it names {named.group().decode()}, and a column would change")
