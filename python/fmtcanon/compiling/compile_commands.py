"""How a file is compiled: its compile commands, what the compiler's preprocessor makes of it, and the compiler's own
headers.
"""

import functools
import json
import os
import re
import shlex
import subprocess
from dataclasses import dataclass
from typing import Any, Dict, List, Optional, Sequence, Set, Tuple

from .. import encode_literal
from ..source.files import read_file
from .compile_words import options_of
from .left import Left
from .running import run
from .stand_ins import is_stand_in

CACHES = ("ccache", "sccache", "distcc")
DATABASE = "compile_commands.json"
SOURCES = re.compile(r".*\.(?:c|cc|cp|cpp|cxx|c\+\+|C|CPP)", re.DOTALL)
# The words that choose the machine, the standard and the compiler's own headers.
OF_THE_MACHINE = re.compile(
    r"-m|-std|--std|-ansi|-stdlib|-nostd|-nobuiltininc|-isysroot|--(?:sysroot|target|gcc-toolchain)|-target"
)
# A precompiled header is loaded only as the first header: so the first ones are empty. It is an image of memory.
EMPTY = (f"-imacros{os.devnull}", f"-include{os.devnull}")
# So that __DATE__ and __TIME__ stay the same, and what the compiler says is in the language that is read here.
FIXED = {"SOURCE_DATE_EPOCH": "0", "LANGUAGE": "en"}
# A name in a rule of make.
IN_RULE = re.compile(r"(?:\\[\s#]|[^\s])+")
# The line markers of standard input, and of the name that its first line gives it.
OF_INPUT = re.compile(rb'^# 1 "<stdin>"( 2)?\n# 1 ("(?:[^"\\\n]|\\.)*")\n', re.MULTILINE)


@dataclass(frozen=True)
class CompileCommand:
    """The folder and the words with which a file is compiled; the file is a path without links."""

    folder: str
    file: str
    words: Tuple[str, ...]

    def used(self) -> Tuple[List[str], str]:
        """Returns the compiler with the options that are used, which write no file, and the file's name."""
        kept, files = options_of(self.words[1:])
        for name in files:
            if os.path.realpath(os.path.join(self.folder, name)) != self.file:
                raise Left(f"its compile command has {name}")
        if not files:
            raise Left("its compile command doesn't name it")
        return [self.words[0], *kept], files[-1]

    def run(self, source: Optional[bytes], *more: str) -> "subprocess.CompletedProcess[bytes]":
        """Runs the compiler with more words on the file or, from standard input, on another source of it, whose name
        in the output is the file's. They come first: no option before them takes one for its value.
        """
        words, file = self.used()
        words[1:1] = [*more, *EMPTY]
        if source is None:
            return run([*words, file], self.folder, FIXED)
        name, folder = encode_literal(os.fsencode(file)), os.path.dirname(file)
        words[1:1] = [f"-iquote{folder}"] if folder else []
        words += ["-x", self.language(), "-Wno-builtin-macro-redefined", f"-D__BASE_FILE__={os.fsdecode(name)}"]
        done = run([*words, "-"], self.folder, FIXED, b"#line 1 " + name + b"\n" + source)
        done.stdout = OF_INPUT.sub(rb"# 1 \2\1\n", done.stdout, 1).replace(b'"<stdin>"', name)
        return done

    def preprocessed(self, source: Optional[bytes] = None, *more: str) -> bytes:
        """Returns what the compiler's preprocessor makes of the file, or of another source of it, with more words."""
        done = self.run(source, "-E", "-w", *more)
        if done.returncode:
            raise Left(f"its compiler can't preprocess it: {said(done.stderr)}")
        return bytes(done.stdout)

    def check_compiles(self, source: bytes) -> None:
        """Raises Left if the compiler, with all its warnings, rejects a source."""
        done = self.run(source, "-fsyntax-only")
        if done.returncode:
            raise Left(f"its compiler rejects the result: {said(done.stderr)}")

    def included(self) -> Set[str]:
        """Returns the paths, without links, of what the file includes. A header that isn't there includes nothing."""
        done = self.run(None, "-M", "-MG", "-MT", "x", "-w")
        if done.returncode:
            raise Left(f"its compiler can't preprocess it: {said(done.stderr)}")
        return {real_path(self.folder, it) for it in names_in_rule(os.fsdecode(done.stdout))} - {self.file}

    def language(self) -> str:
        """Returns the language that the file is compiled as: c or c++."""
        chosen: List[str] = re.findall(r"(?:^|\0)-x\0?(c(?:\+\+)?)(?=\0|$)", "\0".join(self.words[1:]))
        driver = re.sub(r"-[\d.]+$", "", os.path.basename(self.words[0]))
        is_c = self.file.endswith(".c") and not driver.endswith("++")
        return chosen[-1] if chosen else "c" if is_c else "c++"

    def is_cxx(self) -> bool:
        return self.language() == "c++"

    def bare(self) -> Tuple[str, ...]:
        """Returns the words of the compiler, its machine, its standard and its language."""
        return (self.words[0], *filter(OF_THE_MACHINE.match, options_of(self.words[1:]).kept), "-x", self.language())

    def system_folders(self) -> Tuple[str, ...]:
        """Returns the folders of the compiler's own headers: not those that a command or the environment adds, nor
        those of local packages.
        """
        return folders_of(self.bare(), self.folder)

    def macros(self) -> Dict[str, str]:
        """Returns the macros that the compiler defines by itself."""
        return macros_of(self.bare(), self.folder)


def names_in_rule(text: str) -> List[str]:
    """Returns the names that a rule of make has after its target."""
    names = IN_RULE.findall(text.replace("\\\n", " ").partition(": ")[2])
    return [re.sub(r"\\([\s#])", r"\1", it).replace("$$", "$") for it in names]


def said(errors: bytes) -> str:
    """Returns the line of a compiler's messages that says what is wrong."""
    lines = errors.decode(errors="replace").strip().split("\n")
    return next((it for it in lines if "error: " in it), lines[0])


@functools.lru_cache(maxsize=None)
def real_path(folder: str, name: str) -> str:
    return os.path.realpath(os.path.join(folder, name))


@functools.lru_cache(maxsize=None)
def folders_of(words: Tuple[str, ...], folder: str) -> Tuple[str, ...]:
    """Returns the folders that a compiler searches by itself."""
    without = {key: None for key in os.environ if key == "CPATH" or key.endswith("_INCLUDE_PATH")}
    done = run([words[0], "-E", "-v", *words[1:], os.devnull], folder, {**without, "LC_ALL": "C"})
    found = re.search(rb"<\.\.\.> search starts here:\n(.*?)End of search", done.stderr, re.DOTALL)
    paths = [os.path.realpath(os.fsdecode(it.strip())) for it in found[1].splitlines()] if found else []
    return tuple(it for it in paths if not it.startswith("/usr/local"))


@functools.lru_cache(maxsize=None)
def macros_of(words: Tuple[str, ...], folder: str) -> Dict[str, str]:
    """Returns the values of the macros that a compiler defines by itself."""
    done = run([words[0], "-E", "-dM", *words[1:], os.devnull], folder, {})
    return dict(re.findall(r"^#define (\w+) (.*)$", done.stdout.decode(errors="replace"), re.MULTILINE))


def default_command(file: str, flags: Sequence[str]) -> CompileCommand:
    """Returns the command for a file that no database names: `cc` with these flags."""
    return CompileCommand(os.getcwd(), file, ("cc", *flags, "-c", file))


def commands_in(folder: str) -> Dict[str, List[CompileCommand]]:
    """Returns the compile commands of the `compile_commands.json` in a folder, by the real path of their file."""
    path = os.path.join(folder, DATABASE)
    try:
        commands = [command_of(it) for it in json.loads(read_file(path).data.decode(errors="surrogateescape"))]
    except (OSError, ValueError, TypeError, KeyError, AttributeError, RecursionError) as error:
        raise OSError(f"{folder}: there is no {DATABASE} that can be read") from error
    found: Dict[str, List[CompileCommand]] = {}
    for one in commands:
        if one.words and not is_stand_in(one.file) and one not in found.setdefault(one.file, []):
            found[one.file].append(one)
    return found


def command_of(entry: Dict[str, Any]) -> CompileCommand:
    words = entry["arguments"] if "arguments" in entry else shlex.split(text_in(entry["command"]))
    words = list(map(text_in, words))
    while words and os.path.basename(words[0]) in CACHES:
        words.pop(0)
    folder, file = text_in(entry["directory"]), text_in(entry["file"])
    return CompileCommand(folder, os.path.realpath(os.path.join(folder, file)), tuple(words))


def text_in(value: Any) -> str:
    """Returns what is a text in JSON. Raises `TypeError` for another value."""
    if not isinstance(value, str):
        raise TypeError(f"{value!r} isn't a text")
    return value
