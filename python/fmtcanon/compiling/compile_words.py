"""The words of a compile command: which are kept to preprocess its file, and which have no effect on that.

Compilers have options that write files, run programs or read their input in another way, and each version adds some. So
a command is read as a list of options that are known here, and a file whose command has another word is left. What the
compiler gets is made of that list: each word is one option with its value, of the kind that this option has, and no
value is a word by itself. What shapes the machine code, debugging information or messages is known by its letter.
"""

import functools
import re
from typing import List, NamedTuple, Pattern, Tuple

from .left import Left

# Options of the language, and those that define macros, by what follows `-f` or `-fno-`.
LANGUAGE = """
    abi-version aligned-allocation aligned-new altivec apple-kext apple-pragma-pack asm assume-sane-operator-new
    async-exceptions asynchronous-unwind-tables blocks borland-extensions builtin canonical-system-headers cf-protection
    char8_t common concepts concepts-ts constant-cfstrings constexpr coroutines coroutines-ts cx-fortran-rules
    cx-limited-range cxx-exceptions declspec define-target-os-macros delayed-template-parsing
    delete-null-pointer-checks digraphs
    dollars-in-identifiers double-square-bracket-attributes dwarf2-cfi-asm enforce-eh-specs exceptions excess-precision
    ext-numeric-literals extended-identifiers fast-math finite-math-only for-scope freestanding friend-injection
    gnu-inline-asm gnu-keywords gnu-tm gnu89-inline gnuc-version handle-exceptions hosted implement-inlines
    implicit-constexpr implicit-inline-templates implicit-templates inline lax-vector-conversions leading-underscore
    math-errno max-type-align ms-compatibility ms-compatibility-version ms-extensions msc-version new-inheriting-ctors
    new-ttp-matching non-call-exceptions nonansi-builtins nothrow-opt objc-arc openacc openmp openmp-simd openmp-version
    operator-names optional-diags pack-struct pascal-strings permissive pic PIC PIE pie plan9-extensions
    pretty-templates reciprocal-math relaxed-template-template-args rounding-math rtti sanitize sanitize-recover
    sanitize-trap seh-exceptions short-enums short-wchar signaling-nans signed-bitfields signed-char signed-zeros
    single-precision-constant sized-deallocation sjlj-exceptions stack-protector stack-protector-all
    stack-protector-explicit stack-protector-strong strict-aliasing strict-enums strict-flex-arrays strong-eval-order
    tabstop template-depth threadsafe-statics trapping-math trapv trigraphs unsafe-math-optimizations unsigned-bitfields
    unsigned-char use-cxa-atexit visibility visibility-inlines-hidden visibility-ms-compat weak wrapv wrapv-pointer
    zvector
"""
# Others of `-f` that run or read something, or change what a source means or how it is read.
FOREIGN = "plugin|pass-plugin|.*-charset|.*module|preprocessed|gimple|sycl|cuda|hip|driver-only|building-libgcc"


def one_of(names: str) -> str:
    return "|".join(map(re.escape, names.split()))


class Words:
    """Words of a compile command that match one of these patterns, which are compiled once they are needed."""

    def __init__(self, *texts: str) -> None:
        self.text = "|".join(texts)

    @functools.cached_property
    def pattern(self) -> Pattern[str]:
        return re.compile(self.text, re.DOTALL)

    def has(self, word: str) -> bool:
        return self.pattern.fullmatch(word) is not None


# Options with a value in the same word or the next, and what it can be. A path doesn't begin as an option does, nor as
# the name of a file of more options: gcc gives the program that it runs both as two words. Of a target's name with a
# slash, clang would make that of such a file.
VALUED = (
    (re.compile("-D"), Words(r"[^\W\d][\w$]*(?:\([\w$\s,.]*\))?(?:=.*)?")),
    (re.compile("-U"), Words(r"[^\W\d][\w$]*")),
    (re.compile(r"--?target(?:=|$)"), Words(r"\w[\w.+-]*")),
    (
        re.compile(
            "-I|-i(?:nclude|macros|system|quote|dirafter|sysroot|prefix|withprefixbefore|withprefix)|--sysroot(?:=|$)"
        ),
        Words(r"[^-@].*"),
    ),
)
# Options that are a word, and whose values name no file that is opened: most have no slash or another mark of paths.
KEPT = Words(
    r"--?std=[\w+:]+|-ansi|-pedantic(?:-errors)?|-xc(?:\+\+)?|-undef|-trigraphs|-pthreads?|-O(?:\d|[szg]|fast)?",
    r"-nostd(?:inc(?:\+\+)?|libinc)|-nobuiltininc|-stdlib=[\w+]+|--gcc-toolchain=[^-@].*",
    r"-m(?!llvm$)[\w.+-]+(?:=[\w.,:+-]*)?|-[wW]|-W[\w#+-]+(?:=[\w:+-]*)*",
    rf"-f(?:no-)?(?:{one_of(LANGUAGE)})(?:=[\w.,:+-]*)?|-fno-builtin-\w+",
    r"-f(?:template|constexpr)-(?:depth|loop-limit|ops-limit|steps)[=-]\d+",
    r"-f(?:file|macro)-prefix-map=[^-@=][^=]*=.*|(?i:-f(?:exec|input|wide-exec)-charset=utf-?8)",
)
# What can give a function another name, of options of the linker and of the assembler. These don't run.
RENAMING = r"(?:-?-(?:wrap|defsym|alias|script|just-symbols|format|plugin)|-[TR]|@)"
DROPPED = Words(
    r"-[cSEPCHvsp]|-CC|-o.+|--output=.+|-M(?:M|G|P|D|MD)?|-M[FTQJ].+|--write-(?:user-)?dependencies|-d[A-Za-z]",
    r"-?-save-temps(?:=.+)?|-save-stats(?:=.+)?|-time(?:=.+)?|-pipe|-pg|-?-coverage|-g[\w.,+=-]*|-Q[\w-]+|--param=.+",
    r"-[lL].+|-r(?:dynamic)?|-(?:static|shared)(?:-[\w+]+)?|-(?:no-|static-)?pie",
    r"-nostdlib(?:\+\+)?|-nodefaultlibs|-nostartfiles|-no-canonical-prefixes",
    rf"-f(?!(?:no-)?(?:{FOREIGN}|{one_of(LANGUAGE)}=))[a-z].*",
    rf"-W[la](?:,(?!{RENAMING})[^,]*)+",
)
DROPPED_PAIRS = Words(
    r"-(?:o|M[FTQJ]|dumpbase|dumpbase-ext|dumpdir|aux-info|[lLuz]|mllvm) .+",
    r"--output .+|--param .+|-?-serialize-diagnostics .+",
    r"-Xclang -(?:disable-O0-optnone|disable-llvm-passes|disable-llvm-optzns|disable-llvm-verifier|fno-pch-timestamp)",
    rf"-X(?:linker|assembler) (?!{RENAMING}).*",
)
# What `-Wp,` gives to the preprocessor: options, and what it is to write, which is dropped.
FOR_PREPROCESSOR = Words(r"-Wp(?:,-M(?:M?D|[FTQ]),[^,]*|,-M[GP]|,(?:-[DUI]|[^-@,])[^,]*)+")
WRITTEN = re.compile(r",-M(?:M?D|[FTQ]),[^,]*|,-M[GP]")


class KeptOptions(NamedTuple):
    """What is kept of a command: options, each a word, and the words that name files."""

    kept: List[str]
    files: List[str]


@functools.lru_cache(maxsize=64)
def options_of(words: Tuple[str, ...]) -> KeptOptions:
    """Returns what is kept of the words after the compiler. Raises Left for one that isn't known."""
    kept: List[str] = []
    files: List[str] = []
    rest = list(words)
    while rest:
        word = rest.pop(0)
        after = rest[0] if rest else ""
        option, is_pair = valued(word, after)
        if option:
            del rest[:is_pair]
            kept.append(option)
        elif word == "-x" and after in ("c", "c++"):
            kept.append(f"-x{rest.pop(0)}")
        elif DROPPED_PAIRS.has(f"{word} {after}"):
            rest.pop(0)
        elif FOR_PREPROCESSOR.has(word):
            rest[:0] = WRITTEN.sub("", word).split(",")[1:]
        elif KEPT.has(word):
            kept.append(word)
        elif not word.startswith(("-", "@")):
            files.append(word)
        elif not DROPPED.has(word):
            said = f"{word} {after}" if word.startswith("-X") else word
            raise Left(f"its compile command has {said}")
    return KeptOptions(kept, files)


def valued(word: str, after: str) -> Tuple[str, bool]:
    """Returns an option that has a value as one word, and whether the value is the word after it; an empty text if it
    is another option. Raises Left for a value that the option can't have.
    """
    for option, values in VALUED:
        found = option.match(word)
        if found:
            joined = word[found.end() :]
            if not values.has(joined or after):
                said = word if joined else f"{word} {after}"
                raise Left(f"its compile command has {said}")
            name = found[0].strip("-=")
            front = f"--{name}=" if name in ("target", "sysroot") else f"-{name}"
            return front + (joined or after), not joined
    return "", False
