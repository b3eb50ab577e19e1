"""Pairs of formats of the whole language from a fixed generator, and a program of C that prints each pair for some
arguments.

How a specification may be respelled is what C11 7.21.6.1 and POSIX say of its parts, written down here by hand.
"""

import random
import subprocess
from typing import NamedTuple, Tuple

SIZE = 1 << 16
# How many trials a function of C has: compilers take long functions slowly.
IN_A_FUNCTION = 50
FLOATING, INTEGERS = "fFeEgGaA", "diuoxX"
# The length modifiers of integers and of n, and the kind of their arguments in LP64: j, z and t name `long`.
LENGTHS = {"": "int", "hh": "int", "h": "int", "l": "long", "ll": "long long", "j": "long", "z": "long", "t": "long"}
COUNTS = {
    "": "n_int",
    "hh": "n_char",
    "h": "n_short",
    "l": "n_long",
    "ll": "n_long_long",
    "j": "n_long",
    "z": "n_long",
    "t": "n_long",
}
# Arguments by their kind: some that a list of them takes at random, and one that prints something whatever is around
# it.
VALUES = {
    "star": ["-7", "0", "3", "11"],
    "int": ["-1", "0", "65", "INT_MIN"],
    "unsigned": ["0u", "65u", "4294967295u"],
    "long": ["-1L", "0L", "LONG_MIN"],
    "unsigned long": ["0ul", "65ul", "-1ul"],
    "long long": ["-1LL", "0LL", "LLONG_MAX"],
    "unsigned long long": ["0ull", "65ull", "-1ull"],
    "string": ['""', '"ab"', '"some more words"'],
    "double": ["0.0", "-0.0", "1.5", "-123456.789", "1e300", "NAN", "-NAN", "INFINITY", "-INFINITY"],
    "long double": ["0.0L", "1.5L", "(long double)NAN", "-(long double)INFINITY"],
    "wide character": ["L'a'", "L'\\u00e9'"],
    "wide string": ['L""', 'L"ab"', 'L"\\u00e9 and more"'],
    "pointer": ["(void *)counts", "(void *)0x1234"],
    **{kind: [f"&counts->{kind}"] for kind in ["n_char", "n_short", "n_int", "n_long", "n_long_long"]},
}
PRINTED = {
    "star": "3",
    "int": "65",
    "unsigned": "65u",
    "long": "65L",
    "unsigned long": "65ul",
    "long long": "65LL",
    "unsigned long long": "65ull",
    "string": '"ab"',
    "double": "1.5",
    "long double": "1.5L",
    "wide character": "L'a'",
    "wide string": 'L"ab"',
    "pointer": "(void *)0x1234",
}
# Directives of the profile that print alike, and some that don't, with the kinds of their arguments.
ALIKE = [
    (["%d", "%i", "%-d", "%.1i"], ["int"]),
    (["%5c", "    %c"], ["int"]),
    (["%05u", "%.5u", "%0005u"], ["unsigned"]),
    (["%#o", "0%.0o"], ["unsigned"]),
    (["%-+8d|", "%+-8i|", "%0-+8d|"], ["int"]),
    (["%zd", "%ld", "%jd", "%ti"], ["long"]),
    (["%s", "%-s"], ["string"]),
    (["%lx", "%zx"], ["unsigned long"]),
    (["%.0s"], ["string"]),
    (["%5.3d", "%05.3i"], ["int"]),
    (["%%"], []),
    (["%+llu", "%llu"], ["unsigned long long"]),
]
UNLIKE = [
    ("%d", "%+d", "int"),
    ("%05d", "%.5d", "int"),
    ("%d", "%5d", "int"),
    ("%s", "%.1s", "string"),
    ("%c", "%hhd", "int"),
    ("%u", "%x", "unsigned"),
    ("%lx", "%lX", "unsigned long"),
    ("%5s", "%-5s", "string"),
    ("%hd", "%d", "int"),
    ("%5.0s", "%.0s", "string"),
    ("%.0d", "%d", "int"),
    ("%ld", "% ld", "long"),
]
LITERALS = ["x", "a b", "\u00e9", "%% ", "100%%", "(", "\n"]


class Part(NamedTuple):
    """A part of a format: ways to spell it, the kinds of its arguments, and whether it is a directive that prints
    something.
    """

    spellings: Tuple[str, ...]
    kinds: Tuple[str, ...] = ()
    is_seen: bool = False


def amount(chosen, most):
    return str(chosen.randrange(1, most))


def respelled_flags(chosen, flags, conversion, width, precision):
    """The flags of a specification with this spelling of its precision, with some that have no effect, in any order,
    some twice.
    """
    is_number = conversion in INTEGERS or conversion in FLOATING
    is_signed = conversion in "di" or conversion in FLOATING or conversion == "p"
    idle = []
    if "+" in flags and is_signed:
        idle.append(" ")
    if not is_signed:
        idle += ["+", " "]
    if not width:
        idle.append("-")
    has_fixed = conversion in INTEGERS and precision not in ("", ".*")
    if is_number and (not width or "-" in flags or has_fixed):
        idle.append("0")
    if conversion in "diufFgG":
        idle.append("'")
    found = [*flags, *(it for it in idle if chosen.random() < 0.3)]
    found += chosen.choices(found, k=chosen.randrange(2)) if found else []
    chosen.shuffle(found)
    return "".join(found)


def respelled_precision(chosen, precision, conversion, flags):
    """A precision by other digits, or one that is the default."""
    ways = [precision]
    if precision in (None, ".1") and conversion in INTEGERS and "0" not in flags:
        ways = [None, ".1", ".01"]
    elif precision in (None, ".6") and conversion in "fFeEgG":
        ways = [None, ".6", ".06"]
    elif precision in (".0", ".1") and conversion in "gG":
        ways = [".", ".0", ".1", ".01"]
    elif precision == ".0":
        ways = [".", ".0", ".00"]
    elif precision not in (None, ".*"):
        ways = [precision, ".0" + precision[1:]]
    return chosen.choice(ways) or ""


def respelled_letters(chosen, length, conversion):
    """The length modifier and the conversion, by other letters of the same meaning."""
    if conversion in FLOATING and length == "":
        length = chosen.choice(["", "l"])
    if (conversion in INTEGERS or conversion == "n") and length in ("l", "j", "z", "t"):
        length = chosen.choice("ljzt")
    if conversion in "di":
        conversion = chosen.choice("di")
    if length == "l" and conversion in "cs":
        return chosen.choice(["l" + conversion, conversion.upper()])
    return length + conversion


def opaque(chosen):
    """A directive that the profile lacks, spelled in several ways."""
    conversion = chosen.choice([*FLOATING, *"diuoxX", "s", "c", "p", "n", "C", "S"])
    if conversion == "n":
        length = chosen.choice(list(COUNTS))
        return Part(tuple("%" + respelled_letters(chosen, length, "n") for _ in range(3)), (COUNTS[length],))
    length = {"C": "l", "S": "l"}.get(conversion, "")
    conversion = {"C": "c", "S": "s"}.get(conversion, conversion)
    if conversion in FLOATING:
        length = chosen.choice(["", "", "L"])
    elif conversion in INTEGERS:
        length = chosen.choice(list(LENGTHS))
    width = chosen.choice(["", amount(chosen, 15), "*"])
    precision = None if conversion in "cp" else chosen.choice([None, ".0", "." + amount(chosen, 9), ".1", ".6", ".*"])
    if (conversion in INTEGERS or (conversion in "cs" and length == "")) and width != "*" and precision != ".*":
        width = "*"
    flags = flags_of(chosen, conversion, width, precision)
    spellings = []
    for _ in range(3):
        fraction = respelled_precision(chosen, precision, conversion, flags)
        front = respelled_flags(chosen, flags, conversion, width, fraction) + width
        spellings.append(f"%{front}{fraction}{respelled_letters(chosen, length, conversion)}")
    kinds = ["star"] * (width == "*") + ["star"] * (precision == ".*") + [kind_of(length, conversion)]
    return Part(tuple(spellings), tuple(kinds), conversion not in "s" and precision not in (".0", ".*"))


def flags_of(chosen, conversion, width, precision):
    """Some flags that have an effect."""
    flags = []
    if conversion in "di" or conversion in FLOATING or conversion == "p":
        flags.append(chosen.choice(["", "", "+", " "]))
    if width:
        flags.append(chosen.choice(["", "-"]))
    if conversion in "oxX" or conversion in FLOATING:
        flags.append(chosen.choice(["", "#"]))
    is_padded = conversion in FLOATING or (conversion in INTEGERS and precision in (None, ".*"))
    if width and is_padded and "-" not in flags:
        flags.append(chosen.choice(["", "0"]))
    return [it for it in flags if it]


def kind_of(length, conversion):
    if conversion in FLOATING:
        return "long double" if length == "L" else "double"
    if conversion in "cs":
        return {"c": ["int", "wide character"], "s": ["string", "wide string"]}[conversion][length == "l"]
    if conversion == "p":
        return "pointer"
    kind = LENGTHS[length]
    return kind if conversion in "di" else "unsigned" if kind == "int" else f"unsigned {kind}"


def part(chosen):
    kind = chosen.random()
    if kind < 0.25:
        return Part((chosen.choice(LITERALS),))
    if kind < 0.5:
        spellings, kinds = chosen.choice(ALIKE)
        return Part(tuple(spellings), tuple(kinds))
    return opaque(chosen)


def spelled(chosen, parts):
    return "".join(chosen.choice(it.spellings) for it in parts)


def kinds_of(parts):
    return [kind for it in parts for kind in it.kinds]


def alike_pairs(count):
    """Yields pairs of formats that are alike in LP64, with the kinds of their arguments."""
    chosen = random.Random(60)
    for _ in range(count):
        parts = [part(chosen) for _ in range(chosen.randrange(5))]
        parts.insert(chosen.randrange(len(parts) + 1), opaque(chosen))
        yield spelled(chosen, parts), spelled(chosen, parts), kinds_of(parts)


def unlike_pairs(count):
    """Yields pairs of formats with equal types and calls that print other bytes for some arguments, with the kinds of
    these.
    """
    chosen = random.Random(61)
    for _ in range(count):
        parts = [part(chosen) for _ in range(chosen.randrange(4))]
        at = chosen.randrange(len(parts) + 1)
        seen = opaque(chosen)
        while not seen.is_seen:
            seen = opaque(chosen)
        first, second, kind = chosen.choice(UNLIKE)
        how = chosen.randrange(3)
        if how == 0:
            one, other = [Part((first,), (kind,)), seen], [Part((second,), (kind,)), seen]
        elif how == 1:
            one, other = [Part(("x",)), seen], [seen, Part(("x",))]
        else:
            one, other = [seen], [seen, Part((chosen.choice(LITERALS),))]
        yield spelled(chosen, parts[:at] + one + parts[at:]), spelled(
            chosen, parts[:at] + other + parts[at:]
        ), kinds_of(parts[:at] + one + parts[at:])


def literal(text):
    """A string literal of C."""
    plain = (
        chr(it) if it < 127 and (chr(it).isalnum() or chr(it) in " %.*-+#'|(") else f"\\{it:03o}"
        for it in text.encode()
    )
    return f'"{"".join(plain)}"'


class Trial(NamedTuple):
    """Two formats, and the arguments that they are printed with, in C."""

    first: str
    second: str
    arguments: Tuple[str, ...]


HEAD = f"""\
#include <limits.h>
#include <locale.h>
#include <math.h>
#include <stdio.h>
#include <string.h>
#include <wchar.h>
typedef struct {{
    signed char n_char;
    short n_short;
    int n_int;
    long n_long;
    long long n_long_long;
}} stored;
static stored counts[1], kept;
static char first_out[{SIZE}], second_out[{SIZE}];
static void start(void) {{ memset(counts, 0, sizeof counts); }}
/* '=' for equal bytes and equal counts of `%n`, '#' for others, '-' if neither is printed, and '!' if it is too long. */
static void say(int n, int m)
{{
    int is_equal = n == m && !memcmp(&kept, counts, sizeof kept);
    if (n < 0 && m < 0) putchar('-');
    else if (n >= {SIZE} || m >= {SIZE}) putchar('!');
    else putchar(is_equal && !memcmp(first_out, second_out, (size_t)n) ? '=' : '#');
}}
#define TRY(first, second, ...) do {{ \\
    int n, m; \\
    start(), n = snprintf(first_out, {SIZE}, first, ##__VA_ARGS__); \\
    kept = *counts, start(), m = snprintf(second_out, {SIZE}, second, ##__VA_ARGS__); \\
    say(n, m); \\
}} while (0)
"""


def source_of(trials):
    """A program that prints a character for each trial."""
    lines = [HEAD]
    for start in range(0, len(trials), IN_A_FUNCTION):
        lines.append(f"static void f{start}(void)\n{{")
        for it in trials[start : start + IN_A_FUNCTION]:
            lines.append(f"    TRY({', '.join([literal(it.first), literal(it.second), *it.arguments])});")
        lines.append("}")
    calls = " ".join(f"f{start}();" for start in range(0, len(trials), IN_A_FUNCTION))
    return "\n".join([*lines, f'int main(void) {{ setlocale(LC_ALL, ""); {calls} return 0; }}', ""])


def printed(trials, work, locale, timeout):
    """What the compiled program says of each trial in a locale."""
    source, program = work / "formats.c", work / "formats"
    if not program.exists():
        source.write_text(source_of(trials))
        subprocess.run(["gcc", "-std=gnu11", "-O0", "-w", "-o", program, source, "-lm"], check=True, timeout=timeout)
    environment = {"LC_ALL": locale}
    return subprocess.run(
        [program], check=True, timeout=timeout, env=environment, stdout=subprocess.PIPE
    ).stdout.decode()
