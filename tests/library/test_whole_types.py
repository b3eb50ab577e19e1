"""Holds the types of arguments in the whole language to `parse_printf_format` of the GNU C library, and to gcc's
warnings.

It needs gcc, and the GNU C library that Python runs on.

`parse_printf_format` says how many arguments there are, where each is, and its kind; it knows no signs, takes `ll` for
`l` and `%lc` for `%c`, and gives each pointer of `%n` one code. What is left is gcc's, whose warnings know all of a
type.

Where each specification is, and which arguments it takes, is compared with what a regular expression finds.
"""

import ctypes
import random
import re
import subprocess
from itertools import product

from tests.frame.cases import tests_of
from tests.frame.harness import TIMEOUT
from tests.library.test_library import shapes

INTEGER_LENGTHS = ["", "hh", "h", "l", "ll", "j", "z", "t"]
# The length modifiers that each conversion takes (C11 7.21.6.1, paragraphs 7 and 8; POSIX for C and S).
LENGTHS = {
    **dict.fromkeys("dioxXub", INTEGER_LENGTHS),
    **dict.fromkeys("aAeEfFgG", ["", "l", "L"]),
    **dict.fromkeys("cs", ["", "l"]),
    **dict.fromkeys("CSp", [""]),
    "n": INTEGER_LENGTHS,
}
# What comes between the percent sign and the length modifier, without numbers and with them.
FORMS = ["", "*", ".*", "*.*", "5.*", "*.3", "*."]
NUMBERED = ["1$", "2$*1$", "2$.*1$", "3$*2$.*1$", "1$*3$.*2$", "2$*1$.*1$", "1$5", "1$.3"]
# The codes of <printf.h>: PA_INT, PA_CHAR, PA_WCHAR, PA_STRING, PA_WSTRING, PA_POINTER and PA_DOUBLE, and its flags.
INTEGERS = {0, 1, 1 << 10}
LONGS = {1 << 9}
CODES = {
    "INT": INTEGERS,
    "UINT": INTEGERS,
    "LONG": LONGS,
    "ULONG": LONGS,
    "LONG_LONG": LONGS,
    "ULONG_LONG": LONGS,
    "STRING": {3},
    "DOUBLE": {7},
    "LONG_DOUBLE": {7 | 1 << 8},
    "WIDE_CHAR": {1, 2},
    "WIDE_STRING": {3, 4},
    "POINTER_TO_VOID": {5},
    **dict.fromkeys(["POINTER_TO_SCHAR", "POINTER_TO_SHORT", "POINTER_TO_INT"], {1 << 11}),
    **dict.fromkeys(["POINTER_TO_LONG", "POINTER_TO_LONG_LONG"], {1 << 11}),
}
# The types of C, in LP64.
NAMED = {
    "INT": "int",
    "UINT": "unsigned int",
    "LONG": "long",
    "ULONG": "unsigned long",
    "LONG_LONG": "long long",
    "ULONG_LONG": "unsigned long long",
    "STRING": "char *",
    "DOUBLE": "double",
    "LONG_DOUBLE": "long double",
    "WIDE_CHAR": "wint_t",
    "WIDE_STRING": "wchar_t *",
    "POINTER_TO_VOID": "void *",
    "POINTER_TO_SCHAR": "signed char *",
    "POINTER_TO_SHORT": "short *",
    "POINTER_TO_INT": "int *",
    "POINTER_TO_LONG": "long *",
    "POINTER_TO_LONG_LONG": "long long *",
}
WARNINGS = ["-Wformat", "-Wformat-signedness"]
# With these two options gcc warns of pointers of another type for `p`, and knows `wchar_t *` from `int *`.
PEDANTIC, SHORT = ["-Wpedantic"], ["-fshort-wchar"]
# The type of a specification, and another type about which gcc doesn't warn there: one type of C by two names, and
# pointers
# to characters for one another. `parse_printf_format` tells these apart, except `unsigned int` for `%lc`.
SILENT = {("UINT", "WIDE_CHAR"), ("WIDE_CHAR", "UINT"), ("STRING", "POINTER_TO_SCHAR")}
SILENT |= {("POINTER_TO_VOID", "STRING"), ("POINTER_TO_VOID", "POINTER_TO_SCHAR")}
POINTERS = {name for name, named in NAMED.items() if named.endswith("*")}
MOST = 64
# The highest number of an argument here.
GREATEST = 4095
MANY = 10_000_000
# A specification or `%%`, for formats that are accepted.
SPECIFICATION = re.compile(
    rb"%(?:%|(?:([1-9]\d*)\$)?[-+ #0']*(?:(\*)(?:(\d+)\$)?|\d+)?(?:\.(?:(\*)(?:(\d+)\$)?|\d*))?[hljztL]*([a-zA-Z]))"
)
# What random formats are made of, and how many there are.
PARTS = [
    b"%",
    b"%%",
    b"*",
    b".",
    b".*",
    b"1$",
    b"2$",
    b"*1$",
    b"*2$",
    b"5",
    b"0",
    b"-",
    b"#",
    b"l",
    b"h",
    b"L",
    b"z",
    b"d",
    b"lu",
    b"s",
    b"f",
    b"n",
    b"p",
    b"a ",
]
IN_ORDER = [b"%d", b"%*d", b"%.*f", b"%*.*s", b"%-5.3lu", b"%%", b"%n", b"x", b".*%c", b"%lc", b"%+.e", b"%0*zx"]
BY_NUMBER = [b"%2$s", b"%1$d", b"%2$*1$s", b"%1$.*1$i", b"%3$*1$.*1$x", b"%%", b"x.*", b"%2$.3s"]
RANDOM = 100_000


def specifications():
    """Each conversion with each of its length modifiers."""
    return [(length, conversion) for conversion, lengths in LENGTHS.items() for length in lengths]


def takes(form, conversion):
    """Whether a form may come before a conversion: no precision of characters and pointers, and nothing before n."""
    if conversion == "n":
        return form in ("", "1$")
    return "." not in form or conversion not in "cCp"


def formats():
    """One specification in each form, two in a row, and two whose numbers turn them round."""
    for length, conversion in specifications():
        for form in FORMS + NUMBERED:
            if takes(form, conversion):
                yield f"%{form}{length}{conversion}"
    for (first, one), (second, other) in product(specifications(), repeat=2):
        yield f"%{first}{one} %% %{second}{other}"
        yield f"%2${first}{one} %1${second}{other}"


def parsed(library, format):
    """The codes of the arguments, by the C library."""
    found = (ctypes.c_int * MOST)()
    count = library.parse_printf_format(format.encode(), ctypes.c_size_t(MOST), found)
    return found[:count]


def library():
    return ctypes.CDLL("libc.so.6")


def test_parsed(module, library, trials):
    """As many arguments as the C library finds, and each of a type of its code."""
    for format in formats():
        types = [kind.name for kind in module.arguments(format)]
        codes = parsed(library, format)
        fits = len(codes) == len(types) and all(code in CODES[name] for code, name in zip(codes, types))
        trials.expect(f"parse_printf_format of {format!r}, {types} and {codes}", fits, True)


def test_lengths(module, trials):
    """Every other length modifier is rejected."""
    for conversion, lengths in LENGTHS.items():
        for length in [*INTEGER_LENGTHS, "L"]:
            try:
                is_taken = bool(module.arguments(f"%{length}{conversion}"))
            except module.Refused:
                is_taken = False
            trials.expect(f"%{length}{conversion} is taken", is_taken, length in lengths)


def call_of(format, types):
    # No pointer may be null.
    values = [f", ({NAMED[name]}){'place' if name in POINTERS else '0'}" for name in types]
    return f'printf("{format}"{"".join(values)});'


def warned(calls, work, more=()):
    """Which of these calls gcc warns of, with some more options."""
    source = work / "formats.c"
    head = "#include <stdio.h>\n#include <wchar.h>\nvoid all(char *place) {"
    source.write_text("\n".join([head, *calls, "}", ""]))
    words = ["gcc", "-std=gnu2x", *WARNINGS, *more, "-fsyntax-only", source]
    done = subprocess.run(words, stdout=subprocess.PIPE, stderr=subprocess.STDOUT, timeout=TIMEOUT, check=True)
    return {calls[int(line) - 4] for line in re.findall(r"formats\.c:(\d+):\d+: warning", done.stdout.decode())}


def test_compiled(module, trials, work):
    """gcc has no warning for arguments of these types, and one where an argument is of another type."""
    calls = [call_of(format, [kind.name for kind in module.arguments(format)]) for format in formats()]
    found = warned(calls, work)
    for call in calls:
        trials.expect(f"gcc warns of {call}", call in found, False)
    for more in [(), PEDANTIC, SHORT]:
        others = [call for option, call in other_calls(module) if option == more]
        found = warned(others, work, more)
        for call in others:
            trials.expect(f"gcc {more} warns of {call}", call in found, True)


def option_for(wanted, given):
    """With which more options gcc warns of an argument of another type, or None."""
    if (wanted, given) in SILENT:
        return None
    if wanted == "POINTER_TO_VOID" and given in POINTERS:
        return PEDANTIC
    return SHORT if {wanted, given} == {"WIDE_STRING", "POINTER_TO_INT"} else ()


def other_calls(module):
    """Each specification with an argument of each other type, and the options with which gcc warns of it."""
    for length, conversion in specifications():
        format = f"%{length}{conversion}"
        name = module.arguments(format)[0].name
        for other in NAMED:
            if other != name:
                yield option_for(name, other), call_of(format, [other])


def found_directives(module, format, model):
    """What a regular expression finds in an accepted format: each specification, and the arguments that it takes."""
    types = module.arguments(format, model=model)
    taken = 0
    for match in SPECIFICATION.finditer(format):
        number, is_width, width, is_precision, precision, letter = match.groups()
        if letter is None:
            continue
        places = []
        for is_star, star in [(is_width, width), (is_precision, precision), (letter, number)]:
            if not is_star:
                places.append(None)
                continue
            places.append(int(star) - 1 if star else taken)
            taken += 1
        *stars, last = places
        yield module.DirectiveSpan(match.start(), match.end(), types[last], last, *stars)


def directives_or_refusal(module, call, format, model):
    try:
        return list(call(format, model=model))
    except module.Refused as refusal:
        return refusal.kind, refusal.byte


def random_formats():
    chosen = random.Random(42)
    for _ in range(RANDOM):
        parts = chosen.choice([PARTS, IN_ORDER, BY_NUMBER])
        yield b"".join(chosen.choices(parts, k=chosen.randrange(1, 7)))


def test_directives(module, trials):
    """The specifications of real and of random formats, in one data model after the other."""
    accepted = {"real": 0, "random": 0}
    for kind, texts in [("real", shapes()), ("random", random_formats())]:
        for at, format in enumerate(texts):
            model = module.Model(at % 3)
            wanted = directives_or_refusal(
                module, lambda format, model: found_directives(module, format, model), format, model
            )
            found = directives_or_refusal(module, module.directives, format, model)
            accepted[kind] += isinstance(wanted, list) and wanted != []
            if found != wanted:
                trials.expect(f"specifications of {format!r} in {model.name}", found, wanted)
    trials.expect("formats with specifications", (accepted["real"] > 3_900, accepted["random"] > 50_000), (True, True))


def test_hostile(module, trials):
    """Texts that are long, or as far from the order of their arguments as may be."""
    letters = ["d", "s", "f", "lu"]
    names = [module.arguments(f"%{letter}")[0] for letter in letters]
    numbers = range(GREATEST, 0, -1)
    reverse = "".join(f"%{number}${letters[number % 4]}" for number in numbers)
    trials.expect("numbers in reverse", module.arguments(reverse), [names[number % 4] for number in reversed(numbers)])
    trials.expect("numbers in reverse fit", module.fits(reverse, reverse), True)
    trials.expect("zeros of a precision", module.arguments(f"%.{'0' * MANY}5d"), module.arguments("%d"))
    refused = [
        # Four digits make 1111; the fifth is too many.
        (f"%{'1' * MANY}d", "WidthTooLarge", 5),
        (f"%{GREATEST}$n", "MissingArgument", len(f"%{GREATEST}$n")),
        (f"%{GREATEST}$d{'%1$d' * (MANY // 4)}", "MissingArgument", len(f"%{GREATEST}$d") + MANY),
    ]
    for text, name, byte in refused:
        try:
            found = module.arguments(text)
        except module.Refused as refusal:
            found = (refusal.name, refusal.byte)
        trials.expect(f"{text[:10]}..", found, (name, byte))


Tests = tests_of(globals())
