"""Tests of fmtcanon-explain: what it says of formats, by hand from the standard, and the form of its output."""

import io
import json
import os
import re
import subprocess
import sys
import tempfile
import time
import unittest
from contextlib import redirect_stderr, redirect_stdout
from pathlib import Path

import fmtcanon
from fmtcanon import Kind, Model
from fmtcanon.explain.command import main
from fmtcanon.formats.explaining import explain
from fmtcanon.formats.rejections import help_on, refused_span
from fmtcanon.words import WORDS

from tests.frame import TOP
from tests.frame.cases import tests_of
from tests.frame.fixtures import prepared



def run(*words):
    """The status of the command, and the lines that it writes to standard output."""
    out, errors = (io.TextIOWrapper(io.BytesIO(), encoding="utf-8") for _ in range(2))
    with redirect_stdout(out), redirect_stderr(errors):
        try:
            status = main(words)
        except SystemExit as end:
            status = end.code
    out.flush()
    return status, out.buffer.getvalue().decode("utf-8", "surrogateescape").splitlines()


def asked(*words):
    """The status of the command, and the object that it writes."""
    status, lines = run("--output", "json", *words)
    return status, json.loads("".join(lines))


# What the parts of directives do, by C11 7.21.6.1: a directive, what is said of it, and what has no effect.
DIRECTIVES = [
    ("%d", "decimal", []),
    ("%hhi", "the value as a signed char, in decimal", []),
    ("%hd", "the value as a short, in decimal", []),
    ("%hhu", "the value as an unsigned char, in decimal", []),
    ("%hx", "the value as an unsigned short, in hexadecimal with `a` to `f`", []),
    ("%5d", "decimal, right-justified in at least 5 bytes", []),
    ("%-5d", "decimal, left-justified in at least 5 bytes", []),
    ("%05d", "decimal, padded with zeros to at least 5 bytes", []),
    ("%+.3i", "decimal, at least 3 digits, always with a sign", []),
    ("% d", "decimal, with a space where there is no sign", []),
    ("%.0x", "hexadecimal with `a` to `f`, no digit for 0", []),
    ("%#x", "hexadecimal with `a` to `f`, with `0x` before a number other than 0", []),
    ("%#o", "octal, with a leading `0`", []),
    ("%b", "binary", []),
    ("%.3s", "the string, at most 3 bytes of it", []),
    ("%.1s", "the string, at most 1 byte of it", []),
    ("%-20s", "the string, left-justified in at least 20 bytes", []),
    ("%1s", "the string, right-justified in at least 1 byte", []),
    ("%c", "the character with this number", []),
    ("%f", "6 digits after the decimal point", []),
    ("%.1f", "1 digit after the decimal point", []),
    ("%.0f", "a whole number, rounded", []),
    ("%F", "6 digits after the decimal point, `INF` and `NAN` in capitals", []),
    (
        "%010f",
        "6 digits after the decimal point, padded with zeros to at least 10 bytes (infinity and NaN with spaces)",
        [],
    ),
    ("%.0e", "one digit and an exponent after `e`", []),
    ("%g", "up to 6 significant digits, in the style of `f` or `e`", []),
    ("%#g", "6 significant digits, in the style of `f` or `e`, always with a decimal point", []),
    ("%.3g", "up to 3 significant digits, in the style of `f` or `e`", []),
    ("%.0g", "1 significant digit, in the style of `f` or `e`", []),
    ("%.0A", "hexadecimal with `A` to `F` and an exponent after `P`, no digit after the point", []),
    ("%p", "the pointer, as the C library writes it", []),
    ("%+p", "the pointer, as the C library writes it, with the flag `+`", []),
    ("%n", "nothing: the number of bytes printed so far is stored", []),
    ("%ls", "the wide string", []),
    (
        "%*d",
        "decimal, right-justified in at least as many bytes as argument 1 says (left-justified if it is negative)",
        [],
    ),
    ("%-*d", "decimal, left-justified in at least as many bytes as argument 1 says (without its sign)", []),
    (
        "%0*d",
        "decimal, padded with zeros to at least as many bytes as argument 1 says, or left-justified with spaces if it "
        "is "
        "negative",
        [],
    ),
    (
        "%05.*d",
        "decimal, at least as many digits as argument 1 says (1 if it is negative), right-justified in at least 5 "
        "bytes "
        "(padded with zeros if argument 1 is negative)",
        [],
    ),
    ("%.*f", "as many digits after the decimal point as argument 1 says (6 if it is negative)", []),
    ("%.*s", "the string, at most as many bytes of it as argument 1 says (all if it is negative)", []),
    ("%-05d", "decimal, left-justified in at least 5 bytes", ["`-` overrides `0`"]),
    ("%05.3d", "decimal, at least 3 digits, right-justified in at least 5 bytes", ["a precision overrides `0`"]),
    ("%+u", "decimal", ["`+` has no effect on `u`"]),
    ("%'d", "decimal", ["`'` has no effect in the POSIX locale"]),
    ("% +d", "decimal, always with a sign", ["`+` overrides the space"]),
    ("%lf", "6 digits after the decimal point", ["`l` has no effect on `f`"]),
    ("%.6e", "one digit, 6 digits after the decimal point, and an exponent after `e`", ["`.6` is the default"]),
    ("%1d", "decimal", ["`1` has no effect: what is printed is never shorter"]),
    ("%-d", "decimal", ["`-` has no effect without a width"]),
    (
        "%02.2X",
        "hexadecimal with `A` to `F`, at least 2 digits",
        [
            "a precision overrides `0`",
            "`2` has no effect: what is printed is never shorter",
            "or leave `.2` out instead",
        ],
    ),
    ("%--5d", "decimal, left-justified in at least 5 bytes", ["`-` is there more than once"]),
]


def test_meanings(case):
    for text, meaning, notes in DIRECTIVES:
        [part] = explain(text.encode(), Model.LP64).parts
        case.assertEqual((part.meaning, list(part.notes)), (meaning, notes), text)


def test_places_and_types(case):
    status, found = asked("%-08.6lf of %5zu%%")
    case.assertEqual((status, found["accepted"], found["format"]), (0, True, "%-08.6lf of %5zu%%"))
    first, second = found["directives"]
    case.assertEqual((first["start"], first["end"], first["text"], first["argument"]), (0, 8, "%-08.6lf", 1))
    case.assertEqual(first["types"], {"lp64": "double", "ilp32": "double", "llp64": "double"})
    case.assertEqual(len(first["notes"]), 3)
    case.assertEqual((second["start"], second["end"], second["text"], second["argument"]), (12, 16, "%5zu", 2))
    wanted = {"lp64": "unsigned long", "ilp32": "unsigned int", "llp64": "unsigned long long"}
    case.assertEqual(second["types"], wanted)
    canonical = {"lp64": "%-8f of %5lu%%", "ilp32": "%-8f of %5u%%", "llp64": "%-8f of %5llu%%"}
    case.assertEqual((found["canonical"], found["bounds"]), (canonical, None))


def test_facts(case):
    """What is said in words is there by itself, too."""
    part = asked("%1$-05.*3$lf %2$d")[1]["directives"][0]
    facts = {"flags": "-0", "width": 5, "width_argument": None, "precision": None, "precision_argument": 3}
    facts.update(modifier="l", conversion="f", needless=["0", "modifier"], together=["0", "modifier"])
    case.assertEqual({it: part[it] for it in facts}, facts)


def test_numbered_arguments(case):
    status, found = asked("%2$*1$d")
    [part] = found["directives"]
    said = "decimal, right-justified in at least as many bytes as argument 1 says (left-justified if it is negative)"
    case.assertEqual((status, part["argument"], part["meaning"]), (0, 2, said))
    case.assertIsNone(found["canonical"])


def test_errno(case):
    """`%m` has a caret line and no argument, and where directives differ it is shown if the other format lacks it."""
    _, found = asked("%d: %m")
    number, errno = found["directives"]
    case.assertEqual((number["argument"], errno["argument"], errno["types"]), (1, None, {}))
    case.assertEqual((errno["start"], errno["end"], errno["text"]), (4, 6, "%m"))
    _, lines = run("%d: %m")
    words = "    ^^   no argument: the message of errno, as strerror returns it"
    case.assertEqual([lines[2], lines[3].strip()], [words, WORDS["errno"]["note"]])
    for first, second, argument, texts in [
        ("%m%d", "%d%m", 1, ["%m", "%d"]),
        ("%m%f", "%m%e", 1, ["%f", "%e"]),
        ("%m%m", "%m", 1, ["%m", None]),
        ("%d%m%f", "%d%f", 2, ["%m", "%f"]),
    ]:
        status, found = asked(first, second)
        shown = [it and it["text"] for it in found["directives"]]
        case.assertEqual((status, found["verdict"], found["argument"], shown), (1, "directives", argument, texts))
    _, found = asked("%m%s", "%d")
    case.assertEqual([it["text"] for it in found["directives"]], ["%s", "%d"])


def test_instead_of_errno(case):
    """Only if something stands between: `% m` may be a forgotten percent sign."""
    case.assertEqual([asked(it)[1]["refusal"].get("write") for it in ("%5m", "%-m", "5% more")], ["%m", "%m", None])


def test_numbers_of_bytes(case):
    for text, least, greatest in [("%d", 1, 11), ("%.3s %c%%", 3, 6), ("id=%s", 3, None), ("", 0, 0)]:
        case.assertEqual(asked(text)[1]["bounds"], {"least": least, "greatest": greatest}, text)
    case.assertEqual(asked("--model", "ilp32", "%ld")[1]["bounds"], {"least": 1, "greatest": 11})


def test_names_of_types(case):
    """The name that a length modifier has in C comes before the type that it is (C11 7.21.6.1 p7)."""
    for text, name in [
        ("%zu", "size_t"), ("%zd", "ssize_t"), ("%ti", "ptrdiff_t"), ("%jx", "uintmax_t"), ("%lu", None)
    ]:
        [part] = asked(text)[1]["directives"]
        case.assertEqual(part["type_name"], name, text)
    case.assertIn("argument 1, size_t: unsigned long (unsigned int in ILP32, ", run("%zu")[1][1])


def test_carets(case):
    """Carets are under the bytes of a directive, as they are shown."""
    for text, shown in [("a%5dbc%%", "a%5dbc%%"), ("\t%d", "\\t%d"), ("ä%d", "ä%d"), ('"%d"', '\\"%d\\"')]:
        status, lines = run("--", text)
        column = shown.index("%")
        case.assertEqual((status, lines[0]), (0, shown))
        mark = lines[1][: len(shown)]
        end = shown.index("d") + 1
        case.assertEqual(mark.rstrip(), " " * column + "^" * (end - column), text)


def test_wide_characters(case):
    """A character that takes two columns of a terminal moves the carets by two."""
    _, lines = run("\u65e5%d")
    case.assertEqual(lines[1][:4], "  ^^")


def test_long_formats(case):
    """The words about a long format are below the carets."""
    _, lines = run("x" * 50 + "%d")
    case.assertEqual(lines[1:3], [" " * 50 + "^^", "    argument 1, int: decimal"])


def test_what_follows(case):
    case.assertEqual(run("%i")[1][-2:], ["key: %d", "it prints 1 to 11 bytes"])
    key = ["key (LP64): %lu", "it is not a rewrite: in ILP32 and LLP64 it means something else"]
    case.assertEqual(run("%zu")[1][-3:], [*key, "it prints 1 to 20 bytes"])
    case.assertEqual(run("--model", "ilp32", "%jd")[1][-3], "key (ILP32): %lld")
    # In ILP32, a long has 11 bytes at most.
    case.assertEqual(run("%20ld")[1][-2:], ["key (LP64): %20ld", "it prints 20 bytes"])
    key = ["key (ILP32): " + " " * 9 + "%11ld", "it is not a rewrite: in LP64 it means something else"]
    case.assertEqual(run("--model", "ilp32", "%20ld")[1][-3:], [*key, "it prints 20 bytes"])
    rows = [("%s", "at least 0 bytes"), (" %s", "at least 1 byte"), ("%c", "1 byte"), ("%2c", "2 bytes")]
    for text, said in rows:
        case.assertEqual(run(text)[1][-1], f"it prints {said}")


def test_colour(case):
    for words, has in [(["--color", "always"], True), (["--color", "never"], False), ([], False)]:
        case.assertEqual("\x1b[" in "".join(run(*words, "%d")[1]), has, words)


def test_literals(case):
    case.assertEqual(run("--literal", r'"\x25i\n"')[1][0], r"%i\n")
    case.assertEqual(run("--literal", "%d")[0], 2)


def test_macros_in_literals(case):
    """Macros of <inttypes.h> have the text of each data model (C11 7.8.1)."""
    found = asked("--literal", r'"%5" PRIu64 "\n"')[1]
    [part] = found["directives"]
    wanted = {"lp64": "unsigned long", "ilp32": "unsigned long long", "llp64": "unsigned long long"}
    case.assertEqual((found["format"], part["text"], part["types"]), ("%5lu\n", "%5lu", wanted))
    case.assertEqual(found["canonical"], {"lp64": "%5lu\n", "ilp32": "%5llu\n", "llp64": "%5llu\n"})
    case.assertEqual(asked("--literal", "--model", "llp64", 'PRIdPTR "%d"')[1]["format"], "lld%d")
    case.assertEqual(run("--literal", '"%#" PRId64')[1][2], "   ^ `#` has no meaning with `d`. Write %ld.")
    for text in ['"%d" FOO', "PRId64", '"%d", "%d"', 'L"%d"', 'f("%" PRId64)', '"%" PRId64;']:
        case.assertEqual(run("--literal", text), (2, []), text)


def test_calls(case):
    """A call that is pasted is read as what it is, and a text that only looks like one as a text."""
    for call, shown, *given in [
        (r'printf("%lu bytes\n", strlen(name));', r"%lu bytes\n", "strlen(name)"),
        ('n = snprintf(s, sizeof s, _("%d" "|%s"), f(a, b), c)', "%d|%s", "f(a, b)", "c"),
        ('return fprintf (stderr, "%" PRIu64, x) ;', "%lu", "x"),
        ('(void)printf("%d"', "%d"),
    ]:
        status, lines = run(call)
        case.assertEqual((status, lines[0]), (0, shown), call)
        wanted = [f"argument {at}: {it}" for at, it in enumerate(given, 1)]
        case.assertEqual([it for it in lines if it.startswith("argument ")], wanted)
        case.assertEqual(asked(call)[1]["format"], call)
    case.assertEqual(run('printf("%#d", x)')[1][:2], ["refused 13 AltUndefined at byte 2", "%#d"])
    others = ['printf("%d") failed', 'use printf("%d", x);', 'open("%s")', 'printf("%d"); printf("%d")']
    for text in [*others, 'a % b = printf("%d")']:
        case.assertNotIn("argument 1: ", "\n".join(run(text)[1]), text)
        case.assertIn(text.replace('"', '\\"'), "\n".join(run(text)[1]), text)


def test_rejected_literals(case):
    """The offset is that of the literals, as the program prints it, and the caret is under the byte."""
    rows = [([r'"\t%y"'], r"\t%y", 4), (['"%d"', r'"\x41" "%d%y"'], "A%d%y", 11)]
    for words, shown, at in rows:
        status, lines = run("--literal", *words)
        case.assertEqual((status, lines[0][-len(f"byte {at}") :]), (2, f"byte {at}"))
        case.assertEqual((lines[1], lines[2].index("^")), (shown, len(shown) - 1))
        case.assertEqual(asked("--literal", *words)[1]["refusal"]["at"], at)


def test_linear(case):
    """Twice the format is at most about twice the text, with all that is said of each directive."""
    short, long = (run("%5d" * count)[1] for count in (1000, 2000))
    case.assertLess(sum(map(len, long)), 2.2 * sum(map(len, short)))
    case.assertLess(max(map(len, long[1:-2])), 100)
    case.assertEqual(long[0], "%5d" * 2000)
    at = long.index("%5d at byte 5997")
    case.assertEqual(long[at + 1], "    argument 2000, int: decimal, right-justified in at least 5 bytes")


def test_time(case):
    """Four times the format takes about four times the time, also if it is rejected or its arguments are numbered."""
    rows = [("%5zu ", [""]), ("%m%-d", [""]), ("%1$d", [""]), ("%d ", ["%#d"]), ("%s %d ", ["%f", "%e"]), ("%d ", "xy")]
    for part, ends in rows:
        times = []
        for count in (1_000, 4_000):
            start = time.process_time()
            run(*(part * count + it for it in ends))
            times.append(time.process_time() - start)
        case.assertLess(times[1], 8 * times[0], part)


def test_shortest(case):
    """Carets are below all formats of up to 500 columns."""
    for count, is_marked in [(124, True), (125, True), (126, False)]:
        lines = run("%5d " * count)[1]
        case.assertEqual(any(set(it) == {" ", "^"} for it in lines), is_marked, count)


# What is said of examples of docs/REFUSALS.md, and not of the kind.
OF_THEIR_OWN = {
    "%2$d": "Nothing takes argument 1, so its type can't be known, and `%2$d` takes a later one.",
    "%Ld": "`L` is for `long double` alone; for `long long` there is `ll`.",
}


def test_a_caret(case):
    status, lines = run("%d and %#d")
    said = "         ^ `#` has no meaning with `d`. Write %d."
    case.assertEqual((status, lines), (2, ["refused 13 AltUndefined at byte 9", "%d and %#d", said]))


def test_what_to_write(case):
    """What is to be written is accepted; rows by hand."""
    rows = [("%#d", "%d"), ("%05s", "%5s"), ("%'x", "%x"), ("%.3c", "%c"), ("%hs", "%s"), ("100%", "%%")]
    rows += [("%5%", "%%"), ("%%%#d", "%d"), ("%d%-n", "%n"), ("%#lc", "%lc")]
    # One part alone is left out, and with others only those that have no meaning.
    rows += [("%010s", "%10s"), ("%.3ln", "%ln"), ("%*n", "%n"), ("%-+5hhn", "%hhn"), ("%2$#-5d%1$s", "%2$-5d")]
    # Names of length modifiers that other systems have.
    rows += [("%Zd", "%zd"), ("%-5qu", "%-5llu"), ("%I64d", "%lld"), ("x%08I64X", "%08llX"), ("%I32u", "%u")]
    rows += [("%Lu", "%llu"), ("%2$Zd", "%2$zd"), ("%Id", None), ("%Zs", None), ("%Ls", "%s"), ("%-.3n", None)]
    for text, instead in rows:
        status, found = asked("--", text)
        case.assertEqual((status, found["accepted"], found["refusal"].get("write")), (2, False, instead), text)
    case.assertNotIn("write", asked("%y")[1]["refusal"])


def test_where_it_is(case):
    """From the percent sign to the byte that is rejected, or the whole specification that takes a later argument."""
    rows = [
        ("a%%%-5y", 3, 7),
        ("%d %#d", 3, 6),
        ("%d\n%", 3, 5),
        ("5%5%", 1, 4),
        ("%1$d%3$5s %4$d", 4, 9),
        ("%2$d %d", 5, 7),
    ]
    for text, start, end in rows:
        refusal = asked(text)[1]["refusal"]
        case.assertEqual((refusal["start"], refusal["end"]), (start, end), text)
    refused = fmtcanon.Refused(Kind.NUL_BYTE, "NulByte", 2)
    case.assertEqual(refused_span(b"%d\0", refused), (2, 3))


def test_missing_argument(case):
    """The specification that takes a later one is named, and has the carets."""
    said = "^^^^ Nothing takes argument 2, so its type can't be known, and `%3$s` takes a later one."
    case.assertEqual(run("%3$s of %1$d")[1], ["refused 21 MissingArgument at byte 12", "%3$s of %1$d", said])


def test_names_of_other_systems(case):
    said = asked("%Zd")[1]["refusal"]["help"]
    case.assertEqual(said, "`Z` is an old name of `z` in the GNU C library.")
    case.assertTrue(asked("%Zs")[1]["refusal"]["help"].startswith("The byte can't continue the specification."))


def test_each_kind(case):
    for kind in Kind:
        name, advice = fmtcanon._name(kind), WORDS["refusals"][str(int(kind))].get("advice")
        for word in [str(int(kind)), name, name.lower()]:
            lines = [f"{int(kind)} {name}: {help_on(kind)}", *([advice] if advice else [])]
            case.assertEqual(run("--kind", word), (0, lines))
    help = "A width or a precision is an argument (`*`), which the profile leaves out."
    advice = "Use --whole, or write the number: `%8d` instead of `%*d`."
    case.assertEqual(asked("--kind", "5"), (0, {"kind": 5, "name": "Star", "help": help, "advice": advice}))
    for word in ["0", "23", "x", ""]:
        case.assertEqual(run("--kind", word)[0], 2, word)


def test_refused_kinds(case):
    """Formats that are rejected for each reason, by the tables of docs/REFUSALS.md for the whole language."""
    text = (TOP / "docs/REFUSALS.md").read_text(encoding="utf-8").split("## In the whole language")[1]
    rows = re.findall(r"^\| `(%[^`]+)` \| (\d+) at (\d+) \|", text, re.MULTILINE)
    case.assertGreater(len(rows), 6)
    for format, kind, at in rows:
        status, found = asked("--", format)
        refusal = found["refusal"]
        case.assertEqual((status, refusal["kind"], refusal["at"]), (2, int(kind), int(at)), format)
        said = OF_THEIR_OWN.get(format) or help_on(Kind(int(kind)), f"`{format[int(at) : int(at) + 1]}`")
        case.assertEqual(refusal["help"], said, format)


def test_second_of_two(case):
    status, lines = run("%d", "%y")
    case.assertEqual((status, lines[0]), (2, "second: refused 3 Unexpected at byte 1"))


def test_different(case):
    status, lines = run("%d: %05d", "%d: %.5d")
    case.assertEqual((status, lines[0]), (1, "different: for 0 and -1 they print"))
    case.assertEqual([it.split("    ")[0] for it in lines[1:3]], ["  0: -0001", "  0: -00001"])
    case.assertEqual(lines[3], "         ^")
    _, found = asked("%d: %05d", "%d: %.5d")
    case.assertEqual((found["verdict"], found["arguments"]), ("different", [0, -1]))
    case.assertEqual(found["printed"], ["0: -0001", "0: -00001"])
    case.assertEqual([it["text"] for it in found["directives"]], ["%05d", "%.5d"])


def test_same(case):
    case.assertEqual(run("%5c", "    %c"), (0, ["same", "  %5c", "      %c", "key:     %c"]))
    case.assertEqual(asked("%.6f", "%f")[1]["verdict"], "same")


def test_types(case):
    status, lines = run("%zu", "%lu", "--model", "ilp32")
    case.assertEqual((status, lines[0]), (1, "types differ at argument 1"))
    _, found = asked("%s: %d", "%d: %s")
    case.assertEqual((found["verdict"], found["argument"]), ("types", 1))
    case.assertEqual([it["text"] for it in found["directives"]], ["%s", "%d"])
    case.assertIsNone(asked("%d", "%d%d")[1]["directives"][0])


def test_directives(case):
    status, found = asked("%d%f", "%d%e")
    case.assertEqual((status, found["verdict"], found["argument"]), (1, "directives", 2))


def test_side_by_side(case):
    """The two directives are side by side with their types, or below each other where a line has no room."""
    lines = ["  a %zu                         %d", "    ^^^                         ^^"]
    lines += ["  size_t: unsigned long         int", "  unsigned int in ILP32", "  unsigned long long in LLP64"]
    case.assertEqual(run("a %zu", "%d")[1][1:], lines)
    front = "x" * 100
    case.assertEqual(run(f"{front}%d", "%s")[1][4:], ["  %s", "  ^^", "  string"])


def test_numbered(case):
    """Formats with numbered arguments are rejected, as by `same --whole`, and their types compared."""
    status, lines = run("%s: %d", "%1$s/%2$d")
    last = "only the types of the arguments can be compared: they are the same"
    case.assertEqual((status, lines[0], lines[-1]), (2, "second: refused 6 Numbered at byte 2", last))
    status, found = asked("%s: %d", "%2$s: %1$d")
    case.assertEqual((status, found["refusal"]["kind"], found["refusal"]["side"]), (2, 6, 1))
    case.assertEqual((found["types"]["verdict"], found["types"]["argument"]), ("types", 1))
    case.assertNotIn("types", asked("%1$d", "%y")[1])


def test_short_arguments(case):
    """Strings are as short as they can be, and of long lines what surrounds the difference is shown."""
    lines = ['different: for "AAAA" they print', "  AAAA    %s: the string"]
    lines += ["  AAA     %.3s: the string, at most 3 bytes of it", "     ^"]
    case.assertEqual(run("%s", "%.3s"), (1, lines))
    _, (_, first, second, mark) = run("%1000d|", "%1001d|")
    case.assertLessEqual(max(map(len, [first, second])), 104)
    case.assertEqual((first[mark.index("^")], second[mark.index("^")]), ("0", " "))


def test_first_of_two(case):
    case.assertEqual(run("%y", "%d")[1][0], "first: refused 3 Unexpected at byte 1")


def test_signs(case):
    """Of a number with a sign it is said which bytes or digits the sign is among, by C11 7.21.6.1 p6."""
    rows = [
        ("%+05d", "%+d", "the sign is one of the 5 bytes"),
        ("%.3d", "%03d", "3 digits, and the sign before them"),
    ]
    for first, second, said in rows:
        [one, _] = asked(first, second)[1]["directives"]
        case.assertEqual(one["meaning"], said, first)


# What the command shows, byte for byte.
WORKED = [
    (
        ["%-08.6lf of %5zu%%"],
        0,
        """\
%-08.6lf of %5zu%%
^^^^^^^^             argument 1, double: 6 digits after the decimal point, left-justified in at least 8
                     bytes
                     `-` overrides `0`; `.6` is the default; `l` has no effect on `f`
            ^^^^     argument 2, size_t: unsigned long (unsigned int in ILP32, unsigned long long in
                     LLP64): decimal, right-justified in at least 5 bytes
key (LP64): %-8f of %5lu%%
it is not a rewrite: in ILP32 and LLP64 it means something else""",
    ),
    (
        ["%d: %05d", "%d: %.5d"],
        1,
        """\
different: for 0 and -1 they print
  0: -0001     %05d: the sign is one of the 5 bytes
  0: -00001    %.5d: 5 digits, and the sign before them
         ^""",
    ),
    (
        ["%d and %#d"],
        2,
        """\
refused 13 AltUndefined at byte 9
%d and %#d
         ^ `#` has no meaning with `d`. Write %d.""",
    ),
]


def test_worked(case):
    for words, status, text in WORKED:
        case.assertEqual(run(*words), (status, text.splitlines()), words)


SOURCE = """\
#include <stdio.h>
void note(int level, const char *format, ...) __attribute__((format(printf, 2, 3)));
void f(int n, size_t size)
{
    printf("é%+ d of %5" PRIu64 "\\n", n + 1,
        (uint64_t) size);
    note(1, "%#d", n);
}
"""


class Places(unittest.TestCase):
    """--at: the format at a place of a source, and what is given to it."""

    def setUp(self):
        folder = tempfile.TemporaryDirectory()
        self.addCleanup(folder.cleanup)
        self.file = Path(folder.name, "a.c")
        self.file.write_text(SOURCE, encoding="utf-8")


def pointed():
    yield from prepared(Places)


def test_places(pointed):
    """Columns count characters, from the quote to the other one."""
    quote = SOURCE.splitlines()[4].index('"') + 1
    for column in (quote, quote + 2, quote + 13, quote + len('"é%+ d of %5" PRIu64 "\\n"') - 1):
        status, lines = run("--at", f"{pointed.file}:5:{column}")
        pointed.assertEqual((status, lines[0]), (0, "é%+ d of %5lu\\n"), column)
        pointed.assertEqual(lines[-2:], ["argument 1: n + 1", "argument 2: (uint64_t) size"])
    for line, column in [(5, quote - 1), (5, 99), (1, 3), (0, 1), (99, 1), (5, 0)]:
        pointed.assertEqual(run("--at", f"{pointed.file}:{line}:{column}"), (2, []))


def test_json(pointed):
    status, found = asked("--model", "ilp32", "--at", f"{pointed.file}:5:14")
    pointed.assertEqual((status, found["given"]), (0, ["n + 1", "(uint64_t) size"]))
    types = found["directives"][1]["types"]
    pointed.assertEqual(types, {"lp64": "unsigned long", "ilp32": "unsigned long long", "llp64": "unsigned long long"})


def test_rejected(pointed):
    status, lines = run("--at", f"{pointed.file}:7:14")
    pointed.assertEqual((status, lines[:2]), (2, ["refused 13 AltUndefined at byte 2", "%#d"]))
    pointed.assertEqual(lines[-1], "argument 1: n")


def test_input(pointed):
    """The source may come from standard input."""
    command = [sys.executable, "-B", "-m", "fmtcanon.explain", "--at=-:7:14"]
    done = subprocess.run(command, input=SOURCE.encode(), capture_output=True, check=False)
    pointed.assertEqual((done.returncode, done.stdout.decode().splitlines()[1]), (2, "%#d"))


def test_faults(pointed):
    rows = ["a.c", "a.c:x:1", str(pointed.file.parent / "none.c:1:1"), f"{pointed.file.parent}:1:1"]
    for word in rows:
        pointed.assertEqual(run("--at", word), (2, []), word)
    for words in (["%d"], ["--kind", "5"], ["--literal"]):
        pointed.assertEqual(run("--at", f"{pointed.file}:5:14", *words), (2, []), words)


def test_usage(case):
    for words in [[], ["%d", "%d", "%d"], ["--kind", "5", "%d"], ["--model", "x", "%d"]]:
        case.assertEqual(run(*words)[0], 2, words)


def test_help_fits(case):
    command = [sys.executable, "-B", "-m", "fmtcanon.explain", "--help"]
    done = subprocess.run(command, capture_output=True, text=True, check=True, env={**os.environ, "COLUMNS": "80"})
    case.assertLessEqual(max(map(len, done.stdout.splitlines())), 79)


Tests = tests_of(globals())
