"""Tries the sentences of fmtcanon-explain: directives that are not the same have different ones, and by its sentence
alone each prints what the GNU C library prints; so does one without a part that is said to have no effect.
"""

import contextlib
import ctypes
import importlib
import itertools
import random

from tests.frame.cases import tests_of
from tests.library.sentences import printed_by, read

FLAGS, LENGTHS, CONVERSIONS = "-+ #0'", ["", "hh", "h", "l", "ll", "j", "z", "t", "L"], "diuoxXbcsCSpnfFeEgGaA"
# Values for each kind of argument. Hexadecimal ones lose no digit.
INTEGERS = (0, 1, -1, 7, -42, 200, 65_535, 2**31 - 1, -(2**31), 2**63 - 1)
INFINITE = (float("inf"), float("-inf"), float("nan"))
FLOATS = (0.0, -0.0, 1.5, -2.25, 1234567.0, 1e-5, *INFINITE)
WHOLE, HALVES = (0.0, -0.0, 1.0, -2.0, 0.5, *INFINITE), (1.5, -2.25)
TEXTS, CHARACTERS = ("", "a", "seven c"), (65, 97)
# A pointer, and how the library writes one with the flags that the words name.
ADDRESS, POINTERS = 0x1234, {None: b"%p", "`+`": b"%+p", "space": b"% p"}
# Values of the arguments of `*`: of one, and of a width and a precision.
ONE = [(it,) for it in (0, 1, 5, 15, -1, -9)]
TWO = list(itertools.product((0, 5, 15, -9), (0, 1, 5, -3)))
ROOM = 6_000
# How many directives are printed, and how many are told apart.
PRINTED, TOLD = 1_000, 9_704
# Directives with a phrase of their sentence, and a wrong one that is planted in its place.
PLANTED = [
    ("%5d", "right-justified in at least {width} bytes", "left-justified in at least {width} bytes"),
    ("%05d", "padded with zeros to at least {width} bytes", "right-justified in at least {width} bytes"),
    ("%.3u", "at least {precision} digits", "at least {precision}0 digits"),
    ("%.*u", "(1 if it is negative)", "(2 if it is negative)"),
    ("%*d", "(left-justified if it is negative)", "(without its sign)"),
    (
        "%f",
        "{precision} digits after the decimal point",
        "up to {precision} significant digits, in the style of `f` or `e`",
    ),
    ("%#g", "{precision} significant digits", "up to {precision} significant digits"),
    ("%+i", "always with a sign", "with a space where there is no sign"),
    ("%.3s", "at most {precision} bytes of it", "no bytes of it"),
    ("%hhd", "the value as a signed char", "the value as a short"),
    ("%010f", " (infinity and NaN with spaces)", ""),
]


class Sentences:
    """What is said of directives, and what the GNU C library prints."""

    def __init__(self, module):
        self.module, self.printf = module, ctypes.CDLL(None).snprintf
        self.explain = importlib.import_module("fmtcanon.formats.explaining").explain
        self.words = importlib.import_module("fmtcanon.formats.layout").part_words
        self.table = importlib.import_module("fmtcanon.words").WORDS
        self.names = importlib.import_module("fmtcanon.kinds").TYPE_NAMES
        self.room = ctypes.create_string_buffer(ROOM)
        of_types = {it: getattr(ctypes, f"c_{it.name.replace('_', '').lower()}") for it in list(module.Type)[:6]}
        type = module.Type
        self.passed = {
            **of_types,
            **{it: lambda _: ctypes.byref(ctypes.c_longlong()) for it in list(type)[12:]},
            type.POINTER_TO_VOID: lambda _: ctypes.c_void_p(ADDRESS),
            type.DOUBLE: ctypes.c_double,
            type.LONG_DOUBLE: ctypes.c_longdouble,
            type.STRING: lambda text: ctypes.c_char_p(text.encode()),
            type.WIDE_CHAR: ctypes.c_uint,
            type.WIDE_STRING: ctypes.c_wchar_p,
        }

    def parts(self, texts):
        """Yields what is said of each text that is accepted."""
        for text in texts:
            with contextlib.suppress(self.module.Refused):
                found = self.explain(text.encode(), self.module.Model.LP64)
                yield found.parts[0], tuple(found.canonical.values())

    def printed(self, text, arguments):
        size = self.printf(self.room, ROOM, text, *arguments)
        return self.room.raw[:size]

    def values_of(self, one):
        """Values for a directive; none if the reader can't print them."""
        type = self.module.Type
        if one.found.type in (type.STRING, type.WIDE_STRING):
            return TEXTS
        if one.conversion in "pn":
            address = self.passed[one.found.type](None)
            return [{flag: self.printed(it, [address]).decode() for flag, it in POINTERS.items()}]
        if one.conversion in "aA":
            is_whole = one.found.precision == 0 or one.found.precision_argument is not None
            return () if one.found.type is type.LONG_DOUBLE else WHOLE if is_whole else WHOLE + HALVES
        if one.found.type in (type.DOUBLE, type.LONG_DOUBLE):
            return FLOATS
        return CHARACTERS if one.conversion in "cC" else INTEGERS

    def untrue(self, part):
        """Yields what the library prints for a directive, if that is not by its sentence, or not without a needless
        part.
        """
        one = part.specification
        stars = [it + 1 for it in (one.found.width_argument, one.found.precision_argument) if it is not None]
        shorter = [one.alone(it) for it in self.module.Part if it & one.found.needless]
        for numbers in [[()], ONE, TWO][len(stars)]:
            values = self.values_of(one)
            phrases = read(part.meaning, dict(zip(stars, numbers))) if values else None
            for value in values:
                arguments = [*map(ctypes.c_int, numbers), self.passed[one.found.type](value)]
                wanted = printed_by(phrases, self.names[one.found.type], value)
                found = [self.printed(it, arguments) for it in (part.text, *shorter)]
                if set(found) != {wanted}:
                    yield part.text, part.meaning, numbers, value, wanted, found

    def not_told_apart(self, texts):
        """The texts with one sentence that are not the same in all data models, and how many texts are accepted."""
        known, count = {}, 0
        for count, (part, keys) in enumerate(self.parts(texts), 1):
            known.setdefault(self.words(part, self.module.Model.LP64)[0], {}).setdefault(keys, part.text)
        return [list(it.values()) for it in known.values() if len(it) > 1], count

    @contextlib.contextmanager
    def with_phrase(self, old, new):
        """Plants a phrase in the table."""
        rows = [row for group in self.table["meaning"] for row in group]
        phrases = [row[-1] for row in rows]
        for row in rows:
            row[-1] = row[-1].replace(old, new)
        try:
            yield
        finally:
            for row, phrase in zip(rows, phrases):
                row[-1] = phrase


def texts_of(flags, widths, precisions):
    """All directives of these parts."""
    return map("%{}{}{}{}{}".format, *zip(*itertools.product(flags, widths, precisions, LENGTHS, CONVERSIONS)))


def drawn(seed):
    """Yields different directives at random, without end."""
    chosen, known = random.Random(seed), set()
    while True:
        flags = "".join(chosen.choices(FLAGS, k=chosen.choice([0, 0, 1, 1, 2, 3])))
        width = chosen.choice(["", "", "*", "1", "2", "4", "7", "12", "20"])
        precision = chosen.choice(["", "", "", ".*", ".", ".0", ".1", ".3", ".6", ".10", ".19"])
        text = f"%{flags}{width}{precision}{chosen.choice(['', '', *LENGTHS])}{chosen.choice(CONVERSIONS)}"
        if text not in known:
            known.add(text)
            yield text


def untrue_of(sentences, seed, count):
    """What is not true of directives at random."""
    parts = itertools.islice(sentences.parts(drawn(seed)), count)
    return [it for part, _ in parts for it in sentences.untrue(part)]


def test_told_apart(module, trials):
    flags = ["", "-", "+", " ", "#", "0", "'", "-0", "+0", "#0", "+ "]
    found = Sentences(module).not_told_apart(texts_of(flags, ["", "*", "4"], ["", ".*", ".", ".3"]))
    trials.expect("directives with one sentence that are not the same", found, ([], TOLD))


def test_printed(module, trials):
    trials.expect("what is not printed by the sentence", untrue_of(Sentences(module), 1, PRINTED), [])


def test_effects(module, trials):
    """What has no effect has none in any data model: each part by itself, and those that are left out of the sentence;
    and there are words on each.
    """
    found, count = [], 0
    for part, _ in itertools.islice(Sentences(module).parts(drawn(4)), 1_500):
        one = part.specification
        for parts in [*(it for it in module.Part if it & one.found.needless), one.found.together]:
            count += 1
            is_same = len(module.same_in(one.alone(), one.alone(parts), whole=True)) == len(module.Model)
            if not is_same or "" in part.notes:
                found.append((part.text, parts))
    trials.expect("what has an effect in some data model", found, [])
    trials.expect("many parts have no effect", count > 1_500, True)


def test_planted(module, trials):
    """Each wrong phrase is found."""
    sentences = Sentences(module)
    for text, old, new in PLANTED:
        for is_wrong, phrase in [(False, old), (True, new)]:
            with sentences.with_phrase(old, phrase):
                found = [it for part, _ in sentences.parts([text]) for it in sentences.untrue(part)]
                trials.expect(f"{text} is not printed by {phrase!r}", found != [], is_wrong)
    with sentences.with_phrase("the value as a signed char, in decimal", "decimal"):
        found, _ = sentences.not_told_apart(["%d", "%hhd"])
        trials.expect("%d and %hhd with one sentence are found", found, [[b"%d", b"%hhd"]])


Tests = tests_of(globals())
