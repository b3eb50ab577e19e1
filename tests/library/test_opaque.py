"""Tries the calls of the library in the whole language: rows of plain data, and pairs of formats that gcc compiles.

It needs gcc, the GNU C library and its locale C.UTF-8.

Alike formats must print equal bytes and store equal counts for all arguments that are tried, and formats that are
compared as different other bytes for the arguments that the comparison gives.
"""

import random

from tests.frame.cases import tests_of
from tests.frame.harness import TIMEOUT
from tests.library.compiled_formats import PRINTED, VALUES, Trial, alike_pairs, literal, printed, unlike_pairs
from tests.library.test_library import same_answer
from tests.program.test_rows import rows_of

FORMATS = {"canon": 1, "same": 2, "fits": 2}
SIDES = ["first: ", "second: "]
PAIRS, LISTS, UNLIKE = 3_000, 3, 1_000


class Asked:
    """What a row asks: the command, the data models, whether these are named, and whether formats are literals."""

    def __init__(self, module, words):
        self.module = module
        self.command, *rest = words
        name = rest.pop(rest.index("--model") + 1) if "--model" in rest else "lp64"
        several = {"both": [module.Model.LP64, module.Model.ILP32], "all": list(module.Model)}
        self.models = several[name] if name in several else [module.Model[name.upper()]]
        self.is_literal, self.is_records = "--literal" in rest, "-z" in rest or "--null" in rest
        self.formats = [
            it.encode() for it in rest if it not in ("--model", "--literal", "--whole", "--null", "-z", "--")
        ]

    def answer(self, formats):
        """The status and the two streams, as the command has them for these formats."""
        sources, module = formats, self.module
        sides = SIDES if len(formats) == 2 else [""]
        if self.is_literal:
            formats = []
            for side, source in zip(sides, sources):
                try:
                    formats.append(module.decode_literal(source))
                except module.BadLiteral as fault:
                    refusal = self.refusal(formats[0]) if formats else None
                    line = self.refusal_line(refusal, sides[0], sources[0]) if refusal else f"{side}{fault}\n".encode()
                    return 2, b"", line
        try:
            return self.of_texts(formats)
        except module.Refused as refusal:
            return 2, b"", self.refusal_line(refusal, sides[refusal.side], sources[refusal.side])

    def refusal(self, text):
        try:
            self.module.canonical(text, whole=True)
        except self.module.Refused as refusal:
            return refusal
        return None

    def refusal_line(self, refusal, side, source):
        byte = self.module.source_offset(source, refusal.byte) if self.is_literal else refusal.byte
        return f"{side}refused {int(refusal.kind)} {refusal.name} at byte {byte}\n".encode()

    def of_texts(self, formats):
        module = self.module
        if self.command == "same":
            return same_answer(module, formats, self.models, True)
        if self.command == "fits":
            return self.fits(*formats)
        canonical = module.canonical(formats[0], model=self.models[0], whole=True)
        return 0, (module.encode_literal(canonical) if self.is_literal else canonical) + b"\n", b""

    def fits(self, first, second):
        module, lines = self.module, []
        found = module.fits_in(first, second) if len(self.models) > 2 else None
        for model in self.models:
            is_fit = module.fits(first, second, model=model)
            if found is not None and is_fit != (model in found):
                return "fits and fits_in differ"
            types = [module.arguments(it, model=model) for it in (first, second)]
            at = next((at for at, (one, other) in enumerate(zip(*types)) if one != other), min(map(len, types)))
            lines += [model.name.lower()] if self.models[1:] else []
            lines.append("fits" if is_fit else f"types differ at argument {at}")
        status = 0 if all(not it.startswith("types") for it in lines) else 1
        return status, "".join(f"{it}\n" for it in lines).encode(), b""

    def records(self, stdin):
        """The status and the two streams over records, each with a NUL after it."""
        formats = stdin.split(b"\0")
        formats = formats if formats[-1] else formats[:-1]
        step, status, replies = FORMATS[self.command], 0, b""
        for at in range(0, len(formats), step):
            found = self.answer(formats[at : at + step])
            status = max(status, found[0])
            replies += b"%d %s\0" % (found[0], (found[1] or found[2])[:-1])
        return status, replies, b""


def test_rows(module, trials):
    """The library answers each row as the program is to answer it."""
    commands = []
    for row in rows_of("opaque.jsonl"):
        asked = Asked(module, row["words"])
        commands.append(asked.command)
        found = asked.records(row["stdin"].encode("latin-1")) if asked.is_records else asked.answer(asked.formats)
        trials.expect(
            f"the module: {row['words']}",
            found,
            (row["status"], row["stdout"].encode("latin-1"), row["stderr"].encode()),
        )
    trials.expect("rows of each command", min(commands.count(it) for it in FORMATS) > 10, True)


def alike_trials(module, trials):
    """Pairs that the library must call the same, each with some lists of arguments."""
    chosen = random.Random(62)
    for first, second, kinds in alike_pairs(PAIRS):
        trials.expect(
            f"alike: {first!r} and {second!r}", module.compare(first, second, whole=True).verdict, module.Verdict.SAME
        )
        one, other = (module.canonical(it, whole=True) for it in (first, second))
        trials.expect(f"canonical: {first!r} and {second!r}", (one, module.canonical(one, whole=True)), (other, one))
        for _ in range(LISTS):
            yield Trial(first, second, tuple(chosen.choice(VALUES[kind]) for kind in kinds))
        # The canonical text prints the same, too.
        yield Trial(first, one, tuple(chosen.choice(VALUES[kind]) for kind in kinds))


def argument_of(argument, kind):
    """An argument in C: the one that is given, or one that prints something in the place of any."""
    if argument is None:
        return PRINTED.get(kind, VALUES[kind][0])
    if isinstance(argument, bytes):
        return literal(argument.decode("ascii"))
    type_of_c = "int" if kind == "star" else kind
    # The smallest number of a type has no literal of its own, and the largest one needs the suffix.
    return f"({type_of_c})({argument + 1} - 1)" if argument < 0 else f"({type_of_c}){argument}u"


def unlike_trials(module, trials):
    """Pairs that the library must call different, each with the arguments that it gives."""
    for first, second, kinds in unlike_pairs(UNLIKE):
        found = module.compare(first, second, whole=True)
        trials.expect(f"different: {first!r} and {second!r}", found.verdict, module.Verdict.DIFFERENT)
        if found.arguments is not None:
            trials.expect(f"arguments of {first!r}", len(found.arguments), len(kinds))
            yield Trial(first, second, tuple(map(argument_of, found.arguments, kinds)))


def test_compiled(module, trials, work):
    """What gcc makes of the pairs prints equal bytes where they are alike, and other bytes where they are different."""
    alike, unlike = list(alike_trials(module, trials)), list(unlike_trials(module, trials))
    trials.expect("pairs", (len(alike), len(unlike)), ((LISTS + 1) * PAIRS, UNLIKE))
    for locale in ["C", "C.UTF-8"]:
        said = printed(alike + unlike, work, locale, 5 * TIMEOUT)
        trials.expect(f"{locale}: how many", len(said), len(alike) + len(unlike))
        for one, mark in zip(alike, said):
            # Outside ASCII there are no wide characters in the locale C, so nothing is printed.
            is_there = locale != "C" or not any("u00e9" in it for it in one.arguments)
            trials.expect(f"{locale}: alike {one}", mark if is_there else mark.replace("-", "="), "=")
        for one, mark in zip(unlike, said[len(alike) :]):
            trials.expect(f"{locale}: different {one}", mark, "#")


Tests = tests_of(globals())
