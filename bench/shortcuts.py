"""Counts what each shortcut buys: the instructions of calls with it and without it.

A shortcut is a faster way to a result that another way gives, too. The crates are compiled without their proofs, by
rustc.
"""

import shutil

from formats import DIRECTIVE_PAIRS, records, shapes
from library import ALIKE, ONE, PLAIN, TWO, WHOLE, count
from shortcut_edits import shortcuts
from unproved import build, output

# Each long text has this many literal bytes, and then this many of the formats.
LITERAL, JOINED = 1000, 100
OF_PAIRS = " of a pair"


def words_of(call, rounds, texts):
    """The program and the arguments that make a call on each text of a file, or on a pair of texts."""
    if not call.startswith("crate "):
        if call not in ["nothing", *ONE, *TWO, *WHOLE, *ALIKE]:
            raise ValueError(f"library.c has no call {call}")
        return "library", [call, str(rounds), texts]
    how = ["pair", *texts] if isinstance(texts, tuple) else ["formats", texts]
    return "driver", [call.removeprefix("crate "), str(rounds), *how]


class Costs:
    """The instructions of one call by the programs in a folder, over each of the sets of texts."""

    def __init__(self, folder, sets, known=None):
        """`known` has the costs of calls that do nothing, of which one serves all folders."""
        self.folder, self.sets, self.nothing = folder, sets, {} if known is None else known.nothing

    def two_rounds(self, call, texts):
        more, fewer = (
            count(self.folder / program, *words) for program, words in (words_of(call, n, texts) for n in (3, 1))
        )
        return more - fewer

    def one(self, call, texts):
        """What a round costs, less that of a call that does nothing, and the sum that the call prints."""
        nothing = "crate nothing" if call.startswith("crate ") else "nothing"
        if (nothing, texts) not in self.nothing:
            self.nothing[nothing, texts] = self.two_rounds(nothing, texts)
        program, words = words_of(call, 1, texts)
        given = output([self.folder / program, *words])
        return (self.two_rounds(call, texts) - self.nothing[nothing, texts]) / 2, given

    def of(self, call):
        """What one call costs over each set, and what it gives."""
        if call.endswith(OF_PAIRS):
            found = [self.one(call, pair) for pair in DIRECTIVE_PAIRS]
            return [sum(cost for cost, _ in found) / len(DIRECTIVE_PAIRS)], [given for _, given in found]
        found = [(self.one(call, file), number) for file, number in self.sets]
        return [cost / number for (cost, _), number in found], [given for (_, given), _ in found]


def sets_in(work):
    """Writes the sets of texts, and returns the file and the number of each: all formats, those of more than bare
    directives, and long texts.
    """
    texts = shapes()
    long = [b"x" * LITERAL + b"".join(texts[at : at + JOINED]) for at in range(0, len(texts), JOINED)]
    sets = []
    for name, some in [
        ("all", texts), ("parts", [text for text in texts if not PLAIN.fullmatch(text)]), ("long", long)
    ]:
        (work / name).write_bytes(records(some))
        sets.append((work / name, len(some)))
    return sets


def rows_of(shortcut, folder, all_costs, known):
    """Returns the rows of a shortcut, by the costs of the calls with it: `known`. It is turned off in a folder."""
    build(folder, shortcut.texts())
    costs_without, rows = Costs(folder, all_costs.sets, all_costs), []
    for place, call in enumerate(shortcut.calls):
        costs, given = costs_without.of(call)
        if given != known[call][1]:
            raise ValueError(f"without {shortcut.name} {call} gives something else")
        cells = [f"{old:,.0f} | {new:,.0f}" for old, new in zip(known[call][0], costs)]
        cells += [" | "] * (len(all_costs.sets) - len(cells))
        rows.append(f"| {'' if place else shortcut.name} | {named(call)} | {' | '.join(cells)} |")
    shutil.rmtree(folder)
    return rows


def named(call):
    """A call in the table: one of the crates' own calls is marked."""
    name, comma, rest = call.removeprefix("crate ").replace(OF_PAIRS, ", pairs").partition(",")
    return f"`{name}`{comma}{rest}{' (Rattle)' if call.startswith('crate ') else ''}"


def table(work, workers, wanted=""):
    """Yields the lines of the table, of the shortcuts whose names have this word."""
    found = [shortcut for shortcut in shortcuts() if wanted in shortcut.name]
    work.mkdir(parents=True, exist_ok=True)
    sets = sets_in(work)
    heads = [f"{sets[0][1]:,} formats", f"{sets[1][1]} of them", f"{sets[2][1]} long texts"]
    yield "| Shortcut | Call | " + " | ".join(f"{head} | Without" for head in heads) + " |"
    yield "|---|---" * (len(sets) + 1) + "|"
    build(work / "with")
    costs = Costs(work / "with", sets)
    calls = sorted({call for shortcut in found for call in shortcut.calls})
    known = dict(zip(calls, workers.map(costs.of, calls)))
    folders = [work / f"without-{number}" for number in range(len(found))]
    for rows in workers.map(lambda shortcut, folder: rows_of(shortcut, folder, costs, known), found, folders):
        yield from rows
