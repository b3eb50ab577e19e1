"""Checks tables and numbers of the pages against what they are about: the code, the header, the help, the tables of the
bench, and those of `make tables`.

What needs the library is in tests/commands/pages/test_page_tables.py.
"""

import re

from bench import charts, formats
from fmtcanon.compiling.platforms import PLATFORMS
from fmtcanon.diff import pair_judging
from fmtcanon.fitting import reporting
from fmtcanon.kinds import Kind, LiteralKind, Type
from fmtcanon.words import WORDS
from tests.frame.cases import tests_of
from tests.frame.harness import TOP, model_rows, section, usage_texts

DOCS = TOP / "docs"
RESULTS = TOP / "tests/field/RESULTS.md"
HEADER = (TOP / "include/fmtcanon.h").read_text(encoding="utf-8")
MODELS = ["Lp64", "Ilp32", "Llp64"]


def read(path):
    return path.read_text(encoding="utf-8")


def tables(text):
    """The tables of a text, each as its rows of cells, without the line below the first."""
    for block in re.findall(r"(?:^\|.*\n?)+", text, re.MULTILINE):
        rows = [[cell.strip() for cell in line.strip().strip("|").split("|")] for line in block.splitlines()]
        yield [row for row in rows if not all(re.fullmatch(r"-+", it) for it in row)]


def table_of(page, heading, number=0):
    """The rows of a table below a heading of a page, after the first."""
    return list(tables(section(page, heading)))[number][1:]


def name_of(member):
    return member.name.title().replace("_", "")


def statuses():
    """What the help says of each status."""
    help_text = next(text for words, text in usage_texts() if words == ["--help"])
    return dict(re.findall(r"^  (\d)  (.*)$", help_text.split("Exit status:\n")[1], re.MULTILINE))


def without_ticks(text):
    return text.replace("`", "")


def test_numbers_of_kinds(trials):
    """The cheat sheet has each type, each kind and each option, with the number of the library."""
    page = read(DOCS / "CHEATSHEET.md")
    cells = [it for row in list(tables(section(DOCS / "CHEATSHEET.md", "Types")))[0] for it in row if it]
    words = [f"{it.value} `{WORDS['types'][str(it.value)]}`" for it in Type]
    trials.expect("types", sorted(cells, key=lambda it: int(it.split()[0])), words)
    cells = [it for row in list(tables(section(DOCS / "CHEATSHEET.md", "Kinds of refusals")))[0] for it in row if it]
    words = [f"[{it.value} {name_of(it)}](REFUSALS.md#{it.value}-{name_of(it).lower()})" for it in Kind]
    trials.expect("kinds", sorted(cells, key=lambda it: int(re.search(r"\d+", it)[0])), words)
    words = ", ".join(f"{it.value - 200} {name_of(it)}" for it in LiteralKind)
    trials.expect("kinds of literals", re.search(r"^String literals: (.*)$", page, re.MULTILINE)[1], words)
    parts = re.findall(r"(\d) ([^,.]+)", re.search(r"^Status: (0 success.*?)\.", page, re.MULTILINE)[1])
    known = {**statuses(), "4": statuses()["4"] + ": an I/O error"}
    found = [(number, [it for it in re.findall(r"\w{5,}", text) if it not in known[number]]) for number, text in parts]
    trials.expect("statuses", found, [(it, []) for it in "01234"])
    calls = {it.removeprefix("fmtcanon_") for it in re.findall(r"^\w[\w *]*\b(fmtcanon_\w+)\(", HEADER, re.MULTILINE)}
    named = set(re.findall(r"`(\w+)`", section(DOCS / "CHEATSHEET.md", "Calls")))
    trials.expect("calls that the cheat sheet lacks", sorted(calls - named), [])


def helps():
    return {words[0]: text for words, text in usage_texts() if words[1:] == ["--help"]}


def test_commands(trials):
    """The cheat sheet has each command of the program, and says for which an option isn't."""
    given = helps()
    rows = table_of(DOCS / "CHEATSHEET.md", "The program")
    trials.expect("commands", sorted(re.match(r"`(\w+)", it[0])[1] for it in rows), sorted(given))
    for cell, effect in table_of(DOCS / "CHEATSHEET.md", "The program", 1):
        option = re.search(r"--[a-z]+", cell)
        if option:
            has = {name for name, text in given.items() if re.search(rf"{option[0]}\b", text.split("Options:")[1])}
            without = re.search(r"not for (.*)", effect)
            only = re.search(r"whole language; (.*)", effect)
            if without:
                trials.expect(
                    f"not for {option[0]}", sorted(set(given) - has), sorted(re.findall(r"`(\w+)`", without[1]))
                )
            if only:
                trials.expect(f"only for {option[0]}", sorted(has), sorted(re.findall(r"`(\w+)`", only[1])))


def rows_of_models():
    """The bits of a long, and the ranks of size_t and intmax_t, by data model, as the code has them."""
    code = read(TOP / "crates/pf_values/src/models.rt")
    for model in MODELS:
        values = []
        for call in ["long_bits", "size_rank", "greatest_rank"]:
            body = re.search(rf"fn {call}\b.*?match self \{{(.*?)\}}", code, re.DOTALL)[1]
            values.append(re.search(rf"Model::{model}\b[^=]*=> (?:Rank::)?(\w+)", body)[1])
        yield model, values


def test_data_models(trials):
    """The tables of data models have the rows of the code."""
    ranks = {"Int": "`int`", "Long": "`long`", "LongLong": "`long long`"}
    systems = ["64-bit Unix", "32-bit systems", "64-bit Windows"]
    rows = [
        [f"`{model.lower()}`", f"{bits} bits", ranks[size], ranks[greatest], system]
        for (model, (bits, size, greatest)), system in zip(rows_of_models(), systems)
    ]
    found = [
        [row[0].replace(", the default", ""), *row[1:]] for row in table_of(DOCS / "USING.md", "Choose the data model")
    ]
    trials.expect("data models in docs/USING.md", found, rows)
    trials.expect("data models in help", all(it in helps()["same"] for it in ["64-bit Unix", "64-bit Windows"]), True)
    kept = {"Int": "none", "Long": "`l`", "LongLong": "`ll`"}
    values = dict(rows_of_models())
    modifiers = {row[0]: row[1:3] for row in table_of(DOCS / "DEFINITIONS.md", "DataModel")}
    longs = [values[it][0] for it in MODELS]
    trials.expect("bits of `l`", modifiers["`l`"][1], f"{longs[0]}; {longs[1]} in `Ilp32`, `Llp64`")
    sizes = ", ".join(f"{kept[values[it][1]]} in `{it}`" for it in MODELS)
    trials.expect("what `z` and `t` are", modifiers["`z`, `t`"][0], sizes)
    trials.expect(
        "what `j` is", modifiers["`j`"][0], f"{kept[values['Lp64'][2]]} in `Lp64`, otherwise {kept[values['Ilp32'][2]]}"
    )
    trials.expect("bits of others", [modifiers[it][1] for it in ["`hh`, `h`", "none", "`ll`"]], ["8, 16", "32", "64"])


def test_statuses(trials):
    """docs/USING.md says of each status what the help does."""
    rows = table_of(DOCS / "USING.md", "Exit status")
    found = {row[0]: without_ticks(row[1]) for row in rows}
    trials.expect("statuses", sorted(found), sorted(statuses()))
    for number, text in statuses().items():
        first = re.split(r"[;,] |or unpaired", text)[0].strip()
        trials.expect(f"status {number}", found.get(number, "").startswith(first), True)
    trials.expect("status 1", found["1"], statuses()["1"])


def test_statuses_of_commands(trials):
    """Pages that say when the status is 0, 1 and 2 say so in this order, as the help of the commands does."""
    found = []
    for page in sorted(DOCS.glob("*.md")):
        for sentence in re.findall(r"The status is (\d (?:if|for) [^.]*(?:\.[^.\s][^.]*)*)\.", read(page)):
            numbers = re.findall(r"(?:^|, |and )(\d) (?:if|for)", sentence)
            trials.expect(
                f"statuses in {page.name}: {sentence[:60]}", numbers, ["0", "1", "2"] if len(numbers) > 1 else ["1"]
            )
            found.append(page.name)
    pages = ["EXPLAINING.md", "PORTING.md", "REFACTORING.md", "TRANSLATIONS.md", "TUTORIAL.md"]
    trials.expect("pages with statuses", sorted(set(found)), pages)


def test_candidates(trials):
    """docs/DEFINITIONS.md has the candidates and the bases of the code."""
    code = read(TOP / "crates/pf_probes/src/candidate_rows.rt")
    rows = dict(table_of(DOCS / "DEFINITIONS.md", "Candidates"))

    def of_code(name):
        return re.findall(r"Number\((.*?)\)", re.search(rf"const {name}: .*?\n\];", code, re.DOTALL)[0])

    trials.expect("of int", rows["int"].split(", "), of_code("INTS"))
    words = {"u64::MAX as i128": "the largest", "i64::MIN as i128": "the smallest", "i64::MAX as i128": "the largest"}
    for row, name in [("unsigned types", "UNSIGNED_64"), ("long, long long", "SIGNED_64")]:
        trials.expect(f"of {row}", rows[row].split(", "), [words.get(it, it) for it in of_code(name)])
    counts = re.findall(r"count: (\d+)", re.search(r"const STRINGS: .*?\n\];", code, re.DOTALL)[0])
    shown = "the empty string; `A`; 4,096 times `A`; 4,096 times `B`"
    trials.expect("of strings", rows["string"], shown)
    trials.expect("counts of strings", counts, ["0", "1", "4096", "4096"])
    for name, number, *_, digits in table_of(DOCS / "DEFINITIONS.md", "Bits, Bases"):
        most = [0] * 4
        for at, bits in enumerate((8, 16, 32, 64)):
            rest = 2**bits - 1
            while rest:
                rest, most[at] = rest // int(number), most[at] + 1
        trials.expect(f"digits of {name}", digits, ", ".join(map(str, most)))


def test_numbers_of_c(trials):
    """docs/C.md has the numbers of the header."""
    page = read(DOCS / "C.md")
    values = {
        name: int(number) for name, number in re.findall(
            r"^#define (FMTCANON_ERROR_\w+) \((-\d+)\)", HEADER, re.MULTILINE
        )
    }
    table = {without_ticks(row[0]): row for row in table_of(DOCS / "C.md", "Errors")}
    trials.expect("errors of the table", {it for it in table if it.startswith("FMTCANON")}, set(values))
    last = re.search(r"-1 to -(\d+) \|.*\n\| -(\d+) to -(\d+) \|", page).groups()
    kinds = [max(Kind).value, min(LiteralKind).value, max(LiteralKind).value]
    trials.expect("kinds of errors", [int(it) for it in last], kinds)
    free = re.search(
        r"New kinds of refusals are -(\d+) to -99, other errors -(\d+) to -199, and kinds of literals -(\d+) to", page
    )
    wanted = [max(Kind).value + 1, 1 - min(values.values()), max(LiteralKind).value + 1]
    trials.expect("free numbers", free and [int(it) for it in free.groups()], wanted)
    sets = dict(re.findall(r"FMTCANON_IN_(\w+) = (\d+)", HEADER))
    trials.expect("sets of data models", [sets[it] for it in ("NEITHER", "BOTH", "ALL")], ["0", "3", "7"])
    words = "`FMTCANON_IN_NEITHER` is 0, `FMTCANON_IN_BOTH` is LP64 and ILP32, and `FMTCANON_IN_ALL` is all three"
    trials.expect("their words", words in page, True)
    trials.expect(
        "kinds of the header", re.search(r"-1 to -(\d+): .*\n?.*-201 to -(\d+)", HEADER).groups(), ("22", "206")
    )
    rooms = re.search(r"STACK_ROOM: usize = (\d+)", read(TOP / "crates/pf_canon/src/short_texts.rt"))[1]
    trials.expect("bytes without an allocation", f"than {rooms} bytes." in HEADER, True)
    words = "65536 times the major one, 256 times the minor one, plus the patch"
    more = re.search(r"which is (\d+) more than the number", page)[1]
    trials.expect("numbers of literal kinds", int(more), min(LiteralKind).value - 1)
    numbers = re.search(r"an enum fmtcanon_literal_kind; (\d+) or (\d+) \*/", HEADER).groups()
    errors = [-values[f"FMTCANON_ERROR_{it}"] for it in ("COUNT", "TYPE")]
    trials.expect("numbers of errors of fmtcanon_render()", [int(it) for it in numbers], errors)
    trials.expect("the number of the version", words in " ".join(HEADER.replace("\n *", "").split()), True)
    room = re.search(r"const ROOM: usize = (\d+)", read(TOP / "crates/fmtcanon_c/src/directives.rt"))[1]
    trials.expect("specifications without an allocation", f"Allocates only for more than {room}," in HEADER, True)
    most = re.search(r"considered, from 1 to (\d+);", HEADER)[1]
    ints = re.search(r"INTS: \[Candidate; (\d+)\]", read(TOP / "crates/pf_probes/src/candidate_rows.rt"))[1]
    trials.expect("renderings", most, ints)


def test_limits(trials):
    """Each limit of numbers that a page or a manual page names is that of the code."""
    limit = re.search(r"MAX_NUMBER: u16 = (\d+)", read(TOP / "crates/pf_values/src/limits.rt"))[1]
    words = r"(?:at most|up to|above|pass|passes|limit of|limits? is|number.? is) (4,?0\d\d)\b"
    paths = [*DOCS.rglob("*.md"), TOP / "README.md", *(TOP / "man").iterdir(), TOP / "include/fmtcanon.h"]
    found = {(it.name, number.replace(",", "")) for it in paths for number in re.findall(words, read(it))}
    trials.expect("limits", {number for _, number in found}, {limit})
    trials.expect("pages with limits", len(found) > 4, True)


def test_forms(trials):
    """The numbers of docs/DECISIONS.md and docs/USING.md for what the program can answer are those of the code."""
    rows = {row[0]: row[1] for row in table_of(DOCS / "DECISIONS.md", "Forms that differ")}
    outcomes = read(TOP / "crates/fmtcanon/src/outcome.rt").split("pub enum Outcome {\n")[1].split("\n}\n")[0]
    kinds = len(re.findall(r"^    [A-Z]", outcomes, re.MULTILINE))
    said = rows["18 kinds of refusal, and 11 outcomes"]
    trials.expect("refusals and outcomes", said, f"{max(Kind).value} and {kinds}")
    ints = re.search(r"INTS: \[Candidate; (\d+)\]", read(TOP / "crates/pf_probes/src/candidate_rows.rt"))[1]
    trials.expect("renderings", rows["`renderings` up to 16"], f"up to {ints}")
    digits = re.search(r"MAX_DIGITS: usize = (\d+)", read(TOP / "crates/fmtcanon/src/arguments.rt"))[1]
    said = re.findall(r"A number has 1 to (\d+) digits", read(DOCS / "USING.md"))
    trials.expect("digits of an argument", said, [digits])


def test_normal_forms(trials):
    """The numbers above 1 in each row of docs/DEFINITIONS.md on a normal form are those of its record."""
    definitions = read(TOP / "crates/pf_values/specs/meaning/Normal.antt")
    records = dict(re.findall(r"^pub record (IsNormal\w+) .*\n((?:  .*\n)+)", definitions, re.MULTILINE))
    rows = [row for row in table_of(DOCS / "DEFINITIONS.md", "Normal") if "`IsNormal" in row[0]]
    trials.expect("forms with a record", len(rows), len(records))
    for form, condition in rows:
        texts = [condition, records[re.search(r"`(IsNormal\w+)`", form)[1]]]
        numbers = [{it for it in re.findall(r"\b\d+\b", text) if int(it) > 1} for text in texts]
        trials.expect(f"numbers of {form}", *numbers)


def test_see_also(trials):
    """Each page of ours that a manual page names is there, in that section."""
    there = {it.name for it in (TOP / "man").iterdir()}
    for page in sorted((TOP / "man").iterdir()):
        found = re.findall(r"\b(fmtcanon[-\w]*) \((\d)\)", read(page).replace("\\", ""))
        named = {f"{name}.{number}" for name, number in found}
        trials.expect(f"pages that {page.name} names", (named - there, len(named) > 0), (set(), True))


def test_counting(trials):
    """Pages of the program count from 0, and those of the commands from 1; functions with ten calls are named."""
    pages = [*DOCS.glob("*.md"), *(TOP / "man").iterdir(), TOP / "README.md"]
    found = {it.name: set(re.findall(r"counted from (\d+)", read(it))) for it in pages}
    from_0 = {"USING.md", "REFUSALS.md", "fmtcanon.1", "fmtcanon.3", "C.md", "PYTHON.md"}
    for name, numbers in found.items():
        trials.expect(f"counted from, in {name}", numbers <= ({"0"} if name in from_0 else {"1"}), True)
    trials.expect("pages that count", len([it for it in found.values() if it]) > 6, True)
    words = re.search(r"it names those with (\w+) such calls", read(TOP / "man/fmtcanon-check.1"))[1]
    least = re.search(r"NAMED_FROM\b.*? = (\d+)", read(TOP / "python/fmtcanon/checker/command.py"))[1]
    trials.expect("calls of a function that is named", (words, least), ("ten", "10"))


def numbers_in(text):
    return re.findall(r"\d[\d,]*\d|\d", text)


def test_results(trials):
    """docs/FINDINGS.md and the README have the numbers of tests/field/RESULTS.md."""
    page = DOCS / "FINDINGS.md"
    trials.expect("programs", table_of(page, "How much was read"), table_of(RESULTS, "Programs"))
    catalogs = {row[0]: row[1] for row in table_of(RESULTS, "Catalogs")}
    for name, number in list(tables(section(page, "How much was read")))[1][1:]:
        trials.expect(f"catalogs: {name}", number, catalogs.get(name))
    text = section(page, "How much was read")
    compared = text.split("### Compared with the compilers\n")[1].split("###")[0]
    cases = [it for row in table_of(RESULTS, "Compilers") for it in (row[4], row[3])]
    words = section(RESULTS, "Compilers")
    trials.expect("expressions", numbers_in(compared.split("directives")[0]), re.findall(r"533|92|66", words))
    for same, all_of_it in zip(cases[::2], cases[1::2]):
        trials.expect(
            f"{same} of {all_of_it}", re.search(rf"{same}(?: cases)? of {all_of_it}\b", compared) is not None, True
        )
    counts = {}
    for who, _, number in table_of(RESULTS, "Messages with random edits"):
        counts[who] = counts.get(who, 0) + int(number.replace(",", ""))
    edits = text.split("### Compared with `msgfmt -c`\n")[1].split("###")[0]
    wanted = [
        f"{it:,}" for it in (sum(counts.values()), *map(counts.get, ("both", "neither", "fmtcanon-po", "msgfmt")))
    ]
    trials.expect("messages with random edits", re.findall(r"\d+,\d+", edits), wanted)
    replaced = {row[0]: row[1] for row in table_of(RESULTS, "Formats that are replaced")}
    found = numbers_in(text.split("### Formats that were replaced\n")[1].split("###")[0])
    names = [
        "Places with a `%`",
        "Files",
        "Of these replaced",
        "Skipped: keys for translators",
        "Skipped: parts of expressions",
    ]
    trials.expect("replaced", found[2:7], [replaced[it] for it in names])
    respelled = re.search(r"respells (\d+), .*of the (\d+),", section(RESULTS, "Formats that are replaced"))
    trials.expect("respelled", found[7:9], list(respelled.groups()))
    changed = text.split("### Formats that changed\n")[1]
    trials.expect("releases", numbers_in(changed)[2:], [it for it in numbers_in(section(RESULTS, "Releases"))[2:]])
    errors = {row[0].split(" ")[0]: row[4] for row in table_of(RESULTS, "Programs")}
    errors["iproute2"] = re.search(r"In iproute2 6.1, 4 files have (\d) errors", read(RESULTS))[1]
    readme = section(TOP / "README.md", "What it found")
    named = dict((name, number) for number, name in re.findall(r"(\d+) (?:wrong arguments )?in (\w+)", readme))
    trials.expect("findings of the README", named, {it: errors[it] for it in ("bcal", "redis", "libpsm2", "iproute2")})
    alone = catalogs["Messages with a fault by `fmtcanon-po` alone"]
    trials.expect("translations of the README", re.search(r"And (\d+) translations", readme)[1], alone)
    versions = re.findall(r"\b[a-z]\w+ \d+\.\d+\b", readme)
    trials.expect("programs of the README that the findings lack", [it for it in versions if it not in read(page)], [])
    flagged = next(row for row in table_of(page, "Translations") if "`%#<PRIu64>`" in row[1])
    more = int(re.search(r"and (\d+) more", flagged[0])[1])
    trials.expect("translations with a flag", re.search(r"(\d+) have a `#`", readme)[1], str(more + 1))
    trials.expect(
        "translations of the findings", re.findall(r"^The (\d+) are those above", text, re.MULTILINE), [alone]
    )


BENCH = TOP / "bench/RESULTS.md"


def bases(row, value, ratio):
    """What `parse_printf_format` took, by one row's ratio: the smallest and the largest number of instructions. What
    compares two formats is divided by two calls of it.
    """
    calls = 2 if row[0].startswith(("`fits", "`same", "`whole_same")) else 1
    count, quotient = float(row[value].replace(",", "")), float(row[ratio])
    return (count - 0.5) / (quotient + 0.005) / calls, (count + 0.5) / (quotient - 0.005) / calls


def test_ratios(trials):
    """In the tables of the C library's calls each ratio is one to the same call: what `parse_printf_format` takes."""
    calls, whole, bounds, prints = (table_of(BENCH, "Calls of the C library", number) for number in range(4))
    for name, rows, columns in [("all", calls, (1, 2)), ("the 509", calls, (3, 4)), ("whole", whole, (1, 2))]:
        found = [bases(row, *columns) for row in rows]
        least, greatest = max(low for low, _ in found), min(high for _, high in found)
        trials.expect(f"a base of {name}: {least:.1f} to {greatest:.1f}", least <= greatest, True)
    for row in [*bounds, *prints]:
        one, other, quotient = (float(it.replace(",", "")) for it in row[1:])
        divided = other / one if row in bounds else one / other
        trials.expect(f"the ratio of {row[0]}", abs(divided - quotient) <= 0.006, True)
    with_all = {}
    for row in table_of(BENCH, "Shortcuts"):
        for set_of_texts, count in enumerate(row[2::2]):
            with_all.setdefault((row[1], set_of_texts), []).append(int(count.replace(",", "")))
    for (call, _), counts in with_all.items():
        trials.expect(f"{call} with all shortcuts, in one row and another", max(counts) <= 1.08 * min(counts), True)
    for row in table_of(DOCS / "PERFORMANCE.md", "Calls per second"):
        nanoseconds, a_second = (int(it.replace(",", "")) for it in row[1:3])
        trials.expect(f"{row[0]} from C", abs(a_second * nanoseconds / 1e9 - 1) <= 0.51 / nanoseconds + 0.005, True)


def test_proved(trials):
    """The README has each crate but the callers, with public calls and laws of it; the kit's logic of docs/INSTALL.md;
    and the minutes and the cores of docs/CONTRIBUTING.md.
    """
    readme, rows = read(TOP / "README.md"), table_of(TOP / "README.md", "What is proved")
    crates = [it.name for it in (TOP / "crates").iterdir() if not it.name.startswith("uses")]
    trials.expect("crates of the README", sorted(row[0].strip("`") for row in rows), sorted(crates))
    for crate, _, carried in rows:
        folder = TOP / "crates" / crate.strip("`") / "src"
        sources = {it.stem: read(it) for it in folder.rglob("*.rt")}
        for name in re.findall(r"`((?:laws::)?\w+)`", carried):
            texts = [sources["laws"]] if name.startswith("laws::") else sources.values()
            function = rf"^pub fn {name.split('::')[-1]}\b"
            trials.expect(f"{name} of {crate}", any(re.search(function, it, re.MULTILINE) for it in texts), True)
    logic = r"logic(?: `rt version` gives as)? `(\w+)`"
    installed = re.search(r"whose " + logic, read(DOCS / "INSTALL.md"))[1]
    trials.expect("the kit's logic", re.search(logic, readme)[1], installed)
    minutes = re.search(r"make test +# (\d+) minutes on two cores, (\d+) on four", readme).groups()
    measured = re.findall(r"from nothing, on (?:two|four) cores \| (\d+) min", read(DOCS / "CONTRIBUTING.md"))
    in_fives = [5 * round(int(it) / 5) for it in measured]
    trials.expect("minutes of the gate, in fives", [int(it) for it in minutes], in_fives)


def test_kinds_of_findings(trials):
    """The tables of kinds have those of the commands, and say which are errors."""
    rows = table_of(DOCS / "PORTING.md", "Find the calls")
    found = {name: row[2] for row in rows for name in re.findall(r"`(\w+)`", row[0])}
    trials.expect("kinds of fmtcanon-check", set(found), set(reporting.RULES) - {reporting.FIXED})
    trials.expect("errors", {it for it in found if found[it] == "as an error"}, set(reporting.ERRORS))
    added = {reporting.RANK, reporting.SIGN, reporting.COMPOSED}
    trials.expect("with options", {it: found[it] for it in added}, {it: f"with `--{it}`, as a note" for it in added})
    rows = table_of(DOCS / "REFACTORING.md", "What a change does")
    names = [name for row in rows for name in re.findall(r"`(\w+)`", row[0])]
    wanted = {*pair_judging.RULES, reporting.SIZE, reporting.KIND} - {"same"}
    trials.expect("kinds of fmtcanon-diff", set(names), wanted)
    faults = [*pair_judging.FAULTS, reporting.SIZE, reporting.KIND]
    page = " ".join(section(DOCS / "REFACTORING.md", "What a change does").split())
    trials.expect("faults come first", set(names[: len(faults)]), set(faults))
    trials.expect("how many", "if there is one of the first six kinds" in page and len(faults), 6)


def test_types_of_platforms(trials):
    """docs/PORTING.md has the type of each typedef on each platform."""
    plain = {"unsigned long": "long", "unsigned int": "int", "unsigned long long": "long long"}
    by_model = {it.name: it for it in PLATFORMS}
    for names, *cells, _ in table_of(DOCS / "PORTING.md", "Which types change"):
        for name in re.findall(r"`(\w+_t)`", names):
            found = []
            for model in ("LP64", "ILP32", "LLP64"):
                there = {
                    plain.get(it, it) for it in (
                        it.types.get(name) for key, it in by_model.items() if key.startswith(model)
                    ) if it
                }
                there |= {
                    plain.get(it.wider.get(name), it.wider.get(name)) for key, it in by_model.items() if key.startswith(
                        model
                    ) if it.wider.get(name)
                }
                found.append(there)
            shown = [set(re.findall(r"`([a-z ]+)`", it)) for it in cells[:3]]
            trials.expect(f"{name} on each platform", shown, found)


def test_figures(trials):
    """docs/PERFORMANCE.md has the numbers of formats of the bench, and the ranges of its tables."""
    page = read(DOCS / "PERFORMANCE.md")
    shapes, whole = formats.shapes(), formats.whole_shapes()
    mean = f"{sum(map(len, shapes)) / len(shapes):.1f}"
    trials.expect(
        "formats",
        re.search(r"over ([\d,]+) formats of real programs, ([\d.]+) bytes", page).groups(),
        (f"{len(shapes):,}", mean),
    )
    every = section(charts.RESULTS, "Calls of the C library")
    trials.expect(
        "formats of the whole language", re.search(r"over ([\d,]+) formats with one", every)[1], f"{len(whole):,}"
    )
    first, second, _, last = tables(every)
    for what, words, ratios in [
        ("the 509", r"the ratios are ([\d.]+) to ([\d.]+)", [row[4] for row in first[1:]]),
        ("the whole language", r"that the profile lacks, (\d\.\d) to (\d\.\d)", [row[2] for row in second[1:]]),
        ("printing", r"takes ([\d.]+) to ([\d.]+) of", [row[3] for row in last[1:]]),
    ]:
        numbers = [float(it) for it in ratios]
        wanted = tuple(f"{it:.1f}" for it in (min(numbers), max(numbers)))
        found = re.search(words, page)
        trials.expect(f"ratios of {what}", found and found.groups(), wanted)


def test_rows_of_the_model(trials):
    """docs/VERIFICATION.md says how many rows the model of the program has, in hundreds."""
    count = int(re.search(r"more than (\d+) rows of a model of the program", read(DOCS / "VERIFICATION.md"))[1])
    trials.expect("rows of the model", count, len(model_rows()) // 100 * 100)


def test_versions_of_python(trials):
    """The pages name the Python that the module needs."""
    needed = re.search(r'requires-python = ">=([\d.]+)"', read(TOP / "python/pyproject.toml"))[1]
    for page in [TOP / "README.md", DOCS / "INSTALL.md", DOCS / "PYTHON.md"]:
        found = set(re.findall(r"Python (\d\.\d+)", read(page)))
        trials.expect(f"Python in {page.name}", found, {needed})


Tests = tests_of(globals())
