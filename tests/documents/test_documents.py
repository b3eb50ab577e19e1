"""Checks the documents against the code: their names, paths, options, callers, numbers, words and versions, and the
map; and that definitions have distinct names, and that each name is used.
"""

import json
import math
import re

from bench import charts, shortcut_edits
from tests.commands.diff import changes
from tests.commands.replace import more_replace as replacing
from tests.commands.shared import first_screen
from tests.commands.shared.reader import SHOWN
from tests.documents.test_words import pages
from tests.frame.cases import tests_of
from tests.frame.harness import TOP, fences, model_rows, section, usage_texts
from tests.library import more_fewer_peers as fewer_peers
from tests.library import more_sentences
from tests.library import test_bounds_peers as bounds_peers
from tests.library import test_definition_of_numbers as definition_of_numbers
from tests.library import test_library as library
from tests.library import test_literals as literals
from tests.library import test_opaque as opaque
from tests.library import test_sentences as sentences
from tests.library import test_whole_types as whole_types
from tests.mutants import mutant_files, one_answer
from tests.program import more_linear as linear
from tests.program import test_memory as memory
from tests.program import test_short_streams as short_streams
from tests.program import test_sizes as sizes
from tests.web import more_module, more_page

# The commands with rows of a model of the program.
MODEL_COMMANDS = ["canon", "same", "format", "show", "stream", "types"]
# Names in the documents that are not names of this repository: those of C and its library, of other tools and of the
# kit, and placeholders.
FOREIGN_NAMES = set(
    """
    libos_c rattle_alloc rattle_dealloc rattle_realloc rattle_arg rattle_env rattle_env_at rattle_errno
    rattle_set_errno chdir getcwd
    cents errno intmax_t ptrdiff_t strerror uintmax_t I64
    xargs git sort msgfmt pipefail SOURCE_DATE_EPOCH fix plant PKG_CONFIG_PATH PYTHONPATH ldconfig pkg config cflags
    libs pkgconfig sudo iconv
    axiom axioms abort incremental nat trusted
    Abort AllocFailed WHAT strsim dac8208d650f15bf ed8637e01fc3206ec782c5daf8d913b1fcd4ddf4efb850537416d13256281534
    the_type write_all
    NAME PATH allow holes lemma is_left_justified echo_of expect assert_eq tidy XDG_CACHE_HOME
    bear psm2_epid_t win64
    FileType RET buf_attach_client init_options nvim_create_autocmd root_dir start_client
""".split()
)
# Folders whose files are the code that names are looked up in.
CODE = [
    "tests/**/*.py",
    "crates/*/src/**/*.rt",
    "crates/*/specs/**/*.antt",
    "crates/*/proofs/**/*.antt",
    "bench/**/*",
    "include/*",
    "python/**/*.py",
    "examples/*",
    "crates.txt",
    "Makefile",
    "HANDLES",
    "web/**/*",
]


def data_rows(name):
    """The rows of a file of tests/rows: lines of JSON after the one that says where they come from, or a text's
    lines.
    """
    lines = (TOP / "tests/rows" / name).read_text(encoding="utf-8").splitlines()
    return (
        [json.loads(line) for line in lines[1:]]
        if name.endswith(".jsonl")
        else [line for line in lines if not line.startswith("#")]
    )


def data_count(name):
    return len(data_rows(name))


def grid_sizes(of_int):
    """How many directives the grid of comparisons has of int, or of each other type."""
    return [count for kind, count, _ in data_rows("candidates.jsonl") if (kind == "int") == of_int]


def numbers_of_int():
    """How many numbers of int test_rows.py prints."""
    text = (TOP / "tests/program/test_rows.py").read_text(encoding="utf-8")
    return len(re.search(r"^INTS = \[(.*)\]$", text, flags=re.MULTILINE).group(1).split(","))


def pairs_of(count):
    return count * (count - 1) // 2


def number_in(file, pattern):
    """Returns what a pattern finds in a file: a number."""
    return re.search(pattern, (TOP / file).read_text(encoding="utf-8"))[1].replace("_", "")


def tested_counts():
    """What the table of tests/README.md says is tested: patterns of its numbers, each with the numbers that the
    files give.
    """
    texts = data_count("grid.txt") + data_count("long.txt")
    shapes = data_count("shapes.txt")
    sizes = grid_sizes(True) + grid_sizes(False)
    yield r"(\d+) refusals \|", [data_count("refused.jsonl")]
    yield r"for 16 shapes and (5) values, and by `b` for (\d+) shapes and (6) values \| (\d+) and (\d+) texts", [
        5,
        shapes,
        6,
        5 * texts,
        6 * shapes,
    ]
    yield r"(\d+) made lists of words", [
        int(number_in("tests/commands/hostile/more_hostile_words.py", r'"HOSTILE_LISTS", ([\d_]+)'))
    ]
    yield r"flags, widths, precisions and values \| (\d+) directives", [definition_of_numbers.COUNT]
    yield r"other programs' test suites, and worked rows \| (\d+) and (\d+) \|", [
        data_count("vectors.txt"),
        data_count("numbers.txt"),
    ]
    yield r"for up to (\d+) numbers \| (\d+) \|", [numbers_of_int(), data_count("reductions.jsonl")]
    yield r"rows of whole formats \| (\d+) and (\d+) \|", [
        data_count("canonical_formats.jsonl"),
        data_count("formats.jsonl"),
    ]
    commands = [row["words"][0] for row in model_rows()]
    for command in MODEL_COMMANDS:
        yield rf"(\d+) of `{command}`", [commands.count(command)]
    yield r"every 2 of (\d+) of int and of (\d+) of other types.* (\d+) pairs", [
        sum(grid_sizes(True)),
        sum(grid_sizes(False)),
        sum(map(pairs_of, sizes)),
    ]
    yield r"every 2 of (\d+) formats, and pairs of a model \| (\d+) pairs", [
        data_count("canonical_pairs.jsonl"),
        data_count("verdicts.jsonl"),
    ]
    yield r"help and (\d+) errors", [sum("error:" in text for _, text in usage_texts())]
    given = data_rows("literals.jsonl")
    yield r"rows, (\d+) of them of a model \| (\d+) \|", [len(given) - HAND_LITERALS, len(given)]
    yield r"(\d+) of them random; the literals of texts \| (\d+) sources, (\d+) texts", [
        literals.COUNT,
        sum(1 for _ in literals.sources()),
        sum(1 for _ in literals.texts()),
    ]
    whole = data_rows("whole.jsonl")
    formats = [len(whole) - HAND_WHOLE, len(whole_types.SILENT), len(whole), sum(1 for _ in whole_types.formats())]
    yield r"rows, (\d+) of them of a model; formats compared with gcc, which accepts (\d+) pairs silently.* (\d+) rows, (\d+) formats", formats
    given = data_rows("opaque.jsonl")
    yield r"rows, (\d+) of them of a model; pairs that .* for (\d+) lists of arguments \| (\d+) rows, (\d+) and (\d+) pairs", [
        len(given) - HAND_OPAQUE,
        opaque.LISTS,
        len(given),
        opaque.PAIRS,
        opaque.UNLIKE,
    ]
    given = data_rows("errno.jsonl")
    yield r"`%m` \| rows, (\d+) of them of a model \| (\d+) \|", [len(given) - HAND_ERRNO, len(given)]
    yield r"a regular expression \| (\d+) formats", [whole_types.RANDOM]
    numbers = [sum(1 for _ in bounds_peers.directives()), bounds_peers.WHOLE, sum(1 for _ in bounds_peers.asked())]
    yield r"(\d+) directives, (\d+) formats, and (\d+) directives", numbers
    yield r"`fmtcheck` of libbsd \| (\d+) pairs", [sum(1 for _ in fewer_peers.pairs())]
    told = [it.PRINTED for it in (sentences, more_sentences)] + [it.TOLD for it in (sentences, more_sentences)]
    yield r"have different sentences \| (\d+) and (\d+) directives; (\d+) and (\d+) \|", told
    yield from limits()
    yield r"the rows and (\d+) random formats and pairs", [more_module.RANDOM]
    yield r"`fmtcanon-explain`, for (\d+) random formats and (\d+) pairs; what Chromium", [
        more_page.FORMATS, more_page.PAIRS
    ]
    given = data_rows("records.jsonl")
    yield r"rows, (\d+) of them of a model; conversations; .* (\d+) rows", [len(given) - HAND_RECORDS, len(given)]
    yield r"(\d+) kinds of failure in rotation", [len(short_streams.STEPS) * len(short_streams.FAULTS)]
    yield r"what gcc's programs print \| (\d+) \|", [len(changes.CHANGES)]
    left = {name for name, _, _ in replacing.LEFT}
    yield r"programs that would print something else, (\d+) that it can't see \| (\d+) \|", [
        len(replacing.NOT_SEEN),
        len(left) + len(replacing.NOT_SEEN),
    ]


def limits():
    """The same of sizes, times and memory, which the scripts have."""
    yield r"resident size over (\d+) and over (\d+) records", [memory.MANY, memory.FEW]
    large = sum(count == sizes.LARGE for _, count, _ in sizes.CALLS)
    yield r"(\d+) directives, (\d+) arguments, and texts of (\d+) million bytes through (\d+) C calls, each within (\d+) times", [
        sizes.DIRECTIVES,
        sizes.ARGUMENTS,
        2 * sizes.LARGE // 1_000_000,
        large,
        sizes.TIMES,
    ]
    calls, runs = {name for name, _, _ in sizes.CALLS}, list(linear.runs(1))
    growth = [linear.SIZES[1] // linear.SIZES[0], linear.PERCENT // 10]
    yield r"of (\d+) runs of C calls and (\d+) runs of the program, over (\d+) and (\d+) items, grow at most (\d+)\.(\d+) times \| (\d+) runs", [
        len(calls),
        len(runs),
        *linear.SIZES,
        *growth,
        len(calls) + len(runs),
    ]
    _, pairs, _, sizes_of_room = library.OUTCOMES
    yield r"with (\d+) pairs of texts and (\d+) sizes of room, .* (\d+) calls", [
        pairs,
        sizes_of_room,
        math.prod(library.OUTCOMES),
    ]


# The rows that were worked out by hand, which come first.
HAND_RECORDS = 11
HAND_LITERALS = 27
HAND_WHOLE = 44
HAND_OPAQUE = 11
HAND_ERRNO = 18
# Numbers of that table that these scripts don't have.
PLAIN_NUMBERS = [
    r"16 shapes",
    r"a record of 100 million bytes",
    r"\| \d+ runs and comparisons",
    r"in rotation \| \d+ runs",
    r"every 2 of",
    r"spells in 2 ways",
    r"`parse_printf_format`",
    r"; 2 engines",
]
NUMBER_WORDS = dict(
    zip(
        "two three four five six seven eight nine ten eleven twelve thirteen fourteen fifteen sixteen seventeen "
        "eighteen".split(),
        range(2, 19),
    )
)


def with_digits(text):
    """A text with its numbers in digits: 40,000 as 40000, and words as far as eighteen."""
    text = re.sub(r"(?<=\d),(?=\d{3})", "", text)
    words = "|".join(NUMBER_WORDS)
    return re.sub(rf"\b({words})\b", lambda found: str(NUMBER_WORDS[found.group()]), text)


def test_numbers(trials):
    """The numbers of rows, tests and mutants in the documents are those of the files."""
    page = (TOP / "tests/README.md").read_text(encoding="utf-8")
    tested = with_digits(page.split("\n## Crates\n")[0])
    checked = set()
    for pattern, counts in tested_counts():
        found = re.search(pattern, tested)
        trials.expect(f"tests/README.md: {pattern}", found and [int(number) for number in found.groups()], counts)
        checked.update(found.start(group) for group in range(1, len(counts) + 1) if found)
    for pattern in PLAIN_NUMBERS:
        for found in re.finditer(pattern, tested):
            checked.update(found.start() + number.start() for number in re.finditer(r"\d+", found.group()))
    unchecked = [
        tested[max(0, number.start() - 20) : number.end() + 20]
        for number in re.finditer(r"\d+", tested)
        if number.start() not in checked
    ]
    trials.expect("numbers of tests/README.md that nothing checks", unchecked, [])
    for crate in sorted(path.name for path in (TOP / "crates").iterdir()):
        found = re.search(rf"\| `{crate}` \| \d+ \| (\d+) \| (\d+) \|", page)
        sources = (TOP / "crates" / crate / "src").rglob("*.rt")
        tests = sum(source.read_text(encoding="utf-8").count("#[test]\n") for source in sources)
        mutants = len(mutant_files.pairs_in(TOP / "crates" / crate))
        trials.expect(f"tests and mutants of {crate}", found and found.groups(), (str(tests), str(mutants)))
    try_mutant(trials, (TOP / "docs/CONTRIBUTING.md").read_text(encoding="utf-8"))


def lines_of(pattern, without=("/uses/src/tests", "/uses_low/src/tests")):
    """How many lines the files of a pattern have."""
    paths = [path for path in TOP.glob(pattern) if not any(it in str(path.parent / path.stem) for it in without)]
    return sum(path.read_text(encoding="utf-8").count("\n") for path in paths)


def test_sizes(trials):
    """The numbers of callers, of functions of C and of lines in docs/VERIFICATION.md; those of lines within a
    twentieth.
    """
    text = with_digits((TOP / "docs/VERIFICATION.md").read_text(encoding="utf-8"))
    callers = [
        name
        for path in TOP.glob("crates/uses*/src/*.rt")
        for name in re.findall(r"^pub fn (\w+)", path.read_text(encoding="utf-8"), re.MULTILINE)
    ]
    wrappers = re.findall(
        r"^WITH_OPTIONAL_ERROR\(", (TOP / "library/optional_error.c").read_text(encoding="utf-8"), re.MULTILINE
    )
    for pattern, count in [(r"have (\d+) callers", len(callers)), (r"the (\d+) C functions of", len(wrappers))]:
        found = re.search(pattern, text)
        trials.expect(f"docs/VERIFICATION.md: {pattern}", found and int(found.group(1)), count)
    tests = lines_of("crates/uses*/src/tests/**/*.rt", ()) + lines_of("crates/uses*/src/tests.rt", ())
    counts = [
        lines_of("crates/*/src/**/*.rt"),
        lines_of("crates/*/specs/**/*.antt"),
        lines_of("crates/*/proofs/**/*.antt"),
        lines_of("python/fmtcanon/**/*.py"),
        tests,
    ]
    pattern = (
        r"About (\d+) lines of Rattle with their contracts, (\d+) lines of definitions, (\d+) lines of proofs, (\d+) "
        r"lines of Python, and (\d+) lines of tests"
    )
    found = re.search(pattern, text)
    near = found and [abs(int(number) - count) * 20 <= count for number, count in zip(found.groups(), counts)]
    trials.expect(f"lines in docs/VERIFICATION.md, within a twentieth: {counts}", near, [True] * len(counts))


def test_diagram(trials):
    """The diagram of docs/VERIFICATION.md has each crate but the callers."""
    text = (TOP / "docs/VERIFICATION.md").read_text(encoding="utf-8")
    diagram = re.search(r"^ +arguments .*?\n\n", text, re.MULTILINE | re.DOTALL).group()
    crates = re.findall(r"^(\w+)", (TOP / "crates.txt").read_text(encoding="utf-8"), re.MULTILINE)
    proved = {crate for crate in crates if not crate.startswith("uses")}
    trials.expect("crates of the diagram", set(re.findall(r"\b(?:pf_\w+|fmtcanon\w*)", diagram)), proved)


def try_mutant(trials, contributing):
    """The mutant that docs/CONTRIBUTING.md shows is one of the crate that it names, and its commands name that
    mutant.
    """
    [(crate, name)] = set(re.findall(r"^    python3 -m tests.mutants (\w+) +(\w+-[\w-]+) ", contributing, re.MULTILINE))
    [block] = [
        it.group()
        for it in re.finditer(r"(?:^    \w+: .*\n|^\n)+", contributing, re.MULTILINE)
        if "    mutant: " in it.group()
    ]
    shown = mutant_files.read_pairs(re.sub(r"^    ", "", block, flags=re.MULTILINE))
    trials.expect(
        "the mutant of docs/CONTRIBUTING.md", shown, {name: mutant_files.pairs_in(TOP / "crates" / crate).get(name)}
    )


def documents():
    """The documents, with their texts."""
    for path in pages():
        yield str(path.relative_to(TOP)), path.read_text(encoding="utf-8")


def repository_paths():
    """Each file and folder of the repository, except what is made."""
    for path in TOP.rglob("*"):
        inside = path.relative_to(TOP)
        if not {"out", ".git", "__pycache__"} & set(inside.parts):
            yield path, "/" + str(inside)


def without_comments(path):
    comment = {".rt": r"//[^\n]*", ".antt": r"--\s[^\n]*", ".py": r"#[^\n]*"}.get(path.suffix)
    text = path.read_text(encoding="utf-8")
    return re.sub(comment, "", text) if comment else text


def test_names(trials):
    """Each name and each path that a document sets in backticks is one of the code; so is each name of a block."""
    paths = list(repository_paths())
    known = {word for path, _ in paths for word in re.findall(r"\w+", path.name)} | FOREIGN_NAMES
    for pattern in CODE:
        for path in TOP.glob(pattern):
            if path.is_file():
                known.update(re.findall(r"\w+", without_comments(path)))
    foreign = set(FOREIGN_NAMES)
    for document, text in documents():
        prose = re.sub(r"^(```.*?^```|    .*?)$", "", text, flags=re.DOTALL | re.MULTILINE)
        # A span with a percent sign is a format, or has one; one in quotes is a string literal.
        spans = [span for span in re.findall(r"`([^`\n]+)`", prose) if "%" not in span and not span.startswith('"')]
        names = {name for span in spans for name in re.findall(r"\b[A-Za-z_]\w\w+", span)}
        # A block has words of English, too.
        blocks = " ".join(re.sub(r'"[^"\n]*"|//[^\n]*', "", block) for _, block in fences(text))
        names |= {name for name in re.findall(r"\b[A-Za-z_]\w\w+", blocks) if re.search(r"_|[a-z][A-Z]", name)}
        foreign -= names
        trials.expect(f"names of {document} that the code has not", sorted(names - known), [])
        named = {
            span.rstrip("/")
            for span in spans
            if re.fullmatch(r"\.?[\w-]+(/[\w.+-]+)+/?|[\w-]+\.(rt|antt|md|py|c|txt|jsonl)", span)
        }
        missing = [
            span
            for span in named
            if "/out/" not in f"/{span}" and not any(path.endswith("/" + span) for _, path in paths)
            # Files that the reader makes.
            and span not in dict(SHOWN.findall(text))
        ]
        trials.expect(f"paths of {document} that are not there", sorted(missing), [])
    trials.expect("foreign names that no document has", sorted(foreign), [])


def test_links(trials):
    """Each link from a document to a file leads to one."""
    for document, text in documents():
        links = re.findall(
            r"\]\(([^)#:\s]+)(?:#[^)]*)?\)",
            re.sub(r"^(```.*?^```|    .*?)$|`[^`\n]*`", "", text, flags=re.DOTALL | re.MULTILINE),
        )
        missing = [link for link in links if not (TOP / document).parent.joinpath(link).exists()]
        trials.expect(f"links of {document} that lead nowhere", missing, [])


def test_contracts(trials):
    """The page of a crate on its contracts names each public function of the crate."""
    for page in sorted((TOP / "crates").glob("*/CALLING.md")):
        if page.parent.name != "fmtcanon":
            text = page.read_text(encoding="utf-8")
            sources = [path.read_text(encoding="utf-8") for path in page.parent.glob("src/**/*.rt")]
            names = {
                name
                for source in sources
                for name in re.findall(r"^ *pub (?:const )?fn (\w+)", source, flags=re.MULTILINE)
            }
            missing = [name for name in names if not re.search(rf"\b{name}\b", text)]
            trials.expect(f"public functions that CALLING.md of {page.parent.name} lacks", sorted(missing), [])


# What a row says where it goes, and a variant that is named wherever all variants are.
LISTED = {"a data model": "Llp64", "an unsigned conversion": "UpperX"}


def test_changes(trials):
    """The rows of docs/internals/ARCHITECTURE.md on where a change goes have each file that lists what is changed."""
    text = (TOP / "docs/internals/ARCHITECTURE.md").read_text(encoding="utf-8")
    sources = [it for part in ("src", "specs") for it in sorted(TOP.glob(f"crates/[!u]*/{part}/**/*.*t*"))]
    for change, variant in LISTED.items():
        row = re.search(rf"^\| {change} \| (.*) \|$", text, re.MULTILINE)[1]
        named = [it.name for it in sources if re.search(rf"\b{variant}\b", it.read_text(encoding="utf-8"))]
        trials.expect(f"whether files list {variant}", len(named) > 4, True)
        trials.expect(
            f"files that list {variant} and aren't in the row of {change}", [it for it in named if it not in row], []
        )


def test_map(trials):
    """Each source file says in its first line what it does, and docs/internals/ARCHITECTURE.md has each crate and
    floor.
    """
    text = (TOP / "docs/internals/ARCHITECTURE.md").read_text(encoding="utf-8")
    for pattern, first in [("crates/*/src/**/*.rt", "//! "), ("python/fmtcanon/**/*.py", '"""')]:
        files = [it for it in TOP.glob(pattern) if not it.read_text(encoding="utf-8").startswith(first)]
        silent = [str(it.relative_to(TOP)) for it in files if it.name != "__main__.py"]
        trials.expect(f"files of {pattern} that don't say what they do", sorted(silent), [])
    crates = {it.name for it in (TOP / "crates").iterdir()}
    rows = re.findall(r"^\| (`.*?`) \|", section(TOP / "docs/internals/ARCHITECTURE.md", "The crates"), re.MULTILINE)
    trials.expect("crates of the map", {it for row in rows for it in re.findall(r"`(\w+)`", row)}, crates)
    floors = {it.parent.name for it in TOP.glob("python/fmtcanon/*/__init__.py")}
    trials.expect("floors of the map", sorted(it for it in floors if f"`{it}/`" not in text), [])


def test_laws_of_one_answer(trials):
    """Each law is there by which a contract allows one answer, so that no mutant of it is needed."""
    for law in sorted({*one_answer.RECORDS.values(), *(it for laws in one_answer.LAWS.values() for it in laws)}):
        crate, _, name = law.split("::")
        source = (TOP / f"crates/{crate}/src/laws.rt").read_text(encoding="utf-8")
        trials.expect(law, f"\npub fn {name}()\n" in source, True)


def plain_code(text):
    """Code without comments, imports and layout."""
    text = re.sub(r"//[^\n]*|^(ghost )?use .*?;$|^#!\[.*$", "", text, flags=re.DOTALL | re.MULTILINE)
    return re.sub(r"\s+", " ", text).strip()


def test_callers(trials):
    """The code has each caller that a document shows, where it is proved and tested."""
    sources = [plain_code(path.read_text(encoding="utf-8")) for path in TOP.glob("crates/*/src/**/*.rt")]
    for document, text in documents():
        for language, block in fences(text):
            for item in re.split(r"(?<=^})$", block, flags=re.MULTILINE) if language == "rust" else []:
                item = plain_code(item)
                found = any(item in source for source in sources)
                trials.expect(f"{document}: the code has this: {item[:60]}", found, True)


def test_crates_of_callers(trials):
    """A page that shows a caller names the crate that has it."""
    homes = {
        name: path.parts[-3]
        for path in TOP.glob("crates/uses*/src/*.rt")
        for name in re.findall(r"^pub fn (\w+)", path.read_text(encoding="utf-8"), re.MULTILINE)
    }
    shown = [
        (document, text, homes[name])
        for document, text in documents()
        for language, block in fences(text)
        if language == "rust"
        for name in re.findall(r"^pub fn (\w+)", block, re.MULTILINE)
        if name in homes
    ]
    for document, text, crate in shown:
        trials.expect(f"{document} names crates/{crate}", re.search(rf"`crates/{crate}[`/]", text) is not None, True)
    trials.expect("callers that pages show", len(shown) > 8, True)


def test_quoted(trials):
    """A file of specs/ has each definition that a document shows in antt, as it is shown."""
    sources = [path.read_text(encoding="utf-8") for path in TOP.glob("crates/*/specs/**/*.antt")]
    found = 0
    for document, text in documents():
        for language, block in fences(text):
            for part in re.split(r"\n\n(?=\S)", block.strip()) if language == "antt" else []:
                found += 1
                trials.expect(f"{document}: as in specs/: {part[:60]}", any(part in it for it in sources), True)
    trials.expect("documents show definitions", found >= 3, True)


def test_charts(trials):
    """The charts of docs/PERFORMANCE.md are drawn from the tables."""
    for path, chart in charts.charts().items():
        trials.expect(f"docs/{path.name} as its table", path.read_text(encoding="utf-8"), chart)


def test_picture(trials):
    """Each text of the picture of the README keeps its spaces, and the picture has its commands."""
    picture = first_screen.PICTURE.read_text(encoding="utf-8")
    squeezed = [it for it in re.findall(r"<text [^>]*>", picture) if first_screen.KEPT not in it]
    trials.expect("texts of docs/first.svg whose spaces Chromium drops", squeezed, [])
    lines = first_screen.shown(picture)
    missing = [it for it in first_screen.COMMANDS if f"$ {it}" not in lines]
    trials.expect("commands that docs/first.svg lacks", missing, [])
    shown = (TOP / "README.md").read_text(encoding="utf-8").count("](docs/first.svg)")
    trials.expect("how often the README shows it", shown, 1)


def test_shortcuts(trials):
    """The edits of bench/shortcuts.txt fit the sources, and the bench has the calls that it names."""
    made = {name: (TOP / "bench" / f"{name}.c").read_text(encoding="utf-8") for name in ("driver", "library")}
    for shortcut in shortcut_edits.shortcuts():
        try:
            shortcut.texts()
            why = None
        except (OSError, ValueError) as error:
            why = str(error)
        trials.expect(f"bench/shortcuts.txt: {shortcut.name}", why, None)
        for call in shortcut.calls:
            program, name = ("driver", call[6:]) if call.startswith("crate ") else ("library", call)
            trials.expect(f"bench/{program}.c has the call {name}", f'{{"{name}", ' in made[program], True)


def test_remarks(trials):
    """A remark after a command begins with `#`, so that the line can be copied."""
    command = re.compile(
        r"^    (?=(?:sudo|pip|python3|rt|make|cd|cc|bench/run)\b)\S[^\n]*\S {2,}(?!#)\S.*$", re.MULTILINE
    )
    found = [line.strip() for _, text in documents() for line in command.findall(text)]
    trials.expect("remarks after commands, without a #", found, [])


def test_options(trials):
    """Each option that a document shows after a command is one of its manual page."""
    manual = {path.stem: path.read_text(encoding="utf-8").replace("\\-", "-") for path in (TOP / "man").glob("*.1")}
    options = {name: set(re.findall(r"(?<![\w-])--?[a-zA-Z][\w-]*", text)) for name, text in manual.items()}
    count = 0
    for document, text in documents():
        code = re.sub(r"'[^'\n]*'", "", "\n".join(re.findall(r"^    .*$|`[^`\n]+`", text, re.MULTILINE)))
        shown = re.findall(r"\b(fmtcanon(?:-[a-z]+)?)(?= )([^`|;&)\n]*)", code)
        found = [(name, it) for name, words in shown for it in re.findall(r"(?<= )--?[a-zA-Z][\w-]*", words)]
        count += len(found)
        missing = [f"{name} {it}" for name, it in found if it not in options.get(name, set())]
        trials.expect(f"options of {document} that the manual pages lack", missing, [])
    trials.expect("documents show options of commands", count > 50, True)


Tests = tests_of(globals())
