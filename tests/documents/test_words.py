"""Checks the words of what people read: phrases that this project doesn't use, and the length of each page.

It reads the documents, the manual pages, the header, the examples, the help of the program, the comments of the crates'
sources, definitions and proofs, the comments, docstrings, texts and words of the Python module, the page and the
comments of its sources, and the comments and docstrings of the tests.
"""

import ast
import io
import re
import tokenize

from tests.frame.cases import tests_of
from tests.frame.harness import TOP

# Phrases that a reader would stumble over, or read in another sense: what is written for them, and a regular
# expression.
PHRASES = {
    "NUL": r"zero bytes?|null characters?|(?:by|with|after) a zero(?= after|[.,;]|$)",
    "allocation": r"growths?(?= (?:is|was|are|were) )|(?:a|one|no|each|all) growths?",
    "need, expect": r"wants?|wanted|want of|wants to be",
    "allocates": r"tak(?:es?|en|ing) (?:no )?memory|memory is taken|room (?:for \w+ )?is taken",
    "offset, index": r"places? of (?:a|the|its|each|that) (?:first )?byte|places? in (?:a|the) row",
    "argument, option": r"words? of (?:a|the) command line|command line's words|as a word|wrong words",
    "mutant": r"wrong bod(?:y|ies)",
    "is rejected": r"(?:is|are|was) told(?! apart)|lines? of (?:the|its|a) refusals?",
    "rejected": r"(?:texts?|formats?|bytes?|specifications?|directives?|items?) (?:that )?(?:is|are|was|were|isn't) "
    r"refused"
    r"|refused (?:texts?|formats?|bytes?)|(?:refuses?|refusing) (?:a|an|the|no|each|some) (?:\w+ "
    r")?(?:texts?|formats?|bytes?)",
    "inline": r"in line(?= with each|[.,;]|$)|inlined from",
    "%": r"in a hundred",
    "slow, fast": r"dear|dearer|dearest|cheap|cheaper|cheapest|cheaply",
    "largest, smallest, first": r"greatest|the least|least (?:index|kind|number)",
    "is, replaces": r"stands?(?= (?:after|for|behind|before|in|at|on|there|here)\b)",
    "after": r"behind",
    "compared with, next to": r"beside",
    "again, at random, together": r"anew|by chance|at once",
    "usage error": r"faults? of the words",
    "summary": r"the short of it",
    "its preconditions": r"owes?|owed",
    "checked against": r"(?:is|are|was|were) held to|(?:held|kept) to \w+ by",
    "first, second": r"the other text|(?:of )?one and (?:of )?the other",
    "the quantity's name": r"so many",
    "depends on, uses": r"hangs? on|hung on|go(?:es)? by|rests? on",
    "except": r"but for",
    "isn't": r"(?<!there )(?:is|are|was|were) (?-i:none)",
    "not a": r"(?<!there )(?<!which )(?:is|are|was|were) no(?! (?:longer|shorter|larger|smaller|more|less|later|higher|"
    r"lower|greater|way|need))",
    "whose, one of them": r"of which",
    "returns": r"(?:(?<!that )it|which|that|call|calls|stream) answers?|answered (?:by|an|with)|answers "
    r"(?:only|an|so|as)\b",
    "if and only if": r"exactly if",
    "otherwise": r"(?<!nothing )(?<!anything )(?<!something )(?<!everything )(?<!somebody )(?<!what )(?<!or )(?<!one "
    r")else"
    r"(?! if)",
}
# The same for what people read first: pages, manual pages, the header, help texts and examples.
FIRST = {
    "different, wrong, other than": r"(?:is|are|be|has|have|take|takes|with|whose type is) another"
    r"(?= (?:type|kind|size|sign|number|order|conversion|encoding)s?\b|[.,;:)]| elsewhere)|of another kind|alone is "
    r"another",
    "skipped": r"(?:places?|files?|formats?|calls?) (?:is|are|was|were) left(?! (?:out|over))|(?:is|was) left as it is",
    "literal": r"places? (?:is|are|was|were) (?:not )?(?:replaced|skipped|verified|judged|reported)|each place",
}
READ_FIRST = re.compile(
    r"[^/]*\.md|docs/.*|man/.*|include/.*|tests/usage\.txt|examples/.*|python/fmtcanon/\w+/options\.py|web/.*html"
)
# Files whose docstrings are part of the mutants' keys: an edit would make all of them be tried again.
KEPT = ["tests/mutants/rattle_functions.py"]
# What may have a docstring.
DOCUMENTED = (ast.Module, ast.ClassDef, ast.FunctionDef, ast.AsyncFunctionDef)
# All pages on the contracts of crates together.
CALLING = "crates/*/CALLING.md"
PROOFS, DEFINITIONS = "crates/*/PROOFS.md", "crates/*/DEFINITIONS.md"
# How many words each page may have, and how many percent more are let pass.
LIMITS = {
    # With what is proved, crate by crate, and outputs.
    "README.md": 1250,
    # With the outputs of a session, and the words.
    "docs/TUTORIAL.md": 730,
    # With the words, and other tools.
    "docs/FAQ.md": 880,
    "docs/INSTALL.md": 600,
    "docs/try/README.md": 100,
    # With the lines of real programs.
    "docs/FINDINGS.md": 1190,
    # With tables of types and kinds.
    "docs/CHEATSHEET.md": 550,
    # With recipes.
    "docs/USING.md": 2330,
    "docs/TRANSLATIONS.md": 860,
    "docs/EXPLAINING.md": 470,
    # With settings of editors.
    "docs/EDITORS.md": 720,
    # With the figures of real sources and of compilers, and what is for every day.
    "docs/PORTING.md": 1900,
    "docs/REFACTORING.md": 1200,
    # With a part for each kind, the table of flags, and the grammar.
    "docs/REFUSALS.md": 2140,
    # With two programs, and an example of each error.
    "docs/C.md": 1680,
    "docs/PYTHON.md": 940,
    # With the theorem as it is written, the assumptions as a table, and the words of the last line of a check.
    "docs/VERIFICATION.md": 2600,
    # With one format read through the definitions.
    "docs/DEFINITIONS.md": 2720,
    "docs/PERFORMANCE.md": 600,
    # With a walk through one call, and words of the sources.
    "docs/internals/ARCHITECTURE.md": 1760,
    # With the forms that differ from those first named.
    "docs/DECISIONS.md": 2200,
    "docs/CONTRIBUTING.md": 1120,
    # With the command that tries each promise.
    "SECURITY.md": 640,
    "CHANGELOG.md": 1160,
    CALLING: 9400,
    # What works in proofs, with an index by what rt prints, and how four crates are proved.
    PROOFS: 4200,
    # How the whole language is defined.
    DEFINITIONS: 1500,
}
MARGIN = 10
# How many words all pages of docs/ may have together.
TOGETHER = 29000


def files(*patterns):
    """The files below the top that have these patterns, in the order of the patterns and of their paths."""
    return [path for pattern in patterns for path in sorted(TOP.glob(pattern))]


def pages():
    """The documents, by their paths below the top."""
    return files("*.md", "docs/**/*.md", "crates/*/*.md", "bench/*.md", "python/*.md", "tests/**/*.md")


def words_of_string(string):
    """The words of a string literal of Python, without those of bytes, of a name alone, and of code in an f-string."""
    prefix, text = re.fullmatch(r"(\w*)((?:\"|').*)", string, re.DOTALL).groups()
    if "b" in prefix or re.fullmatch(r"(\"|')\w+\1", text):
        return ""
    text = text.replace("\\\n", "").strip("\"'")
    return re.sub(r"\{[^{}]*\}", "", text) if "f" in prefix else text


def words_of_python(text, kinds=(tokenize.COMMENT, tokenize.STRING)):
    """The comments and the texts of a file of Python: docstrings, help and messages."""
    tokens = [it for it in tokenize.generate_tokens(io.StringIO(text).readline) if it.type in kinds]
    # Texts that come one after another are one text.
    return "\n".join(it.string if it.type == tokenize.COMMENT else words_of_string(it.string) for it in tokens)


def comments_of_python(text):
    """The comments and docstrings of a file of Python."""
    nodes = [it for it in ast.walk(ast.parse(text)) if isinstance(it, DOCUMENTED)]
    return "\n".join([words_of_python(text, [tokenize.COMMENT]), *(ast.get_docstring(it) or "" for it in nodes)])


def comments_of_rattle(text):
    """The comments of a file of Rattle, without their marks."""
    return "\n".join(re.findall(r"(?:^|(?<=\s))(?://[/!]?|--) ?(.*)$", text, re.MULTILINE))


def comments_of_c(text):
    """The comments of a file of C."""
    return "\n".join(re.findall(r"/\*.*?\*/", text, re.DOTALL))


def comments_of_scripts(text):
    """The comments and the texts of a script or a workflow."""
    return "\n".join(re.findall(r"(?:#|echo|name:) *(.*)$", text, re.MULTILINE))


def words_of_page(text):
    """The words of a document, without its code."""
    return re.sub(r"^(?:```[^`]*```| {4}.*)$", "", text, flags=re.MULTILINE)


# An error line of the program, whose words stay as they are.
FIXED = "argument count: wanted"


def plain(text):
    """A text in one line, without the marks of comments and of roff, and without spans in backticks."""
    text = re.sub(r"`[^`\n]*`", "", text).replace(FIXED, "")
    text = re.sub(r"^\.[A-Za-z]+|^ *(\*|#)|\\f.|\\-", " ", text, flags=re.MULTILINE)
    return " ".join(text.split())


def texts():
    """What is read for phrases, each with its name."""
    for paths, reads in [
        (pages(), words_of_page),
        (files("man/*", "tests/usage.txt"), str),
        (files("include/*", "examples/*.c"), comments_of_c),
        (files("examples/*.py"), words_of_python),
        (files("examples/ci/*"), comments_of_scripts),
        (files("crates/*/src/**/*.rt", "crates/*/specs/**/*.antt", "crates/*/proofs/**/*.antt"), comments_of_rattle),
        (files("python/fmtcanon/**/*.py"), words_of_python),
        (files("python/fmtcanon/**/*.json"), str),
        (files("tests/**/*.py"), comments_of_python),
        (files("web/*.js"), comments_of_rattle),
        (files("web/*.c"), comments_of_c),
        (files("web/*.py"), words_of_python),
        (files("web/*.html", "web/npm/*.md"), words_of_page),
    ]:
        for path in paths:
            yield str(path.relative_to(TOP)), reads(path.read_text(encoding="utf-8"))


def phrases_in(name, text):
    """The phrases that the text of a file has, each with what is written for it, in the order of PHRASES."""
    line = plain(text)
    phrases = {**PHRASES, **(FIRST if READ_FIRST.fullmatch(name) else {})}
    return [
        f"{found[0]} ({instead})"
        for instead, phrase in phrases.items()
        if name not in KEPT
        # What comes before `=` is the name of an argument.
        for found in re.finditer(rf"(?<![\w-])(?:{phrase})(?![\w=])", line, re.IGNORECASE)
    ]


def words_in(paths):
    return sum(len(path.read_text(encoding="utf-8").split()) for path in paths)


def limit_of(path):
    """The name of the page in LIMITS, or None for pages that come with another folder."""
    name = str(path.relative_to(TOP))
    if name.split("/")[0] in ("bench", "python", "tests"):
        return None
    return {"CALLING.md": CALLING, "PROOFS.md": PROOFS}.get(path.name, DEFINITIONS if path.match(DEFINITIONS) else name)


def test_together(trials):
    """The pages of docs/ are no longer than a long evening."""
    count = words_in(files("docs/**/*.md"))
    trials.expect(f"words of docs: {count}, at most {TOGETHER}", count <= TOGETHER, True)


def test_words(trials):
    """No text has such a phrase, and no page is longer than its limit."""
    for name, text in texts():
        trials.expect(f"phrases of {name} that are not used here", phrases_in(name, text), [])
    for name in sorted({limit_of(path) for path in pages()} - {None}):
        limit, count = LIMITS.get(name, 0), words_in(path for path in pages() if limit_of(path) == name)
        trials.expect(
            f"{name} has at most {limit} words and {MARGIN} %: {count}", count * 100 <= limit * (100 + MARGIN), True
        )


Tests = tests_of(globals())
