"""Compares every copy of the version with the file VERSION."""

import re

from tests.frame.cases import tests_of
from tests.frame.harness import SONAME, TOP, VERSION

# Where the version must be. The parts of a pattern are those of the version.
COPIES = [
    ("CHANGELOG.md", r"\A# Changelog\n(?:[^#].*\n|\n)*## (\S+)\n"),
    ("crates/fmtcanon/src/command.rt", r'^        \.version\("(.*)"\)$'),
    ("include/fmtcanon.h", r"_VERSION_MAJOR (\d+)\n.*_VERSION_MINOR (\d+)\n.*_VERSION_PATCH (\d+)$"),
    ("python/fmtcanon/__init__.py", r'^__version__ = "(.*)"$'),
    ("tests/rows/usages.jsonl", r'^\[\["--version"\], "fmtcanon (.*)\\n"\]$'),
    ("tests/usage.txt", r"^\$ --version\nfmtcanon (.*)$"),
    ("tests/usage.txt", r"^\$ -V\nfmtcanon (.*)$"),
    *(
        (f"man/{path.name}", r'^\.TH \S+ [13] "\d{4}-\d\d-\d\d" "fmtcanon (.*?)"')
        for path in sorted((TOP / "man").iterdir())
    ),
]
# What a call of the library returns, in its contract and in its body: 65,536 times the major version, 256 times the
# minor version, plus the patch.
CALL = r"fn fmtcanon_version\(\) -> u32\n    ensures \{ result ≡ (\d+) \}\n\{\n    0x([0-9a-f_]+)\n\}"
LIBRARY = r"libfmtcanon\.so\.\d+(?:\.\d+)*"
NAMED = r"fmtcanon[ _-]v?(\d+\.\d+(?:\.\d+)*)"
NUMBER = r"(?<![\w.])\d+\.\d+\.\d+(?!\.?\w)"
# Other numbers of this form: paragraphs of the C standard, and the version of SARIF.
OTHER = r"[5-7]\.\d+\.\d+|2\.1\.0"
# A version that a page names since it was never published.
UNPUBLISHED = {name: {"1.0.0"} for name in ["CHANGELOG.md", "tests/documents/test_versions.py"]}
# Pages with versions of other programs.
RELEASES = {"docs/FINDINGS.md", "docs/TRANSLATIONS.md", "tests/field/RESULTS.md"}


def texts():
    """The files of the repository, each with its text; of the changes, only those of the latest version."""
    for path in sorted(TOP.rglob("*")):
        inside = path.relative_to(TOP)
        if path.is_file() and not {"out", ".git", "__pycache__"} & set(inside.parts):
            text = path.read_text(encoding="utf-8", errors="replace")
            yield str(inside), "\n## ".join(text.split("\n## ")[:2]) if str(inside) == "CHANGELOG.md" else text


def others_in(name, text):
    """The versions in a text that are not this one, and the names of other libraries."""
    libraries = {it for it in re.findall(LIBRARY, text) if it not in (SONAME, f"libfmtcanon.so.{VERSION}")}
    numbers = set(re.findall(NAMED, text)) | (
        {it for it in re.findall(NUMBER, text) if not re.fullmatch(OTHER, it)} if name not in RELEASES else set()
    )
    return sorted(libraries | numbers - {VERSION} - UNPUBLISHED.get(name, set()))


def test_versions(trials):
    has_three = re.fullmatch(r"\d+\.\d+\.\d+", VERSION) is not None
    trials.expect("the file VERSION has three numbers", has_three, True)
    if not has_three:
        return
    for name, pattern in COPIES:
        found = re.search(pattern, (TOP / name).read_text(encoding="utf-8"), flags=re.MULTILINE)
        trials.expect(f"the version in {name}", found and ".".join(found.groups()), VERSION)
    major, minor, patch = map(int, VERSION.split("."))
    code = (TOP / "crates/fmtcanon_c/src/interface.rt").read_text(encoding="utf-8")
    found = [(int(contract), int(body, 16)) for contract, body in re.findall(CALL, code)]
    trials.expect("what fmtcanon_version returns", found, [(major * 65536 + minor * 256 + patch,) * 2])
    for name, text in texts():
        trials.expect(f"other versions in {name}", others_in(name, text), [])


Tests = tests_of(globals())
