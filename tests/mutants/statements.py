"""Edits the statements of laws, and sees that callers that cite them are no longer proved.

Usage: python3 -m unittest tests.mutants.statements

A law has no body, so no mutant holds its statement. Each law here has callers in crates/uses or crates/uses_low whose
clauses follow from it. Here they require the statement instead, over a copy of its definition. With the definition as
it is, they are proved. With each edit, those that need what it takes away aren't, and the others are. One check of a
crate tries all: each round of edits has copies of the callers.
"""

import itertools
import re
from pathlib import Path

from tests.frame.cases import tests_of
from tests.mutants.built import Built
from tests.mutants.crates import TOP, Crates
from tests.mutants.law_table import LAWS
from tests.mutants.reports import Report

# The statements and the definitions import so.
GHOST_USE = re.compile(r"^ghost use ([\w.]+)\.\{(.*?)\};$", re.MULTILINE | re.DOTALL)
# Words that an edit may bring in, and the module that has them.
OF_EDITS = ("⊤", "None")
PRELUDE = "Rattle.std.specs.Prelude"


def replaced(text, old, new):
    """Returns a text in which the one occurrence of another is replaced."""
    if text.count(old) != 1:
        raise ValueError(f"not there once: {old}")
    return text.replace(old, new)


def source_of(law):
    """Returns the file that has a law."""
    return (TOP / f"crates/{law.crate}/src/laws.rt").read_text(encoding="utf-8")


def contract_of(law):
    """Returns what a law ensures."""
    pattern = rf"^pub fn {law.function}\(\)\n    ensures \{{ (.*?) \}}\n\{{\}}$"
    [contract] = re.findall(pattern, source_of(law), re.MULTILINE | re.DOTALL)
    return contract


def has_word(text, item):
    """Returns whether a text has a name that is imported so, or the signs of an operator."""
    name = item.split()[-1]
    return all(re.search(rf"(?<!\w){re.escape(part)}(?!\w)", text) for part in name.split("◌") if part)


def imports_of(law, text, wanted):
    """Yields lines that import what a statement names and a text doesn't have."""
    uses = GHOST_USE.findall(source_of(law))
    listed = [(module, item.strip()) for module, items in uses for item in items.split(",")]
    for module, item in [*listed, *((PRELUDE, it) for it in OF_EDITS)]:
        if has_word(wanted, item) and not (has_word(text, item) if "◌" not in item else item in text):
            yield f"use {module}.{{{item}}}\n"
            text += f" {item}"


def definition_of(law, edit):
    """Returns a file with the definition of a law, edited or not, and after it the statement."""
    text = (TOP / law.definition).read_text(encoding="utf-8") if law.definition else ""
    statement = f"\nabbrev pub {law.statement} : Type 0\n{law.statement} = {contract_of(law)}\n"
    wanted = statement + (edit.new if edit else "")
    front = "-- A law's definition, and what it says.\n" + "".join(imports_of(law, text, wanted))
    return front + (replaced(text + statement, edit.old, edit.new) if edit else text + statement)


def imported_from_here(text, law):
    """Returns a module that has a law from the crate's own module, and others of the same import from their crate."""
    for imports in re.finditer(rf"^use {law.crate}::laws::(\{{[^}}]*\}}|\w+);\n", text, re.MULTILINE):
        names = re.findall(r"\w+", imports[1])
        if law.function in names:
            others = "".join(f"use {law.crate}::laws::{it};\n" for it in names if it != law.function)
            return f"{text[: imports.start()]}{others}use crate::{law.module}::{law.function};\n{text[imports.end() :]}"
    raise ValueError(f"it isn't imported: {law.path}")


def with_statement(text, law, module):
    """Returns a module in which the callers of a law require its statement, and cite a law that gives it back."""
    text = imported_from_here(text, law)
    first, rest = text.split("\nghost use ", 1)
    text = f"{first}\nghost use Rattle.{law.users}.specs.{law.statement}.{{{law.statement}}};\nghost use {rest}"
    for caller in law.callers:
        if caller.split("::")[0] == module:
            begin = text.index(f"pub fn {caller.split('::')[1]}(")
            required = f"    requires {{ {law.statement} }}\n    ensures "
            text = text[:begin] + text[begin:].replace("    ensures ", required, 1)
    return text


def modules_of(laws):
    """Returns the modules of the callers of these laws."""
    return sorted({caller.split("::")[0] for law in laws for caller in law.callers})


def marked(text, laws, mark):
    """Returns a text with the names of these laws' statements and modules marked."""
    names = "|".join(name for law in laws for name in (law.statement, law.module))
    return re.sub(rf"\b(?:{names})\b", lambda it: f"{it[0]}{mark}", text)


def edited(crate, laws, edits, mark):
    """Returns the files in which copies of the callers use statements of edited definitions, by their paths."""
    files = {}
    for law, edit in zip(laws, edits):
        files[f"specs/{law.statement}{mark}.antt"] = definition_of(law, edit)
        files[f"src/{law.module}{mark}.rt"] = (
            f"//! The statement.\nghost use Rattle.{law.users}.specs.{law.statement}.{{{law.statement}}};\n\n"
            f"pub fn {law.function}()\n    requires {{ {law.statement} }}\n    ensures {{ {law.statement} }}\n{{}}\n"
        )
    for module in modules_of(laws):
        text = (crate / f"src/{module}.rt").read_text(encoding="utf-8")
        for law in laws:
            text = with_statement(text, law, module) if module in modules_of([law]) else text
        files[f"src/{module}{mark}.rt"] = text
        for file in (crate / "proofs" / module).rglob("*.antt"):
            text = file.read_text(encoding="utf-8").replace(f".proofs.{module}.", f".proofs.{module}{mark}.")
            files[f"proofs/{module}{mark}/{file.relative_to(crate / 'proofs' / module)}"] = text
    return {path: marked(text, laws, mark) for path, text in files.items()}


def files_of(crate, laws, rounds):
    """Returns the files that a crate gets for all rounds, each with copies of its own."""
    files = {}
    for number, edits in enumerate(rounds):
        files.update(edited(crate, *zip(*tried(laws, edits)), str(number)))
    root = (crate / "src/lib.rt").read_text(encoding="utf-8")
    modules = [Path(path).stem for path in files if path.startswith("src/")]
    specs = [Path(path).stem for path in files if path.startswith("specs/")]
    files["src/lib.rt"] = root + "".join(f"pub mod {it};\n" for it in modules)
    files["specs/Lib.antt"] = "".join(f"pub mod {it}\n" for it in specs)
    return files


def proved_in(built, name, laws, rounds):
    """Returns which callers are proved in each round, whatever becomes of the laws."""
    folder = built.copy(name)
    for file, text in files_of(built.crates.folder(name), laws, rounds).items():
        (folder / file).parent.mkdir(parents=True, exist_ok=True)
        (folder / file).write_text(text, encoding="utf-8")
    callers = [callers_of([law for law, _ in tried(laws, edits)]) for edits in rounds]
    paths = [[f"{name}::{it.replace('::', f'{number}::')}" for it in found] for number, found in enumerate(callers)]
    said = built.check(folder, "--allow-holes", *(word for found in paths for it in found for word in ("--only", it)))
    lines = Report(said, name).lines
    if any(it not in lines for found in paths for it in found):
        raise ValueError(said[-2000:])
    is_proved = lambda it: lines[it].startswith(("proved", "no holes"))  # noqa: E731
    return [[it for it, path in zip(*both) if is_proved(path)] for both in zip(callers, paths)]


def rounds_of(laws):
    """Returns the edits of each law's definition in one round after another: none, and then each."""
    return [(None,) * len(laws), *itertools.zip_longest(*(law.edits for law in laws))]


def tried(laws, edits):
    """Returns the laws that a round tries, with their edits: all where nothing is edited, and otherwise those edited.
    """
    return [(law, edit) for law, edit in zip(laws, edits) if edit or not any(edits)]


def callers_of(laws):
    """Returns the callers of these laws, each once."""
    return list(dict.fromkeys(it for law in laws for it in law.callers))


def wanted_callers(laws, edits):
    """Returns the callers that are to be proved in a round with these edits."""
    lost = {caller for edit in edits if edit for caller in edit.callers}
    return [it for it in callers_of([law for law, _ in tried(laws, edits)]) if it not in lost]


def test_statements(trials):
    built, users = Built(Crates(), of_ci=False), sorted({law.users for law in LAWS})
    built.prove_below(users, 1)
    for name in users:
        laws = [law for law in LAWS if law.users == name]
        rounds = rounds_of(laws)
        for edits, found in zip(rounds, proved_in(built, name, laws, rounds)):
            said = "; ".join(f"{law.path}: {it.new}" for law, it in zip(laws, edits) if it)
            trials.expect(f"callers proved with {said or 'nothing edited'}", found, wanted_callers(laws, edits))


Tests = tests_of(globals())
