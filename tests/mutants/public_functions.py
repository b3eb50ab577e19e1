"""Tells which functions a crate hands out.

A public function of a library is one that its root hands out, a method of a type that it hands out, or a method of a
trait that such a type has. Those of the program are the ones that its modules hand one another, and those of the C
library the ones that C calls.
"""

import re

from tests.mutants import rattle_functions


def sources_of(crate):
    """The texts of a crate's files, except those of tests, by their path."""
    files = [it for it in (crate / "src").rglob("*.rt") if "tests" not in it.relative_to(crate).with_suffix("").parts]
    return {str(it.relative_to(crate)): it.read_text(encoding="utf-8") for it in sorted(files)}


def exported(sources):
    """The names that a library's root hands out, and the modules; of a program every name and no module."""
    if "src/main.rt" in sources:
        return None, set()
    code = {path: rattle_functions.blanked(text) for path, text in sources.items()}
    modules = set(re.findall(r"^pub mod (\w+);", code.get("src/lib.rt", ""), re.MULTILINE))
    roots = ["src/lib.rt", *(f"src/{it}.rt" for it in modules)]
    names = set()
    for path in roots:
        for items in re.findall(r"^pub use [^;]*;", code.get(path, ""), re.MULTILINE):
            names.update(re.findall(r"\w+", items))
    for it in modules:
        names.update(re.findall(r"^pub (?:struct|enum|trait) (\w+)", code.get(f"src/{it}.rt", ""), re.MULTILINE))
    return names, modules


def is_public(function, names, modules):
    """Whether a crate hands out this function, where it hands out these names and modules."""
    if " for " in function.block:
        _, head = rattle_functions.split_parameters(function.block)
        trait, _, of_type = head.partition(" for ")
        return names is None or bool({rattle_functions.plain_name(trait), rattle_functions.plain_name(of_type)} & names)
    if function.visibility != "pub":
        return function.visibility == "pub extern"
    if names is None:
        return True
    if function.block:
        _, head = rattle_functions.split_parameters(function.block)
        return rattle_functions.plain_name(head) in names
    *module, name = function.path.split("::")
    return name in names or (len(module) == 1 and module[0] in modules)


def has_body(text, function):
    """Whether a function does anything; a law does nothing."""
    return rattle_functions.blanked(text)[function.start + 1 : function.end - 1].strip() != ""
