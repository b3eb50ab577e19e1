"""Lists the clauses of public functions that no recorded mutant breaks.

A clause is broken by a mutant if the goals that refused it (`crates/NAME/refused.txt`) have the clause's name, or, of a
clause without one, if they are of the function. Only current lines count. Where a mutant has no twin, such a goal may
be true, and only no longer be proved by the search. public_functions.py says which functions are public. A method of a
trait has the clauses that the trait declares for it, or if the trait is std's, those of its ghost members, as one
without a name.
"""

import re

from tests.mutants import one_answer, rattle_functions
from tests.mutants.public_functions import exported, has_body, is_public, sources_of

CLAUSE = re.compile(r"\bensures\s+(\w*)\s*(?=\{)")
TRAIT = re.compile(r"\bpub trait (\w+)[^{]*(?=\{)")
METHOD = re.compile(r"\bfn (\w+)")
GHOST = re.compile(r"\bghost \w+ = ")
# Clauses that no mutant breaks, each with the reason.
EXCEPTIONS = {
    **one_answer.REASONS,
    "fmtcanon::answer::Ending::outcome: digit": "it says something of the definition alone",
    "pf_canon::languages::ProfilePassed::len: left": "of this type it says nothing",
    "pf_posix::argument_types::arguments: length": "no body changes the length of a slice that it is given",
    "pf_posix::directive_spans::directives: length": "no body changes the length of a slice that it is given",
    "pf_reduce::results::Normal::directive: normal": "what it reads always has it",
    "pf_text::passed::NothingPassed::len: left": "of this type it says nothing",
    "pf_values::counted::Counted::into_inner": "the type of its parameter leaves one answer",
    "pf_values::counted::Counted::new: device": "the type of its parameter leaves one answer",
    "pf_values::directives::Directive::precision: defined": "what it reads always has it",
    "pf_values::directives::Directive::width: defined": "what it reads always has it",
    "pf_whole::languages::WholePassed::len: left": "of this type it says nothing",
}


def clauses_in(code, start, end):
    """Returns the clauses between two offsets: the name of each, or nothing, and what it says."""
    found = CLAUSE.finditer(code, start, end)
    return [(it[1], code[it.end() : rattle_functions.group_end(code, it.end())]) for it in found]


def clauses_of_traits(crates):
    """Returns the clauses that each trait of the crates declares for each of its methods."""
    found = {}
    for name in crates.names():
        for text in sources_of(crates.folder(name)).values():
            code = rattle_functions.blanked(text)
            for trait in TRAIT.finditer(code):
                inside = code[trait.end() : rattle_functions.group_end(code, trait.end())]
                starts = [*METHOD.finditer(inside), None]
                for method, following in zip(starts, starts[1:]):
                    end = following.start() if following else len(inside)
                    found[trait[1], method[1]] = clauses_in(inside, method.end(), end)
    return found


def clauses_of(function, code, of_traits):
    """Returns the clauses of a function: its own, or those of the trait that it is a method of."""
    own = clauses_in(code, function.contract, function.start)
    if own or " for " not in function.block:
        return own
    _, head = rattle_functions.split_parameters(function.block)
    method = rattle_functions.plain_name(head.partition(" for ")[0]), function.path.rpartition("::")[2]
    block = code[code.rfind("\nimpl", 0, function.head) : function.head]
    return of_traits.get(method, [("", "")] if GHOST.search(block) else [])


def public_clauses(folder, of_traits):
    """Yields the path of each public function of a crate, with the name of a clause, or nothing for one without, and
    what it says.
    """
    sources = sources_of(folder)
    homes, (names, modules) = rattle_functions.homes_of(sources), exported(sources)
    for path, text in sources.items():
        code = rattle_functions.blanked(text)
        for function in rattle_functions.functions(text, path, homes):
            if is_public(function, names, modules) and has_body(text, function):
                for clause in clauses_of(function, code, of_traits):
                    yield function.path, *clause


def refusals(lines):
    """Returns the function and the goals of each of these lines of a record."""
    found = [goals.rpartition(" of ") for goals in lines]
    return [(path, goals.split()) for goals, _, path in found]


def is_broken(path, clause, refused):
    """Returns whether a mutant breaks a clause of the function at this path."""
    goals = [it for at, found in refused if at == path for it in found]
    return any(re.search(rf"-clause-{clause}\b", it) if clause else it.startswith("returns") for it in goals)


def unbroken(mutants):
    """Returns how many clauses a mutant with a current line breaks, and which none does, without the exceptions; and
    the exceptions that one does.
    """
    crates, count, missing = mutants.crates, 0, []
    of_traits = clauses_of_traits(crates)
    for name in crates.names():
        refused = refusals(mutants.current(name))
        for path, clause, _ in public_clauses(crates.folder(name), of_traits):
            if is_broken(path, clause, refused):
                count += 1
            else:
                missing.append(f"{name}::{path}" + (f": {clause}" if clause else ""))
    excepted = {it for it in EXCEPTIONS if it.partition("::")[0] in crates.names()}
    return count, [it for it in missing if it not in excepted], sorted(excepted - set(missing))
