"""Finds the functions that hand their formats on, and the pointers that are given such functions, in the files that are
compiled: what is called in one may be in another.
"""

import contextlib
import functools
import gc
import glob
import os
import re
from typing import Any, Dict, FrozenSet, Iterable, List, NamedTuple, Optional, Sequence, Set

from ..compiling.closure import Candidate, Handing, Wrappers, is_local, names_of_taking, needs_of, wrappers_among
from ..compiling.compile_commands import SOURCES
from ..compiling.left import Left, own_trouble
from ..compiling.pointers import ASSIGNED, is_value, names_at
from ..compiling.sources import Files, Name
from ..fitting.asking import job_of
from ..fitting.checking import Job, Question
from ..fitting.unit import candidates_of
from ..frame.processes import in_order
from ..source.files import bytes_of
from ..source.known import KNOWN
from .cache import DAMAGED, Cache, read_unit

# What a file has that defines such a function, and one that declares a pointer to one, or a typedef of one.
MAY_DEFINE = re.compile(r"va_(?:list|start)|VA_START")
POINTER = re.compile(r"\(\s*\*[^()]*\)\s*\([^;{}]*(?:\.\.\.|va_list)|typedef[^;{}]*\.\.\.")
# After the name of a function that a text defines: its parameters, what macros say of it, and its body.
BRACKETS = r"\((?:[^(){};]|\([^(){};]*\))*\)"
BODY = re.compile(rf"\s*\)?\s*\((?:[^(){{}};]|{BRACKETS})*\)(?:[^;{{}}()=]|{BRACKETS})*\{{")
# Functions of the C library that pointers are given: without those whose names are variables more often, as `error`.
LOGGING = ("syslog", "vsyslog", "warnx", "vwarnx", "errx", "verrx")
GIVEN = frozenset(it for it in KNOWN if it.endswith("printf") or it in LOGGING)


class Facts(NamedTuple):
    """What is found in a file: functions that may hand their formats on, and what pointers are given; and the names of
    variadic functions and of such pointers, if there are pointers.
    """

    candidates: Sequence[Candidate] = ()
    names: FrozenSet[str] = frozenset()


class Wrapped(NamedTuple):
    """The functions that hand their formats on, and the pointers that are given only such functions; and the names of
    functions that take their arguments by themselves.
    """

    wrappers: Wrappers = {}
    taking: FrozenSet[str] = frozenset()


class Search:
    """The files in which such functions may be, and what is found in those that were searched."""

    def __init__(self, files: Files, question: Question, cache: Optional[Cache], count: int) -> None:
        self.files, self.cache, self.count = files, cache, count
        jobs = {it: job_of(files, Name(it, it), question) for it in paths_of(files)}
        self.jobs = {path: job for path, job in jobs.items() if job.commands}
        self.facts: Dict[str, Facts] = {}

    def wrapped(self) -> Wrapped:
        """Returns what is known by the files that were searched."""
        listed = [it for path, one in self.facts.items() for it in qualified(path, one.candidates)]
        found = {key: it for key, it in wrappers_among(listed).items() if not is_local(key) and "|" not in key}
        return Wrapped(found, frozenset(names_of_taking(listed)))

    def search_all(self) -> None:
        """Searches all files that may define such a function, and those that may give a pointer one, or another."""
        texts = {path: text_of(path) for path in self.jobs}
        is_any = any(POINTER.search(it) for it in texts.values())
        found = [path for path, text in texts.items() if MAY_DEFINE.search(text)]
        is_first = True
        while found or is_first:
            self.search(found)
            is_first, listed = False, [it for one in self.facts.values() for it in one.candidates]
            names = {it for one in self.facts.values() for it in one.names}
            values = GIVEN | {it.name for it in listed if (is_any or names) and not is_local(it.key)}
            targets = names if any(it.is_pointer for it in listed) else set()
            rest = [(path, text) for path, text in texts.items() if path not in self.facts]
            found = [path for path, text in rest if has_value(text, values) or has_target(text, targets)]

    def search_for(self, keys: Iterable[str]) -> None:
        """Searches the files that define the functions with these keys, and those that they hand their formats on to;
        all files if one is a pointer, which any may give a function.
        """
        waiting: Set[str] = set(keys)
        seen: Set[str] = set()
        texts: Dict[str, str] = {}
        while waiting - seen:
            names = {name_of(it) for it in waiting - seen}
            if "" in names:
                self.search_all()
                return
            seen |= waiting
            texts = texts or {path: text_of(path) for path in self.jobs}
            self.search(
                path
                for path, text in texts.items()
                if path not in self.facts and MAY_DEFINE.search(text) and has_body(text, names)
            )
            waiting = {it for one in self.facts.values() for it in needs_of(one.candidates)}

    def search(self, paths: Iterable[str]) -> None:
        """Searches files, by several processes."""
        listed = [self.jobs[it] for it in paths]
        found = in_order(functools.partial(search_and_keep, self.cache), listed, self.count, instead=nothing_of)
        self.facts.update(zip((it.file for it in listed), found))


def qualified(path: str, candidates: Sequence[Candidate]) -> List[Candidate]:
    """Returns what a file has, with keys that no other file has for what only its units know."""
    own = {it.key for it in candidates if is_local(it.key)}

    def key(one: str) -> str:
        return f"{path}|{one}" if one in own else one

    return [
        it._replace(
            key=key(it.key), handings=tuple(one._replace(to=tuple(map(key, one.to))) for one in it.handings)
        )
        for it in candidates
    ]


def name_of(key: str) -> str:
    """Returns the name of the function that has a key, or nothing if it is a pointer."""
    found = re.search(r"@F@(\w+)(?:#[^@]*)?\Z", key)
    is_parameter = re.search(r"#\d+\Z", key) and key.startswith("c:@F@")
    return found[1] if found and not is_parameter else ""


def paths_of(files: Files) -> Sequence[str]:
    """Returns the paths of the files in which such functions may be: those of the database; without one, those that are
    given and the others in their folders.
    """
    if files.options.database:
        return sorted(it for it in files.database if SOURCES.fullmatch(it))
    given = [it.path for it in files.names()]
    folders = sorted({os.path.dirname(it) for it in given})
    beside = (it for folder in folders for it in sorted(glob.glob(os.path.join(glob.escape(folder), "*"))))
    return list(dict.fromkeys([*given, *(os.path.realpath(it) for it in beside if SOURCES.fullmatch(it))]))


def text_of(path: str) -> str:
    """Returns a source with one character for each byte."""
    return bytes_of(path).decode("latin-1")


def has_value(text: str, names: Iterable[str]) -> bool:
    """Returns whether one of these names may be a value in a text."""
    return any(is_value(text, *it) for it in names_at(text, names))


def has_target(text: str, names: Iterable[str]) -> bool:
    """Returns whether one of these names gets a value in a text."""
    return any(ASSIGNED.match(text, end) for _, end in names_at(text, names))


def has_body(text: str, names: Iterable[str]) -> bool:
    """Returns whether a text defines a function with one of these names."""
    return any(BODY.match(text, end) for _, end in names_at(text, names))


def nothing_of(job: Job, how: str) -> Facts:
    """Returns what is known of a file that ends each process that reads it."""
    return Facts()


def search_and_keep(cache: Optional[Cache], job: Job) -> Facts:
    """Returns what is kept of a file, or what is found in it now, which is kept if nothing changed meanwhile."""
    found = kept_or_found(cache, job)
    # The units that libclang parsed refer to themselves.
    gc.collect()
    return found


def kept_or_found(cache: Optional[Cache], job: Job) -> Facts:
    was = cache.read(job) if cache else None
    path = cache.path_of(job, ("facts",), was.hash) if cache and was else ""
    kept = cache.get(path) if cache and path else None
    if kept is not None:
        with contextlib.suppress(*DAMAGED):
            return Facts([candidate_in(it) for it in kept[0]], frozenset(kept[1]))
    units, candidates, names = [], [], set()
    for command in job.commands:
        try:
            with own_trouble():
                units.append(read_unit(job, command))
                found = candidates_of(command, job.question.settings, units[-1].text)
                candidates += found[0]
                names |= found[1]
        except Left:
            return Facts(candidates, frozenset(names))
    if cache and was and cache.is_as_it_was(job, was, units):
        cache.put(path, [candidates, sorted(names)])
    return Facts(candidates, frozenset(names))


def candidate_in(fields: Sequence[Any]) -> Candidate:
    """Returns a function or a pointer as JSON has it."""
    found = Candidate(*fields)
    handings = tuple(Handing(*it) for it in found.handings)
    pairs = [tuple((own, at) for own, at in it.formats) for it in handings]
    made = tuple(it._replace(to=tuple(it.to), formats=of) for it, of in zip(handings, pairs))
    return found._replace(handings=made, elsewhere=tuple(found.elsewhere))
