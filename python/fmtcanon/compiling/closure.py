"""Which functions print as `printf` or `vprintf` does, and which pointers are given only such functions: by way of each
other, or of those that are known.
"""

import collections
from typing import Deque, Dict, Iterable, List, Mapping, NamedTuple, Optional, Sequence, Set, Tuple

from ..source.known import Shape
from .functions import Wrapper

# What speaks against a function or a pointer: that it takes arguments of its list by itself, or something else.
TAKING, LEFT = "taking", "left"
# What tells a function or a pointer apart: a key, and how many parameters it has. Several programs may have one of a
# name.
Id = Tuple[str, int]
# By the key of each, those that it may be.
Wrappers = Mapping[str, Tuple[Wrapper, ...]]


class Handing(NamedTuple):
    """That a function hands its list on to another, or that a pointer is given one: the keys of the other, none if it
    is known to print; how many parameters it has, and for each parameter that may be the format, its index here and
    there; its name, and where. A pointer that is given what isn't known yet has no such pairs.
    """

    to: Tuple[str, ...]
    parameters: int
    formats: Tuple[Tuple[int, int], ...]
    name: str
    file: str
    line: int


class Candidate(NamedTuple):
    """The definition of a function that may hand its format on, or what a pointer is given: its key, its name, how many
    parameters it has, whether more arguments follow, what it hands on, the parameters that go elsewhere, what else
    speaks against it, and whether it is a pointer.
    """

    key: str
    name: str
    parameters: int
    is_variadic: bool
    handings: Tuple[Handing, ...]
    elsewhere: Tuple[int, ...] = ()
    against: str = ""
    is_pointer: bool = False

    @property
    def id(self) -> Id:
        return self.key, self.parameters


def is_local(key: str) -> bool:
    """Returns whether only its unit knows what has this key: others have keys that begin with those of the program."""
    return key.startswith("c:") and not key.startswith("c:@")


def needs_of(candidates: Iterable[Candidate]) -> Set[str]:
    """Returns the keys of what these need that other units may define."""
    return {it for one in candidates for handing in one.handings for it in handing.to if not is_local(it)}


def wrappers_among(definitions: Iterable[Candidate], known: Wrappers = {}) -> Dict[str, Tuple[Wrapper, ...]]:
    """Returns which of these functions and pointers print as `printf` or `vprintf` does. One isn't known if a
    definition that it may have isn't.
    """
    found: Dict[str, Tuple[Wrapper, ...]] = {}
    for (key, _), wrapper in Closure(definitions, known).printing().items():
        found[key] = (*found.get(key, ()), wrapper)
    return found


def names_of_taking(definitions: Iterable[Candidate]) -> Set[str]:
    """Returns the names of functions that take their arguments by themselves, or by another that does: they have
    directives of their own.
    """
    closure = Closure(definitions, {})
    waiting = [id for id, listed in closure.definitions.items() if any(it.against == TAKING for it in listed)]
    seen = set(waiting)
    while waiting:
        for user in closure.users[waiting.pop()]:
            if user not in seen and not closure.definitions[user][0].is_pointer:
                seen.add(user)
                waiting.append(user)
    return {closure.definitions[id][0].name for id in seen}


class Closure:
    """Functions and pointers by what they need of others."""

    def __init__(self, definitions: Iterable[Candidate], known: Wrappers) -> None:
        self.known = known
        self.definitions: Dict[Id, List[Candidate]] = {}
        for one in dict.fromkeys(definitions):
            self.definitions.setdefault(one.id, []).append(one)
        # What needs each of them.
        self.users: Dict[Id, List[Id]] = collections.defaultdict(list)
        for id, listed in self.definitions.items():
            for need in {(it, one.parameters) for made in listed for one in made.handings for it in one.to}:
                self.users[need].append(id)
        self.found: Dict[Id, Wrapper] = {}

    def printing(self) -> Dict[Id, Wrapper]:
        """Returns what prints: first all that hands something on to what prints, and then without those against which
        something speaks, and those that need these.
        """
        waiting: Deque[Id] = collections.deque(self.definitions)
        while waiting:
            id = waiting.popleft()
            made = None if id in self.found else self.wrapper(id)
            if made:
                self.found[id] = made
                waiting += self.users[id]
        waiting += self.found
        while waiting:
            id = waiting.popleft()
            if id in self.found and not self.holds(id):
                del self.found[id]
                waiting += self.users[id]
        return self.found

    def wrapper(self, id: Id) -> Optional[Wrapper]:
        """Returns what something is if the first that it needs prints, or None."""
        for one in self.definitions[id]:
            for it in one.handings:
                format = self.format_by(one, it)
                if format is not None and format < one.parameters:
                    shape = Shape(format, one.parameters if one.is_variadic else None)
                    return Wrapper(one.parameters, shape, it.name, it.file, it.line, one.is_pointer)
        return None

    def holds(self, id: Id) -> bool:
        """Returns whether nothing speaks against what was taken for printing."""
        format = self.found[id].shape.format
        return all(
            not one.against
            and format not in one.elsewhere
            and bool(one.handings)
            and all(self.format_by(one, it) == format for it in one.handings)
            for one in self.definitions[id]
        )

    def format_by(self, one: Candidate, handing: Handing) -> Optional[int]:
        """Returns which parameter is the format, by what is handed on; None if that isn't known to print."""
        if not handing.to:
            return next((own for own, _ in handing.formats), None)
        listed = filter(None, (self.shape_of((it, handing.parameters)) for it in handing.to))
        shape = next((it for it in listed if one.is_pointer or it.first is None), None)
        if shape is None:
            return None
        if one.is_pointer:
            return shape.format if (shape.first is not None) == one.is_variadic else None
        others = [own for own, at in handing.formats if at != shape.format]
        return next((own for own, at in handing.formats if at == shape.format and own not in others), None)

    def shape_of(self, id: Id) -> Optional[Shape]:
        """Returns where a function or a pointer has its format, if it prints."""
        if id in self.definitions:
            found = self.found.get(id)
            return found.shape if found else None
        return next((it.shape for it in self.known.get(id[0], ()) if it.parameters == id[1]), None)


def without_defined(known: Wrappers, definitions: Sequence[Candidate]) -> Wrappers:
    """Returns what is known of other units, without what this one defines: that is what its calls mean."""
    own = {it.key for it in definitions if not it.is_pointer}
    return {key: it for key, it in known.items() if key not in own} if own & known.keys() else known


def own_among(definitions: Sequence[Candidate], known: Wrappers) -> Dict[str, Tuple[Wrapper, ...]]:
    """Returns which functions of one unit print, and which pointers that nothing else knows."""
    own = [it for it in definitions if not it.is_pointer or is_local(it.key)]
    return wrappers_among(own, without_defined(known, own))
