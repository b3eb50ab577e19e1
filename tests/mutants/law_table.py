"""The laws whose statements `statements.py` edits, with the callers that need each part of them."""

from dataclasses import dataclass
from typing import Tuple


@dataclass(frozen=True)
class Edit:
    """An edit of a statement, and the callers that need what it takes away."""

    old: str
    new: str
    callers: Tuple[str, ...]


@dataclass(frozen=True)
class Law:
    """A law: its path, the crate that uses it, edits of its statement, and the file of its definition, if it isn't all
    in the clause.
    """

    path: str
    users: str
    edits: Tuple[Edit, ...]
    definition: str = ""

    @property
    def crate(self):
        return self.path.split("::")[0]

    @property
    def function(self):
        return self.path.split("::")[-1]

    @property
    def module(self):
        """The name of the module that has the law instead."""
        return f"{self.crate}_{self.function}"

    @property
    def statement(self):
        """The name of the statement, and of the module with the edited definition."""
        return "".join(word.capitalize() for word in self.module.split("_"))

    @property
    def callers(self):
        """The callers, each once."""
        return tuple(dict.fromkeys(caller for edit in self.edits for caller in edit.callers))


def edits_of_headline(canonical, alike, one, callers):
    """Returns the edits that strike each field of a headline, and each direction of its last one.

    They are given the words of a language: for a canonical text, for texts that mean the same, and for a text that has
    one canonical text; and the callers that compare two texts, and that need one text only.
    """
    of_two, of_one = ((it,) for it in callers)
    same = f"pub same : {alike} model t u ↔ (first.canonical ≡ second.canonical)"
    only = f"pub only : (other : Text) → {canonical} model t other → other ≡ canonical"
    return (
        Edit(f"pub is : {canonical} model t canonical", "pub is : ⊤", of_one),
        Edit(only, "pub only : ⊤", of_two),
        Edit(f"pub means_the_same : {alike} model t canonical", "pub means_the_same : ⊤", of_one),
        Edit(f"pub is_its_own : {canonical} model canonical canonical", "pub is_its_own : ⊤", of_one),
        Edit(f"pub first : {one} model t", f"pub first : {one} model u", of_two),
        Edit(f"pub second : {one} model u", f"pub second : {one} model t", of_two),
        Edit(same, f"pub same : ({alike} model t u → (first.canonical ≡ second.canonical)) × ⊤", of_two),
        Edit(same, f"pub same : ⊤ × ((first.canonical ≡ second.canonical) → {alike} model t u)", of_two),
    )


def edits_of_equivalence(front, first, second, backwards, forwards):
    """Returns the edits that leave one direction of `first ↔ second` each: without what is `backwards`, and without what
    is `forwards`, with the callers that need it.
    """
    return (
        Edit(f"{front}{first} ↔ {second}", f"{front}({first} → {second}) × ⊤", backwards),
        Edit(f"{front}{first} ↔ {second}", f"{front}⊤ × ({second} → {first})", forwards),
    )


OF_WHOLE = "crates/pf_whole/specs/Laws.antt"
FEWER = "argument_types::serves"
BY_SECOND, SHARED = "meaning::are_equivalent_by_second", "meaning::share_a_text"
BOUNDS = "AreBounds model u least greatest"
LAWS = [
    Law(
        "pf_compare::laws::headline",
        "uses",
        edits_of_headline(
            "IsCanonicalOf",
            "AreEquivalent",
            "HasOneCanonical",
            ("meaning::have_one_canonical_text", "meaning::has_canonical_text"),
        ),
        "crates/pf_values/specs/meaning/Headline.antt",
    ),
    Law(
        "pf_compare::laws::sameness",
        "uses",
        (
            Edit("AreEquivalent model t (canonical t h)", "⊤", (SHARED,)),
            *edits_of_equivalence(
                "(",
                "AreEquivalent model t u",
                "(canonical t h ≡ canonical u g)",
                (BY_SECOND,),
                (BY_SECOND, SHARED),
            ),
        ),
    ),
    Law(
        "pf_whole::laws::headline",
        "uses",
        edits_of_headline(
            "IsWholeCanonicalOf",
            "AreWholeAlike",
            "HasOneWholeCanonical",
            ("whole::have_one_whole_canonical_text", "whole::has_whole_canonical_text"),
        ),
        "crates/pf_whole/specs/meaning/WholeHeadline.antt",
    ),
    Law(
        "pf_whole::laws::alike_print_alike",
        "uses",
        edits_of_equivalence(
            "    → (",
            "TextPrintsBy model respond t args out",
            "TextPrintsBy model respond u args out",
            *[("whole::print_alike",)] * 2,
        ),
        OF_WHOLE,
    ),
    Law(
        "pf_whole::laws::profile_coincides",
        "uses",
        (
            *edits_of_equivalence(
                "pub alike : ",
                "AreWholeAlike model t u",
                "AreEquivalent model t u",
                *[("whole::are_alike_by_profile",)] * 2,
            ),
            *edits_of_equivalence(
                "pub canonical : (c : Text) → (",
                "IsWholeCanonicalOf model t c",
                "IsCanonicalOf model t c",
                ("whole::whole_text_by_profile",),
                ("whole::profile_text_by_whole",),
            ),
        ),
        OF_WHOLE,
    ),
    Law(
        "pf_whole::laws::profile_compares",
        "uses",
        (
            Edit(
                "IsWholeComparisonOf model t u (whole_verdict comparison.verdict)",
                "⊤",
                ("whole::are_alike_by_comparison",),
            ),
            Edit("other ≡ whole_verdict comparison.verdict", "other ≡ other", ("whole::other_types_at",)),
        ),
        OF_WHOLE,
    ),
    Law(
        "pf_whole::laws::serve_fewer",
        "uses",
        (
            Edit("HasArguments model u others × (", "⊤ × (", (FEWER,)),
            Edit("(length others ≤ length args)", "⊤", (FEWER,)),
            Edit("HasWholeTypes model (take (length others) args) others", "⊤", (FEWER,)),
        ),
        OF_WHOLE,
    ),
    Law(
        "pf_posix::laws::fits_is_fewer",
        "uses",
        (Edit("ComparesBeginning model t u", "ComparesBeginning model t t", ("argument_types::takes_just_these",)),),
    ),
    Law(
        "pf_posix::laws::fewer_both_ways",
        "uses",
        (
            Edit(
                "ComparesArgumentTypes model t u",
                "ComparesArgumentTypes model t t",
                ("argument_types::take_the_same",),
            ),
        ),
    ),
    Law(
        "pf_bounds::laws::printed_between",
        "uses",
        (
            Edit("IsBetween least greatest", "IsBetween 0 greatest", ("sizes::prints_at_least",)),
            Edit("IsBetween least greatest", "IsBetween least None", ("sizes::fits_in",)),
        ),
    ),
    Law(
        "pf_bounds::laws::equivalent_bounds",
        "uses",
        (
            Edit(BOUNDS, "(n : ℕ) × AreBounds model u n greatest", ("sizes::bounds_by_first",)),
            Edit(BOUNDS, "(n : Option ℕ) × AreBounds model u least n", ("sizes::bounds_by_first",)),
        ),
    ),
    Law(
        "pf_text::laws::reads_once",
        "uses_low",
        (Edit("→ items ≡ others", "→ items ≡ items", ("formats::takes_none",)),),
    ),
    Law(
        "pf_text::laws::refused_once",
        "uses_low",
        (
            Edit("(kind ≡ other) × (p ≡ q)", "⊤ × (p ≡ q)", ("formats::refusal_of",)),
            Edit("(kind ≡ other) × (p ≡ q)", "(kind ≡ other) × ⊤", ("formats::refusal_of",)),
        ),
    ),
    Law(
        "pf_values::laws::prints_once",
        "uses_low",
        (
            Edit("out = Prints model s argument out", "out = ⊤", ("directives::prints_ints",)),
            Edit("((other : Text) → Prints model s argument other → other ≡ out)", "⊤", ("directives::prints_ints",)),
        ),
        "crates/pf_values/specs/Laws.antt",
    ),
]
