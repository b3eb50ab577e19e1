"""Reads what rt prints, and judges mutants by it."""

import re
from enum import Enum


class Verdict(Enum):
    """What became of a mutant."""

    REFUSED = "refused"
    LET_THROUGH = "LET THROUGH"
    BROKEN = "BROKEN"
    NOT_JUDGED = "NOT JUDGED"
    TWIN_REFUSED = "TWIN REFUSED"
    TWIN_BROKEN = "TWIN BROKEN"


class Report:
    """What a check with holes allowed said of a crate, without some files of answers.

    `answers` has the goals that each of these files answers.
    """

    def __init__(self, text, crate, answers=()):
        self.text, self.crate, self.answers = text, crate, dict(answers)
        self.lines = dict(re.findall(r"^fn (\S+): (.*)$", text, re.MULTILINE))

    def is_whole(self):
        """Returns whether the prover came to its end, so that the source compiles."""
        return bool(re.search(r"^(only=\d+ )?holes=\d+$", self.text, re.MULTILINE))

    def names(self, path):
        """Returns the names under which the check lists the function at this path: its own, and those of its
        closures.
        """
        module, _, name = path.rpartition("::")
        outer, _, block = module.rpartition("::")
        closures = [
            f"{self.crate}::{m}::fn::{f}::" if m else f"{self.crate}::fn::{f}::"
            for m, f in [(module, name), (outer, f"{block}::{name}")]
        ]
        own = f"{self.crate}::{path}"
        return [it for it in self.lines if it == own or it.startswith(tuple(closures))]

    def open_goals(self, path=None):
        """Yields the goals that no search proves and that have no answer, of each function at this path, or of any:
        their names, and the function's.
        """
        for name in self.lines if path is None else self.names(path):
            found = re.search(r"`search` did not prove ((?:`[^`]+`(?:, )?)+)", self.lines[name])
            own = "/".join(name.split("::")[1:])
            answered = self.answers.get(f"proofs/{own}/Answers.antt", set())
            goals = [it for it in re.findall("`([^`]+)`", found[1] if found else "") if it not in answered]
            if goals:
                yield f"{' '.join(goals)} of {name[len(self.crate) + 2 :]}"

    def first_error(self):
        found = re.search(r"^.*\berror\b.*$", self.text, re.MULTILINE)
        lines = self.text.strip().splitlines()
        return found[0][:200] if found else lines[-1][:200] if lines else "nothing was said"


def verdict_of(report, mutant):
    """Returns the verdict on a mutant whose texts were in place for this report, and the goals or the reason."""
    if not report.is_whole():
        kind = Verdict.NOT_JUDGED if "no verdict" in report.text else Verdict.BROKEN
        return kind, report.first_error()
    paths = sorted(mutant.listed()) or [None]
    for path in paths:
        if path is not None and not report.names(path):
            return Verdict.BROKEN, f"the check does not list {path}"
    originals = {copy: path for path, copy in mutant.copies.items()}
    for path in paths:
        for goals in report.open_goals(path):
            return Verdict.REFUSED, goals.replace(f" of {path}", f" of {originals.get(path, path)}")
    return Verdict.LET_THROUGH, f"no goal without an answer is open in {', '.join(map(str, paths))}"


def verdict_with_twin(mutant, twin=(Verdict.LET_THROUGH, "")):
    """Returns the verdict on a mutant, whose own verdict and that of its twin are given, each with the reason."""
    if mutant[0] is Verdict.REFUSED and twin[0] is Verdict.REFUSED:
        return Verdict.TWIN_REFUSED, f"its twin has the open goals {twin[1]}"
    if mutant[0] is Verdict.REFUSED and twin[0] is not Verdict.LET_THROUGH:
        return Verdict.TWIN_BROKEN, twin[1]
    return mutant
