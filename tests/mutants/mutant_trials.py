"""Tries the mutants of a crate, over the proved libraries below it."""

import re
import shutil
import threading
from contextlib import contextmanager

from tests.mutants.mutant_files import applied, batches, proof_files
from tests.mutants.reports import Report, Verdict, verdict_of, verdict_with_twin
from tests.mutants.schedule import Task, say

ANSWER = re.compile(r"^(?:abbrev )?pub ([\w-]+) :", re.MULTILINE)
# How many mutants share a check at least, if there are that many, and at most.
LEAST, MOST = 60, 120


class Trial:
    """The trial of some mutants of one crate, and what became of each: a verdict, and the reason for it.

    A twin is judged as its mutant is. A mutant is refused only if its twin is let through.
    `refused` is called with the name of each mutant that is refused, and with the goals that refused it.
    """

    def __init__(self, name, mutants, built, refused=lambda mutant, goals: None):
        self.name, self.mutants, self.built, self.refused = name, mutants, built, refused
        self.crate, self.outcomes, self.found = built.crates.folder(name), {}, {}
        self.lock, self.free_copies = threading.Lock(), []
        for it in self.tried():
            if it.is_broken():
                self.settle(it, Verdict.BROKEN, it.why_broken)

    def tried(self):
        """Returns the mutants with their twins."""
        return [it for mutant in self.mutants for it in (mutant, mutant.twin) if it]

    def settle(self, it, verdict, why):
        """Notes what became of a mutant or a twin, and prints it once both are judged."""
        with self.lock:
            self.found[it.label()] = verdict, why
            mutant = next(mutant for mutant in self.mutants if mutant.name == it.name)
            both = [self.found.get(it.label()) for it in (mutant, mutant.twin) if it]
            if mutant.name in self.outcomes or None in both:
                return
            verdict, why = self.outcomes[mutant.name] = verdict_with_twin(*both)
            say(f"{self.name}/{mutant.name}: {verdict.value}: {why}")
            if verdict is Verdict.REFUSED:
                self.refused(mutant, why)

    def left(self):
        """Returns the mutants and twins that are not judged."""
        return [it for it in self.tried() if it.label() not in self.found]

    def tasks(self, jobs):
        """Returns the tasks that try what is left. What takes longest goes first: the mutants of a high crate, and
        those of no function, each tried alone.
        """
        height = -len(self.built.crates.below(self.name))
        groups = [[it] for it in self.left() if not it.functions]
        many = [it for it in self.left() if it.functions]
        most = min(max(LEAST, -(-len(many) // jobs)), MOST)
        groups += [group for group, _ in batches(many, self.crate, most)]
        for number, group in enumerate(groups):
            yield Task(lambda group=group: self.judge(group), (1, height, number))

    def judge(self, mutants, has_answers=True):
        """Tries mutants in one check, and returns the tasks that try those again that it doesn't show refused.

        A failing answer hides the other goals of its function. So those whose functions have answers are tried once
        more without these, all in one check, and then mutants each alone, since another one may be the reason. If a
        check doesn't come to its end, its mutants are tried in two parts.
        """
        report, half = self.checked(mutants, has_answers), len(mutants) // 2
        if not report.is_whole() and half:
            return [self.again(part, has_answers) for part in [mutants[:half], mutants[half:]]]
        verdicts = [(it, *verdict_of(report, it)) for it in mutants]
        let_through = [it for it, verdict, _ in verdicts if verdict is Verdict.LET_THROUGH]
        answered = [it for it in let_through if has_answers and answers_of(self.crate, it)]
        alone = [it for it in let_through if half and not it.is_twin and it not in answered]
        for it, verdict, why in verdicts:
            if it not in answered and it not in alone:
                self.settle(it, verdict, why)
        more = [self.again(answered, False)] if answered else []
        return more + [self.again([it], has_answers) for it in alone]

    def again(self, mutants, has_answers):
        """Returns the task that tries these mutants once more."""
        return Task(lambda: self.judge(mutants, has_answers), (0, 0, 0))

    def checked(self, mutants, has_answers):
        """Returns the report of a check of the functions that these mutants change, or of all if they change none."""
        texts = {}
        for it in mutants:
            texts = applied(it, self.crate, texts)
        answers = {} if has_answers else {file: goals for it in mutants for file, goals in answers_of(self.crate, it)}
        paths = sorted({path for it in mutants for path in it.listed()})
        words = [word for path in paths for word in ("--only", f"{self.name}::{path}")]
        with self.changed({**texts, **dict.fromkeys(answers, "")}) as folder:
            said = self.built.check(folder, "--allow-holes", *words)
        return Report(said, self.name, answers)

    @contextmanager
    def changed(self, texts):
        """Gives a copy of the crate with these texts, in which nothing else is checked meanwhile."""
        with self.lock:
            folder = self.free_copies.pop() if self.free_copies else None
        folder = folder or self.built.copy(self.name)
        for file, text in texts.items():
            (folder / file).write_text(text, encoding="utf-8")
        yield folder
        for file in texts:
            shutil.copyfile(self.crate / file, folder / file)
        with self.lock:
            self.free_copies.append(folder)

    def end(self):
        """Returns how many mutants were refused and how many not."""
        refused = sum(verdict is Verdict.REFUSED for verdict, _ in self.outcomes.values())
        return refused, len(self.mutants) - refused

    def name_what_is_not_refused(self):
        """Prints once more, for the end of a long log, which mutants were not refused."""
        for name, (verdict, why) in self.outcomes.items():
            if verdict is not Verdict.REFUSED:
                say(f"not refused: {self.name}/{name}: {verdict.value}: {why}")


def answers_of(crate, mutant):
    """Returns the proof files with answers to goals of the functions that a mutant changes, and of their closures, each
    with the goals that it answers.
    """
    files = [it for path in sorted(mutant.listed()) for it in proof_files(crate, path) if it.name == "Answers.antt"]
    texts = [(str(it.relative_to(crate)), it.read_text(encoding="utf-8")) for it in files]
    return [(file, frozenset(ANSWER.findall(text))) for file, text in texts]
