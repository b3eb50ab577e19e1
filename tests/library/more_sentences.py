"""Tries more sentences of fmtcanon-explain: those of 50,000 directives at random, and of all directives of some parts.
"""

import itertools

from tests.frame.cases import tests_of
from tests.library.test_sentences import FLAGS, Sentences, texts_of, untrue_of

PRINTED, TOLD = 50_000, 89_208


def test_printed(module, trials):
    trials.expect("what is not printed by the sentence", untrue_of(Sentences(module), 3, PRINTED), [])


def test_told_apart(module, trials):
    flags = ["".join(it) for count in range(len(FLAGS) + 1) for it in itertools.combinations(FLAGS, count)]
    texts = texts_of(flags, ["", "*", "1", "4", "12"], ["", ".*", ".", ".1", ".3", ".6"])
    found = Sentences(module).not_told_apart(texts)
    trials.expect("directives with one sentence that are not the same", found, ([], TOLD))


Tests = tests_of(globals())
