"""Tests of what fmtcanon-check reads, leaves and counts, without libclang."""

import os
import tempfile
from collections import Counter
from pathlib import Path
from types import SimpleNamespace
from unittest import mock

from fmtcanon.checker import command, jobs
from fmtcanon.source.attributes import constant_of, printf_indexes, returned_index
from fmtcanon.compiling.formats import MARK_AFTER, TOKEN, type_name_of
from fmtcanon.compiling.left import Left, own_trouble
from fmtcanon.compiling.sources import Files
from fmtcanon.fitting import checking
from fmtcanon.models import Model

from tests.frame.cases import tests_of

# Texts of attributes, and the numbers in them; None if it is another attribute.
ATTRIBUTES = [
    ("format(printf, 1, 2)", (1, 2)),
    ("__format__(__printf__, 2, 3)", (2, 3)),
    ("format (printf, 1, 0)", (1, 0)),
    ("format(printf, (1), (2))", (1, 2)),
    ("__format__(__printf__, 1, 1 +1)", (1, 2)),
    ("format(printf, (2)-1, ((2 * 1)))", (1, 2)),
    ("format(printf, 1\n, 0x2u)", (1, 2)),
    ("format(printf, FIRST, 2)", (None, 2)),
    ("format(printf, sizeof(int), 5)", (None, 5)),
    ("format(printf, 1)", None),
    ("gnu::format(printf, 1, 2)", (1, 2)),
    ("__gnu__ :: __format__(__printf__, 1, 2)", (1, 2)),
    ("gnu::nonnull(1, 2)", None),
    ("format(scanf, 1, 2)", None),
    ("format_arg(1)", None),
    ("printf", None),
    ("nonnull(1)", None),
]


def test_numbers(case):
    for text, numbers in ATTRIBUTES:
        case.assertEqual(printf_indexes(text), numbers, text)
    for text, number in [
        ("format_arg(2)", 2),
        ("gnu::format_arg(1)", 1),
        ("__format_arg__ ((1 + 1))", 2),
        ("format(printf, 1, 2)", None),
    ]:
        case.assertEqual(returned_index(text), number, text)


def test_constants(case):
    for text, value in [
        ("1", 1),
        (" 2 * (3 + 1)", 8),
        ("5UL", 5),
        ("n", None),
        ("", None),
        ("1 +", None),
        ("'a'", None),
    ]:
        case.assertEqual(constant_of(text), value, text)


def test_tokens(case):
    text = '"%" "lu"/*PRIu64*/ u8"\\" x"'
    case.assertEqual(
        [(it[1], it[2]) for it in TOKEN.finditer(text)], [('"%"', None), ('"lu"', "PRIu64"), ('"\\" x"', None)]
    )
    case.assertEqual(
        [MARK_AFTER.match(it) is not None for it in ("/*PRIu64*/", " /*__PRI64_PREFIX*/, n", ", n")],
        [True, True, False],
    )


def test_names_of_types(case):
    for names in [
        ["unsigned long", "long unsigned int", "const unsigned long", "unsigned long int"],
        ["int", "signed", "signed int", "const int"],
        ["unsigned int", "unsigned"],
        ["short", "signed short int"],
        ["char *", "char*", "char *const"],
        ["const char *", "char const*"],
    ]:
        case.assertEqual({type_name_of(it) for it in names}, {type_name_of(names[0])}, names)
    different = (
        "char,signed char,unsigned char,int,long,long long,int *,double,long double,char *,const char *,char **"
    )
    different = different.split(",")
    case.assertEqual(len({type_name_of(it) for it in different}), len(different))


def summary(others=(), **counts):
    return command.summary(Counter(counts), Counter(dict(others)))


def test_unread(case):
    said = "1 file, 2 formats, 3 arguments: nothing found"
    case.assertEqual(summary(files=1, formats=2, arguments=3), said)
    one = summary(files=1, formats=2, arguments=3, unread_calls=1)
    case.assertEqual(one, f"{said}; 1 call with a format that wasn't read")
    more = summary(files=1, formats=2, arguments=3, unread_calls=12)
    case.assertEqual(more, f"{said}; 12 calls with formats that weren't read")


def test_others(case):
    """Functions that aren't known are named if four times as many of their calls have formats as were judged, and
        counted in any case. One that takes its arguments itself has no option.
        """
    others = {"say:0:1": 2, "log_it:1:2": 5, "c:0:1": 1, "b:0:1": 1, "d:0:1": 1}
    said = summary(others, files=1, formats=2)
    case.assertIn(
        "5 calls of log_it (--function log_it:1:2), 2 calls of say (--function say:0:1), 1 call of b", said
    )
    case.assertNotIn("--function c", said)
    said = summary(others, files=1, formats=3)
    case.assertTrue(said.endswith("functions that aren't known get literals with %: 10 calls of 5 others"), said)
    case.assertNotIn("aren't known", summary({}, files=1))
    said = command.summary(Counter(files=1, formats=9), Counter({"say:1": 12, "own:1": 11}), frozenset({"own"}))
    case.assertIn("12 calls of say (--function say:1); ", said)
    case.assertTrue(said.endswith("take their arguments themselves get literals with %: 11 calls of own"), said)


def test_every_exception(case):
    for raised, said in [
        (AssertionError("a b"), "it can't be read: AssertionError: a b"),
        (RecursionError(), "it can't be read: RecursionError:"),
        (Left("it is C++"), "it is C++"),
    ]:
        with case.assertRaises(Left) as found, own_trouble():
            raise raised
        case.assertEqual(str(found.exception), said)
    with case.assertRaises(KeyboardInterrupt), own_trouble():
        raise KeyboardInterrupt


def test_one_file(case):
    """An exception leaves the file, and its reason is said."""
    question = checking.Question(list(Model), [], None)
    job = checking.Job(os.path.realpath("a.c"), ("a command",), question)
    with mock.patch.object(checking, "Unit", side_effect=AssertionError("of libclang")):
        found = checking.answer(job)
    [one] = found.found.values()
    case.assertEqual(one.finding.message, "not judged: it can't be read: AssertionError: of libclang")
    case.assertEqual((found.counts["left"], found.counts["files"], found.fixes), (1, 1, {}))


def test_a_process_that_ends(case):
    """It leaves the file that it read."""
    question = checking.Question(list(Model), [], None)
    found = checking.answer_without(checking.Job(os.path.realpath("a.c"), (), question), "ended by signal 11")
    [one] = found.found.values()
    said = "not judged: it can't be read: the process that read it ended by signal 11"
    case.assertEqual((one.finding.message, one.finding.level, found.counts["left"]), (said, "warning", 1))


def said_of(name, database=True, given=()):
    """Why a file in a folder is skipped or left, or nothing."""
    with tempfile.TemporaryDirectory() as work:
        work = os.path.realpath(work)
        for one in ("a.c", "b.c", "a.h", "read.me"):
            Path(work, one).write_text("")
        os.mkfifo(os.path.join(work, "fifo.c"))
        options = SimpleNamespace(
            database=None, files=[os.path.join(work, it) for it in given or (name,)], flag=[], exclude=[]
        )
        files = Files(options)
        options.database = database
        files.database = {os.path.join(work, "a.c"): ["a command"]}
        found = {os.path.basename(it.file): it for it in jobs.jobs_of(files, None)}
        job = found[name]
        return job.why_skipped or job.why_left, bool(job.why_left), bool(job.commands)


def test_names(case):
    for name, given, said, is_left, is_read in [
        ("a.c", (), "", False, True),
        ("a.h", (), "a header is judged with the files that include it", False, False),
        ("read.me", (), "it isn't compiled by itself", False, False),
        ("b.c", (), "compile_commands.json has no command for it", True, False),
        ("b.c", ("",), "compile_commands.json has no command for it", False, False),
        ("none.c", (), "there is no such file", True, False),
        ("none.h", (), "there is no such file", True, False),
        ("fifo.c", (), "it isn't a regular file", True, False),
    ]:
        found = said_of(name, given=given)
        case.assertIn(said, found[0], name)
        case.assertEqual((bool(found[0]), *found[1:]), (bool(said), is_left, is_read), name)


def test_skipped_is_a_note(case):
    question = checking.Question(list(Model), [], None)
    found = checking.answer(checking.Job(os.path.realpath("a.h"), (), question, why_skipped="it is a header"))
    [one] = found.found.values()
    case.assertEqual(
        (one.finding.kind, one.finding.level, one.finding.message), ("skipped", "note", "not judged: it is a header")
    )
    case.assertEqual((found.counts["left"], found.counts["files"]), (0, 0))


Tests = tests_of(globals())
