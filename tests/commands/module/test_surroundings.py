"""Tests of what the module does about locales, numbers out of range, names, and the command line."""

import os
import subprocess
import sys
import tempfile
from pathlib import Path

import fmtcanon
from fmtcanon import Model, Refused, Type

from tests.commands.module import needs_program
from tests.frame.cases import tests_of


# A locale whose encoding is ASCII, in a Python that believes it.
ASCII = {"LC_ALL": "C", "PYTHONUTF8": "0", "PYTHONCOERCECLOCALE": "0"}


def python(words, stdin=b"", **names):
    """The status and the streams of this Python with these arguments, in an environment with these names."""
    return subprocess.run(
        [sys.executable, "-B", *words],
        input=stdin,
        env={**os.environ, **names},
        stdout=subprocess.PIPE,
        stderr=subprocess.PIPE,
        check=False,
        timeout=60,
    )


def test_format_and_show_pass_bytes(case):
    script = (
        "import sys, fmtcanon; out = sys.stdout.buffer; "
        r"out.write(fmtcanon.format('\xe9\u20ac%s', '\xe9') + b'|'); "
        r"out.write(fmtcanon.format(b'\xc3\xa9%s', b'\xc3\xa9') + b'|'); "
        r"out.write(str(fmtcanon.show('\xe9')).encode())"
    )
    done = python(["-c", script], **ASCII)
    wanted = b"\xc3\xa9\xe2\x82\xac\xc3\xa9|\xc3\xa9\xc3\xa9|[Text(length=2)]"
    case.assertEqual((done.stdout, done.returncode), (wanted, 0), done.stderr)


def test_show_of_any_bytes(case):
    case.assertEqual(fmtcanon.show(b"\xff%i"), [fmtcanon.Text(1), fmtcanon.Directive("%i", "int", 0, 0, "%d", 0)])
    case.assertEqual(fmtcanon.show(b"x" * 300_000), [fmtcanon.Text(300_000)])
    case.assertEqual(fmtcanon.show(b"a\nb%%"), [fmtcanon.Text(3), fmtcanon.Percent()])


def test_format_of_each_kind_of_bytes(case):
    for text in [b"ab", bytearray(b"ab"), memoryview(b"ab")]:
        case.assertEqual(fmtcanon.format(bytearray(b"%s"), text), b"ab")
    case.assertEqual(fmtcanon.format("%d", True), b"1")


def test_source_offset(case):
    source = r'"a\tb" "c"'
    case.assertEqual([fmtcanon.source_offset(source, at) for at in range(6)], [1, 2, 4, 8, 9, None])
    for at in [1 << 64, (1 << 64) + 1, 1 << 63, (1 << 64) - 1, -1, -(1 << 64), 1 << 200]:
        case.assertIsNone(fmtcanon.source_offset(source, at), at)
    case.assertIsNone(fmtcanon.source_offset("no literal", 0))
    for at in [1.0, "1", None]:
        with case.assertRaises(TypeError):
            fmtcanon.source_offset(source, at)


def test_models_in_any_case(case):
    for name in ["ilp32", "ILP32", "Ilp32", Model.ILP32, 1]:
        case.assertEqual(fmtcanon.types("%zu", model=name), [Type.UINT])
        case.assertEqual(fmtcanon.show("%zu", model=name)[0].type, "unsigned int")
        case.assertEqual(fmtcanon.format("%zu", 1, model=name), b"1")
    case.assertEqual(fmtcanon.canonical("%zu", model="LP64"), "%lu")
    for name in ["lp65", "", "both", "all", " lp64", "lp64 ", 3, -1, None]:
        with case.assertRaises(ValueError):
            fmtcanon.types("%zu", model=name)


@needs_program
def test_it_runs_the_program(case):
    done = python(["-m", "fmtcanon", "canon", "Total: %i"])
    case.assertEqual((done.returncode, done.stdout, done.stderr), (0, b"Total: %d\n", b""))
    done = python(["-m", "fmtcanon", "canon", "%*d"])
    case.assertEqual((done.returncode, done.stdout, done.stderr), (2, b"", b"refused 5 Star at byte 1\n"))
    done = python(["-m", "fmtcanon", "stream"], b"%5c\xff\n")
    case.assertEqual((done.returncode, done.stdout), (0, b"    %c\xff\n"))


@needs_program
def test_bytes_stay_in_each_locale(case):
    for names in [ASCII, {"LC_ALL": "C.UTF-8"}]:
        done = python(["-m", "fmtcanon", "canon", "\u00e9%i".encode()], **names)
        case.assertEqual((done.returncode, done.stdout), (0, "\u00e9%d\n".encode()))
        done = python(["-m", "fmtcanon", "canon", b"\xff"], **names)
        case.assertEqual((done.returncode, done.stdout), (3, b""))


def test_no_program(case):
    done = python(["-m", "fmtcanon", "canon", "%i"], FMTCANON_PROGRAM="/nothing/fmtcanon")
    case.assertEqual(done.returncode, 127)
    wanted = (
        b"fmtcanon: /nothing/fmtcanon can't be run: No such file or directory; `python -m fmtcanon` needs "
        b"the program, which is for x86-64: install it, or name its file by FMTCANON_PROGRAM\n"
    )
    case.assertEqual(done.stderr, wanted)


def test_a_command_that_would_find_itself(case):
    # As pip installs it, with no program next to the module and none on the search path.
    with tempfile.TemporaryDirectory() as work:
        command = Path(work) / "fmtcanon"
        command.write_text(f"#!{sys.executable}\nfrom fmtcanon.__main__ import main\nmain()\n")
        command.chmod(0o755)
        folder = str(Path(fmtcanon.__file__).parent.parent)
        environment = {"PATH": work, "PYTHONPATH": folder, "PYTHONDONTWRITEBYTECODE": "1"}
        done = subprocess.run(
            [str(command), "canon", "%i"], env=environment, stderr=subprocess.PIPE, timeout=20, check=False
        )
    case.assertEqual(done.returncode, 127)
    case.assertIn(b"fmtcanon can't be run: ", done.stderr)


def test_show_and_format_refuse_alike(case):
    for call in [fmtcanon.format, fmtcanon.show]:
        with case.assertRaises(Refused) as raised:
            call("ab%*d")
        case.assertEqual((raised.exception.byte, raised.exception.side), (3, 0))


Tests = tests_of(globals())
