"""Tests of what fmtcanon-replace does with compile commands, with the system's compiler and without libclang."""

import os
import re
import subprocess
import tempfile
import unittest
import unittest.mock
from pathlib import Path

from fmtcanon import Model
from fmtcanon.compiling.compile_commands import SOURCES, CompileCommand, names_in_rule, said
from fmtcanon.compiling.left import Left
from fmtcanon.compiling.targets import check_model, model_in
from fmtcanon.rewriting.units import Inclusions, Units, asked, units_of

from tests.frame.cases import tests_of

SOURCE = "int f(void);\nint f(void) { return 1; }\n"
# A source that has its own name and its position in it.
NAMED = """#include "b.h"
const char *names[] = {__FILE__, __BASE_FILE__};
int d = 1; int line = __LINE__;
"""
# Words that make a compiler write the file `keep`, or one with a name of its own, and what becomes of them.
WRITING = [
    (["-Wp,-DX,-MD,keep"], ["-DX"]),
    (["--output=keep"], []),
    (["--output", "keep"], []),
    (["--serialize-diagnostics", "keep"], []),
    (["-time=keep"], []),
    (["--write-dependencies"], []),
    (["-ftime-trace"], []),
    (["-save-stats"], []),
    (["-o", "keep"], []),
    (["-okeep"], []),
    (["-MD", "-MF", "keep"], []),
    (["-MMD", "-MFkeep", "-MTx", "-MQ", "y"], []),
    (["-MJ", "keep"], []),
    (["-aux-info", "keep"], []),
    (["-dumpbase", "keep", "-dumpdir", "keep", "-da"], []),
    (["-save-temps=obj"], []),
    (["--save-temps"], []),
    (["-fdump-tree-all=keep", "-fdump-final-insns=keep"], []),
    (["-fopt-info-all=keep"], []),
    (["-fcallgraph-info", "-fstack-usage", "-ftest-coverage", "--coverage", "-gsplit-dwarf"], []),
    (["-fsave-optimization-record", "-fproc-stat-report=keep"], []),
]
# Words that stay, as they are.
USED = [
    ["-DX", "-D", "Y=a b", "-UZ", "-I.", "-I", "in", "-isystem", "in", "-iquotein", "-include", "x.h"],
    ["-std=gnu11", "-O2", "-m32", "-march=native", "-mcmodel=small", "-Wall", "-Werror", "-Werror=format=2", "-Wno-x"],
    ["-fPIC", "-fno-builtin", "-fno-builtin-printf", "-fsanitize=address,undefined", "-fshort-enums", "-fno-rtti"],
    ["-fstack-protector-strong", "-fcf-protection=full", "-fmacro-prefix-map=/a=b", "-fexec-charset=UTF-8"],
    ["-x", "c", "-pthread", "--sysroot=/", "-nostdinc", "-Wp,-D_FORTIFY_SOURCE=2"],
]
# Words without an effect on what the preprocessor makes of a file.
UNUSED = [
    ["-c", "-pipe", "-g3", "-ggdb", "-fno-omit-frame-pointer", "-ftree-vectorize", "-fdata-sections", "-flto=auto"],
    ["-Xclang", "-disable-O0-optnone"],
    ["-Wl,-z,relro", "-Wl,--as-needed", "-Wl,-rpath,/x", "-lm", "-L", "/x", "-Wa,--noexecstack", "-shared", "-pg"],
    ["-fno-such-option-of-this-year", "-fprofile-use=x", "-fuse-ld=./x"],
    ["-fdebug-prefix-map=/a=.", "-fdiagnostics-color=always", "-fmessage-length=0", "--param", "x=1", "-mllvm", "-x"],
]
# Words with which it isn't known what the file means, or what would be written.
UNCLEAR = [
    ["-Wl,--wrap=printf"],
    ["-Wl,-wrap=printf"],
    ["-Wl,-z,relro,--wrap,printf"],
    ["-Wl,--defsym,printf=mine"],
    ["-Wl,@more"],
    ["-Wl,-O1,-T,script"],
    ["-Xlinker", "@more"],
    ["-Wl,-alias,_mine,_printf"],
    ["-Xlinker", "--wrap=printf"],
    ["-Wa,--defsym,printf=1"],
    ["-fexec-charset=latin1"],
    ["-finput-charset=LATIN1"],
    ["@more"],
    ["-traditional-cpp"],
    ["-fplugin=x.so"],
    ["-fpass-plugin=x.so"],
    ["-fmodules"],
    ["-fmodule-mapper=|x"],
    ["-fpreprocessed"],
    ["-specs=x"],
    ["--specs=x"],
    ["-B/x"],
    ["-wrapper", "x"],
    ["-Xclang", "-load"],
    ["-Xclang", "-add-plugin"],
    ["-Xpreprocessor", "-MD"],
    ["-Wp,-MD"],
    ["-Wp,-P"],
    ["-index-store-path", "x"],
    ["--no-such-option-of-this-year"],
    ["--target=./evil"],
    ["-target", "./evil"],
    ["--target", "x/y"],
    ["-D=1"],
    ["-DX Y"],
    ["-D", "1X"],
    ["-Uprintf(x)"],
    ["--sysroot=@more"],
    ["-fpack-struct=@more"],
    ["--gcc-toolchain=@more"],
    ["-fno-modules"],
    ["-fwide-exec-charset=UTF-16"],
    ["-x", "c++-header"],
    ["-xassembler"],
    ["other.c"],
    ["other.o"],
    ["-"],
]


def options_used(case, *words):
    words, file = CompileCommand("/", os.path.realpath("/a/b.c"), ("gcc", *words, "-c", "a/b.c")).used()
    case.assertEqual((words[0], file), ("gcc", "a/b.c"))
    return words[1:]


def test_used(case):
    for words in USED:
        joined = re.sub(r"(?<= -[DUIx]) |(?<= -include) |(?<= -isystem) ", "", f" {' '.join(words)}")
        case.assertEqual(" ".join(options_used(case, *words)), joined.lstrip().replace("-Wp,", ""))


def test_unused(case):
    for words in UNUSED:
        case.assertEqual(options_used(case, *words), [], words)


def test_unclear(case):
    for words in UNCLEAR:
        with case.assertRaises(Left, msg=words) as raised:
            options_used(case, *words)
        case.assertIn(words[0], str(raised.exception))


def test_the_file(case):
    with case.assertRaises(Left):
        CompileCommand("/", os.path.realpath("/a/b.c"), ("gcc", "-c", "a/c.c")).used()
    named = [("--", "a/b.c"), ("a/b.c", "--", "-fplugin=x.so"), ("a/b.c", "-D"), ("a/b.c", "-I", "-fplugin=x.so")]
    for words in [*named, ("a/b.c", "-I@more"), ("a/b.c", "-idirafter", "@more"), ("a/b.c", "-Wp,-I,@more")]:
        with case.assertRaises(Left, msg=words):
            CompileCommand("/", os.path.realpath("/a/b.c"), ("gcc", *words)).used()


def test_nothing_is_written(case):
    """A compiler that is run with such a word leaves all files as they are."""
    for words, used in WRITING:
        case.assertEqual(options_used(case, *words), used, words)
        with tempfile.TemporaryDirectory() as work:
            keep, file = Path(work) / "keep", Path(work) / "a.c"
            keep.write_text("precious")
            file.write_text(SOURCE)
            command = CompileCommand(work, os.path.realpath(file), ("gcc", *words, "-c", "a.c"))
            case.assertIn(b"return 1", command.preprocessed())
            command.check_compiles(SOURCE.encode())
            command.included()
            case.assertEqual((sorted(os.listdir(work)), keep.read_text()), (["a.c", "keep"], "precious"), words)


def test_nothing_is_written_by_the_environment(case):
    with tempfile.TemporaryDirectory() as work:
        file = Path(work) / "a.c"
        file.write_text(SOURCE)
        command = CompileCommand(work, os.path.realpath(file), ("gcc", "-c", "a.c"))
        with unittest.mock.patch.dict(os.environ, {"DEPENDENCIES_OUTPUT": f"{work}/rule"}):
            command.preprocessed()
        case.assertEqual(os.listdir(work), ["a.c"])


def test_standard_input(case):
    """A source that is given is preprocessed as the file is, and nothing is written next to it."""
    with tempfile.TemporaryDirectory() as work:
        for name, text in [("in/b.h", "int b = __LINE__;\n"), ("c.h", "int c;\n"), ("in/a \\ b.c", NAMED)]:
            (Path(work) / name).parent.mkdir(exist_ok=True)
            (Path(work) / name).write_text(text)
        os.symlink("in/a \\ b.c", f"{work}/link.c")
        rows = [(work, "in/a \\ b.c"), (f"{work}/in", "a \\ b.c"), (work, f"{work}/in/a \\ b.c")]
        file, before = os.path.realpath(f"{work}/in/a \\ b.c"), os.stat(f"{work}/in").st_mtime_ns
        for folder, name in rows:
            words = ("gcc", "-std=c99", "-include", f"{work}/c.h", "-Wall", "-Wpedantic", "-Werror", "-c", name)
            command = CompileCommand(folder, file, words)
            case.assertEqual(command.preprocessed(NAMED.encode()), command.preprocessed(), name)
            command.check_compiles(NAMED.encode())
            other = command.preprocessed(NAMED.replace("d = 1", "d = 2").encode())
            case.assertEqual(other, command.preprocessed().replace(b"d = 1", b"d = 2"))
        with case.assertRaisesRegex(Left, r"a .* b\.c:1.*error"):
            CompileCommand(*[work, file, ("gcc", "-c", "in/a \\ b.c")]).check_compiles(b"int")
        linked = CompileCommand(work, file, ("gcc", f"-I{work}/in", "-c", "link.c"))
        case.assertEqual(linked.preprocessed(NAMED.encode()), linked.preprocessed())
        case.assertEqual(os.stat(f"{work}/in").st_mtime_ns, before)


def test_language(case):
    for words, name, wanted in [
        (("gcc",), "b.c", "c"),
        (("gcc",), "b.cc", "c++"),
        (("x86_64-linux-gnu-g++-12",), "b.c", "c++"),
        (("gcc", "-x", "c++"), "b.c", "c++"),
        (("g++", "-xc"), "b.cc", "c"),
        (("gcc", "-Dc++"), "b.c", "c"),
    ]:
        case.assertEqual(CompileCommand("/", f"/a/{name}", (*words, "-c", name)).language(), wanted, words)


def test_sources(case):
    for name, wanted in [
        ("a.c", True),
        ("a.cc", True),
        ("a.C", True),
        ("a\nb.c", True),
        ("a.h", False),
        ("a.inc", False),
        ("a.c.in", False),
        ("c", False),
    ]:
        case.assertEqual(bool(SOURCES.fullmatch(name)), wanted, name)


# The check of a result by its own compile command.
def check(source, *words):
    with tempfile.TemporaryDirectory() as work:
        file = Path(work) / "a.c"
        file.write_text("int x;\n")
        command = CompileCommand(work, os.path.realpath(file), ("gcc", *words, "-c", "a.c"))
        command.check_compiles(source)


def test_results(case):
    check(b"int x = 1;")
    assertion = b'_Static_assert(sizeof("%s") <= 4, "it is short");'
    check(assertion % rb"%i\n")
    with case.assertRaisesRegex(Left, "its compiler rejects the result: a.c:1.*it is short"):
        check(assertion % rb"%.1d\n")
    call = b'int printf(const char *, ...);\nvoid f(void) { printf("%s\\n", 1u); }'
    check(call % b"%u", "-Wall", "-Werror")
    with case.assertRaisesRegex(Left, "its compiler rejects the result: a.c:2"):
        check(call % b"%+u", "-Wall", "-Werror")


def test_what_is_said(case):
    case.assertEqual(said(b"a.c: In function f:\na.c:1:2: error: no\n  1 | x\n"), "a.c:1:2: error: no")
    case.assertEqual(said(b"gcc: what\n"), "gcc: what")


def macros(*sizes):
    return dict(zip([f"__SIZEOF_{it}__" for it in ["INT", "LONG", "LONG_LONG", "POINTER", "SIZE_T"]], sizes))


def test_models(case):
    case.assertEqual(model_in(macros("4", "8", "8", "8", "8")), Model.LP64)
    case.assertEqual(model_in(macros("4", "4", "8", "4", "4")), Model.ILP32)
    case.assertEqual(model_in(macros("4", "4", "8", "8", "8")), Model.LLP64)
    case.assertIsNone(model_in(macros("2", "4", "8", "2", "2")))
    case.assertIsNone(model_in({}))


def test_commands(case):
    """The model is that of the compiler with the words of the command, which `sizeof` confirms."""
    with tempfile.TemporaryDirectory() as work:
        for name, words in [("a.c", ["gcc"]), ("b.cc", ["gcc"]), ("c.c", ["gcc", "-m32"])]:
            file = Path(work) / name
            file.write_text("typedef char sizes[sizeof(long) == 8 && sizeof(void *) == 8 ? 1 : -1];\n")
            command = CompileCommand(work, os.path.realpath(file), (*words, "-c", name))
            is_lp64 = subprocess.run([*words, "-fsyntax-only", name], cwd=work, capture_output=True).returncode == 0
            case.assertEqual(model_in(command.macros()) is Model.LP64, is_lp64, words)
            if is_lp64:
                check_model(command, [Model.LP64])
            with case.assertRaises(Left):
                check_model(command, [Model.ILP32] if is_lp64 else [Model.LP64])


FILES = {
    "part.c": "void part(void) { }\n",
    "all.c": '#include "in der.h"\n',
    "in der.h": '#include "part.c"\n',
    "alone.c": "int alone;\n",
    "hidden.c": '#define FILE "part.c"\n#include FILE\n',
    "generated.c": '#include "not-there-yet.h"\nint x;\n',
    "broken.c": '#error "no"\n',
    "registers.c": "int x = register_printf_specifier('i', 0, 0);\n",
}


# What the units of a program include.
def units(work, names):
    for name, text in FILES.items():
        (Path(work) / name).write_text(text)
    commands = [CompileCommand(work, os.path.realpath(f"{work}/{it}"), ("gcc", "-c", it)) for it in names]
    return units_of(commands, map)


def why(names, name="part.c"):
    with tempfile.TemporaryDirectory() as work:
        try:
            units(work, names).check(os.path.realpath(f"{work}/{name}"))
        except Left as left:
            return str(left).replace(os.path.relpath(os.path.realpath(work)) + "/", "")
    return None


def test_included_by_another(case):
    case.assertEqual(why(["part.c", "all.c"]), "all.c includes it, too")
    case.assertEqual(why(["part.c", "hidden.c"]), "hidden.c includes it, too")
    case.assertIsNone(why(["part.c", "alone.c", "gone.c", "generated.c"]))
    case.assertIsNone(why(["part.c", "all.c"], "alone.c"))


def test_not_known(case):
    case.assertIn("broken.c may include it: its compiler can't preprocess it", why(["part.c", "broken.c"]))


def test_registered(case):
    wanted = "registers.c names register_printf_specifier"
    case.assertEqual(why(["part.c", "registers.c"]), wanted)


def test_other_languages(case):
    case.assertIsNone(asked(CompileCommand("/", __file__, ("python3", __file__))))
    Units([None, Inclusions("/a.c", {"/b.h"})]).check("/c.c")


def test_rules(case):
    rule = "x: a.c in\\ der.h \\\n  b\\#.h \\\n c$$d.h\n"
    case.assertEqual(names_in_rule(rule), ["a.c", "in der.h", "b#.h", "c$d.h"])


Tests = tests_of(globals())
