"""Tries the C library and the Python module: against their header, the program and each other.

It needs a Linux system with gcc and binutils.
"""

import json
import os
import re
import subprocess
import sys

from tests.frame.cases import tests_of
from tests.frame.harness import SONAME, TIMEOUT, TOP, examples, fences, page_examples, run
from tests.packages.test_installing import PLACES, make

HEADER = TOP / "include/fmtcanon.h"
SHAPES = TOP / "bench/shapes.nul"
ROWS = TOP / "tests/commands.jsonl"
SOURCES = TOP / "crates/fmtcanon_c/src"
# The numbers of the header as definitions, about which the crate has laws.
LAWS = TOP / "crates/fmtcanon_c/specs/Header.antt"
STRICT = ["-Wall", "-Wextra", "-pedantic", "-Werror", f"-I{HEADER.parent}"]
# The documents, or their parts below a heading, whose examples need the library, the module or the commands installed.
DOCUMENTS = [
    ("README.md", "What is built over it"),
    ("docs/C.md", None),
    ("docs/EXPLAINING.md", None),
    ("docs/TRANSLATIONS.md", "Check a catalog"),
]
# The manual pages whose examples need no libclang.
PAGES = ["fmtcanon.1", "fmtcanon-explain.1", "fmtcanon-po.1", "fmtcanon-diff.1"]
WRAPPED = ["-Wl,--wrap=malloc,--wrap=realloc,--wrap=free"]
# What a parameter of Rattle is in C.
PARAMETERS = {
    "&[u8]": ["const char *", "size_t"],
    "&mut [u8]": ["char *", "size_t"],
    "&mut [CDirective]": ["fmtcanon_directive *", "size_t"],
    "&mut [CSpecification]": ["fmtcanon_specification *", "size_t"],
    "&mut CSpecification": ["fmtcanon_specification *"],
    "&[CArgument<'_>]": ["const fmtcanon_argument *", "size_t"],
    "&mut CError": ["fmtcanon_error *"],
    "&mut CComparison": ["fmtcanon_comparison *"],
    "&mut CBounds": ["struct fmtcanon_bounds *"],
    "u32": ["uint32_t"],
    "u64": ["uint64_t"],
    "i32": ["int"],
    "Global": [],
}
NUMBERS = {"i64": "int64_t", "u64": "uint64_t", "u32": "uint32_t"}
# The types as the program writes them, and the numbers of the library.
TYPES = ["int", "unsigned int", "long", "unsigned long", "long long", "unsigned long long", "string"]
# What outcomes.c has: calls, pairs of texts, data models with an invalid one, and sizes of room.
OUTCOMES = (25, 24, 4, 6)
# The programs of tests/library, with what each is linked with, and the line that it prints if it finds nothing wrong.
PROGRAMS = [
    ("edges", WRAPPED, "the edges are as the header says"),
    ("bounds", WRAPPED, "the numbers of bytes are as the header says"),
    ("fewer", WRAPPED, "formats from outside are as the header says"),
    ("outcomes", WRAPPED, "calls {}, pairs of texts {}, data models {}, rooms {}".format(*OUTCOMES)),
    ("specifications", [], "the parts of specifications are as the header says"),
    ("rendered", WRAPPED, "directives 12750, printed as by snprintf"),
    ("whole", [], "the whole language is as the header says"),
]
# Of this number of formats, one is given to the program, too.
STEP = 16


def header_text():
    """The header without comments."""
    return re.sub(r"/\*.*?\*/", "", HEADER.read_text(encoding="utf-8"), flags=re.DOTALL)


def header_calls():
    """The functions of the header: the type of the result, and those of the parameters."""
    for result, name, listed in re.findall(r"^(\w+) (fmtcanon_\w+)\(([^)]*)\);", header_text(), flags=re.MULTILINE):
        parameters = [re.sub(r"\w+$", "", " ".join(one.split())).strip() for one in listed.split(",")]
        yield name, (result, [] if listed == "void" else parameters)


def source_calls():
    """The functions that the crate exports, in the words of C."""
    for path in sorted(SOURCES.glob("*.rt")):
        text = path.read_text(encoding="utf-8")
        for name, listed, result in re.findall(r'pub extern "C" fn (\w+)\(([^)]*)\) -> (\w+)', text):
            kinds = [one.split(":")[1].strip() for one in listed.split(",") if ":" in one]
            yield name, (NUMBERS[result], [c_type for kind in kinds for c_type in PARAMETERS[kind]])


def c_fields(field, kind):
    """The fields of C that a field of a structure is: a slice is a pointer and a length."""
    return [("const char", f"*{field}"), ("size_t", "len")] if kind == "&'a [u8]" else [(NUMBERS[kind], field)]


def header_numbers(enum):
    """The names of an enum of the header, without what all begin with, and their numbers."""
    block = re.search(rf"enum {enum} \{{(.*?)\}}", header_text(), flags=re.DOTALL)
    return {name: int(number) for name, number in re.findall(r"FMTCANON_(\w+) = (\d+)", block.group(1))}


def source_numbers(file, arm, names):
    """The numbers of a match in a source file, under the names of the header."""
    text = (TOP / "crates" / file).read_text(encoding="utf-8")
    found = re.findall(arm, text)
    return {names.get(name, re.sub(r"(?<!^)(?=[A-Z])", "_", name).upper()): int(number) for name, number in found}


def test_header(trials):
    """The functions, numbers and structures of the header are those of the code."""
    calls = {name: call for name, call in header_calls()}
    # The header says which buffers hold text.
    plain = {
        name: (result, [kind.replace("unsigned ", "") for kind in kinds]) for name, (result, kinds) in calls.items()
    }
    trials.expect("functions of the header", plain, dict(source_calls()))
    kinds = source_numbers("pf_values/src/refusals.rt", r"RefusalKind::(\w+) => (\d+),", {})
    trials.expect("kinds of refusals", header_numbers("fmtcanon_kind"), kinds)
    text = (SOURCES / "interface.rt").read_text(encoding="utf-8")
    front = int(re.search(r"LITERAL_KINDS: u32 = (\d+);", text).group(1))
    kinds = source_numbers("pf_literals/src/faults.rt", r"LiteralKind::(\w+) => (\d+),", {})
    wanted = {name: front + number for name, number in kinds.items()}
    trials.expect("kinds of faults of literals", header_numbers("fmtcanon_literal_kind"), wanted)
    names = {"UInt": "UINT", "ULong": "ULONG", "ULongLong": "ULONG_LONG", "Str": "STRING"}
    types = source_numbers("pf_values/src/types.rt", r"ArgType::(\w+) => (\d+),", names)
    names = {**names, "PointerToSChar": "POINTER_TO_SCHAR", "Pointer": "POINTER_TO_VOID"}
    types |= source_numbers("pf_posix/src/types.rt", r"WholeArgType::(\w+) => (\d+),", names)
    trials.expect("types", header_numbers("fmtcanon_type"), types)
    # The number of a data model is its place in the list of all.
    text = (TOP / "crates/pf_values/src/models.rt").read_text(encoding="utf-8")
    listed = re.search(r"pub const ALL: .* = \[(.*)\];", text).group(1)
    models = {name.upper(): number for number, name in enumerate(re.findall(r"Model::(\w+)", listed))}
    trials.expect("data models", header_numbers("fmtcanon_model"), models)
    sets = {f"IN_{name}": 1 << number for name, number in models.items()}
    sets = {**sets, "IN_NEITHER": 0, "IN_BOTH": sets["IN_LP64"] + sets["IN_ILP32"], "IN_ALL": sum(sets.values())}
    trials.expect("sets of data models", header_numbers("fmtcanon_models"), sets)
    verdicts = source_numbers("fmtcanon_c/src/comparison.rt", r"Verdict::(\w+)[^=]*=> \((\d+),", {"Args": "DIFFERENT"})
    trials.expect("verdicts", header_numbers("fmtcanon_verdict"), verdicts)
    structs = [
        ("fmtcanon_error", "interface", "CError"),
        ("fmtcanon_comparison", "comparison", "CComparison"),
        ("fmtcanon_directive", "directives", "CDirective"),
        ("fmtcanon_specification", "specifications", "CSpecification"),
        ("fmtcanon_bounds", "byte_counts", "CBounds"),
        ("fmtcanon_argument", "arguments", "CArgument"),
    ]
    for name, source, struct in structs:
        fields = re.search(rf"^(?:typedef )?struct {name} \{{(.*?)\}}", header_text(), re.DOTALL | re.MULTILINE).group(
            1
        )
        text = (SOURCES / f"{source}.rt").read_text(encoding="utf-8")
        code = re.search(rf"#\[repr\(C\)\][^{{]*struct {struct}(?:<'a>)? \{{(.*?)\n\}}", text, flags=re.DOTALL).group(1)
        wanted = [one for field, kind in re.findall(r"pub (\w+): ([^,]+),", code) for one in c_fields(field, kind)]
        trials.expect(f"fields of {name}", re.findall(r"((?:const )?\w+) (\*?\w+);", fields), wanted)
    declared = dict(re.findall(r"FMTCANON_ERROR_(\w+) \((-\d+)\)", header_text()))
    text = (SOURCES / "interface.rt").read_text(encoding="utf-8")
    code = dict(re.findall(r"NO_(\w+): i64 = (-\d+);", text))
    of_arguments = {name: f"-{kind}" for name, kind in re.findall(r"WRONG_(\w+): u32 = (\d+);", text)}
    trials.expect(
        "errors that are no refusal",
        declared,
        {"NOMEMORY": code["MEMORY"], "MODEL": code["MODEL"], "NOPLACE": code["PLACE"], **of_arguments},
    )
    numbers = re.findall(r"const (\w+): u64 = ([\d_]+);", (SOURCES / "byte_counts.rt").read_text(encoding="utf-8"))
    limits = {name: int(number) for name, number in numbers}
    has_none = "#define FMTCANON_UNBOUNDED UINT64_MAX\n" in header_text()
    trials.expect("FMTCANON_UNBOUNDED", (has_none, limits), (True, {"UNBOUNDED": 2**64 - 1, "MOST": 2**64 - 2}))
    try_header_laws(declared, trials)


def try_header_laws(errors, trials):
    """The numbers for which `laws.rt` has laws are those of the header, and no error and no kind is left out."""
    text = LAWS.read_text(encoding="utf-8")
    laws = {
        name.upper(): f"-{number}"
        for name, number in re.findall(r"^error_(\w+) = neg_ℤ \(pos (\d+)\)$", text, flags=re.MULTILINE)
    }
    trials.expect("errors in the laws", laws, errors)
    kinds = re.findall(r"^literal_kind_in_header (\w+) = (\d+)$", text, flags=re.MULTILINE)
    numbers = {re.sub(r"(?<!^)(?=[A-Z])", "_", name).upper(): int(number) for name, number in kinds}
    trials.expect("kinds of faults of literals in the laws", numbers, header_numbers("fmtcanon_literal_kind"))
    bits = dict(re.findall(r"^part_in_header \(?(?:Flag )?(\w+)\)? = (\d+)$", text, flags=re.MULTILINE))
    parts = {f"PART_{name.upper()}": int(bit) for name, bit in bits.items()}
    trials.expect("parts in the laws", parts, header_numbers("fmtcanon_part"))
    for name in ("NO_ARGUMENT", "NONE"):
        power = re.search(rf"= {name} ≡ 2 \^ (\d+) - 1$", text, flags=re.MULTILINE)
        none = re.search(rf"FMTCANON_{name} UINT(\d+)_MAX", header_text())
        trials.expect(f"the number of {name} in the laws", power and power.group(1), none and none.group(1))


def lines_of(words, **options):
    done = subprocess.run(
        words, stdout=subprocess.PIPE, stderr=subprocess.STDOUT, timeout=3 * TIMEOUT, check=False, **options
    )
    return done.returncode, done.stdout.decode(errors="replace")


def test_exports(folder, trials):
    """The library gives its functions and no other name, and needs nothing but the C library."""
    wanted = sorted(name for name, _ in header_calls())
    for words in [
        ["nm", "-D", "--defined-only", folder / "libfmtcanon.so"],
        ["nm", "-g", "--defined-only", folder / "libfmtcanon.a"],
    ]:
        found = sorted(re.findall(r"^[0-9a-f]+ \w (\S+)$", lines_of(words)[1], flags=re.MULTILINE))
        trials.expect(f"names of {words[-1].name}", found, wanted)
    headers = lines_of(["objdump", "-p", folder / "libfmtcanon.so"])[1]
    trials.expect("the name that programs ask for", re.findall(r"SONAME\s+(\S+)", headers), [SONAME])
    trials.expect("libraries that it wants", re.findall(r"NEEDED\s+(\S+)", headers), ["libc.so.6"])
    # The first processors of x86-64 have none of these. (They read tzcnt as bsf, which is the same except for 0.)
    code = lines_of(["objdump", "-d", "--no-show-raw-insn", folder / "libfmtcanon.so"])[1]
    newer = re.findall(r"\t(v[a-z]{3}\w+|popcnt|pshufb|pcmpistri|pmovmskb256|lzcnt|andn|bextr|crc32\w*)\s", code)
    trials.expect("instructions that x86-64 has not", sorted(set(newer)), [])


def compile_with(compiler, source, program, *more):
    return lines_of([*compiler, *STRICT, "-o", program, source, *more])


def try_compiler(compiler, folder, trials, work, tools=()):
    """The programs of tests/library compile without a warning, against the archive, and find nothing wrong."""
    name = " ".join(compiler)
    archive, source, answers = folder / "libfmtcanon.a", TOP / "tests/library", work / "answers"
    for program, options, line in PROGRAMS:
        words = compile_with(compiler, source / f"{program}.c", work / program, archive, *options)
        trials.expect(f"{name}: {program}.c", words, (0, ""))
        if not tools:
            trials.expect(f"{name}: {program}", lines_of([work / program]), (0, f"{line}\n"))
    trials.expect(f"{name}: answers.c", compile_with(compiler, source / "answers.c", answers, archive), (0, ""))
    status, lines = lines_of([*tools, answers, SHAPES])
    trials.expect(f"{name}: answers", status, 0)
    return lines.splitlines()


def refusal_line(refusal):
    return f"refused {int(refusal.kind)} {refusal.name} at {refusal.byte} side {refusal.side}"


def python_lines(module, formats):
    """What answers.c writes, by the Python module."""
    for one, other in zip(formats, [*formats[1:], b""]):
        for model in module.Model:
            yield line_or_refusal(module, canonical_line, one, model)
            yield line_or_refusal(module, verdict_line, one, other, model)
        yield line_or_refusal(module, models_line, one, other)


def line_or_refusal(module, line, *words):
    try:
        return line(module, *words)
    except module.Refused as refusal:
        return refusal_line(refusal)


def canonical_line(module, one, model):
    canonical, types = module.canonical(one, model=model), module.types(one, model=model)
    return f"canonical {canonical.hex()} {''.join(str(int(kind)) for kind in types)}"


def verdict_line(module, one, other, model):
    found = module.compare(one, other, model=model)
    number = len(found.arguments) if found.arguments is not None else found.types_differ_at or 0
    words = b"".join(word + b"\0" for word in map(word_of, found.arguments or ()))
    return f"verdict {int(found.verdict)} {number} {words.hex()}"


def models_line(module, one, other):
    return f"models {sum(1 << model for model in module.same_in(one, other))}"


def word_of(argument):
    if argument is None:
        return b"any"
    return b"n:%d" % argument if isinstance(argument, int) else b"s:" + argument


def shapes():
    return SHAPES.read_bytes().split(b"\0")[:-1]


def same_answer(module, formats, models, whole=False):
    """The status and the lines of `same`, by three calls, which must agree."""
    answers = [same_lines(module, *formats, model, whole) for model in models]
    names = [f"{model.name.lower()}\n".encode() if models[1:] else b"" for model in models]
    are_same = [lines == b"same\n" for lines in answers]
    found = module.same_in(*formats, whole=whole)
    if are_same != [model in found for model in models] or are_same != [
        module.same(*formats, model=model, whole=whole) for model in models
    ]:
        return "compare, same and same_in differ"
    return 0 if all(are_same) else 1, b"".join(name + lines for name, lines in zip(names, answers)), b""


def program_answer(module, command, formats, models):
    """What the program answers, by the Python module: the status, and the bytes on the two streams."""
    try:
        if command == "same":
            found = same_answer(module, formats, models)
            # For formats of the profile the whole language says the same.
            return found if same_answer(module, formats, models, True) == found else "the whole language differs"
        if command == "canon":
            canonical = module.canonical(formats[0], model=models[0])
            if module.is_canonical(formats[0], model=models[0]) != (canonical == formats[0]):
                return "canonical and is_canonical differ"
            if module.canonical(formats[0], model=models[0], whole=True) != canonical:
                return "the whole language differs"
            return 0, canonical + b"\n", b""
        if command == "show":
            return (
                0,
                "".join(shown_line(module, piece) for piece in module.show(formats[0], model=models[0])).encode(),
                b"",
            )
        if command == "format":
            return 0, module.format(formats[0], *map(argument_of, formats[1:]), model=models[0]), b""
        return 0, "".join(f"{TYPES[kind - 1]}\n" for kind in module.types(formats[0], model=models[0])).encode(), b""
    except module.Refused as refusal:
        side = ["first: ", "second: "][refusal.side] if command == "same" else ""
        return 2, b"", f"{side}{refusal}\n".encode()
    except ValueError as fault:
        return 3, b"", f"{fault}\n".encode()


def shown_line(module, piece):
    if isinstance(piece, module.Text):
        return f"text {piece.length}\n"
    if isinstance(piece, module.Percent):
        return "percent\n"
    return f"directive {piece.spelling}: {piece.type}: {piece.spaces} {piece.zeros} {piece.core} {piece.trail}\n"


def argument_of(word):
    return int(word[2:]) if word.startswith(b"n:") else word[2:]


def same_lines(module, one, other, model, whole=False):
    found = module.compare(one, other, model=model, whole=whole)
    if found.verdict is module.Verdict.SAME:
        return b"same\n"
    if found.verdict is module.Verdict.TYPES:
        return b"types differ at argument %d\n" % found.types_differ_at
    if found.verdict is module.Verdict.DIRECTIVES:
        return b"directives differ at argument %d\n" % found.directives_differ_at
    return b"".join(word + b"\n" for word in [b"different", *map(word_of, found.arguments)])


def test_program_rows(module, trials):
    """The rows against which the program is checked hold for the library, too: of each data model, of both and of all.
    """
    found, commands = {"lp64": 0, "ilp32": 0, "llp64": 0, "both": 0, "all": 0}, {}
    for line in ROWS.read_text(encoding="utf-8").splitlines():
        row = json.loads(line)
        command, *words = row["words"]
        # An int and bytes spell no word that isn't an argument.
        unspelled = row["status"] == 3 and (
            command != "format" or "argument" not in row["stderr"] or "not an" in row["stderr"]
        )
        if command == "stream" or unspelled or row.get("stderr") is None:
            continue
        name = words.pop(words.index("--model") + 1) if "--model" in words else "lp64"
        formats = [word.encode() for word in words if word not in ("--model", "--")]
        several = {"both": [module.Model.LP64, module.Model.ILP32], "all": list(module.Model)}
        models = several[name] if name in several else [module.Model[name.upper()]]
        wanted = (row["status"], row["stdout"].encode("latin-1"), row["stderr"].encode())
        trials.expect(f"the module: {row['words']}", program_answer(module, command, formats, models), wanted)
        found[name] += 1
        commands[command] = commands.get(command, 0) + 1
    trials.expect("rows of each data model", min(found.values()) > 5, True)
    trials.expect(
        "commands with rows",
        sorted(name for name, count in commands.items() if count > 20),
        ["canon", "format", "same", "show", "types"],
    )


def test_program(program, module, trials):
    """The program answers the same of a sample, in one data model after the other."""
    formats = shapes()
    for at in range(0, len(formats) - 1, STEP):
        one, other = formats[at], formats[at + 1]
        model = list(module.Model)[at // STEP % 3]
        name = ["--model", model.name.lower()]
        for command, words in [("canon", [one]), ("types", [one]), ("show", [one]), ("same", [one, other])]:
            wanted = program_answer(module, command, words, [model])
            trials.expect(f"{command} {name} {words}", run(program, [command, *name, "--", *words]), wanted)
    refused = [
        b"%",
        b"%y",
        b"%5%",
        b"%*d",
        b"%1$d",
        b"%4096d",
        b"%.4096d",
        b"%f",
        b"%p",
        b"%n",
        b"%ls",
        b"%#d",
        b"%0s",
        b"%'x",
        b"%.3c",
        b"%hs",
    ]
    for one in refused:
        try:
            module.check(one)
            line = b""
        except module.Refused as refusal:
            line = str(refusal).encode() + b"\n"
        trials.expect(f"types {one}", run(program, ["types", "--", one]), (2, b"", line))


def prefix(program, folder, work, trials):
    """A folder with what `make install` puts there, of this program and this library."""
    words = [f"PROGRAM={program}", f"C={folder}", f"DESTDIR={work / 'stage'}", *PLACES]
    trials.expect("make install", make(["install", *words]), (0, ""))
    return work / "stage/usr"


def test_documents(prefix, work, trials):
    """Each command of DOCUMENTS prints what the page shows below it, with the library installed."""
    for example in (TOP / "examples").glob("*.c"):
        (work / example.name).write_bytes(example.read_bytes())
    environment = {
        **os.environ,
        "LC_ALL": "C.UTF-8",
        "CPATH": str(prefix / "include"),
        "LIBRARY_PATH": str(prefix / "lib"),
        "LD_LIBRARY_PATH": str(prefix / "lib"),
        "PKG_CONFIG_LIBDIR": str(prefix / "lib/pkgconfig"),
        "PYTHONPATH": str(prefix / "lib/python3/dist-packages"),
        "PYTHONDONTWRITEBYTECODE": "1",
    }
    for name in ["FMTCANON_LIBRARY", "FMTCANON_PROGRAM"]:
        environment.pop(name, None)
    environment["PATH"] = os.pathsep.join([str(prefix / "bin"), os.environ["PATH"]])
    for name, heading in DOCUMENTS:
        found = 0
        for command, output in examples(TOP / name, heading):
            found += 1
            got = lines_of(["bash", "-c", command], env=environment, cwd=work, stdin=subprocess.DEVNULL)[1]
            trials.expect(f"{name}: {command}", got, "".join(f"{line}\n" for line in output))
        trials.expect(f"{name} has examples", found > 0, True)
    for name in PAGES:
        for command, output in page_examples(TOP / "man" / name):
            done = subprocess.run(
                ["bash", "-c", command],
                env=environment,
                cwd=work,
                check=False,
                stdin=subprocess.DEVNULL,
                stdout=subprocess.PIPE,
                stderr=subprocess.STDOUT,
                timeout=TIMEOUT,
            )
            trials.expect(f"{name}: {command}", done.stdout.decode().splitlines(), output)
    sources = [" ".join(it.read_text(encoding="utf-8").split()) for it in (TOP / "examples").glob("*.c")]
    for language, block in fences((TOP / "docs/C.md").read_text(encoding="utf-8")):
        if language == "c":
            found = any(" ".join(block.split()) in it for it in sources)
            trials.expect(f"an example has this block of docs/C.md: {block[:60]}", found, True)


def test_enums(module, trials):
    """The numbers of the module are those of the header."""
    enums = [
        (module.Kind, "kind"),
        (module.Model, "model"),
        (module.Type, "type"),
        (module.Verdict, "verdict"),
        (module.LiteralKind, "literal_kind"),
    ]
    for enum, kind in enums:
        kind = f"fmtcanon_{kind}"
        trials.expect(f"{kind} of the Python module", {one.name: int(one) for one in enum}, header_numbers(kind))


def test_answers(folder, module, trials, work):
    """The Python module returns what the library does."""
    lines = try_compiler(["gcc", "-std=c99"], folder, trials, work)
    trials.expect("the Python module answers as the library", list(python_lines(module, shapes())) == lines, True)


Tests = tests_of(globals())
