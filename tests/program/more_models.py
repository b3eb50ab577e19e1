"""Holds the data models of the program to those of a C compiler: types, bits, ranges and digits under each modifier."""

import subprocess

from tests.frame.cases import tests_of
from tests.frame.harness import TIMEOUT, run

# A machine of each data model, as clang names it.
TARGETS = {"lp64": "x86_64-linux-gnu", "ilp32": "i686-linux-gnu", "llp64": "x86_64-pc-windows-msvc"}
# The signed type and the unsigned one that a modifier names, as this compiler has them (C11 7.21.6.1, paragraph 7).
NAMED = {
    "": ("int", "unsigned int"),
    "hh": ("signed char", "unsigned char"),
    "h": ("short", "unsigned short"),
    "l": ("long", "unsigned long"),
    "ll": ("long long", "unsigned long long"),
    "j": ("__INTMAX_TYPE__", "__UINTMAX_TYPE__"),
    "z": (None, "__SIZE_TYPE__"),
    "t": ("__PTRDIFF_TYPE__", None),
}
# A field that is wider than any number.
WIDE = 100


def accepts(program, model, format, number):
    return run(program, ["format", "--model", model, "--", format, f"n:{number}"])[0] == 0


def asserts_of(program, model, length, named, conversion):
    """What must hold of a type, by what the program says of a directive that prints it."""
    format = f"%{length}{conversion}"
    spelled = run(program, ["types", "--model", model, "--", format])[1].decode().strip()
    # A narrow argument is promoted to int (C11 6.3.1.1, paragraph 2).
    value = f"(({named})0 + 0)" if length in ("h", "hh") else f"({named})0"
    yield f'_Static_assert(_Generic({value}, {spelled}: 1, default: 0), "{format} takes {spelled}");'
    core = run(program, ["canon", "--model", model, "--", f"%{WIDE}{length}{conversion}"])[1].decode().strip()
    digits = int("".join(filter(str.isdigit, core))) - (conversion == "d")
    greatest = f"(({named})-1 > 0 ? ({named})-1 : ({named})((1ULL << (8 * sizeof({named}) - 1)) - 1))"
    least_wide = 10 ** (digits - 1)
    yield f'_Static_assert({greatest} >= {least_wide}ULL, "{format} prints {digits} digits");'
    if digits < 20:
        yield f'_Static_assert({greatest} < {10 ** digits}ULL, "{format} prints no more than {digits} digits");'
    if length not in ("h", "hh"):
        bits = next(bits for bits in (64, 32) if accepts(program, model, format, 2 ** (bits - (conversion == "d")) - 1))
        beyond = accepts(program, model, format, 2 ** (bits - (conversion == "d")))
        yield f'_Static_assert(sizeof({named}) == {bits // 8} && !{int(beyond)}, "{format} has {bits} bits");'


def test_models(program, tools, trials, work):
    """The types of each data model, their bits, ranges and digits are those of a compiler for such a machine."""
    if not tools.has("clang", "clang"):
        return
    for model, target in TARGETS.items():
        lines = []
        for length, (signed, unsigned) in NAMED.items():
            for named, conversion in [(signed, "d"), (unsigned, "u")]:
                if named:
                    lines.extend(asserts_of(program, model, length, named, conversion))
        source = work / f"{model}.c"
        source.write_text("\n".join(lines) + "\n")
        done = subprocess.run(
            ["clang", "-std=c11", "-Wall", "-Werror", "-fsyntax-only", "-target", target, source],
            stdout=subprocess.PIPE,
            stderr=subprocess.STDOUT,
            timeout=TIMEOUT,
            check=False,
        )
        trials.expect(f"{model} and {target}", (done.returncode, done.stdout.decode()), (0, ""))
        trials.expect(f"assertions of {model}", len(lines) > 40, True)


Tests = tests_of(globals())
