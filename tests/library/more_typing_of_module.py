"""Tries the annotations of the Python module: mypy in strict mode over the package, and over a program that uses it."""

import os
import subprocess
import sys
import tempfile
from pathlib import Path

from tests.frame.cases import tests_of
from tests.frame.harness import TOP

# A program that uses public names, with the types that mypy must see, and then with a fault.
PROGRAM = """
from typing import List, Optional, Tuple, Union
import fmtcanon

text: str = fmtcanon.canonical("%i")
data: bytes = fmtcanon.canonical(b"%i", model="ilp32")
kinds: List[fmtcanon.Type] = fmtcanon.types("%d")
more: List[fmtcanon.Type] = fmtcanon.arguments("%f", model=fmtcanon.Model.LLP64)
answer: bool = fmtcanon.same("%d", b"%i") and fmtcanon.fits("%d", "%i") and fmtcanon.is_canonical("%d")
where: List[fmtcanon.Model] = fmtcanon.same_in("%d", "%i") + fmtcanon.fits_in("%d", b"%i")
spans: List[fmtcanon.DirectiveSpan] = fmtcanon.directives("%*d", model="ilp32")
star: Optional[int] = spans[0].width_argument
limits: fmtcanon.Bounds = fmtcanon.bounds(b"%d", model="ilp32")
most: Optional[int] = limits.greatest
enough: bool = fmtcanon.fits("%d%s", "%d", fewer=True) and limits.least < 5
some: List[fmtcanon.Model] = fmtcanon.fits_in("%d%s", "%d", fewer=enough)
found: fmtcanon.Comparison = fmtcanon.compare("%d", "%u")
shown: Optional[Tuple[Union[int, bytes, None], ...]] = found.arguments
apart: Optional[int] = fmtcanon.compare("%f", b"%e", whole=True).directives_differ_at
whole: bytes = fmtcanon.canonical(b"%f", whole=fmtcanon.same("%f", "%e", whole=True))
anywhere: List[fmtcanon.Model] = fmtcanon.same_in("%f", "%e", whole=True)
printed: bytes = fmtcanon.format("%d%s", 1, "a")
told: bytes = fmtcanon.printed("%f%d", found.arguments or (None, 1), model="ilp32") + fmtcanon.printed(b"%s", ["a"])
pieces = fmtcanon.show("%d")
offset: Optional[int] = fmtcanon.source_offset('"%d"', 1)
literal: str = fmtcanon.encode_literal("a")
inside: bytes = fmtcanon.decode_literal('"a"')
number: Tuple[int, int, int] = fmtcanon.version()
try:
    fmtcanon.check("%")
except fmtcanon.Refused as refusal:
    kind: fmtcanon.Kind = refusal.kind
"""
FAULTS = [
    "fmtcanon.canonical(5)",
    'fmtcanon.canonical("%d", model=1.5)',
    'x: int = fmtcanon.canonical("%d")',
    'fmtcanon.format("%f", 1.5)',
    'fmtcanon.printed("%f", [1.5])',
    'fmtcanon.printed("%d", 1)',
    'fmtcanon.canonical("%d", whole="yes")',
    'fmtcanon.canonical("%d", False, True)',
    'y: str = fmtcanon.decode_literal("a")',
    'z: int = fmtcanon.bounds("%s").greatest',
    'fmtcanon.fits("%d", "%d", fewer="yes")',
    'fmtcanon.fits_in("%d", "%d", True)',
    'fmtcanon.source_offset("a", "b")',
]


def mypy(python, words, work):
    environment = {**os.environ, "MYPYPATH": str(TOP / "python"), "MYPY_CACHE_DIR": str(work / "cache")}
    done = subprocess.run(
        [*python, "--strict", *words],
        cwd=work,
        env=environment,
        check=False,
        stdout=subprocess.PIPE,
        stderr=subprocess.STDOUT,
    )
    return done.returncode, done.stdout.decode()


def test_annotations(tools, trials):
    if not tools.has("mypy", "mypy"):
        return
    with tempfile.TemporaryDirectory() as folder:
        work = Path(folder)
        status, output = mypy(["mypy"], ["-p", "fmtcanon"], work)
        trials.expect(f"mypy --strict -p fmtcanon: {output[-300:] if status else ''}", status, 0)
        for fault in ["", *FAULTS]:
            (work / "program.py").write_text(PROGRAM + fault + "\n")
            status, output = mypy(["mypy"], ["program.py"], work)
            trials.expect(
                f"mypy of a program with {fault!r}: {output if bool(fault) != bool(status) else ''}",
                status,
                1 if fault else 0,
            )
    public = subprocess.run(
        [sys.executable, "-c", "import fmtcanon; print(*(name for name in dir(fmtcanon) if name[0] != '_'))"],
        env={**os.environ, "PYTHONPATH": str(TOP / "python")},
        check=False,
        stdout=subprocess.PIPE,
    )
    trials.expect("the module can be imported", public.returncode, 0)


Tests = tests_of(globals())
