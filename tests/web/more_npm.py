"""Tries the npm package in Node, as a program uses it that has it among its modules, and its types by the compiler of
TypeScript.

It needs what `make page` makes, node and tsc.
"""

import re
import subprocess
import sys
import tarfile

from tests.frame.cases import tests_of
from tests.frame.harness import TOP, VERSION
from tests.web.more_module import module, node, output

README = TOP / "web/npm/README.md"
PROGRAM = """
import assert from "node:assert";
import { readFile } from "node:fs/promises";
import { Refused, TABLE, load, textOf } from "fmtcanon";

const own = await load(await readFile(new URL(import.meta.resolve("fmtcanon/fmtcanon.wasm"))));
assert.equal(own.version(), VERSION);
assert.throws(() => own.check("%"), (fault) => fault instanceof Refused && fault.kind === 2 && fault.at === 1 && fault.name === "Truncated");
assert.throws(() => own.check("%\\u0101"), TypeError);
assert.throws(() => own.render(0, "%d", [{ kind: 7, value: "a" }]), TypeError);
for (const model of [3, -1, 0.5, NaN, "0", "lp64", "llp64", undefined, null, {}, [], true, 0n]) {
  for (const name of ["canonical", "isCanonical", "canonicalLength", "types", "bounds", "directives", "specifications"])
    assert.throws(() => own[name](model, "%d"), TypeError);
  for (const name of ["same", "fits", "compare"]) assert.throws(() => own[name](model, "%lu", "%llu"), TypeError);
  assert.throws(() => own.render(model, "%d", [{ kind: 1, value: 1 }]), TypeError);
}
assert.deepEqual([0, 1, 2].map((model) => own.same(model, "%lu", "%llu")), [true, false, false]);
assert.equal(own.render(0, "%5d|%s", [{ kind: 1, value: -7n }, { kind: 7, value: "ab" }]), "   -7|ab");
assert.deepEqual(own.bounds(0, "%d"), { least: 1n, greatest: 11n });
assert.deepEqual(own.bounds(0, "%s"), { least: 0n, greatest: null });
assert.equal(own.canonical(1, "%lu"), "%lu");
assert.equal(own.sameModels("%zu", "%lu"), 1);
assert.equal(own.fits(0, "%d %s", "%d", true), true);
assert.equal(textOf(own.decode('"\\\\303\\\\274"')), "\\u00fc");
assert.equal(own.sourceOffset('"a\\\\tb"', 2), 4);
assert.equal(own.sourceOffset('"a"', 9), null);
const long = "%i ".repeat(100000);
assert.equal(own.canonical(0, long), long.replaceAll("i", "d"));
assert.equal(own.types(0, long).length, 100000);
assert.equal(typeof TABLE.errno.meaning, "string");
"""
TYPED = """
import { Library, MODELS, Refused, bytesOf, explainerOf, load } from "fmtcanon";

const library: Library = await load();
const same: boolean = library.same(0, bytesOf("%d"), "%i");
const [least, none]: [bigint, bigint | null] = [library.bounds(1, "%d").least, library.bounds(2, "%s").greatest];
const found = explainerOf(library).explain("%d", 0);
const words: string = found.parts[0].meaning + MODELS[1];
const at: number = library.specifications(0, "%d")[0].flagsAt;
"""
WRONG = [
    "library.same(3, '%d', '%i');",
    "library.check(5);",
    "const one: string = library.bounds(0, '%d').least;",
    "library.version().least;",
]


def unpacked(module, work):
    """A folder with a program's modules, among which the package is."""
    package = work / "fmtcanon.tgz"
    output([sys.executable, "-B", TOP / "packaging/make_npm.py", package, module])
    again = work / "again.tgz"
    output([sys.executable, "-B", TOP / "packaging/make_npm.py", again, module])
    modules = work / "node_modules"
    modules.mkdir()
    with tarfile.open(package) as packed:
        packed.extractall(modules)
    (modules / "package").rename(modules / "fmtcanon")
    return package.read_bytes() == again.read_bytes()


def readme_program():
    """The example of the README, with an assertion for each comment."""
    lines = re.findall(r"^    (.*)$", README.read_text(encoding="utf-8"), flags=re.MULTILINE)
    asserted = [re.sub(r"^(.*);\s+// (.*?)(, in bytes)?$", r"assert.deepEqual(\1, \2);", it) for it in lines]
    return 'import assert from "node:assert";\n' + "\n".join(asserted), sum("assert" in it for it in asserted)


def test_package(module, node, work, trials):
    """The package has the same bytes each time, and its calls return in Node what its README says."""
    trials.expect("the package once more", unpacked(module, work), True)
    program, count = readme_program()
    trials.expect("assertions of the README", count, 4)
    for name, text in {"readme": program, "program": PROGRAM.replace("VERSION", f'"{VERSION}"')}.items():
        (work / f"{name}.mjs").write_text(text, encoding="utf-8")
        done = subprocess.run(
            [*node, f"{name}.mjs"], cwd=work, stdout=subprocess.PIPE, stderr=subprocess.STDOUT, check=False
        )
        trials.expect(f"{name}: {done.stdout.decode()[:400]}", done.returncode, 0)


def test_types(module, work, tools, trials):
    """The types of the package accept right programs, and no wrong ones."""
    tools.need("tsc", "node-typescript")
    unpacked(module, work)
    words = [
        "tsc",
        "--noEmit",
        "--strict",
        "--target",
        "es2022",
        "--module",
        "nodenext",
        "--moduleResolution",
        "nodenext",
        "program.mts",
    ]
    for wrong in ["", *WRONG]:
        (work / "program.mts").write_text(TYPED + wrong + "\n", encoding="utf-8")
        done = subprocess.run(words, cwd=work, stdout=subprocess.PIPE, stderr=subprocess.STDOUT, check=False)
        trials.expect(
            f"tsc of {wrong!r}: {done.stdout.decode()[:300] if not wrong else ''}", done.returncode != 0, bool(wrong)
        )


Tests = tests_of(globals())
