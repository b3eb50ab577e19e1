"""Tries the package for Cargo that `make crate` packs: it builds offline from its archive alone, its examples run, and
its program and C library answer as the rows and the proved library do.

It needs cargo with rustfmt and clippy, the rights of root, and packages of Debian: librust-{arrayvec,clap,itoa,memchr,
smallvec,thiserror}-dev, which replace the registry; for other systems rust-web-src, libc6-dev-arm64-cross and TOOLS.
"""

import atexit
import os
import re
import shutil
import subprocess
import sys
import tarfile
import tempfile
import venv
import zipfile
from pathlib import Path

from tests.frame.cases import tests_of
from tests.frame.fixtures import built
from tests.frame.harness import SONAME, TOP, VERSION, run, section
from tests.library.test_library import SHAPES, compile_with

ARCHIVE = TOP / f"out/fmtcanon-{VERSION}.crate"
# What cargo reads in place of the registry on the net: Debian's packages, and what its standard library is made with.
REGISTRY = ["/usr/share/cargo/registry/*", "/usr/src/rustc-*/library/vendor/*"]
CONFIGURATION = """
source.crates-io.replace-with = "debian"
source.debian.directory = "{}"
target.aarch64-unknown-linux-gnu.linker = "aarch64-linux-gnu-gcc"
"""
OFFLINE = ["--offline", "--locked"]
AS_C = ["rustc", "--release", "--lib", "--no-default-features", "--features", "c", "--crate-type", "cdylib,staticlib"]
# The suites over the program and over the library.
OF_PROGRAM = ["rows", "canonical_rows", "records", "short_streams", "program", "devices"]
OF_LIBRARY = ["bounds_peers", "header", "literals", "opaque", "whole_types", "sentences"]
# What may differ, by the beginning of a failure's name, and why.
REASONS = [
    (r"the version of the program|.*--version", "it says which build it is"),
    (r"usage\b|help\b|.*(?:usage|help|error: |grep tip)", "the texts of another clap are worded differently"),
    (r".*(?:closed|stream [012])", "Rust opens standard streams that are closed at the start"),
]
# A command that is asked everywhere, and its answer.
ASKED, ANSWER = ["canon", "Total: %i of %u%%"], b"Total: %d of %u%%\n"
# Systems for which it is compiled, and on which it isn't run; and the processor that is emulated.
COMPILED = ["aarch64-apple-darwin", "x86_64-pc-windows-msvc"]
AARCH64 = "aarch64-unknown-linux-gnu"
TOOLS = {"/usr/bin/cargo": "cargo-web", "qemu-aarch64": "qemu-user", "aarch64-linux-gnu-gcc": "gcc-aarch64-linux-gnu"}


def cargo(folder, *words, command="cargo", **environment):
    """Returns how a command of cargo ends in a folder of the home, and what it says."""
    given = {**os.environ, "CARGO_HOME": str(folder.parent / "home"), **environment}
    done = subprocess.run([command, *words], cwd=folder, env=given, capture_output=True, encoding="utf-8", check=False)
    return done.returncode, done.stderr + done.stdout


def folder():
    """The package's folder, as whoever has the archive unpacks it, next to a home of cargo. It is made once."""
    made = Path(tempfile.gettempdir()) / f"fmtcanon-crate-{os.getpid()}"
    package = made / f"fmtcanon-{VERSION}"
    if not made.is_dir():
        atexit.register(shutil.rmtree, made, ignore_errors=True)
        registry = made / "home/registry-of-debian"
        registry.mkdir(parents=True)
        for it in (it for pattern in REGISTRY for it in Path("/").glob(pattern[1:])):
            if not (registry / it.name).exists():
                (registry / it.name).symlink_to(it)
        (made / "home/config.toml").write_text(CONFIGURATION.format(registry), encoding="utf-8")
        status, said = cargo(package.with_name("home"), "-C", str(TOP), "crate", command="make")
        if status:
            raise AssertionError(said[-2000:])
        with tarfile.open(ARCHIVE) as archive:
            archive.extractall(made)
        cargo(package, "generate-lockfile", "--offline")
    return package


def built_library(folder):
    """Builds the C library, and returns its shared library by the name that programs ask for."""
    status, said = cargo(folder, *AS_C, *OFFLINE, "--", "-C", f"link-arg=-Wl,-soname,{SONAME}")
    if status:
        raise AssertionError(said[-2000:])
    place = folder / "target/c"
    place.mkdir(exist_ok=True)
    for ending, name in [("so", SONAME), ("so", "libfmtcanon.so"), ("a", "libfmtcanon.a")]:
        shutil.copy(folder / f"target/release/libfmtcanon.{ending}", place / name)
    return place / SONAME


def test_build(folder, trials):
    """It builds without a warning, its examples run, and it says which build it is."""
    for words in [("build", "--release"), ("clippy", "--all-features", "--all-targets"), ("doc", "--no-deps", "--lib")]:
        status, said = cargo(folder, *words, *OFFLINE, RUSTDOCFLAGS="-D warnings")
        trials.expect(f"cargo {' '.join(words)}: {said[-500:]}", (status, "warning: " in said), (0, False))
    status, said = cargo(folder, "test", *OFFLINE)
    passed = re.findall(r"test result: ok\. ([1-9]\d*) passed; 0 failed", said)
    trials.expect(f"tests and examples: {said[-500:]}", (status, passed), (0, ["1", "4"]))
    unsafe = [it for it in (folder / "src").rglob("*.rs") if "unsafe " in it.read_text(encoding="utf-8")]
    trials.expect("unsafe code", {it.parent.name for it in unsafe}, {"c", "support"})
    version = run(folder / "target/release/fmtcanon", ["--version"])
    trials.expect("its version", version, (3, b"", f"fmtcanon {VERSION} (built by cargo, not proved)\n".encode()))


def test_install(folder, trials, work):
    """The commands of docs/INSTALL.md install the program from the archive, where neither kit nor tree is seen."""
    page = section(TOP / "docs/INSTALL.md", "With cargo")
    [commands] = re.findall(r"^    tar xf .*\n(?:    .*\n)*", page, re.MULTILINE)
    shutil.copy(ARCHIVE, work)
    hidden = f"mount -t tmpfs none /opt\nmount -t tmpfs none {TOP}\ncd {work}\n! command -v rt\n{commands}"
    path = f"{work}/bin:{Path(shutil.which('cargo')).parent}:/usr/bin:/bin"
    given = {"PATH": path, "CARGO_INSTALL_ROOT": str(work), "CARGO_NET_OFFLINE": "true"}
    status, said = cargo(folder, "--mount", "sh", "-ec", hidden, command="/usr/bin/unshare", **given)
    trials.expect(f"the commands: {said}", (status, said.endswith(ANSWER.decode())), (0, True))


def failures(folder, package, names, library, program):
    """Returns the failures of some suites over a program and a library, and how many checks passed."""
    # It reads and writes copies of its standard streams, with the numbers 4 and 3.
    given = {"FMTCANON_PROGRAM": str(program), "FMTCANON_LIBRARY": str(library), "INPUT": "4", "OUTPUT": "3"}
    words = [sys.executable, "-m", "unittest", "-q", *(f"tests.{package}.test_{name}" for name in names)]
    given = {**os.environ, **given}
    done = subprocess.run(words, cwd=TOP, env=given, capture_output=True, encoding="utf-8", check=False)
    passed = sum(map(int, re.findall(r"^tests\S+: (\d+) passed, \d+ failed$", done.stdout, re.MULTILINE)))
    return re.findall(r"^FAILED (.*)$", done.stdout, re.MULTILINE), passed


def test_rows(folder, trials):
    """The suites pass over them, except for what has a reason."""
    cargo(folder, "build", "--release", *OFFLINE)
    for package, names, least in [("program", OF_PROGRAM, 60_000), ("library", OF_LIBRARY, 100_000)]:
        failed, passed = failures(folder, package, names, built_library(folder), folder / "target/release/fmtcanon")
        excused = [it for it in failed if any(re.match(pattern, it) for pattern, _ in REASONS)]
        trials.expect(f"tests.{package} without a reason", [it for it in failed if it not in excused], [])
        trials.expect(f"{passed} checks of tests.{package}", passed > least, True)
        print(f"tests.{package}: {passed:,} passed, {len(excused)} differ with a reason")


def test_answers(folder, trials, work):
    """Its C library gives the bytes of the proved one, about all shapes in each data model."""
    said = []
    for library in (built("FMTCANON_LIBRARY", f"out/c/{SONAME}"), built_library(folder)):
        words = compile_with(["gcc", "-std=c99"], TOP / "tests/library/answers.c", work / "answers", library)
        trials.expect(f"answers.c with {library}", words, (0, ""))
        said.append(run(work / "answers", [SHAPES], env={**os.environ, "LD_LIBRARY_PATH": str(library.parent)}))
    trials.expect("whether there are answers", (said[0][0], said[0][1].count(b"\n") > 10_000), (0, True))
    trials.expect("whether they are equal", said[0] == said[1], True)


def test_wheel(folder, trials, work):
    """A wheel over its library installs and answers. One for another system has it where the module looks for it."""
    library, made = built_library(folder), {}
    names = {"x86_64": SONAME, "macosx_11_0_arm64": "libfmtcanon.dylib", "win_amd64": "fmtcanon.dll"}
    for platform, name in names.items():
        status, out, _ = run(sys.executable, ["-B", TOP / "packaging/make_wheel.py", work, platform, library])
        made[platform] = Path(out.decode().strip())
        trials.expect(f"the wheel for {platform}", (status, made[platform].stem.endswith(platform)), (0, True))
        trials.expect(f"{name} in it", f"fmtcanon/{name}" in zipfile.ZipFile(made[platform]).namelist(), True)
    venv.create(work / "home", with_pip=True)
    installed = run(work / "home/bin/pip", ["install", "--quiet", "--no-index", made["x86_64"]])[0]
    script = f"import fmtcanon; print(fmtcanon.canonical({ASKED[1]!r}))"
    answered = run(work / "home/bin/python", ["-c", script], env={})
    trials.expect("pip install, and its module", (installed, answered), (0, (0, ANSWER, b"")))


def built_for(folder, target, word):
    """Returns how a build for another system ends, with the standard library from its sources."""
    words = [word, "--release", *OFFLINE, "-Zbuild-std=std,panic_abort", "--target", target]
    status, said = cargo(folder, *words, command="/usr/bin/cargo", RUSTC="/usr/bin/rustc", RUSTC_BOOTSTRAP="1")
    return status, said[-800:] if status else ""


def test_other_systems(folder, tools, trials, work):
    """It compiles for macOS and Windows, where it isn't run, and answers to all rows on AArch64, in an emulator."""
    for tool, package in TOOLS.items():
        tools.need(tool, package)
    for target in COMPILED:
        trials.expect(f"it compiles for {target}", built_for(folder, target, "check"), (0, ""))
        print(f"{target}: compiled, not run")
    trials.expect("it compiles for AArch64", built_for(folder, AARCH64, "build"), (0, ""))
    emulated, program = work / "fmtcanon", folder / f"target/{AARCH64}/release/fmtcanon"
    emulated.write_text(f'#!/bin/sh\nexec qemu-aarch64 -L /usr/aarch64-linux-gnu {program} "$@"\n', encoding="utf-8")
    emulated.chmod(0o755)
    trials.expect("an answer on AArch64", run(emulated, ASKED), (0, ANSWER, b""))
    failed, passed = failures(folder, "program", ["rows"], built_library(folder), emulated)
    trials.expect(f"{passed} rows on AArch64", (failed, passed > 10_000), ([], True))


Tests = tests_of(globals())
