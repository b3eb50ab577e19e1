"""Tries `make install`, `make uninstall` and `make dist`, with no prover at hand, and the manual page of the library.

What takes lintian, a clean root or pip is in more_packages.py.
"""

import hashlib
import os
import re
import shutil
import subprocess
import sys
import tarfile

from tests.frame.cases import tests_of
from tests.frame.harness import PACKAGES, SONAME, TIMEOUT, TOP, VERSION

HEADER = TOP / "include/fmtcanon.h"
MODULE = "lib/python3/dist-packages/fmtcanon"
# The commands that are written in Python.
COMMANDS = ["check", "diff", "explain", "lsp", "po", "replace"]
# Without the files whose names a test takes from the header, from docs/ and from the module.
INSTALLED = {
    "bin/fmtcanon",
    "bin/fmtcanon-check",
    "bin/fmtcanon-diff",
    "bin/fmtcanon-explain",
    "bin/fmtcanon-lsp",
    "bin/fmtcanon-po",
    "bin/fmtcanon-replace",
    "include/fmtcanon.h",
    "lib/libfmtcanon.a",
    "lib/libfmtcanon.so",
    f"lib/{SONAME}",
    f"lib/libfmtcanon.so.{VERSION}",
    "lib/pkgconfig/fmtcanon.pc",
    f"{MODULE}/{SONAME}",
    f"{MODULE}/program",
    f"{MODULE}/formats/words.json",
    f"{MODULE}/py.typed",
    "share/bash-completion/completions/fmtcanon",
    *(f"share/bash-completion/completions/fmtcanon-{name}" for name in COMMANDS),
    "share/doc/fmtcanon/CHANGELOG.md",
    "share/doc/fmtcanon/LICENSE",
    "share/doc/fmtcanon/README.md",
    "share/doc/fmtcanon/SECURITY.md",
    "share/doc/fmtcanon/folders",
    "share/doc/fmtcanon/docs/try/SHA256SUMS",
    "share/doc/fmtcanon/docs/try/index.html",
    "share/doc/fmtcanon/examples/ask.c",
    "share/doc/fmtcanon/examples/buffer.c",
    "share/doc/fmtcanon/examples/render.c",
    "share/doc/fmtcanon/examples/canon.c",
    "share/doc/fmtcanon/examples/compare.c",
    "share/doc/fmtcanon/examples/directives.c",
    "share/doc/fmtcanon/examples/outside.c",
    "share/fish/vendor_completions.d/fmtcanon.fish",
    *(f"share/fish/vendor_completions.d/fmtcanon-{name}.fish" for name in COMMANDS),
    "share/man/man1/fmtcanon.1",
    "share/man/man1/fmtcanon-check.1",
    "share/man/man1/fmtcanon-diff.1",
    "share/man/man1/fmtcanon-explain.1",
    "share/man/man1/fmtcanon-lsp.1",
    "share/man/man1/fmtcanon-po.1",
    "share/man/man1/fmtcanon-replace.1",
    "share/man/man3/fmtcanon.3",
    "share/zsh/site-functions/_fmtcanon",
    "share/zsh/site-functions/_fmtcanon-commands",
}
# The files that come with the program.
OF_PROGRAM = {
    "bin/fmtcanon",
    f"{MODULE}/program",
    "share/bash-completion/completions/fmtcanon",
    "share/fish/vendor_completions.d/fmtcanon.fish",
    "share/man/man1/fmtcanon.1",
    "share/zsh/site-functions/_fmtcanon",
}
PLACES = ["PREFIX=/usr", "PYTHONDIR=/usr/lib/python3/dist-packages"]
# Folders that can't be passed through a shell, or that would be below the current one.
REFUSED = [
    "PREFIX=/opt/my tools",
    "PREFIX=opt",
    "PREFIX=",
    "PREFIX=/it's",
    "PREFIX=/$$(touch hacked)",
    "PREFIX=/a;b",
    "PREFIX=/opt/../etc",
    "DESTDIR=stage",
    "DESTDIR=/tmp/my stage",
    "BINDIR=bin",
    "PYTHONDIR=/my modules",
    "DOCDIR=/a&b",
]
# The sections that each manual page has.
SECTIONS = {
    ".1": ["NAME", "SYNOPSIS", "DESCRIPTION", "OPTIONS", "EXIT STATUS", "ENVIRONMENT", "EXAMPLES", "BUGS", "SEE ALSO"],
    ".3": ["NAME", "LIBRARY", "SYNOPSIS", "DESCRIPTION", "RETURN VALUE", "ATTRIBUTES", "EXAMPLES", "BUGS", "SEE ALSO"],
}
# What an archive is made of.
TREE = [
    "include",
    "man",
    "packaging",
    "completions",
    "examples",
    "docs",
    "python",
    "LICENSE",
    "README.md",
    "CHANGELOG.md",
    "SECURITY.md",
    "VERSION",
    "Makefile",
]
# Who makes the packages of these trials.
MAINTAINER = "MAINTAINER=A Tester <tester@example.org>"
BUILT = ["crates/fmtcanon/out/fmtcanon", "out/c/libfmtcanon.a", f"out/c/libfmtcanon.so.{VERSION}"]
BUILT_FOR_AARCH64 = ["out/c-aarch64/libfmtcanon.a", f"out/c-aarch64/libfmtcanon.so.{VERSION}"]


def prototypes(text):
    """The functions that a text declares or has inline, each in one line."""
    plain = re.sub(r"/\*.*?\*/", "", text, flags=re.DOTALL)
    plain = re.sub(r"^static inline (.*\))$", r"\1;", plain, flags=re.MULTILINE)
    return [
        " ".join(one.split()) for one in re.findall(r"^\w[\w *]* \**fmtcanon_\w+\([^)]*\);", plain, flags=re.MULTILINE)
    ]


def calls():
    return [re.search(r"fmtcanon_\w+", one).group() for one in prototypes(HEADER.read_text(encoding="utf-8"))]


def files_below(folder):
    return {str(path.relative_to(folder)) for path in folder.rglob("*") if path.is_symlink() or not path.is_dir()}


def wanted_files():
    """Each file that an installation has, below its prefix."""
    module = {str(path.relative_to(TOP / "python/fmtcanon")) for path in (TOP / "python/fmtcanon").rglob("*.py")}
    return (
        INSTALLED
        | {f"{MODULE}/{name}" for name in module}
        | {f"share/doc/fmtcanon/{path.relative_to(TOP)}" for path in (TOP / "docs").rglob("*.md")}
        | {f"share/doc/fmtcanon/docs/{path.name}" for path in (TOP / "docs").glob("*.svg")}
        | {f"share/doc/fmtcanon/{it.relative_to(TOP)}" for it in (TOP / "examples").glob("*/*")}
        | {f"share/man/man3/{name}.3" for name in calls()}
    )


def needed_by_page():
    """The versions of the GNU C library that docs/INSTALL.md says are needed: on x86-64, and on AArch64."""
    return re.findall(r" from (\d+\.\d+) on\b", (TOP / "docs/INSTALL.md").read_text(encoding="utf-8"))


def without_make():
    """The environment without what a make above says through it, for example that the folders entered are printed."""
    said = ("MAKEFLAGS", "MAKELEVEL", "MFLAGS", "MAINTAINER", "JOBS", "SUITES")
    return {name: value for name, value in os.environ.items() if name not in said}


def make(words, folder=TOP, path=None):
    environment = without_make()
    environment["PATH"] = path or os.environ["PATH"]
    done = subprocess.run(
        ["make", "-s", *words],
        cwd=folder,
        env=environment,
        timeout=TIMEOUT,
        check=False,
        stdin=subprocess.DEVNULL,
        stdout=subprocess.PIPE,
        stderr=subprocess.STDOUT,
    )
    return done.returncode, done.stdout.decode()


def path(work):
    """A search path on which the prover and the compiler fail, and leave a mark."""
    tools = work / "tools"
    tools.mkdir()
    for name in ["rt", "gcc", "cc", "ld", "objcopy", "ar"]:
        (tools / name).write_text(f"#!/bin/sh\ntouch '{work}/built'\nexit 9\n")
        (tools / name).chmod(0o755)
    return os.pathsep.join([str(tools), os.environ["PATH"]])


def test_install(work, path, trials):
    """`make install` puts each file there, and runs no prover and no compiler."""
    stage = work / "stage"
    trials.expect("make install", make(["install", f"DESTDIR={stage}", *PLACES], path=path), (0, ""))
    prefix = stage / "usr"
    trials.expect("installed files", sorted(files_below(prefix) ^ wanted_files()), [])
    trials.expect("the installation builds nothing", (work / "built").exists(), False)
    text = (prefix / "lib/pkgconfig/fmtcanon.pc").read_text()
    variables = dict(re.findall(r"^(\w+)=(.*)$", text, flags=re.MULTILINE))
    trials.expect(
        "folders of fmtcanon.pc", variables, {"prefix": "/usr", "libdir": "/usr/lib", "includedir": "/usr/include"}
    )
    trials.expect(
        "the library of the module", (prefix / MODULE / SONAME).resolve(), prefix / f"lib/libfmtcanon.so.{VERSION}"
    )
    trials.expect("the program of the module", (prefix / MODULE / "program").resolve(), prefix / "bin/fmtcanon")
    files = [file.resolve() for file in map(prefix.joinpath, files_below(prefix))]
    modes = {oct(file.stat().st_mode & 0o777) for file in files if file.parent.name != "bin"}
    trials.expect("the rights of what is no command", modes, {"0o644"})


def test_uninstall(work, path, trials):
    """What was there stays, and every folder that the installation made goes, also after a second one."""
    stage = work / "second"
    (stage / "usr/bin").mkdir(parents=True)
    (stage / "usr/include").mkdir()
    (stage / "usr/bin/another").write_text("")
    (stage / "made").write_text("")
    for _ in range(2):
        make(["install", f"DESTDIR={stage}", *PLACES], path=path)
    (stage / "usr" / MODULE / "__pycache__").mkdir()
    (stage / "usr" / MODULE / "__pycache__/a.pyc").write_text("")
    trials.expect("make uninstall", make(["uninstall", f"DESTDIR={stage}", *PLACES], path=path), (0, ""))
    left = sorted(str(one.relative_to(stage)) for one in stage.rglob("*"))
    trials.expect("what is left", left, ["made", "usr", "usr/bin", "usr/bin/another", "usr/include"])


def test_places(work, trials):
    """Folders that can't be used are refused, with a line that names the first, and nothing is made or removed."""
    tree = work / "places"
    copy_tree(tree)
    before = sorted(tree.rglob("*"))
    for target in ["install", "uninstall"]:
        for word in REFUSED:
            status, output = make(
                [target, *([] if word.startswith("DESTDIR") else [f"DESTDIR={work}/fifth"]), word], folder=tree
            )
            name = word[: word.index("=")]
            trials.expect(
                f"make {target} {word}",
                (status != 0, output.startswith(f"{name}={word[len(name) + 1:].replace('$$', '$')}: the folder must")),
                (True, True),
            )
    trials.expect("nothing is made", (sorted(tree.rglob("*")) == before, (work / "fifth").exists()), (True, False))


def copy_tree(tree, built=BUILT):
    """Copies what an archive is made of, with what was built."""
    tree.mkdir()
    for part in TREE:
        skip = shutil.ignore_patterns("__pycache__", ".mypy_cache")
        (shutil.copytree if (TOP / part).is_dir() else shutil.copy)(
            TOP / part, tree / part, **({"ignore": skip} if (TOP / part).is_dir() else {})
        )
    for part in built:
        (tree / part).parent.mkdir(parents=True, exist_ok=True)
        shutil.copy(TOP / part, tree / part)


def spoil_tree(tree):
    """Changes the time and the rights of each file."""
    for number, file in enumerate(sorted(tree.rglob("*"))):
        os.utime(file, (10**9 + number, 10**9 + number))
        file.chmod((0o700 if file.is_dir() or os.access(file, os.X_OK) else 0o600) | (0o070 if number % 2 else 0))


def try_checksums(folder, trials):
    """SHA256SUMS names each package in a folder, with the checksum of its bytes."""
    packages = sorted(
        path
        for pattern in ["*.tar.gz", "*.deb", "*.whl"]
        for path in folder.glob(pattern)
        if f"-{VERSION}-" in path.name.replace("_", "-")
    )
    wanted = {f"{hashlib.sha256(path.read_bytes()).hexdigest()}  {path.name}" for path in packages}
    file = folder / "SHA256SUMS"
    found = set(file.read_text(encoding="utf-8").splitlines()) if file.exists() else set()
    trials.expect(
        f"checksums of {[path.name for path in packages]}", (len(found) > 0, sorted(found)), (True, sorted(wanted))
    )


def packages_of(work, target, pattern, trials, built=BUILT):
    """The bytes of the package that is made of the tree, and of a copy with other times and rights."""
    for name in ["tree", "spoiled"]:
        tree = work / f"{name} for {target}".replace(" ", "-")
        copy_tree(tree, built)
        if name == "spoiled":
            spoil_tree(tree)
        status, output = make([target, MAINTAINER], folder=tree)
        files = list((tree / "out").glob(pattern))
        try_checksums(tree / "out", trials)
        yield files[0].read_bytes() if status == 0 and len(files) == 1 else output


def test_same_archives(work, trials):
    for target, pattern in [("dist", "*.tar.gz"), ("wheel", "*.whl")]:
        first, second = packages_of(work, target, pattern, trials)
        trials.expect(
            f"make {target} of files with other times and rights",
            (isinstance(first, bytes), first == second),
            (True, True),
        )


def test_shadows(work, trials):
    """No file next to a command or next to the module takes the place of the standard library's."""
    home = work / "home"
    trials.expect("make install below a folder", make(["install", f"PREFIX={home}"]), (0, ""))
    modules = next(home.rglob("fmtcanon/__init__.py")).parent.parent
    for folder in [home / "bin", modules]:
        for name in ["os", "json", "re", "struct", "typing", "enum", "ctypes", "codecs"]:
            (folder / f"{name}.py").write_text("raise SystemExit('another module')\n")
    environment = {
        name: value
        for name, value in os.environ.items()
        if name not in ("FMTCANON_LIBRARY", "FMTCANON_PROGRAM", "PYTHONPATH")
    }
    for name in COMMANDS:
        done = subprocess.run(
            [home / "bin" / f"fmtcanon-{name}", "--help"],
            env={**environment, "PYTHONDONTWRITEBYTECODE": "1"},
            check=False,
            timeout=TIMEOUT,
            stdout=subprocess.PIPE,
            stderr=subprocess.PIPE,
        )
        trials.expect(f"fmtcanon-{name} with files of other names beside it", (done.returncode, done.stderr), (0, b""))


def test_no_binutils(work, trials):
    """`make wheel` without binutils says what is missing."""
    tools = work / "few-tools"
    tools.mkdir()
    for name in ["make", "sh", "test", "echo", "env"]:
        (tools / name).symlink_to(shutil.which(name))
    (tools / "python3").symlink_to(sys.executable)
    status, output = make(["wheel"], path=str(tools))
    wanted = "readelf is missing: the package binutils has it\n"
    trials.expect(
        "make wheel without readelf",
        (status != 0, output.startswith(wanted), "Traceback" in output),
        (True, True, False),
    )


def test_no_maintainer(trials):
    """`make deb` needs to know who makes the package, and makes none otherwise."""
    before = sorted((TOP / "out").glob("*.deb"))
    status, output = make(["deb"])
    trials.expect("make deb by nobody", (status != 0, output.startswith("MAINTAINER is missing: ")), (True, True))
    trials.expect("no package is made", sorted((TOP / "out").glob("*.deb")), before)


def test_missing(work, trials):
    """Where a file isn't built, `make install` says which, and installs nothing."""
    tree, stage = work / "tree", work / "third"
    for part in ["include", "man", "packaging", "completions", "examples", "docs", "python"]:
        shutil.copytree(TOP / part, tree / part)
    for part in ["VERSION", "Makefile"]:
        shutil.copy(TOP / part, tree)
    status, output = make(["install", f"DESTDIR={stage}", *PLACES], folder=tree)
    trials.expect(
        "make install of nothing",
        (status != 0, "crates/fmtcanon/out/fmtcanon is missing: make builds it" in output),
        (True, True),
    )
    status, output = make(["install", "TARGET=aarch64", f"DESTDIR={stage}", *PLACES], folder=tree)
    wanted = "out/c-aarch64/libfmtcanon.a is missing: make TARGET=aarch64 builds it\n"
    trials.expect("make install of nothing for AArch64", (status != 0, output.startswith(wanted)), (True, True))
    trials.expect("nothing is installed", stage.exists(), False)


def test_archive(work, trials):
    """The archive installs the same files, and the module in it finds its library."""
    made = TOP / f"out/fmtcanon-{VERSION}-linux-x86_64.tar.gz"
    trials.expect("make dist", make(["dist"])[0], 0)
    try_checksums(made.parent, trials)
    with tarfile.open(made) as archive:
        archive.extractall(work / "archive")
    folders = list((work / "archive").iterdir())
    stage = work / "fourth"
    trials.expect(
        "make install of the archive", make(["install", f"DESTDIR={stage}", *PLACES], folder=folders[0])[0], 0
    )
    trials.expect("its files", sorted(files_below(stage / "usr") ^ wanted_files()), [])
    module = stage / "usr/lib/python3/dist-packages"
    environment = {**os.environ, "PYTHONPATH": str(module), "PYTHONDONTWRITEBYTECODE": "1"}
    for name in ["FMTCANON_LIBRARY", "FMTCANON_PROGRAM"]:
        environment.pop(name, None)
    words = [sys.executable, "-c", "import fmtcanon; print(fmtcanon.canonical('%i'), fmtcanon.format('%05d', 7))"]
    done = subprocess.run(words, env=environment, check=False, timeout=TIMEOUT, stdout=subprocess.PIPE)
    trials.expect("the module of the archive", (done.returncode, done.stdout), (0, b"%d b'00007'\n"))
    for name in COMMANDS:
        words = [stage / "usr/bin" / f"fmtcanon-{name}", "--help"]
        done = subprocess.run(words, env=environment, check=False, timeout=TIMEOUT, stdout=subprocess.PIPE)
        trials.expect(
            f"fmtcanon-{name} --help",
            (done.returncode, f"usage: fmtcanon-{name}".encode() in done.stdout.lower()),
            (0, True),
        )


def test_page(trials):
    """The manual page of the library declares what the header does, and says something of each call."""
    page = (TOP / "man/fmtcanon.3").read_text(encoding="utf-8")
    wanted = prototypes(HEADER.read_text(encoding="utf-8"))
    lines = re.findall(r'^\.B "(.*)"$', page[: page.index(".SH DESCRIPTION")], flags=re.MULTILINE)
    trials.expect("prototypes of fmtcanon.3", prototypes(re.sub(r"\n ", " ", "\n".join(lines))), wanted)
    name = re.search(r"^\.SH NAME\n(.*?) \\-", page, flags=re.DOTALL | re.MULTILINE).group(1)
    trials.expect("names of fmtcanon.3", name.replace("\n", " ").split(", "), calls())
    trials.expect("calls of fmtcanon.3", re.findall(r"^\.TP\n\.B (fmtcanon_\w+)$", page, flags=re.MULTILINE), calls())
    constants = set(re.findall(r"FMTCANON_\w+", page))
    trials.expect(
        "constants of fmtcanon.3 that the header has not",
        sorted(constants - set(re.findall(r"\w+", HEADER.read_text()))),
        [],
    )
    for page in (TOP / "man").iterdir():
        text = page.read_text(encoding="utf-8")
        missing = set(SECTIONS[page.suffix]) - set(re.findall(r"^\.SH (.*)$", text, flags=re.MULTILINE))
        trials.expect(f"sections that {page.name} lacks", sorted(missing), [])


def options_of(name):
    """Returns the options that the help of a command lists, each with its argument."""
    environment = {**os.environ, "PYTHONPATH": str(TOP / "python"), "PYTHONDONTWRITEBYTECODE": "1"}
    done = subprocess.run(
        [sys.executable, "-m", f"fmtcanon.{PACKAGES.get(name, name)}", "--help"],
        env=environment,
        check=False,
        timeout=TIMEOUT,
        capture_output=True,
        encoding="utf-8",
    )
    return re.findall(r"^  (?:-h, |-j N, )?(--?[\w-]+(?: [A-Z:,.=/\[\]]+)?)(?:  +|$)", done.stdout, flags=re.MULTILINE)


def test_command_pages(trials):
    """The pages of the commands have the options of their help."""
    for name in COMMANDS:
        page = (TOP / f"man/fmtcanon-{name}.1").read_text(encoding="utf-8").replace("\\-", "-")
        section = page[page.index(".SH OPTIONS") : page.index(".SH EXIT STATUS")]
        tags = [
            re.sub(r"^-[hj](?: N)? ?, ", "", " ".join(tag.replace('"', "").split()))
            for tag in re.findall(r"^\.TP\n\.BI? (.*)$", section, flags=re.MULTILINE)
        ]
        trials.expect(f"options of fmtcanon-{name}.1", sorted(tags), sorted(options_of(name)))


def test_first_command(trials):
    """`make run`, which proves nothing, prints what the README and docs/INSTALL.md say; asked again, it compiles
    nothing.
    """
    install, readme = ((TOP / name).read_text(encoding="utf-8") for name in ("docs/INSTALL.md", "README.md"))
    [(first, line)] = re.findall(r"^    (make run)\n\n.*prints `(.*)` in a minute or two", install, re.MULTILINE)
    [again] = re.findall(r'`(make run ASK="[^`]*")`', readme)
    trials.expect("the first command of the README", f"\n    {first} " in readme, True)
    for command, wanted in [(first, line), (again, "same")]:
        done = subprocess.run(
            ["bash", "-c", command],
            cwd=TOP,
            env=without_make(),
            capture_output=True,
            encoding="utf-8",
            timeout=TIMEOUT,
            check=False,
        )
        trials.expect(command, (done.returncode, done.stdout.splitlines()[-1:]), (0, [wanted]))
    trials.expect("what is printed again", done.stdout, "same\n")


Tests = tests_of(globals())
