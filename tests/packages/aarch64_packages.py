"""Tries the packages for AArch64: the archive, the Debian package and the wheel.

It needs dpkg-deb and binutils for the processor.
"""

import re
import tarfile
import zipfile

from tests.frame.harness import NO_PROGRAM, SONAME, VERSION
from tests.library.emulated_python import environment_of
from tests.library.test_library import lines_of
from tests.packages import test_installing as installing
from tests.packages.test_installing import (
    BUILT_FOR_AARCH64,
    COMMANDS,
    MODULE,
    OF_PROGRAM,
    PLACES,
    files_below,
    make,
    wanted_files,
)

PATTERNS = {"dist": "*.tar.gz", "deb": "*.deb", "wheel": "*.whl"}
LIBRARIES = "lib/aarch64-linux-gnu"
# The number of the processor in an ELF file (e_machine): EM_AARCH64.
AARCH64 = 183
# What the Debian package has under other names, what it adds, and what it leaves out.
RENAMED = [
    (r"^lib/(?!python3/)", f"{LIBRARIES}/"),
    (r"^(share/man/.*)$", r"\1.gz"),
    ("zsh/site-functions", "zsh/vendor-completions"),
    ("fmtcanon/CHANGELOG.md", "fmtcanon/changelog.gz"),
    ("fmtcanon/LICENSE", "fmtcanon/copyright"),
]
ADDED = {"share/doc/fmtcanon/changelog.Debian.gz", "share/lintian/overrides/fmtcanon"}
LEFT_OUT = {"share/doc/fmtcanon/folders"}


def processors(files):
    """The processors of binaries, by their files: of an ELF file its number, of an archive of objects the objects'."""
    found = {}
    for name, data in files:
        at = data.find(b"\x7fELF") if data.startswith(b"!<arch>") else 0
        if at >= 0 and data[at : at + 4] == b"\x7fELF":
            found[name] = int.from_bytes(data[at + 18 : at + 20], "little")
    return found


def below(folder):
    """The files below a folder, with their bytes, once each."""
    return [(name, (folder / name).read_bytes()) for name in files_below(folder) if not (folder / name).is_symlink()]


def installed():
    """Each file of an installation for AArch64, below its prefix."""
    return wanted_files() - OF_PROGRAM


def in_package(name):
    """The name that the Debian package has for a file of an installation."""
    for pattern, other in RENAMED:
        name = re.sub(pattern, other, name)
    return name


def oldest_glibc(cross):
    """The version of the C library that the shared library needs, by the cross compiler's tools; 2.17 at least."""
    table = lines_of(["aarch64-linux-gnu-objdump", "-T", cross / "libfmtcanon.so"])[1]
    found = re.findall(r"GLIBC_(\d+)\.(\d+)", table)
    return max([(2, 17), *((int(major), int(minor)) for major, minor in found)])


def try_archive(file, trials, work):
    """It installs all that isn't the program's, with the library for the processor."""
    with tarfile.open(file) as archive:
        archive.extractall(work / "unpacked")
    folders = [path.name for path in (work / "unpacked").iterdir()]
    trials.expect("folders of the archive", folders, [f"fmtcanon-{VERSION}-linux-aarch64"])
    folder, stage = work / "unpacked" / folders[0], work / "stage"
    trials.expect("make install of the archive", make(["install", f"DESTDIR={stage}", *PLACES], folder=folder), (0, ""))
    trials.expect("its files", sorted(files_below(stage / "usr") ^ installed()), [])
    binaries = {"lib/libfmtcanon.a": AARCH64, f"lib/libfmtcanon.so.{VERSION}": AARCH64}
    trials.expect("its binaries", processors(below(stage / "usr")), binaries)
    trials.expect("make uninstall", make(["uninstall", f"DESTDIR={stage}", *PLACES], folder=folder), (0, ""))
    trials.expect("what is left", files_below(stage), set())


def try_package(file, glibc, trials, work):
    """It is for the processor, has its library where Debian has it, and needs no newer C library."""
    trials.expect("the Debian package", file.name, f"fmtcanon_{VERSION}-1_arm64.deb")
    fields = dict(line.split(": ", 1) for line in lines_of(["dpkg-deb", "-f", file])[1].splitlines() if ": " in line)
    trials.expect("Architecture", fields.get("Architecture"), "arm64")
    trials.expect("Depends", fields.get("Depends"), "libc6 (>= {}.{}), python3 (>= 3.8)".format(*glibc))
    trials.expect("dpkg-deb -x", lines_of(["dpkg-deb", "-x", file, work / "deb"]), (0, ""))
    wanted = ADDED | {in_package(name) for name in installed() - LEFT_OUT}
    trials.expect("its files", sorted(files_below(work / "deb/usr") ^ wanted), [])
    binaries = {f"{LIBRARIES}/libfmtcanon.a": AARCH64, f"{LIBRARIES}/libfmtcanon.so.{VERSION}": AARCH64}
    trials.expect("its binaries", processors(below(work / "deb/usr")), binaries)


def try_wheel(file, glibc, python, trials, work):
    """Its name says which C library it needs, and its module and commands run without the program."""
    tag = "py3-none-manylinux_{}_{}_aarch64".format(*glibc)
    trials.expect("the wheel", file.name, f"fmtcanon-{VERSION}-{tag}.whl")
    with zipfile.ZipFile(file) as archive:
        archive.extractall(work / "wheel")
    modules = {name[len("lib/python3/dist-packages/") :] for name in installed() if name.startswith(MODULE)}
    found = {name for name in files_below(work / "wheel") if name.startswith("fmtcanon/")}
    trials.expect("its module", sorted(found ^ modules), [])
    information = work / f"wheel/fmtcanon-{VERSION}.dist-info"
    trials.expect("its tag", re.findall(r"^Tag: (.*)$", (information / "WHEEL").read_text(), re.MULTILINE), [tag])
    commands = re.findall(r"^(\S+) = ", (information / "entry_points.txt").read_text(), re.MULTILINE)
    trials.expect("its commands", sorted(commands), [f"fmtcanon-{name}" for name in COMMANDS])
    trials.expect("its binaries", processors(below(work / "wheel")), {f"fmtcanon/{SONAME}": AARCH64})
    if python:
        try_module(python, work / "wheel", trials, work)


def try_module(python, folder, trials, work):
    """The module of a folder answers on AArch64, and says what needs the program."""
    environment = environment_of(PYTHONPATH=str(folder), FMTCANON_PROGRAM=NO_PROGRAM)
    script = (
        "import fmtcanon; print(fmtcanon.canonical('%i'), fmtcanon.format('%05d', 7), "
        "fmtcanon.show('%#o')[0].core)"
    )
    answers = lines_of([python, "-c", script], env=environment, cwd=work)
    trials.expect("the module of the wheel", answers, (0, "%d b'00007' %.0o\n"))
    explained = lines_of([python, "-m", "fmtcanon.explain", "%5d"], env=environment, cwd=work)
    wanted = (
        "%5d\n^^^   argument 1, int: decimal, right-justified in at least 5 bytes\nkey: %5d\nit prints 5 to 11 bytes\n"
        ""
    )
    trials.expect("fmtcanon-explain of the wheel", explained, (0, wanted))
    status, output = lines_of([python, "-m", "fmtcanon", "canon", "%i"], env=environment, cwd=work)
    trials.expect(f"the program: {output}", (status != 0, "which is for x86-64" in output), (True, True))


def try_packages(cross, python, trials, work):
    """Each package, and that it is the same for files with other times and rights."""
    made = {}
    for target, pattern in PATTERNS.items():
        first, second = installing.packages_of(work, target, pattern, trials, BUILT_FOR_AARCH64)
        same = (isinstance(first, bytes), first == second)
        trials.expect(f"make {target} for AArch64 of files with other times and rights", same, (True, True))
        made[target] = next((work / f"tree-for-{target}/out").glob(pattern), None)
    if None in made.values():
        return
    glibc = oldest_glibc(cross)
    trials.expect("the C library that docs/INSTALL.md names", installing.needed_by_page()[1], "{}.{}".format(*glibc))
    try_archive(made["dist"], trials, work)
    try_package(made["deb"], glibc, trials, work)
    try_wheel(made["wheel"], glibc, python, trials, work)
