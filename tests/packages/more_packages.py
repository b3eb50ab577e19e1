"""Tries what is made to be handed on, where nothing of this machine is at hand: the Debian package and the
archive in a root made by debootstrap, and the wheel in an environment of its own.

It needs dpkg-deb, lintian, debootstrap and the rights of root, and pip.
"""

import os
import re
import shutil
import subprocess
import tempfile
import venv
from pathlib import Path

from tests.frame.cases import tests_of
from tests.frame.harness import TOP, VERSION, run
from tests.packages import test_installing as installing

PACKAGE = TOP / f"out/fmtcanon_{VERSION}-1_amd64.deb"
ARCHIVE = TOP / f"out/fmtcanon-{VERSION}-linux-x86_64.tar.gz"
INCLUDED = "gcc,libc6-dev,make,pkg-config,python3,python3-clang"
CHROOT = shutil.which("chroot") or "/usr/sbin/chroot"
# What is tried of an installation, each with what it prints.
TRIED = [
    ("fmtcanon canon 'Total: %i of %u%%'", "Total: %d of %u%%\n"),
    ('python3 -c \'import fmtcanon; print(fmtcanon.same("%5c", "    %c"))\'', "True\n"),
    ("fmtcanon-po --strict right.po 2>&1", "2 messages judged, 0 not judged\n"),
    ("fmtcanon-po wrong.po > faults 2>&1; echo $?", "1\n"),
    ("fmtcanon-diff size.c other.c 2> counts; echo $?", 'other.c:2:32: same in lp64 only: "%zu" and "%lu"\n1\n'),
    (
        "fmtcanon-replace %zu %lu size.c || true",
        "size.c:2:32: left: in ILP32 the types differ at argument 1, counted from 1: %zu takes unsigned int and %lu "
        "takes "
        "unsigned long; in LLP64 the types differ at argument 1, counted from 1: %zu takes unsigned long long and %lu "
        "takes "
        "unsigned long\n",
    ),
    ("fmtcanon-replace --model lp64 %zu %lu size.c", "size.c:2:32: replaced\n"),
    ("cc -std=c99 -o canon canon.c $(pkg-config --cflags --libs fmtcanon) && ./canon %05u", "%.5u\n"),
]
SIZE_C = '#include <stdio.h>\nint main(void) { return printf("%zu", sizeof(int)) < 0; }\n'


def shell(words, **options):
    """The status and all that is printed."""
    done = subprocess.run(
        words,
        stdin=subprocess.DEVNULL,
        stdout=subprocess.PIPE,
        stderr=subprocess.STDOUT,
        timeout=900,
        check=False,
        **options,
    )
    return done.returncode, done.stdout.decode(errors="replace")


def made(target, trials):
    done = shell(["make", "-s", target, installing.MAINTAINER], cwd=TOP)
    trials.expect(f"make {target}: {done[1][:200] if done[0] else ''}", done[0], 0)


def put_samples(work):
    """What the commands are tried on."""
    work.mkdir(parents=True, exist_ok=True)
    for name in ["right.po", "wrong.po"]:
        shutil.copy(TOP / "tests/catalogs" / name, work)
    shutil.copy(TOP / "examples/canon.c", work)
    (work / "size.c").write_text(SIZE_C)
    (work / "other.c").write_text(SIZE_C.replace("%zu", "%lu"))


def try_commands(where, inside, trials):
    """Each command prints what it should in a root, as a user would call it."""
    put_samples(inside / "work")
    for command, wanted in TRIED:
        got = shell(
            [CHROOT, inside, "/bin/sh", "-c", f"cd /work && {command}"],
            env={"PATH": "/usr/local/bin:/usr/bin:/bin", "LC_ALL": "C.UTF-8"},
        )
        trials.expect(f"{where}: {command}", got, (0, wanted))


def is_left(root):
    """What an installation left."""
    found = [path for path in root.rglob("*fmtcanon*") if "/proc/" not in str(path)]
    return sorted(str(path.relative_to(root)) for path in found)


def try_package(root, trials):
    shutil.copy(PACKAGE, root / "package.deb")
    status, output = shell([CHROOT, root, "dpkg", "-i", "/package.deb"])
    trials.expect(f"dpkg -i: {output if status else ''}", status, 0)
    try_commands("the package", root, trials)
    trials.expect("dpkg -P", shell([CHROOT, root, "dpkg", "-P", "fmtcanon"])[0], 0)
    (root / "package.deb").unlink()
    trials.expect("what dpkg -P leaves", is_left(root), [])


def try_archive(root, trials):
    shell(["tar", "-xzf", ARCHIVE, "-C", root / "root"])
    folder = f"/root/fmtcanon-{VERSION}-linux-x86_64"
    for target in ["install", "uninstall"]:
        status, output = shell(
            [
                CHROOT,
                root,
                "/bin/sh",
                "-c",
                f"cd {folder} && make {target}" + (" && ldconfig" if target == "install" else ""),
            ]
        )
        trials.expect(f"make {target} in the archive: {output if status else ''}", status, 0)
        if target == "install":
            try_commands("the archive", root, trials)
    shutil.rmtree(root / folder[1:])
    trials.expect("what make uninstall leaves", is_left(root), [])


def test_root(tools, trials):
    """The package and the archive, in a system that has neither the kit nor this tree."""
    if not tools.has("debootstrap", "debootstrap") or not tools.has("dpkg-deb", "dpkg"):
        return
    made("deb", trials)
    made("dist", trials)
    with tempfile.TemporaryDirectory() as work:
        root = Path(work) / "root"
        release = re.search(r"VERSION_CODENAME=(\w+)", Path("/etc/os-release").read_text(encoding="utf-8")).group(1)
        status, output = shell(["debootstrap", "--variant=minbase", f"--include={INCLUDED}", release, root])
        trials.expect(f"debootstrap: {output[-300:] if status else ''}", status, 0)
        if status == 0:
            try_package(root, trials)
            try_archive(root, trials)
    if tools.has("lintian", "lintian"):
        output = shell(["lintian", "--allow-root", "--fail-on", "error,warning", PACKAGE])
        trials.expect("lintian finds nothing", output, (0, ""))


def test_same_packages(tools, trials):
    """The Debian package doesn't depend on times and rights of files."""
    if tools.has("dpkg-deb", "dpkg"):
        with tempfile.TemporaryDirectory() as work:
            first, second = installing.packages_of(Path(work), "deb", "*.deb", trials)
        trials.expect(
            "make deb of files with other times and rights", (isinstance(first, bytes), first == second), (True, True)
        )


def test_wheel(trials):
    """pip installs the wheel with no compiler and no network, and the module finds the library inside."""
    made("wheel", trials)
    with tempfile.TemporaryDirectory() as work:
        venv.create(Path(work) / "home", with_pip=True)
        folder = Path(work) / "home/bin"
        environment = {"PATH": str(folder) + ":/nowhere", "LC_ALL": "C.UTF-8", "HOME": work}
        # Without a network, and with no compiler to be found.
        wheels = list((TOP / "out").glob(f"fmtcanon-{VERSION}-py3-none-manylinux_*_x86_64.whl"))
        tag = installing.needed_by_page()[0].replace(".", "_")
        trials.expect(
            "the wheel", [it.name for it in wheels], [f"fmtcanon-{VERSION}-py3-none-manylinux_{tag}_x86_64.whl"]
        )
        words = [folder / "pip", "install", "--no-index", "--quiet", "--disable-pip-version-check", *wheels]
        if shutil.which("unshare") and os.geteuid() == 0:
            words = [shutil.which("unshare"), "--net", *words]
        status, output = shell(words, env=environment, cwd=work)
        trials.expect(f"pip install of the wheel: {output}", status, 0)
        script = (
            "import fmtcanon, importlib.metadata as m; print(fmtcanon.canonical('%i'), fmtcanon.format('%05d', 7), "
            "*fmtcanon.show('%%'), fmtcanon.__version__, m.version('fmtcanon'), m.metadata('fmtcanon')['License'])"
        )
        wanted = (0, f"%d b'00007' Percent(spelling='%%') {VERSION} {VERSION} MIT\n")
        trials.expect(
            "the module of the wheel", shell([folder / "python", "-c", script], env=environment, cwd=work), wanted
        )
        put_samples(Path(work))
        output = shell([folder / "fmtcanon-po", "right.po"], env=environment, cwd=work)
        trials.expect("fmtcanon-po of the wheel", output, (0, "2 messages judged, 0 not judged\n"))
        output = shell(
            [folder / "fmtcanon-diff", "--model", "lp64", "--verbose", "size.c", "other.c"], env=environment, cwd=work
        )
        trials.expect(
            "fmtcanon-diff of the wheel",
            (output[0], output[1].splitlines()[0]),
            (0, 'other.c:2:32: same: "%zu" and "%lu"'),
        )
        # The environment sees none of the system's modules, so there is no libclang.
        for command, words in [("replace", ["--model", "lp64", "%zu", "%lu", "size.c"]), ("check", ["size.c"])]:
            status, output = shell([folder / f"fmtcanon-{command}", *words], env=environment, cwd=work)
            said = output.startswith(f"fmtcanon-{command}: libclang is missing: ")
            trials.expect(f"fmtcanon-{command} of the wheel: {output}", (status, said), (2, True))
        for command in [[folder / "fmtcanon"], [folder / "python", "-m", "fmtcanon"]]:
            trials.expect(
                f"{command} of the wheel", shell([*command, "canon", "%i"], env=environment, cwd=work), (0, "%d\n")
            )
        status, output = shell([folder / "pip", "check"], env=environment, cwd=work)
        trials.expect(f"pip check: {output}", status, 0)


def test_program(program, trials):
    """The program in the package is the one that was built."""
    status, output, _ = run(program, ["canon", "%i"])
    trials.expect("the program", (status, output), (0, b"%d\n"))


Tests = tests_of(globals())
