"""Tries that what is kept is what would be found now, whatever changes, and that only entries are read and removed.

It needs libclang, gcc and clang.
"""

import hashlib
import json
import os
import random
import shutil
import subprocess
import time
import zlib

from tests.commands.hostile.hostile import HEAD, Folder, all_of, held
from tests.frame.cases import tests_of


MAIN = '#include <stdio.h>\n#include "cfg.h"\nvoid f(size_t n, num_t m) { printf("%zu\\n", n); printf("%lu\\n", m); }\n'
LONG, INT = "typedef unsigned long num_t;\n", "typedef unsigned num_t;\n"
ASKED = """#include <stdio.h>
{front}
#if {ask}
typedef unsigned num_t;
#else
typedef unsigned long num_t;
#endif
void f(num_t m) {{ printf("%lu\\n", m); }}
"""


def compared(folder, *words, **names):
    """The warm and the cold answer."""
    warm = folder.run("check", *words, **names)
    return warm, folder.run("check", "--no-cache", *words, **names)


def trial(text, edit, flags=(), before=lambda folder: None, compiler="cc", wait=0.2, differs=True, **names):
    """True if the warm run after an edit says what a cold one says."""
    folder = Folder()
    names = {key: value.replace("WORK", str(folder.work)) for key, value in names.items()}
    for name in ("inc1", "inc2"):
        (folder.work / name).mkdir()
    folder.put("inc2/cfg.h", LONG)
    folder.put("a.c", text)
    before(folder)
    words = [compiler.replace("WORK", str(folder.work)), *flags, "-c", "a.c"]
    folder.put(
        "compile_commands.json", json.dumps([{"directory": str(folder.work), "file": "a.c", "arguments": words}])
    )
    time.sleep(wait)
    cold = folder.run("check", "-p", ".", **names)
    edit(folder)
    warm, right = compared(folder, "-p", ".", **names)
    if differs and cold[:2] == right[:2]:
        return f"the edit changes nothing: {cold}"
    return warm == right or f"warm {warm[:2]}, cold {right[:2]}"


def link(target, name):
    return lambda folder: (folder.work / name).symlink_to(target)


def relink(target, name):
    def edit(folder):
        (folder.work / name).unlink()
        (folder.work / name).symlink_to(target)

    return edit


def put(name, text):
    return lambda folder: folder.put(name, text)


def both(*edits):
    return lambda folder: [it(folder) for it in edits]


def remove(name):
    def edit(folder):
        path = folder.work / name
        shutil.rmtree(path) if path.is_dir() and not path.is_symlink() else path.unlink()

    return edit


SEARCH = ["-Iinc1", "-Iinc2"]


@held
def test_headers_found_elsewhere():
    """Dangling links, folders, links to folders, a file that becomes a folder; gcc and clang."""
    made = {}
    for compiler in ("gcc", "clang"):

        def one(text, edit, compiler=compiler, **more):
            return lambda: trial(text, edit, compiler=compiler, **more)

        made.update(
            {
                f"{compiler} a dangling link": one(
                    MAIN, put("gone.h", INT), flags=SEARCH, before=link("../gone.h", "inc1/cfg.h")
                ),
                f"{compiler} a folder": one(
                    MAIN,
                    both(remove("inc1/cfg.h"), put("inc1/cfg.h", INT)),
                    flags=SEARCH,
                    before=put("inc1/cfg.h/x", ""),
                ),
                f"{compiler} a link to a folder goes elsewhere": one(
                    MAIN,
                    both(put("inc3/cfg.h", INT), relink("inc3", "inc0")),
                    flags=["-Iinc0", *SEARCH],
                    before=link("inc1", "inc0"),
                ),
                f"{compiler} a file becomes a folder": one(
                    MAIN,
                    both(remove("inc0"), put("inc0/cfg.h", INT)),
                    flags=["-Iinc0", *SEARCH],
                    before=put("inc0", ""),
                ),
                f"{compiler} -include": one(
                    MAIN.replace('#include "cfg.h"\n', ""),
                    put("pre.h", INT),
                    flags=[*SEARCH, "-include", "pre.h"],
                    before=put("inc2/pre.h", LONG),
                ),
                f"{compiler} -imacros": one(
                    '#include <stdio.h>\nvoid f(NUM m) { printf("%lu", m); }\n',
                    put("pre.h", "#define NUM unsigned\n"),
                    flags=[*SEARCH, "-imacros", "pre.h"],
                    before=put("inc2/pre.h", "#define NUM unsigned long\n"),
                ),
                f"{compiler} a new header, earlier": one(MAIN, put("inc1/cfg.h", INT), flags=SEARCH),
                f"{compiler} the header": one(MAIN, put("inc2/cfg.h", INT), flags=SEARCH),
            }
        )
    return all_of(made)


@held
def test_has_include():
    """Forms of __has_include."""
    asks = {
        "a dangling link": ("", '__has_include("opt.h")', link("gone.h", "opt.h"), put("gone.h", "")),
        "a macro": ("#define HAS __has_include", 'HAS("opt.h")', lambda _: None, put("opt.h", "")),
        "a comment": ("", '__has_include/**/("opt.h")', lambda _: None, put("opt.h", "")),
        "a splice": ("", '__has_\\\ninclude("opt.h")', lambda _: None, put("opt.h", "")),
        "a path": ("", "__has_include(OPT)", lambda _: None, put("opt.h", "")),
    }
    made = {
        name: (
            lambda front=front, ask=ask, before=before, edit=edit: trial(
                ASKED.format(front=front, ask=ask), edit, before=before, flags=['-DOPT="opt.h"']
            )
        )
        for name, (front, ask, before, edit) in asks.items()
    }
    made["-D"] = lambda: trial(
        ASKED.format(front="", ask="HASOPT"), put("opt.h", ""), flags=['-DHASOPT=__has_include("opt.h")']
    )
    return all_of(made)


@held
def test_comments_in_files_of_line():
    """A comment in g.y, which #line names, comes, goes or moves."""
    text = '#include <stdio.h>\nvoid f(size_t n) {\n#line 3 "g.y"\nprintf("%d\\n", n);\n}\n'
    plain, silent, moved = "\n\nx\n\n", "\n\nx // fmtcanon: ok\n\n", "\nx // fmtcanon: ok\n\n\n"
    return all_of(
        {
            "comes": lambda: trial(text, put("g.y", silent), before=put("g.y", plain)),
            "goes": lambda: trial(text, put("g.y", plain), before=put("g.y", silent)),
            "moves": lambda: trial(text, put("g.y", moved), before=put("g.y", silent)),
            "the file comes": lambda: trial(text, put("g.y", silent)),
        }
    )


@held
def test_compilers():
    """Another compiler earlier in PATH; what a script or a driver reads."""
    script = '#!/bin/sh\nexec gcc $(cat WORK/options) "$@"\n'
    text = '#include <stdio.h>\nvoid f(NUM m) { printf("%lu", m); }\n'

    def with_script(folder):
        folder.put("cc.sh", script.replace("WORK", str(folder.work)), 0o755)
        folder.put("options", "-DNUM=long")

    def earlier(folder):
        folder.put("bin1/mycc", '#!/bin/sh\nexec gcc -DNUM=unsigned "$@"\n', 0o755)

    def later(folder):
        folder.put("bin2/mycc", '#!/bin/sh\nexec gcc -DNUM=long "$@"\n', 0o755)
        (folder.work / "bin1").mkdir()

    return all_of(
        {
            "a script's file": lambda: trial(
                text, put("options", "-DNUM=unsigned"), before=with_script, compiler="WORK/cc.sh"
            ),
            "earlier in PATH": lambda: trial(
                text, earlier, before=later, compiler="mycc", PATH=f"WORK/bin1:WORK/bin2:{os.environ['PATH']}"
            ),
        }
    )


@held
def test_line_break_in_a_folder():
    """A header's folder with a line break in its name."""
    return trial(MAIN, put("in\nc/cfg.h", INT), flags=["-Iin\nc"], before=put("in\nc/cfg.h", LONG))


@held
def test_a_checkout_while_it_runs():
    """Inc1/cfg.h is moved away and back while a run is on; later runs are right."""
    folder = Folder()
    folder.put("inc1/cfg.h", INT)
    folder.put("inc2/cfg.h", LONG)
    names = [f"s{it}.c" for it in range(12)]
    for name in names:
        folder.put(name, MAIN)
    folder.put(
        "compile_commands.json",
        json.dumps(
            [{"directory": str(folder.work), "file": it, "arguments": ["cc", *SEARCH, "-c", it]} for it in names]
        ),
    )
    time.sleep(0.2)
    for jobs in ("1", "2"):
        process = subprocess.Popen(
            folder.command("check", "-p", ".", "-j", jobs),
            cwd=folder.work,
            env=folder.environment,
            stdout=subprocess.DEVNULL,
            stderr=subprocess.DEVNULL,
        )
        for _ in range(40):
            os.rename(folder.work / "inc1/cfg.h", folder.work / "away")
            time.sleep(0.13)
            os.rename(folder.work / "away", folder.work / "inc1/cfg.h")
            time.sleep(0.07)
            if process.poll() is not None:
                break
        process.wait()
        warm, right = compared(folder, "-p", ".")
        if warm != right:
            return f"-j{jobs}: warm {warm[2]}, cold {right[2]}"
    return True


@held
def test_times_of_seconds():
    """Where files have times of whole seconds, a header that is saved while it is judged. The compiler changes it."""
    folder = Folder()
    (folder.work / "inc2").mkdir()
    folder.put("a.c", MAIN)
    script = f"""#!/bin/sh
gcc "$@"; status=$?
cd {folder.work}
case "$*" in *-E*-) if [ -e once ]; then
  rm once; printf 'typedef unsigned int num_t; \\n' > inc2/cfg.h; touch -d @1700000000 inc2/cfg.h
fi;; esac
exit $status
"""
    folder.put("cc.sh", script, 0o755)
    folder.put("inc2/cfg.h", LONG)
    os.utime(folder.work / "inc2/cfg.h", (1700000000, 1700000000))
    folder.put("once", "")
    folder.put(
        "compile_commands.json",
        json.dumps(
            [
                {
                    "directory": str(folder.work),
                    "file": "a.c",
                    "arguments": [str(folder.work / "cc.sh"), "-Iinc2", "-c", "a.c"],
                }
            ]
        ),
    )
    time.sleep(0.2)
    folder.run("check", "-p", ".")
    warm, right = compared(folder, "-p", ".")
    return warm == right or f"warm {warm}, cold {right}"


@held
def test_whose_folder():
    """The folder of the cache is another's, a link, or others may write there: nothing is read, written or removed."""
    bad = {}
    for kind in ("another's", "a link", "writable"):
        folder = Folder()
        folder.put("a.c", MAIN.replace('#include "cfg.h"\n', LONG))
        where = folder.top / "cache/fmtcanon/check"
        where.parent.mkdir(parents=True)
        if kind == "a link":
            (folder.top / "documents").mkdir()
            where.symlink_to(folder.top / "documents")
        else:
            where.mkdir(mode=0o700)
        if kind == "another's":
            os.chown(where, 65534, 65534)
        if kind == "writable":
            where.chmod(0o777)
        folder.run("check", "a.c")
        if list(where.iterdir()):
            bad[kind] = [it.name for it in where.iterdir()]
    return not bad or str(bad)


@held
def test_only_entries_are_removed():
    """Files in the folder that aren't entries stay, however many there are."""
    folder = Folder()
    folder.put("a.c", MAIN.replace('#include "cfg.h"\n', LONG))
    where = folder.top / "cache/fmtcanon/check"
    where.mkdir(parents=True, mode=0o700)
    for name in ("thesis.pdf", "photo.jpg"):
        with open(where / name, "wb") as stream:
            stream.truncate(70_000_000)
    folder.run("check", "a.c")
    left = {it.name for it in where.iterdir()}
    return {"thesis.pdf", "photo.jpg"} <= left or str(left)


@held
def test_hostile_entries():
    """A FIFO, a deep one, a bomb, a link as an entry: each counts as none."""
    import hashlib
    import zlib

    for kind in ("fifo", "deep", "blanks", "link"):
        folder = Folder()
        folder.put("a.c", MAIN.replace('#include "cfg.h"\n', LONG).replace("%lu", "%u"))
        right = folder.run("check", "a.c")
        where = folder.top / "cache/fmtcanon/check"
        names = [it for it in where.iterdir() if len(it.name) == 32]
        if not names:
            return f"{kind}: nothing was kept"
        for path in names:
            path.unlink()
            if kind == "fifo":
                os.mkfifo(path)
            elif kind == "link":
                path.symlink_to("/dev/zero")
            else:
                packer = zlib.compressobj(1)
                data = (
                    b"".join(
                        packer.compress((b"[" if kind == "deep" else b" ") * 1_000_000)
                        for _ in range(2 if kind == "deep" else 3000)
                    )
                    + packer.flush()
                )
                path.write_bytes(hashlib.blake2b(data, digest_size=16).digest() + data)
        done = folder.run("check", "a.c", seconds=60)
        if done != right:
            return f"{kind}: {done}"
    return True


WRONG_FORMAT, RIGHT_FORMAT = '"%d\\n"', '"%zu\\n"'

# It swaps a header while the whole text is made, as a checkout and another one back do, or an upgrade of a package.
SWAPPING = """#!/bin/sh
case " $* " in *" -fdirectives-only "*|*" -dM "*|*" -v "*) exec /usr/bin/gcc "$@";; esac
%s
/usr/bin/gcc "$@"
status=$?
%s
exit $status
"""


def swapped(header, before, after, folders):
    folder = Folder()
    folder.put("a.c", '#include <stdio.h>\n#include "h.h"\nvoid f(size_t n) { printf(F, n); }\n')
    folder.put(header, '#define F "%d\\n"\n')
    folder.put("bin/gcc", SWAPPING % (before, after), 0o755)
    folder.database(str(folder.work / "bin/gcc"), *folders, "-c", "a.c")
    folder.run("check", "-p", ".")
    folder.put(header, '#define F "%d\\n"\n')
    folder.put("bin/gcc", '#!/bin/sh\nexec /usr/bin/gcc "$@"\n', 0o755)
    warm, true = folder.run("check", "-p", "."), folder.run("check", "-p", ".", "--no-cache")
    return warm == true or f"warm {warm[:2]}, without cache {true[:2]}"


@held
def test_a_header_that_changes_and_changes_back():
    """A header is another one only while the text that is judged is made."""
    return swapped("h.h", """echo '#define F "%zu"' > h.h""", """printf '%s\\n' '#define F "%d\\n"' > h.h""", [])


@held
def test_a_system_header_that_changes():
    """A header of -isystem changes before the text that is judged is made, and back at any later time."""
    return swapped("sys/h.h", """echo '#define F "%zu"' > sys/h.h""", "", ["-isystem", "sys"])


@held
def test_a_line_marker_with_the_flag_of_the_system():
    """`# 1 "g.y" 3` in a source: the comments of g.y are read, its bytes aren't in the key."""
    for compiler in ("gcc", "clang"):
        folder = Folder()
        folder.put("a.c", '#include <stdio.h>\n# 1 "g.y" 3\nvoid f(size_t z) { printf("%d\\n", z); }\n')
        folder.put("g.y", "/* fmtcanon: ok */ x\n")
        folder.database(compiler, "-c", "a.c")
        folder.run("check", "-p", ".")
        folder.put("g.y", "x\n")
        warm, true = folder.run("check", "-p", "."), folder.run("check", "-p", ".", "--no-cache")
        if warm != true:
            return f"{compiler}: warm {warm[:2]}, without cache {true[:2]}"
    return True


@held
def test_a_name_that_is_not_ascii_by_clang():
    """#line 1 "é.y", which clang writes with octal escapes: the same."""
    folder = Folder()
    folder.put("a.c", '#include <stdio.h>\n#line 1 "é.y"\nvoid f(size_t z) { printf("%d\\n", z); }\n')
    folder.put("é.y", "/* fmtcanon: ok */ x\n")
    folder.database("clang", "-c", "a.c")
    folder.run("check", "-p", ".")
    folder.put("é.y", "x\n")
    warm, true = folder.run("check", "-p", "."), folder.run("check", "-p", ".", "--no-cache")
    return warm == true or f"warm {warm[:2]}, without cache {true[:2]}"


@held
def test_edits_of_headers_during_runs():
    """Two runs together, while a header and one of -isystem change; then each state, warm and without a cache."""
    chosen, wrong, tried = random.Random(3), [], 0

    def put(folder, first, second):
        for name, macro, is_wrong in (("h.h", "F", first), ("sys/s.h", "S", second)):
            folder.put(name, f"#define {macro} {WRONG_FORMAT if is_wrong else RIGHT_FORMAT}\n")

    for compiler in ("gcc", "clang") * 4:
        folder = Folder()
        names = [f"a{number}.c" for number in range(10)]
        for name in names:
            folder.put(
                name,
                HEAD + '#include "h.h"\n#include <s.h>\nvoid f(size_t n) { printf(F, n); printf(S, n); }\n',
            )
        put(folder, 0, 1)
        entries = [
            {"directory": str(folder.work), "file": it, "arguments": [compiler, "-isystem", "sys", "-c", it]}
            for it in names
        ]
        folder.put("compile_commands.json", json.dumps(entries))
        running = [
            subprocess.Popen(
                folder.command("check", "-p", ".", "-j2"),
                cwd=folder.work,
                env=folder.environment,
                stdout=subprocess.DEVNULL,
                stderr=subprocess.DEVNULL,
            )
            for _ in range(2)
        ]
        while any(it.poll() is None for it in running):
            put(folder, chosen.random() < 0.5, chosen.random() < 0.5)
            time.sleep(chosen.random() * 0.15)
        for first, second in ((0, 0), (0, 1), (1, 0), (1, 1)):
            put(folder, first, second)
            warm, true = folder.run("check", "-p", "."), folder.run("check", "-p", ".", "--no-cache")
            tried += 1
            if warm != true:
                wrong.append(f"{compiler}: {warm[2].strip()} / {true[2].strip()}")
    return not wrong or f"{len(wrong)} of {tried} are wrong: {wrong[0]}"


Tests = tests_of(globals())
