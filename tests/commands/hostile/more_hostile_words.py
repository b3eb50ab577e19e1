"""Tries that nothing but the preprocessor runs for a compile command, whatever its words, and that nothing is written.

It needs libclang, gcc and clang, a clang from 16 on for what only these read, and strace.
"""

import json
import os
import random
import re
import shutil
import subprocess

from tests.commands.hostile.hostile import HEAD, WRONG, Folder, all_of, held
from tests.frame.cases import tests_of

COMMANDS = (
    ("check", ["-p", "."]),
    ("check", ["-p", ".", "--fix", "--dry-run"]),
    ("replace", ["-p", ".", "--dry-run", "%d\\n", "%i\\n"]),
    ("diff", ["-p", ".", "old.c", "a.c"]),
)
# How many lists of words are made, and how many of those that are kept are given to compilers.
LISTS, TRIED = int(os.environ.get("HOSTILE_LISTS", 20_000)), int(os.environ.get("HOSTILE_TRIED", 25))


def hostile(*words, compiler="gcc"):
    """A folder with a plugin, a program that is named as gcc's own compiler, and a file that is to stay."""
    folder = Folder()
    mark = folder.plugin()
    folder.put("a.c", WRONG)
    folder.put("old.c", WRONG.replace("%d", "%i"))
    folder.put("cc1", f"#!/bin/sh\ntouch {mark}\n", 0o755)
    folder.put("precious.txt", "precious")
    folder.database_of(compiler, *words)
    return folder, mark


def is_harmed(folder, mark):
    return mark.exists() or (folder.work / "precious.txt").read_text() != "precious"


@held
def test_words_after_dashes():
    """`--` hides no option from the reader of words: check, diff, replace and the server."""
    for words in (
        ["-c", "--", "-fplugin=./evil.so", "a.c"],
        ["-c", "--", "-B./", "a.c"],
        ["-c", "--", "-oprecious.txt"],
    ):
        for compiler in ("gcc", "clang"):
            folder, mark = hostile(*words, "a.c", compiler=compiler)
            for command, more in COMMANDS:
                done = folder.run(command, *more)
                if is_harmed(folder, mark):
                    return f"{command} {compiler} {words}: {done}"
            folder.opened()
            if is_harmed(folder, mark):
                return f"lsp {compiler} {words}"
    return True


@held
def test_what_is_left_is_told():
    """A file whose command has such words isn't judged, and why is said."""
    listed = (
        ["-c", "--", "-fplugin=./evil.so", "a.c"],
        ["@more", "a.c"],
        ["-c", "-fplugin=./evil.so", "a.c"],
        ["-I", "-fplugin=./evil.so", "a.c"],
        ["--target=./evil", "-c", "a.c"],
        ["-target", "./evil", "-c", "a.c"],
    )
    for words in listed:
        folder, _ = hostile(*words)
        folder.put("more", "-fplugin=./evil.so")
        status, output, _ = folder.run("check", "-p", ".")
        if status != 2 or "its compile command has" not in output:
            return f"{words}: {status} {output}"
    return True


@held
def test_a_database_of_another():
    """A compile_commands.json of another user in a folder above isn't used by the server, and one of root is."""
    if os.geteuid():
        return True
    for owner, is_used in ((65534, False), (0, True)):
        folder, _ = hostile("-DX", "-c", "sub/a.c")
        folder.database_of("gcc", "-DX", "sub/a.c", file="sub/a.c")
        os.chown(folder.put("sub/a.c", WRONG), 65534, 65534)
        os.chown(folder.work / "compile_commands.json", owner, owner)
        os.chown(folder.put("sub/a.c", WRONG), 0, 0) if owner else None
        _, output, fault = folder.opened("sub/a.c")
        if ("wrong size" in output, "another user" in output + fault) != (is_used, not is_used):
            return f"{owner}: {output} {fault}"
    return True


@held
def test_a_command_is_text():
    """A command of a database is a text, or a list of texts: nothing else is read, and standard input neither."""
    listed = ('"command": null', '"command": 5', '"arguments": [5, "a.c"]', '"arguments": {"gcc": 1}', '"command": []')
    for entry in listed:
        folder = Folder()
        folder.put("a.c", WRONG)
        folder.put("compile_commands.json", f'[{{"directory": "{folder.work}", "file": "a.c", {entry}}}]')
        words = ["sh", "-c", 'echo gcc -c a.c | "$@"', "sh", *folder.command("check", "-p", ".")]
        status, output, fault = folder.started(words, 60)
        is_told = "there is no compile_commands.json that can be read" in fault or "not judged" in output
        if status != 2 or not is_told:
            return f"{entry}: {status} {output} {fault}"
    return True


def newest_clang():
    """A clang that reads a file of options by the name of the target: those from 16 on do."""
    return next((it for it in ("clang-19", "clang-18", "clang-17", "clang-16") if shutil.which(it)), None)


def of_target(act, *words):
    clang = newest_clang()
    if clang is None:
        return "there is no clang from 16 on: the package clang-16 has it"
    folder = Folder()
    mark = folder.plugin()
    folder.put("a.c", WRONG)
    folder.put("evil-clang.cfg", f"-fplugin={folder.work}/evil.so\n")
    folder.database_of(clang, *words, "-c", "a.c")
    said = act(folder)
    return not mark.exists() or f"code of the folder ran: {mark.read_text()[:30]} {str(said)[:120]}"


@held
def test_a_target_names_no_file_of_options():
    """`--target=./evil`: clang would read ./evil-clang.cfg, which has -fplugin=."""
    return all_of(
        {
            "check": lambda: of_target(lambda it: it.run("check", "-p", "."), "--target=./evil"),
            "the server": lambda: of_target(lambda it: it.opened(), "-target", "./evil"),
        }
    )


@held
def test_no_file_of_options_by_a_name():
    """clang reads none that its own name would be that of: here in its folder."""
    clang = newest_clang()
    if clang is None:
        return "there is no clang from 16 on: the package clang-16 has it"
    folder = Folder()
    mark = folder.plugin()
    folder.put("a.c", WRONG)
    home = folder.work / ".config/clang"
    folder.put(str(home / "clang.cfg"), f"-fplugin={folder.work}/evil.so\n")
    (folder.work / "bin").mkdir()
    real = os.path.realpath(shutil.which(clang))
    shutil.copy(real, folder.work / "bin/clang")
    folder.put("bin/clang.cfg", f"-fplugin={folder.work}/evil.so\n")
    folder.database_of(str(folder.work / "bin/clang"), "-c", "a.c")
    said = folder.run("check", "-p", ".")
    return not mark.exists() or f"code of the folder ran: {said}"


def with_image(image, make, words, source, database=None):
    """True if a precompiled header next to a header changes nothing and isn't opened."""
    folder = Folder()
    folder.put("h.h", HEAD)
    folder.put("a.c", source)
    if database:
        folder.database_of(*database)
    plain = folder.run(*words)
    folder.put("other/h.h", HEAD + "int f;\n")
    subprocess.run([*make, "other/h.h", "-o", image], cwd=folder.work, check=True, capture_output=True)
    trace = folder.top / "trace"
    strace = ["strace", "-f", "-qq", "-e", "trace=openat,open", "-o", str(trace)]
    done = folder.started([*strace, *folder.command(*words)], 120)
    opened = [it for it in trace.read_text(errors="replace").splitlines() if image in it and "ENOENT" not in it]
    return (plain == done and not opened) or f"{image} was loaded: {opened[:1]} {done[1]}"


@held
def test_precompiled_headers():
    """A precompiled header of the folder, an image of memory, isn't loaded: as a header, by -include, by -imacros."""
    source = '#include "h.h"\nvoid f(int n, size_t z) { printf("%d\\n", n); printf("%lu", z); }\n'
    rest = source.partition("\n")[2]
    gcc = ["gcc", "-x", "c-header", "-U_FORTIFY_SOURCE", "-Wno-builtin-macro-redefined", '-D__BASE_FILE__="a.c"']
    replace, check = ["replace", "--dry-run", "%d\\n", "%i\\n"], ["check", "--no-cache", "--dry-run"]
    made = {}
    for name, words in (("replace", replace), ("check", check)):
        made[f"{name}: a header"] = lambda words=words: with_image("h.h.gch", gcc, [*words, "a.c"], source)
        for option in ("-include", "-imacros"):
            database, clang = ["gcc", option, "h.h", "-c", "a.c"], ["clang", option, "h.h", "-c", "a.c"]
            text = rest if option == "-include" else source
            made[f"{name}: gcc {option}"] = lambda words=words, database=database, text=text: with_image(
                "h.h.gch", gcc, [*words, "-p", "."], text, database
            )
            made[f"{name}: clang {option}"] = lambda words=words, clang=clang, text=text: with_image(
                "h.h.pch", ["clang", "-x", "c-header"], [*words, "-p", "."], text, clang
            )
    return all_of(made)


@held
def test_a_value_that_names_more_options():
    """gcc gives `-I@more` to its own compiler as two words, and that reads options in the file `more`."""
    for words in (["-I@more", "-c", "a.c"], ["-idirafter", "@more", "-c", "a.c"], ["-DX", "-U", "@more", "a.c"]):
        for more in ("x -fplugin=./evil.so", "x -oprecious.txt"):
            folder, mark = hostile(*words)
            folder.put("more", more)
            done = folder.run("check", "-p", ".")
            if is_harmed(folder, mark):
                return f"{words} {more}: {done}"
    return True


@held
def test_a_word_that_takes_the_mode():
    """A kept option that takes the next word can't take the mode, and have clang compile and link."""
    for words in (["-c", "a.c", "-isystem-after"], ["a.c", "-meabi"], ["a.c", "-mthread-model"]):
        folder, _ = hostile(*words, compiler="clang")
        folder.put("a.c", HEAD + 'int main(void) { return printf("%d\\n", 1); }\n')
        folder.put("old.c", HEAD + 'int main(void) { return printf("%u\\n", 1); }\n')
        before = {it.name for it in folder.work.iterdir()}
        done = [folder.run(command, *more) for command, more in COMMANDS]
        more = {it.name for it in folder.work.iterdir()} - before
        if more:
            return f"{words}: {more} {done}"
    return True


# Makes lists of hostile words, and prints those that are kept, with what a compiler would get.
MADE = r"""
import json, random, sys
from fmtcanon.compiling.compile_commands import CompileCommand
from fmtcanon.compiling.left import Left
seed, count, folder = int(sys.argv[1]), int(sys.argv[2]), sys.argv[3]
chosen, words = random.Random(seed), json.loads(sys.argv[4])
parts = ["-", "=", ",", "@", "./", "evil.so", "f", "plugin", "W", "p", "o", "x", " ", "X", "include", "--", "m", "D"]
kept = []
for number in range(count):
    made = [chosen.choice(words) if chosen.random() < .85 else "".join(chosen.choices(parts, k=chosen.randrange(1, 6)))
            for _ in range(chosen.randrange(1, 7))]
    if chosen.random() < .3:
        made = ["-DX", "-I.", *made]
    if chosen.random() < .8:
        made.insert(chosen.randrange(len(made) + 1), "a.c")
    command = CompileCommand(folder, folder + "/a.c", ("CC", *made))
    try:
        kept.append((made, [*command.used()[0], command.used()[1], *command.bare()]))
    except Left:
        continue
print(json.dumps(kept))
"""
# Gives such lists to compilers, in each way that a command is used.
RUN = """
import json, sys
from fmtcanon.compiling.compile_commands import CompileCommand
from fmtcanon.compiling.left import Left
folder = sys.argv[1]
for words in json.load(open(folder + "/../lists")):
    for compiler in json.loads(sys.argv[2]):
        it = CompileCommand(folder, folder + "/a.c", (compiler, *words))
        ways = [it.preprocessed, it.included, it.macros, it.system_folders]
        for one in [*ways, lambda: it.preprocessed(b"int x;"), lambda: it.check_compiles(b"int x;")]:
            try:
                one()
            except Left:
                pass
"""
HOSTILE = """
    -fplugin=./evil.so|-B./|-B|./|-oprecious.txt|-o|precious.txt|@more|--|-wrapper|./cc1|-specs=specs|-Xclang|-load|
    -fplugin-arg-x=y|-MD|-MF|-MFprecious.txt|-Wp,-MD,precious.txt|-save-temps|-dumpdir|x|-aux-info|
    -fdump-tree-all=precious.txt|-no-integrated-cpp|-fmodules|-fmodule-mapper=@./cc1|-Xpreprocessor|-imultilib|
    -include-pch|-isystem-after|-iwithsysroot|-fpass-plugin=./evil.so|-Wa,x|-Wl,x|-Wl,-plugin,./evil.so|
    -ccc-install-dir|.|-fuse-ld=./cc1|--config|--config=x|-index-store-path|-gen-cdb-fragment-path|-mllvm|
    -load=./evil.so|-mthread-model|-meabi|-mlinker-version|-x|none|-xnone|-E|-S|-c|-fsyntax-only|-###|-v|-P|-C|-|
    a.c|./a.c|b.c|evil.c|--param|-T|-e|-u|-z|-idirafter|-iprefix|-iquote|-framework|-arch|--sysroot|--sysroot=|
    -target|--target|--serialize-diagnostics|--output|-foutput|-fprofile-use=x|-fdebug-prefix-map=a=b|
    -fmacro-prefix-map=a=b|-D|-U|-I|-include|-imacros||=|-D=|-I=|-IX|-DX|-DX=1 #pragma x|-Dprintf(...)=0|-mabi=ms|
    -march=native|-m32|-std=c99|-ansi|-fno-plugin=x|-fuse-linker-plugin|-frandom-seed=x|-fcompare-debug=./x|
    -fauto-profile=x|-ftime-trace=precious.txt|-fstack-usage|-fsanitize-blacklist=x|-fsanitize=address|
    -fcrash-diagnostics-dir=x|-fexec-charset=utf-8|-finput-charset=x|-stdlib=x|-Wp,-DX|-Wp,-D,X|-Wp,-MD|-Wp,@more|
    -Wp,--,-fplugin=./evil.so|-Wp,-DX,-fplugin=./evil.so|-Wp,-D,-fplugin=./evil.so|-Wp,-I,-oprecious.txt|
    --target=./evil|./evil|--target=x86_64-linux-gnu|-target=x|--gcc-toolchain=.|--gcc-toolchain=@x|
    -fprofile-generate=precious.txt|-fembed-bitcode|-foffload=x|-fcallgraph-info|-fdiagnostics-format=sarif-file|
    -fopt-info-all=precious.txt|-fmodule-output=precious.txt|-fmodule-file=evil.so|-fcs-profile-generate=x|
    -mrelax-all|-mexec-model=reactor|-mmcu=evil|-iplugindir=.|-stdlib++-isystem|-cxx-isystem|-F.|-iframework|
    -ivfsoverlay|specs|-fprebuilt-module-path=.|-fbuild-session-file=x|-working-directory|-working-directory=x|
    -resource-dir=.|-gcc-toolchain
"""
KNOWN = re.compile(r"(?:gcc|clang|cc1|cc1plus|python3)|clang-\d+|python3[.]\d+|x86_64-linux-gnu-gcc-\d+")


@held
def test_made_lists():
    """Of random lists of hostile words those that are kept run only compilers' preprocessors, and write nothing."""
    folder, mark = hostile("-c", "a.c")
    for name in ("more", "specs", "b.c", "X", "evil-clang.cfg"):
        folder.put(name, f"-fplugin={folder.work}/evil.so -oprecious.txt\n")
    words = [it.strip("\n").strip() for it in HOSTILE.replace("|\n", "|").split("|")]
    status, output, fault = folder.run_python(MADE, 1, LISTS, folder.work, json.dumps(words), seconds=600)
    if status != 0:
        return f"{status} {fault[-300:]}"
    kept = json.loads(output)
    chosen = {tuple(used): made for made, used in kept}
    odd = [it for it in chosen if any(word.startswith("@") for word in it) or "--" in it]
    if odd:
        return f"a word is given that names more: {odd[:3]}"
    lists = random.Random(2).sample(sorted(chosen), min(TRIED, len(chosen)))
    (folder.top / "lists").write_text(json.dumps([chosen[it] for it in lists]))
    said = is_harmless(folder, mark, [it for it in ("gcc", "clang", newest_clang()) if it])
    print(f"  {LISTS} lists, {len(kept)} kept, {len(chosen)} different, {len(lists)} run")
    return said


def is_harmless(folder, mark, compilers):
    """True if giving lists of words to compilers only runs these, and changes no file."""
    before = {it.name: it.stat().st_mtime_ns for it in folder.work.iterdir()}
    trace = folder.top / "trace"
    calls = "trace=execve,openat,creat,rename,unlink,mkdir"
    run = [folder.python, "-c", RUN, str(folder.work), json.dumps(compilers)]
    status, _, fault = folder.started(["strace", "-f", "-qq", "-e", calls, "-o", str(trace), *run], 1800)
    started, written = set(), set()
    for line in trace.read_text(errors="replace").splitlines():
        if "execve(" in line and line.endswith("= 0"):
            started.add(os.path.basename(line.split('execve("')[1].split('"')[0]))
        if re.search(r"O_WRONLY|O_RDWR|creat\(|rename\(|mkdir\(", line) and "= -1" not in line:
            written.add(line)
    bad = {it for it in started if not KNOWN.fullmatch(it)}
    odd = {it for it in written if "/dev/null" not in it and '"/tmp/cc' not in it}
    after = {it.name: it.stat().st_mtime_ns for it in folder.work.iterdir()}
    is_well = status == 0 and not bad and not odd and before == after and not is_harmed(folder, mark)
    return is_well or f"{status} {bad} {sorted(odd)[:3]} {fault[-200:]}"


# Prints which of a list of words are dropped.
DROPPED = """
import json, sys
from fmtcanon.compiling.compile_words import options_of
from fmtcanon.compiling.left import Left
found = []
for word in json.load(sys.stdin):
    try:
        found += [word] if not options_of((word,)).kept else []
    except Left:
        pass
print(json.dumps(found))
"""


def options_of(compiler):
    """The options of -f that a compiler tells about."""
    asks = ["--help=common", "--help=c", "--help=c++", "--help=optimizers", "--help=joined", "--help=target"]
    found = set()
    for one in asks if compiler == "gcc" else ["--help-hidden"]:
        said = subprocess.run([compiler, one], capture_output=True, check=False).stdout.decode(errors="replace")
        found |= set(re.findall(r"(?m)^\s+(-f[\w-]+)", said))
    return sorted(found | {re.sub("^-f(?:no-)?", "-fno-", it) for it in found})


def macros_with(compiler, language, *words):
    """The macros that a compiler defines, or none if it doesn't take these words."""
    run = [compiler, "-E", "-dM", "-w", "-x", language, *words, os.devnull]
    done = subprocess.run(run, capture_output=True, check=False)
    return re.findall(rb"(?m)^#define .*", done.stdout) if done.returncode == 0 else []


@held
def test_what_is_dropped_by_its_letter():
    """No option of -f that a compiler tells about and that is dropped changes a macro."""
    bad, tried = [], 0
    for compiler in ("gcc", newest_clang() or "clang"):
        found = options_of(compiler)
        folder = Folder()
        words = ["sh", "-c", '"$@" < ../given', "sh", folder.python, "-c", DROPPED]
        folder.put("../given", json.dumps(found))
        dropped = json.loads(folder.started(words)[1])
        for language in ("c", "c++"):
            plain = macros_with(compiler, language)
            for one in dropped:
                made = macros_with(compiler, language, one)
                tried += bool(made)
                bad += [f"{compiler} {language} {one}"] if made and made != plain and "help" not in one else []
    return (tried > 500 and not bad) or f"{tried} tried: {bad}"


Tests = tests_of(globals())
