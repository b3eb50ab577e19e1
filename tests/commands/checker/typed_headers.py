"""Tries the types that fmtcanon-check has for what the system's headers declare, against gcc on each platform.

Each integer is an argument of `%p`: so the command and gcc say its type.
"""

import json
import re
import subprocess
from collections import Counter
from concurrent.futures import ThreadPoolExecutor
from pathlib import Path

from tests.commands.checker.typed_calls import messages
from tests.frame.harness import TIMEOUT, TOP

FOLDERS = ("/usr/include", "/usr/include/x86_64-linux-gnu")
PARTS = ("", "arpa", "net", "netinet", "protocols", "rpc", "scsi", "sys")
# Headers of the C library say so. This one is the kernel's.
OF_THE_LIBRARY = re.compile(r"GNU C Library")
KERNEL = ["linux/types.h"]
# What gcc says of an argument of `%p` that is an integer.
TYPE = re.compile(r"argument 2 has type '([^']*)'(?: \{aka '([^']*)'\})?")
# What gcc calls the types, with the words in the order of C.
NAMES = {
    "int": "int",
    "unsigned int": "unsigned int",
    "long int": "long",
    "long unsigned int": "unsigned long",
    "long long int": "long long",
    "long long unsigned int": "unsigned long long",
}
LINUX = ("LP64", "ILP32", "ILP32 with 64-bit time_t")


def headers():
    """The C library's headers, and those of the kernel."""
    found = {}
    for folder in FOLDERS:
        for part in PARTS:
            for file in sorted(Path(folder, part).glob("*.h")):
                if OF_THE_LIBRARY.search(file.read_text(encoding="utf-8", errors="replace")):
                    found[str(file.relative_to(folder))] = None
    return [*found, *KERNEL]


def preprocessed(tool, header):
    """Writes what gcc makes of a header, and its macros. Returns whether it can be included alone, on 32 bits too."""
    name = header.replace("/", "-")
    file = tool.put(f"{name}.c", f"#define _GNU_SOURCE\n#include <{header}>\n")
    for words, end in [(["-m32", "-fsyntax-only"], None), (["-E"], "i"), (["-E", "-dM"], "macros")]:
        done = subprocess.run(
            ["gcc", "-w", *words, str(file)],
            cwd=tool.work,
            capture_output=True,
            text=True,
            check=False,
            timeout=TIMEOUT,
        )
        if done.returncode:
            return False
        if end:
            tool.put(f"{name}.{end}", done.stdout)
    return True


def listed(tool, names):
    """The expressions of headers."""
    words = [tool.python, str(TOP / "tests/platforms/list_types.py"), str(tool.work), *names]
    done = subprocess.run(words, cwd=tool.work, capture_output=True, text=True, check=True, timeout=TIMEOUT)
    return dict(zip(names, map(json.loads, done.stdout.splitlines())))


def source_of(header, expressions):
    front = f"#define _GNU_SOURCE\n#include <{header}>\n"
    front += "__attribute__((format(printf, 1, 2))) int say_type(const char *, ...);\nvoid type_of(void) {\n"
    lines = [f'  say_type("%p", {it});\n' for it in expressions]
    return front + "".join(lines) + "}\n", dict(enumerate(expressions, front.count("\n") + 1))


def type_in(message):
    """The type that gcc names, or None if it isn't an integer."""
    found = TYPE.search(message)
    return NAMES.get(found[2] or found[1]) if found else None


def put_sources(tool, pool):
    """Writes a source for each header, of the expressions that gcc compiles. Returns the expressions by line."""
    names = [it for it, is_there in zip(headers(), pool.map(lambda it: preprocessed(tool, it), headers())) if is_there]
    expressions = listed(tool, names)

    def put(header):
        name, kept = header.replace("/", "-") + ".c", expressions[header]
        while kept:
            text, rows = source_of(header, kept)
            tool.put(name, text)
            said, errors = messages(["gcc", "-m64"], name, tool.work)
            integers = {line for line, message in said.items() if type_in(message)}
            if integers == set(rows):
                return name, rows
            kept = [it for line, it in rows.items() if line in integers - errors]
        return name, {}

    return {name: rows for name, rows in pool.map(put, names) if rows}


def compared(tool, compilers, jobs):
    """Returns how many types were compared on each platform, and those that differ."""
    with ThreadPoolExecutor(jobs) as pool:
        sources = put_sources(tool, pool)
        tool.put_commands(*(["gcc", "-c", it] for it in sources))
        _, output, fault = tool.run("-p", ".", "--output", "json", "--jobs", str(jobs))
        found, others = {}, []
        for it in map(json.loads, output.splitlines()):
            if "platforms" not in it:
                others.append((it["file"], it["line"], it["message"]))
                continue
            for platform in LINUX:
                found[it["file"], it["line"], platform] = it["platforms"][platform]["is"]
        pairs = [(platform, name) for platform in LINUX for name in sources]
        said = dict(zip(pairs, pool.map(lambda it: messages(compilers[it[0]], it[1], tool.work), pairs)))
    counts, different = Counter(), []
    for (platform, name), (lines, errors) in said.items():
        for line, expression in sources[name].items():
            type = type_in(lines.get(line, ""))
            if type is None or line in errors:
                continue
            counts[platform] += 1
            mine = found.get((name, line, platform))
            if mine != type:
                different.append((platform, name, expression, mine, type))
    return counts, different, others, fault


# Macros that the headers choose by `#if`, which the command can't see.
CHOSEN = {"DR_CONTROL_RESERVED"}


def try_typed_headers(tool, compilers, trials, jobs):
    """Each integer of the headers has the type on each platform that gcc has for it there."""
    counts, different, others, fault = compared(tool, compilers, jobs)
    trials.expect(f"all headers are judged: {fault}", others, [])
    for platform in LINUX:
        listed = [it[1:] for it in different if it[0] == platform]
        print(
            f"fmtcanon-check has {counts[platform] - len(listed)} of {counts[platform]} types of headers as "
            f"{platform} has"
        )
        trials.expect(f"{platform}: enough is compared", counts[platform] > 10000, True)
        trials.expect(f"{platform}: types of headers", [it for it in listed if it[1] not in CHOSEN], [])
