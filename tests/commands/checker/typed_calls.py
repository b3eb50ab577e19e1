"""Tries fmtcanon-check against the compilers of the platforms: each expression of a list with each directive."""

import json
import os
import re
import subprocess
from collections import Counter
from concurrent.futures import ThreadPoolExecutor

from tests.frame.harness import TIMEOUT, TOP

# The first lines of each source: headers, and what the expressions name.
FRONTS = {name: TOP / f"tests/platforms/{name}_front.h" for name in ("c", "posix")}
LISTS = {name: TOP / f"tests/platforms/{name}_expressions.txt" for name in FRONTS}
INTEGERS = [f"%{length}{letter}" for letter in "diouxX" for length in ("", "hh", "h", "l", "ll", "z", "t", "j")]
COUNTS = [f"%{length}n" for length in ("", "hh", "h", "l", "ll", "z", "t", "j")]
DIRECTIVES = [*INTEGERS, *COUNTS, "%c", "%lc", "%C", "%s", "%ls", "%S", "%p", "%f", "%e", "%Lf"]
# How many expressions are in one source.
TOGETHER = 40
# Kinds of what the command says, where gcc has a message about a type.
WRONG = ("size", "kind", "rank")
MESSAGE = re.compile(r"expects (?:argument of type|a matching)")


def expressions_of(name):
    """The expressions of a list."""
    lines = LISTS[name].read_text(encoding="utf-8").splitlines()
    return [it for it in lines if it and not it.startswith("#")]


def source_of(name, expressions):
    """A source, and what each of its lines has: an expression and a directive."""
    front = FRONTS[name].read_text(encoding="utf-8")
    rows = [(expression, directive) for expression in expressions for directive in DIRECTIVES]
    start = front.count("\n") + 1
    lines = [f'  say("{directive}", {expression});\n' for expression, directive in rows]
    return front + "".join(lines) + "}\n", dict(enumerate(rows, start))


def messages(words, name, work):
    """What a compiler says of the types in a file, the lines with errors, and its messages by line."""
    words = [*words, "-fsyntax-only", "-Wformat=2", "-fmax-errors=0", "-fdiagnostics-format=json", name]
    done = subprocess.run(
        words, cwd=work, env={**os.environ, "LC_ALL": "C"}, capture_output=True, text=True, check=False, timeout=TIMEOUT
    )
    said, errors = {}, set()
    for found in json.loads(next(it for it in done.stderr.split("\n") if it.startswith("["))):
        line = found["locations"][0]["caret"]["line"]
        if "error" in found["kind"]:
            errors.add(line)
        elif found.get("option") == "-Wformat=" and MESSAGE.search(found["message"]):
            said[line] = found["message"]
    return said, errors


def said_of(tool, names, jobs):
    """What the command says of files: what is wrong by file, line and platform, and what it doesn't judge."""
    tool.put_commands(*(["gcc", "-c", name] for name in names))
    words = ["--rank", "--composed", "--output", "json", "--jobs", str(jobs)]
    _, output, fault = tool.run("-p", ".", *words)
    wrong, unjudged = {}, []
    for found in map(json.loads, output.splitlines()):
        if "platforms" not in found:
            unjudged.append((found["file"], found["line"], found["message"]))
            continue
        for platform, it in found["platforms"].items():
            if it["fit"] in WRONG:
                wrong[found["file"], found["line"], platform] = it["is"]
    return wrong, unjudged, fault


def compared(tool, compilers, jobs):
    """Yields each answer of the command that isn't a compiler's; returns how many answers were compared."""
    sources = {}
    for name in LISTS:
        listed = expressions_of(name)
        for at in range(0, len(listed), TOGETHER):
            text, rows = source_of(name, listed[at : at + TOGETHER])
            tool.put(f"{name}{at}.c", text)
            sources[f"{name}{at}.c"] = rows
    wrong, unjudged, fault = said_of(tool, sources, jobs)
    with ThreadPoolExecutor(jobs) as pool:
        pairs = [(p, s) for p in compilers for s in sources if not (p == "LLP64" and s.startswith("posix"))]
        answers = pool.map(lambda it: messages(compilers[it[0]], it[1], tool.work), pairs)
        found = dict(zip(pairs, answers))
    counts, different = Counter(), []
    for (platform, name), (said, errors) in found.items():
        for line, (expression, directive) in sources[name].items():
            if line in errors:
                continue
            counts[platform] += 1
            mine = wrong.get((name, line, platform))
            if (mine is None) == (line in said):
                different.append((platform, expression, directive, mine, said.get(line)))
    return counts, different, unjudged, fault


# Expressions whose answers differ, with the words of docs/PORTING.md that say so.
KNOWN = {"v->b40": "bit-fields of more than 32 bits"}
# How many answers of a thousand may differ.
MOST = 1


def try_typed_calls(tool, compilers, trials, jobs):
    """For each expression with each directive, the command says that the type is wrong if its platform's gcc does."""
    counts, different, unjudged, fault = compared(tool, compilers, jobs)
    trials.expect(f"all is judged: {fault}", unjudged, [])
    page = " ".join((TOP / "docs/PORTING.md").read_text(encoding="utf-8").split())
    trials.expect("docs/PORTING.md says what differs", [it for it in KNOWN.values() if it not in page], [])
    for platform in compilers:
        listed = [it[1:] for it in different if it[0] == platform]
        total = counts[platform]
        print(f"fmtcanon-check answers {total - len(listed)} of {total} questions as the compiler of {platform} does")
        trials.expect(f"{platform}: enough is compared", total > 30000, True)
        trials.expect(f"{platform}: {len(listed)} answers differ", 1000 * len(listed) <= MOST * total, True)
        trials.expect(f"{platform}: new differences", [it for it in listed if it[0] not in KNOWN], [])
