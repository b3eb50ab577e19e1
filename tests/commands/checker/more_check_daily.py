"""Tries what fmtcanon-check has for every day: comments that silence findings, the baseline, macros and shards.

It needs libclang and gcc.
"""

import json
import os
import re
import shutil
import subprocess

from tests.commands.checker.more_check import SAYS
from tests.commands.tool import Tool
from tests.frame.cases import tests_of
from tests.frame.harness import TIMEOUT, TOP

# Lines of a source, and the kinds of what is found there with --rank; what is silenced isn't.
SILENCED = [
    ('  printf("%lu", n);', ["size"]),
    ('  printf("%lu", n); /* fmtcanon: ok */', []),
    ('  printf("%lu", n); // fmtcanon: ok size', []),
    ('  printf("%lu", n); // fmtcanon: ok kind', ["size", "unused"]),
    ("  // fmtcanon: ok size, kind -- n is small", []),
    ('  printf("%lu", n);', []),
    ('  printf("%lu", n);', ["size"]),
    ('  printf("%d", 1); // fmtcanon: ok', ["unused"]),
    ('  printf("%u", i); // fmtcanon: ok sign', []),
    ('  printf("%y", i); // fmtcanon: ok unjudged', []),
    ('  printf("%m"); // fmtcanon: ok errno', []),
    ('  printf("/* fmtcanon: ok */ %lu", n);', ["size"]),
    ("  printf( // fmtcanon: ok", []),
    ('    "%lu", n);', []),
    ('  SHOW(n); // fmtcanon: ok', []),
    ('  NOTED(n);', []),
]
MACROS = '#define SHOW(n) printf("%lu\\n", n)\n#define NOTED(n) printf("%lu", n) /* fmtcanon: ok */\n'


def tool(folder, work, python):
    return Tool("check", folder, work, python)


def kinds_by_line(output):
    found = {}
    for one in map(json.loads, output.splitlines()):
        found.setdefault(one["line"], []).append(one["kind"])
    return found


def test_comments(tool, trials):
    """Comments silence what is found in their lines, also for --fix; those that silence nothing are notes."""
    front = f"{SAYS}{MACROS}void f(size_t n, int i) {{\n"
    source = front + "".join(f"{line}\n" for line, _ in SILENCED) + "}\n"
    file = tool.put("a.c", source)
    status, output, fault = tool.run("--output", "json", "a.c")
    first = front.count("\n") + 1
    wanted = {first + at: kinds for at, (_, kinds) in enumerate(SILENCED) if kinds}
    trials.expect(f"comments: {fault}", (status, kinds_by_line(output)), (1, wanted))
    trials.expect(f"the summary: {fault}", fault.endswith(": 4 size, 2 unused\n"), True)
    tool.run("--fix", "a.c")
    fixed = source.split("\n")
    for at, (line, kinds) in enumerate(SILENCED):
        if "size" in kinds:
            fixed[first - 1 + at] = line.replace("%lu", "%zu")
    trials.expect("--fix", file.read_text(encoding="utf-8").split("\n"), fixed)
    status, output, _ = tool.run("a.c")
    trials.expect(f"a note doesn't set the status: {output}", (status, output.count("[unused]")), (0, 2))
    trials.expect("unless it is asked for", tool.run("--fail-on", "unused", "a.c")[0], 1)


def test_comments_in_headers(tool, trials):
    """A comment in a header silences for all files; that it silences nothing isn't known from some of them."""
    shows = "static inline void %s(size_t n) {\n  printf(\"%%lu\", n);%s\n}\n"
    tool.put("a.h", SAYS + shows % ("one", " // fmtcanon: ok") + shows % ("two", "") + "/* fmtcanon: ok */\n")
    for name in ("a.c", "b.c"):
        tool.put(name, f'#include "a.h"\nvoid {name[0]}(size_t n) {{ one(n); two(n); }}\n')
    status, output, _ = tool.run("--output", "json", "a.c", "b.c")
    trials.expect(f"a header: {output}", (status, kinds_by_line(output)), (1, {9: ["size"]}))


MACROS_OF_HEADER = """#include <stdio.h>
#include <inttypes.h>
#define SHOW(n) printf("%lu\\n", n)
#define LOG(...) \\
  do { fprintf(stderr, "x " __VA_ARGS__); \\
  } while (0)
#define FMT "%lx"
#define TWICE(n) do { SHOW(n); \\
  printf("two %5lu", \\
    n); } while (0)
#define QUIET(n) printf("%lo", n) /* fmtcanon: ok */
#define P64(n) printf("%" PRIu64, n)
#define A(n) printf("both %lu", n)
#define B(n) printf("both %lu", n)
#define BOTH(n) do { A(n); B(n); } while (0)
#define SPLICED(n) printf("spl\\
iced %lu", n)
static inline void in_line(size_t n) { SHOW(n); }
"""
USES = """#include "a.h"
#define OWN(n) printf("%ld", n)
void NAME(size_t n, uint64_t m) {
  SHOW(n); SHOW(n);
  SHOW(m);
  SHOW(1ul);
  LOG("%lu", n);
  printf("a " FMT, n);
  printf("b "
    FMT " %d", n, 1);
  TWICE(n);
  QUIET(n);
  OWN(n);
  OWN(n);
  P64(n);
  BOTH(n);
  SPLICED(n);
  SHOW(n); // fmtcanon: ok
}
"""
# The macros of the header, by their lines: columns, types of the arguments, and the lines of the uses in a file.
IN_MACROS = [
    (3, 25, "SHOW", "size_t", [4, 4, 11]),
    (3, 25, "SHOW", "uint64_t", [5]),
    (7, 14, "FMT", "size_t", [8, 9]),
    (9, 15, "TWICE", "size_t", [11]),
    (12, 24, "P64", "size_t", [15]),
    (16, None, "SPLICED", "size_t", [17]),
]


def test_macros(tool, trials):
    """What a macro has is one finding for all its uses in all files, where its definition is."""
    tool.put("a.h", MACROS_OF_HEADER)
    for name in "ab":
        tool.put(f"{name}.c", USES.replace("NAME", name))
    status, output, fault = tool.run("--output", "json", "a.c", "b.c")
    found = [json.loads(it) for it in output.splitlines()]
    of_header = [it for it in found if it["file"] == "a.h"]
    said = [
        (it["line"], it["column"], it["macro"], it["type"], [(one["file"], one["line"]) for one in it["calls"]])
        for it in of_header
    ]
    wanted = [(*row[:4], [(f"{it}.c", line) for it in "ab" for line in row[4]]) for row in IN_MACROS]
    # The header has a use itself.
    wanted[0][4].insert(3, ("a.h", 18))
    trials.expect(f"macros of a header: {fault}", (status, said), (1, wanted))
    trials.expect("their uses", [it["uses"] for it in of_header], [len(it[4]) for it in wanted])
    others = [
        (it["file"], it["line"], it["column"], it.get("macro"), it.get("uses")) for it in found if it["file"] != "a.h"
    ]
    # Of two macros with one literal it isn't known which has it.
    rest = [(2, 24, "OWN", 2), (7, 8, None, None), (16, None, None, None)]
    trials.expect("others", others, [(f"{name}.c", *it) for name in "ab" for it in rest])
    text = tool.run("a.c", "b.c")[1]
    trials.expect("text", "use %zu; in the macro SHOW (7 uses) [size]\n" in text, True)
    header = tool.work / "a.h"
    fix = of_header[0]["fix"]
    spelled = header.read_bytes()[fix["start"] : fix["end"]]
    trials.expect("the fix of a macro", (spelled, fix["text"], fix["verified"]), (b"%lu", "%zu", False))
    tool.run("--fix", "a.c", "b.c")
    trials.expect("--fix leaves the header", header.read_text(encoding="utf-8"), MACROS_OF_HEADER)
    known = tool.run("--baseline", "known.json", "a.c", "b.c")[0]
    again = tool.run("--baseline", "known.json", "b.c", "a.c")
    trials.expect(f"macros in a baseline: {again}", (known, again[:2]), (1, (0, "")))


# A program of C++ as those that are mostly classes: its sources, its header, and the places of what is wrong.
PROGRAM = {
    "device.h": """#include <cinttypes>
#include <cstdarg>
#include <cstdio>
#include <string>
#include <vector>
#define FORMAT(m, n) __attribute__((format(printf, m, n)))
void pout(const char *, ...) FORMAT(1, 2);
namespace os {
class device {
 public:
  explicit device(const char *name) : name_(name) {}
  virtual ~device() {}
  bool set_error(int number, const char *format, ...) FORMAT(3, 4);
  static std::string strprintf(const char *format, ...) FORMAT(1, 2);
  uint64_t sectors() const { return sectors_; }
 protected:
  void show() const { pout("%lu\\n", sectors_); }
  std::string name_;
  uint64_t sectors_ = 0;
};
}
""",
    "device.cpp": """#include "device.h"
namespace os {
bool device::set_error(int, const char *format, ...) {
  va_list ap;
  va_start(ap, format);
  std::vprintf(format, ap);
  va_end(ap);
  return false;
}
class disk : public device {
 public:
  using device::device;
  bool open(size_t size) { return size ? set_error(1, "%s: %lu", name_.c_str(), size) : true; }
};
}
""",
    "main.cpp": """#include "device.h"
template <class T> static void each(const std::vector<T> &all) {
  for (const auto &it : all)
    pout("%lu of %zu\\n", it.sectors(), all.size());
}
int main() {
  std::vector<os::device> all;
  each(all);
  for (auto &it : all)
    pout("%s: %" PRIu64 ", %lu\\n", os::device::strprintf("%lu", all.size()).c_str(), it.sectors(), it.sectors());
  auto said = [&](off_t at) { std::printf("%ld\\n", at); };
  said(0);
}
""",
}
# The file and the line of what is wrong there, and the text that begins with the directive, if its column is known.
WRONG = [
    ("device.cpp", 13, '%lu", name_'),
    ("device.h", 17, None),
    ("main.cpp", 10, '%lu\\n"'),
    ("main.cpp", 10, '%lu", all'),
    ("main.cpp", 11, "%ld"),
]


def test_program_of_cxx(tool, trials):
    """Members and functions with attributes, namespaces, lambdas and references of C++ are judged, in all files."""
    for name, text in PROGRAM.items():
        tool.put(name, text)
    tool.put_commands(*(["g++", "-std=gnu++11", "-c", name] for name in PROGRAM if name.endswith(".cpp")))
    status, output, fault = tool.run("-p", ".", "--output", "json")
    found = [(it["file"], it["line"], it["column"]) for it in map(json.loads, output.splitlines())]
    lines = {name: text.split("\n") for name, text in PROGRAM.items()}
    wanted = [(name, line, text and lines[name][line - 1].index(text) + 1) for name, line, text in WRONG]
    trials.expect(f"C++: {fault}", (status, sorted(found, key=str)), (1, wanted))
    trials.expect("no file is left", (fault.split(",")[0], "skipped" in fault), ("2 files", False))


CI = TOP / "examples/ci"
COUNT = 4


def run_of(recipe, word):
    """The line of a recipe that runs a command, in the shell."""
    [line] = re.findall(rf"^ *- (?:run: )?({word}.*)$", (CI / recipe).read_text(encoding="utf-8"), flags=re.MULTILINE)
    return line


def results_in(log):
    """The results of a log, in an order of their own."""
    return sorted(json.dumps(it, sort_keys=True) for it in log["runs"][0]["results"])


def test_shards(tool, trials):
    """The shards of a matrix, as processes at a time, together find what one run finds, each once."""
    tool.put("a.h", MACROS_OF_HEADER)
    for number in range(7):
        own = f'void g{number}(size_t n) {{ printf("%lu", n); }}\n'
        tool.put(f"f{number}.c", USES.replace("NAME", f"f{number}") + own)
    tool.put_commands(*(["gcc", "-c", f"f{number}.c"] for number in range(7)))
    (tool.work / "build").symlink_to(tool.work)
    shutil.copy(CI / "merge_sarif.py", tool.put("tools/merge_sarif.py", ""))
    tool.put("bin/fmtcanon-check", f'#!/bin/sh\nexec "{tool.python}" -m fmtcanon.checker "$@"\n').chmod(0o755)
    path = os.pathsep.join([str(tool.work / "bin"), os.environ["PATH"]])
    environment = {**tool.environment, "PATH": path, "CI_NODE_TOTAL": str(COUNT)}
    status, output, _ = tool.run("-p", "build", "--output", "sarif")
    whole = json.loads(output)
    trials.expect("one run", (status, len(whole["runs"][0]["results"]) > 30), (1, True))
    for recipe, name in [("matrix.yml", "SHARD"), ("gitlab-ci.yml", "CI_NODE_INDEX")]:
        line = run_of(recipe, "fmtcanon-check")
        values = [{**environment, name: str(number)} for number in range(1, COUNT + 1)]
        shards = [
            subprocess.Popen(["sh", "-ec", line], cwd=tool.work, env=it, stderr=subprocess.PIPE) for it in values
        ]
        said = [it.communicate(timeout=TIMEOUT)[1].decode() for it in shards]
        files = sum(int(it.split()[0]) for it in said)
        trials.expect(f"{recipe}: {said}", ([it.returncode for it in shards], files), ([0] * COUNT, 7))
        logs = [json.loads((tool.work / f"shard-{it}.sarif").read_text()) for it in range(1, COUNT + 1)]
        parts = [results_in(it) for it in logs]
        trials.expect(f"{recipe}: each has a part", all(0 < len(it) < len(results_in(whole)) for it in parts), True)
        merge = subprocess.run(["sh", "-ec", run_of(recipe, "python3")], cwd=tool.work, check=False, timeout=TIMEOUT)
        log = json.loads((tool.work / "formats.sarif").read_text())
        trials.expect(f"{recipe}: the status", merge.returncode, 1)
        trials.expect(f"{recipe}: the results", results_in(log), results_in(whole))
        trials.expect(f"{recipe}: the rest", rest_of(log), rest_of(whole))
    found = [tool.run("-p", ".", "--shard", f"{it}/3", "--output", "json", "f0.c", "f1.c")[1] for it in (1, 2, 3)]
    trials.expect("more shards than files", [bool(it) for it in found], [True, True, False])


def rest_of(log):
    run = {name: it for name, it in log["runs"][0].items() if name != "results"}
    return {**log, "runs": [run]}


def test_baseline(tool, trials):
    """What a baseline has isn't reported, also after lines moved, and it is written only when that is asked for."""
    call = 'void %s(size_t n) { printf("%%lu", n); }\n'
    file = tool.put("a.c", SAYS + call % "f")
    status, output, fault = tool.run("--baseline", "known.json", "a.c")
    trials.expect("the first run", (status, output.count("[size]"), "; known.json: 1 recorded" in fault), (1, 1, True))
    text = (tool.work / "known.json").read_bytes()
    trials.expect("the second run", tool.run("--baseline", "known.json", "a.c")[:2], (0, ""))
    tool.put("a.c", f"{SAYS}\n\n{call % 'e'}{call % 'f'}")
    status, output, fault = tool.run("--baseline", "known.json", "a.c")
    trials.expect(f"one more: {fault}", (status, output.count("[size]"), "; 1 in the baseline" in fault), (1, 1, True))
    trials.expect("it isn't written", (tool.work / "known.json").read_bytes(), text)
    tool.run("--baseline", "known.json", "--update-baseline", "a.c")
    trials.expect("after an update", tool.run("--baseline", "known.json", "--rank", "--sign", "a.c")[:2], (0, ""))
    file.write_text(SAYS, encoding="utf-8")
    status, _, fault = tool.run("--baseline", "known.json", "a.c")
    trials.expect("mended", (status, "known.json: 2 not there any more" in fault), (0, True))
    for words, said in [
        (["--update-baseline", "a.c"], "--update-baseline needs --baseline"),
        (["--baseline", "known.json", "--fix", "a.c"], "--baseline isn't for --fix"),
        (["--baseline", "a.c", "a.c"], "a.c isn't a baseline"),
        (["--baseline", "none/known.json", "a.c"], "none/known.json"),
    ]:
        status, _, fault = tool.run(*words)
        trials.expect(f"{words}: {fault}", (status, said in fault), (2, True))


Tests = tests_of(globals())
