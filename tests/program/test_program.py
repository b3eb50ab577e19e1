"""Tries the built program as a program: rows of commands, the examples of the documents, and devices that fail.

It needs a Linux system with bash.
"""

import os
import re
import subprocess

from tests.frame.cases import tests_of
from tests.frame.harness import TIMEOUT, TOP, VERSION, examples, model_rows, run, usage_texts

# The documents, or their parts below a heading, whose examples need the program alone.
DOCUMENTS = [
    ("README.md", "At work"),
    ("docs/CHEATSHEET.md", None),
    ("docs/USING.md", None),
    ("docs/REFUSALS.md", None),
    ("docs/DEFINITIONS.md", None),
    ("docs/TRANSLATIONS.md", "Check one translation"),
    ("docs/REFACTORING.md", "One question"),
]


def test_rows(program, trials):
    """The program replies as that model does."""
    for row in model_rows():
        status, stdout, stderr = run(program, row["words"], row.get("stdin", "").encode("latin-1"))
        wanted_out = row["stdout"].encode("latin-1")
        wanted_err = stderr if row["stderr"] is None else row["stderr"].encode()
        trials.expect(row["words"], (status, stdout, stderr), (row["status"], wanted_out, wanted_err))


def test_profile_as_whole(program, trials):
    """`canon` and `same` answer formats of the profile with --whole as they do without it."""
    rows = [row for row in model_rows() if row["words"][:1] in (["canon"], ["same"]) and row["status"] < 2]
    for row in rows:
        command, *more = row["words"]
        words = [command, "--whole", *more]
        got = run(program, words, row.get("stdin", "").encode("latin-1"))
        trials.expect(words, got, (row["status"], row["stdout"].encode("latin-1"), b""))
    trials.expect("pairs of the profile with --whole", len(rows) > 100, True)


def test_examples(program, trials):
    """Each example of the documents prints what is shown below it, on either stream."""
    folder = os.path.dirname(os.path.abspath(program))
    environment = {**os.environ, "PATH": folder + os.pathsep + os.environ["PATH"], "LC_ALL": "C.UTF-8"}
    for name, heading in DOCUMENTS:
        found = 0
        for command, output in examples(TOP / name, heading):
            found += 1
            done = subprocess.run(
                ["bash", "-c", command],
                timeout=TIMEOUT,
                check=False,
                env=environment,
                cwd=TOP,
                stdin=subprocess.DEVNULL,
                stdout=subprocess.PIPE,
                stderr=subprocess.STDOUT,
            )
            got = done.stdout.decode()
            wanted = "\n".join(output) + "\n" if output else ""
            # Output with no newline at its end shows as a line, too.
            trials.expect(f"{name}: {command}", got if got.endswith("\n") or not got else got + "\n", wanted)
        trials.expect(f"{name} has examples", found > 0, True)


def test_usage(program, trials):
    """Help and usage errors, to the byte, on standard error alone."""
    found = 0
    for words, text in usage_texts():
        found += 1
        trials.expect(f"usage of {words}", run(program, words), (3, b"", text.encode()))
    trials.expect("texts of usage", found, 23)
    trials.expect("the version of the program", run(program, ["--version"])[2].decode(), f"fmtcanon {VERSION}\n")


WHOLE = "## In the whole language\n"
LITERALS = "## String literals\n"
REFUSALS = (TOP / "docs/REFUSALS.md").read_text(encoding="utf-8")
LITERAL_KINDS = ["NoLiteral", "Unterminated", "BadEscape", "EscapeTooLarge", "ZeroByte", "Trigraph"]


def literal_rows():
    """The rows of REFUSALS.md on string literals: the literal, the number and the place of its fault, and what to write
    instead.
    """
    part = REFUSALS.split(LITERALS)[1]
    return re.findall(r"^\| `(.+?)` \| (\d) at (\d+) \| `(.+?)` \|", part, flags=re.MULTILINE)


def test_literals(program, trials):
    """Each row of REFUSALS.md on string literals is a fault there, and the one to write instead is accepted."""
    rows = literal_rows()
    trials.expect(
        "kinds of faults of literals in REFUSALS.md", sorted({int(row[1]) for row in rows}), list(range(1, 7))
    )
    for literal, number, at, instead in rows:
        line = f"literal {number} {LITERAL_KINDS[int(number) - 1]} at byte {at}\n".encode()
        trials.expect(f"canon --literal {literal}", run(program, ["canon", "--literal", "--", literal]), (2, b"", line))
        status, _, stderr = run(program, ["canon", "--literal", "--", instead])
        trials.expect(f"{instead} is accepted, in the place of {literal}", (status, stderr), (0, b""))


def test_whole(program, trials):
    """Each row of REFUSALS.md on the whole language is rejected there, and the one to write instead is accepted."""
    part = REFUSALS.split(WHOLE)[1].split(LITERALS)[0]
    rows = re.findall(r"^\| `(.+?)` \| (\d+) at (\d+) \| `(.+?)` \|", part, flags=re.MULTILINE)
    kinds = {int(number) for _, number, _, _ in rows}
    trials.expect("kinds of the whole language alone in REFUSALS.md", kinds >= {19, 20, 21, 22}, True)
    for format, number, at, instead in rows:
        status, stdout, stderr = run(program, ["types", "--whole", "--", format])
        refusal = re.fullmatch(rb"refused (\d+) \w+ at byte (\d+)\n", stderr)
        trials.expect(
            f"types --whole {format}",
            (status, stdout, refusal and refusal.groups()),
            (2, b"", (number.encode(), at.encode())),
        )
        status, _, stderr = run(program, ["types", "--whole", "--", instead])
        trials.expect(f"{instead} is accepted, in the place of {format}", (status, stderr), (0, b""))


def as_bytes(shown):
    """A format as REFUSALS.md shows it."""
    return shown.replace("\\0", "\0").encode()


def refusal_rows():
    """What REFUSALS.md says of formats: the number and name of the kind where a part says what it means, the format,
    the number and the place of its refusal, and the format to write instead.
    """
    written, _, kinds = REFUSALS.split(WHOLE)[0].partition("## Flags and conversions\n")
    row = r"^\| `([^`]+)` \| (\d+) at (\d+) \| `([^`]+)` \|"
    for format, number, at, instead in re.findall(row, written, re.MULTILINE):
        yield None, as_bytes(format), number, at, as_bytes(instead)
    example = r"^### (\d+) (\w+)\n\n.*\n\n`([^`]+)` is rejected at byte (\d+), and `([^`]+)` is accepted\.$"
    for number, name, format, at, instead in re.findall(example, kinds, re.MULTILINE):
        yield (number, name), as_bytes(format), number, at, as_bytes(instead)


def test_headings(trials):
    """REFUSALS.md has a part for each kind, in the order of their numbers."""
    header = (TOP / "include/fmtcanon.h").read_text(encoding="utf-8")
    part = header.split("enum fmtcanon_kind {")[1].split("};")[0]
    names = [(number, name.replace("_", "").lower()) for name, number in re.findall(r"FMTCANON_(\w+) = (\d+)", part)]
    shown = re.findall(r"^### (\d+) (\w+)$", REFUSALS, re.MULTILINE)
    trials.expect("kinds with a part of REFUSALS.md", [(number, name.lower()) for number, name in shown], names)


def flag_cells():
    """The table of flags and conversions in REFUSALS.md: what is written before a conversion, the conversion, and the
    cell.
    """
    part = REFUSALS.split("## Flags and conversions\n")[1].split("\n## ")[0]
    head, _, *rows = [re.split(r" *\| *", line.strip("| ")) for line in part.splitlines() if line.startswith("|")]
    written = {"space": " ", "a width": "8", "a precision": ".3"}
    for mark, *cells in rows:
        for conversions, cell in zip(head, cells):
            for conversion in conversions.strip("`").split():
                yield written.get(mark, mark.strip("`")), conversion, cell


def test_flags(program, trials):
    """Each cell of the table of flags and conversions is what the program says."""
    count = 0
    for mark, conversion, cell in flag_cells():
        count += 1
        format = f"%{mark}{conversion}"
        status, _, stderr = run(program, ["types", "--whole", "--", format])
        refused = re.match(rb"refused (\d+) ", stderr)
        got = refused[1].decode() if refused else "accepted"
        if not refused:
            # A flag is compared in a field, where `-` and `0` show.
            width = "" if mark in ("8", ".3") else "8"
            pair = [f"%{mark}{width}{conversion}", f"%{width}{conversion}"]
            got = {0: "ignored", 1: "yes"}.get(run(program, ["same", "--whole", "--", *pair])[0], "refused")
        trials.expect(f"{format} in the table of flags: {status}", got, cell)
    trials.expect("cells of the table of flags", count, 8 * 23)


def test_refusals(program, trials):
    """Each format of REFUSALS.md is rejected as its row says, and the one to write instead is accepted."""
    rows = list(refusal_rows())
    names = dict(kind for kind, *_ in rows if kind)
    trials.expect("kinds of REFUSALS.md", list(names), [str(number) for number in range(1, 18)])
    for kind, format, number, at, instead in rows:
        if kind:
            trials.expect(f"the number in the row of {format}", number, kind[0])
        line = f"refused {number} {names[number]} at byte {at}\n".encode()
        status, _, stderr = run(program, ["stream"], format)
        trials.expect(f"stream refuses {format}", (status, stderr), (2, line))
        # An argument can't hold NUL.
        if b"\0" not in format:
            trials.expect(f"types refuses {format}", run(program, ["types", "--", format]), (2, b"", line))
        status, _, stderr = run(program, ["types", "--", instead])
        trials.expect(f"{instead} is accepted, in the place of {format}", (status, stderr), (0, b""))


def test_words(program, trials):
    """Arguments that are not text, and many words."""
    status, stdout, stderr = run(program, ["canon", b"\xff"])
    trials.expect("a word that is not UTF-8", (status, stdout), (3, b""))
    trials.expect("a line says so", re.fullmatch(rb"error: .*\n", stderr) is not None, True)
    words = ["format", "%d" * 40_000] + [f"n:{i}" for i in range(40_000)]
    wanted = "".join(map(str, range(40_000))).encode()
    trials.expect("40,000 arguments", run(program, words), (0, wanted, b""))


def test_sizes(program, trials):
    """Numbers of more than one byte in a report, and formats of four million bytes."""
    for at in [255, 256, 65_535, 65_536, 4_000_000]:
        line = f"refused 3 Unexpected at byte {at}\n".encode()
        front = b"x" * (at - 1)
        trials.expect(f"stream refused at byte {at}", run(program, ["stream"], front + b"%y"), (2, front, line))
    for count in [255, 256, 300, 20_000]:
        format, arguments = "%d" * count, ["n:1"] * (count - 1)
        line = f"argument count: wanted {count}, given {count - 1}\n".encode()
        trials.expect(
            f"{count - 1} arguments for {count}", run(program, ["format", format, *arguments]), (3, b"", line)
        )
        line = f"argument {count - 1}: not an argument\n".encode()
        trials.expect(f"a wrong word {count}", run(program, ["format", format, *arguments, "5"]), (3, b"", line))
        line = f"argument {count - 1}: wrong type\n".encode()
        trials.expect(f"a wrong type {count}", run(program, ["format", format, *arguments, "s:"]), (3, b"", line))
        line = f"types differ at argument {count}\n".encode()
        trials.expect(
            f"types that differ at {count}", run(program, ["same", format + "%d", format + "%s"]), (1, line, b"")
        )
    greatest = (1 << 64) - 1
    answer = f"different\nn:{greatest}\n".encode()
    trials.expect("the greatest number", run(program, ["same", "%lx", "%lu"]), (1, answer, b""))
    trials.expect("the same, printed", run(program, ["format", "%lx", f"n:{greatest}"]), (0, b"f" * 16, b""))
    trials.expect("one more", run(program, ["format", "%lx", f"n:{greatest + 1}"])[0], 3)
    text = (b" " * 4084 + b"%11d") * 1000
    trials.expect(
        "a canonical text of four million bytes", run(program, ["canon", "%4095d" * 1000]), (0, text + b"\n", b"")
    )
    trials.expect("the same by stream", run(program, ["stream"], b"%4095d" * 1000), (0, text, b""))
    trials.expect(
        "four million bytes by stream", run(program, ["stream"], b"%i%%x!" * 700_000), (0, b"%d%%x!" * 700_000, b"")
    )


def test_devices(program, trials):
    """A full device, closed streams, and a pipe whose reader has left."""
    commands = [["canon", "%i"], ["types", "%d"], ["show", "%d"], ["format", "x"], ["same", "%i", "%d"]]
    for words in commands:
        with open("/dev/full", "wb") as full:
            status, _, stderr = run(program, words, stdout=full)
        trials.expect(f"{words} to a full device", (status, stderr), (4, b"write failed\n"))
        reader, writer = os.pipe()
        os.close(reader)
        status, _, stderr = run(program, words, stdout=writer)
        os.close(writer)
        trials.expect(f"{words} to a pipe that nobody reads", (status, stderr), (4, b"write failed\n"))
        quoted = " ".join(f"'{word}'" for word in words)
        done = subprocess.run(
            ["bash", "-c", f"'{program}' {quoted} >&-"], stderr=subprocess.PIPE, timeout=TIMEOUT, check=False
        )
        trials.expect(f"{words} with standard output closed", (done.returncode, done.stderr), (4, b"write failed\n"))
        done = subprocess.run(
            ["bash", "-c", f"'{program}' {quoted} 2>&- <&-"], stdout=subprocess.PIPE, timeout=TIMEOUT, check=False
        )
        trials.expect(f"{words} with the other two closed", done.returncode, 0)


def said_to_be_tried():
    """Returns how many runs and comparisons tests/README.md says that these tests make."""
    found = re.search(r"([\d,]+) runs and comparisons", (TOP / "tests/README.md").read_text(encoding="utf-8"))
    return int(found[1].replace(",", ""))


Tests = tests_of(globals(), said_to_be_tried)
