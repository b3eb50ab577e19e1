"""What the tests share: a run of the program, and rows and examples of the repository's files."""

import json
import re
import shlex
import subprocess

from tests.frame import TOP

# The seconds after which a run counts as hanging: many times what any takes, also on a busy machine.
TIMEOUT = 600
VERSION = (TOP / "VERSION").read_text(encoding="utf-8").strip()
# The name by which programs ask for the C library.
SONAME = f"libfmtcanon.so.{VERSION.split('.')[0]}"
# What the commands in Python are given as the program, which none of them needs.
NO_PROGRAM = "/nothing/fmtcanon"
# The packages of the commands that have another name: `check` is a function of the module.
PACKAGES = {"check": "checker"}


def run(program, words, stdin=b"", **devices):
    """The status, standard output and standard error of a run; None for a stream that isn't a pipe."""
    options = {"stdout": subprocess.PIPE, "stderr": subprocess.PIPE, "input": stdin, **devices}
    done = subprocess.run([program, *words], timeout=TIMEOUT, check=False, **options)
    return done.returncode, done.stdout, done.stderr


def model_rows():
    """Rows of a model of the program that shares no code with it."""
    return [json.loads(line) for line in (TOP / "tests/commands.jsonl").read_text(encoding="utf-8").splitlines()]


def section(document, heading):
    """The part of a document below a heading, up to the next one of its level."""
    text = document.read_text(encoding="utf-8")
    return text.split(f"\n## {heading}\n")[1].split("\n## ")[0]


def examples(document, heading=None):
    """The commands in indented blocks of a document, or of its part below a heading: each a line that begins with '$ ',
    with the lines that follow it.
    """
    command, output = None, []
    text = section(document, heading) if heading else document.read_text(encoding="utf-8")
    for line in text.splitlines() + [""]:
        if line.startswith("    $ "):
            if command:
                yield command, output
            command, output = line[6:], []
        elif line.startswith("    ") and command:
            output.append(line[4:])
        elif command:
            yield command, output
            command, output = None, []


def page_examples(page):
    """The commands in the EXAMPLES of a manual page, each a line that begins with '$ ', with the lines that follow
    it.
    """
    text = page.read_text(encoding="utf-8")
    block = re.search(r"^\.SH EXAMPLES\n\.EX\n(.*?)^\.EE$", text, flags=re.DOTALL | re.MULTILINE).group(1)
    for escape, character in {"\\(aq": "'", "\\(ga": "`", "\\-": "-", "\\e": "\\"}.items():
        block = block.replace(escape, character)
    for example in re.split(r"^\$ ", block, flags=re.MULTILINE)[1:]:
        command, _, output = example.partition("\n")
        yield command, output.splitlines()


def usage_texts():
    """The words after each line that begins with '$', with the text below it, up to an empty line before the next."""
    blocks = re.split(r"^\$", (TOP / "tests/usage.txt").read_text(encoding="utf-8"), flags=re.MULTILINE)
    for block in blocks[1:]:
        words, _, text = block.partition("\n")
        yield shlex.split(words), text[:-1]


def fences(text):
    """The blocks of a document, each with its language."""
    return re.findall(r"^```(\w*)\n(.*?)^```", text, flags=re.DOTALL | re.MULTILINE)
