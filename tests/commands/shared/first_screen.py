"""Draws docs/first.svg, the picture at the top of the README: what a terminal shows of two commands.

    python3 -m tests.commands.shared.first_screen

It needs a Python that has libclang, and the library. more_reading.py compares the picture with what the commands
print.
"""

import re
import tempfile
from html import escape
from pathlib import Path

from tests.commands.shared.reader import Reader
from tests.frame.fixtures import folder, python_with
from tests.frame.harness import TOP

PICTURE = TOP / "docs/first.svg"
FILES = {it.name: it.read_text(encoding="utf-8") for it in (TOP / "examples/first").iterdir()}
COMMANDS = ["fmtcanon-check names.c", "fmtcanon-po de.po"]
# The height of a line, the size of its letters, the width of one, and the room around the lines.
LINE, SIZE, LETTER, MARGIN, COLUMNS = 19, 14, 8.43, 14, 80
GROUND, PLAIN = "#1d1f27", "#d8dee9"
# The colours and weights of escape sequences.
STYLES = {
    "0": "",
    "1": ' font-weight="bold"',
    "1;31": ' font-weight="bold" fill="#ff6b68"',
    "1;35": ' font-weight="bold" fill="#d787ff"',
    "1;36": ' font-weight="bold" fill="#5fd7ff"',
}
PROMPT = ' fill="#8bd649"'
KEPT = 'xml:space="preserve"'


def spans(line):
    """The parts of a line, each with the attributes that its colour has."""
    style = ""
    for part in re.split(r"(\x1b\[[\d;]*m)", line):
        if part.startswith("\x1b"):
            style = STYLES[part[2:-1]]
        elif part:
            yield part, style


def drawn(screens):
    """A picture of a terminal: commands, each with the lines that it shows."""
    lines = []
    for command, text in screens:
        lines += [[("$ ", PROMPT), (command, STYLES["1"])], *(list(spans(it)) for it in text.splitlines()), []]
    height, width = LINE * (len(lines) - 1) + 2 * MARGIN, round(LETTER * COLUMNS) + 2 * MARGIN
    head = f'<svg xmlns="http://www.w3.org/2000/svg" viewBox="0 0 {width} {height}" width="{width}" height="{height}">'
    parts = [head, f'<rect width="{width}" height="{height}" rx="8" fill="{GROUND}"/>']
    parts.append(f'<g font-family="monospace" font-size="{SIZE}" fill="{PLAIN}">')
    for number, line in enumerate(lines):
        column, y = 0, MARGIN + LINE * number + SIZE
        for text, style in line:
            # Each part has its own place and length, so that carets are below what they mark in every font. Chromium
            # keeps spaces only where the part itself says so.
            x, length = MARGIN + LETTER * column, LETTER * len(text)
            parts.append(f'<text x="{x:.1f}" y="{y}" textLength="{length:.1f}" {KEPT}{style}>{escape(text)}</text>')
            column += len(text)
    return "\n".join([*parts, "</g>", "</svg>", ""])


def shown(picture):
    """The lines of text of a picture."""
    lines = {}
    for x, y, text in re.findall(r'<text x="([\d.]+)" y="(\d+)"[^>]*>([^<]*)</text>', picture):
        plain = text.replace("&lt;", "<").replace("&gt;", ">").replace("&quot;", '"').replace("&#x27;", "'").replace(
            "&amp;", "&"
        )
        column = round((float(x) - MARGIN) / LETTER)
        lines[int(y)] = lines.get(int(y), "").ljust(column) + plain
    return [lines[it] for it in sorted(lines)]


def screens(reader):
    """What a terminal shows of each command."""
    for name, text in FILES.items():
        reader.put(name, text)
    return [(it, reader.screen(it)) for it in COMMANDS]


def write():
    with tempfile.TemporaryDirectory() as name:
        reader = Reader(Path(name), folder(), python_with("clang.cindex"))
        PICTURE.write_text(drawn(screens(reader)), encoding="utf-8")


if __name__ == "__main__":
    write()
