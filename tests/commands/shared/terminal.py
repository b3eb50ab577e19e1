"""Runs a command with a pseudo-terminal as its streams, for tests of what a person sees."""

import fcntl
import os
import pty
import re
import struct
import sys
import termios

COLOUR = re.compile(r"\x1b\[[0-9;]*m")


def on_terminal(words, columns=80, folder=None, python=sys.executable, **names):
    """The status of Python with these arguments on a terminal of some columns, and what this gets."""
    child, stream = pty.fork()
    if child == 0:
        try:
            os.chdir(folder or ".")
            environment = {it: value for it, value in os.environ.items() if it not in ("NO_COLOR", "COLUMNS")}
            environment.update({"LC_ALL": "C.UTF-8", **names})
            fcntl.ioctl(1, termios.TIOCSWINSZ, struct.pack("HHHH", 24, columns, 0, 0))
            os.execve(python, [python, "-B", *words], environment)
        finally:
            os._exit(127)
    parts = []
    while True:
        try:
            part = os.read(stream, 1 << 16)
        except OSError:
            break
        if not part:
            break
        parts.append(part)
    os.close(stream)
    text = b"".join(parts).decode("utf-8", "replace").replace("\r\n", "\n")
    return os.waitstatus_to_exitcode(os.waitpid(child, 0)[1]), text


def plain(text):
    """A text without colours."""
    return COLOUR.sub("", text)
