"""A client of fmtcanon-lsp for tests, over pipes."""

import os
import select
import subprocess
import sys
import time

from fmtcanon.lsp.framing import Framing, framed
from tests.frame import TOP

URI = "file:///nowhere/a.c"
# Seconds after which an answer is missing.
PATIENCE = 600


class Client:
    """An editor without a screen."""

    def __init__(
        self, uri=URI, options=None, encodings=None, environment=None, start=True, python=sys.executable, root=None
    ):
        words = [python, "-B", "-m", "fmtcanon.lsp"]
        pipes = {"stdin": subprocess.PIPE, "stdout": subprocess.PIPE, "stderr": subprocess.PIPE}
        environment = {**os.environ, "PYTHONPATH": str(TOP / "python"), **(environment or {})}
        self.process = subprocess.Popen(words, env=environment, **pipes)
        self.uri, self.number, self.framing, self.held, self.notes = uri, 0, Framing(), [], []
        if start:
            general = {"positionEncodings": encodings} if encodings else {}
            given = {"capabilities": {"general": general}, "initializationOptions": options, "rootUri": root}
            self.capabilities = self.request("initialize", given)["result"]["capabilities"]
            self.notify("initialized")

    def write(self, data):
        self.process.stdin.write(data)
        self.process.stdin.flush()

    def notify(self, method, **params):
        self.write(framed({"method": method, "params": params}))

    def next(self, wanted):
        """The next message that is expected. Others are kept, or are notes."""
        end = time.monotonic() + PATIENCE
        while time.monotonic() < end:
            for at, message in enumerate(self.held):
                if wanted(message):
                    return self.held.pop(at)
            if select.select([self.process.stdout], [], [], end - time.monotonic())[0]:
                data = os.read(self.process.stdout.fileno(), 1 << 16)
                if not data:
                    raise EOFError
                self.held += self.framing.feed(data)
        raise AssertionError("no answer")

    def request(self, method, params):
        self.number += 1
        self.write(framed({"id": self.number, "method": method, "params": params}))
        number = self.number
        return self.next(lambda it: it.get("id") == number)

    def open(self, text, language="c"):
        document = {"uri": self.uri, "languageId": language, "version": 1, "text": text}
        self.notify("textDocument/didOpen", textDocument=document)
        self.text = text
        return self.diagnostics(1)

    def diagnostics(self, version):
        """What is published of a version of the document."""
        found = self.next(lambda it: it.get("params", {}).get("version") == version)
        return found["params"]["diagnostics"]

    def change(self, *changes, version):
        self.notify(
            "textDocument/didChange", textDocument={"uri": self.uri, "version": version}, contentChanges=changes
        )

    def at(self, words, offset=0, text=None):
        """The position of words in the text, in UTF-16."""
        text = self.text if text is None else text
        front = text[: text.index(words) + offset]
        return {"line": front.count("\n"), "character": len(front.rpartition("\n")[2].encode("utf-16-le")) // 2}

    def ask(self, method, words, offset=0):
        params = {"textDocument": {"uri": self.uri}, "position": self.at(words, offset)}
        return self.request(f"textDocument/{method}", params)["result"]

    def hover(self, words, offset=0):
        found = self.ask("hover", words, offset)
        return found and found["contents"]["value"]

    def spot(self, range):
        """The text that a range of the protocol has, of one line."""
        line = self.text.split("\n")[range["start"]["line"]].encode("utf-16-le")
        return line[2 * range["start"]["character"] : 2 * range["end"]["character"]].decode("utf-16-le")

    def actions(self, words):
        given = {
            "textDocument": {"uri": self.uri},
            "range": {"start": self.at(words), "end": self.at(words)},
            "context": {},
        }
        return self.request("textDocument/codeAction", given)["result"]

    def logged(self):
        """The next message of the log."""
        return self.next(lambda it: it.get("method") == "window/logMessage")["params"]["message"]

    def apply(self, action):
        """The whole text after an action."""
        lines = self.text.split("\n")
        starts = [sum(len(it) + 1 for it in lines[:at]) for at in range(len(lines) + 1)]

        def offset(place):
            line = lines[place["line"]].encode("utf-16-le")[: 2 * place["character"]]
            return starts[place["line"]] + len(line.decode("utf-16-le"))

        text = self.text
        listed = [(it["range"], it["newText"]) for it in action["edit"]["changes"][self.uri]]
        for start, end, new in sorted(((offset(a["start"]), offset(a["end"]), new) for a, new in listed), reverse=True):
            text = text[:start] + new + text[end:]
        return text

    def fixed(self, action):
        """The line after an action."""
        [edit] = action["edit"]["changes"][self.uri]
        place = edit["range"]
        line = self.text.split("\n")[place["start"]["line"]].encode("utf-16-le")
        front, back = line[: 2 * place["start"]["character"]], line[2 * place["end"]["character"] :]
        return (front.decode("utf-16-le") + edit["newText"] + back.decode("utf-16-le")).strip()

    def stop(self):
        """Ends the server as an editor does, and returns its status."""
        if self.process.poll() is None:
            self.request("shutdown", None)
            self.notify("exit")
        return self.end()

    def end(self):
        try:
            return self.process.wait(PATIENCE)
        finally:
            for stream in (self.process.stdin, self.process.stdout, self.process.stderr):
                stream.close()
