"""Browsers without a window, by the protocol of their drivers: chromedriver's over HTTP, and Firefox's own
(Marionette).
"""

import base64
import contextlib
import json
import socket
import subprocess
import tempfile
import time
import urllib.error
import urllib.request

# How long one waits for a browser.
SECONDS = 60
CHROMIUM_OPTIONS = ["--headless=new", "--no-sandbox", "--disable-gpu", "--disable-dev-shm-usage", "--hide-scrollbars"]


def free_port():
    with socket.socket() as found:
        found.bind(("127.0.0.1", 0))
        return found.getsockname()[1]


def until(asked, what):
    """Returns what a question returns as soon as that is true, or ends the test."""
    end = time.monotonic() + SECONDS
    while time.monotonic() < end:
        with contextlib.suppress(OSError):
            found = asked()
            if found:
                return found
        time.sleep(0.1)
    raise AssertionError(f"{what}: not within {SECONDS} seconds")


class Browser:
    """What a test does with a page."""

    def script(self, text, *given):
        """Returns what a function with this body returns."""
        raise NotImplementedError

    def open(self, address):
        raise NotImplementedError

    def type(self, identity, text):
        """Types a text into the box with this identity, in place of what it has."""
        raise NotImplementedError

    def ready(self):
        """Waits until the page has been made."""
        return until(lambda: self.script("return document.documentElement.dataset.ready") == "1", "the page")

    def text(self, identity):
        return self.script("return document.getElementById(arguments[0]).textContent", identity)


class Chromium(Browser):
    """Chromium, by its driver."""

    def __init__(self, port):
        self.address = f"http://127.0.0.1:{port}"
        options = {"binary": "/usr/bin/chromium", "args": CHROMIUM_OPTIONS}
        wanted = {
            "browserName": "chrome",
            "goog:chromeOptions": options,
            "goog:loggingPrefs": {"browser": "ALL", "performance": "ALL"},
        }
        self.session = ""
        found = self.ask("POST", "", capabilities={"alwaysMatch": wanted})
        self.session, self.version = f"/{found['sessionId']}", found["capabilities"]["browserVersion"]

    def ask(self, method, path, **given):
        data = json.dumps(given).encode() if method == "POST" else None
        asked = urllib.request.Request(f"{self.address}/session{self.session}{path}", data, method=method)
        with urllib.request.urlopen(asked, timeout=SECONDS) as answer:
            return json.load(answer)["value"]

    def script(self, text, *given):
        return self.ask("POST", "/execute/sync", script=text, args=list(given))

    def open(self, address):
        self.ask("POST", "/url", url="about:blank")
        self.ask("POST", "/url", url=address)
        self.ready()

    def type(self, identity, text):
        [element] = self.ask("POST", "/element", using="css selector", value=f"#{identity}").values()
        self.ask("POST", f"/element/{element}/clear")
        if text:
            self.ask("POST", f"/element/{element}/value", text=text)

    def developer(self, command, **given):
        """Gives a command of the developer tools."""
        return self.ask("POST", "/goog/cdp/execute", cmd=command, params=given)

    def screen(self, width, is_dark=False):
        """Shows the page in a window of this width."""
        media = [{"name": "prefers-color-scheme", "value": "dark" if is_dark else "light"}]
        self.developer("Emulation.setEmulatedMedia", features=media)
        self.developer(
            "Emulation.setDeviceMetricsOverride", width=width, height=900, deviceScaleFactor=1, mobile=width < 600
        )

    def screenshot(self):
        """Returns a picture of the whole page."""
        width, height = self.script("return [innerWidth, Math.min(document.documentElement.scrollHeight, 4000)]")
        # What is outside of the window isn't painted.
        self.developer(
            "Emulation.setDeviceMetricsOverride", width=width, height=height, deviceScaleFactor=1, mobile=width < 600
        )
        return base64.b64decode(self.developer("Page.captureScreenshot", format="png")["data"])

    def log(self, kind):
        return [it["message"] for it in self.ask("POST", "/se/log", type=kind)]

    def close(self):
        with contextlib.suppress(urllib.error.URLError):
            self.ask("DELETE", "")


class Firefox(Browser):
    """Firefox, by its own protocol: each message is its length, a colon and JSON."""

    def __init__(self, port):
        self.socket = until(lambda: socket.create_connection(("127.0.0.1", port), SECONDS), "Firefox")
        self.rest, self.count = b"", 0
        self.received()
        self.version = self.ask("WebDriver:NewSession")["capabilities"]["browserVersion"]

    def received(self):
        while b":" not in self.rest:
            self.rest += self.more()
        length, _, self.rest = self.rest.partition(b":")
        while len(self.rest) < int(length):
            self.rest += self.more()
        message, self.rest = self.rest[: int(length)], self.rest[int(length) :]
        return json.loads(message)

    def more(self):
        found = self.socket.recv(1 << 16)
        if not found:
            raise AssertionError("Firefox has ended")
        return found

    def ask(self, command, **given):
        self.count += 1
        message = json.dumps([0, self.count, command, given]).encode()
        self.socket.sendall(b"%d:%b" % (len(message), message))
        _, _, error, result = self.received()
        if error:
            raise AssertionError(f"{command}: {error['message']}")
        return result

    def script(self, text, *given):
        return self.ask("WebDriver:ExecuteScript", script=text, args=list(given))["value"]

    def open(self, address):
        self.ask("WebDriver:Navigate", url="about:blank")
        self.ask("WebDriver:Navigate", url=address)
        self.ready()

    def type(self, identity, text):
        [element] = self.ask("WebDriver:FindElement", using="css selector", value=f"#{identity}")["value"].values()
        self.ask("WebDriver:ElementClear", id=element)
        if text:
            self.ask("WebDriver:ElementSendKeys", id=element, text=text)

    def screenshot(self):
        return base64.b64decode(self.ask("WebDriver:TakeScreenshot", full=True)["value"])

    def close(self):
        self.ask("Marionette:Quit", flags=["eAttemptQuit"])
        self.socket.close()


@contextlib.contextmanager
def running(words):
    """Runs a program until the test ends."""
    with tempfile.TemporaryDirectory() as folder:
        quiet = {"stdin": subprocess.DEVNULL, "stdout": subprocess.DEVNULL, "stderr": subprocess.DEVNULL}
        with subprocess.Popen([it.replace("FOLDER", folder) for it in words], cwd=folder, **quiet) as process:
            try:
                yield process
            finally:
                process.terminate()
                with contextlib.suppress(subprocess.TimeoutExpired):
                    process.wait(SECONDS)


@contextlib.contextmanager
def chromium():
    port = free_port()
    with running(["chromedriver", f"--port={port}"]):
        browser = until(lambda: started(Chromium, port), "Chromium")
        try:
            yield browser
        finally:
            browser.close()


@contextlib.contextmanager
def firefox():
    port = free_port()
    # The port is a preference of the profile.
    with tempfile.TemporaryDirectory() as profile:
        with open(f"{profile}/user.js", "w", encoding="utf-8") as file:
            file.write(f'user_pref("marionette.port", {port});\n')
        with running(["firefox-esr", "--headless", "--marionette", "--profile", profile]):
            browser = Firefox(port)
            try:
                yield browser
            finally:
                browser.close()


def started(kind, port):
    with contextlib.suppress(urllib.error.URLError):
        return kind(port)
    return None
