"""Chromium by its own protocol over two pipes, with only the standard library."""

import base64
import fcntl
import json
import os
import shutil
import signal
import tempfile
import time

NAMES = ("chromium", "chromium-browser", "google-chrome")
_FLAGS = (
    "--headless=new",
    "--no-sandbox",
    "--disable-gpu",
    "--disable-background-networking",
    "--disable-component-update",
    "--disable-sync",
    "--no-first-run",
    "--hide-scrollbars",
    "--remote-debugging-pipe",
)
_SECONDS = 60

# The keys that are no letters, with their codes.
_KEYS = {
    "Enter": (13, "\r"),
    "Tab": (9, None),
    "Escape": (27, None),
    "End": (35, None),
    "Home": (36, None),
    "ArrowLeft": (37, None),
    "ArrowUp": (38, None),
    "ArrowRight": (39, None),
    "ArrowDown": (40, None),
    " ": (32, " "),
}


def found():
    """The browser on this machine, or None."""
    return next(filter(None, map(shutil.which, NAMES)), None)


class Browser:
    """A browser with one page of this size."""

    def __init__(self, path, wide=1280, high=800):
        self.room = tempfile.mkdtemp()
        self.number, self.events, self.rest = 0, [], b""
        self.session = None
        self._start(path, [*_FLAGS, f"--user-data-dir={self.room}/profile", f"--window-size={wide},{high}"])
        target = self.ask("Target.createTarget", url="about:blank")["targetId"]
        self.session = self.ask("Target.attachToTarget", targetId=target, flatten=True)["sessionId"]
        for part in ("Page", "Network", "Runtime", "Log"):
            self.ask(f"{part}.enable")
        self.size(wide, high)
        self.downloads = os.path.join(self.room, "downloads")
        self.ask("Browser.setDownloadBehavior", behavior="allow", downloadPath=self.downloads)

    def _start(self, path, flags):
        """The browser reads from its descriptor 3 and writes to 4."""
        pipes = [*os.pipe(), *os.pipe()]
        ends = [fcntl.fcntl(own, fcntl.F_DUPFD_CLOEXEC, 10) for own in pipes]
        for own in pipes:
            os.close(own)
        theirs, self.sink, self.source, answers = ends
        quiet = os.open(os.devnull, os.O_RDWR)
        pairs = ((quiet, 1), (quiet, 2), (theirs, 3), (answers, 4))
        moves = [(os.POSIX_SPAWN_DUP2, *pair) for pair in pairs]
        self.process = os.posix_spawn(path, [path, *flags], os.environ, file_actions=moves, setsid=True)
        for own in (theirs, answers, quiet):
            os.close(own)

    def close(self):
        try:
            os.killpg(self.process, signal.SIGKILL)
        except ProcessLookupError:
            pass
        os.waitpid(self.process, 0)
        os.close(self.sink)
        os.close(self.source)
        shutil.rmtree(self.room, ignore_errors=True)

    # Messages.

    def _next(self):
        while b"\0" not in self.rest:
            part = os.read(self.source, 2**16)
            if not part:
                raise EOFError("the browser has ended")
            self.rest += part
        text, self.rest = self.rest.split(b"\0", 1)
        return json.loads(text)

    def ask(self, method, **words):
        """The answer to a command."""
        self.number += 1
        message = {"id": self.number, "method": method, "params": words}
        if self.session and not method.startswith(("Target.", "Browser.")):
            message["sessionId"] = self.session
        os.write(self.sink, json.dumps(message).encode() + b"\0")
        while True:
            answer = self._next()
            if answer.get("id") == self.number:
                if "error" in answer:
                    raise RuntimeError(f"{method}: {answer['error']['message']}")
                return answer["result"]
            self.events.append(answer)

    # The page.

    def size(self, wide, high, ratio=1):
        own = {"width": wide, "height": high, "deviceScaleFactor": ratio, "mobile": False}
        self.ask("Emulation.setDeviceMetricsOverride", **own)

    def go(self, address):
        self.ask("Page.navigate", url="about:blank")
        self.ask("Page.navigate", url=address)

    def value(self, script):
        """The value of a script; a promise is awaited."""
        found = self.ask("Runtime.evaluate", expression=script, returnByValue=True, awaitPromise=True)
        if "exceptionDetails" in found:
            raise RuntimeError(found["exceptionDetails"]["exception"].get("description", "the script fails"))
        return found["result"].get("value")

    def until(self, script):
        """Waits until the value of a script is true."""
        end = time.monotonic() + _SECONDS
        while time.monotonic() < end:
            value = self.value(script)
            if value:
                return value
            time.sleep(0.02)
        raise TimeoutError(script)

    def text(self, name):
        """The text of the element with this id."""
        return self.value(f"document.getElementById({name!r}).textContent")

    def press(self, key, shift=False, ctrl=False):
        letter = ord(key.upper()) if len(key) == 1 and key.isalnum() else 0
        code, text = _KEYS.get(key, (letter, None if ctrl else key))
        own = {"key": key, "windowsVirtualKeyCode": code, "modifiers": 8 * shift + 2 * ctrl}
        self.ask("Input.dispatchKeyEvent", type="keyDown", **own, **({"text": text} if text else {}))
        self.ask("Input.dispatchKeyEvent", type="keyUp", **own)

    def click(self, x, y, shift=False):
        own = {"x": x, "y": y, "button": "left", "clickCount": 1, "modifiers": 8 * shift}
        for kind in ("mousePressed", "mouseReleased"):
            self.ask("Input.dispatchMouseEvent", type=kind, **own)

    def picture(self):
        """A screenshot of the page, as PNG."""
        return base64.b64decode(self.ask("Page.captureScreenshot", format="png")["data"])

    def downloaded(self, name):
        """The bytes of a file that the page has saved, once it exists."""
        end, path = time.monotonic() + _SECONDS, os.path.join(self.downloads, name)
        while not os.path.exists(path) and time.monotonic() < end:
            time.sleep(0.02)
        with open(path, "rb") as file:
            data = file.read()
        os.remove(path)
        return data

    def requested(self):
        """The addresses of all requests so far."""
        self.ask("Page.getFrameTree")
        return [event["request"]["url"] for event in self.told("Network.requestWillBeSent")]

    def troubles(self):
        """The faults that the browser has reported, such as scripts that its policy forbids."""
        self.ask("Page.getFrameTree")
        entries = [entry["entry"] for entry in self.told("Log.entryAdded")]
        thrown = [entry["exceptionDetails"] for entry in self.told("Runtime.exceptionThrown")]
        return [entry["text"] for entry in entries if entry["level"] == "error"] + thrown

    def told(self, method):
        """The contents of the events of this name."""
        return [event["params"] for event in self.events if event.get("method") == method]
