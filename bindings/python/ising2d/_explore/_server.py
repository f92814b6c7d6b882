"""The server of the page, on this machine alone: http.server on 127.0.0.1.

Nobody else can ask it: the address has a random token, and a request whose Host is not this server's, or
whose Origin is another page's, is refused, so no page of another site reaches it under a name of its own.
"""

import hmac
import json
import os
import secrets
import sys
import threading
import time
import webbrowser
from concurrent.futures import Future, TimeoutError as TimedOut
from http.server import BaseHTTPRequestHandler, ThreadingHTTPServer
from typing import Any, Callable, Dict, NamedTuple, Optional, Tuple

from .. import Refusal
from ._page import Page, page
from ._requests import REQUESTS, Object, object_of

PORT = 8254
MOST_BYTES = 4 * 2**20
MOST_SECONDS = 10.0
# A body that is refused is read on to its end up to this size, so that the answer reaches who sent it.
_DRAINED_BYTES = 64 * 2**20


class Fault(Exception):
    """A request that is refused: the status of HTTP, and a sentence."""

    def __init__(self, status: int, sentence: str) -> None:
        super().__init__(sentence)
        self.status, self.sentence = status, sentence


class Solvers:
    """Threads that solve, at most one for each processor. Nothing can stop a call of the library: one
    that is given up goes on without a listener, and keeps its place until it ends."""

    def __init__(self, count: Optional[int] = None, seconds: float = MOST_SECONDS) -> None:
        self.count = count or os.cpu_count() or 1
        self.seconds = seconds
        self.places = threading.BoundedSemaphore(self.count)

    def answer(self, call: Callable[[Object], Object], given: Object) -> Object:
        """What the call returns, or raises. Raises a ``Fault`` where it takes too long."""
        end = time.monotonic() + self.seconds
        if not self.places.acquire(timeout=self.seconds):
            raise Fault(503, f"all {self.count} solver threads are busy with abandoned requests")
        done: "Future[Object]" = Future()
        try:
            threading.Thread(target=self._work, args=(done, call, given), daemon=True).start()
        except RuntimeError:
            self.places.release()
            raise Fault(503, "this machine starts no further thread") from None
        try:
            return done.result(max(0.0, end - time.monotonic()))
        except TimedOut:
            raise Fault(504, f"given up after {self.seconds:g} s: ask for a smaller instance") from None

    def _work(self, done: "Future[Object]", call: Callable[[Object], Object], given: Object) -> None:
        try:
            done.set_result(call(given))
        except BaseException as fault:  # whatever it is, it is raised again where it is waited for
            done.set_exception(fault)
        finally:
            self.places.release()


class Start(NamedTuple):
    """What the page begins with: the name and the text of a file, or nothing."""

    name: str = ""
    text: str = ""


class Server(ThreadingHTTPServer):
    """The server, with its token and its page."""

    daemon_threads = True
    block_on_close = False
    allow_reuse_address = True

    def __init__(self, port: int, start: Start = Start(), solvers: Optional[Solvers] = None) -> None:
        super().__init__(("127.0.0.1", port), _Handler)
        self.token = secrets.token_urlsafe(24)
        self.page: Page = page()
        self.start, self.solvers = start, solvers or Solvers()
        own = self.server_address[1]
        self.hosts = {f"127.0.0.1:{own}", f"localhost:{own}"}
        self.address = f"http://127.0.0.1:{own}/{self.token}/"

    def handle_error(self, request: Any, client_address: Any) -> None:
        """A connection that breaks off is nobody's fault; anything else is told."""
        if not isinstance(sys.exc_info()[1], (ConnectionError, TimeoutError)):
            super().handle_error(request, client_address)


_HEADERS = {
    "Cache-Control": "no-store",
    "Cross-Origin-Opener-Policy": "same-origin",
    "Cross-Origin-Resource-Policy": "same-origin",
    "Referrer-Policy": "no-referrer",
    "X-Content-Type-Options": "nosniff",
}

_STRANGER = (
    "This address belongs to another run of `ising2d-py explore`. Take the address that the running one "
    "printed; a link of a state is opened by `ising2d-py explore LINK`."
)


class _Handler(BaseHTTPRequestHandler):
    """One connection."""

    protocol_version = "HTTP/1.1"
    server_version = "ising2d"
    sys_version = ""
    # Answers are small and waited for.
    disable_nagle_algorithm = True
    timeout = 60
    server: Server

    def do_GET(self) -> None:
        self._answer(self._get)

    def do_POST(self) -> None:
        self._answer(self._post)

    def _answer(self, answer: Callable[[], None]) -> None:
        try:
            answer()
        except Fault as fault:
            self._refuse(fault)

    def _get(self) -> None:
        self._check_sender()
        if self._path() != "":
            raise Fault(404, "there is only the page")
        own = self.server.page
        self._send(200, "text/html; charset=utf-8", own.text, {"Content-Security-Policy": own.policy})

    def _post(self) -> None:
        self._check_sender()
        name = self._path()
        if self.headers.get_content_type() != "application/json":
            raise Fault(415, "a request is JSON: Content-Type: application/json")
        body = self._body()
        if name == "api/start":
            return self._send_json(200, self.server.start._asdict())
        call = REQUESTS.get(name[len("api/") :]) if name.startswith("api/") else None
        if call is None:
            raise Fault(404, "there is no such request")
        self._send_json(200, self._found(call, body))

    def _check_sender(self) -> None:
        """Refuses who does not know the token, and pages of other sites."""
        if self.headers.get("Host", "") not in self.server.hosts:
            raise Fault(403, "the Host is not this server's")
        origin = self.headers.get("Origin")
        if origin is not None and origin not in {f"http://{host}" for host in self.server.hosts}:
            raise Fault(403, "the Origin is another page's")
        if self.headers.get("Sec-Fetch-Site", "none") not in ("none", "same-origin"):
            raise Fault(403, "the request comes from another page")
        token = self.path.lstrip("/").partition("/")[0]
        if not hmac.compare_digest(token.encode("utf-8", "replace"), self.server.token.encode("ascii")):
            raise Fault(403, _STRANGER)

    def _path(self) -> str:
        """What follows the token."""
        return self.path[len(self.server.token) + 2 :]

    def _body(self) -> bytes:
        length = self.headers.get("Content-Length", "")
        if not (length.isascii() and length.isdecimal()) or len(length) > 12:
            raise Fault(411, "a request says how long it is: Content-Length")
        if int(length) > MOST_BYTES:
            self._drain(int(length))
            raise Fault(413, f"the request has {length} bytes (allowed: at most {MOST_BYTES})")
        return self.rfile.read(int(length))

    def _drain(self, length: int) -> None:
        """Reads a body and drops it."""
        left = min(length, _DRAINED_BYTES)
        while left > 0:
            part = self.rfile.read(min(left, 2**16))
            if not part:
                return
            left -= len(part)

    def _found(self, call: Callable[[Object], Object], body: bytes) -> Object:
        try:
            return self.server.solvers.answer(call, object_of(body))
        except Refusal as refusal:
            raise Fault(422, refusal.sentence) from None
        except (ValueError, TypeError, OverflowError) as fault:
            raise Fault(400, str(fault)) from None
        except MemoryError:
            raise Fault(507, "no memory left") from None
        except (ImportError, RuntimeError) as fault:
            raise Fault(500, str(fault)) from None

    # What is sent.

    def _refuse(self, fault: Fault) -> None:
        # What is left of the request is not read, so the connection ends.
        self.close_connection = True
        if self.command == "POST":
            self._send_json(fault.status, {"error": fault.sentence})
        else:
            self._send(fault.status, "text/plain; charset=utf-8", f"{fault.sentence}\n".encode("utf-8"), {})

    def _send_json(self, status: int, found: Object) -> None:
        text = json.dumps(found, separators=(",", ":"))
        self._send(status, "application/json", text.encode("utf-8"), {})

    def _send(self, status: int, kind: str, body: bytes, headers: Dict[str, str]) -> None:
        self.send_response(status)
        own = {"Content-Type": kind, "Content-Length": str(len(body)), **_HEADERS, **headers}
        for name, value in own.items():
            self.send_header(name, value)
        if self.close_connection:
            self.send_header("Connection", "close")
        self.end_headers()
        self.wfile.write(body)

    def send_error(self, code: int, message: Optional[str] = None, explain: Optional[str] = None) -> None:
        """What http.server refuses by itself, without a word of the request in it."""
        self.close_connection = True
        self._send(code, "text/plain; charset=utf-8", b"the request is refused\n", {})

    def log_message(self, format: str, *arguments: Any) -> None:
        """Requests are not logged: the token stands in each of them."""


def _say(text: str) -> None:
    print(f"ising2d: {text}", file=sys.stderr, flush=True)


def _start_of(name: Optional[str]) -> Tuple[Start, str]:
    """What the page begins with, and the state that a link names behind its address."""
    if name is None:
        return Start(), ""
    if name.startswith(("http://127.0.0.1:", "http://localhost:", "#")):
        return Start(), "#" + name.partition("#")[2]
    if name == "-":
        return Start("standard input", sys.stdin.read()), ""
    with open(name, encoding="utf-8", errors="replace") as file:
        text = file.read(MOST_BYTES + 1)
    if len(text) > MOST_BYTES:
        raise ValueError(f"{name} is larger than {MOST_BYTES} bytes, more than the page shows")
    return Start(os.path.basename(name), text), ""


def explore(name: Optional[str] = None, port: int = PORT, browser: bool = True) -> int:
    """Serves the page until Ctrl-C, and returns the exit status. ``name`` is a file with an instance, or a
    link that the page gave."""
    start, fragment = _start_of(name)
    try:
        server = Server(port, start)
    except OSError as fault:
        _say(f"port {port}: {fault.strerror}; perhaps another `ising2d-py explore` uses it")
        _say("end that one by Ctrl-C, or choose another port: --port N, or --port 0 for any free one")
        return 4
    address = server.address + fragment
    print(address, flush=True)
    _say("the page is served at this address, only on this machine; Ctrl-C ends it")
    if browser:
        threading.Thread(target=webbrowser.open, args=(address,), daemon=True).start()
    try:
        server.serve_forever(poll_interval=0.2)
    except KeyboardInterrupt:
        _say("ended")
    finally:
        server.server_close()
    return 0
