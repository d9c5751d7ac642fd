"""The desk's server: on 127.0.0.1 alone, for whoever has the secret of its address. It writes no file."""

import base64
import binascii
import hmac
import http.server
import json
import os
import secrets
import sys
import threading
from html import escape
from typing import Any, Callable, Dict, NamedTuple, Optional

from ..policy import Errors, Names, Refused
from . import compare, page, report, trial, view

HOST = "127.0.0.1"

# The longest request, in bytes: two images, a ledger or a script, as base64.
MOST_BYTES = 4 << 20

# Nothing is loaded from elsewhere, no script or style stands in the page itself, no other page may frame it.
HEADERS = {
    "Content-Security-Policy": "default-src 'none'; script-src 'self'; style-src 'self'; connect-src 'self'; img-src 'self' data:; "
                               "base-uri 'none'; form-action 'none'; frame-ancestors 'none'",
    "Referrer-Policy": "no-referrer", "X-Content-Type-Options": "nosniff", "X-Frame-Options": "DENY", "Cache-Control": "no-store",
    "Cross-Origin-Opener-Policy": "same-origin", "Cross-Origin-Resource-Policy": "same-origin",
}

HTML, JSON, PLAIN = "text/html; charset=utf-8", "application/json", "text/plain; charset=utf-8"
STATIC = {"desk.css": "text/css; charset=utf-8", "desk.js": "text/javascript; charset=utf-8"}


class Reply(NamedTuple):
    """What is sent back."""

    status: int
    kind: str
    body: bytes


class Wrong(Exception):
    """A request that can't be done, and why, in words for the officer."""


def as_json(value: Any) -> Reply:
    """A value as JSON."""
    return Reply(200, JSON, json.dumps(value, ensure_ascii=False, separators=(",", ":")).encode("utf-8"))


# ---- the desk ----

class Desk:
    """The policy on the desk, as its file was when it was read last, and the trial of it. One request at a time."""

    def __init__(self, path: str, names: Optional[Names]) -> None:
        self.path, self.names, self.file = path, names, os.path.basename(path)
        self.lock = threading.Lock()
        self.view: view.View = {}
        self.loaded: Optional[view.Loaded] = None
        self.trial: Optional[trial.Trial] = None
        self.read()

    def read(self) -> None:
        """Reads the file; a trial is played again under what it says now."""
        with open(self.path, "rb") as file:
            data = file.read()
        script = self.trial.script() if self.trial else ""
        self.view, self.loaded = view.view_of(self.file, data, self.names)
        if self.loaded is not None:
            self.trial = trial.Trial(self.loaded)
            self.trial.play(script)

    def reload(self, _: Dict[str, Any]) -> Reply:
        """Reads the file again."""
        try:
            self.read()
        except OSError as wrong:
            raise Wrong(f"{self.path}: {wrong.strerror}") from None
        return as_json({"accepted": self.view["accepted"]})

    def policy(self) -> view.Loaded:
        """The accepted policy."""
        if self.loaded is None:
            raise Wrong("the policy is refused; mend the text and read it again")
        return self.loaded

    def index(self) -> Reply:
        """The page."""
        text = report.static("index.html").decode("utf-8")
        badge = '<span class="badge good">accepted</span>' if self.loaded else '<span class="badge bad">refused</span>'
        for mark, made in (("file", escape(self.file)), ("badge", badge), ("state", "accepted" if self.loaded else "refused"),
                           ("policy", page.policy_view(self.view))):
            text = text.replace(f"<!--{mark}-->", made)
        return Reply(200, HTML, text.encode("utf-8"))

    def try_it(self, asked: Dict[str, Any]) -> Reply:
        """Does one thing on the scratch ledger, and shows how it stands."""
        self.policy()
        assert self.trial is not None
        wish = wish_of(asked, self.trial)
        act(self.trial, asked, wish)
        return as_json(self.trial.state(self.trial.settled(wish, asked.get("do") == "open")))

    def script(self) -> Reply:
        """All that was tried, as a script."""
        self.policy()
        assert self.trial is not None
        return Reply(200, PLAIN, self.trial.script().encode("ascii"))

    def compare(self, asked: Dict[str, Any]) -> Reply:
        """Two policies beside each other; the one on the desk stands in for one that is not given."""
        old, new = (self.given(asked.get(side)) for side in ("old", "new"))
        ledger = asked.get("ledger")
        if ledger == "trial":
            self.policy()
            assert self.trial is not None
            return as_json(compare.compared(old, new, self.trial.ledgers[-1]))
        return as_json(compare.compared(old, new, None if ledger is None else content(ledger)))

    def given(self, sent: Any) -> view.Loaded:
        """A policy that was sent, or the one on the desk."""
        if sent is None:
            return self.policy()
        name = str(sent.get("name", "")) or "policy" if isinstance(sent, dict) else "policy"
        try:
            return view.load(name, content(sent), self.names or (self.loaded.names if self.loaded else None))
        except Errors as wrong:
            raise Wrong(str(wrong)) from None
        except Refused as wrong:
            raise Wrong(f"{name}: refused: {wrong}") from None


def content(sent: Any) -> bytes:
    """The bytes of a file that was sent."""
    try:
        return base64.b64decode(sent["data"], validate=True)
    except (TypeError, KeyError, ValueError, binascii.Error):
        raise Wrong("a file was not sent whole") from None


def number(asked: Dict[str, Any], what: str, below: int) -> int:
    """A number of a request."""
    value = asked.get(what)
    if not isinstance(value, int) or isinstance(value, bool) or not 0 <= value < below:
        raise Wrong(f"{what} is a number below {below}")
    return value


def wish_of(asked: Dict[str, Any], tried: trial.Trial) -> trial.Wish:
    """For whom, where and how the next permission is asked for."""
    users = tried.loaded.policy.counts[0]
    window = None if asked.get("window") is None else number(asked, "window", 1 << 30)
    aims = asked.get("aims")
    if aims is not None and not (isinstance(aims, list) and [aim for aim in aims if aim in (0, 1, 2)] == aims and len(aims) == 2):
        raise Wrong("aims are two numbers from 0 to 2")
    return trial.Wish(number(asked, "user", users) if "user" in asked else 0, window, asked.get("add") is True, asked.get("narrow") is True,
                      (aims[0], aims[1]) if aims else None)


def act(tried: trial.Trial, asked: Dict[str, Any], wish: trial.Wish) -> None:
    """Does what a request says; nothing where it only looks."""
    what = asked.get("do", "look")
    if what == "open":
        tried.do(trial.Call("open", wish.user))
    elif what == "close":
        tried.do(trial.Call("close", wish.user, number(asked, "close", 1 << 30)))
    elif what == "ask":
        tried.ask(wish, number(asked, "permission", tried.loaded.policy.counts[2]))
    elif what == "undo":
        tried.undo()
    elif what == "restart":
        tried.play("")
    elif what == "load":
        try:
            tried.play(content(asked).decode("ascii", "replace").replace("\r\n", "\n"))
        except trial.Unreadable as wrong:
            raise Wrong(str(wrong)) from None
    elif what != "look":
        raise Wrong(f"there is no {what}")


# ---- requests ----

class Server(http.server.ThreadingHTTPServer):
    """The server of one desk, with the secret of its address."""

    daemon_threads = True

    def __init__(self, desk: Desk, port: int) -> None:
        self.desk, self.secret = desk, secrets.token_urlsafe(24)
        try:
            super().__init__((HOST, port), Handler)
        except OSError as wrong:
            raise OSError(wrong.errno, wrong.strerror, f"port {port}") from None

    def handle_error(self, request: Any, client_address: Any) -> None:
        """A browser that goes away amid an answer is nothing to tell."""
        if not isinstance(sys.exc_info()[1], OSError):
            super().handle_error(request, client_address)

    def host(self) -> str:
        """The host name and port that a request has to be for."""
        return f"{HOST}:{self.server_address[1]}"

    def address(self) -> str:
        """The address that the officer opens."""
        return f"http://{self.host()}/{self.secret}/"


class Handler(http.server.BaseHTTPRequestHandler):
    """A request: refused unless its secret, host name and origin are right."""

    server: Server
    protocol_version = "HTTP/1.1"
    server_version, sys_version = "nutrameza", ""
    timeout = 60
    disable_nagle_algorithm = True

    def log_message(self, format: str, *args: Any) -> None:  # noqa: A002 - the base class has it so
        """Says nothing: the terminal is the officer's."""

    def refused(self) -> Optional[str]:
        """Why a request is refused; None where it is not."""
        ours = f"http://{self.server.host()}"
        if self.headers.get_all("Host", []) != [self.server.host()]:
            return "another host name"
        if any(origin != ours for origin in self.headers.get_all("Origin", [])):
            return "another origin"
        if any(site not in ("same-origin", "none") for site in self.headers.get_all("Sec-Fetch-Site", [])):
            return "another site"
        given = (self.path.split("?")[0].split("/") + [""])[1]
        return None if hmac.compare_digest(given.encode(), self.server.secret.encode()) else "no secret"

    def answered(self, found: Callable[[str], Reply]) -> None:
        """Sends what is found for the part behind the secret, or why there is nothing."""
        why = self.refused()
        if why is not None:
            self.close_connection = True
            self.send(Reply(403, PLAIN, f"refused: {why}\n".encode()))
            return
        try:
            with self.server.desk.lock:
                reply = found("/".join(self.path.split("?")[0].split("/")[2:]))
        except Wrong as wrong:
            reply = Reply(400, PLAIN, str(wrong).encode("utf-8"))
        self.send(reply)

    def send(self, reply: Reply) -> None:
        """Sends a reply, in one piece."""
        self.send_response(reply.status)
        for name, value in {**HEADERS, "Content-Type": reply.kind, "Content-Length": str(len(reply.body))}.items():
            self.send_header(name, value)
        if self.close_connection:
            self.send_header("Connection", "close")
        head = b"".join(getattr(self, "_headers_buffer")) + b"\r\n"
        setattr(self, "_headers_buffer", [])
        self.wfile.write(head if self.command == "HEAD" else head + reply.body)

    def do_GET(self) -> None:  # noqa: N802 - the base class has it so
        """What the page shows."""
        self.answered(self.shown)

    do_HEAD = do_GET

    def do_POST(self) -> None:  # noqa: N802 - the base class has it so
        """What the officer does."""
        self.answered(self.done)

    def shown(self, part: str) -> Reply:
        """A part of the desk that is only read."""
        desk = self.server.desk
        if part in STATIC:
            return Reply(200, STATIC[part], report.static(part))
        parts: Dict[str, Callable[[], Reply]] = {
            "": desk.index, "policy": lambda: as_json(desk.view), "script": desk.script,
            "image": lambda: Reply(200, "application/octet-stream", desk.policy().image),
            "report": lambda: Reply(200, HTML, report.report(desk.policy()).encode("utf-8")),
        }
        return parts[part]() if part in parts else Reply(404, PLAIN, b"there is no such part\n")

    def done(self, part: str) -> Reply:
        """A part of the desk that does something; the request is JSON, which no page of another origin can send."""
        parts = {"try": self.server.desk.try_it, "compare": self.server.desk.compare, "reload": self.server.desk.reload}
        size = self.headers.get("Content-Length", "")
        if not (size.isascii() and size.isdigit() and int(size) <= MOST_BYTES):
            self.close_connection = True
            return Reply(413, PLAIN, b"the request is too long\n")
        body = self.rfile.read(int(size))
        if part not in parts:
            return Reply(404, PLAIN, b"there is no such part\n")
        if self.headers.get("Content-Type") != JSON:
            return Reply(415, PLAIN, b"a request is JSON\n")
        try:
            asked = json.loads(body)
        except ValueError:
            asked = None
        if not isinstance(asked, dict):
            raise Wrong("the request is no object")
        return parts[part](asked)
