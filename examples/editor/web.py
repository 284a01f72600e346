"""The editor as a server for one page: which requests are answered, and what with. It is bound to 127.0.0.1, and answers nobody else.

A request is answered where it names this address as its host, comes from no other origin, has the secret of this server in its path, and is
not too large. No part of a request is a path of a file.
"""
import contextlib
import http.server
import json
import pathlib
import re
import secrets
import sys
import threading

import rhythm
import words
from editing import Stale
from engraving import Dropped, Engraver, Unengraved, has_lilypond
from forms import Unwritten

STATIC = pathlib.Path(__file__).resolve().parent / "static"
KINDS = {".html": "text/html; charset=utf-8", ".css": "text/css; charset=utf-8", ".js": "text/javascript; charset=utf-8"}
JSON = "application/json"
FORMS = {"lily": "text/x-lilypond", "page": "text/x-lilypond", "musicxml": "application/vnd.recordare.musicxml+xml", "render": "audio/midi"}
LONGEST_STEP = 1 << 20  # bytes of a request
LONGEST_SCRIPT = 1 << 25  # bytes of one that opens a script; the program takes a script of half as many
PATIENCE = 30  # seconds for a request to come
AT_ONCE = 32  # requests
MOST_BARS = 64  # of a page
SOURCES = "default-src 'none'; script-src 'self'; style-src 'self'; img-src blob:; connect-src 'self'; frame-ancestors 'none'"
HEADS = {
    "Content-Security-Policy": SOURCES,
    "X-Content-Type-Options": "nosniff", "Referrer-Policy": "no-referrer", "Cache-Control": "no-store",
    "Cross-Origin-Resource-Policy": "same-origin",
}


class Wrong(Exception):
    """A request that is not answered: a status, and why."""

    def __init__(self, status, why):
        super().__init__(why)
        self.status = status


def number(request, name, low=0, high=2_000_000_000):
    """A number of a request."""
    value = request.get(name)
    if type(value) is not int or not low <= value <= high:
        raise Wrong(400, f"{name} is no number from {low} to {high}.")
    return value


def lines_of(request):
    """The lines of a step or a script."""
    lines = request.get("lines")
    if not isinstance(lines, list) or not all(isinstance(line, str) for line in lines):
        raise Wrong(400, "The lines are no list of lines.")
    return lines


class Answers:
    """What is answered to each request, by the last word of its path."""

    def __init__(self, editor):
        self._editor = editor
        self._engraver = Engraver(editor.form)

    def start(self):
        """Has a LilyPond ready for the first page."""
        self._engraver.start()

    def close(self):
        self._engraver.close()

    def piece(self, _request):
        return {**self._editor.piece(), "lilypond": has_lilypond()}

    def edit(self, request):
        lines = lines_of(request)
        if not lines:
            raise Wrong(400, "A step has a line at least.")
        return self._editor.edit(number(request, "version"), lines)

    def undo(self, request):
        return self._editor.undo(number(request, "version"))

    def redo(self, request):
        return self._editor.redo(number(request, "version"))

    def fit(self, request):
        return self._editor.fit(number(request, "version"), number(request, "bar", 1, 4096)) or {"same": True}

    def follow(self, _request):
        return self._editor.follow() or {"same": True}

    def alternatives(self, request):
        try:
            return self._editor.alternatives(number(request, "channel", 0, 15), number(request, "bar", 0, 4096))
        except Stale:
            raise Dropped from None

    def open(self, request):
        self._editor.open(number(request, "version"), [line for line in lines_of(request) if line])
        return {"version": self._editor.version, "cost": self._editor.piece()["cost"]}

    def engrave(self, request):
        first, last = number(request, "first", 0, 4096), number(request, "last", 0, 4096)
        width = number(request, "width", 60, 1000)
        return "image/svg+xml", self._engraver.page(self._editor.script(), first, min(last, first + MOST_BARS), width)

    def keep(self, form):
        """A form of the piece, to be downloaded."""
        if form == "script":
            return "text/plain; charset=utf-8", "".join(line + "\n" for line in self._editor.script()).encode()
        if form == "kern":
            return "text/plain; charset=utf-8", self._editor.score().encode()
        return FORMS[form], self._editor.form(form, self._editor.script())


ASKED = ("edit", "undo", "redo", "fit", "follow", "alternatives", "open", "engrave")


class Server(http.server.ThreadingHTTPServer):
    """Serves one editor on 127.0.0.1 at a port, or at a free one where it is 0."""
    daemon_threads = True

    def __init__(self, editor, port=0):
        self.answers = Answers(editor)
        super().__init__(("127.0.0.1", port), Request)
        self.secret = secrets.token_urlsafe(16)
        self.host = f"127.0.0.1:{self.server_port}"
        self.address = f"http://{self.host}/{self.secret}/"
        self.files = {file.name: (KINDS[file.suffix], file.read_bytes()) for file in STATIC.iterdir() if file.suffix in KINDS}
        self.room = threading.BoundedSemaphore(AT_ONCE)

    def server_close(self):
        super().server_close()
        self.answers.close()

    def handle_error(self, *words):
        """What no request should come to is printed; a browser that has gone is no fault."""
        if not isinstance(sys.exc_info()[1], (ConnectionError, TimeoutError)):
            super().handle_error(*words)

    def process_request_thread(self, request, client_address):
        if not self.room.acquire(blocking=False):
            self.shutdown_request(request)
            return
        try:
            super().process_request_thread(request, client_address)
        finally:
            self.room.release()


class Request(http.server.BaseHTTPRequestHandler):
    """A request of the page, and its answer."""
    protocol_version = "HTTP/1.1"
    server_version, sys_version = "rhythm-editor", ""
    timeout = PATIENCE
    wbufsize = -1
    disable_nagle_algorithm = True

    def do_GET(self):
        self._answered(lambda name: self._got(name))

    def do_POST(self):
        self._answered(lambda name: self._asked(name))

    def log_message(self, *_words):
        pass

    def _answered(self, answer):
        """Sends an answer, or says in plain words why there is none."""
        try:
            status, (kind, body) = 200, answer(self._name())
        except Wrong as wrong:
            status, (kind, body) = wrong.status, self._json({"wrong": str(wrong)})
            self.close_connection = True
        except rhythm.Refused as refused:
            status, (kind, body) = 200, self._json({"refused": words.refusal(refused)})
        except ValueError:
            status, (kind, body) = 200, self._json({"refused": words.NO_EDIT})
        except Stale:
            status, (kind, body) = 409, self._json({"wrong": words.STALE})
        except Dropped:
            status, (kind, body) = 200, self._json({"dropped": True})
        except Unwritten as why:
            status, (kind, body) = 500, self._json({"wrong": words.unwritten(why)})
        except Unengraved:
            status, (kind, body) = 500, self._json({"wrong": "LilyPond made no page of these bars."})
        except rhythm.Ended as ended:
            status, (kind, body) = 500, self._json({"wrong": words.ending(ended)})
        self._send(status, kind, body)

    def _name(self):
        """The last word of the path, where the request is one that is answered."""
        origin = self.headers.get("Origin")
        if self.headers.get_all("Host") != [self.server.host]:
            raise Wrong(421, "There is no such host here.")
        if origin not in (None, f"http://{self.server.host}") or self.headers.get("Sec-Fetch-Site", "none") not in ("none", "same-origin"):
            raise Wrong(403, "Other pages are not answered.")
        found = re.fullmatch(r"/([\w-]+)/([\w.-]*)", self.path)
        if not found or not secrets.compare_digest(found[1], self.server.secret):
            raise Wrong(404, "There is nothing of this name.")
        return found[2]

    def _got(self, name):
        name = name or "index.html"
        if name == "piece":
            return self._json(self.server.answers.piece({}))
        if name in ("script", "kern", *FORMS):
            return self.server.answers.keep(name)
        if name in self.server.files:
            return self.server.files[name]
        raise Wrong(404, "There is nothing of this name.")

    def _asked(self, name):
        if name not in ASKED:
            raise Wrong(404, "There is nothing of this name.")
        answer = getattr(self.server.answers, name)(self._body(LONGEST_SCRIPT if name == "open" else LONGEST_STEP))
        return answer if isinstance(answer, tuple) else self._json(answer)

    def _body(self, most):
        """What a request says."""
        length = self.headers.get("Content-Length", "")
        if self.headers.get("Content-Type") != JSON or "Transfer-Encoding" in self.headers:
            raise Wrong(415, "A request is JSON, with its length.")
        if not re.fullmatch("[0-9]{1,9}", length):
            raise Wrong(411, "A request has its length.")
        if int(length) > most:
            self._discard()
            raise Wrong(413, f"A request has at most {most} bytes.")
        try:
            request = json.loads(self.rfile.read(int(length)))
        except (ValueError, RecursionError):
            raise Wrong(400, "That is no JSON.") from None
        if not isinstance(request, dict):
            raise Wrong(400, "A request is an object.")
        return request

    def _discard(self):
        """Takes what comes at once of a request that is too long, as a browser reads no answer before it is sent."""
        self.connection.settimeout(1)
        with contextlib.suppress(OSError):
            for _ in range(LONGEST_SCRIPT >> 14):
                if not self.rfile.read1(1 << 16):
                    break

    @staticmethod
    def _json(value):
        return JSON, json.dumps(value, separators=(",", ":")).encode()

    def _send(self, status, kind, body):
        self.send_response(status)
        for head, value in {**HEADS, "Content-Type": kind, "Content-Length": len(body)}.items():
            self.send_header(head, value)
        if self.close_connection:
            self.send_header("Connection", "close")
        self.end_headers()
        self.wfile.write(body)
