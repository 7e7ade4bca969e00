"""The server of the playground: it answers the page on this machine alone, and nothing else.

Every answer but the page's own files is JSON; one that refuses has the key `reason`.
"""
import json
import os
import re
import time
from http.server import BaseHTTPRequestHandler, ThreadingHTTPServer

from lib.examples import all_examples
from lib.repository import read, reserved_words
from play import answers, refusals, sessions
from play.runs import Refused

PAGE = os.path.join(os.path.dirname(os.path.abspath(__file__)), "page")
FILES = {
    "/": ("page.html", "text/html; charset=utf-8"),
    "/page.css": ("page.css", "text/css; charset=utf-8"),
    "/page.js": ("page.js", "text/javascript; charset=utf-8"),
    "/editor.js": ("editor.js", "text/javascript; charset=utf-8"),
    "/answer.js": ("answer.js", "text/javascript; charset=utf-8"),
    "/session.js": ("session.js", "text/javascript; charset=utf-8"),
}
PAGE_NAME = re.compile(r"[A-Za-z0-9]{8,64}")
POLICY = (
    "default-src 'none'; script-src 'self'; style-src 'self'; connect-src 'self'; "
    "base-uri 'none'; form-action 'none'; frame-ancestors 'none'"
)
BODY_SECONDS = 10
PIECE = 65_536


def example_of(example):
    """One example as the page's menu takes it."""
    graphs = [{"name": name, "text": read(path)} for name, path in example.graphs]
    return {
        "section": example.section, "name": example.name, "query": read(example.query), "graphs": graphs,
    }


class Playground(ThreadingHTTPServer):
    """The server, the built program that it runs, the commands that it offers, and the runs of its pages."""

    daemon_threads = True
    block_on_close = False
    request_queue_size = 64

    def __init__(self, port, program, commands, runs):
        super().__init__(("127.0.0.1", port), Handler)
        self.program, self.commands, self.runs = program, commands, runs
        port = self.server_address[1]
        self.hosts = {"127.0.0.1:%d" % port, "localhost:%d" % port}

    def start(self):
        """What a page asks for first."""
        return {"commands": self.commands, "words": reserved_words(), "examples": [example_of(it) for it in all_examples()]}

    def run_session(self, seat, session):
        """Runs a session, and tells what came of it."""
        ended = self.runs.run(seat, self.program, sessions.words_in(seat.folder, session))
        out, err = ended.out.decode("utf-8", "replace"), ended.err.decode("utf-8", "replace")
        return {
            "status": ended.status, "seconds": round(ended.seconds, 3), "killed": ended.killed, "err": err, **answers.cut(out),
            "graphs": self.graphs_of(seat, session, out) if ended.status in (0, 1) else [],
            "refusal": refusals.refusal_of(err, session) if err.startswith("gcore: ") else None,
        }

    def graphs_of(self, seat, session, out):
        """What a page shows of the graphs in an output: those of the statements, or of the searches of a certificate."""
        artist = answers.Artist(self.runs, seat)
        if session.command == "run":
            return answers.shown_answer(artist, out.splitlines(), session.graphs)
        return answers.shown_certificate(artist, out) if session.command == "cert" and out else []

    def look(self, seat, text):
        """What a page shows of one graph file."""
        try:
            return answers.Artist(self.runs, seat).shown(answers.graph_in(text))
        except answers.NoGraph as error:
            raise Refused(400, str(error)) from None

    def handle_error(self, request, client_address):
        """A connection that breaks is no matter of the server's."""


class Handler(BaseHTTPRequestHandler):
    """Answers one request."""

    timeout = BODY_SECONDS
    server_version = "gcore-playground"
    sys_version = ""

    def do_GET(self):
        self.answered(self.get)

    def do_POST(self):
        self.answered(self.post)

    def answered(self, answer):
        """Answers by `answer`; what it refuses, and what fails in it, is told as JSON."""
        try:
            self.refuse_strangers()
            answer()
        except Refused as refused:
            self.send_json(refused.status, {"reason": refused.reason})
            self.drain()
        except ConnectionError:
            self.close_connection = True
        except Exception as error:
            self.send_json(500, {"reason": "the playground failed: %s" % type(error).__name__})

    def refuse_strangers(self):
        """Refused where the request was meant for another host, or comes from another page."""
        hosts, origins = self.headers.get_all("Host", []), self.headers.get_all("Origin", [])
        if len(hosts) != 1 or hosts[0] not in self.server.hosts:
            raise Refused(403, "another host was asked for")
        if any(origin.removeprefix("http://") not in self.server.hosts for origin in origins):
            raise Refused(403, "the request comes from another page")

    def get(self):
        """The page's files, and what it begins with."""
        if self.path == "/start":
            self.send_json(200, self.server.start())
        elif self.path in FILES:
            name, kind = FILES[self.path]
            self.send(200, kind, read(os.path.join(PAGE, name)).encode("utf-8"))
        else:
            raise Refused(404, "there is no such thing here")

    def post(self):
        """A run, a look at a graph, or the end of a run."""
        page = self.headers.get("X-Page", "")
        if not PAGE_NAME.fullmatch(page):
            raise Refused(400, "the header X-Page names no page")
        if self.path == "/stop":
            self.send_json(200, {"stopped": self.server.runs.stop(page)})
        elif self.path in ("/run", "/look"):
            with self.server.runs.seat(page) as seat:
                answer = self.answer_in(seat)
            self.send_json(200, answer)
        else:
            raise Refused(404, "there is no such thing here")

    def answer_in(self, seat):
        """The answer to the body of a request that has a seat."""
        body = self.body()
        if self.path == "/look":
            return self.server.look(seat, sessions.graph_text_of(body))
        return self.server.run_session(seat, sessions.session_of(body))

    def body(self):
        """The body of the request; Refused where it is too large or cut short."""
        length = self.headers.get("Content-Length", "")
        if not re.fullmatch(r"[0-9]{1,18}", length):
            raise Refused(411, "the request does not tell its length")
        if int(length) > sessions.BODY_BYTES:
            raise Refused(413, "the request has more than %d bytes" % sessions.BODY_BYTES)
        pieces, left, end = [], int(length), time.monotonic() + BODY_SECONDS
        while left:
            pieces.append(self.piece(left, end))
            left -= len(pieces[-1])
        return b"".join(pieces)

    def piece(self, left, end):
        """The next bytes of a body of which so many are left; Refused where none come until `end`."""
        try:
            piece = self.rfile.read1(min(left, PIECE))
        except TimeoutError:
            piece = None
        if piece is None or time.monotonic() > end:
            raise Refused(408, "the body did not come in time")
        if not piece:
            raise Refused(400, "the body is cut short")
        return piece

    def drain(self):
        """Takes what is left of a request that was refused, for a while, so that its sender can read why."""
        if self.command != "POST":
            return
        self.connection.settimeout(1)
        end = time.monotonic() + BODY_SECONDS
        try:
            while self.rfile.read1(PIECE) and time.monotonic() < end:
                pass
        except OSError:
            pass

    def send_json(self, status, value):
        """Sends a value as JSON."""
        self.send(status, "application/json; charset=utf-8", json.dumps(value).encode("utf-8"))

    def send(self, status, kind, content):
        """Sends bytes of a kind."""
        self.send_response(status)
        self.send_header("Content-Type", kind)
        self.send_header("Content-Length", str(len(content)))
        self.send_header("Content-Security-Policy", POLICY)
        self.send_header("Cross-Origin-Resource-Policy", "same-origin")
        self.send_header("X-Content-Type-Options", "nosniff")
        self.send_header("Referrer-Policy", "no-referrer")
        self.send_header("Cache-Control", "no-store")
        self.end_headers()
        self.wfile.write(content)

    def send_error(self, code, message=None, explain=None):
        """What the library refuses before the request is read is told as JSON too."""
        self.send_json(code, {"reason": message or "no request that can be read"})

    def log_message(self, *_):
        """Nothing is told of single requests."""


def serve(server):
    """Serves until the process is told to end."""
    try:
        server.serve_forever(poll_interval=0.2)
    finally:
        server.runs.close()
        server.server_close()
