"""The server of the page: on this machine alone, under an address with a secret, and with no path but its own.

It ends with the page: the page holds a connection open, and when the last one has been gone for a while, nobody looks any more.
"""
import contextlib
import hmac
import json
import os
import secrets
import select
import socket
import threading
import time
from http.server import BaseHTTPRequestHandler, ThreadingHTTPServer

from asking.session import QUESTIONS, Asked
from watching.texts import Fault

HERE = os.path.dirname(os.path.realpath(__file__))
WATCHING = os.path.join(os.path.dirname(HERE), "watching")
MOST_BYTES, MOST_VERTEX, MOST_DEGREES, LINGER, BEAT, PIECE = 24_000_000, 2**32 - 1, 1_000_000, 4.0, 0.5, 1 << 18

SCRIPT, STYLE, PAGE, DATA = "text/javascript", "text/css", "text/html", "application/json"
FILES = {
    "": (HERE, "page.html", PAGE), "page.css": (HERE, "page.css", STYLE), "page.js": (HERE, "page.js", SCRIPT),
    "walks.js": (HERE, "walks.js", SCRIPT), "picture.js": (HERE, "picture.js", SCRIPT), "hands.js": (HERE, "hands.js", SCRIPT),
    "gl.js": (HERE, "gl.js", SCRIPT), "asker.js": (HERE, "asker.js", SCRIPT), "worker.js": (HERE, "worker.js", SCRIPT),
    "off.js": (HERE, "off.js", SCRIPT), "ways.js": (HERE, "ways.js", SCRIPT),
    "space.js": (WATCHING, "space.js", SCRIPT), "ribbon.js": (WATCHING, "ribbon.js", SCRIPT), "words.js": (WATCHING, "words.js", SCRIPT),
}
# The page loads what lies here and nothing else; a film is one page that loads nothing at all.
OWN = ("default-src 'none'; script-src 'self'; worker-src 'self'; style-src 'self'; connect-src 'self'; frame-src 'self'; "
       "img-src 'self' data:; base-uri 'none'; form-action 'none'; frame-ancestors 'none'")
ALONE = ("default-src 'none'; script-src 'unsafe-inline'; style-src 'unsafe-inline'; img-src data:; base-uri 'none'; "
         "form-action 'none'; frame-ancestors 'self'")


class Refused(Exception):
    """A request that is not answered: its status, and a line that says why."""


class Server(ThreadingHTTPServer):
    daemon_threads = True

    def __init__(self, session, start, port=0):
        super().__init__(("127.0.0.1", port), Handler)
        self.session, self.start, self.secret = session, start, secrets.token_urlsafe(24)
        self.host = "127.0.0.1:%d" % self.server_port
        self.pages, self.left, self.pages_lock = 0, None, threading.Lock()

    @property
    def address(self):
        return "http://%s/%s/" % (self.host, self.secret)

    def page_opens(self):
        with self.pages_lock:
            self.pages += 1

    def page_closes(self):
        with self.pages_lock:
            self.pages -= 1
            self.left = time.monotonic()

    def service_actions(self):
        """Called again and again: ends the server when the last page has been closed for a while."""
        with self.pages_lock:
            is_over = self.left is not None and self.pages == 0 and time.monotonic() - self.left > LINGER
        if is_over:
            threading.Thread(target=self.shutdown, daemon=True).start()

    def handle_error(self, request, client_address):
        """A connection that was closed in the middle is no news."""


class Handler(BaseHTTPRequestHandler):
    server_version, sys_version, timeout = "ask", "", 60

    def log_message(self, *_):
        """Nothing is written of requests."""

    def do_GET(self):
        self.answered(self.get)

    def do_POST(self):
        self.answered(self.post)

    def answered(self, deed):
        try:
            deed(self.name_asked())
        except Refused as refusal:
            status, why = refusal.args
            self.give((why + "\n").encode(), "text/plain; charset=utf-8", status)
        except Fault as fault:
            self.give_data({"fault": str(fault)})
        except (BrokenPipeError, ConnectionResetError, TimeoutError):
            self.close_connection = True
        except OSError as fault:
            self.give_data({"fault": "a file could not be read or written: %s" % (fault.strerror or fault)})

    def name_asked(self):
        """What stands behind the secret in the address."""
        if self.headers.get_all("Host") != [self.server.host]:
            raise Refused(403, "this is no server of that host")
        parts = self.path.split("/", 2)
        if len(parts) < 3 or parts[0] or not hmac.compare_digest(parts[1].encode(), self.server.secret.encode()):
            raise Refused(404, "there is nothing here")
        return parts[2]

    def give(self, content, kind, status=200, policy=OWN):
        self.send_response(status)
        self.head(kind, policy)
        self.send_header("Content-Length", str(len(content)))
        self.end_headers()
        self.wfile.write(content)

    def head(self, kind, policy=OWN):
        text = "; charset=utf-8" if kind in (SCRIPT, STYLE, PAGE) else ""
        for name, value in (("Content-Type", kind + text), ("Content-Security-Policy", policy), ("Cache-Control", "no-store"),
                            ("X-Content-Type-Options", "nosniff"), ("Referrer-Policy", "no-referrer"),
                            ("Cross-Origin-Resource-Policy", "same-origin")):
            self.send_header(name, value)

    def give_data(self, data):
        self.give(json.dumps(data, separators=(",", ":")).encode(), DATA)

    def get(self, name):
        session = self.server.session
        if name in FILES:
            folder, file, kind = FILES[name]
            with open(os.path.join(folder, file), "rb") as source:
                self.give(source.read(), kind)
        elif name == "start":
            self.give_data(self.server.start)
        elif name == "scene":
            self.give_data(session.scene())
        elif name == "mesh":
            self.give_mesh(session.mesh)
        elif name == "alive":
            self.stay()
        elif name.startswith("film/"):
            self.give_film(self.number(name[5:]))
        else:
            raise Refused(404, "there is nothing here")

    def give_film(self, number):
        """The page of a certificate, or a line that says why there is none."""
        try:
            self.give(self.server.session.film(number).encode("utf-8", "replace"), PAGE, policy=ALONE)
        except Fault as fault:
            self.give(("There is no film: %s\n" % fault).encode(), "text/plain; charset=utf-8", policy=ALONE)

    def give_mesh(self, path):
        """The mesh file as it is, piece by piece."""
        if not os.path.isfile(path):
            raise Refused(404, "the mesh file is gone")
        with open(path, "rb") as file:
            size = os.fstat(file.fileno()).st_size
            self.send_response(200)
            self.head("application/octet-stream")
            self.send_header("Content-Length", str(size))
            self.end_headers()
            while size > 0:
                piece = file.read(min(PIECE, size))
                if not piece:
                    break
                self.wfile.write(piece)
                size -= len(piece)

    def stay(self):
        """Says now and then that the server is there, till the page is gone."""
        self.send_response(200)
        self.head("text/plain")
        self.end_headers()
        self.server.page_opens()
        try:
            while True:
                self.wfile.write(b".")
                time.sleep(BEAT)
        finally:
            self.server.page_closes()

    def number(self, text):
        """The number of an answer that is kept."""
        number = int(text) if text.isascii() and text.isdigit() and len(text) < 10 else -1
        if number not in self.server.session.answers:
            raise Refused(404, "there is no such answer, or it is kept no more")
        return number

    def post(self, name):
        session, asked = self.server.session, self.body()
        if name == "ask":
            self.give_data(session.ask(question_of(asked), self.is_left))
        elif name == "stop":
            session.stop(asked.get("ticket"))
            self.give_data({})
        elif name == "save":
            self.give_data(self.saved(self.number(str(asked.get("number")))))
        else:
            raise Refused(404, "there is nothing here")

    def is_left(self):
        """Whether the page that asked is gone, or was loaded anew: its connection is at its end."""
        try:
            return bool(select.select([self.connection], [], [], 0)[0]) and not self.connection.recv(1, socket.MSG_PEEK)
        except OSError:
            return True

    def saved(self, number):
        try:
            saved = self.server.session.save(number)
        except OSError as fault:
            raise Fault("nothing was saved: %s" % (fault.strerror or fault)) from None
        lines = ["saved " + " ".join(saved["files"])] + saved["commands"]
        with contextlib.suppress(OSError):
            print("\n".join("ask: " + line for line in lines), flush=True)
        return saved

    def body(self):
        """What a page sends: one object, not too long."""
        length = self.headers.get("Content-Length", "")
        if not length.isascii() or not length.isdigit() or self.headers.get("Content-Type") != DATA:
            raise Refused(400, "a request has a length and is " + DATA)
        if len(length) > 9 or int(length) > MOST_BYTES:
            raise Refused(413, "a request has at most %d bytes" % MOST_BYTES)
        try:
            asked = json.loads(self.rfile.read(int(length)))
        except (ValueError, RecursionError):
            raise Refused(400, "a request is one object") from None
        if not isinstance(asked, dict):
            raise Refused(400, "a request is one object")
        return asked


def question_of(asked):
    """A question, two walks, the name by which it can be stopped, and from where the mesh is seen."""
    question, walks, view = asked.get("question"), asked.get("walks"), asked.get("view")
    fits = question in QUESTIONS and isinstance(walks, list) and len(walks) == 2
    if not fits or not all(isinstance(walk, list) and walk and all(map(is_vertex, walk)) for walk in walks):
        raise Refused(400, "a question is one of %s, of two walks" % ", ".join(QUESTIONS))
    if view is not None and not (isinstance(view, list) and len(view) == 2 and all(map(is_angle, view))):
        raise Refused(400, "a view is two angles")
    return Asked(question, walks, str(asked.get("ticket")), view)


def is_vertex(entry):
    return type(entry) is int and 0 <= entry <= MOST_VERTEX


def is_angle(entry):
    return type(entry) in (int, float) and abs(entry) <= MOST_DEGREES
