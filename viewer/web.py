"""The pages of the viewer over HTTP, on this machine's loopback address alone.

Each request has to have the key of this run and a Host header that names this address, and names none of the
machine's files: what can be had are the page, its script and its style sheet, a tab's line, and a saved file.
"""

import hmac
import http.server
import os
import re
import secrets
import socketserver
import threading
import urllib.parse

import web_socket
from program import Broken
from script_ends import Wrong
from tab import STUCK, Tab

HERE = os.path.dirname(os.path.realpath(__file__))
ADDRESS = "127.0.0.1"
# The page has one script, which is these one after another.
SCRIPT = [f"script/{part}.js" for part in ("cameras", "pictures", "panel", "line", "controls")]
FILES = {
    "/": (["page.html"], "text/html; charset=utf-8"),
    "/viewer.js": (SCRIPT, "text/javascript; charset=utf-8"),
    "/viewer.css": (["viewer.css"], "text/css; charset=utf-8"),
}
POLICY = (
    "default-src 'none'; script-src 'self'; style-src 'self'; img-src data:; base-uri 'none'; form-action 'none'; "
    "frame-ancestors 'none'; connect-src 'self' ws://{0}:{1} ws://localhost:{1}"
)


class Server(socketserver.ThreadingMixIn, http.server.HTTPServer):
    """The server of one run, with its key."""

    daemon_threads = True
    request_queue_size = 64

    def __init__(self, port, office):
        super().__init__((ADDRESS, port), Handler)
        self.office = office
        self.key = secrets.token_urlsafe(24)
        # Each opens the page once: what starts a browser shows its words to all users of the machine.
        self.tickets = set()
        self.lock = threading.Lock()

    def handle_error(self, request, client_address):
        """A connection that broke is no matter of the run's."""

    def port(self):
        return self.server_address[1]

    def address(self):
        return f"http://{ADDRESS}:{self.port()}/?key={self.key}"

    def ticket(self):
        """An address that opens the page once."""
        ticket = secrets.token_urlsafe(24)
        self.tickets.add(ticket)
        return f"http://{ADDRESS}:{self.port()}/?ticket={ticket}"

    def take_ticket(self, ticket):
        with self.lock:
            if ticket in self.tickets:
                self.tickets.remove(ticket)
                return True
        return False

    def hosts(self):
        return [f"{name}:{self.port()}" for name in (ADDRESS, "localhost")]


class Handler(http.server.BaseHTTPRequestHandler):
    """Answers one connection."""

    protocol_version = "HTTP/1.1"
    server_version, sys_version = "hidrevca-viewer", ""
    timeout = STUCK
    # A small piece goes at once: else it may wait for the other side's word that the one before came.
    disable_nagle_algorithm = True

    def log_message(self, *_):
        """Nothing is logged: a line would have the key in it."""

    def refuse(self, status, text):
        """Answers with an error, and ends the connection."""
        self.close_connection = True
        self.answer(status, "text/plain; charset=utf-8", f"{text}\n".encode(), {"Connection": "close"})

    def answer(self, status, kind, content, more=None):
        self.send_response(status)
        port = self.server.port()
        headers = {
            "Content-Type": kind, "Content-Length": str(len(content)), "Cache-Control": "no-store",
            "Content-Security-Policy": POLICY.format(ADDRESS, port), "Referrer-Policy": "no-referrer",
            "X-Content-Type-Options": "nosniff", "Cross-Origin-Resource-Policy": "same-origin", **(more or {}),
        }
        for name, value in headers.items():
            self.send_header(name, value)
        self.end_headers()
        self.wfile.write(content)

    def do_GET(self):
        """Looks at who asks before it looks at what is asked for."""
        hosts = self.headers.get_all("Host") or []
        if len(hosts) != 1 or hosts[0] not in self.server.hosts():
            return self.refuse(400, "the Host header isn't this viewer's address")
        origin = self.headers.get("Origin")
        if origin is not None and origin not in [f"http://{host}" for host in self.server.hosts()]:
            return self.refuse(403, "another site asks")
        path, _, query = self.path.partition("?")
        words = dict(urllib.parse.parse_qsl(query[:1000]))
        if path == "/" and self.server.take_ticket(words.get("ticket")):
            return self.answer(303, "text/plain", b"", {"Location": f"/?key={self.server.key}"})
        if not hmac.compare_digest(words.get("key", "").encode(), self.server.key.encode()):
            return self.refuse(403, "the key is missing or wrong: take the address that ./viewer/start printed")
        if path in FILES:
            return self.file(*FILES[path])
        if path == "/tab":
            return self.tab()
        if path == "/save":
            return self.save(words.get("tab"))
        return self.refuse(404, "there is no such page")

    def file(self, names, kind):
        """The page with the key in its addresses, its script or its style sheet."""
        content = b""
        for name in names:
            with open(os.path.join(HERE, name), "rb") as file:
                content += file.read()
        if names == ["page.html"]:
            content = content.replace(b"{key}", self.server.key.encode())
        self.answer(200, kind, content)

    def tab(self):
        """Turns the connection into a tab's line."""
        key = self.headers.get("Sec-WebSocket-Key", "")
        asked = self.headers.get("Upgrade", "").lower(), self.headers.get("Sec-WebSocket-Version")
        if asked != ("websocket", "13") or not web_socket.is_key(key):
            return self.refuse(400, "this address is for a WebSocket")
        self.send_response(101)
        for name, value in (("Upgrade", "websocket"), ("Connection", "Upgrade"), ("Sec-WebSocket-Accept", web_socket.accept(key))):
            self.send_header(name, value)
        self.end_headers()
        self.close_connection = True
        self.serve(Tab(self.server.office, self.connection))

    def serve(self, tab):
        """Hears what the page says, until it closes."""
        self.server.office.join(tab)
        worker = threading.Thread(target=tab.work, daemon=True)
        worker.start()
        code = 1000
        try:
            for kind, data in web_socket.messages(self.rfile):
                tab.heard(kind, data)
        except web_socket.Closed as closed:
            code = closed.code
        except (OSError, ValueError):
            pass
        was_there = worker.is_alive()
        tab.leave()
        worker.join()
        if was_there:
            tab.close(code)

    def save(self, name):
        """Sends the file of the newest version, byte for byte as it comes from the session."""
        office = self.server.office
        if not office.tab_of(name):
            return self.refuse(403, "only a tab with a seat can save")
        try:
            with office.session_to_save(self.connection) as session:
                session.ask_pieces("save", self.begin_file, self.give_piece)
        except Broken as fault:
            self.close_connection = True
            office.broken(fault)
        except Wrong as wrong:
            self.refuse(409, str(wrong))

    def begin_file(self, words, size):
        """Begins the answer with the name and the length of the file, and says whether it is taken."""
        stem = re.sub(r"[^A-Za-z0-9._-]+", "-", os.path.splitext(os.path.basename(self.server.office.survey.name))[0])
        name = f"{stem}-version-{words[1]}.las"
        try:
            self.send_response(200)
            for header, value in (
                ("Content-Type", "application/octet-stream"), ("Content-Length", str(size)), ("Cache-Control", "no-store"),
                ("Content-Disposition", f'attachment; filename="{name}"'), ("X-Content-Type-Options", "nosniff"),
            ):
                self.send_header(header, value)
            self.end_headers()
            return True
        except OSError:
            self.close_connection = True
            return False

    def give_piece(self, piece):
        try:
            self.wfile.write(piece)
            return True
        except OSError:
            self.close_connection = True
            return False
