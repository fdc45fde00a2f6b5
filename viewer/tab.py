"""One tab of a browser: what it asked for and is told, and the thread that asks its session."""

import collections
import contextlib
import json
import secrets
import socket
import threading
import time
import zlib

import cameras
import session_lines
import web_socket
from program import Broken
from replies import CODES
from script_ends import Wrong

# What a tab may have asked for besides a picture and isn't answered yet.
MOST_TASKS = 32
# Seconds after which a silent line is tried, and after which one that takes or says nothing is given up.
SILENT, STUCK = 20, 120


class Tab:
    """The two threads of a tab meet here: one reads what the page says, the other asks the session and answers."""

    def __init__(self, office, connection):
        self.office, self.connection = office, connection
        self.name = secrets.token_urlsafe(12)
        self.seat = self.session = None
        self.wake = threading.Condition()
        self.outbox, self.tasks = collections.deque(), collections.deque()
        # Of the pictures that were asked for only the last is drawn, and none while more than one is on its way.
        self.wanted, self.on_way = None, 0
        self.gone = False

    def tell(self, message):
        """Puts a message down for the page; it is sent by the tab's own thread, so a slow tab holds nobody up."""
        with self.wake:
            self.outbox.append(message)
            self.wake.notify()

    def sit(self, seat, session):
        self.seat, self.session = seat, session
        self.tell({"say": "seat", "seat": seat, "tab": self.name})

    def leave(self):
        with self.wake:
            self.gone = True
            self.wake.notify()

    def heard(self, kind, data):
        """Takes what the page says. A message that can't be read ends the connection."""
        if kind == web_socket.PING:
            self.tell((web_socket.PONG, data))
        if kind not in (web_socket.TEXT, web_socket.BINARY):
            return
        try:
            asked = json.loads(data)
        except (ValueError, RecursionError):
            raise web_socket.Closed(1007) from None
        if kind != web_socket.TEXT or not isinstance(asked, dict):
            raise web_socket.Closed(1008)
        with self.wake:
            if asked.get("ask") == "view":
                self.wanted = asked
            elif asked.get("ask") == "ready":
                self.on_way = max(0, self.on_way - 1)
            elif len(self.tasks) < MOST_TASKS:
                self.tasks.append(asked)
            else:
                self.tell({"say": "wrong", "n": asked.get("n"), "text": "too much was asked before this was answered"})
            self.wake.notify()

    def next(self):
        """What is to be done next: a kind and what was said or asked. Waits for it."""
        with self.wake:
            self.wake.wait_for(self.has_work, SILENT)
            if self.gone:
                return "gone", None
            if self.outbox:
                return "tell", self.outbox.popleft()
            if self.session and self.tasks:
                return "task", self.tasks.popleft()
            if self.session and self.wanted and self.on_way < 2:
                wanted, self.wanted = self.wanted, None
                return "view", wanted
        return "tell", (web_socket.PING, b"")

    def has_work(self):
        return self.gone or self.outbox or self.session and (self.tasks or self.wanted and self.on_way < 2)

    def work(self):
        """Does one thing after another until the tab is gone or the run is over."""
        try:
            while self.do(*self.next()):
                pass
        except OSError:
            self.leave()
        except Broken as fault:
            self.office.broken(fault)
            self.say_rest()
        finally:
            self.office.leave(self)
            if not self.gone:
                self.close(1001)
            # This wakes the thread that reads.
            with contextlib.suppress(OSError):
                self.connection.shutdown(socket.SHUT_RD)

    def say_rest(self):
        """Says what is left to be said, at the end."""
        with contextlib.suppress(OSError):
            while self.outbox:
                self.send(self.outbox.popleft())

    def close(self, code):
        """Sends the frame that closes; nothing is sent after it."""
        with contextlib.suppress(OSError):
            self.connection.sendall(web_socket.closing(code))

    def do(self, kind, what):
        """Does one thing, and says whether more may come."""
        if kind == "gone":
            return False
        if kind == "tell":
            self.send(what)
            return not (isinstance(what, dict) and what.get("say") == "end")
        try:
            if kind == "view":
                self.view(what)
            else:
                self.task(what)
        except Wrong as wrong:
            self.send({"say": "wrong", "n": what.get("n"), "text": str(wrong)})
        return True

    def send(self, message):
        """Sends a message: a dictionary, or the kind and the bytes of a frame."""
        if isinstance(message, dict):
            message = web_socket.TEXT, json.dumps(message).encode()
        kind, data = message
        self.connection.sendall(web_socket.head(kind, len(data)) + data)

    def view(self, asked):
        """Draws the picture that was asked for last, and sends its pixels."""
        begun = time.monotonic()
        view = cameras.view_of(self.office.survey, asked)
        divide = cameras.number(asked, "divide", 1, 4)
        if divide not in (1, 2, 4):
            raise Wrong("divide is 1, 2 or 4")
        line = f"view {cameras.smaller(view.words, divide)}"
        words, content = self.office.session_for(self, line).ask(line)
        if words[0] == "REFUSED":
            raise Wrong(refusal(words))
        width, height = view.numbers[0] // divide, view.numbers[1] // divide
        # A PPM ends in its pixels.
        pixels = memoryview(content)[len(content) - 3 * width * height :]
        packs = asked.get("pack") is True
        self.send_picture({
            "say": "picture", "n": asked.get("n"), "version": int(words[1]), "words": view.words, "stands": view.stands,
            "divide": divide, "size": [width, height], "packed": packs, "room": self.office.room(self),
            "drawn": round(1000 * (time.monotonic() - begun)),
        }, zlib.compress(pixels, 1) if packs else pixels)

    def send_picture(self, head, pixels):
        """Sends a picture in one frame: the length of its head, the head, and the pixels."""
        text = json.dumps(head).encode()
        start = web_socket.head(web_socket.BINARY, 4 + len(text) + len(pixels)) + len(text).to_bytes(4, "little") + text
        with self.wake:
            self.on_way += 1
        self.connection.sendall(start)
        self.connection.sendall(pixels)

    def task(self, asked):
        """Makes an edit, or asks a line that was typed."""
        ask = cameras.choice(asked, "ask", ("edit", "line"))
        survey = self.office.survey
        line = cameras.edit_line(survey, asked) if ask == "edit" else cameras.typed_line(asked)
        words, _ = self.office.session_for(self, line, kept=0).ask(line)
        if words[0] == "EDITED":
            made = session_lines.asked(line.encode("ascii"), survey.form)
            self.office.edited(self, int(words[1]), int(words[2]), made)
        self.send({"say": "done", "n": asked.get("n"), "line": line, "reply": words, "text": told(words)})


def refusal(words):
    """What a refusal means, in words."""
    return f"refused: {CODES.get(int(words[1]), 'a code that is not known here')}"


def told(words):
    """What a reply says, in words."""
    kind, *parts = words
    if kind == "REFUSED":
        return refusal(words)
    if kind == "EDITED":
        return f"version {parts[0]}: {parts[1]} {'record has' if parts[1] == '1' else 'records have'} another class"
    if kind == "COUNT":
        return f"{parts[1]} {'record passes' if parts[1] == '1' else 'records pass'} in version {parts[0]}"
    return "a picture, which is not shown"
