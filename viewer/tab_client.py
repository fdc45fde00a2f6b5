"""A viewer that a test starts, and a tab of it without a browser: what the page does with its line, in Python."""

import contextlib
import json
import os
import signal
import socket
import struct
import subprocess
import sys
import urllib.parse

HERE = os.path.dirname(os.path.realpath(__file__))
ROOT = os.path.dirname(HERE)
# Seconds that an answer may take.
LONGEST = 60


class Viewer:
    """A running viewer, its address, its key, and its journal."""

    def __init__(self, survey, folder, *words, browser=None):
        self.journal = os.path.join(folder, "journal.txt")
        start = [sys.executable, os.path.join(HERE, "start"), survey, "--journal", self.journal, *words]
        start += [] if browser else ["--no-browser"]
        # Python's webbrowser starts the browser that BROWSER names.
        screen = {**os.environ, "DISPLAY": ":0", "BROWSER": browser or ""}
        self.process = subprocess.Popen(start, cwd=folder, env=screen, stdout=subprocess.PIPE, stderr=subprocess.PIPE)
        self.address = self.process.stdout.readline().decode().strip()
        parts = urllib.parse.urlsplit(self.address)
        self.port, self.key = parts.port, dict(urllib.parse.parse_qsl(parts.query)).get("key")

    def program(self):
        """The process id of the program beside the viewer."""
        with open(f"/proc/{self.process.pid}/task/{self.process.pid}/children", encoding="ascii") as file:
            return int(file.read().split()[0])

    def end(self, by=signal.SIGINT):
        """Ends the viewer, and gives its status and what it said."""
        if self.process.poll() is None and by:
            self.process.send_signal(by)
        try:
            _, said = self.process.communicate(timeout=LONGEST)
        except subprocess.TimeoutExpired:
            self.process.kill()
            _, said = self.process.communicate()
        return self.process.returncode, said.decode("utf-8", "replace")


class Client:
    """A tab's line."""

    def __init__(self, viewer, key=None):
        self.socket = socket.create_connection(("127.0.0.1", viewer.port), LONGEST)
        self.socket.setsockopt(socket.IPPROTO_TCP, socket.TCP_NODELAY, 1)
        self.stream = self.socket.makefile("rb")
        self.socket.sendall(
            f"GET /tab?key={key or viewer.key} HTTP/1.1\r\nHost: 127.0.0.1:{viewer.port}\r\nUpgrade: websocket\r\n"
            "Connection: Upgrade\r\nSec-WebSocket-Version: 13\r\nSec-WebSocket-Key: dGhlIHNhbXBsZSBub25jZQ==\r\n\r\n".encode()
        )
        self.answer = self.stream.readline().decode().strip()
        while self.stream.readline().strip():
            pass
        self.heard = []

    def say(self, message):
        self.frame(1, json.dumps(message).encode() if isinstance(message, dict) else message)

    def frame(self, kind, data):
        """Sends a masked frame; the mask is of zeros, which leaves the bytes as they are."""
        size = bytes([0x80 | len(data)]) if len(data) < 126 else struct.pack(">BH", 0x80 | 126, len(data))
        self.socket.sendall(bytes([0x80 | kind]) + size + bytes(4) + data)

    def message(self):
        """What comes next: a dictionary, with the pixels under `rgb` where it is a picture; nothing at the end."""
        first = self.stream.read(2)
        if len(first) < 2:
            return None
        size = first[1]
        if size > 125:
            size = int.from_bytes(self.stream.read(2 if size == 126 else 8), "big")
        data = self.stream.read(size)
        kind = first[0] & 0x0F
        if kind == 8:
            return {"say": "closed", "code": int.from_bytes(data, "big")}
        if kind == 2:
            (length,) = struct.unpack_from("<I", data)
            return {**json.loads(data[4 : 4 + length]), "rgb": data[4 + length :]}
        return json.loads(data) if kind == 1 else {"say": "ping"}

    def wait_for(self, what):
        """The next message of a kind; those before it are kept in `heard`."""
        while True:
            message = self.message()
            if message is None:
                raise AssertionError(f"the line ended before {what} came")
            self.heard.append(message)
            if message["say"] == "picture":
                self.say({"ask": "ready"})
            if message["say"] == what:
                return message

    def picture(self, **asked):
        self.say({"ask": "view", **asked})
        return self.wait_for("picture")

    def close(self):
        with contextlib.suppress(OSError):
            self.socket.shutdown(socket.SHUT_RDWR)
        self.stream.close()
        self.socket.close()
