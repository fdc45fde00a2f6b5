"""The program beside the viewer: one `serve` with sixteen sessions over named pipes, and lines to them."""

import contextlib
import fcntl
import os
import select
import signal
import subprocess
import sys
import tempfile
import threading

import session_ends
from script_ends import Wrong

MOST_INPUT = 2**20
# The most sessions that a run can have: what isn't a seat is a spare, and the last is the office's own.
SESSIONS = 16
# Bytes of a session's input that are kept for edits, counts and saved files.
KEPT = 2**14
PIPE_SIZE = 2**20
# Python names it from 3.10 on.
F_SETPIPE_SZ = 1031
PIECE = 2**18
# Seconds without a byte after which a session is held to have ended: while others run its pipes stay open.
SILENT = 120


class Broken(Exception):
    """A pipe of a session broke: in one line, what is known of it."""


class Replies:
    """What comes of a session, as `session_ends.read_head` reads it, but for no longer than it is worth to wait."""

    def __init__(self, come, silent=SILENT):
        self.come, self.silent = come, silent
        self.rest = b""
        self.poll = select.poll()
        self.poll.register(come.fileno(), select.POLLIN)

    def wait(self):
        """Waits for the next bytes or the end."""
        if not self.poll.poll(1000 * self.silent):
            raise Broken(f"no reply came for {self.silent} seconds, so a session has ended early")

    def readline(self, most):
        while b"\n" not in self.rest and len(self.rest) < most:
            self.wait()
            piece = os.read(self.come.fileno(), most)
            if not piece:
                break
            self.rest += piece
        end = self.rest.find(b"\n") + 1 or most
        line, self.rest = self.rest[:end], self.rest[end:]
        return line

    def read(self, size):
        """So many bytes, or fewer at the end."""
        content = bytearray(size)
        at = min(size, len(self.rest))
        content[:at], self.rest = self.rest[:at], self.rest[at:]
        while at < size:
            self.wait()
            got = os.readv(self.come.fileno(), [memoryview(content)[at:]])
            if not got:
                break
            at += got
        return memoryview(content)[:at]

    def drain(self):
        """Reads what still comes until the end, and drops it."""
        while os.read(self.come.fileno(), PIECE):
            pass


class Session:
    """One session's ends. Its lines are answered one after another."""

    def __init__(self, number, to, replies):
        self.number, self.to, self.replies = number, to, replies
        self.room = MOST_INPUT
        self.lock = threading.Lock()

    def can_ask(self, line, kept):
        """Whether the session takes one more line of this length, and so many bytes after it."""
        return len(line) + 1 <= self.room - kept

    def begin(self, line):
        """Writes a line, and gives the words of the reply's head and how many bytes follow. The lock is held."""
        data = line.encode("ascii") + b"\n"
        if len(data) > self.room:
            raise Wrong("the session has had as many lines as it takes")
        self.room -= len(data)
        try:
            self.to.write(data)
            head, size = session_ends.read_head(self.replies)
        except (OSError, ValueError):
            size = None
        if size is None:
            raise Broken(f"the pipe of session {self.number} broke")
        return head.decode("ascii").split(), size

    def read(self, size):
        """The next bytes of a reply."""
        content = self.replies.read(size)
        if len(content) != size:
            raise Broken(f"the pipe of session {self.number} broke within a reply")
        return content

    def ask(self, line):
        """The words of the head of a line's reply, and the bytes that came with it."""
        with self.lock:
            words, size = self.begin(line)
            return words, self.read(size)

    def ask_pieces(self, line, begin, take):
        """Hands the words of the head and the size on, and then the bytes, piece after piece as they come."""
        with self.lock:
            words, size = self.begin(line)
            taken = begin(words, size)
            while size:
                piece = self.read(min(size, PIECE))
                size -= len(piece)
                # A reply is read to its end also where nobody takes it any more: the next one stands behind it.
                taken = taken and take(piece)

    def end(self):
        """Ends the input, once the line that is being answered has its reply."""
        with self.lock:
            self.to.close()

    def drain(self):
        """Reads what may still come, so that the program can end."""
        with contextlib.suppress(OSError, ValueError):
            self.replies.drain()


class Program:
    """The running `serve`, and what it said on standard error."""

    def __init__(self, program, survey, workers, journal):
        self.journal = journal
        self.told = b""
        self.pipes = tempfile.TemporaryDirectory(prefix="hidrevca-viewer-")
        with self.pipes:
            names = [session_ends.make_pipes(self.pipes.name, str(at)) for at in range(1, SESSIONS + 1)]
            ends = [pipe for pair in names for pipe in pair]
            # Not in the group of the terminal: what ends this viewer would else take the journal with it.
            self.process = subprocess.Popen(
                [program, "serve", survey, str(workers), journal, *ends],
                stdin=subprocess.DEVNULL, stdout=subprocess.DEVNULL, stderr=subprocess.PIPE, start_new_session=True,
            )
            self.listener = threading.Thread(target=self.listen, daemon=True)
            self.listener.start()
            try:
                self.sessions = [self.open(at, pair) for at, pair in enumerate(names, 1)]
                # A reply says that the journal was opened too.
                self.sessions[-1].ask("count all show")
            except (Broken, Wrong):
                with contextlib.suppress(subprocess.TimeoutExpired):
                    self.process.wait(2)
                self.kill()
                raise Wrong(f"the program doesn't serve: {self.how_it_ended()}") from None
            except BaseException:
                self.kill()
                raise

    def open(self, at, pipes):
        to, come = session_ends.open_pipes(pipes, self.process, f"session {at}")
        with contextlib.suppress(OSError):
            fcntl.fcntl(come, F_SETPIPE_SZ, PIPE_SIZE)
        return Session(at, to, Replies(come))

    def listen(self):
        """Hands on what the program says."""
        for line in self.process.stderr:
            self.told = line.strip() or self.told
            # The terminal may be gone.
            with contextlib.suppress(OSError):
                sys.stderr.write(line.decode("utf-8", "replace"))
                sys.stderr.flush()

    def how_it_ended(self):
        """Waits for the end and says how it was, in words."""
        status = self.process.wait()
        self.listener.join(2)
        if status < 0:
            return f"the program was ended by signal {-status} ({signal.Signals(-status).name})"
        said = f": {self.told.decode('utf-8', 'replace')}" if status and self.told else ""
        return f"the program ended with status {status}{said}"

    def end(self):
        """Ends all sessions, whereupon the program writes the journal and ends."""
        closers = [threading.Thread(target=session.end, daemon=True) for session in self.sessions]
        drains = [threading.Thread(target=session.drain, daemon=True) for session in self.sessions]
        for closer in closers:
            closer.start()
        for closer, drain in zip(closers, drains):
            closer.join()
            drain.start()
        self.process.wait()

    def kill(self):
        with contextlib.suppress(OSError):
            os.killpg(self.process.pid, signal.SIGKILL)


def info(program, survey):
    """The text of `info`; where it is refused, the program has said why, and its status is handed on."""
    done = subprocess.run([program, "info", survey, "-"], stdin=subprocess.DEVNULL, stdout=subprocess.PIPE)
    if done.returncode:
        sys.exit(done.returncode if done.returncode > 0 else 128 - done.returncode)
    return done.stdout.decode("ascii", "replace")
