#!/usr/bin/env python3
"""Tries sixteen sessions at once over the whole program, and checks each run with audit.py.

    python3 examples/try_sessions.py [--runs N] [--lines N] [--seed N] [--program PROGRAM]

In each run a survey and the scripts of sixteen sessions are drawn by lot: edits, views, counts, saves and
lines that are refused. Three of them come over named pipes, from a peer that reads each reply before it
writes its next line. In three more runs one session ends early, since its replies go to a full device, its
peer goes away, or its input is too long; there the others have to finish. The lots are the same for the
same seed, the order in which the program takes the lines isn't. Ends with 1 at the first run that is wrong,
and leaves its files.
"""

import collections
import os
import random
import shutil
import subprocess
import sys
import tempfile
import threading

import assemble
import audit
import replies
import session_lines
from lots import class_list, edit, survey, view, view_words
from script_ends import Words, Wrong
from session_lines import MOST_BYTES

ROOT = os.path.dirname(os.path.dirname(os.path.realpath(__file__)))
SESSIONS, PIPES = 16, 3
SIZES = ("small", "middling")
# Seconds after which a run hangs.
LONGEST = 300
# Lines that are refused, that have no reply, and in other forms than the usual.
ODD = (
    b"",
    b" \t",
    b"\r",
    b"\r\r",
    b"x" * 4097,
    b" " * 4097,
    b"save now",
    b"save\r",
    b"\tsave ",
    b"count 3-1 show",
    b"count 0,2-6,255\thide",
    b"count all show\r",
    b"edit 0 0 0 9 9 9 all",
    b"edit 0 0 0 9 9 2147483648 all 2",
    b"edit 007 -0 0 9 9 9 3,1-2,2 06",
    b"edit 0 0 0 9 9 9 all 256",
    b"view ortho 0 1 0 0 0 1 0 0 0 1 0 0 0 1 1 1 0 10 class all show",
    b"view ortho 1 1 0 0 0 1 0 0 0 1 0 0 0 1 1 1 0 10 rgb16 all show",
    b"view persp 1 1 0 0 0 1 0 0 0 1 0 0 0 1 1 1 1 10 rgb8 all",
    b"\xff\x0b",
)


def line(lots, made):
    """A line of a session."""
    lot = lots.random()
    if lot < 0.35:
        return edit(lots, made)[0].encode()
    if lot < 0.65:
        return " ".join(["view", *view_words(lots, view(lots, made))]).encode()
    if lot < 0.85:
        return f"count {class_list(lots, 255)[0]} {lots.choice(('show', 'hide'))}".encode()
    return b"save" if lot < 0.88 else lots.choice(ODD)


def script(lots, made, count):
    text = b"\n".join(line(lots, made) for _ in range(lots.randint(0, 2 * count)))
    return text + lots.choice((b"", b"\n"))


class Peer(threading.Thread):
    """Plays a script over two named pipes, and keeps what came."""

    def __init__(self, text, form, to, come, kept):
        super().__init__(daemon=True)
        self.text, self.names = text, (to, come, kept)
        self.answered = {item.number for item in session_lines.items(text, form)}
        for name in (to, come):
            os.mkfifo(name)

    def run(self):
        # The program opens them in this order too.
        with open(self.names[0], "wb", 0) as to, open(self.names[1], "rb") as come, open(self.names[2], "wb") as kept:
            self.talk(to, come, kept)

    def talk(self, to, come, kept):
        lines = self.text.split(b"\n")
        for number, text in enumerate(lines[:-1], 1):
            to.write(text + b"\n")
            if number in self.answered:
                self.keep_reply(come, kept)
        # A last line without LF is answered when the input ends.
        to.write(lines[-1])
        to.close()
        kept.write(come.read())

    @staticmethod
    def keep_reply(come, kept):
        head = come.readline(80)
        kept.write(head)
        if found := replies.HEAD.fullmatch(head):
            kept.write(come.read(int(found[3] or 0)))


class Leaver(Peer):
    """Writes all its lines, and goes away when it has read one reply."""

    def talk(self, to, come, kept):
        to.write(self.text)
        self.keep_reply(come, kept)


class Run:
    """A run of the program in a folder: its survey, and the scripts of its sessions with where each end lies."""

    def __init__(self, program, lots, folder, count):
        self.program, self.folder, self.peers = program, folder, []
        self.form = lots.choice(list(assemble.FORMATS))
        self.made = survey(lots, folder, self.form, lots.choice(SIZES), lots.choice((1, 60, 200, 1500)))
        self.workers = lots.choice((1, 2, 4, 8))
        self.scripts = [script(lots, self.made, count) for _ in range(SESSIONS)]
        self.ends = {}

    def path(self, name):
        return os.path.join(self.folder, name)

    def by_pipes(self, numbers, kind=Peer):
        """Lets these sessions come over named pipes, from a peer of this kind."""
        for number in numbers:
            ends = [self.path(f"{number}.{name}") for name in ("to", "come", "out")]
            self.peers.append(kind(self.scripts[number], self.form, *ends))
            self.ends[number] = ends[:2]

    def end(self):
        """The status of the run, and the first line that it told."""
        for number, text in enumerate(self.scripts):
            for name, data in ((f"{number}.in", text), (f"{number}.out", b"")):
                with open(self.path(name), "wb") as file:
                    file.write(data)
        words = ["serve", self.path("survey.las"), str(self.workers), self.path("journal")]
        for number in range(SESSIONS):
            words += self.ends.get(number) or [self.path(f"{number}.in"), self.path(f"{number}.out")]
        for peer in self.peers:
            peer.start()
        try:
            done = subprocess.run([self.program, *words], stdin=subprocess.DEVNULL, capture_output=True, timeout=LONGEST)
        except subprocess.TimeoutExpired:
            raise Wrong(f"the run hangs for {LONGEST} seconds") from None
        for peer in self.peers:
            peer.join(10)
            if peer.is_alive():
                raise Wrong("a peer waits for a reply after the run's end")
        return done.returncode, done.stderr.decode("utf-8", "replace").partition("\n")[0]

    def check(self, wanted, early=()):
        """Holds the run against its status and the audit; only these sessions may end early. Gives a tally."""
        ended = self.end()
        if ended != wanted:
            raise Wrong(f"the run ended with {ended}, and not with {wanted}")
        pairs = [(self.path(f"{number}.in"), self.path(f"{number}.out")) for number in range(SESSIONS)]
        sessions, edits, unanswered, fault = audit.audit(self.path("survey.las"), self.path("journal"), pairs)
        for number, session in enumerate(sessions):
            if session.fault or bool(session.early()) != (number in early):
                raise Wrong(audit.told(session))
        if fault:
            raise Wrong(f"journal: {fault}")
        return tally(sessions, edits, unanswered)


def tally(sessions, edits, unanswered):
    """How many replies there are, and how many of them show edits of several sessions."""
    found, owners = collections.Counter(edits=len(edits), unanswered=unanswered), {0: None}
    for session in sessions:
        owners |= {answer.version: session for answer in session.answers if isinstance(answer.item.asked, session_lines.Edit)}
    for session in sessions:
        found["replies"] += len(session.whole())
        found["of others"] += sum(
            owners.get(answer.version) not in (None, session) for answer in session.whole() if answer.version is not None
        )
    return found


def plain(run, lots):
    run.by_pipes(lots.sample(range(SESSIONS), PIPES))
    return run.check((0, ""))


def full_device(run, lots):
    """One session can't write: its first edit is in the journal, and the others finish."""
    number = lots.randrange(SESSIONS)
    run.scripts[number] = b"edit 0 0 0 9 9 9 all 1\n" * 9
    run.ends[number] = [run.path(f"{number}.in"), "/dev/full"]
    found = run.check((9, f"cannot write word {5 + 2 * number}"), {number})
    if found["unanswered"] != 1:
        raise Wrong(f"{found['unanswered']} edits of a session that can't write are in the journal, and not 1")
    return found


def gone(run, lots):
    """One peer goes away and leaves more replies than a pipe holds; the others finish."""
    number = lots.randrange(SESSIONS)
    run.scripts[number] = b"save\n" * 400
    run.by_pipes([number], Leaver)
    return run.check((9, f"cannot write word {5 + 2 * number}"), {number})


def too_long(run, lots):
    """One session has a byte too much: what ends among the first bytes is answered, and the others finish."""
    number = lots.randrange(SESSIONS)
    front = run.scripts[number].rstrip(b"\n") + b"\nedit 0 0 0 9 9 9 all 1\n"
    lines, rest = divmod(MOST_BYTES - 4 - len(front), 4000)
    # The LF of the last line is the byte too much.
    run.scripts[number] = front + (b" " * 3999 + b"\n") * lines + b"\n" * rest + b"save\n"
    run.by_pipes([it for it in lots.sample(range(SESSIONS), PIPES) if it != number])
    return run.check((10, f"session input of word {4 + 2 * number} is too long"), {number})


def words():
    parser = Words(__doc__)
    for name, value in (("runs", 4), ("lines", 25), ("seed", 1)):
        parser.add_argument(f"--{name}", type=int, default=value)
    parser.add_argument("--program", default=os.path.join(ROOT, "hidrevca"))
    return parser.parse_args()


def main():
    given = words()
    kinds = [plain] * given.runs + [full_device] * os.path.exists("/dev/full") + [gone, too_long]
    total = collections.Counter()
    for number, kind in enumerate(kinds, 1):
        lots, folder = random.Random(f"{given.seed} {number}"), tempfile.mkdtemp()
        run = Run(given.program, lots, folder, given.lines)
        try:
            total += kind(run, lots)
        except Wrong as wrong:
            sys.exit(f"try_sessions.py: run {number}, {run.made.name}: {wrong}\n  the files are in {folder}")
        shutil.rmtree(folder)
    print(f"{len(kinds)} runs of {SESSIONS} sessions are right: {total['replies']} replies, {total['edits']} edits in their journals;")
    print(f"{total['of others']} replies show a version that another session made")


if __name__ == "__main__":
    main()
