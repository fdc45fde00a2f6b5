"""What the tabs share: the seats, the edits that were answered, and the records of each class."""

import contextlib
import os
import socket
import subprocess
import threading
import time

import cameras
import session_lines
from program import KEPT, MOST_INPUT, Broken
from script_ends import Wrong

# Edits that a tab is told of when it comes.
LAST = 30
USED_UP = "this run's sessions have had as many views as they take: save, end the viewer, and start it over the saved file"


class Answered:
    """The lines of the edits that were answered, on disk while the program has no journal yet."""

    def __init__(self, journal):
        self.file = open(f"{journal}.answered", "xb")
        self.name = os.path.abspath(self.file.name)
        self.early = {}
        self.lines = []

    def note(self, version, line):
        """Notes an edit; replies to several sessions may come in another order than that of their versions."""
        self.early[version] = line
        while len(self.lines) + 1 in self.early:
            self.write(self.early.pop(len(self.lines) + 1))
        self.file.flush()
        os.fsync(self.file.fileno())

    def write(self, line):
        self.lines.append(line)
        self.file.write(line + b"\n")

    def close(self):
        """Ends the file. Behind an edit whose reply didn't come those that came stand too."""
        for version in sorted(self.early):
            self.write(self.early.pop(version))
        self.file.close()

    def settle(self, journal):
        """Removes the file where the journal has all that was answered, and says whether it has."""
        try:
            self.close()
            with open(journal, "rb") as file:
                whole = file.read()
        except OSError:
            return False
        # An edit whose reply nobody read any more may stand behind those that were answered.
        if not whole.startswith(b"".join(line + b"\n" for line in self.lines)):
            return False
        os.remove(self.name)
        return True

    def drop(self):
        """Removes the file of a run that answered nothing."""
        self.close()
        if not self.lines:
            os.remove(self.name)


class Office:
    """All that is shared, under one lock."""

    def __init__(self, survey, program, seats, answered):
        self.survey, self.program = survey, program
        self.lock = threading.Lock()
        sessions = program.sessions
        self.free = list(enumerate(sessions[:seats], 1))
        self.seats, self.own = seats, sessions[-1]
        self.spares = sessions[seats:-1]
        self.tabs, self.waiting, self.saves = [], [], set()
        self.edits, self.newest = {}, 0
        self.counts = {kind: [count, count] for kind, count in survey.counts.items()}
        self.answered = answered
        self.over, self.why = threading.Event(), None
        self.to_count = set()
        self.counting = threading.Condition(self.lock)
        self.withheld = False
        threading.Thread(target=self.count, daemon=True).start()

    def said(self):
        """What a tab is told when it comes. The lock is held."""
        last = [self.edits[version] for version in sorted(self.edits)[-LAST:]]
        return {
            "say": "hello",
            **self.survey.said(),
            "seats": self.seats,
            "journal": self.program.journal,
            "version": self.newest,
            "edits": last,
            **self.counts_said(),
        }

    def counts_said(self):
        return {"counts": sorted([kind, *both] for kind, both in self.counts.items()), "withheld": self.withheld}

    def tell(self, message):
        """Tells all tabs. The lock is held."""
        for tab in self.tabs:
            tab.tell(message)

    def tell_waiting(self):
        for place, tab in enumerate(self.waiting, 1):
            tab.tell({"say": "wait", "place": place, "seats": self.seats})

    def join(self, tab):
        """Gives a new tab a seat, or a place among those that wait for one."""
        with self.lock:
            self.tabs.append(tab)
            tab.tell(self.said())
            if self.why:
                tab.tell(self.why)
            elif self.free:
                tab.sit(*self.free.pop(0))
            else:
                self.waiting.append(tab)
                self.tell_waiting()

    def leave(self, tab):
        """Gives the seat of a tab that is gone to the next."""
        with self.lock:
            self.tabs.remove(tab)
            if tab in self.waiting:
                self.waiting.remove(tab)
            elif tab.session and self.waiting:
                self.waiting.pop(0).sit(tab.seat, tab.session)
            elif tab.session:
                self.free.append((tab.seat, tab.session))
                self.free.sort(key=lambda seat: seat[0])
            self.tell_waiting()

    def tab_of(self, name):
        """The tab that has this name and a seat, or none."""
        with self.lock:
            return next((tab for tab in self.tabs if tab.name == name and tab.session), None)

    def session_for(self, tab, line, kept=KEPT):
        """The tab's session; a fresh one in its place where it has had as many lines as it takes."""
        with self.lock:
            if not tab.session.can_ask(line, kept):
                best = max(self.spares, key=lambda session: session.room, default=tab.session)
                if not best.can_ask(line, kept):
                    raise Wrong(USED_UP)
                self.spares.remove(best)
                self.spares.append(tab.session)
                tab.session = best
            return tab.session

    def room(self, tab):
        """The part of the views that the tab's session and the spares take which can still be asked for."""
        with self.lock:
            left = [max(0, session.room - KEPT) for session in (tab.session, *self.spares)]
        return sum(left) / len(left) / (MOST_INPUT - KEPT)

    @contextlib.contextmanager
    def session_to_save(self, connection):
        """A session that nobody else uses meanwhile where there is one, so that a long file holds nobody up."""
        with self.lock:
            session = self.spares.pop(0) if self.spares else None
            self.saves.add(connection)
        try:
            yield session or self.own
        finally:
            with self.lock:
                self.saves.remove(connection)
                if session:
                    self.spares.append(session)

    def cut_saves(self, seconds):
        """Cuts the downloads that are still under way after so many seconds: the end waits for them."""

        def cut():
            with self.lock:
                for connection in self.saves:
                    with contextlib.suppress(OSError):
                        connection.shutdown(socket.SHUT_RDWR)

        timer = threading.Timer(seconds, cut)
        timer.daemon = True
        timer.start()

    def edited(self, tab, version, count, made):
        """Notes an edit that was answered, and tells all tabs of it."""
        line = session_lines.canonical(made)
        record = {
            "version": version,
            "count": count,
            "line": line.decode("ascii"),
            "seat": tab.seat,
            "box": cameras.touched(self.survey, made),
        }
        with self.lock:
            self.edits[version] = record
            self.newest = max(self.newest, version)
            self.tell({"say": "edited", **record})
            self.note(version, line)
            self.to_count |= {kind for kind in made.classes if kind in self.counts} | {made.to}
            self.counting.notify()

    def note(self, version, line):
        """Writes an edit down, and tells all tabs where that can't be done. The lock is held."""
        try:
            self.answered.note(version, line)
        except OSError as fault:
            self.tell({"say": "wrong", "text": f"{self.answered.name}: {fault.strerror}: until the end the edits are in memory alone"})

    def count(self):
        """Counts the records of classes that an edit may have changed, by the office's own session."""
        try:
            self.withheld = self.counted("all", "hide") != self.survey.records
            if self.withheld:
                self.recount(sorted(self.counts))
            while True:
                with self.lock:
                    self.counting.wait_for(lambda: self.to_count)
                    kinds, self.to_count = sorted(self.to_count), set()
                self.recount(kinds)
        except Wrong:
            # The session has had as many lines as it takes: the legend stays as it is.
            return
        except Broken as fault:
            self.broken(fault)

    def recount(self, kinds):
        """Counts the records of these classes, and tells all tabs."""
        for kind in kinds:
            shown = self.counted(kind, "show")
            both = [shown, self.counted(kind, "hide") if self.withheld else shown]
            with self.lock:
                self.counts[kind] = both
        with self.lock:
            self.tell({"say": "counts", **self.counts_said()})

    def counted(self, classes, withheld):
        words, _ = self.own.ask(f"count {classes} {withheld}")
        return int(words[2])

    def broken(self, fault):
        """A pipe broke: this is the end of the run, since nobody knows what the program does then."""
        with contextlib.suppress(subprocess.TimeoutExpired):
            self.program.process.wait(2)
        self.end(str(fault), failed=True)

    def end(self, why, failed=False):
        """Tells all tabs that the run is over, once."""
        with self.lock:
            if self.why:
                return
            if self.program.process.poll() is not None:
                why, failed = self.program.how_it_ended(), True
            place = self.answered.name if failed and self.answered.lines else self.program.journal
            self.why = {"say": "end", "text": why, "failed": failed, "journal": place}
            self.tell(self.why)
        self.over.set()

    def wait_for_tabs(self):
        """Waits a moment until the tabs were told of the end."""
        for _ in range(20):
            with self.lock:
                if not self.tabs:
                    return
            time.sleep(0.1)
