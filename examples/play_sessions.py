#!/usr/bin/env python3
"""Plays several sessions at once over one survey, line by line, on named pipes.

    python3 examples/play_sessions.py [--workers N] [--program PROGRAM] SURVEY FOLDER PLAY

Each line of PLAY is the name of a session and a line for it, as `editor edit 0 0 0 9 9 9 all 2` and then
`viewer count 2 show`. There are as many sessions as names, up to 16, in the order in which they come up.
A line is written when the one before has its reply, and each reply's first line is printed.

FOLDER is made, and gets journal.txt and for each session NAME.in, what it wrote, and NAME.out, what came:
the files that examples/audit.py takes. PLAY may be `-`, for standard input. Ends with the program's status.
"""

import os
import re
import subprocess
import tempfile

import session_ends
import session_lines
from script_ends import Words, Wrong, read_bytes, run
from survey_head import head

ROOT = os.path.dirname(os.path.dirname(os.path.realpath(__file__)))
MOST_SESSIONS = 16
LINE = re.compile(r"\s*([A-Za-z0-9_]+)[ \t]+(.*)")


def read_play(name):
    """Each line's session, and what it says."""
    found = [LINE.fullmatch(line) for line in read_bytes(name).decode("utf-8", "replace").splitlines() if line.strip()]
    if not found or not all(found):
        raise Wrong(f"{name}: each line is a session's name of letters and digits, and a line for it")
    return [(line[1], line[2].strip()) for line in found]


class Player:
    """One session's ends, and its two files."""

    def __init__(self, name, pipes, folder):
        self.name = name
        self.pipes = session_ends.make_pipes(pipes, name)
        self.files = [open(os.path.join(folder, f"{name}.{end}"), "wb") for end in ("in", "out")]

    def open(self, program):
        self.to, self.come = session_ends.open_pipes(self.pipes, program, self.name)

    def ask(self, text):
        """Writes a line, and gives the first line of its reply."""
        line = text.encode() + b"\n"
        self.files[0].write(line)
        try:
            self.to.write(line)
        except BrokenPipeError:
            raise Wrong(f"{self.name}: the program went away before {text}") from None
        if not any(session_lines.answered(line)):
            return "(no reply)"
        head, size = session_ends.read_head(self.come)
        self.files[1].write(head)
        if size is None:
            raise Wrong(f"{self.name}: no reply came to {text}")
        self.files[1].write(self.come.read(size))
        return head.decode().strip()

    def close(self):
        self.files[1].write(self.come.read())
        for file in (self.come, *self.files):
            file.close()


def words():
    parser = Words(__doc__)
    parser.add_argument("--workers", default="1")
    parser.add_argument("--program", default=os.path.join(ROOT, "hidrevca"))
    for word in ("survey", "folder", "play"):
        parser.add_argument(word, metavar=word.upper())
    return parser.parse_args()


def main():
    given = words()
    if given.survey == "-":
        raise Wrong("SURVEY is the name of a file")
    head(read_bytes(given.survey), given.survey)
    play = read_play(given.play)
    names = list(dict.fromkeys(name for name, _ in play))
    if len(names) > MOST_SESSIONS:
        raise Wrong(f"{given.play}: {len(names)} sessions, and {MOST_SESSIONS} at most run at once")
    os.makedirs(given.folder, exist_ok=True)
    with tempfile.TemporaryDirectory() as pipes:
        players = {name: Player(name, pipes, given.folder) for name in names}
        ends = [pipe for player in players.values() for pipe in player.pipes]
        journal = os.path.join(given.folder, "journal.txt")
        with subprocess.Popen([given.program, "serve", given.survey, given.workers, journal, *ends]) as program:
            try:
                for player in players.values():
                    player.open(program)
                for name, line in play:
                    print(name, players[name].ask(line), flush=True)
                # The program keeps its outputs once every input has ended.
                for player in players.values():
                    player.to.close()
                for player in players.values():
                    player.close()
            except BaseException:
                # It would wait for lines for ever.
                program.kill()
                raise
        return program.returncode


if __name__ == "__main__":
    run(main, "play_sessions.py")
