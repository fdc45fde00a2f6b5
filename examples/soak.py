#!/usr/bin/env python3
"""Lets sixteen sessions work at once over named pipes for some minutes, looks at the program's memory, and audits the run.

    python3 examples/soak.py [--seconds N] [--viewers N] [--editors N] [--records N] [--pace N] [--workers N]
                             [--width N] [--height N] [--seed N] [--no-audit] [--program PROGRAM] [FOLDER]

The survey has so many records of random bytes. Each viewer asks for views, counts and now and then a saved file,
each editor makes edits, and both read a reply before they write the next line: so many lines a second at most, or
without --pace as many as the replies allow. A session whose input would pass its limit stops before that.

It prints the replies, the edits and the program's memory over time, and ends with 1 where a session fails, where
audit.py finds anything wrong, or where memory isn't flat: from a tenth of the time on it may grow by 256 bytes for
each entry of the history, which is kept until the end, and by 16 MiB. FOLDER gets the files; without one they go
into a temporary folder.
"""

import os
import random
import struct
import subprocess
import tempfile
import threading
import time

import audit
import lots
import script_ends
from play_sessions import MOST_SESSIONS, Player
from script_ends import Words, Wrong
from session_lines import GREATEST, LEAST, MOST_BYTES

ROOT = os.path.dirname(os.path.dirname(os.path.realpath(__file__)))
PROGRAM = os.path.join(ROOT, "crates", "view_main", "out", "view_main")
FORM, LENGTH = 7, 36
ENTRY_BYTES, SLACK = 256, 16 << 20
# The shares of a viewer's lines that are saves, and views; all others are counts.
SAVES, VIEWS = 0.002, 0.05


def make_survey(name, records, lot):
    """A survey of format 7 whose records are random bytes, so its points fill the whole space."""
    header = bytearray(375)
    header[0:4], header[24:26] = b"LASF", bytes((1, 4))
    struct.pack_into("<HI", header, 94, 375, 375)
    struct.pack_into("<BH", header, 104, FORM, LENGTH)
    struct.pack_into("<Q", header, 247, records)
    with open(name, "wb") as file:
        file.write(header)
        for first in range(0, records, 1 << 20):
            file.write(lot.randbytes(LENGTH * min(1 << 20, records - first)))


def view_line(lot, given):
    """A view from above, of all or of a part."""
    zoom = lot.choice((1, 1, 2, 5))
    scale = 2**32 // min(given.width, given.height) // zoom
    eye = [lot.randint(LEAST, GREATEST) if zoom > 1 else 0 for _ in range(2)]
    numbers = [given.width, given.height, *eye, GREATEST, 1, 0, 0, 0, -1, 0, 0, 0, -1, scale, 1, 0, 2**32 - 2]
    colouring = lot.choice(("class", "rgb16", "rgb8", "intensity"))
    return f"view ortho {' '.join(map(str, numbers))} {colouring} {lots.class_list(lot, 255)[0]} {lot.choice(('show', 'hide'))}"


def viewer_line(lot, given):
    which = lot.random()
    if which < SAVES:
        return "save"
    return view_line(lot, given) if which < SAVES + VIEWS else f"count {lots.class_list(lot, 255)[0]} {lot.choice(('show', 'hide'))}"


def editor_line(lot, _):
    box = [sorted(lot.randint(LEAST, GREATEST) for _ in range(2)) for _ in range(3)]
    corners = " ".join(str(part) for corner in zip(*box) for part in corner)
    return f"edit {corners} {lots.class_list(lot, 255)[0]} {lot.randrange(256)}"


class Worker(threading.Thread):
    """One session, until the time is up."""

    def __init__(self, player, line, lot, given, end):
        super().__init__(daemon=True)
        self.player, self.line, self.lot, self.given, self.end = player, line, lot, given, end
        self.replies, self.longest, self.fault = 0, 0.0, None

    def run(self):
        try:
            self.work()
        except (Wrong, OSError) as fault:
            self.fault = str(fault)
        self.player.to.close()

    def work(self):
        left, begun = MOST_BYTES, time.monotonic()
        while True:
            text = self.line(self.lot, self.given)
            left -= len(text) + 1
            pause = begun + self.replies / self.given.pace - time.monotonic() if self.given.pace else 0
            time.sleep(max(0.0, pause))
            asked = time.monotonic()
            if left < 0 or asked > self.end:
                return
            self.player.ask(text)
            self.longest = max(self.longest, time.monotonic() - asked)
            self.replies += 1


def memory_of(process):
    """The resident memory of a process, in bytes."""
    with open(f"/proc/{process}/status", encoding="ascii") as file:
        return next((1024 * int(line.split()[1]) for line in file if line.startswith("VmRSS")), 0)


def entries(editors, viewers):
    """The entries of the history: one of an edit, and two of all else."""
    return sum(it.replies for it in editors) + 2 * sum(it.replies for it in viewers)


def look(process, workers, editors, viewers, seconds):
    """Looks at memory until all sessions have ended: the seconds, the entries and the bytes at each look."""
    begun, looks = time.monotonic(), []
    while any(worker.is_alive() for worker in workers):
        time.sleep(min(1.0, seconds / 100))
        seen = time.monotonic() - begun, entries(editors, viewers), memory_of(process.pid)
        # Once the last input ended the program may be on its way out, and give its memory back.
        if any(worker.is_alive() for worker in workers):
            looks.append(seen)
    return looks


def tell(looks, editors, viewers, seconds):
    """Prints what was seen, and gives whether memory was flat."""
    edits, others = (sum(it.replies for it in some) for some in (editors, viewers))
    print(f"{edits} edits and {others} other replies in {seconds:.0f} seconds: {edits / seconds:.1f} and {others / seconds:.1f} a second")
    longest = [max((it.longest for it in some), default=0) for some in (editors, viewers)]
    print(f"the longest wait for a reply: {longest[0]:.2f} seconds of an editor, {longest[1]:.2f} of a viewer")
    steps = looks[len(looks) // 10 :: max(1, len(looks) // 10)]
    print("memory in MiB: " + ", ".join(f"{held / 2**20:.1f} after {at:.0f} s" for at, _, held in steps))
    if not steps:
        return False
    first, last = steps[0], looks[-1]
    grown, made = last[2] - first[2], last[1] - first[1]
    print(f"it grew by {grown / 2**20:.1f} MiB while the history grew by {made} entries; at most it was {max(it[2] for it in looks) / 2**20:.1f} MiB")
    return grown <= ENTRY_BYTES * made + SLACK


def play(given, program, players, lot):
    """Plays all sessions to their end, and gives the editors, the viewers, the looks at memory and the seconds."""
    for player in players:
        player.open(program)
    begun, workers = time.monotonic(), []
    for number, player in enumerate(players):
        line = editor_line if number < given.editors else viewer_line
        workers.append(Worker(player, line, random.Random(lot.random()), given, begun + given.seconds))
    for worker in workers:
        worker.start()
    looks = look(program, workers, workers[: given.editors], workers[given.editors :], given.seconds)
    seconds = time.monotonic() - begun
    for player in players:
        player.close()
    return workers[: given.editors], workers[given.editors :], looks, seconds


def soak(given, folder):
    """Runs all sessions, and gives the words of the audit."""
    lot, survey, journal = random.Random(given.seed), os.path.join(folder, "survey.las"), os.path.join(folder, "journal.txt")
    make_survey(survey, given.records, lot)
    names = [f"editor{at}" for at in range(given.editors)] + [f"viewer{at}" for at in range(given.viewers)]
    with tempfile.TemporaryDirectory() as pipes:
        players = [Player(name, pipes, folder) for name in names]
        words = [given.program, "serve", survey, str(given.workers), journal, *(pipe for player in players for pipe in player.pipes)]
        with subprocess.Popen(words) as program:
            try:
                editors, viewers, looks, seconds = play(given, program, players, lot)
            except BaseException:
                # It would wait for lines for ever.
                program.kill()
                raise
    is_flat = tell(looks, editors, viewers, seconds)
    faults = [worker.fault for worker in editors + viewers if worker.fault]
    faults += ([f"the program ended with {program.returncode}"] if program.returncode else []) + ([] if is_flat else ["memory isn't flat"])
    if faults:
        raise Wrong("; ".join(faults))
    return survey, journal, [tuple(os.path.join(folder, f"{name}.{end}") for end in ("in", "out")) for name in names]


def check(survey, journal, pairs):
    sessions, edits, unanswered, fault = audit.audit(survey, journal, pairs)
    faults = [audit.told(session) for session in sessions if session.fault or session.early()] + ([fault] if fault else [])
    if faults:
        raise Wrong("; ".join(faults))
    print(f"the audit finds nothing wrong: {sum(len(it.whole()) for it in sessions)} replies, {len(edits)} edits, {unanswered} without a reply")


def words():
    parser = Words(__doc__)
    for name, value in (("seconds", 600), ("viewers", 14), ("editors", 2), ("records", 20000), ("workers", 2), ("width", 160), ("height", 120), ("seed", 1)):
        parser.add_argument(f"--{name}", type=int, default=value)
    parser.add_argument("--pace", type=float)
    parser.add_argument("--no-audit", action="store_true")
    parser.add_argument("--program", default=PROGRAM)
    parser.add_argument("folder", metavar="FOLDER", nargs="?")
    given = parser.parse_args()
    if not 1 <= given.viewers + given.editors <= MOST_SESSIONS:
        parser.error(f"1 to {MOST_SESSIONS} sessions run at once")
    if min(given.seconds, given.records, given.viewers + 1, given.editors + 1, given.width, given.height) < 1:
        parser.error("a number is 1 or more, and those of viewers and editors 0 or more")
    return given


def main():
    given = words()
    given.program = os.path.abspath(given.program)
    if not os.path.exists(given.program):
        raise Wrong(f"{given.program} isn't there: ./hidrevca builds it")
    with tempfile.TemporaryDirectory() as own:
        folder = given.folder or own
        os.makedirs(folder, exist_ok=True)
        names = soak(given, folder)
        if not given.no_audit:
            check(*names)


if __name__ == "__main__":
    script_ends.run(main, "soak.py")
