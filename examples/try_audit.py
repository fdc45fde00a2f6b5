#!/usr/bin/env python3
"""Plants faults in the files of runs by the program, one at a time, and lets audit.py find each.

    python3 examples/try_audit.py [--runs N] [--seed N] [--program PROGRAM]

Each run has sixteen sessions with lines drawn by lot, as those of try_sessions.py, and its files are right. Then
one of them gets a fault: a byte of a picture or of a saved file, a count, a version, a length or a code of a
reply, a reply that is left out or stands twice, the outputs of two sessions changed for one another, bytes behind
the last reply; or a line of the journal that is another, is left out, stands twice or changed its place with the
next. Ends with 1 where a fault isn't found.
"""

import os
import random
import re
import shutil
import tempfile

import audit
import script_ends
import try_sessions
from replies import HEAD
from script_ends import Words, Wrong, read_bytes, write_bytes

SESSIONS = try_sessions.SESSIONS


def heads(out):
    """Where each reply of an output begins, its head line ends and its bytes end, and its kind."""
    at, found = 0, []
    while at < len(out):
        head = HEAD.match(out, at)
        end = head.end() + int(head[3] or 0)
        found.append((at, head.end(), end, head[0].split()[0].decode()))
        at = end
    return found


def raised(text, number):
    """A line with one of its numbers one greater, counted from 0, or from -1 backwards."""
    at = list(re.finditer(rb"[0-9]+", text))[number]
    return text[: at.start()] + b"%d" % (int(at[0]) + 1) + text[at.end() :]


def in_reply(kind, change):
    """A fault in a reply of this kind: what `change` makes of its head line and its bytes."""

    def plant(lot, files):
        places = [(name, place) for name, out in files.items() if name != "journal" for place in heads(out) if place[3] == kind]
        name, (start, middle, end, _) = lot.choice(places)
        out = files[name]
        return {name: out[:start] + change(lot, out[start:middle], out[middle:end]) + out[end:]}

    return plant


def changed_byte(lot, head, content):
    at = lot.randrange(len(content))
    return head + content[:at] + bytes([content[at] ^ lot.randint(1, 255)]) + content[at + 1 :]


def number_raised(number):
    return lambda lot, head, content: raised(head, number) + content


def in_journal(change):
    """A fault in the journal: what `change` makes of its lines, at a place of one that isn't the last."""

    def plant(lot, files):
        lines = files["journal"].splitlines(keepends=True)
        places = [at for at in range(len(lines) - 1) if lines[at] != lines[at + 1]]
        return {"journal": b"".join(change(lines, lot.choice(places)))}

    return plant


def outputs_changed(lot, files):
    some = [name for name, out in files.items() if name != "journal" and out]
    one, other = lot.sample(some, 2)
    return {one: files[other], other: files[one]}


def bytes_behind(lot, files):
    name = lot.choice([name for name in files if name != "journal"])
    return {name: files[name] + b"COUNT 0 0\n"}


FAULTS = {
    "a byte of a picture": in_reply("PICTURE", changed_byte),
    "a byte of a saved file": in_reply("FILE", changed_byte),
    "a count": in_reply("COUNT", number_raised(1)),
    "a number of changed records": in_reply("EDITED", number_raised(1)),
    "the version of an edit": in_reply("EDITED", number_raised(0)),
    "a version that isn't there": in_reply("COUNT", lambda lot, head, _: re.sub(rb"COUNT [0-9]+", b"COUNT 9999999", head)),
    "the length of a picture": in_reply("PICTURE", number_raised(1)),
    "the code of a refused line": in_reply("REFUSED", number_raised(0)),
    "a reply that is left out": in_reply("EDITED", lambda *_: b""),
    "a reply that stands twice": in_reply("EDITED", lambda lot, head, _: head + head),
    "the outputs of two sessions": outputs_changed,
    "bytes behind the last reply": bytes_behind,
    "another line of the journal": in_journal(lambda lines, at: [*lines[:at], raised(lines[at], -1), *lines[at + 1 :]]),
    "a line of the journal that is left out": in_journal(lambda lines, at: lines[:at] + lines[at + 1 :]),
    "a line of the journal that stands twice": in_journal(lambda lines, at: lines[: at + 1] + lines[at:]),
    "two lines of the journal": in_journal(lambda lines, at: [*lines[:at], lines[at + 1], lines[at], *lines[at + 2 :]]),
}


def fault_of(run):
    """What the audit finds wrong, or nothing."""
    pairs = [(run.path(f"{number}.in"), run.path(f"{number}.out")) for number in range(SESSIONS)]
    try:
        sessions, _, _, fault = audit.audit(run.path("survey.las"), run.path("journal"), pairs)
    except Wrong as wrong:
        return str(wrong)
    # A session that ended early is no fault to the audit, but of a run that ended with 0 it is one.
    found = [audit.told(session) for session in sessions if session.fault or session.early()]
    return found[0] if found else fault


def try_run(given, number, folder):
    """Plants each fault in one run, and gives what the audit said of each."""
    lot = random.Random(f"{given.seed} {number}")
    run = try_sessions.Run(given.program, lot, folder, 25)
    # So that there is a reply of each kind.
    run.scripts[0] += b"\nsave\ncount all show\nsave now\nedit 0 0 0 9 9 9 all 1\nedit 0 0 0 9 9 9 all 2\nview ortho 3 2 0 0 0 1 0 0 0 1 0 0 0 1 1 1 0 9 class all show\n"
    run.check((0, ""))
    files = {name: read_bytes(run.path(name)) for name in ["journal", *(f"{it}.out" for it in range(SESSIONS))]}
    for name, plant in FAULTS.items():
        planted = plant(lot, files)
        for file, data in planted.items():
            write_bytes(run.path(file), data)
        told = fault_of(run)
        for file in planted:
            write_bytes(run.path(file), files[file])
        if told is None:
            raise Wrong(f"run {number}: {name}, in {', '.join(planted)}, isn't found")
        yield name, told


def words():
    parser = Words(__doc__)
    for name, value in (("runs", 1), ("seed", 1)):
        parser.add_argument(f"--{name}", type=int, default=value)
    parser.add_argument("--program", default=os.path.join(try_sessions.ROOT, "hidrevca"))
    return parser.parse_args()


def main():
    given, count = words(), 0
    for number in range(1, given.runs + 1):
        folder = tempfile.mkdtemp()
        for name, told in try_run(given, number, folder):
            count += 1
            if number == 1:
                print(f"{name}: {told if len(told) <= 150 else told[:150] + ' ..'}".replace(f"{folder}/", ""))
        shutil.rmtree(folder)
    print(f"{count} faults of {len(FAULTS)} kinds in {given.runs} runs are found")


if __name__ == "__main__":
    script_ends.run(main, "try_audit.py")
