#!/usr/bin/env python3
"""Tries the whole program where a read, a write or a keeping fails: at each place in turn, and two at once.

    python3 examples/try_failing.py

A file fails to be written behind so many bytes where its size is limited (RLIMIT_FSIZE), and standard input fails
to be read behind so many where it is a connection that its peer resets. For each place the status, what is
printed and every file are compared with what docs/GUIDE.md says, worked out by hand. It prints a line for each
kind of failure, and ends with 1 at the first run that is wrong. The program is built first, where it is missing.
"""

import fcntl
import os
import resource
import signal
import socket
import struct
import subprocess
import tempfile

from hand_files import patched
from real_runs import BUILT, CAMERA, CLASS_2, CLASS_6, EDIT, OLD, ONE, TEXT, VIEW, built, wrong
from script_ends import Words

# How long a run may take, in seconds.
PATIENCE = 60
DRAW, INFO, TRIAL = ["draw", "a", "b", *CAMERA], ["info", "a", "b"], ["trial", "5", "0", "1", "b"]
SUMMARY = b"records 0\nbytes 375\nreplies 393301\nsum 4453\n"
COUNT = b"count all show\n"
# A session's script, and its replies: an edit and a view, an edit and a save.
VIEWING = (EDIT + VIEW, b"EDITED 1 1\nPICTURE 1 14\n" + CLASS_6)
SAVING = (EDIT + b"save\n", b"EDITED 1 1\nFILE 1 395\n" + patched(ONE, 390, 6))


def some(length):
    """The first places and the last, and of those between each eighth."""
    return [at for at in range(length) if at < 30 or at % 8 == 0 or at > length - 3]


def reset(data):
    """A connection that fails to be read behind these bytes."""
    with socket.socket() as door:
        door.bind(("127.0.0.1", 0))
        door.listen(1)
        peer = socket.create_connection(door.getsockname())
        end, _ = door.accept()
    peer.sendall(data)
    # It is closed by a reset, which leaves what was sent before.
    peer.setsockopt(socket.SOL_SOCKET, socket.SO_LINGER, struct.pack("ii", 1, 0))
    peer.close()
    return end


def most_bytes(length):
    """Limits the size of files for the program, which sees a failed write and no signal."""
    signal.signal(signal.SIGXFSZ, signal.SIG_IGN)
    resource.setrlimit(resource.RLIMIT_FSIZE, (length, length))


def run(words, files, stdin, most, handed):
    """The status, what is printed and told, and every file, where files have at most so many bytes."""
    with tempfile.TemporaryDirectory() as folder:
        for name, data in files.items():
            with open(os.path.join(folder, name), "wb") as made:
                made.write(data)
        how = {"cwd": folder, "stdin": stdin, "capture_output": True, "timeout": PATIENCE, "pass_fds": handed}
        if most is not None:
            how |= {"preexec_fn": lambda: most_bytes(most), "restore_signals": False}
        done = subprocess.run([BUILT, *words], **how)
        left = {name: open(os.path.join(folder, name), "rb").read() for name in os.listdir(folder)}
    return done.returncode, done.stdout, done.stderr, left


def ends(name, words, files, status, after, out=b"", stdin=subprocess.DEVNULL, most=None, handed=()):
    """One run that fails; files that `after` doesn't name have to stay."""
    verb, place = status
    wanted = {"read": 6, "write": 9}[verb], out, f"cannot {verb} word {place}\n".encode(), {**files, **after}
    got = run(words, files, stdin, most, handed)
    for what, one, other in zip(("status", "standard output", "standard error", "files"), wanted, got):
        if one != other:
            wrong(name, what, one, other)


def survey_reads():
    """A survey that can't be read behind any of its bytes: no other file is opened."""
    files = {"b": OLD, "t": OLD, "i": EDIT, "j": OLD, "o": OLD}
    for words in (DRAW, INFO, ["serve", "a", "1", "j", "i", "o"]):
        words = [words[0], "-", *words[2:]]
        places = range(len(ONE) + 1) if words[0] == "draw" else some(len(ONE) + 1)
        for at in places:
            with reset(ONE[:at]) as stdin:
                ends(f"{words[0]}: a read of the survey at {at}", words, files, ("read", 1), {}, stdin=stdin)
        print(f"ok: {words[0]}: a read of the survey at {len(places)} of {len(ONE) + 1} places")


def writes():
    """A picture, a text and a summary that can't be written behind any of their bytes: the front is there."""
    for words, whole, place in ((DRAW, CLASS_2, 2), (INFO, TEXT, 2), (TRIAL, SUMMARY, 4)):
        for at in range(len(whole)):
            name = f"{words[0]}: a write at {at}"
            ends(name, words, {"a": ONE, "b": OLD}, ("write", place), {"b": whole[:at]}, most=at)
        print(f"ok: {words[0]}: a write at each of {len(whole)} places")


def session_reads():
    """A script that can't be read behind any of its bytes: the lines before are answered, and the edit journalled."""
    for script, replies in (VIEWING, SAVING):
        for at in range(len(script) + 1):
            given = replies if at == len(script) else b"EDITED 1 1\n" if at >= len(EDIT) else b""
            after = {"o": given, "j": EDIT if at >= len(EDIT) else b""}
            files, words = {"a": ONE, "j": OLD, "o": OLD}, ["serve", "a", "1", "j", "-", "o"]
            with reset(script[:at]) as stdin:
                ends(f"a read of a script at {at}", words, files, ("read", 4), after, stdin=stdin)
        print(f"ok: a read of a script at each of {len(script) + 1} places")
    with reset(COUNT) as stdin:
        files, words = {"a": ONE, "j": OLD, "o": OLD}, ["serve", "a", "1", "j", "-", "o"]
        ends("a read behind a count", words, files, ("read", 4), {"o": b"COUNT 0 1\n", "j": b""}, stdin=stdin)
    print("ok: a read behind a count")


def session_writes():
    """Replies that can't be written behind any of their bytes: the front is there, and the edit in the journal."""
    for script, replies in (VIEWING, SAVING):
        words, files = ["serve", "a", "1", "-", "i", "o"], {"a": ONE, "i": script, "o": OLD}
        for at in range(len(replies)):
            ends(f"a reply at {at}", words, files, ("write", 5), {"o": replies[:at]}, EDIT, most=at)
        print(f"ok: a write of replies at each of {len(replies)} places")
    script, replies = SAVING
    for at in range(len(EDIT)):
        words, files = ["serve", "a", "1", "j", "i", "-"], {"a": ONE, "i": script, "j": OLD}
        ends(f"a journal at {at}", words, files, ("write", 3), {"j": EDIT[:at]}, replies, most=at)
    print(f"ok: a write of a journal at each of {len(EDIT)} places")


# Of two sessions the one that fails: its script's and its output's place among the words. The other one counts.
SIDES = (4, 6)


def of_two(side, own, other):
    """The words of both sessions, where the failing one has these names."""
    return ["serve", "a", "1", *(["-"] + own + other if side == 4 else ["-"] + other + own)]


def counted(name, out, edits):
    """The other session has to have counted its one record, at a version that was there."""
    replies = [b"COUNT %d 1\n" % version for version in range(edits + 1)]
    if out not in replies:
        wrong(name, "the other session's reply", replies, out)


def beside_writes():
    """A session of two whose replies can't be written: the other one, whose replies go into a pipe, finishes."""
    script, replies = SAVING
    for side in SIDES:
        for at in some(len(replies)):
            name, files = f"a reply of word {side + 1} at {at}", {"a": ONE, "i": script, "k": COUNT, "o": OLD}
            come, go = os.pipe()
            words = of_two(side, ["i", "o"], ["k", f"/dev/fd/{go}"])
            ends(name, words, files, ("write", side + 1), {"o": replies[:at]}, EDIT, most=at, handed=[go])
            counted(name, os.read(come, 100), 1)
            os.close(come)
            os.close(go)
        print(f"ok: a write of word {side + 1} at {len(some(len(replies)))} of {len(replies)} places, beside another session")


def beside_reads():
    """A session of two whose script can't be read: the other one finishes."""
    script, replies = SAVING
    for side in SIDES:
        for at in range(len(script) + 1):
            edits = at >= len(EDIT)
            given = replies if at == len(script) else b"EDITED 1 1\n" if edits else b""
            name, files = f"a read of word {side} at {at}", {"a": ONE, "k": COUNT, "o": OLD}
            come, go = os.pipe()
            words = of_two(side, ["-", "o"], ["k", f"/dev/fd/{go}"])
            with reset(script[:at]) as stdin:
                ends(name, words, files, ("read", side), {"o": given}, EDIT * edits, stdin=stdin, handed=[go])
            counted(name, os.read(come, 100), edits)
            os.close(come)
            os.close(go)
        print(f"ok: a read of word {side} at each of {len(script) + 1} places, beside another session")


def sealed():
    """A file that can't be cut, so that it can't be kept where nothing was written."""
    file = os.memfd_create("old", os.MFD_ALLOW_SEALING)
    os.write(file, OLD)
    fcntl.fcntl(file, fcntl.F_ADD_SEALS, fcntl.F_SEAL_SHRINK)
    return file


def named():
    """Of two things that fail the first session's is named, then the first output's keeping, and then the journal."""
    one, two = sealed(), sealed()
    memory, full, first, second = "/proc/self/mem", "/dev/full", f"/proc/self/fd/{one}", f"/proc/self/fd/{two}"
    for words, status in (
        (["j", memory, "o", "-", "p"], ("read", 4)),
        (["j", "-", "o", memory, "p"], ("read", 4)),
        (["j", memory, "o", "v", full], ("read", 4)),
        (["j", "v", full, "w", "/dev/./full"], ("write", 5)),
        (["j", "n", first, memory, "p"], ("read", 6)),
        (["j", "n", first, "v", full], ("write", 7)),
        (["j", "n", first, "m", second], ("write", 5)),
        ([first, "n", "o", "m", "p"], ("write", 3)),
        ([first, "n", "o", "m", second], ("write", 7)),
        ([first, "n", second], ("write", 5)),
    ):
        files = {"a": ONE, "v": VIEW, "w": VIEW, "n": b"", "m": b"", "j": OLD, "o": OLD, "p": OLD}
        after = {name: b"" for name in ("j", "o", "p") if name in words}
        with reset(b"") as stdin:
            ends(" ".join(words), ["serve", "a", "1", *words], files, status, after, stdin=stdin, handed=[one, two])
        print(f"ok: {status[0]} of word {status[1]} is named: {' '.join(words)}")
    os.close(one)
    os.close(two)


def main():
    Words(__doc__).parse_args()
    built()
    for cases in (survey_reads, writes, session_reads, session_writes, beside_writes, beside_reads, named):
        cases()


main()
