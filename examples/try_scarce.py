#!/usr/bin/env python3
"""Tries a picture, a session and a trial worked by hand with each request for memory refused in turn.

    python3 examples/try_scarce.py

It is what refuse_memory.py does, over three runs whose outputs with ample memory are worked out by hand here: each
place has to end with 0 and these outputs, or with 11 and what docs/GUIDE.md says. Ends with 1 where one was wrong.
Without `cc`, which makes the library that refuses, it says so and tries nothing.
"""

import os
import shutil
import tempfile
import types

import refuse_memory
import refusing
import script_ends
from hand_files import parts, patched
from real_runs import BUILT, CAMERA, CLASS_2, ONE, built
from script_ends import Words, Wrong

EDITS = b"edit 0 0 0 100 100 95 1 2\nedit 0 0 0 100 100 200 1-2 6\nedit 50 50 80 50 50 80 6 9\n"
SAVED = patched(patched(patched(parts(), 453, 6), 493, 6), 533, 9)
REPLIES = b"EDITED 1 1\nEDITED 2 3\nEDITED 3 1\nCOUNT 3 2\nCOUNT 3 1\nFILE 3 624\n" + SAVED


def runs():
    """The name of each run, its words and files, and what it has to write with ample memory."""
    yield "a picture", ["draw", "a", "b", *CAMERA], {"a": ONE}, {"b": CLASS_2}
    script = EDITS + b"count 6 show\ncount 9-18 hide\nsave\n"
    yield "a session", ["serve", "a", "1", "j", "i", "o"], {"a": parts(), "i": script}, {"o": REPLIES, "j": EDITS}
    # The sum of 100 records is that of trial_sum.py.
    yield "a trial", ["trial", "5", "100", "2", "t"], {}, {"t": b"records 100\nbytes 3975\nreplies 393303\nsum 78428\n"}


def main():
    Words(__doc__).parse_args()
    if not shutil.which("cc"):
        print("left out: cc is not on PATH")
        return
    built()
    given = types.SimpleNamespace(program=BUILT, jobs=os.cpu_count() or 1, show=10)
    with tempfile.TemporaryDirectory() as folder:
        library, wrong = refusing.build(folder), 0
        for name, words, files, whole in runs():
            command = refuse_memory.Command(words, files, list(whole))
            command.whole = whole
            for refuses_all in (False, True):
                wrong += refuse_memory.try_command(given, library, name, command, refuses_all)[0]
    if wrong:
        raise Wrong(f"{wrong} runs are wrong")


if __name__ == "__main__":
    script_ends.run(main, "try_scarce.py")
