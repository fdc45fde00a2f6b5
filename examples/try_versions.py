#!/usr/bin/env python3
"""Tries the whole program on a file of each LAS version and point data record format that is read.

    python3 examples/try_versions.py

Each file is assembled from the tables of the standard (assemble.py), alone and with all parts that its
version has: variable length records, a gap, extra bytes, extended records, bytes after the points. Its
picture has to be that of the textbook z-buffer (reference_draw.py), and what a session saves after an
edit the file itself with the class bits of its five records changed. Ends with 1 at the first that isn't.
"""

import os
import struct
import subprocess
import sys
import tempfile

import assemble
import reference_draw
from script_ends import Words

ROOT = os.path.dirname(os.path.dirname(os.path.realpath(__file__)))
VIEW = "ortho 200 200 200 -100 0 1 0 0 0 1 0 0 0 1 5 1 0 4294967294 class all show"
EDIT = "edit -1000 -1000 -1000 1000 1000 1000 all 7"


def files():
    """Each file, with the name that assemble.py gives it."""
    for minor in assemble.HEADER_SIZES:
        front = "" if minor == 4 else f"las1{minor}-"
        for number in assemble.FORMATS_OF[minor]:
            yield f"{front}format{number}.las", assemble.plain_file(minor, number)
            yield f"{front}format{number}-full.las", assemble.full_file(minor, number)


def run(*words):
    """The program with these words, which has to end with 0 and print nothing."""
    done = subprocess.run([os.path.join(ROOT, "hidrevca"), *words], stdout=subprocess.PIPE, stderr=subprocess.STDOUT)
    if done.returncode != 0 or done.stdout:
        sys.exit(f"{words}: status {done.returncode}, {done.stdout!r}")


def with_class_7(survey):
    """The file with class 7 in each record, and every other bit as it was."""
    (start,) = struct.unpack_from("<I", survey, 96)
    (length,) = struct.unpack_from("<H", survey, 105)
    place, bits = (15, 0x1F) if survey[104] <= 5 else (16, 0xFF)
    saved = bytearray(survey)
    for number in range(assemble.POINTS):
        at = start + number * length + place
        saved[at] = saved[at] & ~bits | 7
    return bytes(saved)


def replies(survey):
    """What a session answers to the edit and a save."""
    return b"EDITED 1 %d\n" % assemble.POINTS + b"FILE 1 %d\n" % len(survey) + with_class_7(survey)


def wrong(folder, survey):
    """What the program does otherwise with a file than it should, if anything."""
    name = {what: os.path.join(folder, what) for what in ("survey", "picture", "journal", "script", "replies")}
    with open(name["survey"], "wb") as file:
        file.write(survey)
    with open(name["script"], "w", encoding="ascii") as file:
        file.write(f"{EDIT}\nsave\n")
    run("draw", name["survey"], name["picture"], "1", *VIEW.split())
    with open(name["picture"], "rb") as file:
        if file.read() != reference_draw.picture(list(reference_draw.read_points(survey)), [int(word) for word in VIEW.split()[1:19]]):
            return "another picture"
    run("serve", name["survey"], "1", name["journal"], name["script"], name["replies"])
    with open(name["replies"], "rb") as file:
        if file.read() != replies(survey):
            return "other replies"
    with open(name["journal"], encoding="ascii") as file:
        if file.read() != f"{EDIT}\n":
            return "another journal"
    return None


def main():
    Words(__doc__).parse_args()
    count = 0
    with tempfile.TemporaryDirectory() as folder:
        for name, survey in files():
            told = wrong(folder, survey)
            if told:
                sys.exit(f"{name}: {told}")
            count += 1
    print(f"{count} files of three versions are drawn, edited and saved as they should be")


if __name__ == "__main__":
    main()
