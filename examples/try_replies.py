#!/usr/bin/env python3
"""Tries replies and journals of the whole program of which every byte is worked out by hand.

    python3 examples/try_replies.py

Each case serves scripts over a small survey in a folder of its own, and compares the status, what is printed and
every file there. It prints a line for each case, and ends with 1 at the first that is wrong. The program is
built first, where it is missing.
"""

import os
import subprocess
import tempfile

from hand_files import coloured, old, parts, patched
from real_runs import BUILT, CLASS_2, CLASS_6, EDIT, LONG, ONE, VIEW, built, case, colour, survey, wrong
from script_ends import Words

PICTURE = b"PICTURE %d 14\n"
VIEWED = PICTURE % 0 + CLASS_2
# How often two sessions race, and how long they may take, in seconds.
ROUNDS, PATIENCE = 20, 60


def serves(name, data, script, replies, journal=b"", workers="1", **how):
    """One session over these bytes, which has to give these replies and this journal."""
    files = {"a": data, "i": script, "j": LONG, "o": LONG}
    case(name, ["serve", "a", workers, "j", "i", "o"], files, after={"j": journal, "o": replies}, **how)


def file(version, data):
    """The reply to a save."""
    return b"FILE %d %d\n" % (version, len(data)) + data


def class_of(data, *octets):
    """The survey of one record with another class byte."""
    return patched(data, 390, *octets)


def lines():
    """Lines of each kind, in the forms that they may have, and the journal of their edits."""
    for workers in ("1", "33", "64"):
        serves(f"a view, WORKERS {workers}", ONE, VIEW, VIEWED, workers=workers)
    serves(
        "views, edits and a save",
        ONE,
        VIEW + b"edit 0 0 0 9 9 9 2 6\n" + VIEW + b"edit 0 0 0 9 9 4 all 9\nsave\n",
        VIEWED + b"EDITED 1 1\n" + PICTURE % 1 + CLASS_6 + b"EDITED 2 0\n" + file(2, class_of(ONE, 6)),
        b"edit 0 0 0 9 9 9 2 6\nedit 0 0 0 9 9 4 all 9\n",
    )
    flags = class_of(ONE, 0xE2)
    edit = b"edit 0 0 0 10 10 10 2 6\n"
    serves("flags stay in a saved file", flags, edit + b"save\n", b"EDITED 1 1\n" + file(1, class_of(ONE, 0xE6)), edit)
    serves("one CR is dropped, blanks are no line", ONE, b"save\r\n\n \t\n\r\n" + EDIT[:-1], file(0, ONE) + b"EDITED 1 1\n", EDIT)
    odd, plain = b"edit 007 -0 0 9 9 9 3,1-2,2 06\n", b"edit 7 0 0 9 9 9 1-3 6\n"
    serves("an edit in an odd form", ONE, odd, b"EDITED 1 0\n", plain)
    serves("a refused edit, and a count", ONE, EDIT.replace(b"6", b"32") + b"count all show\n", b"REFUSED 4\nCOUNT 0 1\n")
    serves(
        "a line that is too long, and the last without LF",
        ONE,
        b"x" * 4097 + b"\ncount all show\r\n\n \t\ncount 6 show",
        b"REFUSED 1\nCOUNT 0 1\nCOUNT 0 0\n",
    )
    serves("4096 blanks", ONE, b" " * 4096 + b"\n", b"")
    serves("4097 blanks", ONE, b" " * 4097 + b"\n", b"REFUSED 1\n")
    edits = b"edit -9 -9 -9 9 9 9 all 6\nedit 0 0 0 0 0 9 0-6 7\n"
    replies = b"EDITED 1 1\nEDITED 2 1\n" + file(2, class_of(ONE, 7))
    serves("edits, of which a journal is made", ONE, edits.replace(b"0-6 7", b"0-5,6 007") + b"save\n", replies, edits)
    serves("a journal makes the same edits again", ONE, edits + b"save\n", replies, edits)
    # 72,000 bytes, which pass 2^16.
    many = b"edit 0 0 0 9 9 9 0-31 6\n" * 3000
    serves("a long journal", ONE, many, b"".join(b"EDITED %d %d\n" % (at, at == 1) for at in range(1, 3001)), many)


# Lines over one record of format 0, and the codes by which they are refused.
REFUSED = (
    (b"edit 0 0 0 9 9 9 all 32", 4),
    # Twenty digits are a class that is too great, and twenty-one are no number.
    (b"edit 0 0 0 9 9 9 all 99999999999999999999", 4),
    (b"edit 0 0 0 9 9 9 all 999999999999999999999", 1),
    (b"edit 0 0 0 9 9 9 all -1", 1),
    (b"edit 2147483648 0 0 9 9 9 all 6", 1),
    (b"edit 0 0 0 9 9 9 all", 1),
    (b"count 5-3 show", 1),
    (b"count 3,,4 show", 1),
    (b"count 256 show", 1),
    (b"count all", 1),
    (b"save x", 1),
    (b"SAVE", 1),
    (b"save\0", 1),
    # The second CR is a word.
    (b"save\r\r", 1),
    (VIEW[:-1].replace(b"ortho 1", b"ortho 4097"), 2),
    (VIEW[:-1].replace(b"ortho 1", b"ortho -1"), 2),
    (VIEW[:-1].replace(b"ortho 1", b"ortho +1"), 1),
    (VIEW[:-1].replace(b"1 1 1 0 10", b"1 0 1 0 10"), 2),
    (VIEW[:-1].replace(b"class", b"rgb16"), 3),
    # A camera out of range is refused before colours that the format has not.
    (VIEW[:-1].replace(b"ortho 1", b"ortho 4097").replace(b"class", b"rgb8"), 2),
    (VIEW[:-1].replace(b"ortho 1", b"ortho 0").replace(b"class", b"rgb16"), 2),
)


def refusals():
    """Each line that is refused, alone and then all of them; none is in the journal."""
    for line, code in REFUSED:
        serves(f"refused by {code}: {line[:40]!r}", ONE, line + b"\n", b"REFUSED %d\n" % code)
    text = b"".join(line + b"\n" for line, _ in REFUSED)
    serves("all of them", ONE, text + EDIT, b"".join(b"REFUSED %d\n" % code for _, code in REFUSED) + b"EDITED 1 1\n", EDIT)


def limits():
    """A session's input has at most 2^20 bytes."""
    serves("2^20 empty lines", ONE, b"\n" * 2**20, b"")
    text = "session input of word 4 is too long"
    serves("2^20 + 1 empty lines", ONE, b"\n" * (2**20 + 1), b"", status=10, text=text)
    # The edit ends among the first bytes, and the save doesn't.
    serves("a save past the limit", ONE, EDIT + b"\n" * (2**20 - 26) + b"save\n", b"EDITED 1 1\n", EDIT, status=10, text=text)


def surveys():
    """Sessions over surveys of other layouts, and of more records than one block or one page has."""
    two = old(2, (0, 0, 5, 2), (1, 0, 9, 6))
    edit = b"edit 0 0 0 9 9 9 2 9\n"
    for name, data, at in (("LAS 1.2", two, 242), ("LAS 1.3", old(3, (0, 0, 5, 2)), 250)):
        saved = b"EDITED 1 1\n" + file(1, patched(data, at, 9))
        serves(f"a file of {name} is saved with another class alone", data, VIEW + edit + b"save\n", VIEWED + saved, edit)
    # The bytes 247 to 254 have X of the second record, 1, where LAS 1.4 has its number of records.
    serves("a count over a file of LAS 1.2", two, b"count all show\n", b"COUNT 0 2\n")
    edits = b"edit 0 0 0 100 100 95 1 2\nedit 0 0 0 100 100 200 1-2 6\nedit 50 50 80 50 50 80 6 9\n"
    heads = b"EDITED 1 1\nEDITED 2 3\nEDITED 3 1\nCOUNT 3 2\nCOUNT 3 1\n"
    saved = patched(patched(patched(parts(), 453, 6), 493, 6), 533, 9)
    script = edits.replace(b"1-2", b"1,2") + b"count 6 show\ncount 9-18 hide\nsave\n"
    serves("a file with all parts is saved with other classes alone", parts(), script, heads + file(3, saved), edits)
    # Two pages of classes, of 4096 records and of one.
    long = survey([(at, 0, 0, 2) for at in range(4097)])
    edit = b"edit 4095 0 0 4096 0 0 2 6\n"
    serves("an edit on both pages", long, edit + b"count 6 show\ncount 2 show\n", b"EDITED 1 2\nCOUNT 1 2\nCOUNT 1 4095\n", edit)
    views = [(b"rgb16 all show", b"\x01\x00\xff"), (b"rgb8 all show", b"\xff\xff\xff"), (b"intensity all show", b"\2\2\2")]
    views += [(b"class all hide", bytes(3)), (b"class 3-255 show", bytes(3))]
    script = b"".join(VIEW.replace(b"class all show", words) for words, _ in views)
    shown = b"".join(PICTURE % 0 + b"P6\n1 1\n255\n" + seen for _, seen in views)
    script += b"count 2 show\ncount 2 hide\ncount 0-1,3-255 show\n"
    serves("each colouring and each filter", coloured(), script, shown + b"COUNT 0 1\nCOUNT 0 0\nCOUNT 0 0\n")


def cells():
    """A session's blocks go by cells, so the records of a later block may have lower numbers."""
    thousandth = VIEW.replace(b"1 1 1 0 10", b"1 1000 1 0 10")
    beside = [(-100000, -100000, 5, 2), (-10, -10, 5, 2), (0, 0, 5, 6), (10, 10, 5, 2), (100000, 100000, 5, 2)]
    for workers in ("1", "2", "64"):
        tie = survey([(900, 0, 5, 2), (0, 0, 5, 6)])
        serves(f"the lower of two as near in a later block, WORKERS {workers}", tie, thousandth, VIEWED, workers=workers)
        # None of the corners of the middle block's box is in view, and one of its records is.
        serves(f"a block without a corner in view, WORKERS {workers}", survey(beside), VIEW, PICTURE % 0 + CLASS_6, workers=workers)
        apart = survey([(0, 0, 5, 2)] * 1024 + [(5000, 0, 5, 6)])
        serves(f"a block of 1024 and one out of view, WORKERS {workers}", apart, VIEW, VIEWED, workers=workers)


def ends():
    """What each of two sessions may be answered where both edit the one record and then view it."""
    nine = EDIT.replace(b"6\n", b"9\n")
    class_9 = CLASS_6[:-3] + colour(9)
    found = {}
    for first, second, then in (("o1", "o2", (EDIT, nine)), ("o2", "o1", (nine, EDIT))):
        own, other = (CLASS_6, class_9) if first == "o1" else (class_9, CLASS_6)
        late = b"EDITED 2 1\n" + PICTURE % 2 + other
        for early in (PICTURE % 1 + own, PICTURE % 2 + other):
            got = {first: b"EDITED 1 1\n" + early, second: late}
            found[got["o1"], got["o2"], b"".join(then)] = f"{first} first, its view {'before' if early[8:9] == b'1' else 'after'} the other's edit"
    return nine, found


def races():
    """Two sessions side by side, again and again: nothing but what their one journal allows may come."""
    nine, found = ends()
    for turn in range(ROUNDS):
        with tempfile.TemporaryDirectory() as folder:
            for name, data in (("a", ONE), ("i1", EDIT + VIEW), ("i2", nine + VIEW)):
                with open(os.path.join(folder, name), "wb") as made:
                    made.write(data)
            words = [BUILT, "serve", "a", "1", "j", "i1", "o1", "i2", "o2"]
            done = subprocess.run(words, cwd=folder, stdin=subprocess.DEVNULL, capture_output=True, timeout=PATIENCE)
            if (done.returncode, done.stdout, done.stderr) != (0, b"", b""):
                wrong(f"race {turn}", "status and what is printed", (0, b"", b""), (done.returncode, done.stdout, done.stderr))
            got = tuple(open(os.path.join(folder, name), "rb").read() for name in ("o1", "o2", "j"))
        if got not in found:
            wrong(f"race {turn}", "replies and journal", list(found), got)
        print(f"ok: race {turn}: {found[got]}")


def main():
    Words(__doc__).parse_args()
    built()
    for cases in (lines, refusals, limits, surveys, cells, races):
        cases()


main()
