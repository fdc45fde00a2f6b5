#!/usr/bin/env python3
"""Tries what the whole program refuses of words, cameras and surveys: status, text, and that every file stays.

    python3 examples/try_refused.py

Each case runs `hidrevca` in a folder of its own and compares its status, what it prints and every file there
with what docs/FORMATS.md says, worked out by hand. It prints a line for each case, and ends with 1 at the first
that is wrong. The program is built first, where it is missing.
"""

import struct

from hand_files import gapped, old, parts, patched
from real_runs import BUILT, CLASS_2, EDIT, OLD, ONE, VIEW, built, case
from script_ends import Words

ONE_PIXEL = "1 ortho 1 1 0 0 0 1 0 0 0 1 0 0 0 1 1 1 0 10 class all show"
THIRTY_FOUR = " ".join(str(number) for number in range(1, 35))
# Each line, and the place of the word that doesn't fit.
WORDS = (
    ("draw a", 2),
    ("draw a b 65", 3),
    ("draw a a 65", 2),
    ("paint a b", 0),
    ("info a", 2),
    ("info a a", 2),
    ("info a t 1", 3),
    ("serve a 1 j", 4),
    ("serve a 1 j i", 5),
    ("serve a 1 a i o", 3),
    ("serve a 0 j i o", 2),
    ("serve a 65 j i o", 2),
    ("serve a 1 j i i", 5),
    ("serve a 1 j i1 o1 i2", 7),
    ("serve a 1 j i1 o1 i1 o2", 6),
    ("serve a 1 j i1 o1 i2 o1", 7),
    ("serve a 1 j i1 o1 j o2", 6),
    ("serve a 1 j - - - o2", 6),
    ("serve a 1 j - - i2 -", 7),
    (f"serve a 1 j {THIRTY_FOUR}", 36),
    (f"draw a a {ONE_PIXEL}", 2),
    (f"draw a b {ONE_PIXEL}".replace("ortho 1 1", "ortho 1 +1"), 6),
    (f"draw a b {ONE_PIXEL} 1", 26),
    ("trial", 1),
    ("trial -1 0 1 t", 1),
    ("trial 18446744073709551616 0 1 t", 1),
    ("trial 5 8388609 1 t", 2),
    ("trial 5 -1 1 t", 2),
    ("trial 5 +1 65 t", 2),
    ("trial 5 0 0 t", 3),
    ("trial 5 0 65 t", 3),
    ("trial 5 0 1", 4),
    ("trial 5 0 1 t t", 5),
)
# The lines over a survey `a`, and what their other files hold.
LINES = (f"draw a b {ONE_PIXEL}", "info a t", "serve a 1 j i o")
# The same, where no other file can be opened: the survey is looked at first.
CLOSED = (f"draw a none/b {ONE_PIXEL}", "info a none/t", "serve a 1 none/j none/i none/o")
FILES = {"b": OLD, "t": OLD, "i": EDIT, "j": OLD, "o": OLD}


def words():
    """Words that don't fit."""
    for line, at in WORDS:
        case(f"{line[:60]}: word {at}", line.split(), {"a": ONE, **FILES}, 2, f"word {at} is not expected")
    # Zeros before a number, and -0, are taken.
    line = f"draw a b {ONE_PIXEL}".replace("1 ortho 1 1 0", "007 ortho 01 1 -0")
    case("numbers with zeros before them", line.split(), {"a": ONE, **FILES}, after={"b": CLASS_2})


def cameras():
    """Cameras out of range, before the survey is looked at; and colours that a format has not, after it."""
    for change, place, value in (
        (("ortho 1 1", "ortho 4097 1"), 1, 4097),
        (("ortho 1 1 0", "ortho 1 1 -2147483649"), 3, -2147483649),
        (("ortho 1 1", "ortho 4096 4096"), 19, 16777216),
        (("ortho", "persp"), 17, 0),
        (("0 0 1 1 1 0 10", "0 0 1 1048577 1 1 10"), None, None),
        (("ortho 1 1 0 0 0 1 0 0 0 1 0 0 0 1 1 1 0", "persp 1 1 0 0 0 1 0 0 0 1 0 0 0 1 1048577 1 1"), 15, 1048577),
    ):
        for colour in ("class", "rgb16"):
            line = f"draw none b {ONE_PIXEL}".replace(*change).replace("class", colour)
            told = f"camera number {place} is out of range: {value}"
            if place is None:
                case("a scale that is too large in perspective alone", line.split(), FILES, 5, "cannot open word 1")
            else:
                case(f"camera number {place}, by {colour}", line.split(), FILES, 3, told)
    line = f"draw a b {ONE_PIXEL}"
    case("no 16-bit colours", line.replace("class", "rgb16").split(), {"a": ONE, **FILES}, 4, "format 0 has no colour")
    case("a cut survey without colours", line.replace("class", "rgb8").split(), {"a": ONE[:394], **FILES}, 8, POINTS)


POINTS = "survey: points need 395 bytes, file has 394"


def damaged(name, data, text):
    """A survey that every command refuses by this text, and leaves every file."""
    for line in (*LINES, *CLOSED):
        case(f"{name}: {line[:24]}", line.split(), {"a": data, **FILES}, 8, f"survey: {text}", program=BUILT)


def headers():
    """Each fault that one byte of a header makes, and each length at which a fault begins and ends."""
    for at, octet, text in (
        (0, ord("l"), "no LASF signature"),
        (24, 2, "version 2.4"),
        (25, 5, "version 1.5"),
        (94, 118, "header size 374"),
        (104, 134, "compressed points, format byte 134"),
        (104, 128, "compressed points, format byte 128"),
        (104, 127, "point format 127"),
        (104, 11, "point format 11"),
        (105, 19, "record length 19, least 20"),
        (96, 118, "point offset 374"),
    ):
        damaged(f"byte {at} is {octet}", patched(ONE, at, octet), text)
    damaged("374 bytes", ONE[:374], "only 374 bytes")
    damaged("394 bytes", ONE[:394], "points need 395 bytes, file has 394")
    # The place of the points goes from 435 to 429, and the record ends at 430.
    damaged("a record that runs into the points", patched(gapped(), 96, 173), "VLR 0 at 375")
    # 375 and 65535 times 2^64 - 1, which pass 64 bits.
    most = patched(patched(ONE, 105, 255, 255), 247, *b"\xff" * 8)
    damaged("the most points", most, "points need 1208907372870555465089400 bytes, file has 395")
    last = patched(ONE, 235, *b"\xff" * 8, *struct.pack("<I", 1))
    damaged("the last place of an extended record", last, "EVLR 0 at 18446744073709551615")


def older():
    """Faults of the headers of LAS 1.2 and 1.3."""
    two = old(2, (0, 0, 5, 2), (1, 0, 9, 6))
    damaged("a header size of LAS 1.2", patched(two, 94, 226), "header size 226")
    damaged("LAS 1.1", patched(two, 25, 1), "version 1.1")
    damaged("LAS 1.5", patched(two, 25, 5), "version 1.5")
    damaged("a header of LAS 1.3 that is cut", old(3)[:234], "only 234 bytes")


def fault_of(have):
    """What is wrong with the first bytes, so many, of the file with all parts."""
    if have < 375:
        return f"only {have} bytes"
    if have < 437:
        return "VLR 0 at 375"
    if have < 557:
        return f"points need 557 bytes, file has {have}"
    return "EVLR 0 at 557"


def cuts():
    """The file with all parts, cut to each length that leaves no survey; at the edges by every command."""
    for have in range(621):
        files, text = {"a": parts()[:have], **FILES}, f"survey: {fault_of(have)}"
        case(f"a text of {have} bytes", ["info", "a", "t"], files, 8, text, program=BUILT)
    for have in (0, 374, 375, 436, 437, 556, 557, 620):
        damaged(f"{have} bytes of a file with all parts", parts()[:have], fault_of(have))


def openings():
    """Of what can't be opened the first is named: each session's input and output in turn, and last the journal."""
    for line, at in (
        (CLOSED[0].replace(" a ", " none "), 1),
        (CLOSED[1].replace(" a ", " none "), 1),
        (CLOSED[2].replace(" a ", " none "), 1),
        ("serve a 1 j none o", 4),
        ("serve a 1 j i none/o", 5),
        ("serve a 1 none/j i o", 3),
        ("serve a 1 j none none/o", 4),
        ("serve a 1 none/j none o", 4),
        ("serve a 1 none/j i none/o", 5),
        ("serve a 1 none/j none none/o", 4),
        ("serve a 1 j none o k p", 4),
        ("serve a 1 j i none/o k p", 5),
        ("serve a 1 j i o none p", 6),
        ("serve a 1 j i o k none/p", 7),
        ("serve a 1 none/j i o k p", 3),
        ("serve a 1 none/j none none/o gone none/p", 4),
    ):
        case(line[:60], line.split(), {"a": ONE, "k": VIEW, "p": OLD, **FILES}, 5, f"cannot open word {at}")


def main():
    Words(__doc__).parse_args()
    built()
    for cases in (words, cameras, headers, older, cuts, openings):
        cases()


main()
