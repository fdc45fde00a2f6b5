#!/usr/bin/env python3
"""Tries what the whole program refuses over real files, links and folders, where only tests hold it.

    python3 examples/try_program.py

Each case runs `hidrevca` in a folder of its own and compares its status, what it prints and every
file there with what docs/FORMATS.md says, worked out by hand. It prints a line for each case, and ends
with 1 at the first that is wrong. The program is built first, where it is missing.
"""

import os
import tempfile

from real_runs import CAMERA, EDIT, OLD, ONE, built, case
from script_ends import Words

# The largest survey, in bytes, and the memory that its loading may want.
LARGEST = 1 << 30
MEMORY = 3 << 30


def refusals():
    """What is refused leaves every file as it was."""
    files = {"a": ONE, "cut": ONE[:394], "i": EDIT, "j": OLD, "o": OLD, "b": OLD, "t": OLD}
    points = "survey: points need 395 bytes, file has 394"
    case("no words", [], {}, 2, "word 0 is not expected")
    case("a word that is no text", ["info", b"\xff", "t"], files, 2, "word 0 is not expected")
    case("one name twice", ["draw", "a", "a", *CAMERA], files, 2, "word 2 is not expected")
    case("standard input twice", ["serve", "-", "1", "j", "-", "o"], files, 2, "word 4 is not expected")
    case("standard output twice", ["serve", "a", "1", "-", "i", "-"], files, 2, "word 5 is not expected")
    case(
        "a camera out of range",
        ["draw", "a", "b", "1", "ortho", "4097", *CAMERA[3:]],
        files,
        3,
        "camera number 1 is out of range: 4097",
    )
    case("a picture of no survey", ["draw", "none", "b", *CAMERA], files, 5, "cannot open word 1")
    case("a text of no survey", ["info", "none", "t"], files, 5, "cannot open word 1")
    case("a session over no survey", ["serve", "none", "1", "j", "i", "o"], files, 5, "cannot open word 1")
    case("a picture of a cut survey", ["draw", "cut", "b", *CAMERA], files, 8, points)
    case("a text of a cut survey", ["info", "cut", "t"], files, 8, points)
    case("a session over a cut survey", ["serve", "cut", "1", "j", "i", "o"], files, 8, points)
    case("a picture in no folder", ["draw", "a", "none/b", *CAMERA], files, 5, "cannot open word 2")
    case("a text in place of a folder", ["info", "a", "."], files, 5, "cannot open word 2")
    case("a script that is not there", ["serve", "a", "1", "j", "none", "o"], files, 5, "cannot open word 4")
    case("replies in no folder", ["serve", "a", "1", "j", "i", "none/o"], files, 5, "cannot open word 5")
    case("a journal in no folder", ["serve", "a", "1", "none/j", "i", "o"], files, 5, "cannot open word 3")
    case(
        "neither a script nor a place for replies",
        ["serve", "a", "1", "none/j", "none", "none/o"],
        files,
        5,
        "cannot open word 4",
    )
    case(
        "no place for replies and none for the journal",
        ["serve", "a", "1", "none/j", "i", "none/o"],
        files,
        5,
        "cannot open word 5",
    )


def one_file_twice():
    """A regular file that the run opened already isn't opened to write, by whatever name."""
    case("a picture over its survey", ["draw", "./a", "a", *CAMERA], {"a": ONE}, 5, "cannot open word 2")
    for kind, make in (("a symbolic", os.symlink), ("a hard", os.link)):
        case(
            f"a picture over its survey by {kind} link",
            ["draw", "a", "b", *CAMERA],
            {"a": ONE},
            5,
            "cannot open word 2",
            after={"b": ONE},
            links=[(make, "a", "b")],
        )
        case(
            f"a picture over its survey, read by {kind} link",
            ["draw", "b", "a", *CAMERA],
            {"a": ONE},
            5,
            "cannot open word 2",
            links=[(make, "a", "b")],
        )
        case(
            f"a journal over its script by {kind} link",
            ["serve", "a", "1", "j", "i", "o"],
            {"a": ONE, "i": EDIT, "o": OLD},
            5,
            "cannot open word 3",
            links=[(make, "i", "j")],
        )
        case(
            f"a journal over its script, read by {kind} link",
            ["serve", "a", "1", "i", "j", "o"],
            {"a": ONE, "i": EDIT, "o": OLD},
            5,
            "cannot open word 3",
            links=[(make, "i", "j")],
        )
    case("a text over its survey", ["info", "a", "./a"], {"a": ONE}, 5, "cannot open word 2")
    files = {"a": ONE, "i": EDIT, "j": OLD, "o": OLD}
    case("a journal over its script", ["serve", "a", "1", "./i", "i", "o"], files, 5, "cannot open word 3")
    case("replies over their script", ["serve", "a", "1", "j", "i", "./i"], files, 5, "cannot open word 5")
    case("replies over the survey", ["serve", "a", "1", "j", "i", "./a"], files, 5, "cannot open word 5")
    case("a journal over the survey", ["serve", "a", "1", "./a", "i", "o"], files, 5, "cannot open word 3")
    case("a journal over its replies", ["serve", "a", "1", "./o", "i", "o"], files, 5, "cannot open word 3")


def has_memory():
    """Whether the largest survey can be loaded here, as far as the system tells."""
    try:
        with open("/proc/meminfo", encoding="ascii") as told:
            available = [line.split()[1] for line in told if line.startswith("MemAvailable:")]
    except OSError:
        return False
    return bool(available) and int(available[0]) * 1024 >= MEMORY


def largest():
    """Surveys of 2^30 zeros, and of one more."""
    if not has_memory():
        print(f"left out: surveys of 2^30 bytes, for which {MEMORY >> 30} GiB have to be at hand")
        return
    with tempfile.TemporaryDirectory() as folder:
        zeros = os.path.join(folder, "zeros")
        commands = (["draw", zeros, "b", *CAMERA], ["info", zeros, "t"], ["serve", zeros, "1", "j", "i", "o"])
        files = {"b": OLD, "t": OLD, "i": EDIT, "j": OLD, "o": OLD}
        for more, status, text in ((1, 7, "survey is too long"), (0, 8, "survey: no LASF signature")):
            with open(zeros, "wb") as made:
                made.truncate(LARGEST + more)
            for words in commands:
                case(f"{words[0]} on 2^30 + {more} zeros", words, files, status, text)


def main():
    Words(__doc__).parse_args()
    built()
    for cases in (refusals, one_file_twice, largest):
        cases()


main()
