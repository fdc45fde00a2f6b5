#!/usr/bin/env python3
"""Tries pictures, texts and trials of the whole program of which every byte is worked out by hand.

    python3 examples/try_by_hand.py

Each case runs `hidrevca` in a folder of its own over a small survey, and compares its status, what it
prints and every file there. It prints a line for each case, and ends with 1 at the first that is wrong. The
program is built first, where it is missing.
"""

from hand_files import coloured, gapped, old, parts, patched, plain_of
from real_runs import CLASS_2, CLASS_6, LONG, ONE, TEXT, built, case, survey
from script_ends import Words

ONE_PIXEL = "ortho 1 1 0 0 0 1 0 0 0 1 0 0 0 1 1 1 0 10 class all show"
WORKERS = ("1", "2", "64")
# Pictures of one pixel, which shows class 200, or no record.
CLASS_200 = b"P6\n1 1\n255\n\x98\xd8\x68"
NO_RECORD = b"P6\n1 1\n255\n\0\0\0"


def draws(name, data, picture, view=ONE_PIXEL, workers=("1",)):
    """A picture of these bytes by each number of workers."""
    for count in workers:
        case(f"{name}, WORKERS {count}", ["draw", "a", "b", count, *view.split()], {"a": data, "b": LONG}, after={"b": picture})


def nearest():
    """The nearest record shows, and of two as near the lower one, for each number of workers."""
    draws("one record", ONE, CLASS_2, workers=("1", "33", "64"))
    draws("the nearer of two records, which is the later", survey([(0, 0, 7, 2), (0, 0, 3, 6)]), CLASS_6, workers=WORKERS)
    thousandth = ONE_PIXEL.replace("0 0 1 1 1 0 10", "0 0 1 1000 1 0 10")
    draws("the lower of two as near, a thousand units a pixel", survey([(900, 0, 5, 2), (0, 0, 5, 6)]), CLASS_2, thousandth, WORKERS)
    # Depths 11 and 10 are both 2 in units of 4.
    fours = ONE_PIXEL.replace("0 0 1 1 1 0 10", "0 0 1 1 4 0 10")
    draws("the lower of two as near in units of 4", survey([(0, 0, 11, 2), (0, 0, 10, 6)]), CLASS_2, fours, WORKERS)


def in_view():
    """What is out of view doesn't show."""
    # Depth 2^32 - 1 is too deep, and 2^32 - 2 is not.
    below = "ortho 1 1 0 0 -2147483648 1 0 0 0 1 0 0 0 1 1 1 0 4294967294 class all show"
    draws("the greatest depth that is in view", survey([(0, 0, 2147483647, 2), (0, 0, 2147483646, 6)]), CLASS_6, below)
    beside = [(-100000, -100000, 5, 2), (-10, -10, 5, 2), (0, 0, 5, 6), (10, 10, 5, 2), (100000, 100000, 5, 2)]
    draws("records on all sides of a pixel", survey(beside), CLASS_6, workers=WORKERS)
    draws("no records", survey([]), b"P6\n2 1\n255\n" + bytes(6), ONE_PIXEL.replace("ortho 1 1", "ortho 2 1"))
    # The column is -1 / 2 rounded down, one pixel left of the middle.
    persp = "persp 2 1 0 0 0 1 0 0 0 1 0 0 0 1 1 1 1 10 class all show"
    draws("a column below the middle", survey([(-1, 0, 2, 2)]), b"P6\n2 1\n255\n\xc6\x86\xfa\0\0\0", persp)
    # Both products are 422212464967680, and both quotients 383: the column is 767.
    least = -2147483648
    view = (
        "ortho 768 1 2147483647 2147483647 2147483647 -32768 -32768 -32768 0 0 0 -32768 -32768 -32768 "
        "1099511627776 1099511627776 0 4294967294 class all show"
    )
    picture = b"P6\n768 1\n255\n" + bytes(2301) + b"\xc6\x86\xfa"
    draws("the largest products", survey([(least, least, least, 2)]), picture, view, WORKERS)


def blocks():
    """Surveys of more records than one block has."""
    draws("a block of 1024 records, and one out of view", survey([(0, 0, 5, 2)] * 1024 + [(5000, 0, 5, 6)]), CLASS_2, workers=WORKERS)
    draws("a block of 1024 records out of view, and one more", survey([(5000, 0, 5, 2)] * 1024 + [(0, 0, 5, 6)]), CLASS_6, workers=WORKERS)
    draws("three blocks", survey([(0, 0, 5, 2)] * 2049), CLASS_2, workers=WORKERS)


def layouts():
    """Files of other versions, formats and numbers of records."""
    # The number of records, a u64 at 247, becomes 0; the legacy number, a u32 at 107, becomes 1 or 2.
    without = patched(ONE, 247, 0)
    draws("no number of records", without, NO_RECORD)
    draws("the legacy number of records alone", patched(without, 107, 1), CLASS_2)
    draws("a legacy number beside the other one", patched(ONE, 107, 2), CLASS_2)
    draws("a class of format 6", plain_of(6, (0, 0, 5, 0xC8)), CLASS_200)
    draws("a class of format 5 below three flags", plain_of(5, (0, 0, 5, 0xE2)), CLASS_2)
    draws("a gap before the points", gapped(), NO_RECORD)
    draws("a file of LAS 1.2", old(2, (0, 0, 5, 2), (1, 0, 9, 6)), CLASS_2)
    draws("a file of LAS 1.3", old(3, (0, 0, 5, 2)), CLASS_2)


def colourings():
    """Each colouring and each filter over one record."""
    for words, shown in (
        ("rgb16 all show", b"\x01\x00\xff"),
        ("rgb8 all show", b"\xff\xff\xff"),
        ("intensity all show", b"\x02\x02\x02"),
        ("class all hide", b"\0\0\0"),
        ("class 3-255 show", b"\0\0\0"),
    ):
        view = ONE_PIXEL.replace("class all show", words)
        draws(f"a picture by {words}", coloured(), b"P6\n1 1\n255\n" + shown, view, ("1", "2"))


def texts():
    """What `info` tells."""
    told = b"LAS 1.4\nheader 375\nformat 7\nlength 40\nrecords 3\nvlrs 1\nevlrs 1\nbytes %d\nbox 0 0 80 50 50 100\nclass 1 2\nclass 2 1\n"
    empty = b"LAS 1.4\nheader 375\nformat 0\nlength 20\nrecords 0\nvlrs 1\nevlrs 0\nbytes 435\n"
    older = b"LAS 1.2\nheader 227\nformat 0\nlength 20\nrecords 2\nvlrs 0\nevlrs 0\nbytes 267\nbox 0 0 5 1 0 9\nclass 2 1\nclass 6 1\n"
    for name, data, text in (
        ("one record", ONE, TEXT),
        *((f"a file with all parts, of which {length} bytes are there", parts()[:length], told % length) for length in range(621, 625)),
        ("no records", gapped(), empty),
        ("a file of LAS 1.2", old(2, (0, 0, 5, 2), (1, 0, 9, 6)), older),
    ):
        case(f"a text of {name}", ["info", "a", "t"], {"a": data, "t": LONG}, after={"t": text})


# Of the replies to a trial without records the lines of the two pictures have 17 bytes each, which add up to 977
# and 978, each picture 196623, of which those of its header add up to 666 and all else is 0, and `EDITED 1 0` and
# `COUNT 1 0` with LF 11 and 10, which add up to 602 and 564.
NONE = b"records 0\nbytes 375\nreplies 393301\nsum 4453\n"
# The records of the next four fall on pixels of their own, in both pictures. Beside the sum without records there
# are red, green and blue of each class, and three times the upper half of each intensity: 14 + 206 + 178 and
# 3 * 26 of the first record of 0, 69 + 69 + 91 and 3 * 91 of the second, 64 + 128 + 192 and 3 * 224 of the first
# record of the greatest start. Of 25712 the first record is of class 27 and becomes 2, and the others are of class
# 2: 81 + 81 + 207, twice 198 + 134 + 250, and 3 * (195 + 57 + 194); `EDITED 1 1` and `COUNT 1 3` have 1 and 3 more.
TRIALS = (
    ("5 0 1", NONE),
    ("0005 00 01", NONE),
    ("-0 -0 064", NONE),
    ("0 1 1", b"records 1\nbytes 411\nreplies 393301\nsum 4929\n"),
    ("0 2 2", b"records 2\nbytes 447\nreplies 393301\nsum 5431\n"),
    ("18446744073709551615 1 64", b"records 1\nbytes 411\nreplies 393301\nsum 5509\n"),
    ("25712 3 1", b"records 3\nbytes 483\nreplies 393301\nsum 7328\n"),
    # The last two sums are those of trial_sum.py, in numbers without bound.
    *((f"5 3000 {count}", b"records 3000\nbytes 108375\nreplies 393305\nsum 2098807\n") for count in (1, 3, 64)),
    *((f"5 100000 {count}", b"records 100000\nbytes 3600375\nreplies 393309\nsum 24455612\n") for count in (1, 64)),
)


def trials():
    """The summaries of trials."""
    for line, text in TRIALS:
        case(f"trial {line}", ["trial", *line.split(), "t"], {"t": LONG, "5": b"no number"}, after={"t": text})
    case("a number is no name", ["trial", "5", "0", "1", "5"], {"5": LONG}, after={"5": NONE})


def main():
    Words(__doc__).parse_args()
    built()
    for cases in (nearest, in_view, blocks, layouts, colourings, texts, trials):
        cases()


main()
