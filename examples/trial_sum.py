#!/usr/bin/env python3
"""The summary of `hidrevca trial`, worked out without the program.

    python3 examples/trial_sum.py START N [--survey SURVEY] [--lines LINES]

Prints what `hidrevca trial START N WORKERS -` writes, for each number of workers. The survey is made here of START
and N, in numbers without bound, and the replies to the four lines are worked out from it, the pictures by
reference_draw.py. --survey writes the survey and --lines the four lines, to files, so that `serve` can run them.

A million records take it less than a minute.
"""

import struct

from reference_draw import NUMBER, RED, picture, read_points
from script_ends import Words, run, write_bytes
from session_lines import Edit, View, asked
from survey_head import LEAST_LENGTHS, class_bits

# The bytes of the header, and the point data record format of a trial.
HEADER, FORMAT = 375, 7
MOST_START, MOST_RECORDS = 2**64 - 1, 2**23
# X, Y, Z, intensity and class of a record are draws modulo these.
BELOW = (65536, 65536, 4096, 65536, 32)

LINES = (
    b"view ortho 256 256 32768 32768 0 1 0 0 0 1 0 0 0 1 256 1 0 65535 class all show",
    b"edit 0 0 0 65535 65535 1023 all 2",
    b"view persp 256 256 32768 32768 -65536 1 0 0 0 1 0 0 0 1 128 16 1 65535 intensity all hide",
    b"count 2 show",
)


def draws(start):
    """The numbers of a linear congruential generator modulo 2^64, with the constants of MMIX (Knuth)."""
    state = start
    while True:
        state = (6364136223846793005 * state + 1442695040888963407) % 2**64
        yield state // 2**32


def make(start, count, form):
    """The survey of so many records of a format that is made of a number."""
    length, (place, _), numbers = LEAST_LENGTHS[form], class_bits(form), draws(start)
    survey = bytearray(HEADER + count * length)
    struct.pack_into("<4s20x2B", survey, 0, b"LASF", 1, 4)
    struct.pack_into("<HI", survey, 94, HEADER, HEADER)
    struct.pack_into("<BH", survey, 104, form, length)
    struct.pack_into("<Q", survey, 247, count)
    for at in range(HEADER, len(survey), length):
        x, y, z, intensity, survey[at + place] = (next(numbers) % most for most in BELOW)
        struct.pack_into("<3iH", survey, at, x, y, z, intensity)
        if form in RED:
            struct.pack_into("<3H", survey, at + RED[form], intensity, x, y)
    return bytes(survey)


def edited(survey, kinds, edit):
    """The classes of the records after an edit."""
    after = bytearray(kinds)
    for number, point in enumerate(read_points(survey)):
        inside = all(low <= part <= high for low, part, high in zip(edit.least, point.place, edit.greatest))
        if inside and kinds[number] in edit.classes:
            after[number] = edit.to
    return after


def passing(survey, kinds, count):
    """How many records pass a filter."""
    shown = (not (count.hides and point.withheld) for point in read_points(survey))
    return sum(kind in count.classes and is_shown for kind, is_shown in zip(kinds, shown))


def replies(survey):
    """The reply to each of the four lines, of a session that alone edits."""
    version, kinds = 0, bytearray(point.kind for point in read_points(survey))
    for line in LINES:
        it = asked(line, FORMAT)
        if isinstance(it, View):
            content = picture(read_points(survey), it.numbers, it.kind, it.colouring, it.classes, it.hides, kinds)
            yield b"PICTURE %d %d\n" % (version, len(content)) + content
        elif isinstance(it, Edit):
            before, kinds, version = kinds, edited(survey, kinds, it), version + 1
            yield b"EDITED %d %d\n" % (version, sum(old != new for old, new in zip(before, kinds)))
        else:
            yield b"COUNT %d %d\n" % (version, passing(survey, kinds, it))


def summary(survey):
    """The text of a trial whose survey this is."""
    answers = b"".join(replies(survey))
    records = (len(survey) - HEADER) // LEAST_LENGTHS[FORMAT]
    return f"records {records}\nbytes {len(survey)}\nreplies {len(answers)}\nsum {sum(answers) % 2**64}\n"


def number_of(parser, name, word, most):
    """The value of a word that has to be a number from 0 up to another."""
    if not NUMBER.fullmatch(word) or not 0 <= int(word) <= most:
        parser.error(f"{name} is a number from 0 to {most}, and not {word!r}")
    return int(word)


def main():
    parser = Words(__doc__)
    parser.add_argument("start", metavar="START")
    parser.add_argument("records", metavar="N")
    parser.add_argument("--survey", metavar="SURVEY")
    parser.add_argument("--lines", metavar="LINES")
    given = parser.parse_args()
    if "-" in (given.survey, given.lines):
        parser.error("standard output has the summary, so SURVEY and LINES are names of files")
    start = number_of(parser, "START", given.start, MOST_START)
    survey = make(start, number_of(parser, "N", given.records, MOST_RECORDS), FORMAT)
    if given.survey is not None:
        write_bytes(given.survey, survey)
    if given.lines is not None:
        write_bytes(given.lines, b"".join(line + b"\n" for line in LINES))
    print(summary(survey), end="")


if __name__ == "__main__":
    run(main, "trial_sum.py")
