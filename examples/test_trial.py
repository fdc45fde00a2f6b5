#!/usr/bin/env python3
"""Tests of the made survey and of a trial's summary, against values worked out by hand.

    python3 examples/test_trial.py
"""

import itertools
import os
import struct
import subprocess
import sys
import unittest

import reference_draw
import trial_sum

HERE = os.path.dirname(os.path.realpath(__file__))
# X, Y, Z, intensity and class of the first three records that are made of 0.
OF_0 = ((31614, 60945, 2082, 6889, 26), (32566, 37744, 1934, 23489, 23), (8862, 19876, 2573, 4218, 8))
# Of each format the length of a record, and where its class and its red stand: LAS 1.4 R15, tables 7 to 18.
LAYOUTS = (
    (20, 15, None),
    (28, 15, None),
    (26, 15, 20),
    (34, 15, 28),
    (57, 15, None),
    (63, 15, 28),
    (30, 16, None),
    (36, 16, 30),
    (38, 16, 30),
    (59, 16, None),
    (67, 16, 30),
)
# The sum of the replies where there are no records: the bytes of the lines `PICTURE 0 196623` and `PICTURE 1 196623`
# are 977 and 978, those of the two headers of a PPM of 256 by 256 are 1332, and those of `EDITED 1 0` and `COUNT 1 0`
# are 602 and 564, each with its LF.
EMPTY_SUM = 977 + 978 + 1332 + 602 + 564


def header(form, length, count):
    """The public header block that stands before the records."""
    front = b"LASF" + bytes(20) + b"\1\4" + bytes(68) + b"\x77\1\x77\1\0\0" + bytes(4)
    return front + bytes([form, length, 0]) + bytes(140) + struct.pack("<Q", count) + bytes(120)


def record(numbers, length, class_at, red_at):
    """A record with these numbers, all else 0."""
    x, y, z, intensity, kind = numbers
    fields = {0: x, 4: y, 8: z, 12: intensity, class_at: kind}
    if red_at is not None:
        fields.update({red_at: intensity, red_at + 2: x, red_at + 4: y})
    data = [0] * length
    for at, number in fields.items():
        low, high = number % 256, number // 256
        data[at] = low
        if at != class_at:
            data[at + 1] = high
    return bytes(data)


class Made(unittest.TestCase):
    def test_the_draws(self):
        # By bc, in numbers without bound.
        wanted = [335903614, 436792849, 2599843874, 1723210473, 1647660250, 2408873782]
        self.assertEqual(list(itertools.islice(trial_sum.draws(0), 6)), wanted)
        # The greatest start is -1, and the first state the one constant less the other, -4921441182957829598.
        wanted = (2**64 - 4921441182957829598) // 2**32
        self.assertEqual(next(trial_sum.draws(2**64 - 1)), wanted)

    def test_each_format_has_its_bytes(self):
        for form, layout in enumerate(LAYOUTS):
            for count in (0, 1, 3):
                wanted = header(form, layout[0], count) + b"".join(record(numbers, *layout) for numbers in OF_0[:count])
                self.assertEqual(trial_sum.make(0, count, form), wanted, (form, count))
        self.assertEqual(len(trial_sum.make(0, 1, 0)), 395)

    def test_it_reads_as_a_survey(self):
        points = reference_draw.read_points(trial_sum.make(0, 3, 7))
        wanted = [reference_draw.Point([x, y, z], kind, False, shade, (shade, x, y)) for x, y, z, shade, kind in OF_0]
        self.assertEqual(list(points), wanted)


class Summaries(unittest.TestCase):
    def test_without_records(self):
        self.assertEqual(EMPTY_SUM, 4453)
        wanted = "records 0\nbytes 375\nreplies 393301\nsum 4453\n"
        self.assertEqual(trial_sum.summary(trial_sum.make(5, 0, 7)), wanted)

    def test_records_that_no_edit_changes(self):
        # The first record is on column -5 + 128 and row 110 + 128 from above, and on -3 + 128 and 53 + 128 in
        # perspective, at depths 2082 and 4226. Class 26 is 14 206 178, and its intensity three times 26.
        first = EMPTY_SUM + (14 + 206 + 178) + 3 * 26
        # The second is on -1 + 128 and 19 + 128, and on -1 + 128 and 9 + 128. Class 23 is 69 69 91, and 3 times 91.
        second = first + (69 + 69 + 91) + 3 * 91
        for count, total in ((1, first), (2, second)):
            wanted = f"records {count}\nbytes {375 + 36 * count}\nreplies 393301\nsum {total}\n"
            self.assertEqual(trial_sum.summary(trial_sum.make(0, count, 7)), wanted)

    def test_a_record_that_the_edit_changes(self):
        survey = trial_sum.make(25712, 3, 7)
        # Heights 706 and 816 are in the box, 3466 isn't: of classes 27, 2 and 2 the first becomes 2.
        places = [[*point.place, point.intensity, point.kind] for point in reference_draw.read_points(survey)]
        made = [[314, 64910, 706, 50094, 27], [29447, 10226, 816, 14828, 2], [8013, 48490, 3466, 49782, 2]]
        self.assertEqual(places, made)
        first, second, third, last = trial_sum.replies(survey)
        self.assertEqual((second, last), (b"EDITED 1 1\n", b"COUNT 1 3\n"))
        for got, version, shown in (
            # Column and row of each record, and its bytes: class 27 is 81 81 207, and class 2 198 134 250.
            (first, 0, {(1, 253): (81, 81, 207), (115, 39): (198, 134, 250), (31, 189): (198, 134, 250)}),
            (third, 1, {(65, 190): (195,) * 3, (121, 84): (57,) * 3, (82, 157): (194,) * 3}),
        ):
            pixels = bytearray(3 * 256 * 256)
            for (column, row), colour in shown.items():
                at = 3 * (256 * row + column)
                pixels[at : at + 3] = colour
            self.assertEqual(got, b"PICTURE %d 196623\nP6\n256 256\n255\n" % version + pixels)
        total = EMPTY_SUM + 1 + 3 + (81 + 81 + 207) + 2 * (198 + 134 + 250) + 3 * (195 + 57 + 194)
        wanted = f"records 3\nbytes 483\nreplies 393301\nsum {total}\n"
        self.assertEqual(trial_sum.summary(survey), wanted)

    def test_what_is_hidden(self):
        # Bit 2 of a record's flags withholds it: the view in perspective leaves it out, and the one from above doesn't.
        survey = bytearray(trial_sum.make(0, 1, 7))
        survey[375 + 15] = 4
        first, _, third, last = trial_sum.replies(bytes(survey))
        self.assertEqual((sum(first[-196608:]), sum(third[-196608:]), last), (14 + 206 + 178, 0, b"COUNT 1 0\n"))


class Script(unittest.TestCase):
    def end(self, *words):
        """Status, standard output and standard error of the script."""
        command = [sys.executable, os.path.join(HERE, "trial_sum.py"), *words]
        done = subprocess.run(command, capture_output=True, check=False)
        return done.returncode, done.stdout, done.stderr

    def test_numbers_are_those_of_the_command_line(self):
        text = b"records 0\nbytes 375\nreplies 393301\nsum 4453\n"
        for words in (("5", "0"), ("18446744073709551615", "-0"), ("-0", "00000000000000000000")):
            self.assertEqual(self.end(*words), (0, text, b""))
        for words, said in (
            (("18446744073709551616", "0"), b"START is a number from 0 to 18446744073709551615"),
            (("-1", "0"), b"START is a number from 0 to 18446744073709551615"),
            (("0", "8388609"), b"N is a number from 0 to 8388608"),
            (("0", "+1"), b"N is a number from 0 to 8388608"),
            (("0", "0", "--lines", "-"), b"standard output has the summary"),
        ):
            status, out, told = self.end(*words)
            self.assertEqual((status, out), (2, b""))
            self.assertTrue(told.startswith(b"trial_sum.py: " + said), told)


if __name__ == "__main__":
    unittest.main()
