#!/usr/bin/env python3
"""Tests of cameras in perspective and of the reference renderer, against values worked out by hand.

    python3 examples/test_views.py
"""

import contextlib
import io
import struct
import unittest

import aim
import assemble
import perspective
import reference_draw
from script_ends import Wrong
from test_metres import Files

# E 500000 to 500200, N 5000000 to 5000400, heights 99.5 to 150, in units 0 0 -500 to 200000 400000 50000.
BOUNDS = (500200.0, 500000.0, 5000400.0, 5000000.0, 150.0, 99.5)


def survey(places=(), scale=(0.001, 0.001, 0.001)):
    """A LAS 1.4 file of format 7 in millimetres, with a record of class 1, 2 .. at each place."""
    data = bytearray(assemble.plain_file(4, 7)[:375])
    struct.pack_into("<12d", data, 131, *scale, 500000.0, 5000000.0, 100.0, *BOUNDS)
    struct.pack_into("<QQ", data, 247, len(places), len(places))
    struct.pack_into("<II", data, 107, 0, 0)
    for kind, place in enumerate(places, 1):
        # Class 3 is withheld, which is bit 2 of the flags; then intensity, and red, green and blue.
        record = bytearray(struct.pack("<3iH", *place, 640)) + bytes([0x11, 4 * (kind == 3), kind]) + bytes(13)
        data += record + struct.pack("<3H", 256, 255, 65535)
    return bytes(data)


def colour(kind):
    """Red, green and blue of a class, as docs/FORMATS.md has them."""
    return bytes([(67 * kind + 64) % 256, (131 * kind + 128) % 256, (29 * kind + 192) % 256])


class Views(Files):
    def aimed(self, name, eye, look, angle, size=(1000, 800)):
        """The camera's numbers, and what is said on standard error."""
        words = ["persp", *size, "--survey", name, "--eye", *eye, "--look", *look, "--angle", angle]
        out, err = io.StringIO(), io.StringIO()
        with contextlib.redirect_stdout(out), contextlib.redirect_stderr(err):
            aim.main([str(word) for word in words])
        kind, *numbers = out.getvalue().split()[:19]
        self.assertEqual((kind, out.getvalue().split()[19:]), ("persp", ["class", "all", "show"]))
        return [int(word) for word in numbers], err.getvalue()

    def test_a_camera_that_looks_north(self):
        # At 90 degrees half the width is as far as the picture: K is 500. The eye is at 100000 -100000 30000 in
        # units, and the box ends 500000 units to the north of it.
        camera, told = self.aimed(self.file(survey()), (500100, 4999900, 130), (500100, 5000000, 130), 90)
        self.assertEqual(camera[:5], [1000, 800, 100000, -100000, 30000])
        self.assertEqual(camera[5:14], [32767, 0, 0, 0, 0, -32767, 0, 32767, 0])
        self.assertEqual((camera[14:], told), ([500, 32767, 1, 500000], ""))
        for place, column, row, depth in (
            # What is looked at, 100 m ahead, is in the middle.
            ((100000, 0, 30000), 500, 400, 100000),
            # 10 m to the east is 500 / 10 = 50 columns at 100 m and 25 at 200 m; 5 m up is 25 rows and 12.5, rounded up.
            ((110000, 0, 35000), 550, 375, 100000),
            ((110000, 100000, 35000), 525, 387, 200000),
            # The left edge at 90 degrees is as far to the west as ahead, and in the picture; the right one is out of it.
            ((0, 0, 30000), 0, 400, 100000),
            ((200000, 0, 30000), 1000, 400, 100000),
        ):
            self.assertEqual(reference_draw.spot("persp", camera, place), (column, row, depth))
        self.assertIsNone(reference_draw.spot("persp", camera, (100000, -100000, 30000)))

    def test_a_camera_that_looks_down_at_an_angle(self):
        # The way is 3 4 -12, of length 13, and level 5. Right is 4/5 -3/5 0, and down, forward across right,
        # -36/65 -48/65 -25/65: 32767 times these, rounded.
        camera, _ = self.aimed(self.file(survey()), (500000, 5000000, 130), (500003, 5000004, 118), 90)
        self.assertEqual(camera[5:14], [26214, -19660, 0, -18148, -24197, -12603, 7562, 10082, -30246])

    def test_straight_down_has_north_at_the_top(self):
        camera, _ = self.aimed(self.file(survey()), (500100, 5000200, 200), (500100, 5000200, 100), 53.130102354, (800, 600))
        # The tangent of half of it is 1/2: K is 400 / (1 / 2), or one less by the last digit.
        self.assertIn(camera[14], (799, 800))
        self.assertEqual(camera[5:14], [32767, 0, 0, 0, -32767, 0, 0, 0, -32767])

    def test_units_of_z_are_weighed(self):
        # A unit of Z is a tenth of one of X and Y, so its parts are a tenth; a step of depth is a unit of X.
        name = self.file(survey(scale=(0.01, 0.01, 0.001)))
        camera, _ = self.aimed(name, (500100, 4999900, 130), (500100, 5000000, 130), 90)
        self.assertEqual(camera[5:14], [32767, 0, 0, 0, 0, -3277, 0, 32767, 0])
        self.assertEqual(camera[15:], [32767, 1, 50000])

    def test_a_camera_that_looks_away_is_warned_of(self):
        warned = "aim.py: nothing of the survey's box is in view\n"
        name = self.file(survey())
        for look, told in (((500100, 4999800, 130), warned), ((500100, 4999900, 900), warned), ((500100, 5000000, 135), "")):
            self.assertEqual(self.aimed(name, (500100, 4999900, 130), look, 40)[1], told)

    def test_what_makes_no_camera_is_named(self):
        name = self.file(survey())
        with self.assertRaisesRegex(Wrong, "stands on the point"):
            self.aimed(name, (500100, 5000000, 130), (500100, 5000000, 130), 40)
        with self.assertRaisesRegex(Wrong, "beyond what K can say"):
            self.aimed(name, (500100, 4999900, 130), (500100, 5000000, 130), 0.01)
        # Half of 0.0547 degrees is 0.00047734755 of the radius, and 500 / 0.00047734755 is 1047454.8, near the greatest.
        self.assertEqual(perspective.focal(1000, 0.0547), 1047454)
        self.assertEqual(perspective.focal(2, 90), 1)

    def test_pictures_of_each_kind_and_colouring(self):
        # The camera above, 8 by 4 with K 4: the places are on columns 4, 6 and 2 of row 2, the third is behind another.
        numbers = [8, 4, 0, 0, 0, 1, 0, 0, 0, 0, -1, 0, 1, 0, 4, 1, 1, 1000]
        places = [(0, 100, 0), (50, 100, 0), (-50, 100, 0), (-25, 50, 0), (0, -100, 0)]
        points = list(reference_draw.read_points(survey(places)))
        for more, wanted in (
            ({}, {4: colour(1), 6: colour(2), 2: colour(4)}),
            ({"colouring": "rgb16"}, {at: b"\1\0\xff" for at in (4, 6, 2)}),
            ({"colouring": "rgb8"}, {at: b"\xff\xff\xff" for at in (4, 6, 2)}),
            ({"colouring": "intensity"}, {at: b"\2\2\2" for at in (4, 6, 2)}),
            # Without class 4 the withheld record behind it shows, and is hidden too where withheld ones are.
            ({"classes": {1, 3}}, {4: colour(1), 2: colour(3)}),
            ({"classes": {1, 3}, "hides": True}, {4: colour(1)}),
        ):
            row = b"".join(wanted.get(at, bytes(3)) for at in range(8))
            made = reference_draw.picture(points, numbers, "persp", **more)
            self.assertEqual(made, b"P6\n8 4\n255\n" + bytes(48) + row + bytes(24), more)

    def test_a_list_of_classes(self):
        self.assertEqual(reference_draw.classes_of("2,5-6,6"), {2, 5, 6})
        for word in ("", "5-3", "3,,4", "256", "-1"):
            self.assertIsNone(reference_draw.classes_of(word))


if __name__ == "__main__":
    unittest.main()
