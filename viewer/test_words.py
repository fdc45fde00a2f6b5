#!/usr/bin/env python3
"""Tests of the viewer's words and numbers, by cases worked out by hand.

    python3 viewer/test_words.py
"""

import math
import os
import struct
import sys
import tempfile
import types
import unittest

HERE = os.path.dirname(os.path.realpath(__file__))
sys.path.append(os.path.join(os.path.dirname(HERE), "examples"))

import assemble
import cameras
import session_lines
import survey
import tab
from script_ends import Wrong

# In map coordinates the records lie from 500000 5000000 99.5 to 500200 5000400 150.
INFO = "format 0\nrecords 5\nbox 0 0 -500 200000 400000 50000\nclass 2 3\nclass 6 2\n"
ABOVE = {
    "form": "ortho", "at": [500100.0, 5000200.0, 125.0], "pixel": 0.2, "down": 90, "towards": 0, "size": [1000, 803],
    "colour": "class", "classes": "all", "withheld": "show",
}


def spot(words, point):
    """Column, row and depth of a point in units, by the projection of docs/FORMATS.md."""
    kind, *numbers = words.split()[:19]
    w, h, *_, k, t, _, _ = map(int, numbers)
    eye, right, down, ahead = ([int(part) for part in numbers[at : at + 3]] for at in (2, 5, 8, 11))
    q = [p - e for p, e in zip(point, eye)]
    r, d, z = (sum(a * b for a, b in zip(axis, q)) for axis in (right, down, ahead))
    if kind == "persp":
        return r * k // z + w // 2, d * k // z + h // 2, z // t
    return r // k + w // 2, d // k + h // 2, z // t


class Case(unittest.TestCase):
    def setUp(self):
        folder = tempfile.TemporaryDirectory()
        self.addCleanup(folder.cleanup)
        self.folder = folder.name

    def survey(self, scale=(0.001, 0.001, 0.001), text=INFO):
        data = bytearray(assemble.plain_file(4, 0))
        struct.pack_into("<6d", data, 131, *scale, 500000.0, 5000000.0, 100.0)
        name = os.path.join(self.folder, "survey.las")
        with open(name, "wb") as file:
            file.write(data)
        return survey.Survey(name, text)


class Views(Case):
    def test_a_view_from_above_has_its_place_in_the_middle(self):
        # 0.2 m are 200 units of 0.001 m; vectors of length 8 make it 1600, the first at 1024 or above. The
        # greatest Z is 50000 and the least -500, 50500 below it. Rows are cut to a multiple of 8.
        view = cameras.view_of(self.survey(), ABOVE)
        self.assertEqual(view.words, "ortho 1000 800 100000 200000 50000 8 0 0 0 -8 0 0 0 -8 1600 8 0 50500 class all show")
        self.assertEqual(view.stands, {"at": [500100.0, 5000200.0, 125.0], "pixel": 0.2})
        self.assertEqual(spot(view.words, (100000, 200000, 50000)), (500, 400, 0))
        # 20 m to the east and 10 m to the north are 100 and 50 pixels.
        self.assertEqual(spot(view.words, (120000, 210000, 0)), (600, 350, 50000))

    def test_a_smaller_picture_lies_on_the_whole_one(self):
        whole = cameras.view_of(self.survey(), ABOVE).words
        self.assertEqual(cameras.smaller(whole, 1), whole)
        half, quarter = cameras.smaller(whole, 2), cameras.smaller(whole, 4)
        self.assertEqual(half, "ortho 500 400 100000 200000 50000 8 0 0 0 -8 0 0 0 -8 3200 8 0 50500 class all show")
        self.assertEqual(quarter, "ortho 250 200 100000 200000 50000 8 0 0 0 -8 0 0 0 -8 6400 8 0 50500 class all show")
        for point in ((0, 0, 0), (100199, 199800, 7), (100200, 199799, 7), (99999, 200001, 9), (31234, 271828, 0)):
            column, row, depth = spot(whole, point)
            self.assertEqual(spot(half, point), (column // 2, row // 2, depth))
            self.assertEqual(spot(quarter, point), (column // 4, row // 4, depth))

    def test_a_side_looks_level_along_the_compass(self):
        # Looking to the east, columns grow to the south and rows downwards: right is 0 -16384 0, down 0 0 -16384.
        view = cameras.view_of(self.survey(), {**ABOVE, "down": 0, "towards": 90})
        numbers = view.numbers
        self.assertEqual(numbers[5:14], [0, -16384, 0, 0, 0, -16384, 16384, 0, 0])
        self.assertEqual(numbers[14], 200 * 16384)
        # The place has height 125, which is 25000 in units; 20 m to the south are 100 columns, 5 m up 25 rows.
        self.assertEqual(spot(view.words, (100000, 200000, 25000))[:2], (500, 400))
        self.assertEqual(spot(view.words, (100000, 180000, 30000))[:2], (600, 375))

    def test_a_flight_stands_at_its_eye(self):
        # With 90 degrees across 1000 pixels the picture hangs 500 pixels away.
        asked = {**ABOVE, "form": "persp", "down": 0, "towards": 0, "angle": 90}
        view = cameras.view_of(self.survey(), asked)
        self.assertEqual(view.numbers[:5], [1000, 800, 100000, 200000, 25000])
        self.assertEqual((view.numbers[14], view.stands["at"]), (500, [500100.0, 5000200.0, 125.0]))
        # 100 m ahead, 20 m to the right and 10 m up: 500 * 20 / 100 columns and 500 * 10 / 100 rows.
        self.assertEqual(spot(view.words, (120000, 300000, 35000))[:2], (600, 350))
        half = cameras.smaller(view.words, 2)
        self.assertEqual(spot(half, (120000, 300000, 35000))[:2], (300, 175))

    def test_an_angle_that_came_out_gives_the_same_flight_again(self):
        asked = {**ABOVE, "form": "persp", "angle": 61.7}
        for width in (8, 1000, 1928, 4096):
            view = cameras.view_of(self.survey(), {**asked, "size": [width, 800]})
            again = cameras.view_of(self.survey(), {**asked, "size": [width, 800], **view.stands})
            self.assertEqual((again.words, again.numbers[14] % 4), (view.words, 0))

    def test_an_oblique_view_has_its_place_on_the_corner_of_the_pixel_in_the_middle(self):
        view = cameras.view_of(self.survey(), {**ABOVE, "down": 37, "towards": 25})
        # So the places a third of a pixel to the right and down, and to the left and up, lie on the pixels there.
        right, down = ([200 * part / 16384 / 3 for part in view.numbers[at : at + 3]] for at in (5, 8))
        for sign, pixel in ((1, (500, 400)), (-1, (499, 399))):
            place = [c + sign * (a + b) for c, a, b in zip((100000, 200000, 25000), right, down)]
            self.assertEqual(spot(view.words, [round(part) for part in place])[:2], pixel)

    def test_unequal_units_are_weighed(self):
        # A unit is 0.002 m in X, 0.001 in Y and 0.0005 in Z: 4, 2 and 1 of the greatest common one, and 0.2 m are 400
        # of them, of which two doublings make K 1600. A step of depth is 16 of 4 * 100000.
        made = self.survey((0.002, 0.001, 0.0005), "format 0\nrecords 5\nbox 0 0 0 100000 400000 100000\n")
        view = cameras.view_of(made, ABOVE)
        self.assertEqual(view.words, "ortho 1000 800 50000 200000 100000 16 0 0 0 -8 0 0 0 -4 1600 16 0 25000 class all show")
        # 20 m are 10000 units in X, and 10 m 10000 in Y.
        self.assertEqual(spot(view.words, (60000, 210000, 0))[:2], (600, 350))
        edit = cameras.edit_line(made, {"words": view.words, "pixels": [500, 400, 500, 400], "from": "all", "to": 1})
        self.assertEqual(edit, "edit 50000 199801 -2147483648 50099 200000 2147483647 all 1")

    def test_an_eye_that_looks_straight_down_keeps_its_turn(self):
        # Turned to the east, right is south and down the picture is west.
        view = cameras.view_of(self.survey(), {**ABOVE, "form": "persp", "down": 90, "towards": 90, "angle": 90})
        self.assertEqual(view.numbers[5:14], [0, -32767, 0, -32767, 0, 0, 0, 0, -32767])

    def test_what_does_not_fit_is_told(self):
        for wrong, told in (
            ({"form": "below"}, "form is none of ortho, persp"),
            ({"form": None}, "form is none of ortho, persp"),
            ({"at": [1, 2]}, "at isn't a list of 3"),
            ({"at": [1, 2, "3"]}, "at is no number from -1e+12 to 1e+12"),
            ({"at": [math.nan, 2, 3]}, "at is no number from -1e+12 to 1e+12"),
            ({"at": [1e11, 5000200.0, 125.0]}, "X 100000000000.0 lies outside of the numbers of the survey's records"),
            ({"pixel": 0}, "pixel is no number from 1e-09 to 1e+09"),
            ({"pixel": True}, "pixel is no number from 1e-09 to 1e+09"),
            ({"pixel": 1e9}, "a pixel would be larger than K can say"),
            ({"down": 91}, "down is no number from 0 to 90"),
            ({"size": [4096, 4096]}, "a picture has at most 9437184 pixels"),
            ({"size": [5000, 10]}, "size is no number from 8 to 4096"),
            ({"colour": "red"}, "colour is none of class, rgb16, rgb8, intensity"),
            ({"classes": "2 show\nsave"}, "classes is no list of classes, as all or 2,5-7"),
            ({"classes": "5-3"}, "classes is no list of classes, as all or 2,5-7"),
            ({"withheld": "maybe"}, "withheld is none of show, hide"),
        ):
            with self.assertRaises(Wrong) as caught:
                cameras.view_of(self.survey(), {**ABOVE, **wrong})
            self.assertEqual(str(caught.exception), told)


class Edits(Case):
    def test_a_rectangle_of_pixels_is_an_edit_of_the_units_on_them(self):
        words = cameras.view_of(self.survey(), ABOVE).words
        asked = {"words": words, "pixels": [600, 350, 499, 349], "from": "2,5-6", "to": 9}
        # Columns 499 to 600 are -1 to 100 from the middle: -200 to 20199 units east of 100000. Rows 349 and 350 are
        # -51 and -50: from 9801 to 10200 units to the north of 200000.
        self.assertEqual(cameras.edit_line(self.survey(), asked), "edit 99800 209801 -2147483648 120199 210200 2147483647 2,5-6 9")
        # 100.25 m and 110 m of height are 250 and 10000 in units.
        low = cameras.edit_line(self.survey(), {**asked, "heights": [110, 100.25]})
        self.assertEqual(low, "edit 99800 209801 250 120199 210200 10000 2,5-6 9")

    def test_corners_in_map_coordinates(self):
        asked = {"corners": [500200.0, 5000010.0005, 500100.0, 5000000.0], "from": "all", "to": 0}
        self.assertEqual(cameras.edit_line(self.survey(), asked), "edit 100000 0 -2147483648 200000 10000 2147483647 all 0")

    def test_what_does_not_fit_is_told(self):
        words = cameras.view_of(self.survey(), ABOVE).words
        good = {"words": words, "pixels": [0, 0, 9, 9], "from": "all", "to": 1}
        south = cameras.view_of(self.survey(), {**ABOVE, "down": 0}).words
        for wrong, told in (
            ({"words": None}, "the words of the view are missing"),
            ({"words": south}, "the view isn't one from above, with columns along X and rows along Y"),
            ({"pixels": [0, 0, 1000, 9]}, "column 1000 isn't in the picture, which has 1000"),
            ({"to": 256}, "to is no number from 0 to 255"),
            ({"to": "1\nsave"}, "to is no number from 0 to 255"),
            ({"from": "1 1\nsave"}, "from is no list of classes, as all or 2,5-7"),
        ):
            with self.assertRaises(Wrong) as caught:
                cameras.edit_line(self.survey(), {**good, **wrong})
            self.assertEqual(str(caught.exception), told)

    def test_a_typed_line_is_one_line_and_asks_for_no_file(self):
        self.assertEqual(cameras.typed_line({"line": " count 2 show"}), " count 2 show")
        for line in ("", "  ", "count 2 show\nsave", "count 2 show\r", "caf\u00e9", "x" * 1001, None, 7):
            with self.assertRaises(Wrong):
                cameras.typed_line({"line": line})
        with self.assertRaisesRegex(Wrong, "a file is saved by its button"):
            cameras.typed_line({"line": " save "})

    def test_the_touched_part_is_cut_to_the_records(self):
        made = session_lines.asked(b"edit 150000 -9 -2147483648 900000 1000 2147483647 all 2", 0)
        low, high = cameras.touched(self.survey(), made)
        self.assertEqual([low, high], [[500150.0, 5000000.0, 99.5], [500200.0, 5000001.0, 150.0]])
        beside = session_lines.asked(b"edit 200001 0 0 900000 1000 9 all 2", 0)
        self.assertIsNone(cameras.touched(self.survey(), beside))

    def test_replies_are_told_in_words(self):
        self.assertEqual(tab.told(["EDITED", "3", "1"]), "version 3: 1 record has another class")
        self.assertEqual(tab.told(["EDITED", "3", "0"]), "version 3: 0 records have another class")
        self.assertEqual(tab.told(["COUNT", "2", "12"]), "12 records pass in version 2")
        self.assertEqual(tab.told(["REFUSED", "4"]), "refused: the class is above the format's greatest")


class Surveys(Case):
    def test_what_the_page_is_told(self):
        said = self.survey().said()
        self.assertEqual((said["low"], said["high"]), ([500000.0, 5000000.0, 99.5], [500200.0, 5000400.0, 150.0]))
        self.assertEqual((said["scale"], said["offset"]), ([0.001] * 3, [500000.0, 5000000.0, 100.0]))
        self.assertEqual((said["rgb"], said["greatest"], said["format"], said["unit"]), (False, 31, 0, "m"))
        # Class 6 in the usual colours is FF6A3C; the program's are 67 * 6 + 64, 131 * 6 + 128 and 29 * 6 + 192 mod 256.
        self.assertEqual(said["classes"][6], ["building", [0xFF, 0x6A, 0x3C], [210, 146, 110]])

    def test_a_survey_without_records_is_refused(self):
        with self.assertRaisesRegex(Wrong, "the survey has no records"):
            self.survey(text="format 0\nrecords 0\n")

    def test_feet_are_told_where_the_coordinate_system_counts_in_them(self):
        for wkt, unit in ((None, "m"), ('PROJCS["a",UNIT["metre",1.0]]', "m"), ('PROJCS["a",UNIT["US survey foot",0.3]]', "ft")):
            self.assertEqual(survey.unit_of(types.SimpleNamespace(wkt=wkt)), unit)


if __name__ == "__main__":
    unittest.main()
