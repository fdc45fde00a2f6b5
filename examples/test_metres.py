#!/usr/bin/env python3
"""Tests of header.py, aim.py and edit_box.py against values worked out by hand.

    python3 examples/test_metres.py
"""

import contextlib
import io
import json
import os
import struct
import subprocess
import sys
import tempfile
import unittest

import aim
import assemble
import edit_box
import header
from script_ends import Wrong

HERE = os.path.dirname(os.path.realpath(__file__))
MILLIMETRES = dict(
    scale=(0.001, 0.001, 0.001),
    offset=(500000.0, 5000000.0, 100.0),
    least=(500000.0, 5000000.0, 99.5),
    greatest=(500200.0, 5000400.0, 150.0),
)
# In units this box is 0 0 -500 to 200000 400000 50000.


def survey(scale, offset, least, greatest):
    """A LAS 1.4 file with this header; its records don't matter here."""
    data = bytearray(assemble.plain_file(4, 0))
    bounds = [end for ends in zip(greatest, least) for end in ends]
    struct.pack_into("<12d", data, 131, *scale, *offset, *bounds)
    return bytes(data)


def spot(camera, point):
    """Column, row and depth of a point, by the projection of docs/FORMATS.md."""
    w, h, k, t = camera[0], camera[1], camera[14], camera[15]
    q = [p - e for p, e in zip(point, camera[2:5])]
    r, d, f = (sum(a * b for a, b in zip(camera[at : at + 3], q)) for at in (5, 8, 11))
    return r // k + w // 2, d // k + h // 2, f // t


class Files(unittest.TestCase):
    def setUp(self):
        folder = tempfile.TemporaryDirectory()
        self.addCleanup(folder.cleanup)
        self.folder = folder.name

    def file(self, data):
        name = os.path.join(self.folder, "survey.las")
        with open(name, "wb") as out:
            out.write(data)
        return name

    def told(self, main, *words, text=None):
        """What a script prints on standard output and on standard error."""
        out, err, before = io.StringIO(), io.StringIO(), sys.stdin
        if text is not None:
            sys.stdin = io.TextIOWrapper(io.BytesIO(text.encode()))
            sys.stdin.fileno = lambda: 0
        try:
            with contextlib.redirect_stdout(out), contextlib.redirect_stderr(err):
                main([str(word) for word in words])
        finally:
            sys.stdin = before
        return out.getvalue(), err.getvalue()

    def camera(self, *words):
        out, err = self.told(aim.main, *words)
        self.assertEqual(err, "")
        return [int(word) for word in out.split()[1:19]]


class Headers(Files):
    def test_scale_offset_and_bounds_are_printed(self):
        out, _ = self.told(header.main, self.file(survey(**MILLIMETRES)))
        self.assertEqual(
            out,
            "LAS 1.4\nscale 0.001 0.001 0.001\noffset 500000.0 5000000.0 100.0\n"
            "bounds 500000.0 5000000.0 99.5 500200.0 5000400.0 150.0\ncrs none\n",
        )

    def test_the_text_of_a_vlr_is_the_coordinate_system(self):
        name = self.file(assemble.full_file(4, 6))
        told = json.loads(self.told(header.main, name, "--json")[0])
        self.assertEqual((told["wkt"], told["wkt_in"]), ('LOCAL_CS["example",UNIT["metre",1.0]]', "VLR"))
        self.assertEqual(told["scale"], [0.01, 0.01, 0.01])
        self.assertIn('crs wkt VLR\nLOCAL_CS["example"', self.told(header.main, name)[0])

    def test_the_text_of_an_evlr_is_found_behind_the_points(self):
        data = bytearray(assemble.plain_file(4, 6))
        struct.pack_into("<QI", data, 235, len(data), 2)
        data += assemble.evlr("other", 2112, b"no") + assemble.evlr("LASF_Projection", 2112, b"GEOGCS[]\0")
        read = header.read_header(self.file(data))
        self.assertEqual((read.wkt, read.wkt_in), ("GEOGCS[]", "EVLR"))

    def test_keys_of_geotiff_are_told_with_their_code(self):
        read = header.read_header(self.file(assemble.full_file(2, 1)))
        self.assertEqual((read.wkt, read.geotiff, read.epsg), (None, True, None))
        # Version 1.1.0 with two keys: 1024, the kind of model, is 1, and 3072 is 25832.
        self.assertEqual(header.epsg_of(struct.pack("<12H", 1, 1, 0, 2, 1024, 0, 1, 1, 3072, 0, 1, 25832)), 25832)

    def test_what_is_wrong_with_a_file_is_named(self):
        whole = survey(**MILLIMETRES)
        flat = survey(**{**MILLIMETRES, "scale": (0.001, 0.0, 0.001)})
        cut = assemble.full_file(4, 6)[:400]
        for data, text in (
            (b"", "no survey: only 0 bytes"),
            (b"P6\n1 1\n255\n000", "no survey: only 14 bytes"),
            (b"x" + whole[1:], "no survey: no LASF signature"),
            (whole[:200], "no survey: only 200 bytes"),
            (whole[:300], "no survey: only 300 bytes"),
            (whole[:94] + struct.pack("<H", 400) + whole[96:380], "the file is cut within its header"),
            (flat, "the scale of Y is 0.0"),
            (cut, "the file is cut within its VLR 0"),
        ):
            name = self.file(data)
            with self.assertRaises(Wrong) as caught:
                header.read_header(name)
            self.assertEqual(str(caught.exception), f"{name}: {text}")


class Aims(Files):
    def test_three_points_from_above_on_millimetre_data(self):
        # 200 m on 1000 pixels are 0.2 m, or 200 units, a pixel. The place is 100000 200000 in units, the
        # greatest Z 50000, and the least -500 is 50500 below it.
        name = self.file(survey(**MILLIMETRES))
        camera = self.camera("above", 1000, 1000, "--survey", name, "--at", 500100, 5000200, "--width", 200)
        self.assertEqual(camera, [1000, 1000, 100000, 200000, 50000, 1, 0, 0, 0, -1, 0, 0, 0, -1, 200, 1, 0, 50500])
        # E 500100 N 5000200 H 150 is the middle. E 500000 N 5000300 H 100, in units 0 300000 0, is
        # 100000 / 200 = 500 to the left and up. E 500199.999 N 5000100.001 H 99.5, in units 199999 100001
        # -500, is 99999 to the right and down: 499.995 pixels.
        self.assertEqual(spot(camera, (100000, 200000, 50000)), (500, 500, 0))
        self.assertEqual(spot(camera, (0, 300000, 0)), (0, 0, 50000))
        self.assertEqual(spot(camera, (199999, 100001, -500)), (999, 999, 50500))

    def test_an_oblique_view_has_its_place_on_the_middle_pixel(self):
        name = self.file(survey(**MILLIMETRES))
        words = "angle", 500, 400, "--survey", name, "--down", 30, "--towards", 90
        camera = self.camera(*words, "--at", 500100, 5000200, "--height", 120, "--width", 100)
        # Towards the east right is south. 16384 times sine and cosine of 30 degrees is 8192 and 14188.96.
        self.assertEqual(camera[5:14], [0, -16384, 0, -8192, 0, -14189, 14189, 0, -8192])
        # 100 m on 500 pixels are 200 units, times 16384; a step of depth is a unit.
        self.assertEqual(camera[14:17], [200 * 16384, 16384, 0])
        self.assertEqual(spot(camera, (100000, 200000, 20000))[:2], (250, 200))
        # A pixel to the south is a column more. 1 m up is 14189000 / 3276800 = 4.33 rows from the pixel's
        # middle, that is 3.83 above its upper edge.
        self.assertEqual(spot(camera, (100000, 199800, 20000))[:2], (251, 200))
        self.assertEqual(spot(camera, (100000, 200000, 21000))[:2], (250, 196))
        depths = [spot(camera, (x, y, z))[2] for x in (0, 200000) for y in (0, 400000) for z in (-500, 50000)]
        # The eye is so near that rounding up by a step or two is all that lies before the box.
        self.assertTrue(0 <= min(depths) <= 4, depths)
        self.assertEqual(max(depths), camera[17])

    def test_every_direction_has_its_place_on_the_middle_pixel(self):
        name = self.file(survey(**{**MILLIMETRES, "scale": (0.001, 0.002, 0.0005)}))
        for down in (0, 1, 17.5, 45, 89, 90):
            for towards in (0, 33, 90, 181, 275.5, -10):
                words = "angle", 301, 200, "--survey", name, "--down", down, "--towards", towards
                camera = self.camera(*words, "--at", 500100, 5000200, "--height", 110, "--width", 50)
                # 100 m / 0.001, 200 m / 0.002 and 10 m / 0.0005.
                self.assertEqual(spot(camera, (100000, 100000, 20000))[:2], (150, 100), (down, towards))

    def test_the_unit_of_depth_keeps_a_large_box_in_reach(self):
        # The centre is 0 0 500000. The nearest corner is 4 * 10^9 + 3 * 500000 behind it, which takes
        # 160060000 steps of 25; from that eye the farthest is at 4 * 1640240000 + 3 * 480680000 =
        # 8003000000, beyond 2^32 - 2, and at half of that for T = 2.
        box = "box -1000000000 -1000000000 0 1000000000 1000000000 1000000\n"
        out, err = self.told(aim.main, "south", 1000, 1000, text=box)
        camera = [int(word) for word in out.split()[1:19]]
        self.assertEqual(camera[2:5] + camera[15:], [0, -640240000, 480680000, 2, 0, 4001500000])
        self.assertEqual(err, "")

    def test_a_finer_unit_of_z_is_weighed(self):
        # In units the box is 0 0 0 to 10000 5000 10000. With X and Y times 10 the columns spread from
        # -50000 to 50000: K is the least of which 499 pixels and the rest of one hold 50000.
        fine = self.file(survey((0.01, 0.01, 0.001), (0.0,) * 3, (0.0,) * 3, (100.0, 50.0, 10.0)))
        camera = self.camera("above", 1000, 500, "--survey", fine)
        self.assertEqual(camera, [1000, 500, 5000, 2500, 10000, 10, 0, 0, 0, -10, 0, 0, 0, -1, 101, 10, 0, 1000])
        self.assertEqual(self.camera("south", 100, 100, "--survey", fine)[5:14], [50, 0, 0, 0, -30, -4, 0, 40, -3])

    def test_unequal_units_of_x_and_y_are_weighed_and_told(self):
        name = self.file(survey((0.01, 0.02, 0.01), (0.0,) * 3, (0.0,) * 3, (100.0, 50.0, 10.0)))
        out, err = self.told(aim.main, "above", 1000, 500, "--survey", name, "--at", 50, 25, "--width", 100)
        self.assertEqual(err, "aim.py: a unit is 0.01 m in X and 0.02 m in Y: the vectors are weighed\n")
        camera = [int(word) for word in out.split()[1:19]]
        self.assertEqual(camera[5:15], [1, 0, 0, 0, -2, 0, 0, 0, -1, 10])
        # E 51 N 24 is 1 m, or ten pixels of 0.1 m, right and down of the middle.
        self.assertEqual(spot(camera, (5100, 1200, 0))[:2], (510, 260))

    def test_parts_stay_within_their_range(self):
        # Weights of 1000000, 1000000 and 1: right and down are cut to 16384, and forward to nothing.
        far = self.file(survey((1.0, 1.0, 0.000001), (0.0,) * 3, (0.0,) * 3, (100.0, 50.0, 10.0)))
        with self.assertRaisesRegex(Wrong, "differ by more than the parts of a vector can"):
            self.told(aim.main, "above", 100, 100, "--survey", far)
        # Weights of 50000, 50000 and 20000: 16384, 16384 and 6553.6.
        odd = self.file(survey((0.5, 0.5, 0.20001), (0.0,) * 3, (0.0,) * 3, (100.0, 50.0, 10.0)))
        self.assertEqual(self.camera("above", 100, 100, "--survey", odd)[5:14], [16384, 0, 0, 0, -16384, 0, 0, 0, -6554])

    def test_a_picture_beside_the_box_is_warned_of(self):
        name = self.file(survey(**MILLIMETRES))
        words = "above", 100, 100, "--survey", name, "--width", 200, "--at"
        told = "aim.py: nothing of the survey's box is in view\n"
        # The picture is 200 m wide, so its right edge is at E 500000 where its middle is at 499900.
        self.assertEqual(self.told(aim.main, *words, 499901, 5000200)[1], "")
        self.assertEqual(self.told(aim.main, *words, 499899, 5000200)[1], told)
        box = "box 0 0 0 100 100 100\n"
        self.assertEqual(self.told(aim.main, "round", 300, 50, 100, 10, 10, text=box)[1], told)

    def test_words_that_do_not_fit_are_named_in_one_line(self):
        for words, told in (
            ((), "the first word is above, south, round, angle or persp"),
            (("below", 9, 9), "the first word is above, south, round, angle or persp"),
            (("above", 960), "above takes 2 numbers, and then three words or none"),
            (("above", 960, "x"), "the first 2 words after above are whole numbers"),
            (("above", 1, 680), "W and H are 2 to 4096, and at most 9437184 pixels in all"),
            (("above", 9, 9, "--at", 1, 2), "--at E N and --width METRES go together, and --height with them"),
            (("above", 9, 9, "--at", 1, 2, "--width", 5), "--at needs --survey, and is for above, south and angle"),
            (("angle", 9, 9, "--down", 5), "angle takes --down and --towards, and no other form does"),
            (("above", 9, 9, "--at", 1, "nan", "--width", 5), "argument --at: nan is no number up to 1e12"),
        ):
            said = io.StringIO()
            with self.assertRaises(SystemExit) as ended, contextlib.redirect_stderr(said):
                aim.main([str(word) for word in words])
            name, line = said.getvalue().split(": ", 1)
            self.assertEqual((ended.exception.code, line), (2, f"{told} (--help tells the words)\n"))

    def test_nothing_out_of_a_pipe_was_told_by_its_writer(self):
        for stdin, told in ((subprocess.DEVNULL, 1), (subprocess.PIPE, 0)):
            done = subprocess.run([sys.executable, f"{HERE}/aim.py", "above", "9", "9"], stderr=subprocess.PIPE,
                                  **({"input": b""} if stdin == subprocess.PIPE else {"stdin": stdin}))
            self.assertEqual((done.returncode, done.stderr.count(b"\n")), (1, told))


class EditBoxes(Files):
    def test_a_box_from_map_coordinates(self):
        # 500100.0005 lies between the units 100000 and 100001, and 5000000.9999 between 999 and 1000.
        name = self.file(survey(**MILLIMETRES))
        words = "--from", 500123.456, 5000000, 99.5, "--to", 500100.0005, 5000000.9999, 150, "2,5-7", 9
        out, _ = self.told(edit_box.main, "--survey", name, *words)
        self.assertEqual(out, "edit 100001 0 -500 123456 999 50000 2,5-7 9\n")

    def test_a_box_from_pixels(self):
        # Columns 500 and 501 of 1000 are 0 and 1 right of the middle: 0 to 399 units from the eye. Rows
        # 499 and 500 are -1 and 0: -200 to 199 units to the south, and so -199 to 200 to the north.
        view = "view ortho 1000 1000 100000 200000 50000 1 0 0 0 -1 0 0 0 -1 200 1 0 50500 class all show"
        words = "--pixels", 501, 499, 500, 500, "all", 6
        whole = "edit 100000 199801 -2147483648 100399 200200 2147483647 all 6\n"
        self.assertEqual(self.told(edit_box.main, "--view", view, *words)[0], whole)
        self.assertEqual(self.told(edit_box.main, "--view", "-", *words, text=view)[0], whole)
        name = self.file(survey(**MILLIMETRES))
        out, _ = self.told(edit_box.main, "--view", view, "--survey", name, "--heights", 100.25, 110, *words)
        self.assertEqual(out, "edit 100000 199801 250 100399 200200 10000 all 6\n")
        camera = [int(word) for word in view.split()[2:20]]
        for x, column in ((99999, 499), (100000, 500), (100399, 501), (100400, 502)):
            self.assertEqual(spot(camera, (x, 200000, 0))[0], column)
        for y, row in ((200201, 498), (200200, 499), (199801, 500), (199800, 501)):
            self.assertEqual(spot(camera, (100000, y, 0))[1], row)

    def test_what_makes_no_box_is_named(self):
        above = "ortho 10 10 0 0 9 {} class all show"
        tilted, plain = above.format("5 0 0 0 -3 -4 0 4 -3 1 1 0 9"), above.format("1 0 0 0 -1 0 0 0 -1 1 1 0 9")
        for view, pixels, told in (
            (tilted, (1, 1, 2, 2), "the view isn't one from above, with columns along X and rows along Y"),
            (plain, (1, 1, 10, 2), "column 10 isn't in the picture, which has 10"),
            (plain, (1, -1, 2, 2), "row -1 isn't in the picture, which has 10"),
            ("ortho 1 2", (1, 1, 2, 2), "the view isn't 22 words that begin with `ortho`"),
        ):
            with self.assertRaises(Wrong) as caught:
                self.told(edit_box.main, "--view", view, "--pixels", *pixels, "all", 6)
            self.assertEqual(str(caught.exception), told)
        name = self.file(survey(**MILLIMETRES))
        box = "--survey", name, "--from", 500000, 5000000, 0, "--to", 500001, 5000001, 1
        with self.assertRaisesRegex(Wrong, "class 32 has no room in point data record format 0: 31 is its greatest"):
            self.told(edit_box.main, *box, "all", 32)
        for classes in ("5-3", "3,,4", "256", ""):
            with self.assertRaises(SystemExit) as ended, contextlib.redirect_stderr(io.StringIO()):
                edit_box.main([str(word) for word in (*box, classes, 3)])
            self.assertEqual(ended.exception.code, 2)


if __name__ == "__main__":
    unittest.main()
