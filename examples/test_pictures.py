#!/usr/bin/env python3
"""Tests of picture.py, replies.py, class_changes.py and of what the scripts answer to wrong input.

    python3 examples/test_pictures.py
"""

import io
import os
import struct
import subprocess
import sys
import tempfile
import unittest
import zlib
from fractions import Fraction

import assemble
import header
import pixels
import replies
import world_file
from script_ends import Wrong

HERE = os.path.dirname(os.path.realpath(__file__))
# The colours of the classes 2, 5 and 6 as docs/FORMATS.md has them, and of class 64: 0, 8512 mod 256 and 0.
GROUND, TREE, HOUSE, CLASS_64, NONE = (bytes.fromhex(it) for it in ("C686FA", "8F0F51", "D2926E", "004000", "000000"))
# Their usual colours.
BROWN, GREEN, ORANGE = (bytes.fromhex(it) for it in ("B5793C", "2E9E3A", "FF6A3C"))


def ppm(width, height, *colours):
    return b"P6\n%d %d\n255\n" % (width, height) + b"".join(colours)


def rgb(picture):
    """The colours of a picture in rows, in hex."""
    each = ["".join(f"{byte:02X}" for byte in it) for it in zip(*picture.planes)]
    return [" ".join(each[y * picture.width : (y + 1) * picture.width]) for y in range(picture.height)]


def decoded(png):
    """Width, height and rows of a PNG, each row with its filter's number, after its checks are made."""
    assert png[:8] == b"\x89PNG\r\n\x1a\n"
    at, parts = 8, {}
    while at < len(png):
        (size,) = struct.unpack_from(">I", png, at)
        kind, content = png[at + 4 : at + 8], png[at + 8 : at + 8 + size]
        assert struct.unpack_from(">I", png, at + 8 + size) == (zlib.crc32(kind + content),)
        parts[kind], at = content, at + 12 + size
    assert list(parts) == [b"IHDR", b"IDAT", b"IEND"] and parts[b"IHDR"][8:] == bytes([8, 2, 0, 0, 0])
    return *struct.unpack(">II", parts[b"IHDR"][:8]), zlib.decompress(parts[b"IDAT"])


def survey(scales, offsets):
    """A file of one record with these scales and offsets of X, Y and Z."""
    file = bytearray(assemble.plain_file(4, 6))
    struct.pack_into("<6d", file, 131, *scales, *offsets)
    return bytes(file)


def head(scales, offsets=(0.0, 0.0, 0.0)):
    return header.header_of(io.BytesIO(survey(scales, offsets)))


def view(right, down, forward, k=500):
    """4 by 2 pixels, with the eye at 1000 2000 0."""
    return f"ortho 4 2 1000 2000 0 {right} {down} {forward} {k} 1 0 4294967294 class all show"


ABOVE = view("1 0 0", "0 -1 0", "0 0 -1")


class Pixels(unittest.TestCase):
    def test_a_png_of_2_by_1_has_the_pixels_of_the_ppm(self):
        made = pixels.png(pixels.read_ppm(ppm(2, 1, GROUND, NONE), "a"))
        self.assertEqual(decoded(made), (2, 1, b"\0" + bytes.fromhex("C686FA000000")))

    def test_a_png_of_1_by_2_has_a_filter_before_each_row(self):
        made = pixels.png(pixels.read_ppm(ppm(1, 2, TREE, HOUSE), "a"))
        self.assertEqual(decoded(made), (1, 2, bytes.fromhex("008F0F51" "00D2926E")))

    def test_three_classes_get_their_usual_colours_and_no_record_stays_black(self):
        picture = pixels.read_ppm(ppm(2, 2, GROUND, TREE, HOUSE, NONE), "a")
        self.assertEqual(rgb(pixels.recolour(picture)), ["B5793C 2E9E3A", "FF6A3C 000000"])

    def test_class_64_without_red_is_told_from_no_record(self):
        picture = pixels.read_ppm(ppm(3, 1, CLASS_64, NONE, CLASS_64), "a")
        pixels.check_palette(picture, "a")
        self.assertEqual(pixels.counts(picture), ({64: 2}, 1))
        # 120 + 45 * 0 - 10 * 1 in each of the three.
        self.assertEqual(rgb(pixels.recolour(picture)), ["6E6E6E 000000 6E6E6E"])

    def test_each_class_is_known_by_its_red(self):
        for kind in range(256):
            self.assertEqual(pixels.class_of_red(pixels.program_colour(kind)[0]), kind)

    def test_usual_colours_all_differ_and_are_light_enough_on_black(self):
        colours = [pixels.asprs_colour(kind) for kind in range(256)]
        self.assertEqual(len(set(colours)), 256)
        # The least relative luminance with a contrast of 3 to black: (0.1 + 0.05) / 0.05.
        for colour in colours:
            linear = [(byte / 255 / 12.92 if byte <= 10 else ((byte / 255 + 0.055) / 1.055) ** 2.4) for byte in colour]
            self.assertGreaterEqual(0.2126 * linear[0] + 0.7152 * linear[1] + 0.0722 * linear[2], 0.1, colour)

    def test_a_colour_of_no_class_is_named_with_its_place(self):
        picture = pixels.read_ppm(ppm(2, 2, GROUND, NONE, NONE, bytes.fromhex("C686FB")), "a")
        with self.assertRaisesRegex(Wrong, "^a: column 1, row 1 has C686FB, which is no class's colour$"):
            pixels.check_palette(picture, "a")

    def test_widened_pixels_meet_halfway_and_the_first_wins_a_tie(self):
        # . . . . .        A at column 1 and B at column 3: column 2 is as near to both.
        # . A . B .
        # . . . . .
        row = [NONE, GROUND, NONE, HOUSE, NONE]
        picture = pixels.widen(pixels.read_ppm(ppm(5, 3, *[NONE] * 5, *row, *[NONE] * 5), "a"), 3)
        self.assertEqual(rgb(picture), ["C686FA C686FA C686FA D2926E D2926E"] * 3)

    def test_a_wider_pixel_covers_no_other_shown_one(self):
        # A B .            the square of A has B in it, and B stays; the third is B's.
        # . . .            below B, the nearest of the lower row is straight above each.
        picture = pixels.widen(pixels.read_ppm(ppm(3, 2, GROUND, HOUSE, NONE, NONE, NONE, NONE), "a"), 3)
        self.assertEqual(rgb(picture), ["C686FA D2926E D2926E", "C686FA D2926E D2926E"])

    def test_a_widened_pixel_is_cut_at_the_edges_and_reaches_no_farther(self):
        # One pixel at the right end: 3 wide it reaches one to the left, and none of the next row's begin.
        picture = pixels.widen(pixels.read_ppm(ppm(4, 3, NONE, NONE, NONE, TREE, *[NONE] * 8), "a"), 3)
        self.assertEqual(rgb(picture), ["000000 000000 8F0F51 8F0F51"] * 2 + ["000000 000000 000000 000000"])

    def test_the_background_is_where_no_record_shows(self):
        picture = pixels.read_ppm(ppm(3, 1, NONE, CLASS_64, NONE), "a")
        self.assertEqual(rgb(pixels.with_background(picture, bytes.fromhex("F0F1F2"))), ["F0F1F2 004000 F0F1F2"])


class WorldFiles(unittest.TestCase):
    # A unit is 1 mm and K is 500 units, so a pixel is 0.5 m. The eye is at 500001 m east and 4500002 m north.
    # Column 0 is 2 left of the middle, so its centre is 1.5 pixels, 0.75 m, to the west of the eye: 500000.25.
    # Row 0 is 1 above the middle, so its centre is half a pixel, 0.25 m, to the north: 4500002.25.
    HEAD = head((0.001, 0.001, 0.01), (500000.0, 4500000.0, 100.0))
    TEXT = "0.5\n0\n0\n-0.5\n500000.25\n4500002.25\n"

    def test_the_six_lines_are_those_worked_by_hand(self):
        self.assertEqual(world_file.world_text(world_file.view_numbers(ABOVE.split()), self.HEAD), self.TEXT)

    def test_view_words_may_be_a_session_line_in_one_word(self):
        self.assertEqual(world_file.view_numbers([f"view {ABOVE}"]), world_file.view_numbers(ABOVE.split()))

    def test_three_points_lie_in_the_pixels_that_show_them(self):
        east, _, _, north, first_x, first_y = map(Fraction, self.TEXT.split())
        for x, y, column, row, map_x, map_y in (
            # floor(-1000 / 500) + 2 and floor(-499 / 500) + 1
            (0, 2499, 0, 0, "500000", "4500002.499"),
            # floor(999 / 500) + 2 and floor(499 / 500) + 1
            (1999, 1501, 3, 1, "500001.999", "4500001.501"),
            # floor(-1 / 500) + 2 and floor(0 / 500) + 1: the eye's own row, a unit to the west
            (999, 2000, 1, 1, "500000.999", "4500002"),
        ):
            self.assertEqual(((x - 1000) // 500 + 2, (2000 - y) // 500 + 1), (column, row))
            # How far right of its pixel's left edge, and below its upper edge, the point lies, in pixels.
            right = (Fraction(map_x) - first_x) / east - column + Fraction(1, 2)
            below = (Fraction(map_y) - first_y) / north - row + Fraction(1, 2)
            self.assertTrue(0 <= right < 1 and 0 <= below < 1, (right, below))

    def test_a_turned_picture_has_turned_steps(self):
        # r = (3, 4) and d = (4, -3) have length 5, and K is 2500 units: a pixel is 500 units, 0.5 m. A step right
        # goes (3, 4) / 5 of it, and one down (4, -3) / 5. From the eye the centre is 1.5 steps left and 0.5 up:
        # east 1 - 1.5 * 0.3 - 0.5 * 0.4, north 2 - 1.5 * 0.4 + 0.5 * 0.3.
        numbers = world_file.view_numbers(view("3 4 0", "4 -3 0", "0 0 -5", 2500).split())
        text = world_file.world_text(numbers, head((0.001, 0.001, 0.001)))
        self.assertEqual(text, "0.3\n0.4\n0.4\n-0.3\n0.35\n1.55\n")

    def test_thirds_are_rounded_at_15_places(self):
        self.assertEqual(world_file.decimals(Fraction(-1, 3)), "-0.333333333333333")
        self.assertEqual(world_file.decimals(Fraction(-1, 10**16)), "0")

    def test_views_that_are_not_from_above_are_refused(self):
        for words, told in (
            (view("5 0 0", "0 -3 -4", "0 4 -3"), "forward 0 4 -3 isn't straight down"),
            (view("1 0 0", "0 1 0", "0 0 1"), "forward 0 0 1 isn't straight down"),
            (view("1 0 1", "0 -1 0", "0 0 -1"), "isn't level"),
            (view("1 0 0", "0 -2 0", "0 0 -1"), "of one length"),
            (view("1 0 0", "1 0 0", "0 0 -1"), "at right angles"),
            (view("0 0 0", "0 0 0", "0 0 -1"), "of one length"),
            (view("1 0 0", "0 1 0", "0 0 -1"), "mirrored"),
            (view("1 0 0", "0 -1 0", "0 0 -1", 0), "K is 1 to"),
            (ABOVE + " show", "has 22 words, and 23"),
            (ABOVE.replace("ortho", "persp"), "not with persp"),
            (ABOVE.replace("500", "0.5"), "0.5 is no number"),
        ):
            with self.assertRaisesRegex(Wrong, told):
                world_file.six(world_file.view_numbers(words.split()), self.HEAD)

    def test_scales_that_are_unequal_or_below_0_are_refused(self):
        numbers = world_file.view_numbers(ABOVE.split())
        for scales, told in (((0.01, 0.001, 0.01), "unequal: 0.01 and 0.001"), ((-0.01, -0.01, 0.01), "aren't above 0")):
            with self.assertRaisesRegex(Wrong, told):
                world_file.six(numbers, head(scales))
        # What is no number is refused where the header is read.
        for scales in ((0.0, 0.0, 0.01), (float("nan"), 0.01, 0.01)):
            with self.assertRaisesRegex(Wrong, "the scale of X is"):
                head(scales)


SCRIPT = b"\nedit 0 0 0 9 9 9 all 32\n \t\r\nview x\nsave\ncount all show"
REPLIES = b"REFUSED 4\nPICTURE 0 14\n" + ppm(1, 1, GROUND) + b"PICTURE 0 17\n" + ppm(2, 1, TREE, NONE) + b"FILE 0 3\nabc"


class Lines(unittest.TestCase):
    def test_lines_with_words_and_lines_that_are_too_long_have_a_reply(self):
        # One CR is left away, a second one is a word; 4096 bytes are not too long, and blanks alone are no word.
        script = b"\r\n\r\r\n" + b" " * 4096 + b"\n" + b" " * 4097 + b"\nsave\r\n"
        self.assertEqual([number for number, _ in replies.answered(script)], [2, 4, 5])

    def test_a_last_line_needs_no_end(self):
        self.assertEqual(list(replies.answered(b"save\nsave")), [(1, "save"), (2, "save")])
        self.assertEqual(list(replies.answered(b"")), [])


class Scripts(unittest.TestCase):
    def setUp(self):
        folder = tempfile.TemporaryDirectory()
        self.addCleanup(folder.cleanup)
        self.folder = folder.name
        saved = bytearray(assemble.plain_file(4, 6))
        saved[375 + 16] = saved[375 + 30 + 16] = 7
        for name, data in (
            ("a.ppm", ppm(2, 1, GROUND, NONE)),
            ("view.ppm", ppm(4, 2, *[GROUND] * 8)),
            ("read.las", survey((0.001, 0.001, 0.01), (500000.0, 4500000.0, 100.0))),
            ("plain.las", assemble.plain_file(4, 6)),
            ("saved.las", bytes(saved)),
            ("script", SCRIPT),
            ("replies", REPLIES),
            ("empty", b""),
        ):
            with open(os.path.join(self.folder, name), "wb") as file:
                file.write(data)

    def run_script(self, line, stdin=b""):
        """Status, standard output and standard error of a script with the words of this line."""
        name, *words = line.split()
        done = subprocess.run(
            [sys.executable, "-S", os.path.join(HERE, name), *words], cwd=self.folder, input=stdin, capture_output=True
        )
        return done.returncode, done.stdout, done.stderr.decode()

    def left(self, name):
        with open(os.path.join(self.folder, name), "rb") as file:
            return file.read()

    def test_a_picture_goes_through_pipes_with_all_options(self):
        words = "picture.py - - --reply last --classes asprs --background 0A0B0C --legend"
        status, out, told = self.run_script(words, REPLIES)
        self.assertEqual((status, told), (0, "class 5 2E9E3A 1 high vegetation\nno record 1\n"))
        self.assertEqual(decoded(out), (2, 1, b"\0" + GREEN + bytes.fromhex("0A0B0C")))

    def test_a_world_file_lies_beside_the_picture(self):
        self.assertEqual(self.run_script(f"picture.py view.ppm a.png --world read.las {ABOVE}"), (0, b"", ""))
        self.assertEqual(self.left("a.pgw").decode(), WorldFiles.TEXT)
        self.assertEqual(decoded(self.left("a.png"))[:2], (4, 2))

    def test_a_drawn_survey_lies_on_the_map_where_its_header_says(self):
        # A unit is 1 mm and K 100 units, so a pixel is 0.1 m. Record i is at E 500000 + i / 10, N 4500000 - i / 20.
        # The eye is at E 500000.2, N 4499999.9; the first centre is 2.5 pixels to the west and 1.5 to the north of it.
        camera = "ortho 6 4 200 -100 1000 1 0 0 0 -1 0 0 0 -1 100 1 0 4294967294 class all show"
        self.assertEqual(self.run_script(f"reference_draw.py draw read.las drawn.ppm 1 {camera}"), (0, b"", ""))
        words = f"picture.py drawn.ppm drawn.png --classes asprs --world read.las {camera}"
        self.assertEqual(self.run_script(words), (0, b"", ""))
        self.assertEqual(self.left("drawn.pgw").decode(), "0.1\n0\n0\n-0.1\n499999.95\n4500000.05\n")
        width, _, rows = decoded(self.left("drawn.png"))
        for colour, column, row, east, north in (
            # Record 0, class 2: the centre of column 1 is at E 500000.05, and that of row 1 at N 4499999.95.
            ("B5793C", 1, 1, "500000", "4500000"),
            # Record 3, class 5: E 500000.35 and N 4499999.85.
            ("2E9E3A", 4, 2, "500000.3", "4499999.85"),
            # Record 4, class 1: E 500000.45 and N 4499999.75.
            ("CCCCCC", 5, 3, "500000.4", "4499999.8"),
        ):
            at = row * (1 + 3 * width) + 1 + 3 * column
            self.assertEqual(rows[at : at + 3].hex().upper(), colour)
            centre_east, centre_north = Fraction("499999.95") + Fraction(column, 10), Fraction("4500000.05") - Fraction(row, 10)
            # A pixel has its west and its north edge.
            self.assertTrue(-1 <= 20 * (Fraction(east) - centre_east) < 1, column)
            self.assertTrue(-1 < 20 * (Fraction(north) - centre_north) <= 1, row)

    def test_nothing_is_written_where_the_world_file_is_refused(self):
        told = "picture.py: the view has 4 by 2 pixels, the picture 2 by 1\n"
        self.assertEqual(self.run_script(f"picture.py a.ppm b.png --world read.las {ABOVE}"), (1, b"", told))
        self.assertFalse(os.path.exists(os.path.join(self.folder, "b.png")))

    def test_replies_are_taken_by_number_kind_and_line(self):
        # The lines with words are 2, 4 and 5, and their replies 1, 2 and 3.
        for which, wanted in (("2", ppm(1, 1, GROUND)), ("picture", ppm(2, 1, TREE, NONE)), ("file", b"abc")):
            self.assertEqual(self.run_script(f"replies.py replies {which} -"), (0, wanted, ""))
        line = self.run_script("replies.py replies line:5 - --script script")
        self.assertEqual(line, (0, ppm(2, 1, TREE, NONE), ""))

    def test_a_summary_tells_what_a_refused_line_was(self):
        refused = b"REFUSED 1\nEDITED 1 9\nREFUSED 2\nCOUNT 1 18446744073709551615\n"
        text = (
            b"4 replies: 0 PICTURE, 0 FILE, 1 EDITED, 1 COUNT, 2 REFUSED\n"
            b"1 REFUSED 1, not a line of the grammar: line 2: edit 0 0 0 9 9 9 all 32\n"
            b"3 REFUSED 2, a camera number is out of its range: line 5: save\n"
        )
        strict = "replies.py: -: 2 refused, the first by reply 1\n"
        self.assertEqual(self.run_script("replies.py - --summary --script script --strict", refused), (1, text, strict))

    def test_the_list_of_replies_stands_as_it_did(self):
        text = b"1 REFUSED 4\n2 PICTURE 0 14\n3 PICTURE 0 17\n4 FILE 0 3\n"
        self.assertEqual(self.run_script("replies.py replies"), (0, text, ""))

    def test_changes_are_told_from_class_to_class(self):
        # The classes of the file are 2, 6, 9, 5 and 1; the first two became 7.
        text = b"2 of 5 records have another class, and nothing else differs\nfrom 2 to 7: 1\nfrom 6 to 7: 1\n"
        self.assertEqual(self.run_script("class_changes.py plain.las saved.las --table"), (0, text, ""))

    def test_what_is_wrong_is_one_line_and_a_status(self):
        for line, status, told in (
            ("picture.py none a.png", 1, "picture.py: cannot read none: No such file or directory"),
            ("picture.py empty a.png", 1, "picture.py: empty: empty, no picture"),
            ("picture.py replies a.png", 1, "picture.py: replies: no binary PPM with maxval 255"),
            ("picture.py a.ppm none/a.png", 1, "picture.py: cannot write none/a.png: No such file or directory"),
            ("picture.py replies a.png --reply 1", 1, "picture.py: replies: reply 1 is REFUSED 4: no bytes came with it"),
            ("picture.py replies a.png --reply 4", 1, "picture.py: replies: reply 4 is no picture: FILE 0 3"),
            ("replies.py empty", 1, "replies.py: empty: empty, no reply came"),
            ("replies.py a.ppm", 1, "replies.py: a.ppm: reply 1 breaks off or is none: b'P6\\n'"),
            ("replies.py replies 5 out", 1, "replies.py: replies: no reply 5, only 4 came"),
            ("class_changes.py a.ppm saved.las", 1, "class_changes.py: a.ppm is no survey: only 17 bytes"),
            ("class_changes.py plain.las none", 1, "class_changes.py: cannot read none: No such file or directory"),
            ("damage.py empty 1 1 out", 1, "damage.py: empty: empty"),
            ("assemble.py a.ppm", 1, "assemble.py: File exists: a.ppm"),
            (f"reference_draw.py draw a.ppm out 1 {ABOVE}", 1, "reference_draw.py: a.ppm is no survey: only 17 bytes"),
            ("terrain.py", 2, "terrain.py: the following arguments are required: OUT.las (--help tells the words)"),
        ):
            self.assertEqual(self.run_script(line), (status, b"", told + "\n"), line)


if __name__ == "__main__":
    unittest.main()
