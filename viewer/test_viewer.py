#!/usr/bin/env python3
"""Tests of the whole viewer without a browser: pictures, edits, files and seats, over its tabs' lines.

    python3 viewer/test_viewer.py
"""

import os
import subprocess
import unittest
import zlib

from fields import ROOT, VIEW, Case, with_class

HIDREVCA = os.path.join(ROOT, "hidrevca")


class Pictures(Case):
    def test_a_picture_is_that_of_draw_by_the_words_that_are_told(self):
        client = self.seated(self.viewer())
        for n, more in enumerate((
            {}, {"down": 0, "towards": 180}, {"down": 35, "towards": 60, "colour": "rgb16"}, {"colour": "intensity", "withheld": "hide"},
            {"form": "persp", "at": [20.0, -30.0, 20.0], "down": 20, "angle": 70, "classes": "2,5-6"},
        )):
            for divide in (1, 2, 4):
                picture = client.picture(n=n, **{**VIEW, **more, "divide": divide})
                words = picture["words"].split()
                if divide > 1:
                    # The same camera with so many pixels less, each so much larger; in perspective K counts pixels.
                    words[1], words[2] = str(480 // divide), str(400 // divide)
                    words[15] = str(int(words[15]) * divide if words[0] == "ortho" else int(words[15]) // divide)
                drawn = subprocess.run([HIDREVCA, "draw", self.survey, "-", "2", *words], capture_output=True, check=True).stdout
                header = f"P6\n{480 // divide} {400 // divide}\n255\n".encode()
                self.assertEqual(header + picture["rgb"], drawn, (more, divide))
                self.assertEqual((picture["n"], picture["version"], picture["size"]), (n, 0, [480 // divide, 400 // divide]))

    def test_a_packed_picture_has_the_same_pixels(self):
        client = self.seated(self.viewer())
        plain, packed = client.picture(n=1, **VIEW), client.picture(n=2, **VIEW, pack=True)
        self.assertEqual((plain["packed"], packed["packed"]), (False, True))
        self.assertEqual(zlib.decompress(packed["rgb"]), plain["rgb"])

    def test_three_pixels_by_hand(self):
        # 0.1 m are 10 units, and 128 times that is the first K of 1024 or above; the middle is the unit 2000 2000.
        picture = self.seated(self.viewer()).picture(**VIEW)
        self.assertEqual(picture["words"].split()[:8] + picture["words"].split()[15:16], "ortho 480 400 2000 2000 900 128 0 1280".split())
        # The record 0 0 is 200 columns left and 200 rows down of 240 200, the first row below the picture's last;
        # 0 50 is 5 rows above it. 3950 3950 is 195 to the right and up, and 2000 2000 in the middle.
        for column, row, kind in ((40, 395, 2), (435, 5, 9), (240, 200, 9), (41, 395, None)):
            at = 3 * (480 * row + column)
            colour = bytes((67 * kind + 64 & 255, 131 * kind + 128 & 255, 29 * kind + 192 & 255)) if kind else bytes(3)
            self.assertEqual(picture["rgb"][at : at + 3], colour, (column, row))

    def test_of_the_pictures_asked_for_the_last_is_drawn(self):
        client = self.seated(self.viewer())
        for n in range(1, 201):
            client.say({"ask": "view", "n": n, **VIEW})
        client.say({"ask": "line", "n": "line", "line": "count all show"})
        # Until `ready` is said, which is behind all that was asked for, two pictures are drawn, and then the last.
        drawn = []
        while drawn[-1:] != [200]:
            drawn.append(client.wait_for("picture")["n"])
        self.assertTrue(len(drawn) <= 3 and drawn == sorted(drawn), drawn)

    def test_what_does_not_fit_is_told_and_costs_the_session_nothing(self):
        client = self.seated(self.viewer())
        before = client.picture(n=1, **VIEW)
        for wrong, told in (({"size": [1, 1]}, "size is no number from 8 to 4096"), ({"divide": 3}, "divide is 1, 2 or 4")):
            client.say({"ask": "view", "n": 2, **VIEW, **wrong})
            self.assertEqual(client.wait_for("wrong"), {"say": "wrong", "n": 2, "text": told})
        for wrong in ({"ask": "stop"}, {"ask": "save"}, {"ask": "line", "line": "save"}, {}, {"ask": "edit"}):
            client.say(wrong)
            client.wait_for("wrong")
        after = client.picture(n=3, **VIEW)
        # The line of the second picture has `view `, its words and an LF. The tab's session and seven spares take
        # 2^20 bytes each, of which 2^14 are kept for edits.
        self.assertAlmostEqual(before["room"] - after["room"], (len(after["words"]) + 6) / 8 / (2**20 - 2**14), 12)


class Edits(Case):
    def test_an_edit_in_one_tab_is_told_to_the_others_and_saved(self):
        viewer = self.viewer()
        one, other = self.seated(viewer), self.seated(viewer)
        words = one.picture(n=1, **VIEW)["words"]
        # Columns 240 to 249 are the units 2000 to 2099, rows 190 to 199 the units 2001 to 2100: of the records at
        # 2000, 2050, .. two columns and two rows, which are water.
        one.say({"ask": "edit", "n": "edit", "words": words, "pixels": [240, 190, 249, 199], "from": "5-9", "to": 17})
        done = one.wait_for("done")
        line = "edit 2000 2001 -2147483648 2099 2100 2147483647 5-9 17"
        self.assertEqual((done["line"], done["reply"]), (line, ["EDITED", "1", "4"]))
        told = other.wait_for("edited")
        self.assertEqual((told["version"], told["count"], told["line"], told["seat"]), (1, 4, line, 1))
        self.assertEqual(told["box"], [[20.0, 20.01, 1.0], [20.99, 21.0, 9.0]])
        # Of 1600 records of class 9, which are withheld, 4 are of class 17 now.
        counts = {kind: both for kind, *both in other.wait_for("counts")["counts"]}
        while 17 not in counts:
            counts = {kind: both for kind, *both in other.wait_for("counts")["counts"]}
        self.assertEqual(counts, {2: [1600, 1600], 5: [1600, 1600], 6: [1600, 1600], 9: [1596, 0], 17: [4, 0]})
        self.assertEqual(other.picture(n=2, **VIEW)["version"], 1)
        self.saved(viewer, other)
        self.assertEqual(viewer.end(), (0, f"viewer: the journal will be {viewer.journal}; Ctrl-C ends\n"
                                        f"viewer: 1 edit in the journal {viewer.journal}\n"))
        self.assertEqual(self.read("journal.txt"), f"{line}\n".encode())
        self.assertFalse(os.path.exists(self.path("journal.txt.answered")))

    def saved(self, viewer, client):
        status, content, headers = self.get(viewer, f"/save?key={viewer.key}&tab={client.seat['tab']}")
        self.assertEqual((status, headers["Content-Disposition"]), (200, 'attachment; filename="fields-version-1.las"'))
        wanted = with_class(self.read("fields.las"), lambda p: 17 if p.x in (2000, 2050) and p.y in (2050, 2100) else None)
        self.assertEqual(content, wanted)

    def test_a_refused_line_is_told_in_words_and_others_are_answered(self):
        client = self.seated(self.viewer())
        for line, told in (
            ("count 2 show", "1600 records pass in version 0"),
            ("count all hide", "4800 records pass in version 0"),
            ("count 256 show", "refused: not a line of the grammar"),
            ("frob it", "refused: not a line of the grammar"),
            ("edit 0 0 0 9 9 999 2 3", "version 1: 1 record has another class"),
            ("edit 0 0 0 9 9 999 2 3", "version 2: 0 records have another class"),
        ):
            client.say({"ask": "line", "n": "line", "line": line})
            self.assertEqual(client.wait_for("done")["text"], told)

    def test_four_tabs_of_which_one_edits_stay_right(self):
        viewer = self.viewer("--workers", "2")
        tabs = [self.seated(viewer) for _ in range(4)]
        for version in range(1, 6):
            for at, client in enumerate(tabs[1:], 1):
                client.say({"ask": "view", "n": version, **VIEW, "classes": f"{20 + version}"})
            tabs[0].say({"ask": "line", "n": "line", "line": f"edit 0 0 0 1950 1950 999 all {20 + version}"})
            self.assertEqual(tabs[0].wait_for("done")["reply"], ["EDITED", str(version), "1600"])
            for client in tabs[1:]:
                # Asked before the edit was answered, a picture is of the version before it or of the one after.
                picture = client.wait_for("picture")
                self.assertIn(picture["version"], (version - 1, version))
                self.assertEqual(any(picture["rgb"]), picture["version"] == version)
                self.assertEqual(client.picture(n=version, **VIEW)["version"], version)


class Seats(Case):
    def test_a_seat_whose_tab_is_gone_goes_to_the_next(self):
        viewer = self.viewer("--seats", "2")
        one, two = self.seated(viewer), self.seated(viewer)
        three, four = self.client(viewer), self.client(viewer)
        self.assertEqual([one.seat["seat"], two.seat["seat"]], [1, 2])
        self.assertEqual(three.wait_for("wait")["place"], 1)
        self.assertEqual(four.wait_for("wait")["place"], 2)
        # One goes in the middle of a picture, which isn't read by the next.
        one.say({"ask": "view", "n": 1, **VIEW})
        one.close()
        self.assertEqual(three.wait_for("seat")["seat"], 1)
        self.assertEqual(four.wait_for("wait")["place"], 1)
        self.assertEqual(three.picture(n=7, **VIEW)["n"], 7)
        four.close()
        two.close()
        self.assertEqual(self.seated(viewer).seat["seat"], 2)

    def test_a_line_that_says_what_is_none_is_closed_and_its_seat_is_free(self):
        viewer = self.viewer("--seats", "1")
        for kind, data, code in ((1, b"no json", 1007), (1, b"[1]", 1008), (2, b"{}", 1008), (3, b"", 1002), (1, b'"x"', 1008)):
            client = self.seated(viewer)
            client.frame(kind, data)
            self.assertEqual(client.wait_for("closed")["code"], code)
            client.close()
        # The first line that the session gets is that of this picture: `view `, its words and an LF.
        picture = self.seated(viewer).picture(n=1, **VIEW)
        self.assertAlmostEqual(picture["room"], 1 - (len(picture["words"]) + 6) / 15 / (2**20 - 2**14), 12)


if __name__ == "__main__":
    unittest.main()
