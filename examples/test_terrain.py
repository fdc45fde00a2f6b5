#!/usr/bin/env python3
"""Tests of terrain.py: the bytes of the sample survey, which the guide's numbers rest on.

    python3 examples/test_terrain.py
"""

import hashlib
import os
import subprocess
import sys
import unittest
from unittest import mock

import terrain

HERE = os.path.dirname(os.path.realpath(__file__))


def plain_height(x, y):
    """The height of the ground at one place, term by term."""

    def bump():
        return 0.5 * terrain.wave(x / 97 + terrain.wave(y / 131) / 3) + 0.5 * terrain.wave(y / 83 + terrain.wave(x / 113) / 3)

    far, hills = (x - terrain.stream_middle(y)) / 70, 0
    for at_x, at_y, half_x, half_y, top in terrain.HILLS:
        across, along = (x - at_x) / half_x, (y - at_y) / half_y
        near = 1 / (1 + across * across + along * along)
        hills += top * near * near
    return 20 + y / 60 + hills - 12 / (1 + far * far) + 2 * bump()


class Terrain(unittest.TestCase):
    def test_the_survey_has_its_bytes(self):
        script = os.path.join(HERE, "terrain.py")
        done = subprocess.run([sys.executable, script, "-"], capture_output=True, check=True)
        self.assertEqual(done.stderr, b"-: 98339 records\n")
        # 375 bytes of header, and 20 for each record.
        self.assertEqual(len(done.stdout), 375 + 20 * 98339)
        wanted = "c815302642f6248d6ebe200f9742284af0f633ff28e86c7722818c6feb32c7bb"
        self.assertEqual(hashlib.sha256(done.stdout).hexdigest(), wanted)

    def test_a_row_at_a_time_gives_each_height_to_the_last_bit(self):
        columns = [terrain.column(x) for x in range(0, terrain.EAST, 7)]
        for y in (0, 83, 262, 679):
            each = [plain_height(x, y) for x in range(0, terrain.EAST, 7)]
            self.assertEqual(terrain.heights(columns, y), each)
        self.assertEqual(terrain.height(17.25, 300.5), plain_height(17.25, 300.5))

    def test_one_processor_and_several_give_the_same_rows(self):
        bands = [(0, 2), None, (2, 3), (3, 5)]
        found = []
        for processors in ({0}, {0, 1}):
            with mock.patch("os.sched_getaffinity", lambda _, it=processors: it):
                found.append(terrain.side_by_side(bands))
        self.assertEqual(found[0], found[1])
        self.assertEqual(found[0], [terrain.part(band) for band in bands])


if __name__ == "__main__":
    unittest.main()
