"""The survey of four fields over which the viewer is tried, and what the tests of a running viewer share."""

import http.client
import os
import signal
import sys
import tempfile
import types
import unittest

HERE = os.path.dirname(os.path.realpath(__file__))
ROOT = os.path.dirname(HERE)
sys.path.append(os.path.join(ROOT, "examples"))

import assemble
from tab_client import LONGEST, Client, Viewer

# Four fields of 20 m by 20 m with a record each half metre: the class and the height, in cm, of each.
FIELDS = {(0, 0): (2, 500), (1, 0): (5, 900), (0, 1): (6, 700), (1, 1): (9, 100)}
SIDE, STEP = 40, 50
VIEW = {
    "form": "ortho", "at": [20.0, 20.0, 5.0], "pixel": 0.1, "down": 90, "towards": 0, "size": [480, 400], "divide": 1,
    "colour": "class", "classes": "all", "withheld": "show",
}
LENGTH = assemble.LENGTHS[7]


def points():
    """The records, from the south-west on, row by row; those of the water are withheld."""
    for row in range(2 * SIDE):
        for column in range(2 * SIDE):
            kind, height = FIELDS[column // SIDE, row // SIDE]
            yield types.SimpleNamespace(
                x=STEP * column, y=STEP * row, z=height, intensity=256 * column, classification=kind, withheld=kind == 9,
                gps_time=0.0, rgb=(256 * row, 512, 65535), nir=0,
            )


def survey_bytes():
    """A survey of LAS 1.4 in format 7, one unit 0.01 m."""
    made = list(points())
    head = assemble.header(4, 7, LENGTH, made, 0, 375)
    return head + b"".join(assemble.record(7, point, b"") for point in made)


def with_class(survey, changes):
    """The survey with another class for each record that changes: the class is byte 16 of a record of format 7."""
    changed = bytearray(survey)
    for number, point in enumerate(points()):
        kind = changes(point)
        if kind is not None:
            changed[375 + LENGTH * number + 16] = kind
    return bytes(changed)


class Case(unittest.TestCase):
    def setUp(self):
        folder = tempfile.TemporaryDirectory()
        self.addCleanup(folder.cleanup)
        self.folder = folder.name
        self.survey = self.path("fields.las")
        with open(self.survey, "wb") as file:
            file.write(self.survey_bytes())

    def survey_bytes(self):
        return survey_bytes()

    def path(self, name):
        return os.path.join(self.folder, name)

    def read(self, name):
        with open(self.path(name), "rb") as file:
            return file.read()

    def viewer(self, *words, **more):
        viewer = Viewer(self.survey, self.folder, *words, **more)
        self.addCleanup(viewer.end, signal.SIGKILL)
        self.assertTrue(viewer.port, viewer.address)
        return viewer

    def client(self, viewer):
        client = Client(viewer)
        self.addCleanup(client.close)
        self.assertEqual(client.answer, "HTTP/1.1 101 Switching Protocols")
        return client

    def seated(self, viewer):
        client = self.client(viewer)
        client.seat = client.wait_for("seat")
        return client

    def get(self, viewer, path, method="GET", **headers):
        line = http.client.HTTPConnection("127.0.0.1", viewer.port, timeout=LONGEST)
        self.addCleanup(line.close)
        line.request(method, path, headers={"Host": f"127.0.0.1:{viewer.port}", **headers})
        answer = line.getresponse()
        return answer.status, answer.read(), answer.headers
