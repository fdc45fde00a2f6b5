"""What the viewer knows of a survey: its header, and what `info` tells of its records."""

import os
import re

import aim
import pixels
import session_lines
from header import read_header
from metres import Grid
from reference_draw import RED
from script_ends import Wrong


def told(text, name):
    """The number behind a name in the text of `info`."""
    for line in text.splitlines():
        words = line.split()
        if words[:1] == [name] and len(words) == 2:
            return int(words[1])
    raise Wrong(f"the text of `info` has no {name}")


def class_counts(text):
    """How many records each class has, by the text of `info`."""
    lines = [line.split() for line in text.splitlines() if line.startswith("class ")]
    return {int(words[1]): int(words[2]) for words in lines}


def system_of(header):
    """The coordinate system in a few words: its name or its code."""
    if header.wkt is not None:
        return header.wkt.partition('"')[2].partition('"')[0] or "unnamed"
    if header.geotiff:
        return f"EPSG:{header.epsg}" if header.epsg else "GeoTIFF keys without a code"
    return "not in the file"


def unit_of(header):
    """What lengths are told in: feet where the text of the coordinate system counts in them."""
    return "ft" if re.search(r'UNIT\["[^"]*(foot|feet)', header.wkt or "", re.IGNORECASE) else "m"


class Survey:
    """A survey, the box of its records in units, and its classes as they stand in the file."""

    def __init__(self, name, text):
        self.name = name
        self.header = read_header(name)
        self.grid = Grid(self.header)
        self.form = told(text, "format")
        self.records = told(text, "records")
        if not self.records:
            raise Wrong(f"{name}: the survey has no records, so there is nothing to show")
        self.low, self.high = aim.box_of(text)
        self.counts = class_counts(text)

    def place(self, units):
        """The map coordinates of a place that is given in units."""
        return [float(o + s * unit) for o, s, unit in zip(self.grid.offset, self.grid.scale, units)]

    def bounds(self):
        """The least and the greatest corner of the records in map coordinates."""
        corners = zip(self.place(self.low), self.place(self.high))
        return [list(ends) for ends in zip(*map(sorted, corners))]

    def said(self):
        """What the page is told once."""
        low, high = self.bounds()
        return {
            "survey": os.path.basename(self.name),
            "format": self.form,
            "records": self.records,
            "scale": [float(number) for number in self.grid.scale],
            "offset": [float(number) for number in self.grid.offset],
            "low": low,
            "high": high,
            "system": system_of(self.header),
            "unit": unit_of(self.header),
            "rgb": self.form in RED,
            "greatest": session_lines.greatest_class(self.form),
            "classes": [class_said(kind) for kind in range(256)],
        }


def class_said(kind):
    """The name of a class, its usual colour and the program's own."""
    return [pixels.class_name(kind), list(pixels.asprs_colour(kind)), list(pixels.program_colour(kind))]
