#!/usr/bin/env python3
"""The textbook z-buffer, to compare the program's pictures with.

    python3 examples/reference_draw.py draw SURVEY OUT WORKERS KIND W H .. FAR COLOUR CLASSES WITHHELD

Takes the words of `hidrevca draw` and writes the picture that they ask for, of a LAS 1.2, 1.3 or 1.4
file of any point data record format. It shares no code with the program.
SURVEY and OUT may be `-`. Of a survey the header and the size are checked, of the camera the numbers that it divides by.
"""

import collections
import re
import struct

from script_ends import Words, Wrong, read_bytes, run, write_bytes
from survey_head import class_bits, head

NUMBER = re.compile("-?[0-9]{1,20}")
# Where the red of a record stands, in the formats that have RGB: LAS 1.4 R15, tables 7 to 18.
RED = {2: 20, 3: 28, 5: 28, 7: 30, 8: 30, 10: 30}

Point = collections.namedtuple("Point", "place kind withheld intensity rgb")


def read_points(survey, name="the file"):
    """Yields each record; its rgb is none where the format has none."""
    known = head(survey, name)
    place, bits = class_bits(known.format)
    # Withheld is bit 7 of the class byte, or bit 2 of the flags before it.
    flags, mask = (15, 0x80) if known.format <= 5 else (15, 0x04)
    for number in range(known.records):
        at = known.start + known.length * number
        *xyz, intensity = struct.unpack_from("<3iH", survey, at)
        rgb = struct.unpack_from("<3H", survey, at + RED[known.format]) if known.format in RED else None
        yield Point(xyz, survey[at + place] & bits, bool(survey[at + flags] & mask), intensity, rgb)


def dot(a, b):
    return sum(x * y for x, y in zip(a, b))


# Red, green and blue of a record that is shown as one of this class.
COLOURS = {
    "class": lambda _, kind: ((67 * kind + 64) % 256, (131 * kind + 128) % 256, (29 * kind + 192) % 256),
    "rgb16": lambda point, _: [it // 256 for it in point.rgb],
    "rgb8": lambda point, _: [min(it, 255) for it in point.rgb],
    "intensity": lambda point, _: [point.intensity // 256] * 3,
}


def spots(kind, numbers):
    """What gives column, row and depth of a place, or nothing where it is not ahead of an eye in perspective."""
    half_width, half_height = numbers[0] // 2, numbers[1] // 2
    (at_x, at_y, at_z), (rx, ry, rz), (dx, dy, dz), (fx, fy, fz) = (numbers[i : i + 3] for i in (2, 5, 8, 11))
    scale, unit = numbers[14:16]

    def spot_of(place):
        x, y, z = place[0] - at_x, place[1] - at_y, place[2] - at_z
        a, b, ahead = rx * x + ry * y + rz * z, dx * x + dy * y + dz * z, fx * x + fy * y + fz * z
        if kind != "persp":
            return a // scale + half_width, b // scale + half_height, ahead // unit
        if ahead <= 0:
            return None
        return a * scale // ahead + half_width, b * scale // ahead + half_height, ahead // unit

    return spot_of


def spot(kind, numbers, place):
    """Column, row and depth of one place, or nothing."""
    return spots(kind, numbers)(place)


def picture(points, numbers, kind="ortho", colouring="class", classes=range(256), hides=False, kinds=None):
    """The picture of these points, by their own classes or by others, one for each."""
    width, height = numbers[0:2]
    near, far = numbers[16:18]
    spot_of = spots(kind, numbers)
    depths, shown = {}, {}
    for point, its_kind in ((point, point.kind) for point in points) if kinds is None else zip(points, kinds):
        at = spot_of(point.place) if its_kind in classes and not (hides and point.withheld) else None
        if at is None:
            continue
        column, row, depth = at
        if 0 <= column < width and 0 <= row < height and near <= depth <= far:
            pixel = row * width + column
            # A later record at an equal depth doesn't show.
            if depth < depths.get(pixel, far + 1):
                depths[pixel], shown[pixel] = depth, (point, its_kind)
    pixels, colour = bytearray(3 * width * height), COLOURS[colouring]
    for pixel, it in shown.items():
        pixels[3 * pixel : 3 * pixel + 3] = bytes(colour(*it))
    return b"P6\n%d %d\n255\n" % (width, height) + pixels


def classes_of(word):
    """The classes of a list such as 2,5-6, or none where it is no list."""
    if word == "all":
        return set(range(256))
    found = set()
    for item in word.split(","):
        if not re.fullmatch("[0-9]{1,20}(-[0-9]{1,20})?", item):
            return None
        ends = [int(end) for end in item.split("-")]
        if ends[0] > ends[-1] or ends[-1] > 255:
            return None
        found |= set(range(ends[0], ends[-1] + 1))
    return found


def read_words():
    parser = Words(__doc__)
    parser.add_argument("words", nargs="+", metavar="WORD")
    words = parser.parse_args().words
    if len(words) != 26 or words[0] != "draw" or words[4] not in ("ortho", "persp"):
        parser.error("the words are those of a draw, 26 in all")
    for word in words[5:23]:
        if not NUMBER.fullmatch(word):
            parser.error(f"{word} is no number")
    numbers = [int(word) for word in words[5:23]]
    if not all(1 <= size <= 4096 for size in numbers[:2]) or min(numbers[14:16]) < 1:
        parser.error("W and H are 1 to 4096, and K and T 1 or more")
    classes = classes_of(words[24])
    if words[23] not in COLOURS or classes is None or words[25] not in ("show", "hide"):
        parser.error("the last words are COLOUR, CLASSES and WITHHELD")
    return words[1], words[2], numbers, words[4], words[23], classes, words[25] == "hide"


def main():
    survey, out, numbers, kind, colouring, classes, hides = read_words()
    data = read_bytes(survey)
    form = head(data, survey).format
    if colouring.startswith("rgb") and form not in RED:
        raise Wrong(f"{survey}: format {form} has no colour")
    write_bytes(out, picture(read_points(data, survey), numbers, kind, colouring, classes, hides))


if __name__ == "__main__":
    run(main, "reference_draw.py")
