"""Pictures of the program as planes of bytes: read from PPM, recoloured, widened, and written as PNG."""

import re
import struct
import zlib

from script_ends import Wrong

PPM = re.compile(rb"P6\s+([0-9]{1,5})\s+([0-9]{1,5})\s+255\s")

# What LAS 1.4 R15 (tables 9 and 17) calls the first classes, and the colour that maps mostly give them.
ASPRS = {
    0: ("never classified", 0x8C8C8C),
    1: ("unclassified", 0xCCCCCC),
    2: ("ground", 0xB5793C),
    3: ("low vegetation", 0xB4E68C),
    4: ("medium vegetation", 0x64CC50),
    5: ("high vegetation", 0x2E9E3A),
    6: ("building", 0xFF6A3C),
    7: ("low noise", 0xFF4FD8),
    8: ("model key-point", 0xF0E0B0),
    9: ("water", 0x4A90FF),
    10: ("rail", 0x9C7CD0),
    11: ("road", 0xA8A8BC),
    13: ("wire guard", 0xFFF08C),
    14: ("wire conductor", 0xFFE000),
    15: ("transmission tower", 0xE8B400),
    16: ("wire connector", 0xD89CFF),
    17: ("bridge deck", 0xE0C8C0),
    18: ("high noise", 0xFF98EC),
}


class Pixels:
    """Width, height, three planes of a byte a pixel, and `shown`, with FF where a record shows and else 00."""

    def __init__(self, width, height, planes, shown):
        self.width, self.height, self.planes, self.shown = width, height, planes, shown


def program_colour(kind):
    """The colour that the program gives a class."""
    return (67 * kind + 64) % 256, (131 * kind + 128) % 256, (29 * kind + 192) % 256


def asprs_colour(kind):
    """The usual colour of a class: those without one get light ones that all differ."""
    if kind in ASPRS:
        return tuple(ASPRS[kind][1].to_bytes(3, "big"))
    return tuple(120 + 45 * (kind // step % 4) - 10 * (kind // 64) for step in (1, 4, 16))


def class_name(kind):
    return ASPRS[kind][0] if kind in ASPRS else ""


def class_of_red(red):
    """The class with this red: 107 * 67 is 1 modulo 256."""
    return 107 * (red - 64) % 256


def number(plane):
    return int.from_bytes(plane, "big")


def read_ppm(data, name):
    """The pixels of a binary PPM with maxval 255; black ones show no record."""
    begins = PPM.match(data)
    if not begins:
        raise Wrong(f"{name}: no binary PPM with maxval 255" if data else f"{name}: empty, no picture")
    width, height = int(begins[1]), int(begins[2])
    pixels = data[begins.end() :]
    if width * height == 0 or len(pixels) != 3 * width * height:
        raise Wrong(f"{name}: {width} by {height} pixels need {3 * width * height} bytes, and {len(pixels)} are there")
    planes = [pixels[at::3] for at in range(3)]
    any_bit = number(planes[0]) | number(planes[1]) | number(planes[2])
    shown = any_bit.to_bytes(width * height, "big").translate(b"\0" + b"\xff" * 255)
    return Pixels(width, height, planes, shown)


def check_palette(picture, name):
    """Refuses a picture with a pixel that has no class's colour."""
    mask = number(picture.shown)
    for at in (1, 2):
        table = bytes(program_colour(class_of_red(red))[at] for red in range(256))
        wanted = (number(picture.planes[0].translate(table)) & mask).to_bytes(len(picture.shown), "big")
        if wanted != picture.planes[at]:
            odd = next(k for k in range(len(wanted)) if wanted[k] != picture.planes[at][k])
            colour = "".join(f"{plane[odd]:02X}" for plane in picture.planes)
            row, column = divmod(odd, picture.width)
            raise Wrong(f"{name}: column {column}, row {row} has {colour}, which is no class's colour")


def counts(picture):
    """The pixels of each class that shows, and at last those that show none."""
    here = {class_of_red(red): picture.planes[0].count(bytes([red])) for red in range(256)}
    black = picture.shown.count(0)
    # Class 64 has no red, as the pixels that show none.
    here[64] -= black
    return {kind: here[kind] for kind in sorted(here) if here[kind]}, black


def recolour(picture):
    """The picture with the usual colour of each class; what shows no record stays."""
    mask = number(picture.shown)
    planes = []
    for at in range(3):
        table = bytes(asprs_colour(class_of_red(red))[at] for red in range(256))
        planes.append((number(picture.planes[0].translate(table)) & mask).to_bytes(len(picture.shown), "big"))
    return Pixels(picture.width, picture.height, planes, picture.shown)


def widen(picture, size):
    """Each shown pixel as a square of this odd size, cut at the edges.

    A pixel that shows a record stays. One that doesn't gets the colour of the nearest one in whose square
    it lies, and of several as near the one that comes first, row by row.
    """
    half = size // 2
    steps = [(down, right) for down in range(-half, half + 1) for right in range(-half, half + 1)]
    steps.sort(key=lambda step: step[0] ** 2 + step[1] ** 2)
    width, height, bits = picture.width, picture.height, 8 * picture.width
    rows = [[number(plane[y * width : (y + 1) * width]) for y in range(height)] for plane in [*picture.planes, picture.shown]]
    whole = (1 << bits) - 1
    made = [[], [], [], []]
    for y in range(height):
        row, free = [0, 0, 0, 0], whole
        for down, right in steps:
            if 0 <= y + down < height:
                # The pixel `right` columns on comes here: its byte is lower in the number of the row.
                from_row = [moved(plane[y + down], 8 * right, whole) for plane in rows]
                taken = from_row[3] & free
                row = [have | new & taken for have, new in zip(row, from_row)]
                free &= ~taken
        for plane, new in zip(made, row):
            plane.append(new.to_bytes(width, "big"))
    planes = [b"".join(plane) for plane in made]
    return Pixels(width, height, planes[:3], planes[3])


def moved(row, left, whole):
    """A row moved so many bits to the left, or to the right where that is below 0."""
    return row << left & whole if left >= 0 else row >> -left


def with_background(picture, colour):
    """The picture with this colour, three bytes, where it shows no record."""
    empty = picture.shown.translate(bytes(255 - at for at in range(256)))
    planes = []
    for plane, byte in zip(picture.planes, colour):
        filled = number(plane) | number(empty.translate(bytes(byte & at for at in range(256))))
        planes.append(filled.to_bytes(len(plane), "big"))
    return Pixels(picture.width, picture.height, planes, picture.shown)


def chunk(kind, content):
    return struct.pack(">I", len(content)) + kind + content + struct.pack(">I", zlib.crc32(kind + content))


def png(picture):
    """The picture as a PNG: 8 bits for each of red, green and blue."""
    width, height = picture.width, picture.height
    pixels = bytearray(3 * width * height)
    for at in range(3):
        pixels[at::3] = picture.planes[at]
    # Each row of a PNG begins with the number of its filter; 0 is none.
    rows = b"".join(b"\0" + pixels[3 * width * y : 3 * width * (y + 1)] for y in range(height))
    head = chunk(b"IHDR", struct.pack(">IIBBBBB", width, height, 8, 2, 0, 0, 0))
    return b"\x89PNG\r\n\x1a\n" + head + chunk(b"IDAT", zlib.compress(rows, 9)) + chunk(b"IEND", b"")
