#!/usr/bin/env python3
"""Prints what the header of a LAS 1.2, 1.3 or 1.4 survey says of metres.

    python3 examples/header.py SURVEY [--json]

SURVEY is a file, or `-` for standard input. The lines are

    LAS 1.{minor version}
    scale X Y Z       metres, or what the coordinate system counts in, of one unit of X, Y and Z
    offset X Y Z      the place of the unit 0
    bounds ..         least X Y Z, then greatest X Y Z, as the header has them
    crs ..            `none`; or `geotiff` and the EPSG code of its keys, where they have one;
                      or `wkt VLR` or `wkt EVLR`, and the text of the record in the lines below
"""

import json
import math
import struct
import sys
from typing import NamedTuple, Optional

from script_ends import Words, Wrong, run, standard_input
from survey_head import HEADER_SIZES, block_fault

WKT, GEOTIFF_KEYS = 2112, 34735
# Keys of GeoTIFF: the code of a projected system, and of a geographic one.
PROJECTED, GEOGRAPHIC = 3072, 2048
USER_DEFINED = 32767


class Header(NamedTuple):
    """The fields of the public header block that tell where the points lie, and the coordinate system."""

    minor: int
    form: int
    scale: tuple
    offset: tuple
    least: tuple
    greatest: tuple
    wkt: Optional[str]
    wkt_in: Optional[str]
    geotiff: bool
    epsg: Optional[int]


def piece(stream, size, what):
    """The next bytes of a file, which have to be there."""
    data = stream.read(size)
    if len(data) != size:
        raise Wrong(f"the file is cut within its {what}")
    return data


def skip(stream, size):
    if size >= 1 << 62:
        raise Wrong("a record is longer than any file")
    if stream.seekable():
        stream.seek(size, 1)
        return
    while size > 0:
        data = stream.read(min(size, 1 << 20))
        if not data:
            return
        size -= len(data)


def epsg_of(keys):
    """The EPSG code in a record of GeoTIFF keys: four numbers for each key, after four of the record's."""
    numbers = struct.unpack_from(f"<{len(keys) // 2}H", keys)
    told = {}
    for at in range(4, len(numbers) - 3, 4):
        key, elsewhere, _, value = numbers[at : at + 4]
        if not elsewhere and value not in (0, USER_DEFINED):
            told[key] = value
    return told.get(PROJECTED) or told.get(GEOGRAPHIC)


def note(crs, kind, user, number, data):
    """Notes a record of the coordinate system; the first of each kind counts."""
    if user.rstrip(b"\0") != b"LASF_Projection":
        return
    if number == WKT and "wkt" not in crs:
        crs["wkt"], crs["wkt_in"] = data.rstrip(b"\0").decode("utf-8", "replace"), kind
    if number == GEOTIFF_KEYS and "geotiff" not in crs:
        crs["geotiff"], crs["epsg"] = True, epsg_of(data)


def coordinate_system(stream, block):
    """What the VLRs, and the EVLRs of LAS 1.4, say of the coordinate system. The stream stands behind the header."""
    (size,) = struct.unpack_from("<H", block, 94)
    (vlrs,) = struct.unpack_from("<I", block, 100)
    crs, at = {}, size
    for k in range(vlrs):
        _, user, number, length, _ = struct.unpack("<H16sHH32s", piece(stream, 54, f"VLR {k}"))
        note(crs, "VLR", user, number, piece(stream, length, f"VLR {k}"))
        at += 54 + length
    start, evlrs = struct.unpack_from("<QI", block, 235) if block[25] == 4 else (0, 0)
    if evlrs and start < at:
        raise Wrong(f"the first EVLR, at byte {start}, lies before the end of the VLRs")
    if evlrs:
        skip(stream, start - at)
    for k in range(evlrs):
        _, user, number, length, _ = struct.unpack("<H16sHQ32s", piece(stream, 60, f"EVLR {k}"))
        # Others may be as long as the waveforms of a whole survey.
        if number in (WKT, GEOTIFF_KEYS) and length < 1 << 30:
            note(crs, "EVLR", user, number, piece(stream, length, f"EVLR {k}"))
        else:
            skip(stream, length)
    return crs


def block_of(stream):
    """The public header block and what a longer header has behind it."""
    block = stream.read(227)
    if len(block) == 227:
        block += stream.read(HEADER_SIZES.get(block[25], 227) - 227)
    fault = block_fault(block)
    if fault:
        raise Wrong(f"no survey: {fault}")
    (size,) = struct.unpack_from("<H", block, 94)
    return block + piece(stream, size - len(block), "header")


def header_of(stream):
    """The header of a survey that is read from its beginning."""
    block = block_of(stream)
    scale, offset = struct.unpack_from("<3d", block, 131), struct.unpack_from("<3d", block, 155)
    # The greatest X stands first, then the least X, and so on.
    bounds = struct.unpack_from("<6d", block, 179)
    for axis, number in zip("XYZ", scale):
        if not math.isfinite(number) or number == 0:
            raise Wrong(f"the scale of {axis} is {number}")
    if not all(map(math.isfinite, offset + bounds)):
        raise Wrong("an offset or a bound of the header is no finite number")
    crs = {"wkt": None, "wkt_in": None, "geotiff": False, "epsg": None, **coordinate_system(stream, block)}
    return Header(block[25], block[104] & 0x7F, scale, offset, bounds[1::2], bounds[::2], **crs)


def read_header(name):
    """The header of a survey by its name, `-` for standard input."""
    try:
        if name == "-":
            return header_of(standard_input())
        with open(name, "rb") as stream:
            return header_of(stream)
    except OSError as fault:
        raise Wrong(f"{name}: {fault.strerror}") from None
    except Wrong as fault:
        raise Wrong(f"{'standard input' if name == '-' else name}: {fault}") from None


def text_of(header):
    lines = [f"LAS 1.{header.minor}"]
    bounds = header.least + header.greatest
    for what, numbers in (("scale", header.scale), ("offset", header.offset), ("bounds", bounds)):
        lines.append(" ".join([what, *map(repr, numbers)]))
    if header.wkt is not None:
        lines += [f"crs wkt {header.wkt_in}", header.wkt]
    elif header.geotiff:
        lines.append(f"crs geotiff EPSG:{header.epsg}" if header.epsg else "crs geotiff")
    else:
        lines.append("crs none")
    return "\n".join(lines)


def json_of(header):
    fields = {"version": f"1.{header.minor}", **header._asdict()}
    return json.dumps({name: value for name, value in fields.items() if name not in ("minor", "form")})


def main(args):
    parser = Words(__doc__)
    parser.add_argument("survey", metavar="SURVEY")
    parser.add_argument("--json", action="store_true", help="the same as one line of JSON")
    words = parser.parse_args(args)
    header = read_header(words.survey)
    print(json_of(header) if words.json else text_of(header))


if __name__ == "__main__":
    run(lambda: main(sys.argv[1:]), "header.py")
