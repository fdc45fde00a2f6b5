#!/usr/bin/env python3
"""Assembles small LAS files, field by field, from the tables of LAS 1.2, 1.3 and 1.4 R15.

    python3 examples/assemble.py FOLDER

writes into FOLDER, for each point data record format 0 to 10 of LAS 1.4,

    formatN.las        points alone, straight after the header
    formatN-full.las   VLRs (the WKT of a coordinate system, extra bytes; in formats with waveforms
                       a waveform packet descriptor), a gap before the points, extra bytes in each
                       record, EVLRs, and bytes after the last of them

for each format 0 to 3 of LAS 1.2 and 0 to 5 of LAS 1.3,

    las12-formatN.las, las13-formatN.las             points alone, straight after the header
    las12-formatN-full.las, las13-formatN-full.las   VLRs (keys of a coordinate system, a text; in
                       formats with waveforms a waveform packet descriptor), a gap before the
                       points, extra bytes in each record, and bytes after the points (in formats
                       with waveforms the waveform packets)

and prints each name with its length. It shares nothing with the program: what it writes shows that
the program reads the standard's files. The coordinates, classes and colours of point i are stated
by `Point`.
"""

import struct
from pathlib import Path

from script_ends import Words, run

# Bytes of the public header block, and formats, of each minor version.
HEADER_SIZES = {2: 227, 3: 235, 4: 375}
FORMATS_OF = {2: range(4), 3: range(6), 4: range(11)}
POINTS = 5
GAP = 7
TAIL = b"after"

# Which parts a format has: (the parts of formats 6 to 10, GPS time, RGB, NIR, waveform packets).
FORMATS = {
    0: (False, False, False, False, False),
    1: (False, True, False, False, False),
    2: (False, False, True, False, False),
    3: (False, True, True, False, False),
    4: (False, True, False, False, True),
    5: (False, True, True, False, True),
    6: (True, True, False, False, False),
    7: (True, True, True, False, False),
    8: (True, True, True, True, False),
    9: (True, True, False, False, True),
    10: (True, True, True, True, True),
}

# Point data record lengths of the standard, to check the records against.
LENGTHS = {0: 20, 1: 28, 2: 26, 3: 34, 4: 57, 5: 63, 6: 30, 7: 36, 8: 38, 9: 59, 10: 67}

GEO_KEYS = struct.pack("<4H", 1, 1, 0, 0)
WKT = b'LOCAL_CS["example",UNIT["metre",1.0]]\0'

GPS_TIME_IS_STANDARD = 1 << 0
WAVEFORMS_INSIDE = 1 << 1
CRS_IS_WKT = 1 << 4


class Point:
    """Point i of an example: a diagonal that rises, whose class and colour change from point to point."""

    def __init__(self, i):
        self.x, self.y, self.z = 100 * i, -50 * i, 10 * i + 5
        self.intensity = 640 * i
        self.classification = (2, 6, 9, 5, 1)[i % 5]
        self.withheld = i % 5 == 4
        self.gps_time = 1000.0 + i
        self.rgb = (256 * i, 255, 65535 - i)
        self.nir = 300 + i


def text(characters, size):
    """A text of the standard: filled up to its size with zeros."""
    data = characters.encode("ascii")
    assert len(data) <= size
    return data.ljust(size, b"\0")


def record(number, point, extra):
    """The bytes of one point data record."""
    extended, has_time, has_rgb, has_nir, has_waveform = FORMATS[number]
    data = struct.pack("<iiiH", point.x, point.y, point.z, point.intensity)
    return_number, returns = 1, 1
    if extended:
        flags = int(point.withheld) << 2
        data += struct.pack("<BB", return_number | returns << 4, flags)
        # Classification, user data, scan angle in steps of 0.006 degrees, point source id.
        data += struct.pack("<BBhH", point.classification, 0, -1500, 1)
    else:
        data += struct.pack("<B", return_number | returns << 3)
        data += struct.pack("<B", point.classification | int(point.withheld) << 7)
        # Scan angle rank in degrees, user data, point source id.
        data += struct.pack("<bBH", -9, 0, 1)
    if has_time:
        data += struct.pack("<d", point.gps_time)
    if has_rgb:
        data += struct.pack("<HHH", *point.rgb)
    if has_nir:
        data += struct.pack("<H", point.nir)
    if has_waveform:
        # Descriptor index, offset to the waveform data, packet size, location, and X(t), Y(t), Z(t).
        data += struct.pack("<BQIffff", 1, 60, 4, 0.5, 0.0, 0.0, 1.0)
    assert len(data) == LENGTHS[number]
    return data + extra


def vlr(user, number, data, description=""):
    """A variable length record."""
    header = struct.pack("<H", 0) + text(user, 16) + struct.pack("<HH", number, len(data))
    return header + text(description, 32) + data


def evlr(user, number, data, description=""):
    """An extended variable length record."""
    header = struct.pack("<H", 0) + text(user, 16) + struct.pack("<HQ", number, len(data))
    return header + text(description, 32) + data


def extra_bytes_descriptor(name, description):
    """One descriptor of the extra bytes record: an unsigned short without further options."""
    data = struct.pack("<HBB", 0, 3, 0) + text(name, 32) + bytes(4)
    # No data, min, max, scale and offset, each of three numbers of 8 bytes.
    return data + bytes(5 * 24) + text(description, 32)


def waveform_descriptor():
    """A waveform packet descriptor: 8 bits a sample, uncompressed, 4 samples."""
    return struct.pack("<BBIIdd", 8, 0, 4, 1000, 1.0, 0.0)


def encoding_of(minor, number, waveforms_at):
    """The global encoding."""
    _, has_time, _, _, has_waveform = FORMATS[number]
    encoding = CRS_IS_WKT if minor == 4 else 0
    if has_time:
        encoding |= GPS_TIME_IS_STANDARD
    if has_waveform and waveforms_at:
        encoding |= WAVEFORMS_INSIDE
    return encoding


def header(minor, number, length, points, vlrs, points_at, evlrs=0, evlrs_at=0, waveforms_at=0):
    """The public header block of LAS 1.minor."""
    count = 0 if FORMATS[number][0] else len(points)
    data = b"LASF" + struct.pack("<HH", 1, encoding_of(minor, number, waveforms_at))
    data += bytes(16)  # project id
    data += struct.pack("<BB", 1, minor)
    data += text("OTHER", 32) + text("assemble.py", 32)
    data += struct.pack("<HH", 1, 2024)
    data += struct.pack("<HII", HEADER_SIZES[minor], points_at, vlrs)
    data += struct.pack("<BH", number, length)
    data += struct.pack("<I5I", count, count, 0, 0, 0, 0)
    data += struct.pack("<3d", 0.01, 0.01, 0.01)
    data += struct.pack("<3d", 0.0, 0.0, 0.0)
    for axis in ("x", "y", "z"):
        values = [getattr(point, axis) * 0.01 for point in points]
        data += struct.pack("<dd", max(values), min(values))
    if minor >= 3:
        data += struct.pack("<Q", waveforms_at)
    if minor >= 4:
        data += struct.pack("<QI", evlrs_at, evlrs)
        data += struct.pack("<Q15Q", len(points), len(points), *[0] * 14)
    assert len(data) == HEADER_SIZES[minor]
    return data


def plain_file(minor, number):
    """A file with points alone."""
    points = [Point(i) for i in range(POINTS)]
    head = header(minor, number, LENGTHS[number], points, 0, HEADER_SIZES[minor])
    return head + b"".join(record(number, point, b"") for point in points)


def vlrs_of(minor, number):
    """The variable length records of a file with all parts."""
    if minor == 4:
        vlrs = [vlr("LASF_Projection", 2112, WKT, "coordinate system")]
        vlrs.append(vlr("LASF_Spec", 4, extra_bytes_descriptor("echo", "an example"), "extra bytes"))
    else:
        vlrs = [vlr("LASF_Projection", 34735, GEO_KEYS, "coordinate system")]
        vlrs.append(vlr("LASF_Spec", 3, b"an example\0", "text"))
    if FORMATS[number][4]:
        vlrs.append(vlr("LASF_Spec", 100, waveform_descriptor(), "waveform packets"))
    return vlrs


def full_file(minor, number):
    """A file with all parts that its version has."""
    has_waveform = FORMATS[number][4]
    points = [Point(i) for i in range(POINTS)]
    vlrs = vlrs_of(minor, number)
    before = b"".join(vlrs) + bytes(GAP)
    points_at = HEADER_SIZES[minor] + len(before)
    length = LENGTHS[number] + 2
    records = b"".join(record(number, point, struct.pack("<H", i)) for i, point in enumerate(points))
    assert len(records) == length * POINTS
    # A gap stands between the points and what follows them too.
    after_at = points_at + len(records) + GAP
    after = []
    if has_waveform:
        after.append(evlr("LASF_Spec", 65535, bytes([1, 2, 3, 4]), "waveform data packets"))
    waveforms_at = after_at if has_waveform else 0
    if minor == 4:
        after.append(evlr("example", 1, b"carried", "an example"))
        head = header(minor, number, length, points, len(vlrs), points_at, len(after), after_at, waveforms_at)
    else:
        head = header(minor, number, length, points, len(vlrs), points_at, waveforms_at=waveforms_at)
    return head + before + records + bytes(GAP) + b"".join(after) + TAIL


def main():
    parser = Words(__doc__)
    parser.add_argument("folder", metavar="FOLDER")
    folder = Path(parser.parse_args().folder)
    folder.mkdir(parents=True, exist_ok=True)
    for minor in HEADER_SIZES:
        front = "" if minor == 4 else f"las1{minor}-"
        for number in FORMATS_OF[minor]:
            for name, data in (
                (f"{front}format{number}.las", plain_file(minor, number)),
                (f"{front}format{number}-full.las", full_file(minor, number)),
            ):
                (folder / name).write_bytes(data)
                print(name, len(data))


if __name__ == "__main__":
    run(main, "assemble.py")
