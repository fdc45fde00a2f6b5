#!/usr/bin/env python3
"""Writes a sample survey: LAS 1.4, point data record format 0, one unit = 1 cm.

    python3 examples/terrain.py OUT.las

OUT.las may be `-`, for standard output; the line that counts the records goes to standard error then.

A valley of 960 m by 680 m. Ground (class 2) is measured on contour lines every 5 m, on a wide
grid between them and along the banks of a stream; the water gives no points. Buildings (class 6)
have walls and gable roofs, trees (class 5) are cones. Only sums, products, quotients and square
roots are used, so that each machine writes the same bytes.
"""

import array
import itertools
import math
import os
import signal
import struct
import sys
import time
from concurrent.futures import BrokenExecutor, ProcessPoolExecutor

from script_ends import Words, run, write_bytes

EAST, NORTH = 960, 680  # metres of ground
GROUND, TREE, BUILDING = 2, 5, 6
SCALE = 0.01  # metres in a unit of X, Y and Z
CONTOUR, INDEX_CONTOUR = 5, 25  # metres of height between contour lines, and between thick ones
GRID = 8  # metres between the measured ground points where no contour line runs
STREAM = 5  # metres from the middle of the stream to each bank
TREES = 220
BAND = 34  # rows that are made at a time
RECORD = struct.Struct("<3iHBBbBH")
# Between which contour lines, and which thick ones, a height of so many whole metres lies.
BETWEEN, BETWEEN_THICK = (bytes(metres // step for metres in range(256)) for step in (CONTOUR, INDEX_CONTOUR))

# Middle (x, y), half widths (x, y) and height of each hill, in metres.
HILLS = [
    (210, 500, 190, 150, 118),
    (330, 600, 120, 110, 40),
    (80, 230, 130, 170, 46),
    (800, 560, 170, 210, 96),
    (880, 330, 120, 120, 52),
    (700, 90, 200, 70, 20),
]
# South-west corner (x, y), size (x, y) and height of the walls of each building, in metres.
BUILDINGS = [
    (x, y, size_x, size_y, walls)
    for y, row in ((150, 0), (192, 1), (262, 2))
    for x, size_x, size_y, walls in (
        (300 + 9 * row, 18, 12, 6),
        (332 + 5 * row, 24, 14, 7),
        (372, 16, 22, 6),
        (404 - 3 * row, 28, 13, 8),
        (590 + 7 * row, 22, 14, 7),
        (630, 15, 20, 6),
        (662 + 4 * row, 26, 13, 7),
    )
] + [(322, 226, 14, 26, 12), (605, 226, 48, 18, 9)]


class Draws:
    """Numbers from 0 to below 1, the same on every machine."""

    def __init__(self, start):
        self.state = start

    def next(self):
        self.state = (6364136223846793005 * self.state + 1442695040888963407) % 2**64
        return (self.state >> 32) / 2**32


def wave(t):
    """Arcs of parabolas from 0 up to 1, down to -1 and back, with period 2."""
    t %= 2
    return 4 * t * (1 - t) if t < 1 else -4 * (t - 1) * (2 - t)


def square(t):
    return t * t


def stream_middle(y):
    return 500 + 46 * wave(y / 300) + 10 * wave(y / 110)


def column(x):
    """What the height of the ground takes from x alone: x, a term for each hill, and two of the unevenness."""
    return float(x), *(1 + square((x - at_x) / half_x) for at_x, _, half_x, _, _ in HILLS), x / 97, wave(x / 113) / 3


def heights(columns, y):
    """Heights of the ground in metres at these columns of a row. All bytes rest on the order of sums and products.

    The numbers are floats throughout: Python takes longer over an int among them.
    """
    v1, v2, v3, v4, v5, v6 = (square((y - at_y) / half_y) for _, at_y, _, half_y, _ in HILLS)
    t1, t2, t3, t4, t5, t6 = (float(top) for *_, top in HILLS)
    level, middle, tilt, row = 20 + y / 60, stream_middle(y), wave(y / 131) / 3, y / 83
    found = []
    for x, u1, u2, u3, u4, u5, u6, s, t in columns:
        far = (x - middle) / 70.0
        n1, n2, n3 = 1.0 / (u1 + v1), 1.0 / (u2 + v2), 1.0 / (u3 + v3)
        n4, n5, n6 = 1.0 / (u4 + v4), 1.0 / (u5 + v5), 1.0 / (u6 + v6)
        hills = t1 * n1 * n1 + t2 * n2 * n2 + t3 * n3 * n3 + t4 * n4 * n4 + t5 * n5 * n5 + t6 * n6 * n6
        # A small unevenness between -1 and 1, by two waves.
        s, t = (s + tilt) % 2.0, (row + t) % 2.0
        s = 4.0 * s * (1.0 - s) if s < 1.0 else -4.0 * (s - 1.0) * (2.0 - s)
        t = 4.0 * t * (1.0 - t) if t < 1.0 else -4.0 * (t - 1.0) * (2.0 - t)
        found.append(level + hills - 12.0 / (1.0 + far * far) + 2.0 * (0.5 * s + 0.5 * t))
    return found


def height(x, y):
    """Height of the ground in metres."""
    return heights([column(x)], y)[0]


def inside_building(x, y, margin):
    return any(
        at_x - margin <= x < at_x + size_x + margin and at_y - margin <= y < at_y + size_y + margin
        for at_x, at_y, size_x, size_y, _ in BUILDINGS
    )


def ground(rows):
    """The records of the ground's rows from one to below another."""
    # Two rows and columns more than the survey has, for the neighbours of its last metres.
    columns = [column(x) for x in range(EAST + 2)]
    places = [heights(columns, y) for y in range(rows[0], rows[1] + 2)]
    metres = [bytes(map(int, row)) for row in places]
    thin, thick = ([row.translate(table) for row in metres] for table in (BETWEEN, BETWEEN_THICK))
    found = []
    for k, y in enumerate(range(*rows)):
        # A contour line runs between here and a metre east or north, a thick one within two metres.
        sides = differing(thin[k], thin[k][1:], thin[k + 1]) | differing(thick[k], thick[k][2:], thick[k + 2])
        for x in itertools.compress(range(EAST), measured(y, bytearray(sides.to_bytes(EAST, "big")))):
            found.append(record(x, y, places[k][x], GROUND))
    return b"".join(found)


def differing(row, *others):
    """A row of bytes as one number, in which those aren't 0 where it differs from another row."""
    here, *there = (int.from_bytes(it[:EAST], "big") for it in (row, *others))
    return (here ^ there[0]) | (here ^ there[1])


def measured(y, on_contour):
    """Where a row is measured, of which this says where a contour line runs."""
    if y % GRID == 0:
        on_contour[::GRID] = b"\1" * len(on_contour[::GRID])
    middle = stream_middle(y)
    for x in range(int(middle) - STREAM - 3, int(middle) + STREAM + 4):
        off = abs(x - middle) - STREAM
        # The banks are, and the water isn't.
        if off < 1.5:
            on_contour[x] = off >= 0
    # Within two metres of a building nothing is.
    for at, south, long, wide, _ in BUILDINGS:
        if south - 2 <= y < south + wide + 2:
            on_contour[at - 2 : at + long + 2] = bytes(long + 4)
    return on_contour


def part(rows):
    """The records of some rows of the ground, or without rows those of buildings and trees."""
    return ground(rows) if rows else b"".join(record(*it) for it in (*buildings(), *trees()))


def side_by_side(bands):
    """The parts of these rows, made at the same time where there are processors for it."""
    count = len(os.sched_getaffinity(0)) if hasattr(os, "sched_getaffinity") else os.cpu_count() or 1
    if count > 1:
        try:
            # An interrupt ends this process, and with it the others.
            with ProcessPoolExecutor(count, initializer=signal.signal, initargs=(signal.SIGINT, signal.SIG_IGN)) as pool:
                return list(watched(pool.map(part, bands), len(bands)))
        except (ImportError, NotImplementedError, OSError, BrokenExecutor):
            pass
    return list(watched(map(part, bands), len(bands)))


def watched(parts, count):
    """The parts as they come; on a terminal each second says how many came."""
    last = time.monotonic()
    is_told = False
    for number, part in enumerate(parts, 1):
        yield part
        if time.monotonic() - last >= 1 and sys.stderr is not None and sys.stderr.isatty():
            last, is_told = time.monotonic(), True
            print(f"\rterrain.py: {100 * number // count} of 100", end="", file=sys.stderr, flush=True)
    if is_told:
        # The line goes again.
        print("\r\033[K", end="", file=sys.stderr, flush=True)


def buildings():
    for at_x, at_y, size_x, size_y, walls in BUILDINGS:
        foot = min(height(at_x + dx, at_y + dy) for dx in (0, size_x) for dy in (0, size_y))
        across, along = sorted((size_x, size_y))
        for i in range(along):
            for j in range(across):
                # The ridge runs along the longer side; it is left out, so that it shows as a line.
                if j != across // 2:
                    x, y = (i, j) if size_x > size_y else (j, i)
                    yield at_x + x, at_y + y, foot + walls + 0.6 * min(j + 1, across - j), BUILDING
        # The walls end below the eaves, so that a view from the side shows where the roof begins.
        for up in range(walls - 1):
            for x in range(size_x):
                for y in (0, size_y - 1) if 0 < x < size_x - 1 else range(size_y):
                    yield at_x + x, at_y + y, foot + up, BUILDING


def trees():
    draws, standing = Draws(2026), []
    while len(standing) < TREES:
        x, y, radius = draws.next() * EAST, draws.next() * NORTH, 3 + 2 * draws.next()
        # Woods stand on the flanks, rows of trees along the stream.
        wooded = 50 < height(x, y) < 85 or 10 < abs(x - stream_middle(y)) < 18
        free = all((x - a) ** 2 + (y - b) ** 2 > (radius + r) ** 2 for a, b, r in standing)
        if wooded and free and not inside_building(x, y, radius + 2):
            standing.append((x, y, radius))
    for x, y, radius in standing:
        top, reach = height(x, y) + 3 * radius, int(radius)
        for dx in range(-reach, reach + 1):
            for dy in range(-reach, reach + 1):
                off = math.sqrt(dx * dx + dy * dy)
                if off <= radius:
                    yield x + dx, y + dy, top - 2.4 * off, TREE
                    yield x + dx, y + dy, top - 2.4 * off - 1.2, TREE


def record(x, y, z, kind):
    east, north, up = math.floor(x / SCALE + 0.5), math.floor(y / SCALE + 0.5), math.floor(z / SCALE + 0.5)
    # Intensity 0; return 1 of 1; the class byte; scan angle, user data and point source id 0.
    return RECORD.pack(east, north, up, 0, 0b001001, kind, 0, 0, 0)


def survey(body):
    """The whole file: the public header block of 375 bytes, then the records of 20 bytes."""
    count, numbers = len(body) // RECORD.size, array.array("i", body)
    if sys.byteorder == "big":
        numbers.byteswap()
    bounds = []
    # A record has the room of five such numbers; the first three are X, Y and Z.
    for axis in range(3):
        bounds += [max(numbers[axis::5]) * SCALE, min(numbers[axis::5]) * SCALE]
    header = bytearray(375)
    header[0:4] = b"LASF"
    header[24:26] = bytes((1, 4))
    header[26:58] = b"sample".ljust(32, b"\0")
    header[58:90] = b"hidrevca examples/terrain.py".ljust(32, b"\0")
    struct.pack_into("<HHHIIBHI5I", header, 90, 1, 2026, 375, 375, 0, 0, 20, count, count, 0, 0, 0, 0)
    struct.pack_into("<3d3d6d", header, 131, *[SCALE] * 3, 0, 0, 0, *bounds)
    struct.pack_into("<QQIQ15Q", header, 227, 0, 0, 0, count, count, *[0] * 14)
    return bytes(header) + body


def main():
    parser = Words(__doc__)
    parser.add_argument("out", metavar="OUT.las")
    out = parser.parse_args().out
    # What has no rows takes longest, so it comes first.
    rest, *bands = side_by_side([None, *((y, min(y + BAND, NORTH)) for y in range(0, NORTH, BAND))])
    body = b"".join((*bands, rest))
    write_bytes(out, survey(body))
    print(f"{out}: {len(body) // RECORD.size} records", file=sys.stderr if out == "-" else sys.stdout)


if __name__ == "__main__":
    run(main, "terrain.py")
