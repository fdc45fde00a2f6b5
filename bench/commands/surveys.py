"""Two surveys of any size, which are the same bytes on every run: a terrain in scan order, and a cloud in random order."""

import collections
import itertools
import math
import operator
import os
import random
import struct
import sys
from array import array

from script_ends import Wrong

LENGTH, HEADER = 30, 375  # of a record of format 6, and of the header of LAS 1.4, in bytes
# Of 256 draws, how many give a class, and how many a withheld record.
CLASSES = bytes(2 if k < 150 else 5 if k < 210 else 6 if k < 230 else 1 + k % 9 for k in range(256))
WITHHELD = bytes(4 * (k < 16) for k in range(256))

# The side is that of the square which has all records from above.
Survey = collections.namedtuple("Survey", "name path records side")


def header(records):
    """The header of LAS 1.4, without bounds, which the program doesn't read."""
    block = bytearray(HEADER)
    block[0:4], block[24:26] = b"LASF", bytes((1, 4))
    struct.pack_into("<HHHIIBH", block, 90, 1, 2026, HEADER, HEADER, 0, 6, LENGTH)
    struct.pack_into("<3d", block, 131, 0.01, 0.01, 0.01)
    struct.pack_into("<Q", block, 247, records)
    return bytes(block)


def laid(columns, draws, count):
    """So many records: these columns of bytes at their places, and draws for intensity, flags and class."""
    block = bytearray((bytes(14) + b"\x11" + bytes(LENGTH - 15)) * count)
    drawn = draws.randbytes(4 * count)
    flags, classes = drawn[2 * count : 3 * count].translate(WITHHELD), drawn[3 * count :].translate(CLASSES)
    for place, column in {**columns, 12: drawn[:count], 13: drawn[count : 2 * count], 15: flags, 16: classes}.items():
        block[place::LENGTH] = column
    return block


def wave(place, period):
    """Arcs of a parabola, from 0 up to 32 and back."""
    at = place % period
    return at * (period - at) * 128 // (period * period)


def scan_order(records, draws):
    """A terrain, line by line: neighbours are 256 units apart, with up to 255 more in each coordinate."""
    line = math.isqrt(records - 1) + 1
    ground = bytes(wave(x, 700) + wave(x, 170) // 4 for x in range(line))
    places = array("H", range(line)).tobytes()
    for row in range(-(-records // line)):
        count = min(line, records - row * line)
        low = draws.randbytes(3 * count)
        columns = {0: low[:count], 1: places[: 2 * count : 2], 2: places[1 : 2 * count : 2]}
        columns |= {4: low[count : 2 * count], 5: bytes((row % 256,)) * count, 6: bytes((row // 256,)) * count}
        columns |= {8: low[2 * count :], 9: bytes(map(operator.add, ground[:count], itertools.repeat(wave(row, 900))))}
        yield laid(columns, draws, count)


def random_order(records, draws):
    """A cloud: each coordinate is drawn from 0 to 65535."""
    for first in range(0, records, 1 << 12):
        count = min(1 << 12, records - first)
        drawn = draws.randbytes(6 * count)
        yield laid({place: drawn[k * count : (k + 1) * count] for k, place in enumerate((0, 1, 4, 5, 8, 9))}, draws, count)


def surveys(folder, records):
    """Both surveys in a folder; one that is there with its length is taken as it is."""
    if sys.byteorder != "little":
        raise Wrong("surveys are made only on machines whose lowest byte comes first")
    line = math.isqrt(records - 1) + 1
    for name, made, side in (("scan order", scan_order, 256 * line), ("random order", random_order, 1 << 16)):
        path = os.path.join(folder, f"{name.replace(' ', '-')}-{records}.las")
        if not os.path.exists(path) or os.path.getsize(path) != HEADER + LENGTH * records:
            with open(path, "wb") as file:
                file.write(header(records))
                file.writelines(made(records, random.Random(records)))
        yield Survey(name, path, records, side)
