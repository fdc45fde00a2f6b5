#!/usr/bin/env python3
"""Makes damaged copies of a file, the same ones for the same seed.

    python3 examples/damage.py FILE COPIES SEED FOLDER

FILE may be `-`, for standard input. Writes FOLDER/damaged-0.las and on, and prints what was done to each: cut short, bytes changed,
a field of the header set to an extreme, bytes put in or taken out. A reader of LAS files answers
each by a picture or by the fault that it names, and by nothing else. Of a file of LAS 1.2 or 1.3 the
fields of LAS 1.4 alone are left as they are.
"""

import random
from pathlib import Path

from script_ends import Words, Wrong, read_bytes, run

# Fields of the public header block that say where things are: name, offset, bytes.
FIELDS = [
    ("file signature", 0, 4),
    ("version major", 24, 1),
    ("version minor", 25, 1),
    ("header size", 94, 2),
    ("offset to point data", 96, 4),
    ("number of VLRs", 100, 4),
    ("point data record format", 104, 1),
    ("point data record length", 105, 2),
    ("legacy number of point records", 107, 4),
]

# Those of LAS 1.4 alone.
FIELDS_OF_1_4 = [
    ("start of first EVLR", 235, 8),
    ("number of EVLRs", 243, 4),
    ("number of point records", 247, 8),
]


def cut(data, pick):
    at = pick.randrange(len(data) + 1)
    return data[:at], f"cut to {at} bytes"


def change(data, pick):
    copy = bytearray(data)
    places = sorted(pick.sample(range(len(copy)), min(len(copy), pick.randint(1, 8))))
    for at in places:
        copy[at] ^= pick.randint(1, 255)
    return bytes(copy), f"bytes changed at {', '.join(map(str, places))}"


def set_field(data, pick):
    fields = FIELDS + FIELDS_OF_1_4 if data[25:26] == b"\4" else FIELDS
    name, at, size = pick.choice(fields)
    most = (1 << (8 * size)) - 1
    here = int.from_bytes(data[at : at + size], "little")
    value = pick.choice([0, 1, most, most // 2, most // 2 + 1, max(here - 1, 0), min(here + 1, most), pick.randint(0, most)])
    return data[:at] + value.to_bytes(size, "little") + data[at + size :], f"{name} set to {value}"


def put_in(data, pick):
    at = pick.randrange(len(data) + 1)
    more = pick.randbytes(pick.randint(1, 16))
    return data[:at] + more + data[at:], f"{len(more)} bytes put in at {at}"


def take_out(data, pick):
    at = pick.randrange(len(data) + 1)
    size = pick.randint(1, 16)
    return data[:at] + data[at + size :], f"up to {size} bytes taken out at {at}"


def main():
    parser = Words(__doc__)
    parser.add_argument("file", metavar="FILE")
    parser.add_argument("copies", metavar="COPIES", type=int)
    parser.add_argument("seed", metavar="SEED", type=int)
    parser.add_argument("folder", metavar="FOLDER")
    given = parser.parse_args()
    if given.copies < 0:
        parser.error("COPIES is 0 or more")
    copies, seed, folder = given.copies, given.seed, Path(given.folder)
    data = read_bytes(given.file)
    if not data:
        raise Wrong(f"{given.file}: empty")
    folder.mkdir(parents=True, exist_ok=True)
    pick = random.Random(seed)
    for i in range(copies):
        damaged, what = pick.choice([cut, change, set_field, set_field, put_in, take_out])(data, pick)
        name = f"damaged-{i}.las"
        (folder / name).write_bytes(damaged)
        print(name, what)


if __name__ == "__main__":
    run(main, "damage.py")
