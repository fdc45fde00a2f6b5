"""Where the records of a LAS file lie, or what shows that a file is no survey.

The texts of the faults are those of the program (docs/FORMATS.md). What a header says of metres reads header.py.
"""

import collections
import struct

from script_ends import Wrong

HEADER_SIZES = {2: 227, 3: 235, 4: 375}
LEAST_LENGTHS = (20, 28, 26, 34, 57, 63, 30, 36, 38, 59, 67)

# Counts are of bytes and records.
Head = collections.namedtuple("Head", "start format length records")


def block_fault(data):
    """What is wrong with signature, version and size of the public header block that data begins with, if anything."""
    if len(data) < 227:
        return f"only {len(data)} bytes"
    if data[:4] != b"LASF":
        return "no LASF signature"
    major, minor = data[24], data[25]
    if major != 1 or minor not in HEADER_SIZES:
        return f"version {major}.{minor}"
    if len(data) < HEADER_SIZES[minor]:
        return f"only {len(data)} bytes"
    (size,) = struct.unpack_from("<H", data, 94)
    return f"header size {size}" if size < HEADER_SIZES[minor] else None


def head_fault(survey):
    """What is wrong with the block, with the format or with where the records begin, if anything."""
    fault = block_fault(survey)
    if fault:
        return fault
    form, (size, start), (length,) = survey[104], struct.unpack_from("<HI", survey, 94), struct.unpack_from("<H", survey, 105)
    if form >= 128:
        return f"compressed points, format byte {form}"
    if form > 10:
        return f"point format {form}"
    if length < LEAST_LENGTHS[form]:
        return f"record length {length}, least {LEAST_LENGTHS[form]}"
    return f"point offset {start}" if start < size else None


def head(survey, name):
    """Where the records of a whole survey lie, named for what is wrong with it."""
    fault = head_fault(survey)
    if fault:
        raise Wrong(f"{name} is no survey: {fault}")
    (start,), (length,) = struct.unpack_from("<I", survey, 96), struct.unpack_from("<H", survey, 105)
    # LAS 1.4 has a wider count beside that of LAS 1.2 and 1.3.
    (wide,) = struct.unpack_from("<Q", survey, 247) if survey[25] == 4 else (0,)
    records = wide or struct.unpack_from("<I", survey, 107)[0]
    need = start + records * length
    if need > len(survey):
        raise Wrong(f"{name} is no survey: points need {need} bytes, file has {len(survey)}")
    return Head(start, survey[104], length, records)


def class_bits(form):
    """The place of the class in a record, and its bits: LAS 1.4 R15, bits 0 to 4 of byte 15 in formats 0 to 5."""
    return (15, 0x1F) if form <= 5 else (16, 0xFF)
