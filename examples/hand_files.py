"""Small surveys that are put together by hand, byte by byte, for the tries of the whole program."""

import struct

from real_runs import survey

# Where a record of each format begins its class, its colours if it has any, and how long it is at least.
CLASS_AT = {number: 15 if number <= 5 else 16 for number in range(11)}
COLOUR_AT = {2: 20, 3: 28, 5: 28, 7: 30, 8: 30, 10: 30}
LENGTHS = {0: 20, 1: 28, 2: 26, 3: 34, 4: 57, 5: 63, 6: 30, 7: 36, 8: 38, 9: 59, 10: 67}


def patched(data, at, *octets):
    """These bytes, with others from this place on."""
    return data[:at] + bytes(octets) + data[at + len(octets) :]


def record(form, length, x, y, z, octet):
    """A record of this format and length, of which all else is 0."""
    return patched(struct.pack("<iii", x, y, z) + bytes(length - 12), CLASS_AT[form], octet)


def plain_of(form, *records):
    """A LAS 1.4 file of a format, with records of its least length straight after the header."""
    head = survey([])
    head = patched(head, 104, form, LENGTHS[form])
    head = patched(head, 247, *struct.pack("<Q", len(records)))
    return head + b"".join(record(form, LENGTHS[form], *each) for each in records)


def coloured():
    """A file of format 2 with one record at (0, 0, 5): class 2, withheld, intensity 640, colours 256, 255 and 65535."""
    data = plain_of(2, (0, 0, 5, 0x82))
    return patched(patched(data, 387, *struct.pack("<H", 640)), 395, *struct.pack("<HHH", 256, 255, 65535))


def gapped():
    """435 bytes without records: one VLR of 55 bytes, and five bytes before the place of the points."""
    head = patched(survey([]), 96, *struct.pack("<II", 435, 1))
    return head + patched(bytes(60), 20, 1)


def parts():
    """624 bytes with all parts: WKT bit, a VLR, three records of format 7 with four extra bytes, an EVLR, three bytes."""
    head = patched(survey([]), 6, 16)
    head = patched(head, 96, *struct.pack("<II", 437, 1))
    head = patched(head, 104, 7, 40)
    head = patched(head, 235, *struct.pack("<QIQ", 557, 1, 3))
    vlr = bytes(2) + b"LASF_Projection\0" + struct.pack("<HH", 2112, 8) + bytes(32) + b"\x11" * 8
    places = [(0, 0, 100, 1), (50, 0, 90, 1), (50, 50, 80, 2)]
    points = b"".join(record(7, 36, *each) + b"\x22" * 4 for each in places)
    evlr = bytes(18) + struct.pack("<HQ", 1, 4) + bytes(32) + b"\x33" * 4
    return head + vlr + points + evlr + b"\x44" * 3


def old(minor, *records):
    """A file of LAS 1.2 or 1.3 and format 0, whose header has 227 or 235 bytes, and its number of records at 107."""
    size = {2: 227, 3: 235}[minor]
    head = patched(b"LASF" + bytes(size - 4), 24, 1, minor)
    head = patched(head, 94, *struct.pack("<HI", size, size))
    head = patched(head, 105, *struct.pack("<HI", 20, len(records)))
    return head + b"".join(record(0, 20, *each) for each in records)
