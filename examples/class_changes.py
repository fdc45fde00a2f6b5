#!/usr/bin/env python3
"""Compares a saved survey with the one it was read from.

    python3 examples/class_changes.py [--table] READ SAVED

Ends with 0 where they differ in nothing but classes, and says how many records have another one, with
--table also from which class to which, a line for each pair; else it names the first byte that differs
and isn't a class's, and ends with 1. One of the two may be `-`, for standard input.
"""

import collections

from script_ends import Words, Wrong, read_bytes, run
from survey_head import class_bits, head

PIECE = 1 << 20


def differing(read, saved):
    """The place of each byte that differs; equal pieces are passed over at once."""
    for at in range(0, len(read), PIECE):
        if read[at : at + PIECE] != saved[at : at + PIECE]:
            yield from (k for k in range(at, min(at + PIECE, len(read))) if read[k] != saved[k])


def changes(read, saved, survey):
    """How many records went from each class to each other one."""
    place, bits = class_bits(survey.format)
    end = survey.start + survey.records * survey.length
    pairs = collections.Counter()
    for k in differing(read, saved):
        if not survey.start <= k < end or (k - survey.start) % survey.length != place or (read[k] ^ saved[k]) & ~bits:
            raise Wrong(f"byte {k} was {read[k]:02X} and is {saved[k]:02X}")
        pairs[read[k] & bits, saved[k] & bits] += 1
    return pairs


def main():
    parser = Words(__doc__)
    parser.add_argument("--table", action="store_true")
    parser.add_argument("read", metavar="READ")
    parser.add_argument("saved", metavar="SAVED")
    given = parser.parse_args()
    if given.read == given.saved == "-":
        parser.error("only one of READ and SAVED is -")
    read, saved = read_bytes(given.read), read_bytes(given.saved)
    survey = head(read, given.read)
    head(saved, given.saved)
    if len(read) != len(saved):
        raise Wrong(f"{len(read)} bytes were read and {len(saved)} saved")
    pairs = changes(read, saved, survey)
    print(f"{pairs.total()} of {survey.records} records have another class, and nothing else differs")
    for (before, after), count in sorted(pairs.items()) if given.table else ():
        print(f"from {before} to {after}: {count}")


if __name__ == "__main__":
    run(main, "class_changes.py")
