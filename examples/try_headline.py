#!/usr/bin/env python3
"""Tries the whole program on the run that docs/parts/example.md works out by hand.

    python3 examples/try_headline.py

The survey, the two scripts and the journal are those of that page, and so is the output of the first
session. That of the second session is one of the three that the page allows. Ends with 1 where a file is
another, or where the program fails.
"""

import os
import re
import subprocess
import sys
import tempfile

from script_ends import Words, read_text

ROOT = os.path.dirname(os.path.dirname(os.path.realpath(__file__)))
PAGE = os.path.join(ROOT, "docs", "parts", "example.md")
# Fields of the header that aren't 0: the rows of the page's first table.
ROW = re.compile(r"^\| (\d+) \| `([0-9A-F ]+)` \|", re.M)
HEADER = 227
# The class byte of record 0, before the edit and after it.
PLACE, AFTER = 242, 0x26


def block(text, name):
    found = re.search(rf"^```text {name}\n(.*?)^```$", text, re.M | re.S)
    if not found:
        sys.exit(f"try_headline.py: {PAGE} has no block {name}")
    return found.group(1)


def survey_of(text):
    header = bytearray(HEADER)
    for at, octets in ROW.findall(text.partition("### The scripts")[0]):
        for number, octet in enumerate(bytes.fromhex(octets)):
            header[int(at) + number] = octet
    return bytes(header) + bytes.fromhex(block(text, "records"))


def second_outputs(survey):
    """What the second session may be answered: both before the edit, one of them, or none."""
    edited = survey[:PLACE] + bytes([AFTER]) + survey[PLACE + 1 :]
    size = len(survey)
    return (
        b"COUNT 0 0\nFILE 0 %d\n" % size + survey,
        b"COUNT 0 0\nFILE 1 %d\n" % size + edited,
        b"COUNT 1 1\nFILE 1 %d\n" % size + edited,
    )


def main():
    Words(__doc__).parse_args()
    text = read_text(PAGE)
    survey = survey_of(text)
    with tempfile.TemporaryDirectory() as folder:
        files = {"three.las": survey, "in1": block(text, "in1").encode(), "in2": block(text, "in2").encode()}
        for name, content in files.items():
            with open(os.path.join(folder, name), "wb") as file:
                file.write(content)
        words = ["serve", "three.las", "1", "journal", "in1", "out1", "in2", "out2"]
        done = subprocess.run([os.path.join(ROOT, "hidrevca"), *words], cwd=folder)
        if done.returncode != 0:
            sys.exit(f"try_headline.py: status {done.returncode}")
        got = {name: open(os.path.join(folder, name), "rb").read() for name in ("journal", "out1", "out2")}
    if got["journal"] != block(text, "journal").encode():
        sys.exit(f"try_headline.py: another journal: {got['journal']!r}")
    if got["out1"] != bytes.fromhex(block(text, "out1")):
        sys.exit(f"try_headline.py: another output of session 1: {got['out1']!r}")
    if got["out2"] not in second_outputs(survey):
        sys.exit(f"try_headline.py: another output of session 2: {got['out2']!r}")
    print("the run of docs/parts/example.md is as worked out by hand")


main()
