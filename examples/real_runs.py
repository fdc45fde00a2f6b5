"""What the tries of the whole program over real files share: surveys and what is drawn of them, and one
run in a folder of its own, of which the status, what it prints and every file are compared.
"""

import os
import struct
import subprocess
import sys
import tempfile
import threading
import time

ROOT = os.path.dirname(os.path.dirname(os.path.realpath(__file__)))
PROGRAM = os.path.join(ROOT, "hidrevca")
# What the launcher runs, for cases by the hundred.
BUILT = os.path.join(ROOT, "crates", "view_main", "out", "view_main")

# The words behind SURVEY and OUT: one pixel at the origin that looks along Z, by class.
CAMERA = "1 ortho 1 1 0 0 0 1 0 0 0 1 0 0 0 1 1 1 0 10 class all show".split()

# The picture of one pixel, which shows class 2 or class 6.
CLASS_2 = b"P6\n1 1\n255\n\xc6\x86\xfa"
CLASS_6 = b"P6\n1 1\n255\n\xd2\x92\x6e"

EDIT = b"edit 0 0 0 9 9 9 all 6\n"
VIEW = b"view ortho 1 1 0 0 0 1 0 0 0 1 0 0 0 1 1 1 0 10 class all show\n"
TEXT = (
    b"LAS 1.4\nheader 375\nformat 0\nlength 20\nrecords 1\nvlrs 0\nevlrs 0\nbytes 395\n"
    b"box 0 0 5 0 0 5\nclass 2 1\n"
)

# What an older file holds; LONG is longer than all that is written here but the large pictures.
OLD = b"as it was"
LONG = b"\xa5" * 100000


def survey(records):
    """A LAS 1.4 file of format 0 with these records (X, Y, Z, class byte)."""
    header = bytearray(375)
    header[0:4] = b"LASF"
    header[24:26] = bytes([1, 4])
    struct.pack_into("<HI", header, 94, 375, 375)
    struct.pack_into("<H", header, 105, 20)
    struct.pack_into("<Q", header, 247, len(records))
    points = [struct.pack("<iiiHBBBBH", x, y, z, 0, 0, c, 0, 0, 0) for x, y, z, c in records]
    return bytes(header) + b"".join(points)


ONE = survey([(0, 0, 5, 2)])


def colour(c):
    """Red, green and blue of a class."""
    return bytes([(67 * c + 64) % 256, (131 * c + 128) % 256, (29 * c + 192) % 256])


# A survey of 200 by 100 records, one at each pixel of the picture below, in classes from 0 to 31 by
# turns: 400,375 bytes.
WIDE = survey([(i % 200, i // 200, 5, i % 32) for i in range(20000)])
WIDE_CAMERA = "1 ortho 200 100 100 50 0 1 0 0 0 1 0 0 0 1 1 1 0 10 class all show".split()
WIDE_PICTURE = b"P6\n200 100\n255\n" + b"".join(colour(i % 32) for i in range(20000))

# 9,000 edits, which give the one record class 6 and class 7 by turns: 207,000 bytes.
MANY = b"".join(b"edit 0 0 0 9 9 9 all %d\n" % (6 + i % 2) for i in range(9000))
MANY_REPLIES = b"".join(b"EDITED %d 1\n" % (i + 1) for i in range(9000))

# The lengths of the pieces that go into a pipe, over and over.
PIECES = (1, 3, 4095, 65535, 7, 65537, 2, 131071, 333)


def wrong(name, what, wanted, got):
    """Tells of the first wrong case, and ends."""
    def short(value):
        text = repr(value)
        return text if len(text) <= 300 else f"{text[:300]}.. ({len(value)} long)"

    print(f"wrong: {name}: {what}\n  wanted {short(wanted)}\n  got    {short(got)}")
    sys.exit(1)


def feed(pipe, data):
    """Writes into a pipe, in odd pieces, some of them late."""
    at = 0
    try:
        for turn in range(len(data)):
            if at >= len(data):
                break
            length = PIECES[turn % len(PIECES)]
            pipe.write(data[at : at + length])
            pipe.flush()
            at += length
            if turn < 20:
                time.sleep(0.01)
    except BrokenPipeError:
        pass
    finally:
        pipe.close()


def run(folder, words, stdin, stdout=None, handed=(), program=PROGRAM):
    """Runs the program with these opened files, and gives its status and what it printed."""
    if isinstance(stdin, str):
        with open(os.path.join(folder, stdin), "rb") as source:
            done = subprocess.run([program, *words], cwd=folder, stdin=source, capture_output=True)
        return done.returncode, done.stdout, done.stderr
    sink = open(stdout, "wb") if stdout else subprocess.PIPE
    child = subprocess.Popen(
        [program, *words], cwd=folder, stdin=subprocess.PIPE, stdout=sink, stderr=subprocess.PIPE, pass_fds=handed
    )
    feeder = threading.Thread(target=feed, args=(child.stdin, stdin))
    feeder.start()
    child.stdin = None
    out, err = child.communicate()
    feeder.join()
    if stdout:
        sink.close()
    return child.returncode, out or b"", err


def case(name, words, files, status=0, text="", after=None, out=b"", stdin=b"", links=(), **how):
    """One run over these files and links. Files that `after` doesn't name have to stay."""
    with tempfile.TemporaryDirectory() as folder:
        for file, data in files.items():
            with open(os.path.join(folder, file), "wb") as made:
                made.write(data)
        for make, target, link in links:
            make(target if make is os.symlink else os.path.join(folder, target), os.path.join(folder, link))
        got, printed, told = run(folder, words, stdin, **how)
        line = text.encode() + b"\n" if text else b""
        # The launcher may say afterwards what the word is, which examples/test_launcher.py compares.
        more = told[len(line) :] if status else b""
        if more.startswith((b"word ", b"words ")) and told.startswith(line):
            told = line
        if (got, told) != (status, line):
            wrong(name, "status and standard error", (status, line), (got, told))
        if printed != out:
            wrong(name, "standard output", out, printed)
        for file, data in {**files, **(after or {})}.items():
            path = os.path.join(folder, file)
            left = open(path, "rb").read() if os.path.exists(path) else None
            if left != data:
                wrong(name, f"the file {file}", data, left)
        for make, target, link in links:
            if make is os.symlink and os.readlink(os.path.join(folder, link)) != target:
                wrong(name, f"the link {link}", target, os.readlink(os.path.join(folder, link)))
    print(f"ok: {name}")


def built():
    """Builds the program, where it is missing."""
    # Without words it is refused at once, with 2; a first run builds the program.
    done = subprocess.run([PROGRAM], stdout=subprocess.DEVNULL, stderr=subprocess.PIPE)
    if done.returncode != 2:
        sys.exit(f"the program can't be run: {done.stderr.decode('utf-8', 'replace')}")
