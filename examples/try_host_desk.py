#!/usr/bin/env python3
"""Tries how the whole program reads and writes real files, pipes and devices, where only tests hold it.

    python3 examples/try_host_desk.py

Each case runs `hidrevca` in a folder of its own and compares its status, what it prints and every
file there with what docs/FORMATS.md says, worked out by hand. It prints a line for each case, and ends
with 1 at the first that is wrong. The program is built first, where it is missing.
"""

import fcntl
import os
import subprocess
import tempfile
import time

from real_runs import (
    CAMERA,
    CLASS_2,
    CLASS_6,
    EDIT,
    LONG,
    MANY,
    MANY_REPLIES,
    OLD,
    ONE,
    PROGRAM,
    TEXT,
    VIEW,
    WIDE,
    WIDE_CAMERA,
    WIDE_PICTURE,
    ROOT,
    built,
    case,
    survey,
    wrong,
)
from script_ends import Words

# How long a reply may take, in seconds.
PATIENCE = 60

# The program itself, which the launcher starts.
ITSELF = os.path.join(ROOT, "crates", "view_main", "out", "view_main")

# Another survey, which no run may write.
OTHER = survey([(1, 2, 3, 4), (5, 6, 7, 8)])


def outputs():
    """What is written: files that are there are cut, and none is appended to."""
    case("a picture in a new file", ["draw", "a", "b", *CAMERA], {"a": ONE}, after={"b": CLASS_2})
    case(
        "a longer file becomes the picture",
        ["draw", "a", "b", *CAMERA],
        {"a": ONE, "b": LONG},
        after={"b": CLASS_2},
    )
    case(
        "a shorter file becomes the picture",
        ["draw", "a", "b", *CAMERA],
        {"a": ONE, "b": b"P6"},
        after={"b": CLASS_2},
    )
    case(
        "a longer file behind a symbolic link becomes the picture",
        ["draw", "a", "b", *CAMERA],
        {"a": ONE, "old": LONG},
        after={"old": CLASS_2},
        links=[(os.symlink, "old", "b")],
    )
    case("a longer file becomes the text", ["info", "a", "t"], {"a": ONE, "t": LONG}, after={"t": TEXT})
    case(
        "longer files become the replies and the journal",
        ["serve", "a", "1", "j", "i", "o"],
        {"a": ONE, "i": EDIT + VIEW, "j": LONG, "o": LONG},
        after={"j": EDIT, "o": b"EDITED 1 1\nPICTURE 1 14\n" + CLASS_6},
    )
    case(
        "a session of no lines empties the older replies and journal",
        ["serve", "a", "1", "j", "i", "o"],
        {"a": ONE, "i": b"", "j": OLD, "o": LONG},
        after={"j": b"", "o": b""},
    )
    case(
        "a device may stand under two names",
        ["serve", "a", "1", "/dev/null", "i", "/dev/./null"],
        {"a": ONE, "i": EDIT},
    )


def inputs():
    """What is read: long files and pipes, whole and in order."""
    picture = {"b": WIDE_PICTURE}
    case("a long survey from a file", ["draw", "a", "b", *WIDE_CAMERA], {"a": WIDE}, after=picture)
    case("a long survey from a pipe", ["draw", "-", "b", *WIDE_CAMERA], {}, after=picture, stdin=WIDE)
    case(
        "a long survey from standard input that is a file",
        ["draw", "-", "b", *WIDE_CAMERA],
        {"a": WIDE},
        after=picture,
        stdin="a",
    )
    case(
        "a long survey and its picture through pipes",
        ["draw", "-", "-", *WIDE_CAMERA],
        {},
        out=WIDE_PICTURE,
        stdin=WIDE,
    )
    case("a text through pipes", ["info", "-", "-"], {}, out=TEXT, stdin=ONE)
    case(
        "a long script from a file",
        ["serve", "a", "1", "j", "i", "o"],
        {"a": ONE, "i": MANY},
        after={"j": MANY, "o": MANY_REPLIES},
    )
    case(
        "a long script and its replies through pipes",
        ["serve", "a", "1", "j", "-", "-"],
        {"a": ONE},
        after={"j": MANY},
        out=MANY_REPLIES,
        stdin=MANY,
    )
    case(
        "a survey from a pipe and a script from a file",
        ["serve", "-", "1", "-", "i", "o"],
        {"i": EDIT},
        after={"o": b"EDITED 1 1\n"},
        out=EDIT,
        stdin=ONE,
    )
    case(
        "a script from standard input, which is opened after standard output",
        ["serve", "a", "1", "j", "i", "-", "-", "o"],
        {"a": ONE, "i": EDIT},
        after={"j": EDIT, "o": b"REFUSED 1\n"},
        out=b"EDITED 1 1\n",
        stdin=b"save x\n",
    )
    # The system lets it be opened, and fails each read of its beginning.
    memory = "/proc/self/mem"
    case("a survey that can't be read", ["draw", memory, "b", *CAMERA], {"b": OLD}, 6, "cannot read word 1")
    case(
        "a script that can't be read",
        ["serve", "a", "1", "j", memory, "o"],
        {"a": ONE, "j": OLD, "o": OLD},
        6,
        "cannot read word 4",
        after={"j": b"", "o": b""},
    )


def devices():
    """Writing to a full device fails, and that is told."""
    full = "/dev/full"
    case("a picture on a full device", ["draw", "a", full, *CAMERA], {"a": ONE}, 9, "cannot write word 2")
    case("a long picture on a full device", ["draw", "a", full, *WIDE_CAMERA], {"a": WIDE}, 9, "cannot write word 2")
    case(
        "a picture on standard output that is full",
        ["draw", "a", "-", *CAMERA],
        {"a": ONE},
        9,
        "cannot write word 2",
        stdout=full,
    )
    case("a text on a full device", ["info", "a", full], {"a": ONE}, 9, "cannot write word 2")
    case(
        "replies on a full device, of which the first ends the session",
        ["serve", "a", "1", "j", "i", full],
        {"a": ONE, "i": EDIT + EDIT, "j": OLD},
        9,
        "cannot write word 5",
        after={"j": EDIT},
    )
    case(
        "a journal on a full device",
        ["serve", "a", "1", full, "i", "o"],
        {"a": ONE, "i": EDIT, "o": OLD},
        9,
        "cannot write word 3",
        after={"o": b"EDITED 1 1\n"},
    )


def sealed():
    """A regular file that the system doesn't let be cut: writing fails at the first byte, or at the keeping
    where none is given."""
    for name, words, at, files, after in (
        ("a picture", ["draw", "a", "{}", *CAMERA], 2, {}, {}),
        ("a reply", ["serve", "a", "1", "j", "i", "{}"], 5, {"i": EDIT, "j": OLD}, {"j": EDIT}),
        ("no reply", ["serve", "a", "1", "j", "i", "{}"], 5, {"i": b"", "j": OLD}, {"j": b""}),
        ("a journal", ["serve", "a", "1", "{}", "i", "o"], 3, {"i": EDIT}, {"o": b"EDITED 1 1\n"}),
        ("an empty journal", ["serve", "a", "1", "{}", "i", "o"], 3, {"i": b"", "o": OLD}, {"o": b""}),
    ):
        name = f"{name} in a file that can't be cut"
        file = os.memfd_create("old", os.MFD_ALLOW_SEALING)
        os.write(file, OLD)
        fcntl.fcntl(file, fcntl.F_ADD_SEALS, fcntl.F_SEAL_SHRINK)
        words = [word.replace("{}", f"/proc/self/fd/{file}") for word in words]
        case(name, words, {"a": ONE, **files}, 9, f"cannot write word {at}", after=after, handed=[file])
        left = os.pread(file, 100, 0)
        if left != OLD:
            wrong(name, "the file", OLD, left)
        os.close(file)


def dialogue():
    """What was written is there at once: each reply comes before the next line is sent."""
    talk = ((EDIT, b"EDITED 1 1\n"), (VIEW, b"PICTURE 1 14\n" + CLASS_6), (b"save x\n", b"REFUSED 1\n"))
    for name, out in (("standard output", "-"), ("a file", "o")):
        name = f"replies on {name}, each before the next line"
        with tempfile.TemporaryDirectory() as folder:
            with open(os.path.join(folder, "a"), "wb") as made:
                made.write(ONE)
            # Standard output is a file that is looked at while it grows, as the named one is.
            with open(os.path.join(folder, "printed"), "wb") as printed:
                words = [PROGRAM, "serve", "a", "1", "j", "-", out]
                child = subprocess.Popen(words, cwd=folder, stdin=subprocess.PIPE, stdout=printed)
            path, wanted = os.path.join(folder, "printed" if out == "-" else out), b""
            for line, reply in talk:
                child.stdin.write(line)
                child.stdin.flush()
                wanted += reply
                left = grown(path, len(wanted))
                if left != wanted:
                    wrong(name, "the replies", wanted, left)
            child.stdin.close()
            if child.wait(PATIENCE):
                wrong(name, "status", 0, child.returncode)
        print(f"ok: {name}")


def grown(path, length):
    """What a file holds once it has this many bytes, or what it holds after so long a wait."""
    held = b""
    for _ in range(PATIENCE * 100):
        if os.path.exists(path):
            with open(path, "rb") as file:
                held = file.read()
        if len(held) >= length:
            break
        time.sleep(0.01)
    return held


def led(name, words, files, streams, status=0, text="", after=None, program=PROGRAM):
    """One run whose standard streams a shell leads so. Files that `after` doesn't name have to stay; None is no file."""
    with tempfile.TemporaryDirectory() as folder:
        for file, data in files.items():
            with open(os.path.join(folder, file), "wb") as made:
                made.write(data)
        line = ["bash", "-c", f'"$0" "$@" {streams}', program, *words]
        done = subprocess.run(line, cwd=folder, stdin=subprocess.DEVNULL, capture_output=True, timeout=PATIENCE)
        told = done.stderr.decode("utf-8", "replace").splitlines()[:1]
        if (done.returncode, told) != (status, [text] if text else []):
            wrong(name, "status and standard error", (status, text), (done.returncode, told))
        if done.stdout:
            wrong(name, "standard output", b"", done.stdout)
        wanted = {**files, **(after or {})}
        for file in {*wanted, *os.listdir(folder)}:
            path = os.path.join(folder, file)
            left = open(path, "rb").read() if os.path.exists(path) else None
            if left != wanted.get(file):
                wrong(name, f"the file {file}", wanted.get(file), left)
    print(f"ok: {name}")


def surveys():
    """A file that begins as a survey isn't written, whatever name leads to it, and stays as it is."""
    both = {"a": ONE, "own": OTHER}
    serve = ["serve", "a", "1", "j", "i", "o"]
    lines = {**both, "i": EDIT, "j": OLD, "o": OLD}
    for name, words, files, at in (
        ("a picture", ["draw", "a", "own", *CAMERA], both, 2),
        ("a text", ["info", "a", "own"], both, 2),
        ("the text of a trial", ["trial", "5", "100", "1", "own"], both, 4),
        ("replies", [*serve[:5], "own"], lines, 5),
        ("a journal", [*serve[:3], "own", *serve[4:]], lines, 3),
    ):
        case(f"{name} under the name of a survey", words, files, 5, f"cannot open word {at}")
        for make in (os.symlink, os.link):
            linked = ["link" if word == "own" else word for word in words]
            links = [(make, "own", "link")]
            case(f"{name} under a link to a survey ({make.__name__})", linked, files, 5, f"cannot open word {at}", links=links)
    file = os.memfd_create("own")
    os.write(file, OTHER)
    case(
        "a text under the number of an open file that is a survey",
        ["info", "a", f"/proc/self/fd/{file}"],
        {"a": ONE},
        5,
        "cannot open word 2",
        handed=[file],
    )
    if os.pread(file, 1000, 0) != OTHER:
        wrong("a survey that is an open file", "the file", OTHER, os.pread(file, 1000, 0))
    os.close(file)
    led("a text behind a survey", ["info", "a", "-"], both, ">> own", 5, "cannot open word 2")
    led("a text over a survey", ["info", "a", "-"], both, "1<> own", 5, "cannot open word 2")
    for file in (b"LAS", b"LASf", b"ASFL", b"LASE" + OLD):
        case(f"a text in place of {file}", ["info", "a", "t"], {"a": ONE, "t": file}, after={"t": TEXT})


def streams():
    """A name that leads to what `-` was opened as is refused, and `-` where its file was opened by name."""
    files = {"a": ONE, "i": EDIT}
    reply = b"EDITED 1 1\n"
    led(
        "a journal that is standard output too",
        ["serve", "a", "1", "/dev/stdout", "i", "-"],
        files,
        "> log",
        5,
        "cannot open word 3",
        {"log": b""},
    )
    led(
        "standard output that is the replies too",
        ["serve", "a", "1", "-", "i", "/dev/stdout"],
        {**files, "log": OLD},
        ">> log",
        5,
        "cannot open word 3",
    )
    led("replies over the script of standard input", ["serve", "a", "1", "j", "-", "i"], files, "< i", 5, "cannot open word 5")
    led("replies of standard output behind the script", ["serve", "a", "1", "j", "i", "-"], files, ">> i", 5, "cannot open word 5")
    led(
        "replies of standard output behind a script of standard input",
        ["serve", "a", "1", "j", "-", "-"],
        files,
        "< i >> i",
        5,
        "cannot open word 5",
    )
    led(
        "a script of standard input that is written",
        ["serve", "a", "1", "j", "i", "o", "-", "p"],
        {**files, "o": OLD},
        "< o",
        5,
        "cannot open word 6",
    )
    led("a picture on standard output, the survey read twice", ["draw", "a", "-", *CAMERA], files, "< a > p", after={"p": CLASS_2})
    led("a picture of standard input", ["draw", "-", "-", *CAMERA], files, "< a > p", after={"p": CLASS_2})
    led("a picture under another name of standard output", ["draw", "a", "/dev/stdout", *CAMERA], files, "> p", after={"p": CLASS_2})
    led("a text behind an older one", ["info", "a", "-"], {**files, "t": OLD}, ">> t", after={"t": OLD + TEXT})
    led(
        "a survey of standard input that is read by name too",
        ["serve", "a", "1", "j", "-", "-"],
        files,
        "< i > o",
        after={"j": EDIT, "o": reply},
    )


def closed():
    """A standard stream that is closed can't be opened as `-`, and no file takes its place."""
    files = {"a": ONE, "i": EDIT}
    serve = ["serve", "a", "1", "j", "i", "o"]
    done = {"j": EDIT, "o": b"EDITED 1 1\n"}
    for program, how in ((PROGRAM, ""), (ITSELF, ", without the launcher")):

        def run(name, *given, **more):
            led(name + how, *given, program=program, **more)

        run("a picture on standard output that is closed", ["draw", "a", "-", *CAMERA], files, ">&-", 5, "cannot open word 2")
        run("a survey from standard input that is closed", ["draw", "-", "b", *CAMERA], files, "<&-", 5, "cannot open word 1")
        run("replies on standard output that is closed", [*serve[:5], "-"], files, ">&-", 5, "cannot open word 5")
        run("a journal on standard output that is closed", [*serve[:3], "-", *serve[4:]], files, ">&-", 5, "cannot open word 3", after={"o": b""})
        for closed_ones in ("<&-", ">&-", "2>&-", "<&- >&-", ">&- 2>&-", "<&- >&- 2>&-"):
            run(f"a session with streams closed ({closed_ones})", serve, files, closed_ones, after=done)
            run(f"a picture with streams closed ({closed_ones})", ["draw", "a", "b", *CAMERA], files, closed_ones, after={"b": CLASS_2})
        run("a fault that nobody is told of", [*serve[:3], "/dev/full", *serve[4:]], files, "<&- >&- 2>&-", 9, after={"o": done["o"]})


def limits():
    """A limit on the length of files is a failed write, and ends one session alone."""
    led(
        "a picture longer than a file may be",
        ["draw", "a", "b", *WIDE_CAMERA],
        {"a": WIDE},
        "",
        9,
        "cannot write word 2",
        {"b": WIDE_PICTURE[:8192]},
        program=bounded(8),
    )
    counts = b"count all show\n" * 9000
    name = "replies longer than a file may be, beside another session"
    with tempfile.TemporaryDirectory() as folder:
        for file, data in {"a": ONE, "i": counts, "k": EDIT}.items():
            with open(os.path.join(folder, file), "wb") as made:
                made.write(data)
        words = ["serve", "a", "1", "j", "i", "o", "k", "p"]
        done = subprocess.run(["bash", "-c", 'ulimit -f 16; "$0" "$@"', PROGRAM, *words], cwd=folder, capture_output=True, timeout=PATIENCE)
        left = {file: open(os.path.join(folder, file), "rb").read() for file in "jop"}
    if done.returncode != 9 or not done.stderr.startswith(b"cannot write word 5\n"):
        wrong(name, "status and standard error", (9, "cannot write word 5"), (done.returncode, done.stderr))
    wanted = {"j": EDIT, "o": 16384, "p": b"EDITED 1 1\n"}
    got = {**left, "o": len(left["o"])}
    if got != wanted:
        wrong(name, "the files", wanted, got)
    print(f"ok: {name}")


def bounded(blocks):
    """The launcher under a limit of so many KiB on what is written to a file."""
    path = os.path.join(tempfile.mkdtemp(), "bounded")
    with open(path, "w", encoding="utf-8") as script:
        script.write(f'#!/bin/bash\nulimit -f {blocks}\nrm -r -- "${{0%/*}}"\nexec "{PROGRAM}" "$@"\n')
    os.chmod(path, 0o755)
    return path


def unblocked():
    """A pipe that doesn't block is waited for."""
    name = "a script that comes late through a pipe that doesn't block"
    with tempfile.TemporaryDirectory() as folder:
        with open(os.path.join(folder, "a"), "wb") as made:
            made.write(ONE)
        reader, writer = os.pipe()
        os.set_blocking(reader, False)
        child = subprocess.Popen([PROGRAM, "serve", "a", "1", "j", "-", "-"], cwd=folder, stdin=reader, stdout=subprocess.PIPE)
        os.close(reader)
        for line in (EDIT, VIEW):
            time.sleep(0.5)
            os.write(writer, line)
        os.close(writer)
        out = child.communicate(timeout=PATIENCE)[0]
        if (child.returncode, out) != (0, b"EDITED 1 1\nPICTURE 1 14\n" + CLASS_6):
            wrong(name, "status and replies", 0, (child.returncode, out))
    print(f"ok: {name}")
    name = "a picture into a pipe that doesn't block and is read late"
    with tempfile.TemporaryDirectory() as folder:
        with open(os.path.join(folder, "a"), "wb") as made:
            made.write(WIDE)
        reader, writer = os.pipe()
        fcntl.fcntl(writer, fcntl.F_SETPIPE_SZ, 4096)
        os.set_blocking(writer, False)
        child = subprocess.Popen([PROGRAM, "draw", "a", "-", *WIDE_CAMERA], cwd=folder, stdout=writer)
        os.close(writer)
        time.sleep(1)
        with open(reader, "rb") as pipe:
            out = pipe.read()
        if (child.wait(PATIENCE), out) != (0, WIDE_PICTURE):
            wrong(name, "status and picture", 0, (child.returncode, len(out)))
    print(f"ok: {name}")


def twins():
    """An open file in memory and a file in the folder for shared memory that have one number on two devices, or none."""
    if not os.path.isdir("/dev/shm"):
        return None
    file = os.memfd_create("script")
    wanted, path = os.fstat(file), os.path.join(tempfile.mkdtemp(dir="/dev/shm"), "replies")
    for _ in range(300_000):
        if os.path.exists(path):
            os.unlink(path)
        made = os.open(path, os.O_CREAT | os.O_WRONLY)
        got = os.fstat(made)
        os.close(made)
        if got.st_ino == wanted.st_ino and got.st_dev != wanted.st_dev:
            return file, path
        if got.st_ino > wanted.st_ino:
            break
    os.unlink(path)
    os.rmdir(os.path.dirname(path))
    os.close(file)
    return None


def two_devices():
    """Files are told apart by their device too."""
    name = "a script and replies that have one number on two devices"
    found = twins()
    if found is None:
        print(f"not tried: {name}: this system has no such files")
        return
    file, path = found
    os.write(file, EDIT)
    case(name, ["serve", "a", "1", "j", f"/proc/self/fd/{file}", path], {"a": ONE}, after={"j": EDIT}, handed=[file])
    with open(path, "rb") as replies:
        left = replies.read()
    os.unlink(path)
    os.rmdir(os.path.dirname(path))
    os.close(file)
    if left != b"EDITED 1 1\n":
        wrong(name, "the replies", b"EDITED 1 1\n", left)


def main():
    Words(__doc__).parse_args()
    built()
    for cases in (outputs, inputs, devices, sealed, dialogue, surveys, streams, closed, limits, unblocked, two_devices):
        cases()


main()
