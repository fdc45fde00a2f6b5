#!/usr/bin/env python3
"""Tries the launcher `hidrevca` over a program that does what a test says, so it needs no build.

    python3 examples/test_launcher.py

Each run is made in a copy of the launcher's own files with a shell script in the place of the program.
`RIGHT` are words that look right, over which the launcher becomes the program; `WRONG` has a survey that
isn't there, so that the launcher stays beside it. Both have to be as the program alone.
"""

import os
import shutil
import signal
import subprocess
import sys
import tempfile
import threading
import time
import unittest

ROOT = os.path.dirname(os.path.dirname(os.path.realpath(__file__)))
RIGHT = ["info", "survey", "out"]
WRONG = ["info", "none", "out"]
FURTHER = b"word 1 is 'none': no such file\n"
PAIRS = [f"{end}{number}" for number in range(1, 17) for end in "io"]
SCRIPT = "the name of a script of at most 1048576 bytes, or - for standard input"
START = "a number from 0 to 18446744073709551615, of which the survey is made"
RECORDS = "how many records it has, a number from 0 to 8388608"
CAMERA = "1 ortho 1 1 0 0 0 1 0 0 0 1 0 0 0 1 1 1 0 10 class all show".split()


def default_signals():
    """What a shell gives its commands, whatever this test was begun with."""
    for number in (signal.SIGINT, signal.SIGQUIT, signal.SIGHUP, signal.SIGPIPE):
        signal.signal(number, signal.SIG_DFL)


class Launcher(unittest.TestCase):
    def setUp(self):
        tree = tempfile.TemporaryDirectory()
        self.addCleanup(tree.cleanup)
        self.root = os.path.realpath(tree.name)
        out = os.path.join(self.root, "crates", "view_main", "out")
        os.makedirs(out)
        os.makedirs(os.path.join(self.root, "crates", "x", "src"))
        shutil.copy(os.path.join(ROOT, "hidrevca"), self.root)
        shutil.copytree(os.path.join(ROOT, "launcher"), os.path.join(self.root, "launcher"))
        for name, text in (
            ("crates.txt", "x:\n"),
            ("survey", "LASF"),
            ("README.md", "- The toolchain `kit 1 logic 2`: its checker.\n"),
        ):
            self.write(name, text)
        self.program = os.path.join(out, "view_main")
        self.write(self.program, '#!/bin/sh\neval "$DOES"\n')
        os.chmod(self.program, 0o755)
        self.launcher = os.path.join(self.root, "hidrevca")

    def write(self, name, text):
        with open(os.path.join(self.root, name), "w", encoding="utf-8") as file:
            file.write(text)

    def start(self, words, does, command=None, prepare=default_signals, variables=(), **more):
        streams = {"stdin": subprocess.PIPE, "stdout": subprocess.PIPE, "stderr": subprocess.PIPE, **more}
        kept = {name: value for name, value in os.environ.items() if not name.startswith(("GLIBC_", "MALLOC_"))}
        environment = {**kept, "DOES": does, **dict(variables)}
        child = subprocess.Popen(
            [command or self.launcher, *words], cwd=self.root, env=environment, preexec_fn=prepare, **streams
        )
        # A run that hangs is a wrong one.
        limit = threading.Timer(60, child.kill)
        limit.daemon = True
        limit.start()
        self.addCleanup(limit.cancel)
        for pipe in (child.stdin, child.stdout, child.stderr):
            self.addCleanup(lambda pipe=pipe: pipe and not pipe.closed and pipe.close())
        return child

    def end(self, words, does, stdin=b"", **more):
        """The status, standard output and standard error of a run."""
        child = self.start(words, does, **more)
        out, err = child.communicate(stdin if child.stdin else None)
        return child.returncode, out, err

    def refused(self, words, text, status):
        """What the launcher says after a program that ends so."""
        got, out, err = self.end(words, f"echo '{text}' >&2; exit {status}")
        line = text.encode() + b"\n"
        self.assertEqual((got, out, err[: len(line)]), (status, b"", line))
        return err[len(line) :]


class Passing(Launcher):
    def test_each_status_is_the_programs(self):
        for status in (0, 2, 5, 11, 127):
            for words in (RIGHT, WRONG):
                # Of these the words only tell why a file can't be opened.
                further = FURTHER if status == 5 and words is WRONG else b""
                self.assertEqual(self.end(words, f"exit {status}"), (status, b"", further))

    def test_the_streams_are_the_programs(self):
        data = bytes(range(256)) * 1000
        for words, further in ((RIGHT, b""), (WRONG, FURTHER)):
            got = self.end(words, "cat; echo told >&2; exit 5", stdin=data)
            self.assertEqual(got, (5, data, b"told\n" + further))

    def test_the_words_are_the_programs(self):
        for words in (RIGHT, WRONG, ["a b", "", "*", "-n", "$x\n", "\\"]):
            got = self.end(words, r'printf "<%s>" "$@"; exit 3')
            self.assertEqual(got, (3, "".join(f"<{word}>" for word in words).encode(), b""))

    def test_descriptors_and_ignored_signals_are_those_of_the_program_alone(self):
        def ignore():
            default_signals()
            signal.signal(signal.SIGHUP, signal.SIG_IGN)

        # Read by the shell itself, since it blocks signals for a moment where it starts another program.
        does = (
            "ls /proc/$$/fd; while read -r name value; do case $name in Sig[BI]*) echo $name $value;; esac; done"
            " < /proc/$$/status"
        )
        for prepare in (default_signals, ignore):
            # The launcher lets no limit on the length of files end the program.
            limited = lambda prepare=prepare: (prepare(), signal.signal(signal.SIGXFSZ, signal.SIG_IGN))
            alone = self.end(WRONG, does, command=self.program, prepare=limited)
            for words in (RIGHT, WRONG):
                self.assertEqual(self.end(words, does, prepare=prepare), alone)

    def test_closed_streams_stay_closed(self):
        for words in (RIGHT, WRONG):
            for closed in (0, 1):
                does = f"[ ! -e /proc/$$/fd/{closed} ] || exit 1; exit 3"
                got = self.end(words, does, prepare=lambda: (default_signals(), os.close(closed)))
                self.assertEqual(got, (3, b"", b""))
            # Where standard error is closed bash has its script there, so only the rest is looked at.
            got = self.end(words, "cat; exit 5", stdin=b"data", prepare=lambda: (default_signals(), os.close(2)))
            self.assertEqual(got, (5, b"data", b""))

    def test_a_reader_that_went_away_ends_the_program(self):
        for words in (RIGHT, WRONG):
            child = self.start(words, "while :; do echo line; done")
            child.stdout.read(4)
            child.stdout.close()
            self.assertEqual((child.wait(), child.stderr.read()), (-signal.SIGPIPE, b""))

    def test_what_the_program_closes_is_closed(self):
        for words in (RIGHT, WRONG):
            child = self.start(words, "exec >&-; read line")
            # It ends while the program waits for the line.
            self.assertEqual(child.stdout.read(), b"")
            child.communicate(b"line\n")
            child = self.start(words, "exec 3>&1 <&- ; echo ready; while kill -0 $PPID; do sleep 0.01; done")
            child.stdout.readline()
            # The launcher closes its own end at about the same time.
            with self.assertRaises(BrokenPipeError):
                for _ in range(1000):
                    os.write(child.stdin.fileno(), b"line\n")
                    time.sleep(0.01)
            child.kill()
            child.wait()


class Allocator(Launcher):
    LARGE = "glibc.malloc.hugetlb=1"
    APART = "glibc.malloc.mmap_threshold=33554432"
    KEPT = "glibc.malloc.trim_threshold=134217728"

    def told(self, **variables):
        """What the program sees of the variables of the allocator, whichever way the launcher runs it."""
        found = [self.end(words, "env | grep -E '^(GLIBC|MALLOC)_' | sort; exit 3", variables=variables) for words in (RIGHT, WRONG)]
        self.assertEqual(found[0], found[1])
        self.assertEqual((found[0][0], found[0][2]), (3, b""))
        return found[0][1].decode().splitlines()

    def test_the_program_is_told_of_large_pages_and_of_what_to_keep(self):
        self.assertEqual(self.told(), [f"GLIBC_TUNABLES={self.LARGE}:{self.APART}:{self.KEPT}"])

    def test_a_users_own_tunables_stay(self):
        for value in ("glibc.malloc.arena_max=1", ""):
            self.assertEqual(self.told(GLIBC_TUNABLES=value), [f"GLIBC_TUNABLES={value}"])

    def test_a_users_own_thresholds_stay(self):
        # The C library would take the tunable where both are there.
        for name, left in (
            ("MALLOC_MMAP_THRESHOLD_", f"{self.LARGE}:{self.KEPT}"),
            ("MALLOC_TRIM_THRESHOLD_", f"{self.LARGE}:{self.APART}"),
            ("MALLOC_ARENA_MAX", f"{self.LARGE}:{self.APART}:{self.KEPT}"),
        ):
            self.assertEqual(self.told(**{name: "65536"}), [f"GLIBC_TUNABLES={left}", f"{name}=65536"])


class Signals(Launcher):
    def test_the_program_gets_a_signal_and_its_end_is_the_launchers(self):
        numbers = [signal.SIGTERM, signal.SIGINT, signal.SIGHUP, signal.SIGQUIT, signal.SIGUSR1, signal.SIGALRM]
        if shutil.which("setpriv"):
            numbers += [signal.SIGKILL, signal.SIGVTALRM]
        for number in numbers:
            for words in (RIGHT, WRONG):
                child = self.start(words, "ulimit -c 0; echo ready; read line")
                self.assertEqual(child.stdout.readline(), b"ready\n")
                child.send_signal(number)
                # Standard output ends where the program is gone.
                self.assertEqual((child.stdout.read(), child.wait(), child.stderr.read()), (b"", -number, b""))

    def test_a_program_that_catches_a_signal_goes_on(self):
        for words, further in ((RIGHT, b""), (WRONG, FURTHER)):
            child = self.start(words, "trap 'echo caught' TERM; trap 'exit 5' INT; echo ready; while :; do read l; done")
            child.stdout.readline()
            for _ in range(3):
                child.send_signal(signal.SIGTERM)
                self.assertEqual(child.stdout.readline(), b"caught\n")
            child.send_signal(signal.SIGINT)
            self.assertEqual((child.wait(), child.stderr.read()), (5, further))

    def test_a_program_that_a_signal_ends_ends_the_launcher(self):
        for number in (signal.SIGKILL, signal.SIGSEGV, signal.SIGINT):
            for words in (RIGHT, WRONG):
                got = self.end(words, f"ulimit -c 0; kill -{int(number)} $$")
                self.assertEqual(got, (-number, b"", b""))

    def test_an_ignored_signal_stays_ignored(self):
        def ignore():
            default_signals()
            signal.signal(signal.SIGHUP, signal.SIG_IGN)

        for words in (RIGHT, WRONG):
            child = self.start(words, "echo ready; read l; exit 3", prepare=ignore)
            child.stdout.readline()
            child.send_signal(signal.SIGHUP)
            child.communicate(b"line\n")
            self.assertEqual(child.returncode, 3)


class Words(Launcher):
    def test_a_word_that_is_missing(self):
        for words, at in (
            (["serve", "survey", "1", "j"], 4),
            (["serve", "survey", "1", "j", "i", "o", "i2"], 7),
            (["draw"], 1),
            (["info", "survey"], 2),
        ):
            further = self.refused(words, f"word {at} is not expected", 2)
            self.assertEqual(further, f"word {at} is missing\n".encode())

    def test_no_words_show_the_commands(self):
        further = self.refused([], "word 0 is not expected", 2).decode().splitlines()
        self.assertEqual(further[0], "word 0 is missing")
        self.assertEqual("\n".join(further[1:]) + "\n", self.end(["help"], "")[1].decode())

    def test_a_word_that_does_not_fit(self):
        for words, at, said in (
            (["frob"], 0, "'frob': no command; the commands are draw, info, serve and trial"),
            (["draw", "a", "b", "65"], 3, "'65', where WORKERS is wanted: a number from 1 to 64: how many draw side by side; the bytes are the same for each"),
            (["draw", "a", "b", *CAMERA, "x y"], 26, "'x y': the words of draw end before it"),
            (["draw", "a", "a", *CAMERA], 2, "'a', as word 1 is"),
            (["serve", "a", "1", "-", "i", "-"], 5, "'-', as word 3 is"),
            (["serve", "-", "1", "-", "-", "o"], 4, "'-', as word 1 is"),
            (["serve", "survey", "1", "j", "i", "o", "i"], 6, "'i', as word 4 is"),
            (["serve", "survey", "1", "j", "-", "-", "i", "-"], 7, "'-', as word 5 is"),
            (["serve", "survey", "1", "j", *PAIRS, "i17"], 36, "'i17': the words of serve end before it"),
            (["serve", "survey", "1", "j", "i", "o", ""], 6, "'', where IN is wanted: " + SCRIPT),
            (["serve", "1", "1", "j", "i", "1"], 5, "'1', as word 1 is"),
            (["serve", "survey", "1", "1", "i", "1"], 5, "'1', as word 3 is"),
            (["trial", "-1"], 1, f"'-1', where START is wanted: {START}"),
            (["trial", "5", "8388609", "1", "t"], 2, f"'8388609', where N is wanted: {RECORDS}"),
            (["trial", "1", "1", "1", "t", "t"], 5, "'t': the words of trial end before it"),
            (["trial", "1", "1", "1", ""], 4, "'', where OUT is wanted: the name of the summary, or - for standard output"),
            (["info", "", "b"], 1, "'', where SURVEY is wanted: the name of a LAS file, or - for standard input"),
            (["frob\x1b[2J"], 0, "$'frob\\E[2J': no command; the commands are draw, info, serve and trial"),
            (["grün"], 0, "'grün': no command; the commands are draw, info, serve and trial"),
        ):
            further = self.refused(words, f"word {at} is not expected", 2)
            self.assertEqual(further.decode(), f"word {at} is {said}\n")

    def test_a_word_that_is_not_utf8(self):
        # A lone byte, a cut letter, a surrogate, and a number above the greatest, at the second place.
        for word, said in (
            (b"\xff", b"\\377"),
            (b"a\xc3", b"a\\303"),
            (b"\xed\xa0\x80", b"\\355\\240\\200"),
            (b"\xf4\x90\x80\x80", b"\\364\\220\\200\\200"),
        ):
            further = self.refused([b"info", b"survey", word], "word 0 is not expected", 2)
            self.assertEqual(further, b"word 2 isn't UTF-8: $'" + said + b"'\n")

    def test_a_file_that_can_not_be_opened_or_read(self):
        os.symlink("survey", os.path.join(self.root, "link"))
        os.link(os.path.join(self.root, "survey"), os.path.join(self.root, "other name"))
        self.write("own", "LASF of another survey")
        os.symlink("own", os.path.join(self.root, "own link"))
        spared = "a survey, which stays as it is"
        for words, at, status, said in (
            (["info", "nope", "o"], 1, 5, "'nope': no such file"),
            (["info", "crates", "o"], 1, 6, "'crates': a folder"),
            (["draw", "survey", "none/o", *CAMERA], 2, 5, "'none/o': no such folder"),
            (["info", "survey", "./survey"], 2, 5, "'./survey': the file of word 1"),
            (["info", "survey", "link"], 2, 5, "'link': the file of word 1"),
            (["info", "survey", "other name"], 2, 5, "'other name': the file of word 1"),
            (["info", "survey", "own"], 2, 5, f"'own': {spared}"),
            (["draw", "survey", "own link", *CAMERA], 2, 5, f"'own link': {spared}"),
            (["trial", "1", "1", "1", "own"], 4, 5, f"'own': {spared}"),
            (["serve", "survey", "1", "own", "crates.txt", "o"], 3, 5, f"'own': {spared}"),
            (["serve", "survey", "1", "j", "crates.txt", "own"], 5, 5, f"'own': {spared}"),
            (["serve", "survey", "1", "j", "none", "o"], 4, 5, "'none': no such file"),
            (["serve", "survey", "1", "./o", "crates.txt", "o"], 3, 5, "'./o': the file of word 5"),
            (["serve", "survey", "1", "j", "crates.txt", "o", "none", "o2"], 6, 5, "'none': no such file"),
            (["serve", "survey", "1", "j", "crates.txt", "o", "README.md", "./o"], 7, 5, "'./o': the file of word 5"),
            (["serve", "survey", "1", "j", "crates.txt", "o", "./o", "o2"], 6, 5, "'./o': the file of word 5"),
            (["serve", "survey", "1", "j", "crates.txt", "o", "README.md", "./crates.txt"], 7, 5, "'./crates.txt': the file of word 4"),
            (["serve", "survey", "1", "./o2", "crates.txt", "o", "README.md", "o2"], 3, 5, "'./o2': the file of word 7"),
            (["serve", "survey", "1", "j", "crates.txt", "o", "crates", "o2"], 6, 6, "'crates': a folder"),
        ):
            verb = {5: "open", 6: "read"}[status]
            further = self.refused(words, f"cannot {verb} word {at}", status)
            self.assertEqual(further.decode(), f"word {at} is {said}\n")

    def test_a_standard_stream_that_is_closed(self):
        for words, at, closed, what in ((["info", "-", "o"], 1, 0, "input"), (["info", "survey", "-"], 2, 1, "output")):
            does = f"echo 'cannot open word {at}' >&2; exit 5"
            got = self.end(words, does, prepare=lambda: (default_signals(), os.close(closed)))
            said = f"cannot open word {at}\nword {at} is '-': standard {what} is closed\n"
            self.assertEqual(got, (5, b"", said.encode()))

    def test_a_standard_stream_that_leads_to_a_file_of_the_line(self):
        self.write("own", "LASF of another survey")
        serve = ["serve", "survey", "1", "j", "crates.txt"]
        for words, streams, at, said in (
            (["info", "-", "survey"], {"stdin": "survey"}, 2, "'survey': the file of word 1"),
            ([*serve, "-"], {"stdout": "crates.txt"}, 5, "'-': the file of word 4"),
            (["serve", "survey", "1", "/dev/stdout", "crates.txt", "-"], {"stdout": "README.md"}, 3, "'/dev/stdout': the file of word 5"),
            ([*serve, "o", "-", "o2"], {"stdin": "o"}, 6, "'-': the file of word 5"),
            (["info", "survey", "-"], {"stdout": "own"}, 2, "'-': a survey, which stays as it is"),
        ):
            self.write("o", "")
            opened = {name: open(os.path.join(self.root, file), "ab" if name == "stdout" else "rb") for name, file in streams.items()}
            child = self.start(words, f"echo 'cannot open word {at}' >&2; exit 5", **opened)
            told = child.communicate()[1]
            for file in opened.values():
                file.close()
            self.assertEqual((child.returncode, told.decode()), (5, f"cannot open word {at}\nword {at} is {said}\n"))

    def test_a_device_that_is_full_and_a_script_that_is_too_long(self):
        if os.path.exists("/dev/full"):
            further = self.refused(["info", "survey", "/dev/full"], "cannot write word 2", 9)
            self.assertEqual(further, b"word 2 is '/dev/full': a full device\n")
            words = ["serve", "survey", "1", "j", "README.md", "o", "crates.txt", "/dev/full"]
            self.assertEqual(self.refused(words, "cannot write word 7", 9), b"word 7 is '/dev/full': a full device\n")
        # 2^20 bytes are allowed, and one more isn't.
        for length, said in ((1 << 20, b""), ((1 << 20) + 1, b"word 4 is 'script': more than 1048576 bytes\n")):
            self.write("script", "#" * length)
            words = ["serve", "survey", "1", "j", "script", "o"]
            self.assertEqual(self.refused(words, "session input of word 4 is too long", 10), said)
        words = ["serve", "survey", "1", "j", "README.md", "o", "script", "o2"]
        said = b"word 6 is 'script': more than 1048576 bytes\n"
        self.assertEqual(self.refused(words, "session input of word 6 is too long", 10), said)

    def test_a_camera_number_out_of_range(self):
        # Word 5 is the first number; the pixels, of which there may be 9437184, are told as the nineteenth.
        for at, word, number, said in (
            (5, "4097", 1, "where W is wanted: the width in pixels, 1 to 4096"),
            (9, "-2147483649", 5, "where EZ is wanted: the eye, in the units of Z: -2147483648 to 2147483647"),
            (18, "32768", 14, "where FZ is wanted: forward: -32768 to 32767"),
            (20, "00000000000000000000", 16, "where T is wanted: the unit of depth, 1 to 1099511627776"),
            (22, "-1", 18, "where FAR is wanted: the greatest depth in view, NEAR to 4294967294"),
        ):
            words = ["draw", "survey", "o", *CAMERA]
            words[at] = word
            further = self.refused(words, f"camera number {number} is out of range: {word}", 3)
            self.assertEqual(further.decode(), f"word {at} is '{word}', {said}\n")
        words = ["draw", "survey", "o", *CAMERA]
        words[5:7] = "3073", "3072"
        further = self.refused(words, "camera number 19 is out of range: 9440256", 3)
        self.assertEqual(further, b"words 5 and 6 are '3073' and '3072': W times H is at most 9437184\n")
        # The greatest picture is drawn by the program in the launcher's place.
        words[5] = "3072"
        self.assertEqual(self.refused(words, "camera number 1 is out of range: 3072", 3), b"")

    def test_a_survey_that_is_empty_too_long_or_compressed(self):
        self.write("empty", "")
        self.write("a.LAZ", "LASF")
        # A file without content of its own takes no room.
        for length, name in (((1 << 30), "most"), ((1 << 30) + 1, "more")):
            with open(os.path.join(self.root, name), "wb") as file:
                file.truncate(length)
        laz = b"word 1 is 'a.LAZ': by its name compressed points, which aren't read; pdal translate and las2las make them plain\n"
        for name, text, status, said in (
            ("empty", "survey: only 0 bytes", 8, b"word 1 is 'empty': an empty file\n"),
            ("a.LAZ", "survey: compressed points, format byte 131", 8, laz),
            ("most", "survey is too long", 7, b""),
            ("more", "survey is too long", 7, b"word 1 is 'more': more than 1073741824 bytes\n"),
        ):
            self.assertEqual(self.refused(["info", name, "o"], text, status), said)

    def test_each_view_is_known(self):
        # Where the words look right the program is in the launcher's place, and nothing further is said.
        for kind, focal, near, colour, classes, withheld, looks_right in (
            ("persp", "1048576", "1", "rgb8", "2,5-6,007", "hide", True),
            ("ortho", "1099511627776", "0", "intensity", "0-255", "show", True),
            ("persp", "1048577", "1", "class", "all", "show", False),
            ("persp", "1", "0", "class", "all", "show", False),
            ("ortho", "1", "0", "class", "6-5", "show", False),
            ("ortho", "1", "0", "class", "256", "show", False),
            ("ortho", "1", "0", "class", "3,,4", "show", False),
        ):
            words = ["draw", "survey", "o", *CAMERA[:-3], colour, classes, withheld]
            words[4], words[19], words[21] = kind, focal, near
            further = self.refused(words, "word 26 is not expected", 2)
            self.assertEqual(further, b"" if looks_right else b"word 26 is missing\n", words)

    def test_each_number_of_sessions_is_known(self):
        for name in PAIRS[::2]:
            self.write(name, "")
        # Where the words look right the program is in the launcher's place, and nothing further is said.
        for pairs, looks_right in (
            (PAIRS[:2], True),
            (PAIRS[:6], True),
            (PAIRS, True),
            ([*PAIRS[:2], "-", "-"], True),
            ([*PAIRS[:-1], "/dev/null"], True),
            ([*PAIRS, "i17", "o17"], False),
            (PAIRS[:5], False),
            ([*PAIRS[:2], "i1", "o2"], False),
            ([*PAIRS[:2], "i2", "o1"], False),
            ([*PAIRS[:2], "i2", "survey"], False),
            ([*PAIRS[:2], "j", "o2"], False),
            ([*PAIRS[:2], "-", "o2", "-", "o3"], False),
        ):
            further = self.refused(["serve", "survey", "1", "j", *pairs], "word 99 is not expected", 2)
            self.assertEqual(further, b"" if looks_right else b"word 99 is missing\n", pairs)

    def test_near_with_zeros_before_it(self):
        for near, far, looks_right in (("08", "9", True), ("010", "10", True), ("-0", "0", True), ("010", "9", False)):
            words = ["draw", "survey", "o", *CAMERA]
            words[21:23] = near, far
            further = self.refused(words, "word 26 is not expected", 2)
            self.assertEqual(further, b"" if looks_right else b"word 26 is missing\n", words)

    def test_a_colouring_that_the_format_has_not(self):
        with open(os.path.join(self.root, "colourless"), "wb") as file:
            file.write(bytes(104) + b"\6")
        words = ["draw", "colourless", "o", *CAMERA[:-3], "rgb16", "all", "show"]
        further = self.refused(words, "format 6 has no colour", 4)
        self.assertEqual(further, b"word 23 is 'rgb16': point data record format 6 has no RGB\n")
        # Each format has intensity.
        words[23] = "intensity"
        self.assertEqual(self.refused(words, "format 6 has no colour", 4), b"")

    def test_each_number_of_a_trial_is_known(self):
        # Where the words look right the program is in the launcher's place, and nothing further is said.
        for start, records, workers, out, looks_right in (
            ("5", "100000", "4", "-", True),
            ("18446744073709551615", "8388608", "64", "t", True),
            ("-00", "-0", "007", "5", True),
            ("00000000000000000000", "00000000000008388608", "1", "t", True),
            ("18446744073709551616", "1", "1", "t", False),
            ("99999999999999999999", "1", "1", "t", False),
            ("000000000000000000001", "1", "1", "t", False),
            ("-1", "1", "1", "t", False),
            ("+1", "1", "1", "t", False),
            ("1", "8388609", "1", "t", False),
            ("1", "-1", "1", "t", False),
            ("1", "", "1", "t", False),
            ("1", "1", "0", "t", False),
            ("1", "1", "65", "t", False),
            ("1", "1", "1", "", False),
        ):
            words = ["trial", start, records, workers, out]
            further = self.refused(words, "word 99 is not expected", 2)
            self.assertEqual(further, b"" if looks_right else b"word 99 is missing\n", words)

    def test_the_file_of_a_trial(self):
        # What is there under the name of a number isn't looked at.
        os.mkdir(os.path.join(self.root, "5"))
        for out, verb, status, said in (
            ("none/t", "open", 5, "'none/t': no such folder"),
            ("crates", "open", 5, "'crates': a folder"),
            ("/dev/full", "write", 9, "'/dev/full': a full device"),
        ):
            further = self.refused(["trial", "5", "1", "1", out], f"cannot {verb} word 4", status)
            self.assertEqual(further.decode(), f"word 4 is {said}\n")
        self.assertEqual(self.refused(["trial", "5", "5", "5", "README.md"], "cannot open word 4", 5), b"")

    def test_another_status_than_the_word_would_give_says_nothing(self):
        for status in (7, 8, 9):
            self.assertEqual(self.end(WRONG, f"exit {status}"), (status, b"", b""))


class Help(Launcher):
    def test_help_needs_no_program(self):
        os.remove(self.program)
        for words in (["-h"], ["--help"], ["help"]):
            status, out, err = self.end(words, "")
            lines = out.decode().splitlines()
            self.assertEqual((status, err, lines[-1]), (0, b"", f"The guide: {self.root}/docs/GUIDE.md"))
            for start in (
                "  hidrevca draw SURVEY OUT WORKERS KIND W H ",
                "  ./hidrevca draw ",
                "  hidrevca serve SURVEY ",
                "  hidrevca trial START ",
            ):
                self.assertEqual(sum(line.startswith(start) for line in lines), 1)

    def test_the_help_of_a_command_has_each_word(self):
        for command, count in (("draw", 25), ("info", 2), ("serve", 5), ("trial", 4)):
            status, out, _ = self.end(["help", command], "")
            places = [line.split()[0] for line in out.decode().splitlines() if line[:5].strip().isdigit()]
            self.assertEqual((status, places), (0, [str(place) for place in range(1, count + 1)]))

    def test_help_for_what_is_no_command(self):
        for words in (["help", "frob"], ["help", "../x"], ["help", ""], ["help", "draw", "info"]):
            said = b"hidrevca: help is there for draw, info, serve and trial, one at a time\n"
            self.assertEqual(self.end(words, ""), (2, b"", said))

    def test_the_version_has_the_kit_of_readme_where_rt_is_not_there(self):
        folder = os.path.join(self.root, "bin")
        os.mkdir(folder)
        for name in ("bash", "env", "sed", "head", "dirname", "readlink"):
            os.symlink(shutil.which(name), os.path.join(folder, name))
        path = os.environ["PATH"]
        os.environ["PATH"] = folder
        try:
            self.assertEqual(self.end(["--version"], ""), (0, b"kit 1 logic 2\n", b""))
            self.write("bin/rt", "#!/bin/sh\necho kit 3; echo more\n")
            os.chmod(os.path.join(folder, "rt"), 0o755)
            os.symlink(shutil.which("sh", path=path), os.path.join(folder, "sh"))
            self.assertEqual(self.end(["--version"], ""), (0, b"kit 3\n", b""))
        finally:
            os.environ["PATH"] = path


if __name__ == "__main__":
    if sys.argv[1:] in (["-h"], ["--help"]):
        print(__doc__)
    else:
        unittest.main()
