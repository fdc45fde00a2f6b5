#!/usr/bin/env python3
"""Tests of play_sessions.py over a program that does what a test says.

    python3 examples/test_play.py
"""

import os
import subprocess
import sys
import tempfile
import unittest

import assemble

HERE = os.path.dirname(os.path.realpath(__file__))
# Opens the ends of two sessions in the order of the line.
OPENS = 'shift 4; exec 3<"$1" 4>"$2" 5<"$3" 6>"$4"\n'


class Plays(unittest.TestCase):
    def setUp(self):
        folder = tempfile.TemporaryDirectory()
        self.addCleanup(folder.cleanup)
        self.folder = folder.name
        with open(self.path("survey.las"), "wb") as file:
            file.write(assemble.plain_file(4, 6))

    def path(self, *names):
        return os.path.join(self.folder, *names)

    def play(self, play, does):
        """Status, standard output and standard error of a play with a program of these shell lines."""
        with open(self.path("program"), "w", encoding="ascii") as file:
            file.write(f"#!/bin/sh\n{does}\n")
        os.chmod(self.path("program"), 0o755)
        script = os.path.join(HERE, "play_sessions.py")
        words = ["--program", self.path("program"), "--workers", "3", "survey.las", "made", "-"]
        done = subprocess.run([sys.executable, "-S", script, *words], cwd=self.folder, input=play.encode(), capture_output=True, timeout=60)
        return done.returncode, done.stdout.decode(), done.stderr.decode()

    def kept(self, name):
        with open(self.path("made", name), "rb") as file:
            return file.read()

    def test_each_line_goes_to_its_session_when_the_one_before_has_its_reply(self):
        does = (
            f'printf "%s " "$@" >told; {OPENS}'
            "read -r a <&3; read -r b <&5; printf 'FILE 0 3\\nabc' >&6; read -r c <&3; echo REFUSED 1 >&4; read -r d <&5; echo COUNT 1 2 >&6; "
            'echo "$a;$b;$c;$d" >lines; exit 7'
        )
        status, printed, told = self.play("a \nb save\n\n  a  frob it\nb count 2 show\n", does)
        self.assertEqual((status, told), (7, ""))
        self.assertEqual(printed, "a (no reply)\nb FILE 0 3\na REFUSED 1\nb COUNT 1 2\n")
        self.assertEqual((self.kept("a.in"), self.kept("a.out")), (b"\nfrob it\n", b"REFUSED 1\n"))
        self.assertEqual((self.kept("b.in"), self.kept("b.out")), (b"save\ncount 2 show\n", b"FILE 0 3\nabcCOUNT 1 2\n"))
        self.assertEqual(self.kept("../lines"), b";save;frob it;count 2 show\n")
        words = self.kept("../told").decode().split()
        self.assertEqual(words[:4], ["serve", "survey.las", "3", "made/journal.txt"])
        self.assertEqual([os.path.basename(word) for word in words[4:]], ["a.in", "a.out", "b.in", "b.out"])

    def test_what_comes_when_the_lines_have_ended_is_kept(self):
        status, printed, _ = self.play("a save\nb save\n", OPENS + "read -r a <&3; echo FILE 0 0 >&4; read -r b <&5; echo FILE 0 0 >&6; echo late >&6")
        self.assertEqual((status, printed), (0, "a FILE 0 0\nb FILE 0 0\n"))
        self.assertEqual((self.kept("a.out"), self.kept("b.out")), (b"FILE 0 0\n", b"FILE 0 0\nlate\n"))

    def test_a_program_that_ends_is_told(self):
        for does, said in (
            ("exit 8", "the program ended with 8 before a's session"),
            (OPENS + "read -r line <&3", "a: no reply came to save"),
            (OPENS + "exec 3<&-; echo FILE 0 0 >&4; read -r line <&5", "a: the program went away before save"),
        ):
            status, _, told = self.play("a save\na save\nb save\n", does)
            self.assertEqual((status, told), (1, f"play_sessions.py: {said}\n"))

    def test_a_play_that_is_none(self):
        many = "".join(f"viewer{number} save\n" for number in range(17))
        lines = "each line is a session's name of letters and digits, and a line for it"
        for play, said in (("", lines), ("editor\n", lines), ("a/b save\n", lines), (many, "17 sessions, and 16 at most run at once")):
            self.assertEqual(self.play(play, "exit 9"), (1, "", f"play_sessions.py: -: {said}\n"))
        self.assertFalse(os.path.exists(self.path("made")))


if __name__ == "__main__":
    unittest.main()
