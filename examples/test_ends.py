#!/usr/bin/env python3
"""Tests that every script of this folder ends in one line and a status, whatever it is given.

    python3 examples/test_ends.py

Each script is run on a file that is missing, empty, a text, a survey that is cut within its header or within its
points, by name and through a pipe, and with a standard output whose reader went away.
"""

import concurrent.futures
import os
import subprocess
import sys
import tempfile
import unittest

import assemble

HERE = os.path.dirname(os.path.realpath(__file__))
CAMERA = "ortho 2 1 0 0 0 1 0 0 0 -1 0 0 0 -1 100 1 0 4294967294 class all show"
FILES = {
    "empty": b"",
    "text": b"a text\n",
    "cut": assemble.plain_file(4, 6)[:300],
    "short": assemble.plain_file(4, 6)[:400],
    "good.las": assemble.plain_file(4, 6),
    "good.ppm": b"P6\n2 1\n255\n" + bytes(6),
    "good.replies": b"FILE 0 3\nabc",
    "good.play": b"viewer count all show\n",
    "script": b"count all show\n",
    "counted": b"COUNT 0 %d\n" % assemble.POINTS,
}
BAD = ("missing", "empty", "text", "cut", "short")
# The words of each script that reads a file, whose place is {}, and the inputs among the bad ones that serve it:
# damage.py takes any bytes, and where only the header is read, the points may be cut.
READERS = (
    ("audit.py {} empty script counted", set()),
    ("audit.py good.las {} script counted", {"empty"}),
    ("audit.py good.las empty {} counted", set()),
    ("audit.py good.las empty script {}", {"empty"}),
    ("aim.py above 9 9 --survey {}", {"short"}),
    ("aim.py above 9 9 --info {}", set()),
    ("class_changes.py {} good.las", set()),
    ("class_changes.py --table good.las {}", set()),
    ("damage.py {} 1 1 made", {"text", "cut", "short"}),
    ("edit_box.py --survey {} --from 0 0 0 --to 1 1 1 all 2", {"short"}),
    ("header.py {} --json", {"short"}),
    ("picture.py {} out.png", set()),
    ("play_sessions.py {} made good.play", set()),
    ("picture.py {} out.png --reply last", set()),
    (f"picture.py good.ppm out.png --world {{}} {CAMERA}", {"short"}),
    (f"reference_draw.py draw {{}} out.ppm 1 {CAMERA}", set()),
    ("replies.py {}", set()),
    ("replies.py {} file out.las", set()),
)
# A view's words come as one word, or through standard input.
VIEWS = "edit_box.py --view - --pixels 0 0 1 0 all 2"
# What writes to standard output.
WRITERS = (
    "audit.py good.las empty script counted",
    "aim.py above 9 9 --survey good.las",
    "assemble.py made",
    "class_changes.py good.las good.las",
    "damage.py good.las 1 1 made",
    "edit_box.py --survey good.las --from 0 0 0 --to 1 1 1 all 2",
    "header.py good.las",
    "picture.py good.ppm -",
    f"reference_draw.py draw good.las - 1 {CAMERA}",
    "replies.py good.replies",
    "replies.py good.replies 1 -",
    "trial_sum.py 5 0",
)
# These have no input but the repository, or none at all.
WITHOUT = (
    "fuzz.py",
    "refuse_memory.py",
    "run_guide.py",
    "soak.py",
    "terrain.py",
    "trial_sum.py",
    "try_audit.py",
    "try_by_hand.py",
    "try_failing.py",
    "try_headline.py",
    "try_host_desk.py",
    "try_one_worker.py",
    "try_program.py",
    "try_refused.py",
    "try_replies.py",
    "try_scarce.py",
    "try_sessions.py",
    "try_trials.py",
    "try_versions.py",
    "try_views.py",
)


def scripts():
    """The scripts of this folder that are run by their name."""
    for name in sorted(os.listdir(HERE)):
        if name.endswith(".py"):
            with open(os.path.join(HERE, name), encoding="utf-8") as file:
                if file.readline().startswith("#!"):
                    yield name


class Ends(unittest.TestCase):
    def setUp(self):
        folder = tempfile.TemporaryDirectory()
        self.addCleanup(folder.cleanup)
        self.folder = folder.name
        for name, data in FILES.items():
            with open(os.path.join(self.folder, name), "wb") as file:
                file.write(data)

    def end(self, line, stdin=b"", stdout=subprocess.PIPE, **more):
        """Status, standard output and standard error of a script with the words of this line."""
        name, *words = line.split()
        command = [sys.executable, "-S", os.path.join(HERE, name), *words]
        done = subprocess.run(command, cwd=self.folder, input=stdin, stdout=stdout, stderr=subprocess.PIPE, **more)
        return done.returncode, done.stdout, done.stderr.decode()

    def side_by_side(self, check, cases):
        with concurrent.futures.ThreadPoolExecutor(8) as pool:
            for case in [pool.submit(check, *case) for case in cases]:
                case.result()

    def is_told(self, line, told):
        """Whether it is one line that begins with the script's name."""
        self.assertRegex(told, rf"\A{line.split()[0]}: [^\n]+\n\Z", line)

    def test_each_bad_input_is_told_in_one_line(self):
        def by_name(line, name, serves):
            status, _, told = self.end(line.format(name))
            self.assertEqual(status, 0 if name in serves else 1, (line, name, told))
            if name not in serves:
                self.is_told(line, told)

        self.side_by_side(by_name, [(line, name, serves) for line, serves in READERS for name in BAD])
        # Only the picture whose world file could be written is there.
        made = sorted(name for name in os.listdir(self.folder) if name.startswith("out"))
        self.assertEqual(made, ["out.pgw", "out.png"])

    def test_a_pipe_serves_as_a_file_does(self):
        def by_pipe(line, name, serves):
            status, _, told = self.end(line.format("-"), FILES[name])
            self.assertEqual(status, 0 if name in serves else 1, (line, name, told))
            # Where nothing came through a pipe, its writer has said why.
            if name not in serves and not (name == "empty" and "--info" in line):
                self.is_told(line, told)

        cases = [(line, "text", serves) for line, serves in READERS] + [(VIEWS, "text", set()), (VIEWS, "empty", set())]
        self.side_by_side(by_pipe, [*cases, ("aim.py above 9 9 --info {}", "empty", set())])

    def test_a_reader_that_went_away_is_told_in_one_line(self):
        def unread(line):
            reads, writes = os.pipe()
            os.close(reads)
            try:
                status, _, told = self.end(line, stdout=writes)
            finally:
                os.close(writes)
            self.assertEqual(status, 1, (line, told))
            self.is_told(line, told)

        self.side_by_side(unread, [(line,) for line in WRITERS])

    def test_a_closed_standard_output_is_told_in_one_line(self):
        for line in ("terrain.py -", "header.py good.las"):
            status, _, told = self.end(line, stdout=None, preexec_fn=lambda: os.close(1))
            self.assertEqual((status, told), (1, f"{line.split()[0]}: standard output is closed\n"))

    def test_each_script_has_help_and_refuses_what_it_does_not_know(self):
        def ends(name):
            status, out, told = self.end(f"{name} --help")
            self.assertEqual((status, told), (0, ""), name)
            self.assertIn(name.encode(), out)
            if not name.startswith("test_"):
                status, out, told = self.end(f"{name} --frob")
                self.assertEqual((status, out), (2, b""), name)
                self.is_told(name, told)

        self.side_by_side(ends, [(name,) for name in scripts()])

    def test_no_script_is_left_out(self):
        tried = {line.split()[0] for line in [*(line for line, _ in READERS), *WRITERS, *WITHOUT]}
        self.assertEqual({name for name in scripts() if not name.startswith("test_")}, tried)


if __name__ == "__main__":
    unittest.main()
