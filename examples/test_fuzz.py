#!/usr/bin/env python3
"""Tests of fuzz.py and of its model: a stand-in for the program that does what the model says, and one that does something else.

    python3 examples/test_fuzz.py
"""

import os
import re
import shutil
import stat
import subprocess
import sys
import tempfile
import unittest

import model

HERE = os.path.dirname(os.path.realpath(__file__))
CASES = 40

# It lets several sessions run one after another, and then does what FAULT says.
STAND_IN = f"""#!{sys.executable} -SE
import os, sys
sys.path.insert(0, {HERE!r})
import model

words = [os.fsencode(word) for word in sys.argv[1:]]
nodes, seen = {{}}, {{}}
for name in [*os.listdir("."), ".", "/dev/full", "/dev/./full", "/dev/null"]:
    if name.startswith("/dev/"):
        nodes[name] = model.Node("device" if name == "/dev/null" else "full")
    elif os.path.isdir(name):
        nodes[name] = model.Node("folder")
    else:
        with open(name, "rb") as file:
            nodes[name] = seen.setdefault(os.stat(name).st_ino, model.Node("file", file.read()))
desk = model.Desk(nodes, sys.stdin.buffer.read())
status, text, known = model.run(words, desk)
if known and len(known.pairs) > 1:
    data = desk.stdin.data if words[1] == b"-" else nodes[model.plain(words[1].decode())].data
    session = model.Session(data)
    for _, out, items, _ in known.pairs:
        model.give(out, session.replies(items))
    model.give(known.journal, b"".join(session.journal))
fault = os.environ.get("FAULT")
if fault == "status" and status == 0:
    status = 1
if fault == "text":
    text = text.replace("2", "3")
if fault == "byte" and b"j" in words and "j" in nodes and nodes["j"].data.startswith(b"edit"):
    nodes["j"].data = nodes["j"].data[:-2] + b"~\\n"
if fault == "reply" and known:
    known.pairs[-1][1].data = known.pairs[-1][1].data[:-1]
if fault == "survey":
    nodes["a"].data += b"x"
if fault == "other" and status == 8:
    nodes["more"] = model.Node("file")
if fault == "printed":
    desk.stdout.data += b"\\n"
for name, node in nodes.items():
    if node.kind == "file":
        with open(name, "wb") as file:
            file.write(node.data)
sys.stdout.buffer.write(desk.stdout.data)
sys.stderr.write(text + "\\n" if text else "")
sys.exit(status)
"""


class Fuzz(unittest.TestCase):
    def setUp(self):
        self.folder = tempfile.mkdtemp()
        self.addCleanup(shutil.rmtree, self.folder)
        self.program = os.path.join(self.folder, "program")
        with open(self.program, "w", encoding="utf-8") as file:
            file.write(STAND_IN)
        os.chmod(self.program, stat.S_IRWXU)

    def fuzz(self, *words, fault=""):
        around = os.environ | {"FAULT": fault}
        line = [sys.executable, os.path.join(HERE, "fuzz.py"), "--program", self.program, *words]
        done = subprocess.run(line, env=around, capture_output=True, text=True)
        kept = re.search("the files are in (.*)\n", done.stderr)
        if kept:
            shutil.rmtree(kept[1])
        return done.returncode, done.stdout, done.stderr

    def test_a_program_that_does_what_the_model_says_differs_nowhere(self):
        status, out, err = self.fuzz("--cases", str(CASES), "--jobs", "2")
        self.assertEqual((status, err), (0, ""))
        self.assertIn(f"{CASES} cases are as the model has them", out)

    def test_each_planted_fault_is_found_and_told_with_its_case(self):
        for fault in ("status", "text", "byte", "reply", "survey", "other", "printed"):
            status, out, err = self.fuzz("--cases", str(CASES), fault=fault)
            self.assertEqual((status, out), (1, ""), fault)
            found = re.match("fuzz.py: seed 1, case ([0-9]+): ", err)
            self.assertTrue(found, err)
            # The case alone shows it again.
            self.assertEqual(self.fuzz("--first", found[1], "--cases", "1", fault=fault)[0], 1)

    def test_a_program_that_is_not_there_is_told(self):
        self.program = os.path.join(self.folder, "none")
        self.assertEqual(self.fuzz()[0], 1)


class Model(unittest.TestCase):
    """What the model says where it was worked out by hand."""

    def test_words(self):
        for line, at in (
            ("", 0),
            ("draw a", 2),
            ("draw a b 65", 3),
            ("draw a a 65", 2),
            ("serve a 1 j i1", 5),
            ("serve a 1 j - - i2 -", 7),
            ("serve a 1 j - - - o2", 6),
            ("info a t 1", 3),
            ("trial 18446744073709551616 0 1 t", 1),
            ("trial 0 8388609 1 t", 2),
            ("trial 007 -0 064 t", None),
        ):
            self.assertEqual(model.bad_word(line.split()), at, line)

    def test_a_trial_of_no_records(self):
        # Two pictures of 196640 bytes with their lines, and lines of 11 and 10 bytes; all pixels are black.
        self.assertEqual(model.summary(5, 0), b"records 0\nbytes 375\nreplies 393301\nsum 4453\n")

    def test_a_survey_that_is_made(self):
        # The state after the first draw from 0 is 1442695040888963407.
        self.assertEqual(model.made(0, 1)[375:379], (31614).to_bytes(4, "little"))
        self.assertEqual(model.layout_fault(model.made(0, 1)), None)

    def test_a_survey_that_is_cut(self):
        self.assertEqual(model.layout_fault(model.made(0, 1)[:410]), "points need 411 bytes, file has 410")
        self.assertEqual(model.layout_fault(model.made(0, 1)[:374]), "only 374 bytes")


if __name__ == "__main__":
    unittest.main()
