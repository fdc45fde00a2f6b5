#!/usr/bin/env python3
"""Tests of the launcher's build, over a stand-in for the kit's `rt`.

    python3 examples/test_build.py

The stand-in notes each call with its folder. `rt all check` is at work on low, then on mid and other side by
side, and tells of each that ended; `rt run` writes the program.
"""

import os
import shutil
import signal
import subprocess
import sys
import tempfile
import time
import unittest

ROOT = os.path.dirname(os.path.dirname(os.path.realpath(__file__)))
sys.path.insert(0, os.path.join(ROOT, "launcher"))

import build  # noqa: E402

RT = r"""#!/bin/bash
echo "${PWD##*/}: $*" >> "$TREE/calls"
work() { (cd "$TREE/crates/$1" && exec bash -c "sleep $2; :" rattle --crate-name "$1"); }
case $1 in
  all)
    if [ -n "$ENDLESS" ]; then echo $$ > "$TREE/pid"; exec sleep 60; fi
    work low 0.4; printf '== low\nlogic=proved\n'
    work mid 0.5 & work other 0.5 & wait
    printf '== mid\n== other\n'
    if [ -n "$ALL_FAILS" ]; then exit 1; fi
    exec sleep 60
    ;;
  lib) [ "${PWD##*/}" != "$LIB_FAILS" ] || { echo 'error: not proved'; exit 1; } ;;
  run) printf '#!/bin/sh\necho ran "$@"; exit 3\n' > out/view_main; chmod +x out/view_main ;;
esac
"""
TREE = "# the crates\nlow: itoa\nmid: low\nother may_wait=3: low  # two side by side\nview_main: mid other\napart: low\n"
ROW = "low:\nmid: low\nview_main: mid\n"


class Builds(unittest.TestCase):
    def setUp(self):
        tree = tempfile.TemporaryDirectory()
        self.addCleanup(tree.cleanup)
        self.root = os.path.realpath(tree.name)
        for crate in ("low", "mid", "other", "apart", "view_main"):
            os.makedirs(os.path.join(self.root, "crates", crate, "src"))
        shutil.copy(os.path.join(ROOT, "hidrevca"), self.root)
        shutil.copytree(os.path.join(ROOT, "launcher"), os.path.join(self.root, "launcher"))
        os.mkdir(os.path.join(self.root, "bin"))
        self.write("bin/rt", RT)
        os.chmod(os.path.join(self.root, "bin", "rt"), 0o755)

    def write(self, name, text):
        with open(os.path.join(self.root, name), "w", encoding="utf-8") as file:
            file.write(text)

    def calls(self):
        with open(os.path.join(self.root, "calls"), encoding="utf-8") as file:
            return file.read().splitlines()

    def start(self, crates, path=None, **more):
        self.write("crates.txt", crates)
        path = path or f"{self.root}/bin:{os.environ['PATH']}"
        environment = {**os.environ, "PATH": path, "TREE": self.root, **more}
        return subprocess.Popen(
            [os.path.join(self.root, "hidrevca"), "a", "b"], stdin=subprocess.DEVNULL, stdout=subprocess.PIPE,
            stderr=subprocess.PIPE, env=environment, start_new_session=True,
        )

    def end(self, crates, **more):
        """The status, standard output, and the launcher's own lines on standard error."""
        child = self.start(crates, **more)
        out, err = child.communicate(timeout=60)
        return child.returncode, out, err.decode()

    def test_crates_are_made_side_by_side_and_told(self):
        status, out, err = self.end(TREE)
        self.assertEqual((status, out), (3, b"ran a b\n"))
        jobs = str(build.checks_at_once())
        self.assertEqual(self.calls(), [f"view_main: all check --jobs {jobs}", "view_main: run"])
        lines = [line for line in err.splitlines() if "crates done" in line]
        self.assertEqual(lines[0], "hidrevca: 0 of 4 crates done, 0.0 minutes; at work: low")
        self.assertIn("hidrevca: 1 of 4 crates done, 0.0 minutes; at work: mid, other", lines)

    def test_crates_in_a_row_are_made_one_after_the_other(self):
        self.assertEqual(self.end(ROW)[:2], (3, b"ran a b\n"))
        self.assertEqual(self.calls(), ["low: lib", "mid: lib", "view_main: run"])

    def test_what_failed_side_by_side_is_made_one_after_the_other(self):
        # Each is asked for once more, low before those that stand on it.
        self.assertEqual(self.end(TREE, ALL_FAILS="1")[0], 3)
        calls = self.calls()
        self.assertEqual((calls[1], sorted(calls[2:4]), calls[4:]), ("low: lib", ["mid: lib", "other: lib"], ["view_main: run"]))

    def test_a_crate_that_fails_ends_the_build(self):
        status, out, err = self.end(ROW, LIB_FAILS="mid")
        self.assertEqual((status, out, self.calls()), (1, b"", ["low: lib", "mid: lib"]))
        self.assertIn("error: not proved\nhidrevca: the build failed; ", err)

    def test_without_python_the_kit_builds_alone(self):
        tools = "bash env dirname readlink find mkdir rm tail touch flock chmod cat sleep sh".split()
        for name in tools:
            if shutil.which(name):
                os.symlink(shutil.which(name), os.path.join(self.root, "bin", name))
        self.assertEqual(self.end(TREE, path=f"{self.root}/bin")[:2], (3, b"ran a b\n"))
        self.assertEqual(self.calls(), ["view_main: run"])

    def test_where_the_launcher_is_ended_the_kit_is_too(self):
        child = self.start(TREE, ENDLESS="1")
        pid = os.path.join(self.root, "pid")
        self.wait(lambda: os.path.exists(pid) and os.path.getsize(pid))
        with open(pid, encoding="ascii") as file:
            kit = int(file.read())
        child.send_signal(signal.SIGTERM)
        child.communicate()
        self.assertEqual(child.returncode, -signal.SIGTERM)
        self.wait(lambda: not os.path.exists(f"/proc/{kit}"))

    def wait(self, until):
        for _ in range(1000):
            if until():
                return
            time.sleep(0.02)
        self.fail("it didn't come to that")


class Crates(unittest.TestCase):
    def setUp(self):
        folder = tempfile.TemporaryDirectory()
        self.addCleanup(folder.cleanup)
        self.folder = folder.name

    def test_only_what_the_program_stands_on_is_built(self):
        with open(os.path.join(self.folder, "crates.txt"), "w", encoding="utf-8") as file:
            file.write(TREE)
        below = {"low": set(), "mid": {"low"}, "other": {"low"}, "view_main": {"low", "mid", "other"}}
        self.assertEqual(build.crates_of(self.folder), below)

    def test_the_crates_of_this_repository_are_all_known(self):
        below = build.crates_of(ROOT)
        self.assertTrue({"view_base", "view_commands", "view_main"} <= below.keys())
        self.assertTrue("acceptance_sessions" not in below and below["view_main"] == below.keys() - {"view_main"})


if __name__ == "__main__":
    unittest.main()
