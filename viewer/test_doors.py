#!/usr/bin/env python3
"""Tests of who gets in at a viewer and of how it ends, over HTTP and its tabs' lines.

    python3 viewer/test_doors.py
"""

import datetime
import importlib.machinery
import importlib.util
import os
import signal
import subprocess
import sys
import time
import unittest

from fields import HERE, Case
from tab_client import LONGEST, Client


class Doors(Case):
    def test_each_request_has_the_key_and_names_the_address(self):
        viewer = self.viewer()
        key, port = f"key={viewer.key}", viewer.port
        client = self.seated(viewer)
        for path, headers, status in (
            (f"/?{key}", {}, 200),
            (f"/viewer.js?{key}", {}, 200),
            (f"/viewer.css?{key}", {}, 200),
            (f"/?{key}", {"Host": f"localhost:{port}"}, 200),
            ("/", {}, 403),
            ("/?key=", {}, 403),
            ("/?ticket=", {}, 403),
            (f"/?key={viewer.key[:-1]}", {}, 403),
            (f"/?key={viewer.key}x", {}, 403),
            ("/?key=caf%C3%A9", {}, 403),
            ("/viewer.js", {}, 403),
            ("/tab", {}, 403),
            (f"/save?tab={client.seat['tab']}", {}, 403),
            (f"/?{key}", {"Host": f"example.org:{port}"}, 400),
            (f"/?{key}", {"Host": "127.0.0.1"}, 400),
            (f"/?{key}", {"Origin": "http://example.org"}, 403),
            (f"/tab?{key}", {"Origin": "null"}, 403),
            (f"/tab?{key}", {}, 400),
            (f"/save?{key}", {}, 403),
            (f"/save?{key}&tab=1", {}, 403),
            (f"/../start?{key}", {}, 404),
            (f"/start?{key}", {}, 404),
            (f"/etc/passwd?{key}", {}, 404),
            (f"/page.html?{key}", {}, 404),
        ):
            with self.subTest(path=path, headers=headers):
                found, content, _ = self.get(viewer, path, **headers)
                self.assertEqual(found, status)
                self.assertNotIn(b"root:", content)
        self.assertEqual(self.get(viewer, f"/?{key}", "POST")[0], 501)

    def test_a_wrong_key_opens_no_tab(self):
        viewer = self.viewer()
        client = Client(viewer, "x" * 32)
        self.addCleanup(client.close)
        self.assertEqual(client.answer, "HTTP/1.1 403 Forbidden")

    def test_the_browser_gets_an_address_that_works_once(self):
        name = self.path("browser")
        with open(name, "w", encoding="ascii") as file:
            file.write(f'#!/bin/sh\nprintf "%s" "$1" >{name}.part; mv {name}.part {name}.told\n')
        os.chmod(name, 0o755)
        viewer = self.viewer(browser=name)
        until = time.monotonic() + LONGEST
        while not os.path.exists(f"{name}.told") and time.monotonic() < until:
            time.sleep(0.01)
        address = self.read("browser.told").decode()
        self.assertNotIn(viewer.key, address)
        path = address.partition(str(viewer.port))[2]
        status, _, headers = self.get(viewer, path)
        self.assertEqual((status, headers["Location"]), (303, f"/?key={viewer.key}"))
        self.assertEqual(self.get(viewer, path)[0], 403)

    def test_it_listens_on_the_loopback_address_alone(self):
        viewer = self.viewer()
        with open("/proc/net/tcp", encoding="ascii") as file:
            listens = [line.split()[1] for line in file if line.split()[3] == "0A"]
        self.assertIn(f"0100007F:{viewer.port:04X}", listens)
        self.assertNotIn(f"00000000:{viewer.port:04X}", listens)


class Ends(Case):
    def start(self, *words):
        """Status and what is said of a viewer that doesn't come to its page."""
        start = [sys.executable, os.path.join(HERE, "start"), "--no-browser", *words]
        done = subprocess.run(start, cwd=self.folder, capture_output=True, timeout=LONGEST)
        return done.returncode, done.stdout.decode(), done.stderr.decode()

    def test_a_program_that_dies_is_told_and_what_it_answered_is_kept(self):
        viewer = self.viewer()
        client, other = self.seated(viewer), self.seated(viewer)
        client.say({"ask": "line", "n": "line", "line": "edit 0 0 0 9 9 999 2 3"})
        client.wait_for("done")
        os.kill(viewer.program(), signal.SIGKILL)
        for tab in (client, other):
            told = tab.wait_for("end")
            self.assertEqual(told["text"], "the program was ended by signal 9 (SIGKILL)")
            self.assertEqual((told["failed"], told["journal"]), (True, f"{viewer.journal}.answered"))
        status, said = viewer.end(by=None)
        self.assertEqual(status, 137)
        self.assertIn("viewer: the program was ended by signal 9 (SIGKILL)\n", said)
        self.assertIn(f"the edits that were answered are in {viewer.journal}.answered: 1\n", said)
        self.assertEqual(self.read("journal.txt.answered"), b"edit 0 0 0 9 9 999 2 3\n")

    def test_a_viewer_that_is_killed_leaves_a_whole_journal(self):
        viewer = self.viewer()
        client = self.seated(viewer)
        client.say({"ask": "line", "n": "line", "line": "edit 0 0 0 9 9 999 2 3"})
        client.wait_for("done")
        viewer.end(signal.SIGKILL)
        until = time.monotonic() + LONGEST
        while not self.read("journal.txt") and time.monotonic() < until:
            time.sleep(0.01)
        self.assertEqual(self.read("journal.txt"), b"edit 0 0 0 9 9 999 2 3\n")

    def test_all_tabs_are_told_of_the_end(self):
        viewer = self.viewer()
        client = self.seated(viewer)
        viewer.process.send_signal(signal.SIGTERM)
        self.assertEqual(client.wait_for("end"), {"say": "end", "text": "the viewer was ended", "failed": False, "journal": viewer.journal})
        self.assertEqual(client.wait_for("closed")["code"], 1001)
        self.assertEqual(viewer.end(by=None)[0], 0)
        self.assertEqual(self.read("journal.txt"), b"")

    def test_a_journal_that_is_there_is_not_overwritten(self):
        with open(self.path("kept"), "wb") as file:
            file.write(b"edit 0 0 0 9 9 9 all 1\n")
        told = "viewer/start: kept is there, and is not overwritten: give another name by --journal\n"
        self.assertEqual(self.start(self.survey, "--journal", "kept"), (1, "", told))
        self.assertEqual(self.read("kept"), b"edit 0 0 0 9 9 9 all 1\n")
        os.rename(self.path("kept"), self.path("new.answered"))
        self.assertEqual(self.start(self.survey, "--journal", "new")[0], 1)
        self.assertEqual(self.read("new.answered"), b"edit 0 0 0 9 9 9 all 1\n")
        self.assertFalse(os.path.exists(self.path("new")))

    def test_a_journal_without_a_name_has_that_of_the_day(self):
        loader = importlib.machinery.SourceFileLoader("start", os.path.join(HERE, "start"))
        start = importlib.util.module_from_spec(importlib.util.spec_from_loader("start", loader))
        loader.exec_module(start)
        day = datetime.date(2026, 5, 4)
        name = lambda: os.path.basename(start.free_name(day, self.folder))
        self.assertEqual(name(), "edits-2026-05-04.txt")
        for taken, free in (("edits-2026-05-04.txt", "edits-2026-05-04-2.txt"), ("edits-2026-05-04-2.txt.answered", "edits-2026-05-04-3.txt")):
            with open(self.path(taken), "wb"):
                pass
            self.assertEqual(name(), free)

    def test_what_is_no_survey_is_told_by_the_program(self):
        with open(self.path("text"), "wb") as file:
            file.write(b"a text\n")
        for name, status, told in (("missing", 5, "cannot open word 1\n"), ("text", 8, "survey: only 7 bytes\n")):
            found, printed, said = self.start(name)
            self.assertEqual((found, printed, said[: len(told)]), (status, "", told))
        self.assertEqual(sorted(os.listdir(self.folder)), ["fields.las", "text"])

    def test_words_that_do_not_fit_are_told_in_one_line(self):
        for words, told in (
            ((), "the following arguments are required: SURVEY"),
            (("a", "--seats", "15"), "argument --seats: invalid number from 1 to 14 value: '15'"),
            (("a", "--workers", "0"), "argument --workers: invalid number from 1 to 64 value: '0'"),
            (("a", "--port", "70000"), "argument --port: invalid number from 0 to 65535 value: '70000'"),
        ):
            self.assertEqual(self.start(*words), (2, "", f"start: {told} (--help tells the words)\n"))
        self.assertEqual(self.start("-"), (1, "", "viewer/start: SURVEY is the name of a file\n"))

    def test_a_port_that_is_taken_is_told_and_no_journal_is_left(self):
        viewer = self.viewer()
        told = f"viewer/start: cannot listen on port {viewer.port}: Address already in use\n"
        self.assertEqual(self.start(self.survey, "--port", str(viewer.port), "--journal", "other"), (1, "", told))
        self.assertEqual(sorted(os.listdir(self.folder)), ["fields.las", "journal.txt", "journal.txt.answered"])


if __name__ == "__main__":
    unittest.main()
