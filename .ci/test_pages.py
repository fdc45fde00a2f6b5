#!/usr/bin/env python3
"""Tests of the scripts that make pages of the sources: each sees where its page is stale, and refuses what it can't tell.

    python3 .ci/test_pages.py
"""

import os
import re
import shutil
import subprocess
import sys
import tempfile
import unittest

ROOT = os.path.dirname(os.path.dirname(os.path.realpath(__file__)))
PAGES = {"definitions.py": "docs/DEFINITIONS.md", "headline.py": "docs/HEADLINE.md", "map.py": "docs/ARCHITECTURE.md", "sizes.py": "docs/PROVING.md"}
SERVE = "crates/view_commands/specs/Run.antt"


class Pages(unittest.TestCase):
    @classmethod
    def setUpClass(cls):
        """A copy of what the scripts read, with fresh pages."""
        cls.folder = tempfile.mkdtemp()
        cls.copy = os.path.join(cls.folder, "copy")
        os.mkdir(cls.copy)
        for name in ("crates.txt", "README.md"):
            shutil.copy(os.path.join(ROOT, name), cls.copy)
        for name in (".ci", "docs"):
            shutil.copytree(os.path.join(ROOT, name), os.path.join(cls.copy, name))
        kept_away = shutil.ignore_patterns("out", "proofs", "must-fail", "data")
        shutil.copytree(os.path.join(ROOT, "crates"), os.path.join(cls.copy, "crates"), ignore=kept_away)
        for script, started in [(script, cls.start(script)) for script in PAGES]:
            if started.communicate()[0] or started.returncode:
                raise AssertionError(f"{script} has to write its page")

    @classmethod
    def tearDownClass(cls):
        shutil.rmtree(cls.folder)

    @classmethod
    def start(cls, script, *words):
        words = [sys.executable, os.path.join(cls.copy, ".ci", script), *words]
        return subprocess.Popen(words, stdout=subprocess.PIPE, stderr=subprocess.STDOUT, text=True)

    def run_script(self, script, *words):
        """What a script says where it ends with another status than 0, else nothing."""
        started = self.start(script, *words)
        said = started.communicate()[0]
        return said if started.returncode != 0 else ""

    def change(self, name, old, new):
        """Changes a file of the copy for one test."""
        path = os.path.join(self.copy, name)
        with open(path, encoding="utf-8") as file:
            text = file.read()
        self.assertIn(old, text)
        self.put(path, text.replace(old, new, 1))
        self.addCleanup(self.put, path, text)

    def put(self, path, text):
        with open(path, "w", encoding="utf-8") as file:
            file.write(text)

    def stale(self):
        said = {script: started.communicate()[0] for script, started in [(script, self.start(script, "--check")) for script in PAGES]}
        return [script for script, page in PAGES.items() if f"{page} is not what" in said[script]]

    def test_a_page_is_stale_where_its_sources_are_others(self):
        self.assertEqual(self.stale(), [])
        self.change(SERVE, "-- a command told nothing of sessions", "-- a command tells nothing of sessions")
        self.assertEqual(self.stale(), ["definitions.py", "headline.py"])

    def test_a_page_is_stale_where_a_line_comes_or_a_clause_has_another_name(self):
        self.change("crates/las_write/src/writing.rt", "ensures given", "\n        ensures gave")
        self.assertEqual(self.stale(), ["definitions.py", "sizes.py"])

    def test_a_page_is_stale_where_it_was_changed_itself(self):
        self.change("docs/HEADLINE.md", "# The promise of `run`", "# The promise")
        self.assertIn("docs/HEADLINE.md is not what", self.run_script("headline.py", "--check"))

    def test_a_field_that_no_part_cites_is_refused(self):
        self.change(SERVE, "  pub pairs :", "  pub more : Bool\n  pub pairs :")
        self.assertIn("no part of the sentence cites RunsSessions.more", self.run_script("headline.py"))

    def test_a_part_whose_field_is_gone_is_refused(self):
        self.change(SERVE, "  pub newest_held :", "  pub held_last :")
        self.assertIn("RunsSessions has no field newest_held", self.run_script("headline.py"))

    def test_a_name_of_the_library_without_a_row_is_refused(self):
        self.change("docs/parts/reading.md", "`flat_map` ", "")
        self.assertIn("explains no flat_map", self.run_script("headline.py"))

    def test_a_crate_without_a_paragraph_is_refused(self):
        self.change("docs/ARCHITECTURE.md", "**ppm_out** ", "ppm_out ")
        self.assertIn("no paragraph of ppm_out", self.run_script("map.py"))

    def test_a_way_through_no_crate_is_refused(self):
        self.change("docs/ARCHITECTURE.md", "--> view_lines", "--> view_line")
        self.assertIn("view_line, which is no crate", self.run_script("map.py"))

    def test_a_promise_by_no_clause_is_refused(self):
        self.change("docs/ARCHITECTURE.md", "(`given`)", "(`gave_all`)")
        self.assertIn("names what isn't there: view_ends: gave_all", self.run_script("map.py"))

    def test_a_claim_of_the_readme_by_no_clause_is_refused(self):
        self.change("README.md", "`nearest` on `picture`", "`closest` on `picture`")
        self.assertIn("README.md names what isn't there: closest", self.run_script("map.py"))

    def test_the_pages_name_what_the_gate_runs(self):
        with open(os.path.join(ROOT, ".ci", "run"), encoding="utf-8") as file:
            ran = set(re.findall(r"python3 (?:\"\$test\"|examples/(\w+\.py))", file.read())) - {""}
        for page, part in (("README.md", "## What is only tested\n(.*?)\n## "), ("docs/DECISIONS.md", "## What does the gate run [^\n]*\n(.*?)\n## ")):
            with open(os.path.join(ROOT, page), encoding="utf-8") as file:
                text = re.search(part, file.read(), re.S)[1]
            named = {name for name in re.findall(r"`(?:examples/)?(\w+\.py)`", text) if os.path.exists(os.path.join(ROOT, "examples", name))}
            self.assertEqual(named, ran, page)

    def test_other_words_are_refused(self):
        for script in PAGES:
            self.assertIn("unknown words", self.run_script(script, "--chek"))


unittest.main()
