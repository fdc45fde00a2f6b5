#!/usr/bin/env python3
"""Tries the bench of the commands, over programs that do what a test says, so it needs no build.

    python3 examples/test_bench.py
"""

import json
import os
import subprocess
import sys
import tempfile
import unittest

ROOT = os.path.dirname(os.path.dirname(os.path.realpath(__file__)))
BENCH = os.path.join(ROOT, "bench", "commands")
sys.path.insert(0, BENCH)

from programs import Program, Run, Serve
from script_ends import Wrong
from surveys import surveys

# Answers each line of each session in turn, as the program does: lines that are none are refused.
SERVE = """#!/usr/bin/env python3
import sys, threading
def talk(name, out):
    with open(name) as lines, open(out, "wb", 0) as replies:
        for line in lines:
            replies.write(b"REFUSED 1\\n" if line == "end\\n" else b"COUNT 0 5\\n")
ends = sys.argv[5:]
threads = [threading.Thread(target=talk, args=pair) for pair in zip(ends[::2], ends[1::2])]
[it.start() for it in threads]
[it.join() for it in threads]
open(sys.argv[4], "w").close()
"""


class Bench(unittest.TestCase):
    def setUp(self):
        tree = tempfile.TemporaryDirectory()
        self.addCleanup(tree.cleanup)
        self.folder = tree.name

    def program(self, text):
        path = os.path.join(self.folder, "program")
        with open(path, "w", encoding="utf-8") as file:
            file.write(text)
        os.chmod(path, 0o755)
        return Program(path, {"GIVEN": "4"}, self.folder)

    def bench(self, *words):
        done = subprocess.run([sys.executable, os.path.join(BENCH, "run.py"), *words], capture_output=True, timeout=60)
        return done.returncode, done.stdout.decode(), done.stderr.decode()


class Surveys(Bench):
    def test_both_have_their_records_within_their_side(self):
        for made in surveys(self.folder, 1500):
            with open(made.path, "rb") as file:
                data = file.read()
            # LAS 1.4 R15: offset to point data at 96, format at 104, record length at 105, count at 247.
            at, count = int.from_bytes(data[96:100], "little"), int.from_bytes(data[247:255], "little")
            length = int.from_bytes(data[105:107], "little")
            self.assertEqual((data[:4], data[24:26], data[104], count, len(data)), (b"LASF", b"\1\4", 6, 1500, at + 1500 * length))
            records = [data[k : k + length] for k in range(at, len(data), length)]
            for record in records:
                x, y, z = (int.from_bytes(record[k : k + 4], "little", signed=True) for k in (0, 4, 8))
                self.assertTrue(0 <= x < made.side and 0 <= y < made.side and 0 <= z < 1 << 16)
            # Some are withheld: bit 2 of byte 15.
            self.assertEqual({record[15] for record in records}, {0, 4})

    def test_neighbours_in_scan_order_are_neighbours_in_space(self):
        made = next(surveys(self.folder, 1600))
        with open(made.path, "rb") as file:
            data = file.read()[375:]
        columns = [int.from_bytes(data[30 * k : 30 * k + 4], "little") // 256 for k in range(1600)]
        self.assertEqual((made.side, columns), (40 * 256, 40 * list(range(40))))


class Programs(Bench):
    def test_a_run_tells_time_memory_and_variables(self):
        out = os.path.join(self.folder, "out")
        program = self.program('#!/bin/sh\nsleep 0.2; echo "$1 $GIVEN" > "$2"\n')
        with Run(program, ["draw", out], 30) as it:
            taken, memory = it.finish()
        self.assertTrue(200 <= taken < 30000 and 0 < memory)
        with open(out, encoding="utf-8") as file:
            self.assertEqual(file.read(), "draw 4\n")

    def test_a_failure_is_told(self):
        with Run(self.program("#!/bin/sh\necho cannot >&2; exit 5\n"), [], 30) as it:
            with self.assertRaisesRegex(Wrong, "ended with 5: cannot$"):
                it.finish()

    def test_a_run_that_hangs_is_ended(self):
        with Run(self.program("#!/bin/sh\nexec sleep 60\n"), [], 0.2) as it:
            with self.assertRaisesRegex(Wrong, "ended with -9$"):
                it.finish()

    def serve(self, text, limit, count):
        survey = next(surveys(self.folder, 1024))
        outs = [os.path.join(self.folder, f"{k}.out") for k in range(count)]
        return Serve(self.program(text), survey, 4, limit, outs)

    def test_sessions_are_answered_line_by_line(self):
        with self.serve(SERVE, 30, 3) as it:
            for _ in range(2):
                it.ask(["count"] * 9, ["count"], [])
            it.close()
        found = []
        for out in it.outs:
            with open(out, "rb") as file:
                found.append(file.read())
        once = [b"COUNT 0 5\n" * count + b"REFUSED 1\n" for count in (9, 1, 0)]
        self.assertEqual(found, [2 * text for text in once])

    def test_a_serve_that_ends_or_hangs_before_its_replies_is_told(self):
        for text in ("#!/bin/sh\nexit 0\n", "#!/bin/sh\nexec sleep 60\n"):
            with self.serve(text, 1, 2) as it:
                with self.assertRaisesRegex(Wrong, "no reply came$"):
                    it.ask([], [])
            os.remove(os.path.join(self.folder, "0.in"))
            os.remove(os.path.join(self.folder, "1.in"))


class Page(Bench):
    ROW = {"work": "draw", "workers": 4, "unit": "ms", "program": [300.0, 200.0], "beside": [100.0, 160.0]}

    def write(self, name, text):
        path = os.path.join(self.folder, name)
        with open(path, "w", encoding="utf-8") as file:
            file.write(text)
        return path

    def numbers(self, faults=()):
        row = {**self.ROW, "ratio": 2.0, "middle ratio": 2.125}
        told = {"date": "2026-05-04", "processors": 4, "system": "S", "library": "L", "huge pages": "never", "growth": []}
        rows = [{"survey": "scan order", **row}, {"survey": "random order", **row, "program": [], "beside": []}]
        return json.dumps({**told, "records": 1 << 20, "rounds": 2, "rows": rows, "faults": list(faults)})

    def test_the_table_has_the_least_and_both_ratios(self):
        status, out, err = self.bench("--from", self.write("numbers", self.numbers()))
        self.assertEqual((status, err), (0, ""))
        self.assertIn("| draw | 4 | 200 ms | 2.00 (2.12) | - | - |\n", out)

    def test_the_table_stands_between_the_marks_of_the_page(self):
        page = self.write("page", "a\n<!-- commands -->\nold\n<!-- end of commands -->\nb\n")
        status, out, _ = self.bench("--from", self.write("numbers", self.numbers()), "--page", page)
        with open(page, encoding="utf-8") as file:
            text = file.read()
        self.assertEqual((status, text), (0, f"a\n<!-- commands -->\n{out}<!-- end of commands -->\nb\n"))

    def test_a_page_without_marks_stays(self):
        page = self.write("page", "a\n")
        status, _, err = self.bench("--from", self.write("numbers", self.numbers()), "--page", page)
        with open(page, encoding="utf-8") as file:
            self.assertEqual((status, file.read()), (1, "a\n"))
        self.assertTrue(err.startswith("run.py: ") and err.count("\n") == 1)

    def test_a_fault_is_in_the_table_and_in_the_status(self):
        status, out, _ = self.bench("--from", self.write("numbers", self.numbers(["draw: picture differs"])))
        self.assertEqual(status, 1)
        self.assertIn("draw: picture differs", out)

    def test_outputs_that_differ_are_a_fault(self):
        program = self.program('#!/bin/sh\n[ "$1" = draw ] && echo "$0" > "$3"\n').path
        other = os.path.join(self.folder, "other")
        os.link(program, other)
        words = ("--program", program, "--beside", other, "--records", "1024", "--rounds", "1", "--limit", "5")
        status, out, err = self.bench(*words, "--folder", os.path.join(self.folder, "kept"))
        self.assertEqual(status, 1)
        for told in (out, err):
            self.assertIn("scan order, draw, 1 worker: picture differs", told)


if __name__ == "__main__":
    if sys.argv[1:] in (["-h"], ["--help"]):
        print(__doc__)
    else:
        unittest.main()
