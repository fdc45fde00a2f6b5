#!/usr/bin/env python3
"""Tests of refuse_memory.py over a program that asks for memory twice, and answers a refusal as a test says.

    python3 examples/test_refuse.py
"""

import os
import shutil
import subprocess
import sys
import tempfile
import unittest

import refuse_memory

HERE = os.path.dirname(os.path.realpath(__file__))
PROGRAM = r"""
#include <fcntl.h>
#include <stdlib.h>
#include <string.h>
#include <unistd.h>

static const unsigned char text[] = {%s};

static void put(const char *name, const void *bytes, size_t length)
{
    int file = open(name, O_WRONLY | O_TRUNC | O_CREAT, 0600);
    if (write(file, bytes, length) != (ssize_t)length)
        _exit(99);
    close(file);
}

int main(void)
{
    void *first = malloc(100), *second = first ? realloc(first, 200) : NULL;
    if (!second) {
        const char *told = "out of memory\n";
        %s
        if (write(2, told, strlen(told)) < 0)
            _exit(99);
        return 11;
    }
    put("b", text, sizeof text);
    return 0;
}
"""


@unittest.skipUnless(shutil.which("cc"), "cc is not on PATH")
class Refuses(unittest.TestCase):
    def refuse(self, answer):
        """Status, standard output and standard error over a program with this answer to a refusal."""
        text = ",".join(map(str, refuse_memory.info("1").whole["b"]))
        with tempfile.TemporaryDirectory() as folder:
            source, program = os.path.join(folder, "program.c"), os.path.join(folder, "program")
            with open(source, "w", encoding="ascii") as file:
                file.write(PROGRAM % (text, answer))
            subprocess.run(["cc", "-O0", "-fno-builtin", "-o", program, source], check=True)
            line = [sys.executable, os.path.join(HERE, "refuse_memory.py"), "--program", program, "--only", "info", "--jobs", "2"]
            done = subprocess.run(line, capture_output=True, text=True)
        return done.returncode, done.stdout, done.stderr

    def test_each_place_is_tried_once_and_once_more_with_all_later_ones(self):
        status, out, err = self.refuse("")
        self.assertEqual((status, err), (0, ""))
        lines = ["info: 2 places, 2 with 11", "info, all later ones too: 2 places, 2 with 11", "4 refusals in all, each answered as it should be"]
        self.assertEqual(out.splitlines(), lines)

    def test_what_a_refusal_may_leave(self):
        for answer in ('put("b", text, 0);', 'put("b", text, 7);', 'put("b", text, sizeof text);', 'put("b", text, sizeof text); return 0;'):
            self.assertEqual(self.refuse(answer)[0], 0, answer)

    def test_what_it_may_not(self):
        for answer in (
            "return 1;",
            "return 0;",
            "abort();",
            'told = "cannot open word 2\\n";',
            'put("b", "x", 1);',
            'put("a", "x", 1);',
            'put("c", "x", 1);',
            'put("b", text, 7); return 0;',
        ):
            status, out, err = self.refuse(answer)
            self.assertEqual((status, err), (1, "refuse_memory.py: 4 of 4 runs are wrong\n"), answer)
            self.assertIn("request 2, realloc of 200: ", out)


if __name__ == "__main__":
    unittest.main()
