#!/usr/bin/env python3
"""Tries trials of the whole program over files and devices of the system, with starts drawn by lot.

    python3 examples/try_trials.py

Each summary has to be that of trial_sum.py, whatever the number of workers, in a file that is new, shorter or
longer, or on standard output; and an OUT that can't be opened or written is told. The lots are the same each time.
Ends with 1 at the first that isn't.
"""

import os
import random
import subprocess
import sys
import tempfile

import trial_sum
from script_ends import Words

ROOT = os.path.dirname(os.path.dirname(os.path.realpath(__file__)))
SEED, TRIALS = 22, 40
STARTS = (0, 1, 2**32, 2**63, 2**64 - 1)
# Blocks have up to 1024 records, and pages of classes 4096.
COUNTS = (0, 1, 2, 1024, 1025, 4096, 4097)
# What an older file under the name of OUT holds.
OLDER = (None, b"", b"records", b"\xa5" * 1000)


def run(folder, words, stdout=None):
    """Status, standard output and standard error of a trial in this folder."""
    how = {"cwd": folder, "stdin": subprocess.DEVNULL, "stderr": subprocess.PIPE}
    with open(stdout, "wb") if stdout else tempfile.TemporaryFile() as out:
        done = subprocess.run([os.path.join(ROOT, "hidrevca"), "trial", *words], stdout=out, **how)
        if stdout:
            return done.returncode, b"", done.stderr
        out.seek(0)
        return done.returncode, out.read(), done.stderr


def same(words, got, wanted):
    """Ends where a trial by these words did something else."""
    if got != wanted:
        sys.exit(f"trial {' '.join(words)}:\nwanted {wanted}\ngot    {got}")


def numbers(lots):
    """A start and a number of records."""
    start = lots.choice(STARTS) if lots.random() < 0.3 else lots.getrandbits(64)
    return start, lots.choice(COUNTS) if lots.random() < 0.5 else lots.randint(0, 3000)


def summaries(lots, folder):
    """Summaries in files and on standard output."""
    for _ in range(TRIALS):
        start, count = numbers(lots)
        text = trial_sum.summary(trial_sum.make(start, count, trial_sum.FORMAT)).encode()
        out, older = os.path.join(folder, "t"), lots.choice(OLDER)
        if older is None and os.path.exists(out):
            os.remove(out)
        elif older is not None:
            with open(out, "wb") as file:
                file.write(older)
        for name in ("t", "-"):
            words = [str(start), str(count), str(lots.choice((1, 2, 3, 4, 64))), name]
            same(words, run(folder, words), (0, b"" if name == "t" else text, b""))
        with open(out, "rb") as file:
            same(words, file.read(), text)


def faults(folder):
    """What can't be opened or written."""
    for name, stdout, status, told in (
        ("none/t", None, 5, b"cannot open word 4\n"),
        (".", None, 5, b"cannot open word 4\n"),
        ("/dev/full", None, 9, b"cannot write word 4\n"),
        ("-", "/dev/full", 9, b"cannot write word 4\n"),
    ):
        words = ["5", "100", "2", name]
        got, printed, said = run(folder, words, stdout)
        # Behind it the launcher says what the word is, which test_launcher.py compares.
        same(words, (got, printed, said[: len(told)]), (status, b"", told))


def main():
    Words(__doc__).parse_args()
    with tempfile.TemporaryDirectory() as folder:
        summaries(random.Random(SEED), folder)
    with tempfile.TemporaryDirectory() as folder:
        faults(folder)
        same(["all"], os.listdir(folder), [])
    print(f"{TRIALS} trials have the sums that they should, and what can't be written is told")


if __name__ == "__main__":
    main()
