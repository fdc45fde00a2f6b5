#!/usr/bin/env python3
"""Tries that one worker starts no thread: each command runs where the system ends a program that does.

    python3 examples/try_one_worker.py

A filter of system calls (seccomp) ends the program at its first `clone` or `clone3`. With one worker
each command has to end as it does without the filter, and with two workers the filter has to end those
that share work, so that a filter that does nothing is seen. Linux on x86-64 only; elsewhere nothing is
tried. Prints a line for each run, and ends with 1 at the first that is wrong. The program is built
first, where it is missing.
"""

import ctypes
import os
import platform
import signal
import subprocess
import sys
import tempfile

from real_runs import CAMERA, ROOT, built, survey, wrong
from script_ends import Words

# The program without its launcher, which starts programs itself.
BUILT = os.path.join(ROOT, "crates/view_main/out/view_main")

# Records in no order of space, enough that two workers share each pass over them.
MANY = survey([(i * 97 % 5003, i * 31 % 97, i % 11, 2) for i in range(8000)])

# What each command of one or more workers writes, and its words behind them.
COMMANDS = {
    "draw": lambda workers: ["draw", "a", "o", workers, *CAMERA[1:]],
    "serve": lambda workers: ["serve", "a", workers, "j", "i", "o"],
    "trial": lambda workers: ["trial", "5", "8000", workers, "o"],
}

PR_SET_SECCOMP = 22
PR_SET_NO_NEW_PRIVS = 38
SECCOMP_MODE_FILTER = 2

# Loads the number of the call, jumps to the end of the process for `clone` and `clone3`, and lets all
# others pass (linux/bpf_common.h, linux/seccomp.h; the numbers are those of x86-64).
FILTER = [
    (0x20, 0, 0, 0),
    (0x15, 2, 0, 56),
    (0x15, 1, 0, 435),
    (0x06, 0, 0, 0x7FFF0000),
    (0x06, 0, 0, 0x80000000),
]


class Step(ctypes.Structure):
    """One step of a filter."""

    _fields_ = [("code", ctypes.c_uint16), ("jt", ctypes.c_uint8), ("jf", ctypes.c_uint8), ("k", ctypes.c_uint32)]


class Steps(ctypes.Structure):
    """A filter."""

    _fields_ = [("length", ctypes.c_uint16), ("steps", ctypes.POINTER(Step))]


def refuse_threads():
    """Has the system end this process where it starts a thread or a process."""
    libc = ctypes.CDLL(None)
    steps = (Step * len(FILTER))(*[Step(*step) for step in FILTER])
    filter_ = Steps(len(FILTER), steps)
    if libc.prctl(PR_SET_NO_NEW_PRIVS, 1, 0, 0, 0) != 0:
        os._exit(99)
    if libc.prctl(PR_SET_SECCOMP, SECCOMP_MODE_FILTER, ctypes.byref(filter_), 0, 0) != 0:
        os._exit(98)


def run(words, before):
    """The status of a run in a folder of its own, and what it wrote."""
    with tempfile.TemporaryDirectory() as folder:
        for name, content in (("a", MANY), ("i", b"count all show\n")):
            with open(os.path.join(folder, name), "wb") as file:
                file.write(content)
        done = subprocess.run([BUILT, *words], cwd=folder, preexec_fn=before, capture_output=True)
        output = os.path.join(folder, "o")
        with open(output, "rb") if os.path.exists(output) else open(os.devnull, "rb") as file:
            return done.returncode, file.read()


def main():
    Words(__doc__).parse_args()
    if sys.platform != "linux" or platform.machine() != "x86_64":
        print("not tried: the filter is of Linux on x86-64")
        return
    built()
    for name, words in COMMANDS.items():
        free = run(words("1"), None)
        if free[0] != 0 or not free[1]:
            wrong(name, "a run without the filter", 0, free)
        alone = run(words("1"), refuse_threads)
        if alone != free:
            wrong(name, "one worker where threads are refused", free, alone)
        shared = run(words("2"), refuse_threads)
        if shared[0] != -signal.SIGSYS:
            wrong(name, "two workers where threads are refused", -signal.SIGSYS, shared[0])
        print(f"right: {name}: one worker starts no thread, and two do")


if __name__ == "__main__":
    main()
