#!/usr/bin/env python3
"""Builds the program for the launcher: proves the crates that it stands on side by side, and says how far it is.

    python3 launcher/build.py ROOT LOG

ROOT is the repository's folder, and LOG gets what rt says. First `rt all check --jobs N` in the program's folder
makes the libraries below it, several at a time, each as soon as those that it stands on are done. Where those that
are left stand one on another, no two can be made at a time: `rt lib` makes one after the other, each by several
processors, and at last `rt run` the program. It goes on so too where the first failed, as for want of memory. rt
keeps what was proved, so a build that is interrupted goes on where it stopped. The status is that of the last
command.
"""

import contextlib
import os
import re
import signal
import subprocess
import sys
import time

PROGRAM = "view_main"
# What a check takes at most but for a few crates, in bytes.
CHECK = 2 << 30
# Between two looks, and between two lines where standard error is no terminal, in seconds.
LOOK, LINE = 0.25, 60


def number_in(file, pattern):
    """The first number of a file of the system that fits this pattern, or none."""
    with contextlib.suppress(OSError):
        with open(file, encoding="ascii", errors="replace") as text:
            found = re.search(pattern, text.read())
            return int(found[1]) if found else None
    return None


def checks_at_once():
    """How many checks the processors and the free memory hold, those of the control group where it has a limit."""
    groups = "/sys/fs/cgroup/"
    free = [1024 * (number_in("/proc/meminfo", r"MemAvailable:\s+(\d+)") or 0)]
    limit, held = (number_in(f"{groups}memory.{it}", r"^(\d+)") for it in ("max", "current"))
    if limit and held is not None:
        free.append(limit - held)
    processors = [len(os.sched_getaffinity(0))]
    quota, period = (number_in(f"{groups}cpu.max", it) for it in (r"^(\d+)", r"^\d+ (\d+)"))
    if quota and period:
        processors.append(quota // period)
    return max(1, min(*processors, min(free) // CHECK))


def crates_of(root):
    """The program and the crates that it stands on, each with all below it, by crates.txt: what it doesn't list is the kit's."""
    listed = {}
    with open(f"{root}/crates.txt", encoding="utf-8") as lines:
        for line in lines:
            head, _, below = line.partition("#")[0].partition(":")
            if head.strip():
                listed[head.split()[0]] = below.split()
    below = {}

    def go_through(name):
        if name not in below:
            below[name] = set()
            for lower in listed.get(name, []):
                if lower in listed:
                    go_through(lower)
                    below[name] |= {lower} | below[lower]

    go_through(PROGRAM)
    return below


def at_work(crates, root):
    """The crates that a process of the kit works on: its words name the crate, and it stands in that crate's folder."""
    found = set()
    for entry in os.listdir("/proc"):
        if not entry.isdigit():
            continue
        with contextlib.suppress(OSError):
            with open(f"/proc/{entry}/cmdline", "rb") as file:
                words = file.read().decode("utf-8", "replace").split("\0")
            name = words[words.index("--crate-name") + 1] if "--crate-name" in words[:-1] else None
            if name in crates and os.path.samefile(f"/proc/{entry}/cwd", f"{root}/crates/{name}"):
                found.add(name)
    return found


class Build:
    """A build as it goes: the crates that are done and at work, and since when."""

    def __init__(self, root, log):
        self.root, self.log, self.read = root, log, 0
        self.below = crates_of(root)
        self.done, self.working, self.told = set(), set(), None
        self.begun = self.said = time.monotonic()
        self.parent = os.getppid()

    def look(self):
        """Looks which crates are done and at work: rt all names each that has ended in a line of its own."""
        with open(self.log, "rb") as file:
            file.seek(self.read)
            piece = file.read()
        # A line that isn't whole yet is read the next time.
        piece = piece[: piece.rfind(b"\n") + 1]
        self.read += len(piece)
        self.done |= {it.decode() for it in re.findall(rb"(?m)^== ([a-z0-9_]+)$", piece)} & self.below.keys() - {PROGRAM}
        self.working = at_work(self.below, self.root) - self.done

    def left(self):
        """The crates that are left, each after those that it stands on."""
        return sorted(self.below.keys() - self.done, key=lambda it: len(self.below[it]))

    def is_row(self):
        """Whether those that are left stand one on another."""
        left = self.left()
        return all(low in self.below[high] for low, high in zip(left, left[1:]))

    def tell(self):
        """Says how far the build is: on a terminal in one line that changes, else in a line for each crate and minute."""
        now = time.monotonic()
        # The program itself can only be at work before the others where all sources are looked through.
        is_first = PROGRAM in self.working and len(self.done) + 1 < len(self.below)
        working = "reading the sources" if is_first else f"at work: {', '.join(sorted(self.working)) or 'none'}"
        counts = f"{len(self.done)} of {len(self.below)} crates done"
        line = f"hidrevca: {counts}, {(now - self.begun) / 60:.1f} minutes; {working}"
        if sys.stderr.isatty():
            say("\r" + line[: os.get_terminal_size(2).columns - 1] + "\033[K")
        elif self.working and (counts != self.told or now - self.said >= LINE):
            self.told, self.said = counts, now
            say(line + "\n")

    def run(self, crate, *words, until=lambda: False):
        """Runs a command of the kit in a crate's folder, until it ends or this is so, and gives its status."""
        with open(self.log, "ab") as log:
            how = {"stdin": subprocess.DEVNULL, "stdout": log, "stderr": subprocess.STDOUT}
            child = subprocess.Popen(["rt", *words], cwd=f"{self.root}/crates/{crate}", **how)
        while True:
            with contextlib.suppress(subprocess.TimeoutExpired):
                return child.wait(LOOK)
            # Where the launcher was killed nobody waits for the program.
            if os.getppid() != self.parent:
                child.terminate()
                sys.exit(1)
            self.look()
            if until():
                child.terminate()
                child.wait()
                return 0
            self.tell()

    def go(self):
        """Builds the program, and gives the status of the last command."""
        if not self.is_row():
            status = self.run(PROGRAM, "all", "check", "--jobs", str(checks_at_once()), until=self.is_row)
            self.look()
            # Some of those that ended weren't made: each is asked for once more, which takes a second where it was.
            self.done = set() if status else self.done
        for crate in self.left()[:-1]:
            status = self.run(crate, "lib")
            if status:
                return status
            self.done.add(crate)
        return self.run(PROGRAM, "run")


def say(text):
    """Writes to standard error, if somebody reads it."""
    with contextlib.suppress(OSError):
        sys.stderr.write(text)
        sys.stderr.flush()


def main():
    if sys.argv[1:] in (["-h"], ["--help"]) or len(sys.argv) != 3:
        print(__doc__)
        return 0 if len(sys.argv) == 2 else 2
    if sys.stderr is None:
        sys.stderr = open(os.devnull, "w", encoding="utf-8")
    # As a shell that waits: an interrupt ends this and the kit's command alike.
    signal.signal(signal.SIGINT, signal.SIG_DFL)
    status = Build(*sys.argv[1:]).go()
    if sys.stderr.isatty():
        say("\r\033[K")
    return status if status >= 0 else 128 - status


if __name__ == "__main__":
    sys.exit(main())
