#!/usr/bin/env python3
"""Runs every command that docs/GUIDE.md and then README.md show, in order, and compares what it prints.

    python3 examples/run_guide.py

The commands are the lines that begin with `$ ` in the blocks marked `console`; what stands below a
command is what it prints, on standard output and standard error together. They run one after
another in one empty folder, in which the programs of this repository are at hand; those of the blocks
marked `console NAME` run in one shell for each name, which stays open as a terminal does. The program is
built first, where it is missing. Ends with 1 where a command prints something else.
"""

import contextlib
import os
import signal
import subprocess
import sys
import tempfile
import threading

from script_ends import Words

ROOT = os.path.dirname(os.path.dirname(os.path.realpath(__file__)))
PAGES = (os.path.join("docs", "GUIDE.md"), "README.md")
# Stands behind what a command prints in a terminal.
MARK = "the command has ended"
# Seconds that a command in a terminal may take.
LONGEST = 60


def steps(text):
    """The terminal of each command of the guide, the command, and the lines that it prints."""
    inside, found = None, []
    for line in text.splitlines():
        if line.startswith("```"):
            name, _, terminal = line[3:].partition(" ")
            inside = terminal if name == "console" else None
        elif inside is not None and line.startswith("$ "):
            found.append([inside, line[2:], []])
        elif inside is not None and found[-1][1].endswith("\\"):
            found[-1][1] += "\n" + line
        elif inside is not None:
            found[-1][2].append(line)
    return found


class Terminal:
    """A shell that stays open between its commands."""

    def __init__(self, folder):
        pipes = {"stdin": subprocess.PIPE, "stdout": subprocess.PIPE, "stderr": subprocess.STDOUT}
        # A session of its own, so that what runs behind goes with it.
        self.shell = subprocess.Popen(["bash"], cwd=folder, start_new_session=True, **pipes)

    def run(self, command):
        """What a command prints."""
        limit = threading.Timer(LONGEST, self.kill)
        limit.start()
        printed = b""
        try:
            self.shell.stdin.write(f"{command}\nprintf '\\n%s\\n' '{MARK}'\n".encode())
            self.shell.stdin.flush()
            for line in self.shell.stdout:
                if line == MARK.encode() + b"\n":
                    return printed[:-1]
                printed += line
        except BrokenPipeError:
            pass
        finally:
            limit.cancel()
        return printed + b"(the terminal is gone)"

    def kill(self):
        with contextlib.suppress(ProcessLookupError):
            os.killpg(self.shell.pid, signal.SIGKILL)

    def close(self):
        self.kill()
        self.shell.communicate()


def alone(folder, command):
    """What a command prints in a shell of its own."""
    return subprocess.run(["bash", "-c", command], cwd=folder, stdout=subprocess.PIPE, stderr=subprocess.STDOUT).stdout


def main():
    Words(__doc__).parse_args()
    commands = []
    for name in PAGES:
        with open(os.path.join(ROOT, name), encoding="utf-8") as page:
            commands += steps(page.read())
    # Without words it is refused at once, with 2.
    built = subprocess.run([os.path.join(ROOT, "hidrevca")], stdout=subprocess.DEVNULL, stderr=subprocess.PIPE)
    if built.returncode != 2:
        sys.exit(f"the program can't be run: {built.stderr.decode('utf-8', 'replace')}")
    wrong, terminals = 0, {}
    with tempfile.TemporaryDirectory() as folder:
        for name in ("hidrevca", "demo", "demo-out", "examples", "viewer"):
            os.symlink(os.path.join(ROOT, name), os.path.join(folder, name))
        for terminal, command, expected in commands:
            if terminal and terminal not in terminals:
                terminals[terminal] = Terminal(folder)
            printed = terminals[terminal].run(command) if terminal else alone(folder, command)
            printed = printed.decode("utf-8", "replace").splitlines()
            if printed != expected:
                wrong += 1
                print(f"$ {command}\nwanted: {expected}\nprinted: {printed}")
        for terminal in terminals.values():
            terminal.close()
    print(f"{len(commands) - wrong} of {len(commands)} commands of the guide and the README print what they show")
    sys.exit(1 if wrong or not commands else 0)


main()
