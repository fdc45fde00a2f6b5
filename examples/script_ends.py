"""What the scripts share: bytes read and written by name or `-`, and an end with one line.

A script raises `Wrong` with the line that says what is wrong, and `run` ends it so.
"""

import argparse
import os
import sys


class Wrong(Exception):
    """What is wrong with an input, in one line."""


class Words(argparse.ArgumentParser):
    """The words of a script, whose help is its own text, and whose errors are one line and status 2."""

    def __init__(self, text):
        super().__init__(description=text, formatter_class=argparse.RawDescriptionHelpFormatter, allow_abbrev=False)

    def error(self, message):
        self.exit(2, f"{self.prog}: {message} (--help tells the words)\n")


def read_bytes(name):
    """All bytes of a file, or of standard input for `-`."""
    if name == "-":
        return sys.stdin.buffer.read()
    try:
        with open(name, "rb") as file:
            return file.read()
    except (OSError, ValueError) as fault:
        raise Wrong(f"cannot read {name}: {reason(fault)}") from None


def open_bytes(name):
    """A file to read from, or standard input for `-`."""
    if name == "-":
        return sys.stdin.buffer
    try:
        return open(name, "rb")
    except (OSError, ValueError) as fault:
        raise Wrong(f"cannot read {name}: {reason(fault)}") from None


def standard_input():
    """Standard input, where it is open."""
    if sys.stdin is None:
        raise Wrong("it is closed")
    return sys.stdin.buffer


def read_text(name):
    """The text of a file, or of standard input for `-`."""
    return read_bytes(name).decode("utf-8", "replace")


def write_bytes(name, content):
    """Writes these bytes into a file, or to standard output for `-`."""
    try:
        if name == "-":
            sys.stdout.buffer.write(content)
            sys.stdout.buffer.flush()
        else:
            with open(name, "wb") as file:
                file.write(content)
    except (OSError, ValueError) as fault:
        if name == "-":
            leave_output()
        raise Wrong(f"cannot write {name}: {reason(fault)}") from None


def reason(fault):
    """The system's own words on a fault."""
    return getattr(fault, "strerror", None) or str(fault)


def leave_output():
    """Lets nothing more go to standard output, whose reader went away: else Python tells of it at the end."""
    os.dup2(os.open(os.devnull, os.O_WRONLY), sys.stdout.fileno())


def run(main, name):
    """Runs a script's main, and ends with 1 and one line of this name where something is wrong."""
    # A stream that was closed is none to Python; the input is empty then.
    if sys.stdout is None:
        sys.exit(f"{name}: standard output is closed")
    sys.stdin = sys.stdin or open(os.devnull, encoding="utf-8")
    sys.stdout.reconfigure(errors="backslashreplace")
    try:
        status = main()
        sys.stdout.flush()
    except Wrong as wrong:
        sys.exit(f"{name}: {wrong}")
    except OSError as fault:
        # Without a name it was standard output that failed.
        if fault.filename is None:
            leave_output()
        sys.exit(f"{name}: {reason(fault)}" + (f": {fault.filename}" if fault.filename is not None else ""))
    except MemoryError:
        sys.exit(f"{name}: out of memory")
    except KeyboardInterrupt:
        sys.exit(130)
    sys.exit(status or 0)
