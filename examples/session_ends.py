"""The two ends of a session that `hidrevca serve` answers over named pipes, and its replies.

The program opens IN and OUT of one session after another, and answers each line before it reads the next.
"""

import os
import time

import replies
from script_ends import Wrong


def make_pipes(folder, name):
    """Makes the named pipes of a session, and gives their names: IN, OUT."""
    pipes = [os.path.join(folder, f"{name}.{end}") for end in ("in", "out")]
    for pipe in pipes:
        os.mkfifo(pipe)
    return pipes


def open_pipes(pipes, program, name):
    """Opens IN and then OUT, as the program does: in another order both would wait for ever."""
    while True:
        try:
            # Without a reader this fails at once, where plain opening would wait for one.
            end = os.open(pipes[0], os.O_WRONLY | os.O_NONBLOCK)
            break
        except OSError:
            if program.poll() is not None:
                raise Wrong(f"the program ended with {program.returncode} before {name}'s session") from None
            time.sleep(0.01)
    os.set_blocking(end, True)
    return os.fdopen(end, "wb", 0), open(pipes[1], "rb")


def read_head(come):
    """The head line of the next reply, and how many bytes stand behind it: nothing where the line didn't come whole."""
    first = come.readline(80)
    found = replies.HEAD.fullmatch(first)
    return first, int(found[3] or 0) if found else None
