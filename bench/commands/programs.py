"""A program at work, by its words, or as sessions over named pipes; none can hang."""

import collections
import os
import signal
import subprocess
import tempfile
import threading
import time

from script_ends import Wrong

PIPE = 1 << 16  # bytes that a pipe holds
END = b"REFUSED 1\n"  # what a line is answered that is none

# What is added to the variables of this process, and where outputs go.
Program = collections.namedtuple("Program", "path variables folder")


class Run:
    """A program at work, which is ended where it takes too long."""

    def __init__(self, program, words, limit):
        self.begun, self.until = time.perf_counter(), time.perf_counter() + limit
        self.errors = tempfile.TemporaryFile()
        self.child = subprocess.Popen(
            [program.path, *map(str, words)], stdin=subprocess.DEVNULL, stdout=subprocess.DEVNULL,
            stderr=self.errors, env={**os.environ, **program.variables},
        )
        self.timer = threading.Timer(limit, self.kill)
        self.timer.start()

    def kill(self):
        # It is there until it is waited for, so the number is its own.
        os.kill(self.child.pid, signal.SIGKILL)

    def wait(self):
        """Milliseconds from its start to its end, its status, and its greatest memory in MB."""
        os.waitid(os.P_PID, self.child.pid, os.WEXITED | os.WNOWAIT)
        taken = 1000 * (time.perf_counter() - self.begun)
        self.timer.cancel()
        self.timer.join()
        _, status, used = os.wait4(self.child.pid, 0)
        self.child.returncode = os.waitstatus_to_exitcode(status)
        return taken, self.child.returncode, used.ru_maxrss / 1024

    def finish(self):
        """Milliseconds and memory of a run that ends well."""
        taken, status, memory = self.wait()
        if status:
            raise self.wrong(f"ended with {status}")
        return taken, memory

    def wrong(self, what):
        self.errors.seek(0)
        told = self.errors.read(200).decode("utf-8", "replace").strip()
        return Wrong(f"{' '.join(map(str, self.child.args))[:120]}: {what}" + (f": {told}" if told else ""))

    def has_ended(self):
        return os.waitid(os.P_PID, self.child.pid, os.WEXITED | os.WNOHANG | os.WNOWAIT) is not None

    def __enter__(self):
        return self

    def __exit__(self, *_):
        if self.child.returncode is None:
            self.kill()
            self.wait()
        self.errors.close()


class Serve(Run):
    """A serve whose INs are named pipes. This end holds each open for both ways, so no opening waits,
    and the program keeps its OUTs open for as long as it likes: what came is seen by their length."""

    def __init__(self, program, survey, workers, limit, outs):
        self.outs, self.ins = outs, []
        self.journal = os.path.join(program.folder, "journal")
        words = ["serve", survey.path, workers, self.journal]
        for number, out in enumerate(outs):
            name = os.path.join(program.folder, f"{number}.in")
            os.mkfifo(name)
            self.ins.append(os.open(name, os.O_RDWR))
            words += [name, out]
        super().__init__(program, words, limit)

    def __exit__(self, *stopped):
        for end in self.ins:
            os.close(end)
        super().__exit__(*stopped)

    def write(self, number, lines):
        text = "".join(f"{line}\n" for line in lines).encode()
        if len(text) > PIPE:
            raise Wrong(f"{len(text)} bytes of lines, and a pipe holds {PIPE}")
        os.write(self.ins[number], text)

    def ask(self, *asked):
        """Milliseconds until each session has answered its lines, and a last one that is none."""
        lengths, begun = [length(out) for out in self.outs], time.perf_counter()
        for number, lines in enumerate(asked):
            self.write(number, [*lines, "end"])
        waiting = list(zip(self.outs, lengths))
        while waiting := [(out, before) for out, before in waiting if not has_answered(out, before)]:
            if self.has_ended() or time.perf_counter() > self.until:
                raise self.wrong("no reply came")
            time.sleep(0.0005)
        return 1000 * (time.perf_counter() - begun)

    def close(self):
        """Ends all inputs, waits for the end, and gives the greatest memory in MB."""
        for end in self.ins:
            os.close(end)
        self.ins = []
        return self.finish()[1]


def length(name):
    return os.path.getsize(name) if os.path.exists(name) else 0


def has_answered(out, before):
    """Whether an output that had so many bytes ends by one more answer to a line that is none."""
    if length(out) < before + len(END):
        return False
    with open(out, "rb") as file:
        file.seek(-len(END), os.SEEK_END)
        return file.read(len(END)) == END
