"""What is timed. Each work gives its numbers by name and workers, and the files that all programs write alike."""

import contextlib
import math
import os
import random
import select
import statistics
import time

from programs import Run, Serve
from script_ends import write_bytes

WIDE, HIGH = 1920, 1080
LEAST, MOST = -(2**31), 2**31 - 1
EYE = 100000  # above all records
START = "serve, from start to the first reply"


def above(survey, part, shift=0, wide=WIDE, high=HIGH):
    """The words of a view from above of the whole survey, or of a part of it round the middle."""
    middle = survey.side // 2
    step = -(-survey.side // high) if part == 1 else max(1, math.isqrt(survey.side**2 // (part * wide * high)))
    return f"ortho {wide} {high} {middle + shift} {middle} {EYE} 1 0 0 0 -1 0 0 0 -1 {step} 1 0 4294967294 class all show"


def slanted(survey, shift=0):
    """The words of a view in perspective from the south, 45 degrees down."""
    side, turn = survey.side, "1000 0 0 0 -707 -707 0 707 -707"
    eye = f"{side // 2 + shift} {-side // 4} {side // 2}"
    return f"persp {WIDE} {HIGH} {eye} {turn} 1200 1000 1 4294967294 intensity all show"


def views(words, survey, count):
    """So many lines, each a little beside the one before."""
    return [f"view {words(survey, shift=k * survey.side // 400)}" for k in range(count)]


def whole(survey, shift=0):
    return above(survey, 1, shift)


def hundredth(survey, shift=0):
    return above(survey, 100, shift)


def small_edits(survey, count):
    """Edits in boxes that have about 1000 records each, all over the survey."""
    wide, draws, lines = math.isqrt(1000 * survey.side**2 // survey.records), random.Random(count), []
    for k in range(count):
        x, y = (draws.randrange(survey.side - wide) for _ in "xy")
        lines.append(f"edit {x} {y} {LEAST} {x + wide} {y + wide} {MOST} all {k % 30}")
    return lines


def half_edits(survey, count):
    """Edits of the western half, each to another class."""
    return [f"edit {LEAST} {LEAST} {LEAST} {survey.side // 2} {MOST} {MOST} all {k}" for k in range(count)]


def parts(survey, workers):
    """What one session is asked, part by part."""
    asked = {
        "session, overview": views(whole, survey, 4),
        "session, 1% of the survey": views(hundredth, survey, 12),
        "session, perspective": views(slanted, survey, 4),
    }
    if workers > 1:
        asked |= {
            "count": ["count 2,5-6 show"] * 20,
            "count, withheld hidden": ["count 2,5-6 hide"] * 20,
            "edit of some 1000 records": small_edits(survey, 100),
            "edit of half the survey": half_edits(survey, 4),
            "save": ["save"],
        }
    return asked


def draw(name, workers, words):
    def work(program, survey, limit):
        out = os.path.join(program.folder, "picture")
        with Run(program, ["draw", survey.path, out, workers, *words(survey).split()], limit) as it:
            taken, memory = it.finish()
        found = {(name, workers): taken}
        return found | ({("memory: draw", workers): memory} if name == "draw" else {}), [out]

    return work


def session(workers):
    def work(program, survey, limit):
        outs = [os.path.join(program.folder, "0.out")]
        with Serve(program, survey, workers, limit, outs) as it:
            it.ask(["count 2 show"])
            found = {(START, workers): 1000 * (time.perf_counter() - it.begun)}
            for name, lines in parts(survey, workers).items():
                found[name, workers] = it.ask(lines) / len(lines)
            found["memory: one session", workers] = it.close()
        return found, [*outs, it.journal]

    return work


def sixteen(program, survey, limit):
    """Sixteen sessions at once, each with two overviews and two views of a hundredth."""
    outs = [os.path.join(program.folder, f"{number}.out") for number in range(16)]
    asked = [[*views(whole, survey, 2), *views(hundredth, survey, 2)]] * 16
    with Serve(program, survey, 4, limit, outs) as it:
        it.ask(*[["count 2 show"]] * 16)
        taken = it.ask(*asked)
        memory = it.close()
    return {("sixteen sessions, 4 views each", 4): taken / 64, ("memory: sixteen sessions", 4): memory}, [*outs, it.journal]


def beside_eight(program, survey, limit):
    """The middle time from an edit to its reply, while eight other sessions draw without an end."""
    outs = [os.path.join(program.folder, f"{number}.out") for number in range(9)]
    os.mkfifo(outs[0])
    for out in outs[1:]:
        os.symlink(os.devnull, out)
    replies = os.open(outs[0], os.O_RDWR | os.O_NONBLOCK)
    with contextlib.closing(os.fdopen(replies, "rb", 0)), Serve(program, survey, 4, limit, outs) as it:
        said, taken = [], []
        for number, line in enumerate(["count 2 show", *small_edits(survey, 40)]):
            begun = time.perf_counter()
            it.write(0, [line])
            said.append(reply(it, replies))
            taken.append(1000 * (time.perf_counter() - begun))
            if number == 0:
                for other in range(1, 9):
                    it.write(other, views(whole, survey, 200))
                time.sleep(0.3)
            time.sleep(0.01)
    kept = os.path.join(program.folder, "replies")
    write_bytes(kept, b"".join(said))
    return {("edit beside eight sessions that draw, middle reply", 4): statistics.median(taken[1:])}, [kept]


def reply(it, end):
    """One line from a pipe."""
    got = b""
    while not got.endswith(b"\n"):
        if it.has_ended() or time.perf_counter() > it.until:
            raise it.wrong("no reply came")
        if select.select([end], [], [], 0.5)[0]:
            got += os.read(end, 4096)
    return got


WORKS = {
    "draw, 1 worker": draw("draw", 1, whole),
    "draw, 4 workers": draw("draw", 4, whole),
    "draw of 1%, 4 workers": draw("draw, 1% of the survey", 4, hundredth),
    "one session, 1 worker": session(1),
    "one session, 4 workers": session(4),
    "sixteen sessions": sixteen,
    "an edit beside others": beside_eight,
}
