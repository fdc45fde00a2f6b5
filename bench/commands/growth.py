"""What a picture costs by its parts, and how that grows with records, pixels, workers and sessions."""

import os
import shutil

from programs import Run, Serve
from surveys import surveys
from works import HIGH, WIDE, above, views, whole

SHARES = 8, 4, 2, 1  # of which parts of the records there are surveys
SIZES = (480, 270), (960, 540), (1920, 1080), (3840, 2160)


def picture(share=1, workers=1, size=(WIDE, HIGH), is_empty=False):
    """A draw from above of everything, or of nothing from beside it."""

    def work(program, made, limit):
        survey = made[share]
        shift = 4 * survey.side if is_empty else 0
        words = above(survey, 1, shift, *size).split()
        with Run(program, ["draw", survey.path, os.path.join(program.folder, "picture"), workers, *words], limit) as it:
            return it.finish()[0]

    return work


def talk(sessions, lines, workers=4):
    """Milliseconds a line of so many sessions at once; without lines, from the start to the first replies."""

    def work(program, made, limit):
        outs = [os.path.join(program.folder, f"{number}.out") for number in range(sessions)]
        with Serve(program, made[1], workers, limit, outs) as it:
            taken = it.ask(*[["count 2 show"]] * sessions)
            if asked := lines(made[1]):
                taken = it.ask(*[asked] * sessions) / (len(asked) * sessions)
            it.close()
        return taken

    return work


def nothing(survey, shift=0):
    return above(survey, 1, 4 * survey.side + shift)


def seen(part, size):
    """The words of views of all records or of a part of them, in pictures of a size."""
    return lambda survey, shift=0: above(survey, part, shift, *size)


def all_and_hundredth(size, workers):
    """Views of one session of a size, of all records and of 1% of them."""
    group = f"{size[0]} by {size[1]}, a session's view, {workers} {'worker' if workers == 1 else 'workers'}"
    return {
        (group, name): talk(1, lambda survey, part=part: views(seen(part, size), survey, 4), workers)
        for name, part in (("all records", 1), ("1% of them", 100))
    }


CASES = {
    ("parts of a draw, 1 worker", "one pixel that shows nothing"): picture(size=(1, 1), is_empty=True),
    ("parts of a draw, 1 worker", "a picture that shows nothing"): picture(is_empty=True),
    ("parts of a draw, 1 worker", "all records"): picture(),
    ("parts of a session, 1 worker", "until the first reply"): talk(1, lambda survey: [], 1),
    ("parts of a session, 1 worker", "a view that shows nothing"): talk(1, lambda survey: views(nothing, survey, 4), 1),
    ("parts of a session, 1 worker", "a view of all records"): talk(1, lambda survey: views(whole, survey, 4), 1),
    **{("records, draw, 1 worker", f"1/{share} of them"): picture(share=share) for share in SHARES},
    **{("pixels, draw, 1 worker", f"{wide} by {high}"): picture(size=(wide, high)) for wide, high in SIZES},
    **{case: work for size in SIZES[:3] for workers in (1, 4) for case, work in all_and_hundredth(size, workers).items()},
    **{("workers, draw", str(workers)): picture(workers=workers) for workers in (1, 2, 3, 4)},
    **{("workers, a session's view", str(workers)): talk(1, lambda survey: views(whole, survey, 4), workers) for workers in (1, 2, 4)},
    **{("sessions, a view, 4 workers", str(count)): talk(count, lambda survey: views(whole, survey, 4)) for count in (1, 2, 4, 8, 16)},
}


def grown(program, folder, records, rounds, limit, say):
    """The least milliseconds of each case over each survey."""
    made = {share: list(surveys(folder, records // share)) for share in SHARES}
    least = {}
    for turn in range(rounds):
        for place in range(2):
            for (group, name), work in CASES.items():
                by_share = {share: both[place] for share, both in made.items()}
                say(f"round {turn + 1} of {rounds}, {by_share[1].name}: {group}: {name}")
                shutil.rmtree(program.folder, ignore_errors=True)
                os.mkdir(program.folder)
                key = by_share[1].name, group, name
                least[key] = min(work(program, by_share, limit), least.get(key, float("inf")))
    shutil.rmtree(program.folder)
    return [{"survey": survey, "group": group, "case": name, "ms": ms} for (survey, group, name), ms in least.items()]
