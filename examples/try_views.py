#!/usr/bin/env python3
"""Compares the whole program with the textbook z-buffer over surveys and cameras that are drawn by lot.

    python3 examples/try_views.py

Surveys of each point data record format, with records close together, far apart and at the ends of their
numbers, are seen through cameras of both kinds: small ones, ones that have a record at an edge of what is
in view, and ones with numbers at the ends of their ranges. They are made by lots.py. Each picture, by `draw` and by a session between
edits, has to be that of reference_draw.py, over the records as they were made; each count that of classes
kept here; and each refusal that of docs/FORMATS.md. The lots are the same each time. Ends with 1 at the
first difference, says survey, line and pixel, and leaves the files.
"""

import collections
import os
import random
import shutil
import subprocess
import sys
import tempfile

import assemble
import reference_draw
from lots import COLOURINGS, RGB, SIZES, View, border_views, class_list, edit, small_camera, survey, view, view_words
from script_ends import Words
from session_lines import DEEPEST, GREATEST, LEAST, PARTS, SCALES, greatest_class

ROOT = os.path.dirname(os.path.dirname(os.path.realpath(__file__)))
SEED = 20
# Records and lines of a survey for each size of coordinates; one with more than 1024 records has fewer lines.
RECORDS, LINES = 40, 100
MANY_RECORDS, FEW_LINES = 1500, 30
BORDER_RECORDS = 100

# A line of a session with its answer.
Line = collections.namedtuple("Line", "text answer")


class Different(Exception):
    """What differs, and where."""


def shown(points, seen):
    return reference_draw.picture(points, seen.numbers, seen.kind, seen.colouring, seen.classes, seen.hides)


def view_line(lots, made, points, version):
    seen = view(lots, made)
    text = " ".join(["view", *view_words(lots, seen)])
    if seen.colouring.startswith("rgb") and made.format not in RGB:
        return Line(text, b"REFUSED 3\n")
    picture = shown(points, seen)
    return Line(text, b"PICTURE %d %d\n" % (version, len(picture)) + picture)


def count_line(lots, made, points, version):
    word, classes = class_list(lots, greatest_class(made.format))
    hides = lots.random() < 0.5
    passing = sum(1 for point in points if point.kind in classes and not (hides and point.withheld))
    return Line(f"count {word} {'hide' if hides else 'show'}", b"COUNT %d %d\n" % (version, passing))


def edit_line(lots, made, points, version):
    """An edit and the records after it, or a refused one, which leaves them."""
    text, box, classes, to = edit(lots, made)
    if to > greatest_class(made.format):
        return Line(text, b"REFUSED 4\n"), points
    after = [
        point._replace(kind=to)
        if point.kind in classes and all(low <= part <= high for part, (low, high) in zip(point.place, box))
        else point
        for point in points
    ]
    changed = sum(1 for old, new in zip(points, after) if old.kind != new.kind)
    return Line(text, b"EDITED %d %d\n" % (version + 1, changed)), after


def session(lots, made, count):
    """Lines with their answers: mostly views, with edits and counts between them."""
    points, version = made.points, 0
    for _ in range(count):
        lot = lots.random()
        if lot < 0.85:
            yield view_line(lots, made, points, version)
        elif lot < 0.95:
            yield count_line(lots, made, points, version)
        else:
            line, points = edit_line(lots, made, points, version)
            version += line.answer.startswith(b"EDITED")
            yield line


def beyond(kind):
    """Cameras with a number out of its range; with the place and the value that are told."""
    least = int(kind == "persp")
    fits = [8, 8, 0, 0, 0, 1, 0, 0, 0, 1, 0, 0, 0, 1, 1, 1, least + 5, 1000]
    ranges = [(1, 4096)] * 2 + [(LEAST, GREATEST)] * 3 + [PARTS] * 9
    ranges += [(1, SCALES[kind]), (1, SCALES["ortho"]), (least, DEEPEST), (least + 5, DEEPEST)]
    for at, (low, high) in enumerate(ranges):
        for value in (low - 1, high + 1):
            yield fits[:at] + [value] + fits[at + 1 :], at + 1, value
    # Each number is in its range and the product isn't; and of two that are out of range the first is told.
    yield [4096, 2305] + fits[2:], 19, 4096 * 2305
    yield [4096, 4096] + fits[2:17] + [least + 4], 18, least + 4
    yield fits[:14] + [0, 0] + fits[16:], 15, 0
    yield fits[:2] + [1 - 10**20] + fits[3:17] + [10**20 - 1], 3, 1 - 10**20


def first_difference(made, line, got):
    """Where an answer differs from the one that is wanted."""
    front, wanted = f"{made.name}\n  {line.text}\n  ", line.answer
    # The head line of a reply, and the three lines of the picture's header.
    heads = b"".join(wanted.splitlines(keepends=True)[: 4 if wanted.startswith(b"PICTURE") else 3])
    if not wanted.startswith((b"PICTURE", b"P6")) or not got.startswith(heads) or len(got) != len(wanted):
        return f"{front}wanted {len(wanted)} bytes, {wanted[:40]!r}\n  got    {len(got)} bytes, {got[:40]!r}"
    width = int(line.text.split()[2 if line.text.startswith("view") else 5])
    at = next(at for at in range(len(heads), len(wanted), 3) if wanted[at : at + 3] != got[at : at + 3])
    row, column = divmod((at - len(heads)) // 3, width)
    return f"{front}column {column}, row {row}: wanted {wanted[at : at + 3].hex()}, got {got[at : at + 3].hex()}"


def run(folder, *line):
    """The status of the program with these words, and the first line that it told."""
    done = subprocess.run([os.path.join(ROOT, "hidrevca"), *line], cwd=folder, stdout=subprocess.PIPE, stderr=subprocess.STDOUT)
    return done.returncode, done.stdout.decode().partition("\n")[0]


def try_session(folder, made, lines, workers):
    """A session of these lines over the survey in the folder."""
    with open(os.path.join(folder, "script"), "w", encoding="ascii") as file:
        file.writelines(f"{line.text}\n" for line in lines)
    ended = run(folder, "serve", "survey.las", str(workers), "journal", "script", "replies")
    if ended != (0, ""):
        raise Different(f"{made.name}: a session of {len(lines)} lines ended with {ended}")
    with open(os.path.join(folder, "replies"), "rb") as file:
        replies = file.read()
    at = 0
    for line in lines:
        got = replies[at : at + len(line.answer)]
        if got != line.answer:
            raise Different(first_difference(made, line, got))
        at += len(line.answer)
    if at != len(replies):
        raise Different(f"{made.name}: {len(replies) - at} bytes follow the replies to {len(lines)} lines")


def try_draw(folder, made, spoken, status, told, picture=None):
    """A draw with the words of a view, which has to end so, and to leave this picture or none."""
    out = os.path.join(folder, "picture.ppm")
    if os.path.exists(out):
        os.remove(out)
    text = " ".join(["draw", "survey.las", "picture.ppm", "1", *spoken])
    ended, there = run(folder, *text.split()), os.path.exists(out)
    if ended != (status, told) or there != (picture is not None):
        raise Different(f"{made.name}\n  {text}\n  ended with {ended} and {'a' if there else 'no'} picture")
    if there:
        with open(out, "rb") as file:
            got = file.read()
        if got != picture:
            raise Different(first_difference(made, Line(text, picture), got))


def tell(tally, records, pictures):
    """Counts the pictures of a survey."""
    tally["surveys"] += 1
    tally["pictures"] += len(pictures)
    tally["pairs"] += records * len(pictures)
    tally["shown"] += sum(any(picture.partition(b"\n255\n")[2]) for picture in pictures)


def try_views(lots, folder, tally):
    """Pictures, counts and edits over surveys of each format and each size."""
    cases = [(form, size, RECORDS, LINES) for form in assemble.FORMATS for size in SIZES]
    cases += [(form, size, MANY_RECORDS, FEW_LINES) for form, size in ((7, "middling"), (1, "small"), (10, "wide"))]
    for form, size, records, count in cases:
        made = survey(lots, folder, form, size, records)
        with open(os.path.join(folder, "survey.las"), "rb") as file:
            if list(reference_draw.read_points(file.read())) != made.points:
                raise Different(f"{made.name}: reference_draw.py reads other records than were made")
        lines = list(session(lots, made, count))
        try_session(folder, made, lines, lots.randint(1, 64))
        pictures = [line.answer for line in lines if line.answer.startswith(b"PICTURE")]
        seen = view(lots, made)
        if seen.colouring.startswith("rgb") and form not in RGB:
            try_draw(folder, made, view_words(lots, seen), 4, f"format {form} has no colour")
        else:
            pictures.append(shown(made.points, seen))
            try_draw(folder, made, view_words(lots, seen), 0, "", pictures[-1])
        tell(tally, records, pictures)


def try_refusals(lots, folder, tally):
    """Numbers out of range and colours that a format hasn't, by a session and by `draw`."""
    for form in (0, 1, 4, 6, 9, 7):
        made = survey(lots, folder, form, "small", RECORDS)
        lines = []
        for kind, rgb in (("ortho", "rgb16"), ("persp", "rgb8")):
            for turn, (numbers, place, value) in enumerate(beyond(kind)):
                # A number out of range goes before colours that the format hasn't.
                spoken = [kind, *map(str, numbers), COLOURINGS[turn % 4], "all", "show"]
                lines += [Line(" ".join(["view", *spoken]), b"REFUSED 2\n")]
                # The numbers before K have one range for both kinds.
                if (form, kind) == (1, "ortho") or (form, kind) == (7, "persp") and place > 14:
                    try_draw(folder, made, spoken, 3, f"camera number {place} is out of range: {value}")
            if form not in RGB:
                spoken = [kind, *map(str, small_camera(lots, kind, [(0, 0, 0)])), rgb, "all", "show"]
                lines += [Line(" ".join(["view", *spoken]), b"REFUSED 3\n")]
                try_draw(folder, made, spoken, 4, f"format {form} has no colour")
        lines += [Line("count all show", b"COUNT 0 %d\n" % RECORDS)]
        try_session(folder, made, lines, 1)
        tally["refusals"] += len(lines) - 1


def try_chosen(lots, folder, tally, records, size, views):
    """Views that are chosen and not drawn by lot, of a survey that is."""
    made = survey(lots, folder, 7, size, records)
    lines = []
    for seen in views:
        picture = shown(made.points, seen)
        lines.append(Line(" ".join(["view", *view_words(lots, seen)]), b"PICTURE 0 %d\n" % len(picture) + picture))
    try_session(folder, made, lines, 1)
    tell(tally, records, [line.answer for line in lines])


def try_borders(lots, folder, tally):
    """Views at the greatest numbers, and pictures of the greatest width, the greatest height and the most pixels."""
    try_chosen(lots, folder, tally, BORDER_RECORDS, "at the ends", border_views())
    cameras = (("ortho", 4096, 2304, 2), ("persp", 2304, 4096, 2000), ("persp", 4096, 1, 9), ("ortho", 1, 4096, 3000))
    front = [0, 0, -3000, 1, 0, 0, 0, 1, 0, 0, 0, 1]
    numbers = [(kind, [width, height, *front, scale, 1, 1, DEEPEST]) for kind, width, height, scale in cameras]
    try_chosen(lots, folder, tally, RECORDS, "middling", [View(*them, "rgb16", "all", range(256), False) for them in numbers])


def main():
    Words(__doc__).parse_args()
    folder, tally = tempfile.mkdtemp(), collections.Counter()
    try:
        for tries in (try_views, try_refusals, try_borders):
            tries(random.Random(SEED), folder, tally)
    except Different as different:
        sys.exit(f"try_views.py: {different}\n  the files are in {folder}")
    shutil.rmtree(folder)
    print(f"{tally['pictures']} pictures of {tally['surveys']} surveys, {tally['pairs']} times a record in one, are the textbook's;")
    print(f"{tally['shown']} of them show a record; {tally['refusals']} lines are refused as they should be")


if __name__ == "__main__":
    main()
