"""The lines of a session: what each asks for or why it is refused, and the line of an edit in the journal.

The grammar and the codes are those of docs/FORMATS.md.
"""

import collections
import re

from reference_draw import COLOURS, NUMBER, RED, classes_of

MOST_BYTES, LONGEST_LINE = 2**20, 4096
# Least and greatest coordinate, part of a vector, and K by the kind of camera; T has that of `ortho`.
LEAST, GREATEST = -(2**31), 2**31 - 1
PARTS = (-32768, 32767)
SCALES = {"ortho": 2**40, "persp": 2**20}
DEEPEST = 2**32 - 2
MOST_PIXELS = 9437184

# What a line asks for. `classes` is a frozen set; a box has both its corners in it.
View = collections.namedtuple("View", "kind numbers colouring classes hides")
Edit = collections.namedtuple("Edit", "least greatest classes to")
Count = collections.namedtuple("Count", "classes hides")
Save = collections.namedtuple("Save", "")
Refused = collections.namedtuple("Refused", "code")
# A line that is answered: its number from 1, its bytes, and what it asks for.
Item = collections.namedtuple("Item", "number text asked")


def answered(data):
    """The number and the bytes of each line that has a reply, a CR at its end left away."""
    lines = data.split(b"\n")
    for number, line in enumerate(lines if lines[-1] else lines[:-1], 1):
        # A line of more than 4096 bytes is refused whatever it holds.
        if len(line) > LONGEST_LINE or line.removesuffix(b"\r").strip(b" \t"):
            yield number, line if len(line) > LONGEST_LINE else line.removesuffix(b"\r")


def items(data, form):
    """What is answered of an input to a session over a survey of this format."""
    if len(data) > MOST_BYTES:
        # Only the lines that end among the first bytes are.
        data = data[: data.rfind(b"\n", 0, MOST_BYTES) + 1]
    return [Item(number, line, asked(line, form)) for number, line in answered(data)]


def asked(line, form):
    """What a line asks for, or the first code by which it is refused."""
    if len(line) > LONGEST_LINE:
        return Refused(1)
    name, *words = [word.decode("latin-1") for word in re.split(b"[ \t]+", line) if word] or [""]
    if name == "save" and not words:
        return Save()
    read = {"view": view, "edit": edit, "count": count}.get(name)
    return read(words, form) if read else Refused(1)


def filter_of(words):
    """The classes of a filter and whether it hides withheld records, or none."""
    if len(words) != 2 or words[1] not in ("show", "hide"):
        return None
    classes = classes_of(words[0])
    return None if classes is None else (frozenset(classes), words[1] == "hide")


def count(words, _):
    passing = filter_of(words)
    return Count(*passing) if passing else Refused(1)


def numbers_of(words):
    return [int(word) for word in words] if all(NUMBER.fullmatch(word) for word in words) else None


def view(words, form):
    if len(words) != 22 or words[0] not in SCALES or words[19] not in COLOURS:
        return Refused(1)
    numbers, passing = numbers_of(words[1:19]), filter_of(words[20:])
    if numbers is None or passing is None:
        return Refused(1)
    if out_of_range(words[0], numbers):
        return Refused(2)
    if words[19].startswith("rgb") and form not in RED:
        return Refused(3)
    return View(words[0], tuple(numbers), words[19], *passing)


def out_of_range(kind, numbers):
    """The place from 1 and the value of the first number of a camera that is out of its range, or none."""
    near = (int(kind == "persp"), DEEPEST)
    ranges = [(1, 4096)] * 2 + [(LEAST, GREATEST)] * 3 + [PARTS] * 9
    ranges += [(1, SCALES[kind]), (1, SCALES["ortho"]), near, (numbers[16], DEEPEST), (1, MOST_PIXELS)]
    for place, (number, (low, high)) in enumerate(zip((*numbers, numbers[0] * numbers[1]), ranges), 1):
        if not low <= number <= high:
            return place, number
    return None


def greatest_class(form):
    return 31 if form <= 5 else 255


def edit(words, form):
    if len(words) != 8 or not re.fullmatch("[0-9]{1,20}", words[7]):
        return Refused(1)
    box, classes, to = numbers_of(words[:6]), classes_of(words[6]), int(words[7])
    if box is None or classes is None or not all(LEAST <= number <= GREATEST for number in box):
        return Refused(1)
    return Edit(tuple(box[:3]), tuple(box[3:]), frozenset(classes), to) if to <= greatest_class(form) else Refused(4)


def class_list(classes):
    """The runs of neighbouring classes in rising order, or `all`."""
    if len(classes) == 256:
        return "all"
    ends = []
    for kind in sorted(classes):
        if ends and ends[-1][1] == kind - 1:
            ends[-1][1] = kind
        else:
            ends.append([kind, kind])
    return ",".join(str(low) if low == high else f"{low}-{high}" for low, high in ends)


def canonical(made):
    """An edit as its line in the journal, without LF."""
    corners = " ".join(str(number) for number in (*made.least, *made.greatest))
    return f"edit {corners} {class_list(made.classes)} {made.to}".encode()
