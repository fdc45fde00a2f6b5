#!/usr/bin/env python3
"""Prints the edit line of a box that is given by map coordinates, or by pixels of a view from above.

    python3 examples/edit_box.py --survey SURVEY --from E N Z --to E N Z FROM TO
    python3 examples/edit_box.py --view WORDS --pixels C R C R [--survey SURVEY --heights Z Z] FROM TO

--from, --to   two opposite corners in metres; records on them are in the box
--view         the words of the view, as one word of the shell, or `-` for standard input; one from
               above, with columns along X, rows along Y and forward straight down
--pixels       column and row of two opposite pixels of its picture, from 0, both in the box
--heights      the least and the greatest height in metres; without it the box has every height,
               also where NEAR and FAR of the view are a slice
FROM           a class list: the classes that are changed, as `all` or `2,5-7`
TO             the class that they get
"""

import re
import sys
from fractions import Fraction

from header import read_header
from metres import INT_MAX, INT_MIN, Grid, decimal, span
from script_ends import Words, Wrong, read_text, run

ITEM = r"[0-9]{1,20}(-[0-9]{1,20})?"


def is_class_list(word):
    if word == "all":
        return True
    if not re.fullmatch(f"{ITEM}(,{ITEM})*", word):
        return False
    ranges = [[int(end) for end in item.split("-")] for item in word.split(",")]
    return all(ends == sorted(ends) and ends[-1] <= 255 for ends in ranges)


def view_from_above(text):
    """The 18 numbers of the words of a view, which has to be one from above."""
    words = text.split()
    words = words[1:] if words[:1] == ["view"] else words
    if len(words) != 22 or words[0] != "ortho":
        raise Wrong("the view isn't 22 words that begin with `ortho`")
    try:
        numbers = [int(word) for word in words[1:19]]
    except ValueError:
        raise Wrong("a number of the view is no whole number") from None
    width, height = numbers[:2]
    right, down, forward = numbers[5:8], numbers[8:11], numbers[11:14]
    if width < 1 or height < 1 or numbers[14] < 1:
        raise Wrong("W, H and K of the view are 1 or more")
    straight = right[0] and right[1:] == [0, 0] and down[1] and down[::2] == [0, 0]
    if not straight or forward[:2] != [0, 0] or forward[2] >= 0:
        raise Wrong("the view isn't one from above, with columns along X and rows along Y")
    return numbers


def along(axis, one, other, pixels, eye, part, k):
    """The units that fall on the columns, or the rows, from one to the other."""
    for pixel in (one, other):
        if not 0 <= pixel < pixels:
            raise Wrong(f"{('column', 'row')[axis]} {pixel} isn't in the picture, which has {pixels}")
    # first * K <= part * (unit - eye) < (last + 1) * K, counted from the picture's middle
    first, last = min(one, other) - pixels // 2, max(one, other) - pixels // 2
    return span(axis, eye + Fraction(first * k, part), eye + Fraction((last + 1) * k - 1, part))


def box_of_pixels(numbers, corners):
    """The units in X and Y of a rectangle of pixels."""
    k = numbers[14]
    x = along(0, corners[0], corners[2], numbers[0], numbers[2], numbers[5], k)
    y = along(1, corners[1], corners[3], numbers[1], numbers[3], numbers[9], k)
    return x, y


def line(spans, classes, to):
    numbers = [low for low, _ in spans] + [high for _, high in spans]
    return " ".join(["edit", *map(str, numbers), classes, str(to)])


def read_words(args):
    parser = Words(__doc__)
    parser.add_argument("classes", metavar="FROM")
    parser.add_argument("to", metavar="TO", type=int)
    parser.add_argument("--survey")
    parser.add_argument("--from", dest="one", nargs=3, type=decimal, metavar=("E", "N", "Z"))
    parser.add_argument("--to", dest="other", nargs=3, type=decimal, metavar=("E", "N", "Z"))
    parser.add_argument("--view", metavar="WORDS")
    parser.add_argument("--pixels", nargs=4, type=int, metavar=("C", "R", "C", "R"))
    parser.add_argument("--heights", nargs=2, type=decimal, metavar=("Z", "Z"))
    words = parser.parse_args(args)
    metres, pixels = (words.one, words.other), (words.view, words.pixels)
    if not (all(metres) and not any(pixels) and not words.heights or all(pixels) and not any(metres)):
        parser.error("give --from and --to, or --view and --pixels")
    if (words.one or words.heights) and not words.survey:
        parser.error("metres need --survey")
    if words.survey == "-" and words.view == "-":
        parser.error("only one of --survey and --view is standard input")
    if not is_class_list(words.classes):
        parser.error(f"{words.classes!r} is no class list")
    if not 0 <= words.to <= 255:
        parser.error(f"class {words.to} isn't one of 0 to 255")
    return words


def main(args):
    words = read_words(args)
    header = read_header(words.survey) if words.survey else None
    if header and header.form <= 5 and words.to > 31:
        raise Wrong(f"class {words.to} has no room in point data record format {header.form}: 31 is its greatest")
    grid = Grid(header) if header else None
    if words.one:
        spans = [grid.span(axis, words.one[axis], words.other[axis]) for axis in range(3)]
    else:
        text = read_text("-") if words.view == "-" else words.view
        heights = grid.span(2, *words.heights) if words.heights else (INT_MIN, INT_MAX)
        spans = [*box_of_pixels(view_from_above(text), words.pixels), heights]
    print(line(spans, words.classes, words.to))


if __name__ == "__main__":
    run(lambda: main(sys.argv[1:]), "edit_box.py")
