"""The world file of a picture from above: where its pixels lie on the map."""

import re
from fractions import Fraction

from metres import exact
from script_ends import Wrong

WORD = re.compile(r"-?[0-9]{1,20}")
MOST_SCALE = 2**40


def view_numbers(words):
    """The 18 numbers of view words; `view` may stand before them, and all in one word too."""
    words = " ".join(words).split()
    words = words[1:] if words[:1] == ["view"] else words
    if len(words) != 22:
        raise Wrong(f"a view has 22 words, and {len(words)} are there")
    if words[0] != "ortho":
        raise Wrong(f"a view from above begins with ortho, and not with {words[0]}")
    for word in words[1:19]:
        if not WORD.fullmatch(word):
            raise Wrong(f"{word} is no number")
    return [int(word) for word in words[1:19]]


def check_above(numbers):
    """Refuses numbers that aren't those of a view from above: level, at right angles, of one length, not mirrored."""
    (rx, ry, rz), (dx, dy, dz), (fx, fy, fz) = (numbers[at : at + 3] for at in (5, 8, 11))
    if (fx, fy) != (0, 0) or fz >= 0:
        raise Wrong(f"no view from above: forward {fx} {fy} {fz} isn't straight down")
    if rz != 0 or dz != 0:
        raise Wrong("no view from above: right or down isn't level")
    if rx * dx + ry * dy != 0 or rx * rx + ry * ry != dx * dx + dy * dy or (rx, ry) == (0, 0):
        raise Wrong("no view from above: right and down are not at right angles and of one length")
    if rx * dy - ry * dx > 0:
        raise Wrong("no view from above: the picture is mirrored, since down is turned round")
    if not 1 <= numbers[14] <= MOST_SCALE:
        raise Wrong(f"K is 1 to {MOST_SCALE}, and not {numbers[14]}")


def check_scales(header):
    """Refuses scales of X and Y that turn the map round, or are unequal."""
    x, y = header.scale[:2]
    if min(x, y) <= 0:
        raise Wrong(f"the scales of X and Y aren't above 0: {x!r} and {y!r}")
    if x != y:
        raise Wrong(f"the scales of X and Y are unequal: {x!r} and {y!r}")


def six(numbers, header):
    """The six numbers of the world file: east and north of a step right, of a step down, and of the first centre.

    A pixel holds the places with 0 <= (r . q) / K - i < 1 and the same for its row, where q is the place less
    the eye, i the column less half the width: its centre is at i + 1/2.
    """
    check_above(numbers)
    check_scales(header)
    width, height, ex, ey = numbers[:4]
    rx, ry, dx, dy, k = *numbers[5:7], *numbers[8:10], numbers[14]
    unit, turn = exact(header.scale[0]) * k, rx * dy - ry * dx
    # The inverse of the matrix with the rows r and d.
    right = (unit * dy / turn, -unit * dx / turn)
    down = (-unit * ry / turn, unit * rx / turn)
    column, row = Fraction(1, 2) - width // 2, Fraction(1, 2) - height // 2
    first = [
        exact(header.offset[at]) + exact(header.scale[at]) * eye + column * right[at] + row * down[at]
        for at, eye in ((0, ex), (1, ey))
    ]
    return [*right, *down, *first]


def decimals(number):
    """A fraction in decimals, rounded to 15 places."""
    whole, part = divmod(abs(round(number * 10**15)), 10**15)
    text = f"{whole}.{part:015}".rstrip("0").rstrip(".")
    return f"-{text}" if number < 0 and text != "0" else text


def world_text(numbers, header):
    return "".join(decimals(number) + "\n" for number in six(numbers, header))
