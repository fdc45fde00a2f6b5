#!/usr/bin/env python3
"""Prints view words that aim a camera at a survey, or at a place of it.

The text of `info` comes on standard input:

    ./hidrevca info survey.las - | python3 examples/aim.py above W H [COLOUR CLASSES WITHHELD]
    ./hidrevca info survey.las - | python3 examples/aim.py south W H [COLOUR CLASSES WITHHELD]
    ./hidrevca info survey.las - | python3 examples/aim.py round X Y R W H [COLOUR CLASSES WITHHELD]

or scale, offset and bounds are read from the survey's header, and places are map coordinates:

    python3 examples/aim.py above W H --survey SURVEY [--at E N --width METRES]
    python3 examples/aim.py angle W H --survey SURVEY --down DEGREES --towards DEGREES
                                      [--at E N --width METRES [--height Z]]
    python3 examples/aim.py persp W H --survey SURVEY --eye E N Z --look E N Z --angle DEGREES

above   looks straight down, north at the top: the whole survey.
south   stands in the south and looks north and down, 3 down for each 4 ahead: the whole survey.
round   looks straight down at what lies up to R file units from the place X Y, east, north, west
        and south of it.
angle   looks so many degrees down from the horizon, 0 to 90, in a direction of the compass: towards
        0 is north and 90 east. At 90 degrees down that direction is at the top.
persp   stands at a place and looks at another one, which is in the middle of the picture, with an angle
        of view across its width, above 0 and below 180 degrees. What is farther is smaller.

--at E N and --width put that place on the middle pixel, column W / 2 and row H / 2, and so many metres
across the picture; --height says how high the place lies, without it amid the least and the greatest.
--survey weighs the vectors where units of X, Y and Z differ. --info TEXT takes the box from a text of
`info`, `-` for standard input, where the bounds in the header aren't those of the records.

W and H are the picture's width and height in pixels, 2 to 4096, and at most 9437184 pixels in all.
COLOUR, CLASSES and WITHHELD are those of the view words, `class all show` where they are left out.
The words are 22, for the end of a `draw` line or after `view` in a session:

    ./hidrevca draw survey.las map.ppm 4 $(./hidrevca info survey.las - | python3 examples/aim.py above 1024 768)

All cameras but persp are orthographic: a pixel is a square of the same size everywhere. Where nothing of
the survey's box is in view, a line on standard error says so.
"""

import math
import os
import stat
import sys
from fractions import Fraction

import perspective
from header import read_header
from metres import INT_MAX, INT_MIN, Grid, at_least, corners_of, cross, decimal, dot
from script_ends import Words, Wrong, read_text, run

MOST_DEPTH = 2**32 - 2
MOST_PIXELS = 9437184
MOST_SCALE = 2**40
MOST_PART = 32767
# What sine and cosine are multiplied by, to be parts of a vector.
LENGTH = 16384

# right, down and forward of a picture: at right angles to each other and of one length
ABOVE = ((1, 0, 0), (0, -1, 0), (0, 0, -1))
SOUTH = ((5, 0, 0), (0, -3, -4), (0, 4, -3))


def box_of(text):
    """The least and the greatest corner in a text of `info`."""
    for line in text.splitlines():
        words = line.split()
        if words and words[0] == "box" and len(words) == 7:
            try:
                numbers = [int(word) for word in words[1:]]
            except ValueError:
                raise Wrong("the box in the text of `info` isn't of whole numbers") from None
            return numbers[:3], numbers[3:]
    raise Wrong("the text of `info` has no box: the survey has no records, or it is another text")


def piped_box(name):
    """The box of a text of `info`. Where nothing came through a pipe, its writer has said why."""
    text = read_text(name)
    if not text and name == "-" and stat.S_ISFIFO(os.fstat(sys.stdin.fileno()).st_mode):
        sys.exit(1)
    return box_of(text)


def turned(down, towards):
    """The axes of a camera that looks down from the horizon, towards a direction of the compass."""
    down, towards = math.radians(down), math.radians(towards)
    east, north = math.sin(towards), math.cos(towards)
    level, deep = math.cos(down), math.sin(down)
    return (north, -east, 0), (-deep * east, -deep * north, -level), (level * east, level * north, -deep)


def weights_of(scale):
    """How many of the greatest common unit each unit has, and that unit."""
    below = math.lcm(*(number.denominator for number in scale))
    unit = Fraction(math.gcd(*(int(number * below) for number in scale)), below)
    return [number / unit for number in scale], unit


def whole_axes(axes, weights, length, reach):
    """The axes as whole numbers, weighed, and what their lengths were multiplied by. Reach is how long fractions get."""
    parts = [[part * weight for part, weight in zip(axis, weights)] for axis in axes]
    every = [part for axis in parts for part in axis]
    if all(isinstance(part, (int, Fraction)) for part in every) and max(map(abs, every)) <= MOST_PART:
        factor = Fraction(1)
    else:
        factor = Fraction(reach) / (length * max(map(abs, weights)))
    whole = [[round(part * w * factor) if isinstance(part, int) else round(part * float(w * factor))
              for part, w in zip(axis, weights)] for axis in axes]
    if dot(whole[2], cross(whole[0], whole[1])) == 0:
        raise Wrong("the scales of X, Y and Z differ by more than the parts of a vector can")
    return whole, factor


def spread(low, high, axis, eye):
    """The least and the greatest dot of an axis with a place of the box, seen from the eye."""
    dots = [dot(axis, corner) - dot(axis, eye) for corner in corners_of(low, high)]
    return min(dots), max(dots)


def scale(least, greatest, pixels):
    """The least K with which this spread falls on the pixels: 0 <= floor(a / K) + pixels // 2 < pixels."""
    half = pixels // 2
    return max(1, at_least(-least, half), at_least(greatest + 1, pixels - half))


def line_of_sight(axes):
    """A step that moves neither column nor row, and whether it is one of whole numbers."""
    right, down, forward = axes
    step = cross(right, down)
    step = [part // math.gcd(*step) for part in step]
    if dot(step, forward) < 0:
        step = [-part for part in step]
    most = max(map(abs, step))
    # Long steps would go too far back.
    return (step, True) if most <= 64 else ([Fraction(part, most) for part in step], False)


def half_pixel(axes, k):
    """The way from the upper left corner of a pixel to its middle."""
    right, down, forward = axes
    across, along = cross(down, forward), cross(forward, right)
    a, b = Fraction(k, 2 * dot(right, across)), Fraction(k, 2 * dot(down, along))
    return [a * x + b * y for x, y in zip(across, along)]


def stand(low, high, axes, centre, k):
    """The eye from which the place is on the middle pixel, and the whole box is ahead. K may be 0."""
    step, whole = line_of_sight(axes)
    if k and not whole:
        # The eye has to be rounded, so the place is kept away from the pixel's edges.
        centre = [c - h for c, h in zip(centre, half_pixel(axes, k))]
    # Back along the line of sight, until the nearest corner is ahead.
    nearest, _ = spread(low, high, axes[2], centre)
    rounding = 0 if whole else sum(map(abs, axes[2]))
    back = max(0, at_least(rounding - nearest, dot(axes[2], step)))
    eye = [round(c - back * s) for c, s in zip(centre, step)]
    if not all(INT_MIN <= e <= INT_MAX for e in eye):
        raise Wrong("the eye would stand outside of the file's numbers")
    return eye


def aimed(low, high, axes, centre, size, k=0, t=1):
    """The numbers of a camera; without a K the whole box is in its picture."""
    right, down, forward = axes
    width, height = size
    eye = stand(low, high, axes, centre, k)
    k = k or max(scale(*spread(low, high, right, eye), width), scale(*spread(low, high, down, eye), height))
    _, deepest = spread(low, high, forward, eye)
    t = max(t, at_least(deepest + 1, MOST_DEPTH + 1))
    if k > MOST_SCALE:
        raise Wrong("a pixel would be larger than K can say")
    return [width, height, *eye, *right, *down, *forward, k, t, 0, max(0, deepest // t)]


def is_in_view(low, high, camera):
    """Whether some place between these corners falls on the picture. A line parts them, or it is so."""
    width, height, k = camera[0], camera[1], camera[14]
    eye, right, down = camera[2:5], camera[5:8], camera[8:11]
    seen = [[dot(axis, corner) - dot(axis, eye) for axis in (right, down)] for corner in corners_of(low, high)]
    frame = [(x, y) for x in (-(width // 2) * k, (width - width // 2) * k - 1)
             for y in (-(height // 2) * k, (height - height // 2) * k - 1)]
    for line in [(1, 0), (0, 1), *((-d, r) for r, d in zip(right, down))]:
        box, picture = [dot(line, at) for at in seen], [dot(line, at) for at in frame]
        if max(box) < min(picture) or max(picture) < min(box):
            return False
    return True


def say(text):
    print(f"aim.py: {text}", file=sys.stderr)


FORMS = {"above": 2, "south": 2, "round": 5, "angle": 2, "persp": 2}


def read_words(args):
    """The words, of which the numbers are told from the words of the colours."""
    parser = Words(__doc__)
    parser.add_argument("words", nargs="*", metavar="WORD")
    parser.add_argument("--survey")
    parser.add_argument("--info", metavar="TEXT")
    parser.add_argument("--at", nargs=2, type=decimal, metavar=("E", "N"))
    parser.add_argument("--width", type=decimal, metavar="METRES")
    parser.add_argument("--height", type=decimal, metavar="Z")
    parser.add_argument("--down", type=decimal, metavar="DEGREES")
    parser.add_argument("--towards", type=decimal, metavar="DEGREES")
    parser.add_argument("--eye", nargs=3, type=decimal, metavar=("E", "N", "Z"))
    parser.add_argument("--look", nargs=3, type=decimal, metavar=("E", "N", "Z"))
    parser.add_argument("--angle", type=decimal, metavar="DEGREES")
    words = parser.parse_intermixed_args(args)
    words.form, *words.words = words.words or [""]
    if words.form not in FORMS:
        parser.error("the first word is above, south, round, angle or persp")
    count = FORMS[words.form]
    if len(words.words) - count not in (0, 3):
        parser.error(f"{words.form} takes {count} numbers, and then three words or none")
    try:
        words.numbers = [int(word) for word in words.words[:count]]
    except ValueError:
        parser.error(f"the first {count} words after {words.form} are whole numbers")
    words.last = words.words[count:] or ["class", "all", "show"]
    fault = misfit(words)
    if fault:
        parser.error(fault)
    return words


def misfit(words):
    """What doesn't fit among the words, if anything."""
    width, height = words.numbers[-2:]
    if not (2 <= width <= 4096 and 2 <= height <= 4096 and width * height <= MOST_PIXELS):
        return "W and H are 2 to 4096, and at most 9437184 pixels in all"
    if words.form == "round":
        x, y, r = words.numbers[:3]
        if r < 0 or not (INT_MIN <= x <= INT_MAX and INT_MIN <= y <= INT_MAX):
            return "R is 0 or more, and X and Y are numbers of the file"
    if (words.at is None) != (words.width is None) or words.height is not None and words.at is None:
        return "--at E N and --width METRES go together, and --height with them"
    if words.at is not None and (not words.survey or words.form in ("round", "persp")):
        return "--at needs --survey, and is for above, south and angle"
    if words.width is not None and words.width <= 0:
        return "the width is above 0"
    angles = words.down is not None, words.towards is not None
    if angles != ((words.form == "angle"),) * 2:
        return "angle takes --down and --towards, and no other form does"
    if words.form == "angle" and not 0 <= words.down <= 90:
        return "--down is 0 to 90 degrees"
    return misfit_of_eye(words)


def misfit_of_eye(words):
    """What doesn't fit among the words of a perspective, and of the inputs."""
    given = words.eye is not None, words.look is not None, words.angle is not None
    if given != ((words.form == "persp"),) * 3 or words.form == "persp" and not words.survey:
        return "persp takes --survey, --eye, --look and --angle, and no other form takes the last three"
    if words.angle is not None and not 0 < words.angle < 180:
        return "--angle is above 0 and below 180 degrees"
    if words.survey == "-" and words.info == "-":
        return "only one of --survey and --info is standard input"
    return None


def survey_of(words):
    """The grid of the survey, if it is given, and its box."""
    header = read_header(words.survey) if words.survey else None
    grid = Grid(header) if header else None
    if grid and not words.info:
        return grid, *grid.box(header)
    return grid, *piped_box(words.info or "-")


def axes_of(words, grid):
    """The camera's axes, the parts of right in a metre, and the unit of depth that goes with them."""
    weights, unit = weights_of(grid.scale) if grid else ([1, 1, 1], 1)
    if words.form == "angle":
        axes, length = turned(words.down, words.towards), 1
    elif words.form == "persp":
        axes, length = perspective.axes(words.eye, words.look), 1
    else:
        axes, length = (SOUTH, 5) if words.form == "south" else (ABOVE, 1)
        if weights[0] != weights[1]:
            x, y = (float(number) for number in grid.scale[:2])
            say(f"a unit is {x!r} m in X and {y!r} m in Y: the vectors are weighed")
    whole, factor = whole_axes(axes, weights, length, MOST_PART if words.form == "persp" else LENGTH)
    return whole, factor * length / unit, max(1, round(factor * max(map(abs, weights))))


def centre_of(words, grid, low, high):
    """The place on the middle pixel."""
    centre = [(a + b) // 2 for a, b in zip(low, high)]
    if words.at is not None:
        centre[:2] = [grid.nearest(axis, words.at[axis]) for axis in (0, 1)]
    if words.height is not None:
        centre[2] = grid.nearest(2, words.height)
    return centre


def camera_of(words, grid, low, high, whole, per_metre, t):
    """The numbers of an orthographic camera."""
    aim_low, aim_high = low, high
    if words.form == "round":
        x, y, r = words.numbers[:3]
        aim_low, aim_high = [x - r, y - r, low[2]], [x + r, y + r, high[2]]
    size = words.numbers[-2:]
    # A pixel that is rounded up keeps the whole width in the picture.
    k = 0 if words.width is None else math.ceil(words.width * per_metre / size[0])
    return aimed(aim_low, aim_high, whole, centre_of(words, grid, aim_low, aim_high), size, k, t)


def main(args):
    words = read_words(args)
    grid, low, high = survey_of(words)
    whole, per_metre, t = axes_of(words, grid)
    if words.form == "persp":
        eye = [grid.nearest(axis, words.eye[axis]) for axis in range(3)]
        size = words.numbers[-2:]
        camera = perspective.aimed(low, high, whole, eye, size, perspective.focal(size[0], words.angle), t)
        kind, is_seen = "persp", perspective.is_in_view(low, high, camera)
    else:
        camera = camera_of(words, grid, low, high, whole, per_metre, t)
        kind, is_seen = "ortho", is_in_view(low, high, camera)
    if not is_seen:
        say("nothing of the survey's box is in view")
    print(kind, *camera, *words.last)


if __name__ == "__main__":
    run(lambda: main(sys.argv[1:]), "aim.py")
