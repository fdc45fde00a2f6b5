"""The view words and edit lines that a page asks for, in map coordinates, as the program reads them.

A page says where its camera is: `at`, the place in the middle of the picture, or in a flight that of the eye;
`pixel`, the metres of a pixel; `down` and `towards`, how far it looks down from the horizon and into which
direction of the compass, in degrees; `angle`, the angle of view of a flight; and the size of the picture.
"""

import math
import re
from typing import NamedTuple

import aim
import edit_box
import perspective
from metres import INT_MAX, INT_MIN, exact
from script_ends import Wrong

# Sizes are multiples of this, so that a picture of half or a quarter of the size lies on the whole one exactly.
STEP = 8
COLOURS = ("class", "rgb16", "rgb8", "intensity")
# Below this many in K, steps of one would be seen as steps of the size of a pixel.
FINE = 1024


class View(NamedTuple):
    """A view that was asked for: the words of the whole picture, and where its camera came to stand."""

    words: str
    numbers: list
    stands: dict


def number(asked, name, low, high):
    """A number that a page sent, which has to lie in this range."""
    value = asked.get(name)
    if isinstance(value, bool) or not isinstance(value, (int, float)) or not low <= value <= high:
        raise Wrong(f"{name} is no number from {low:g} to {high:g}")
    return value


def numbers(asked, name, count, low, high):
    """So many numbers that a page sent."""
    values = asked.get(name)
    if not isinstance(values, list) or len(values) != count:
        raise Wrong(f"{name} isn't a list of {count}")
    return [number({name: value}, name, low, high) for value in values]


def choice(asked, name, allowed):
    """One of some words that a page sent."""
    value = asked.get(name)
    if not isinstance(value, str) or value not in allowed:
        raise Wrong(f"{name} is none of {', '.join(allowed)}")
    return value


def class_list(asked, name):
    """A class list that a page sent."""
    value = asked.get(name)
    if not isinstance(value, str) or len(value) > 1000 or not edit_box.is_class_list(value):
        raise Wrong(f"{name} is no list of classes, as all or 2,5-7")
    return value


def size_of(asked):
    """Width and height of the whole picture."""
    size = numbers(asked, "size", 2, STEP, 4096)
    width, height = (int(side) // STEP * STEP for side in size)
    if width * height > aim.MOST_PIXELS:
        raise Wrong(f"a picture has at most {aim.MOST_PIXELS} pixels")
    return width, height


def centre_of(survey, asked):
    """The unit nearest to the place that the camera is at."""
    place = numbers(asked, "at", 3, -1e12, 1e12)
    return [survey.grid.nearest(axis, exact(float(place[axis]))) for axis in range(3)]


def longer(whole, weights, per_unit):
    """How many times longer vectors K needs, to tell sizes of a pixel apart that differ little."""
    times, most = 1, max(abs(part) for axis in whole for part in axis)
    while per_unit * times < FINE and 2 * times * most <= aim.MOST_PART:
        times *= 2
    return times


def level_axes(survey, asked, pixel):
    """The axes of an orthographic camera, the parts of right in a metre, and the unit of depth."""
    weights, unit = aim.weights_of(survey.grid.scale)
    down, towards = number(asked, "down", 0, 90), number(asked, "towards", -1e6, 1e6) % 360
    axes = aim.ABOVE if (down, towards) == (90, 0) else aim.turned(down, towards)
    whole, factor = aim.whole_axes(axes, weights, 1, aim.LENGTH)
    times = longer(whole, weights, pixel * factor / unit)
    whole = [[times * part for part in axis] for axis in whole]
    return whole, times * factor / unit, max(1, round(times * factor * max(map(abs, weights))))


def ortho(survey, asked):
    """The numbers of an orthographic camera, and the place in its middle and the metres of a pixel as they came out."""
    size, centre = size_of(asked), centre_of(survey, asked)
    pixel = exact(float(number(asked, "pixel", 1e-9, 1e9)))
    whole, per_metre, t = level_axes(survey, asked, pixel)
    k = max(1, round(pixel * per_metre))
    if 4 * k > aim.MOST_SCALE:
        raise Wrong("a pixel would be larger than K can say")
    stands = {"at": survey.place(centre), "pixel": float(k / per_metre)}
    if not aim.line_of_sight(whole)[1]:
        # An eye that is rounded would be aimed at the middle of the pixel in the middle, and not at its corner.
        centre = [part + half for part, half in zip(centre, aim.half_pixel(whole, k))]
    return aim.aimed(survey.low, survey.high, whole, centre, size, k, t), stands


def flight(survey, asked):
    """The numbers of a camera in perspective, and the place of its eye and its angle as they came out."""
    size, eye = size_of(asked), centre_of(survey, asked)
    down, towards = math.radians(number(asked, "down", -90, 90)), math.radians(number(asked, "towards", -1e6, 1e6))
    level = math.cos(down)
    # The right of an eye that looks straight down is told by its direction alone.
    ahead = [level * math.sin(towards), level * math.cos(towards), -math.sin(down)]
    right = [math.cos(towards), -math.sin(towards), 0.0]
    weights, _ = aim.weights_of(survey.grid.scale)
    whole, factor = aim.whole_axes((right, aim.cross(ahead, right), ahead), weights, 1, aim.MOST_PART)
    # An angle that came out of a K gives that K again.
    focal = perspective.focal(size[0], number(asked, "angle", 1, 170) - 1e-9) // 4 * 4
    if not focal:
        raise Wrong("so wide an angle of view needs a wider picture")
    t = max(1, round(factor * max(map(abs, weights))))
    stands = {"at": survey.place(eye), "angle": math.degrees(2 * math.atan(size[0] / 2 / focal))}
    return perspective.aimed(survey.low, survey.high, whole, eye, size, focal, t), stands


def view_of(survey, asked):
    """The view that a page asks for."""
    kind = choice(asked, "form", ("ortho", "persp"))
    camera, stands = (ortho if kind == "ortho" else flight)(survey, asked)
    colour = choice(asked, "colour", COLOURS)
    last = [colour, class_list(asked, "classes"), choice(asked, "withheld", ("show", "hide"))]
    return View(" ".join([kind, *map(str, camera), *last]), camera, stands)


def smaller(words, divide):
    """The words of a view whose picture has half or a quarter of the size, and shows the same."""
    parts = words.split()
    width, height, k = int(parts[1]) // divide, int(parts[2]) // divide, int(parts[15])
    parts[1:3] = str(width), str(height)
    parts[15] = str(k * divide if parts[0] == "ortho" else k // divide)
    return " ".join(parts)


def edit_line(survey, asked):
    """The line of an edit: by pixels of a view from above, or by corners in map coordinates."""
    if asked.get("corners") is not None:
        east, north, to_east, to_north = (exact(float(part)) for part in numbers(asked, "corners", 4, -1e12, 1e12))
        x, y = survey.grid.span(0, east, to_east), survey.grid.span(1, north, to_north)
    else:
        words = asked.get("words")
        if not isinstance(words, str) or len(words) > 1000:
            raise Wrong("the words of the view are missing")
        corners = [int(part) for part in numbers(asked, "pixels", 4, 0, 4096)]
        x, y = edit_box.box_of_pixels(edit_box.view_from_above(words), corners)
    z = (INT_MIN, INT_MAX)
    if asked.get("heights") is not None:
        z = survey.grid.span(2, *(exact(float(part)) for part in numbers(asked, "heights", 2, -1e12, 1e12)))
    to = number(asked, "to", 0, 255)
    return edit_box.line([x, y, z], class_list(asked, "from"), int(to))


def typed_line(asked):
    """A line of a session that was typed by hand: one line, and none that asks for a file."""
    line = asked.get("line")
    if not isinstance(line, str) or not re.fullmatch(r"[ -~]{1,1000}", line) or not line.split():
        raise Wrong("a line has 1 to 1000 letters, digits and signs")
    if line.split()[0] == "save":
        raise Wrong("a file is saved by its button")
    return line


def touched(survey, made):
    """The box of an edit in map coordinates, cut to where there are records; nothing where it holds none."""
    low = [max(a, b) for a, b in zip(made.least, survey.low)]
    high = [min(a, b) for a, b in zip(made.greatest, survey.high)]
    if any(a > b for a, b in zip(low, high)):
        return None
    return [list(ends) for ends in zip(*(sorted(ends) for ends in zip(survey.place(low), survey.place(high))))]
