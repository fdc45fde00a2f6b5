"""Surveys and views that are drawn by lot, for try_views.py.

What is drawn comes from the lots that are handed in, so it is the same each time.
"""

import collections
import itertools
import os
import struct
import types

import assemble
import reference_draw
from session_lines import DEEPEST, GREATEST, LEAST, PARTS, SCALES, greatest_class

RGB = [form for form, parts in assemble.FORMATS.items() if parts[2]]
COLOURINGS = ("class", "rgb16", "rgb8", "intensity")
SIZES = {
    "small": lambda lots: lots.randint(-8, 8),
    "middling": lambda lots: lots.randint(-3000, 3000),
    "wide": lambda lots: lots.randint(LEAST, GREATEST),
    "at the ends": lambda lots: lots.choice((LEAST, LEAST + 1, -1, 0, 1, GREATEST - 1, GREATEST)),
    "far off": lambda lots: GREATEST - lots.randint(0, 500),
}

Survey = collections.namedtuple("Survey", "name format points")
View = collections.namedtuple("View", "kind numbers colouring list classes hides")


def shade(lots):
    """An intensity, or a part of RGB."""
    return lots.choice((0, 1, 255, 256, 257, 65535, lots.randint(0, 65535)))


def point(lots, form, size):
    """What is read of a record."""
    place = [SIZES[size](lots) for _ in range(3)]
    top = greatest_class(form)
    kind = lots.choice((0, 2, 6, top, lots.randint(0, top)))
    rgb = tuple(shade(lots) for _ in range(3)) if form in RGB else None
    return reference_draw.Point(place, kind, lots.random() < 0.25, shade(lots), rgb)


def record(lots, form, length, made):
    """The bytes of a record, of which those that aren't read are drawn by lot."""
    extended, has_time, *_ = assemble.FORMATS[form]
    data = bytearray(lots.randbytes(length))
    struct.pack_into("<3iH", data, 0, *made.place, made.intensity)
    if extended:
        data[15:17] = data[15] & 0xFB | made.withheld << 2, made.kind
    else:
        data[15] = data[15] & 0x60 | made.withheld << 7 | made.kind
    if made.rgb:
        struct.pack_into("<3H", data, (22 if extended else 20) + 8 * has_time, *made.rgb)
    return bytes(data)


def survey(lots, folder, form, size, count):
    """A survey of a version that has this format, with extra bytes, variable length records and a gap or without.

    It is survey.las of the folder then.
    """
    minor = lots.choice([minor for minor, formats in assemble.FORMATS_OF.items() if form in formats])
    points = [point(lots, form, size) for _ in range(count)]
    vlrs = lots.choice(([], assemble.vlrs_of(minor, form)))
    before = b"".join(vlrs) + bytes(lots.choice((0, 1, 50)))
    length = assemble.LENGTHS[form] + lots.choice((0, 0, 1, 5))
    corners = [types.SimpleNamespace(**dict(zip("xyz", made.place))) for made in points]
    head = assemble.header(minor, form, length, corners, len(vlrs), assemble.HEADER_SIZES[minor] + len(before))
    data = head + before + b"".join(record(lots, form, length, made) for made in points)
    with open(os.path.join(folder, "survey.las"), "wb") as file:
        file.write(data)
    return Survey(f"LAS 1.{minor} of format {form}, {count} records {size}", form, points)


def between(value, least, greatest):
    return max(least, min(value, greatest))


def small_camera(lots, kind, places):
    """Small numbers near a record: records fall on edges, at the eye, and several on one pixel at one depth."""
    size = [lots.randint(1, 9), lots.randint(1, 9)]
    eye = [between(part + lots.randint(-4, 4), LEAST, GREATEST) for part in lots.choice(places)]
    parts = [lots.randint(-2, 2) for _ in range(9)]
    near = lots.randint(int(kind == "persp"), 3)
    return size + eye + parts + [lots.randint(1, 9), lots.randint(1, 3), near, near + lots.randint(0, 40)]


def whole_camera(lots, kind, places):
    """A camera that has about all records in its picture that are ahead of it, several at one depth or each at its own."""
    size, parts = [lots.randint(1, 40) for _ in range(2)], [lots.randint(-99, 99) for _ in range(9)]
    eye, some = lots.choice(places), places[:40]
    offsets = [[part - origin for part, origin in zip(place, eye)] for place in some]
    right, down, ahead = (max(abs(reference_draw.dot(parts[at : at + 3], offset)) for offset in offsets) for at in (0, 3, 6))
    half, side = max(size) // 2 + 1, max(right, down)
    scale = side // half + 1 if kind == "ortho" else between(half * ahead // (side or 1) // 2, 1, SCALES[kind])
    unit = ahead // lots.choice((5, 1000, DEEPEST)) + 1
    return size + list(eye) + parts + [scale, unit, int(kind == "persp"), DEEPEST]


def camera_at_ends(lots, kind, places):
    """Each number at an end of its range, or near one."""
    size = [lots.choice((1, 2, 39, 40)) for _ in range(2)]
    eye = lots.choice((lots.choice(places), [lots.choice((LEAST, LEAST + 1, -1, 0, 1, GREATEST)) for _ in range(3)]))
    parts = [lots.choice((-32768, -32767, -1, 0, 0, 1, 32767)) for _ in range(9)]
    scale, unit = (lots.choice((1, 2, most - 1, most)) for most in (SCALES[kind], SCALES["ortho"]))
    least = int(kind == "persp")
    near = lots.choice((least, least, least + 1, DEEPEST - 1, DEEPEST))
    return size + list(eye) + parts + [scale, unit, near, lots.choice((near, DEEPEST, DEEPEST))]


def edge_camera(lots, kind, places):
    """A camera that has a record at an edge of its picture, at its least or greatest depth, or one beyond."""
    size = [lots.choice((1, 2, lots.randint(1, 40))) for _ in range(2)]
    place, step = lots.choice(places), lots.choice((0, 1, 100, 10**7))
    eye = [between(part + lots.randint(-step, step), LEAST, GREATEST) for part in lots.choice((place, lots.choice(places)))]
    reach = lots.choice((1, 100, 32767))
    parts = [between(lots.choice((0, reach, -reach, lots.randint(-reach - 1, reach + 1))), *PARTS) for _ in range(9)]
    offset = [part - origin for part, origin in zip(place, eye)]
    if reference_draw.dot(parts[6:], offset) < 0:
        parts[6:] = [min(-part, PARTS[1]) for part in parts[6:]]
    right, down, ahead = (reference_draw.dot(parts[at : at + 3], offset) for at in (0, 3, 6))
    sides = sorted(((right, size[0]), (down, size[1])), key=lambda it: abs(it[0]))
    side, pixels = lots.choice((sides[0], sides[1], sides[1]))
    # Columns and rows from the middle: the first within is minus half, and the first beyond is the rest.
    edge = -(pixels // 2) if side < 0 else pixels - pixels // 2
    scale = abs(edge * ahead // side if kind == "persp" else side // (edge or 1)) if side else 1
    scale = between(scale + lots.choice((-1, 0, 0, 1)), 1, SCALES[kind])
    unit = between(ahead // lots.choice((1, 7, 1000, DEEPEST, ahead or 1)) + lots.choice((0, 1)), 1, SCALES["ortho"])
    least = int(kind == "persp")
    near, far = (between(ahead // unit + lots.choice((-1, 0, 1)), least, DEEPEST) for _ in range(2))
    near = lots.choice((least, least, near))
    return size + eye + parts + [scale, unit, near, lots.choice((DEEPEST, DEEPEST, max(near, far)))]


def border_views():
    """Views of records at the ends, which fall on borders of pixels and of depths where K, T and depths are greatest.

    An offset of 2^31 along 512 makes 2^40, and a small one along -1 makes it less; 2^20 times 2048 is 2^31.
    """
    for kind, most in SCALES.items():
        least = int(kind == "persp")
        depths = ((least, DEEPEST), (least, DEEPEST - 1), (DEEPEST, DEEPEST), (DEEPEST - 1, DEEPEST - 1), (least, least))
        for *vectors, scale, unit, deep, low in itertools.product(
            ((1, 0, 0), (512, -1, 0), (-512, 1, 0), (2048, 0, 0)),
            ((0, 1, 0),),
            ((0, 0, 1), (-1, 0, 512)),
            (1, most - 1, most),
            (1, SCALES["ortho"] - 1, SCALES["ortho"]),
            depths,
            (-1, LEAST, LEAST + 1),
        ):
            numbers = [4, 5, -1, 0, low, *itertools.chain(*vectors), scale, unit, *deep]
            yield View(kind, numbers, "class", "all", range(256), False)


def class_list(lots, top):
    """A class list as a word, and the classes that it names."""
    if lots.random() < 0.5:
        return "all", set(range(256))
    items, classes = [], set()
    for _ in range(lots.randint(1, 4)):
        first, second = sorted(lots.choice((0, 2, 6, top, 255, lots.randint(0, 255))) for _ in range(2))
        zeros = "0" * lots.choice((0, 0, 1, 15))
        alone = lots.random() < 0.5
        items.append(f"{zeros}{first}" if alone else f"{first}-{zeros}{second}")
        classes |= {first} if alone else set(range(first, second + 1))
    return ",".join(items), classes


def view(lots, made):
    """A view of a survey, through a camera of one of these makes."""
    kind = lots.choice(("ortho", "persp"))
    camera = lots.choice((small_camera, edge_camera, edge_camera, whole_camera, whole_camera, camera_at_ends))
    numbers = camera(lots, kind, [point.place for point in made.points])
    colouring = lots.choice(COLOURINGS if made.format in RGB else ("class", "class", "intensity", "intensity", "rgb16", "rgb8"))
    return View(kind, numbers, colouring, *class_list(lots, greatest_class(made.format)), lots.random() < 0.5)


def view_words(lots, seen):
    """The words of a view, some numbers with zeros before them."""
    numbers = [f"{number:0{lots.choice((1, 1, 1, 12))}d}" for number in seen.numbers]
    return [seen.kind, *numbers, seen.colouring, seen.list, "hide" if seen.hides else "show"]


def edit(lots, made):
    """An edit line between places of records, with its box by axes, its classes and the new one, which may be too great."""
    top = greatest_class(made.format)
    word, classes = class_list(lots, top)
    to = lots.choice((0, 2, top, lots.randint(0, top), lots.randint(0, 255)))
    axes = [[point.place[axis] for point in made.points] + [LEAST, GREATEST] for axis in range(3)]
    box = [sorted((lots.choice(axis), lots.choice(axis))) for axis in axes]
    text = f"edit {' '.join(str(low) for low, _ in box)} {' '.join(str(high) for _, high in box)} {word} {to}"
    return text, box, classes, to
