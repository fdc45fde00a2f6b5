"""A camera in perspective: from an eye, towards a point to look at, with an angle of view across the picture.

A point is in view on column floor(a * K / z) + W // 2, where a is its way to the right and z its way ahead, both by
vectors of one length (docs/FORMATS.md): so K is the distance, in pixels, at which the picture would stand.
"""

import math

from metres import at_least, corners_of, cross, dot
from script_ends import Wrong

MOST_DEPTH = 2**32 - 2
MOST_FOCAL = 2**20


def axes(eye, look):
    """Right, down and forward, of length 1. Looking straight down or up, right is east."""
    way = [float(b - a) for a, b in zip(eye, look)]
    length, level = math.hypot(*way), math.hypot(*way[:2])
    if length == 0:
        raise Wrong("the eye stands on the point that it looks at")
    forward = [part / length for part in way]
    right = [forward[1] * length / level, -forward[0] * length / level, 0.0] if level else [1.0, 0.0, 0.0]
    return right, cross(forward, right), forward


def focal(width, degrees):
    """The greatest K with which this angle is in the picture from its left to its right edge."""
    k = math.floor(width / 2 / math.tan(math.radians(degrees) / 2))
    if not 1 <= k <= MOST_FOCAL:
        raise Wrong(f"an angle of view of {float(degrees)} degrees across {width} pixels is beyond what K can say")
    return k


def aimed(low, high, whole, eye, size, k, t):
    """The numbers of a camera from which the whole box is within FAR; NEAR is a step of depth from the eye."""
    deepest = max(dot(whole[2], corner) for corner in corners_of(low, high)) - dot(whole[2], eye)
    t = max(t, at_least(deepest + 1, MOST_DEPTH + 1))
    right, down, forward = whole
    return [*size, *eye, *right, *down, *forward, k, t, 1, max(1, deepest // t)]


def is_in_view(low, high, camera):
    """Whether some of the box may be in view: it is not where all its corners lie beyond one side of the picture."""
    width, height, k, t = camera[0], camera[1], camera[14], camera[15]
    right, down, forward = camera[5:8], camera[8:11], camera[11:14]
    seen = []
    for corner in corners_of(low, high):
        way = [c - e for c, e in zip(corner, camera[2:5])]
        a, b, z = (dot(axis, way) for axis in (right, down, forward))
        # Each is 0 or more on the picture's side: left, right, upper and lower edge, and what is near enough to the eye.
        seen.append((
            a * k + width // 2 * z, (width - width // 2) * z - a * k - 1,
            b * k + height // 2 * z, (height - height // 2) * z - b * k - 1, z - t,
        ))
    return all(max(sides) >= 0 for sides in zip(*seen))
