"""Map coordinates and the whole numbers of a survey's records."""

import argparse
import math
from fractions import Fraction

from script_ends import Wrong

INT_MIN, INT_MAX = -(2**31), 2**31 - 1
AXES = "XYZ"


def exact(number):
    """A number of the header as it is printed: 0.001 is a thousandth, and not the double beside it."""
    return Fraction(repr(number))


def decimal(text):
    """A number of the command line."""
    try:
        number = float(text)
    except ValueError:
        raise argparse.ArgumentTypeError(f"{text!r} is no number") from None
    # This also refuses what isn't a number at all.
    if not abs(number) <= 1e12:
        raise argparse.ArgumentTypeError(f"{text} is no number up to 1e12")
    return exact(number)


class Grid:
    """Where the units of a survey lie: a record's coordinate is its whole number times scale, plus offset."""

    def __init__(self, header):
        self.scale = [exact(number) for number in header.scale]
        self.offset = [exact(number) for number in header.offset]

    def units(self, axis, metres):
        """The place of a coordinate in units, which may lie between two of them."""
        return (metres - self.offset[axis]) / self.scale[axis]

    def nearest(self, axis, metres):
        """The unit nearest to a coordinate."""
        unit = math.floor(self.units(axis, metres) + Fraction(1, 2))
        if not INT_MIN <= unit <= INT_MAX:
            raise Wrong(f"{AXES[axis]} {float(metres)} lies outside of the numbers of the survey's records")
        return unit

    def span(self, axis, one, other):
        """The least and the greatest unit that lie between two coordinates, or on them."""
        return span(axis, self.units(axis, one), self.units(axis, other))

    def box(self, header):
        """The header's bounds in units, as the least and the greatest corner."""
        corners = []
        # What is this near to a unit is the unit: a bound is a product that was rounded.
        near = Fraction(1, 1000)
        for axis in range(3):
            if header.least[axis] > header.greatest[axis]:
                raise Wrong(f"the header's least {AXES[axis]} is above its greatest: give a text of `info` by --info")
            ends = sorted(self.units(axis, exact(end[axis])) for end in (header.least, header.greatest))
            corners.append((clamped(math.floor(ends[0] + near)), clamped(math.ceil(ends[1] - near))))
        return [low for low, _ in corners], [high for _, high in corners]


def clamped(unit):
    return min(max(unit, INT_MIN), INT_MAX)


def span(axis, one, other):
    """The least and the greatest whole number between two places, as far as records can have them."""
    low, high = math.ceil(min(one, other)), math.floor(max(one, other))
    if low > high:
        raise Wrong(f"no unit of {AXES[axis]} lies in the box")
    if low > INT_MAX or high < INT_MIN:
        raise Wrong(f"the box's {AXES[axis]} lies outside of the numbers of the survey's records")
    return clamped(low), clamped(high)


def at_least(number, unit):
    """The least whole number of units that reach a number."""
    return -(-number // unit)


def corners_of(low, high):
    """The eight corners of a box."""
    return [(x, y, z) for x in (low[0], high[0]) for y in (low[1], high[1]) for z in (low[2], high[2])]


def dot(u, v):
    return sum(a * b for a, b in zip(u, v))


def cross(u, v):
    return [u[1] * v[2] - u[2] * v[1], u[2] * v[0] - u[0] * v[2], u[0] * v[1] - u[1] * v[0]]
