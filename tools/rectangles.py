"""Rectangles of pixels, [left, top, right, bottom), and what of them others leave over."""


def is_empty(rectangle):
    left, top, right, bottom = rectangle
    return left >= right or top >= bottom


def overlap(one, other):
    return max(one[0], other[0]) < min(one[2], other[2]) and max(one[1], other[1]) < min(one[3], other[3])


def clipped(rectangle, size):
    """What of a rectangle lies on a display of this width and height."""
    left, top, right, bottom = rectangle
    return (max(left, 0), max(top, 0), min(right, size[0]), min(bottom, size[1]))


def without(rectangle, other):
    """The rectangles that are left of one where another lies over it."""
    if not overlap(rectangle, other):
        return [rectangle]
    left, top, right, bottom = rectangle
    low, high = max(top, other[1]), min(bottom, other[3])
    parts = [(left, top, right, low), (left, high, right, bottom), (left, low, other[0], high), (other[2], low, right, high)]
    return [part for part in parts if not is_empty(part)]


def left_over(region, covers, size):
    """The parts of a region on a display of this extent that no rectangle of `covers` covers."""
    parts = [part for part in (clipped(rectangle, size) for rectangle in region) if not is_empty(part)]
    for cover in covers:
        parts = [piece for part in parts for piece in without(part, cover)]
    return parts


def is_cover(flags):
    """Whether a window with these flags takes the touches that windows behind it do not get."""
    return "NOT_TOUCHABLE" not in flags and "SPY" not in flags
