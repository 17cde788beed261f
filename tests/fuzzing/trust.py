"""Which windows of other owners block a window at a place, and which marks they leave: that part of a router, in Python."""
LIGHT, CLEAR = 1000000, 200000


def may_obscure(over, window):
    """Whether a window may obscure one behind it."""
    absent = over.opacity == 0 and "NOT_TOUCHABLE" in over.flags
    return over.owner != window.owner and "TRUSTED_OVERLAY" not in over.flags and not absent


def obscures(over, window, place):
    """Whether a window obscures one behind it at a place."""
    left, top, right, bottom = over.frame
    return may_obscure(over, window) and left <= place[0] < right and top <= place[1] < bottom


def overlaps(over, window):
    """Whether the frames of a window and one behind it have a point in common."""
    left, top, right, bottom = (pick(a, b) for pick, a, b in zip((max, max, min, min), over.frame, window.frame))
    return may_obscure(over, window) and left < right and top < bottom


def marks(windows, name, place):
    """The marks that a window is given with a pointer at a place, of windows that stand on one display, front to back."""
    at = [window.name for window in windows].index(name)
    if any(obscures(window, windows[at], place) for window in windows[:at]):
        return {"obscured"}
    return {"partly"} if any(overlaps(window, windows[at]) for window in windows[:at]) else set()


def blockers(windows, name, place):
    """The names of the windows that block one of these windows, which stand on one display, front to back: those that no touch may go
    through; where there are none, those whose opacity decides."""
    at = [window.name for window in windows].index(name)
    over = [window for window in windows[:at] if obscures(window, windows[at], place)]
    walls = [window.name for window in over if window.occlusion == "block"]
    if walls:
        return walls
    dims = [window for window in over if window.occlusion == "opacity"]
    light = {window.owner: LIGHT for window in dims}
    for window in dims:
        light[window.owner] = light[window.owner] * (100 - window.opacity) // 100
    return [window.name for window in dims if light[window.owner] < CLEAR]
