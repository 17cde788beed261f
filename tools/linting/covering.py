"""How the windows of a session lie on its displays, and one behind the other."""
import rectangles

from .findings import one_of


def extent(plan, number):
    """The extent of a display as it is turned, or None."""
    if number >= len(plan.displays):
        return None
    display = plan.displays[number]
    width, height = display.get("width"), display.get("height")
    if width is None or height is None:
        return None
    return (height, width) if is_turned(display) else (width, height)


def is_turned(display):
    return display.get("rotation", 0) in (90, 270)


def is_outside(rectangle, size):
    left, top, right, bottom = rectangle
    return right <= 0 or bottom <= 0 or left >= size[0] or top >= size[1]


def in_order(plan):
    """The steps with a moment, as they are made."""
    return sorted((step for step in plan.steps if step.get("at_us") is not None), key=lambda step: step.get("at_us"))


def region_of(window):
    """The region of a window, or None where it cannot be read."""
    key = "region" if window.node.get("region") is not None else "frame"
    if window.get("frame") is None or key not in window.said:
        return None
    return window.said["region"] if key == "region" else [window.said["frame"]]


def reach(plan, number):
    """How far to the right and down the windows of a display go, or None where there is none."""
    found = []
    for step in plan.steps:
        for window in step.get("windows", ()):
            if window.get("display", 0) == number and window.get("frame") is not None:
                found += [window.said["frame"], *(region_of(window) or ())]
    return [max(rectangle[k] for rectangle in found) for k in (2, 3)] if found else None


def large(findings, plan):
    """Displays that extend beyond all of their windows and have more pixels than their touch screens have positions."""
    for number, display in enumerate(plan.displays):
        size, far = extent(plan, number), reach(plan, number)
        screens = [device for device in plan.devices if device.get("kind") == "touch" and device.get("display", 0) == number]
        places = [[device.said[key][1] - device.said[key][0] + 1 for key in ("x", "y")] for device in screens
                  if "x" in device.said and "y" in device.said]
        if not (size and far and places):
            continue
        turned = is_turned(display)
        for k, key in enumerate(("height", "width") if turned else ("width", "height")):
            axis = 1 - k if turned else k
            most = max(each[axis] for each in places)
            if size[k] > far[k] and size[k] > most:
                message = "%d, but its windows end at %d and its touch screens have %d positions: fingers beyond the windows reach nothing"
                full = "%s.%s" % (display.name, key)
                findings.warning(display.at(key), full, message % (size[k], far[k], most))


def covered(findings, plan):
    """Windows of which nothing can be touched, since all of it lies behind others that can be."""
    for step in plan.steps:
        front, channels = [], set()
        for window in step.get("windows", ()):
            region, number, channel = region_of(window), window.get("display", 0), window.get("channel")
            size, again = extent(plan, number), channel in channels
            if channel is not None:
                channels.add(channel)
            readable = "flags" in window.said or window.node.get("flags") is None
            flags = window.get("flags", ())
            if again or not readable or not region or not size or "NOT_TOUCHABLE" in flags:
                continue
            above = [(name, cover) for name, display, covers in front if display == number for cover in covers]
            if rectangles.left_over(region, [cover for _, cover in above], size):
                front += [(window.name, number, region)] if rectangles.is_cover(flags) else []
            elif rectangles.left_over(region, [], size):
                behind(findings, window, region, above)


def behind(findings, window, region, above):
    names = list(dict.fromkeys(name for name, cover in above if any(rectangles.overlap(cover, part) for part in region)))
    listed = "others" if len(names) > 3 else one_of(names).replace(" or ", " and ")
    message = "it lies wholly behind %s, so the window cannot be touched; windows are listed front to back"
    key = "region" if window.node.get("region") is not None else "frame"
    findings.warning(window.node.get(key).at, "%s.%s" % (window.name, key), message % listed)
