"""What the program takes in a session by itself, and likely is not as meant."""
from rectangles import is_empty, overlap

from . import covering, known
from .covering import extent, in_order, is_outside
from .findings import nearest, shown


def unread(findings, entry, read, others=(), whose=""):
    """Keys of a table that nothing reads. `others` are keys that are read of another kind of such a table."""
    for key, (at, _) in entry.node.value.items():
        if key in read:
            continue
        full = "%s.%s" % (entry.name, shown(key)) if entry.name else shown(key)
        if key in others:
            findings.warning(at, full, "nothing reads this key %s" % whose)
        else:
            absent = [name for name in tuple(read) + tuple(others) if name not in entry.node.value]
            findings.warning(at, full, "nothing reads this key%s" % nearest(key, absent))


def unread_by_kind(findings, entry, table, kind, what):
    every = tuple(dict.fromkeys(name for names in table.values() for name in names))
    unread(findings, entry, table.get(kind, every), every, what % kind)


def unread_keys(findings, plan):
    unread(findings, plan.document, known.DOCUMENT)
    for display in plan.displays:
        if display.node is not plan.document.node:
            unread(findings, display, known.DISPLAY)
    for device in plan.devices:
        unread_by_kind(findings, device, known.DEVICE, device.get("kind"), "of a device of kind %s")
    for channel in plan.channels:
        unread(findings, channel, known.CHANNEL)
    for step in plan.steps:
        unread_by_kind(findings, step, known.STEP, step.get("do"), "of a step that does %s")
        for window in step.get("windows", ()):
            unread(findings, window, known.WINDOW)


def entries(findings, plan):
    """Sessions without devices, channels or windows give empty streams, or none."""
    if not plan.devices and "device" not in plan.document.node.value:
        findings.warning((1, 1), "device", "there is none, so no event of the recording counts")
    if not plan.channels and "channel" not in plan.document.node.value:
        findings.warning((1, 1), "channel", "there is none, so nobody is told anything")
    elif plan.channels and not any(step.get("do") == "windows" for step in plan.steps):
        findings.warning((1, 1), "step", 'no step does "windows", so no window is ever shown')
    else:
        shows = {window.get("channel") for step in plan.steps for window in step.get("windows", ())}
        for channel in plan.channels:
            if channel.get("name") and channel.get("name") not in shows:
                findings.warning(channel.at("name"), channel.name, "no step shows a window of this channel")


def paths(findings, plan):
    for device in plan.devices:
        path = device.get("path", "")
        if path.endswith(":"):
            message = "it ends with the colon that getevent writes behind a path, and so never matches; leave the colon out"
            findings.warning(device.node.get("path").at, device.name + ".path", message)


def repeats(findings, plan):
    if plan.document.get("repeat", True) is False and "repeat_us" in plan.document.said:
        findings.warning(plan.document.at("repeat_us"), "repeat_us", "no key is repeated where repeat is false")


def times(findings, plan):
    for channel in plan.channels:
        if channel.get("finishes", True) is False:
            limit = channel.get("limit_ms", 5000)
            message = "it finishes no message: it is named in an anr line %d ms after its first, and given nothing more" % limit
            findings.warning(channel.node.get("finishes").at, channel.name + ".finishes", message)
            if "finish_after_us" in channel.said:
                message = "nothing looks at it where finishes is false"
                findings.warning(channel.at("finish_after_us"), channel.name + ".finish_after_us", message)
        elif channel.get("finish_after_us", 0) > channel.get("limit_ms", 5000) * 1000:
            message = "it finishes later than its limit_ms of %d, and so is named in an anr line" % channel.get("limit_ms", 5000)
            findings.warning(channel.at("finish_after_us"), channel.name + ".finish_after_us", message)


def regions(findings, plan):
    """Windows that no finger can touch, though they do not say so, and regions beside their frames."""
    for step in plan.steps:
        for window in step.get("windows", ()):
            if "NOT_TOUCHABLE" in window.get("flags", ()):
                continue
            key = "region" if window.node.get("region") is not None else "frame"
            if window.get("frame") is None or key not in window.said:
                continue
            rectangles = window.said["region"] if key == "region" else [window.said["frame"]]
            size = extent(plan, window.get("display", 0))
            full, at = "%s.%s" % (window.name, key), window.node.get(key).at
            if not rectangles and window.get("opacity") == 0:
                continue  # It is meant so: with NOT_TOUCHABLE it would obscure nothing.
            if all(is_empty(rectangle) for rectangle in rectangles):
                findings.warning(at, full, "it has no pixel, so the window cannot be touched")
            elif size and all(is_empty(r) or is_outside(r, size) for r in rectangles):
                message = "it lies outside of its display of %d x %d pixels, so the window cannot be touched" % size
                findings.warning(at, full, message)
            elif key == "region" and not any(overlap(rectangle, window.said["frame"]) for rectangle in rectangles):
                findings.warning(at, full, "it lies outside of the frame; a region is in pixels of the display")


def by_channel(step):
    """The windows of a step by their channels; walls have none."""
    return {window.get("channel"): window for window in step.get("windows", ()) if window.get("channel") is not None}


def spies(findings, plan):
    """Pilfering by a channel whose window is no spy at that moment, or of a device without fingers."""
    windows = {}
    for step in in_order(plan):
        if step.get("do") == "windows":
            windows = by_channel(step)
        if step.get("do") != "pilfer" or step.get("channel") is None:
            continue
        at, name = step.node.get("channel").at, shown(step.get("channel"))
        window = windows.get(step.get("channel"))
        if window is None:
            findings.warning(at, step.name + ".channel", 'no window of "%s" is shown then, so nothing happens' % name)
        elif "SPY" not in window.get("flags", ()) and ("flags" in window.said or "flags" not in window.node.value):
            findings.warning(at, step.name + ".channel", '"%s" has no window with SPY then, so nothing happens' % name)
        number = step.get("device")
        if number is not None and plan.devices[number - 1].get("kind") == "keys":
            message = "device %d has keys and no fingers, so nothing happens" % number
            findings.warning(step.node.get("device").at, step.name + ".device", message)


def removals(findings, plan):
    """Steps that name a channel after it was removed."""
    removed = {}
    for step in in_order(plan):
        places = [(step.name, step)] + [(window.name, window) for window in step.get("windows", ())]
        for name, entry in places:
            if entry.get("channel") in removed:
                message = '"%s" was removed by %s, and is told nothing more' % (shown(entry.get("channel")), removed[entry.get("channel")])
                findings.warning(entry.node.get("channel").at, name + ".channel", message)
        if step.get("do") == "remove" and step.get("channel") is not None:
            removed.setdefault(step.get("channel"), step.name)


def focus(findings, plan):
    """Keys that nobody is sent, and a focus that its window cannot have."""
    windows = {}
    for step in in_order(plan):
        if step.get("do") == "windows":
            windows = by_channel(step)
        window = windows.get(step.get("channel"))
        if step.get("do") != "focus" or window is None:
            continue
        at, name = step.node.get("channel").at, shown(step.get("channel"))
        if "NOT_FOCUSABLE" in window.get("flags", ()):
            findings.warning(at, step.name + ".channel", 'the window of "%s" is NOT_FOCUSABLE then' % name)
        if window.get("display", 0) != step.get("display", 0):
            message = 'the window of "%s" is on display %d then, and the focus of display %d is asked for'
            findings.warning(at, step.name + ".channel", message % (name, window.get("display", 0), step.get("display", 0)))
    keyed = [device for device in plan.devices if device.get("kind") == "keys"]
    if keyed and not any(step.get("do") == "focus" for step in plan.steps):
        findings.warning(keyed[0].node.at, keyed[0].name, 'no step does "focus", so nobody is told of keys')


def judge(findings, plan):
    unread_keys(findings, plan)
    for part in (entries, paths, repeats, times, regions, covering.large, covering.covered, spies, removals, focus):
        part(findings, plan)
