"""Writes events in the forms that other programs print, after their public formats. An event is its moment in
microseconds, its type, code and value; all are of /dev/input/event2."""
import struct

PATH = "/dev/input/event2"
TYPES = {0: "EV_SYN", 1: "EV_KEY", 3: "EV_ABS", 4: "EV_MSC"}
CODES = {
    (0, 0): "SYN_REPORT", (0, 3): "SYN_DROPPED",
    (1, 115): "KEY_VOLUMEUP", (1, 330): "BTN_TOUCH", (1, 444): "KEY_NOTIFICATION_CENTER",
    (3, 47): "ABS_MT_SLOT", (3, 53): "ABS_MT_POSITION_X", (3, 54): "ABS_MT_POSITION_Y", (3, 55): "ABS_MT_TOOL_TYPE",
    (3, 57): "ABS_MT_TRACKING_ID", (3, 58): "ABS_MT_PRESSURE", (4, 4): "MSC_SCAN",
}
VALUES = {1: {0: "UP", 1: "DOWN", 2: "REPEAT"}, 55: {0: "MT_TOOL_FINGER", 1: "MT_TOOL_PEN", 2: "MT_TOOL_PALM"}}


def parts(moment):
    return divmod(moment, 1000000)


def plain(events):
    """getevent -t"""
    for moment, kind, code, value in events:
        yield "[%8d.%06d] %s: %04x %04x %08x" % (*parts(moment), PATH, kind, code, value & 0xFFFFFFFF)


def labels(events):
    """getevent -lt, which cuts labels to 12 and 20 characters, and writes digits where it has no label"""
    for moment, kind, code, value in events:
        named = VALUES.get(55 if (kind, code) == (3, 55) else kind if kind == 1 else None, {})
        words = (TYPES.get(kind, "%04x" % kind), CODES.get((kind, code), "%04x" % code))
        words += (named.get(value, "%08x" % (value & 0xFFFFFFFF)),)
        yield "[%8d.%06d] %s: %-12.12s %-20.20s %-20.20s" % (*parts(moment), PATH, *words)


def evemu(events):
    """evemu-record"""
    yield "# EVEMU 1.3"
    yield "N: touch"
    yield "I: 0018 0000 0000 0000"
    for moment, kind, code, value in events:
        yield "E: %d.%06d %04x %04x %04d\t# %s" % (*parts(moment), kind, code, value, CODES.get((kind, code), ""))


def libinput(events):
    """libinput record"""
    yield "# libinput record"
    yield "version: 1"
    yield "devices:"
    yield "- node: %s" % PATH
    yield "  events:"
    for k, (moment, kind, code, value) in enumerate(events):
        if k == 0 or events[k - 1][1:3] == (0, 0):
            yield "  - evdev:"
        yield "    - [%3d, %6d, %3d, %3d, %7d] # %s" % (*parts(moment), kind, code, value, CODES.get((kind, code), ""))


def evtest(events):
    """evtest"""
    marks = {0: ("-" * 14, "-" * 12), 2: ("+" * 14, "+" * 12), 3: (">" * 14, "<" * 12)}
    for moment, kind, code, value in events:
        name = CODES.get((kind, code), "?")
        if kind == 0:
            said = "%s %s %s" % (marks[code][0], name, marks[code][1])
        else:
            number = "%02x" % (value & 0xFFFFFFFF) if (kind, code) in ((4, 3), (4, 4)) else "%d" % value
            said = "type %d (%s), code %d (%s), value %s" % (kind, TYPES.get(kind, "?"), code, name, number)
        yield "Event: time %d.%06d, %s" % (*parts(moment), said)


def binary(events):
    """cat /dev/input/event2 of 64 bits"""
    return b"".join(struct.pack("<QQHHi", *parts(moment), *rest) for moment, *rest in events)
