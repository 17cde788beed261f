"""What the program reads of the events of a recording, and what it does not."""
import collections

import evdev_names as names
from plain_ends import Refused

TOUCH = (names.ABS_MT_SLOT, names.ABS_MT_TRACKING_ID)
PLACES = (names.ABS_MT_POSITION_X, names.ABS_MT_POSITION_Y)

NOTHING = {
    "protocol A": "speaks the kernel's multi-touch protocol A (SYN_MT_REPORT), of which the program reads nothing",
    "single touch": "is a single touch device (ABS_X and ABS_Y alone), of which the program reads nothing",
    "held": "moves fingers that went down before the recording began, of which the program reads nothing",
    "other": "has no finger, key or mouse, so the program reads nothing of it",
}


def has(said, kind, *codes):
    return any((kind, code) in said for code in codes)


def kind_of_device(said):
    """What a device is by the types and codes of its events."""
    if has(said, names.EV_SYN, names.SYN_MT_REPORT):
        return "protocol A"
    if has(said, names.EV_ABS, names.ABS_MT_TRACKING_ID):
        return "touch"
    if any(kind == names.EV_KEY and not names.is_button(code) for kind, code in said):
        return "keys"
    if has(said, names.EV_ABS, *PLACES):
        return "held"
    if has(said, names.EV_ABS, names.ABS_X, names.ABS_Y):
        return "single touch"
    return "mouse" if any(kind == names.EV_REL for kind, code in said) else "other"


def worth(events):
    """Lines about devices of which nothing is read. A recording that has only such devices is refused."""
    said = collections.defaultdict(set)
    for event in events:
        said[event.path].add((event.kind, event.code))
    found = {path: kind_of_device(codes) for path, codes in said.items()}
    lines = ["%s %s" % (path or "the device", NOTHING[kind]) for path, kind in found.items() if kind in NOTHING]
    if len(lines) == len(found):
        raise Refused("; ".join(lines))
    mice = [path for path, kind in found.items() if kind == "mouse"]
    return lines + ["%s is a mouse, which only the command hover reads" % path for path in mice]
