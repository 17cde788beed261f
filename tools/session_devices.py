"""The devices of a session, from what getevent tells of them."""
import evdev_names as names
from session_text import comment, numbers, table, text

MOST = 8
MOST_SLOTS = 16
LETTERS = {16: "QWERTYUIOP", 30: "ASDFGHJKL", 44: "ZXCVBNM", 2: "1234567890"}

# The Android names that a session knows, by the kernel's codes, as Android's Generic.kl has them.
LAYOUT = {first + k: letter for first, row in LETTERS.items() for k, letter in enumerate(row)} | {
    1: "ESCAPE", 14: "DEL", 15: "TAB", 28: "ENTER", 29: "CTRL_LEFT", 42: "SHIFT_LEFT", 54: "SHIFT_RIGHT",
    56: "ALT_LEFT", 57: "SPACE", 97: "CTRL_RIGHT", 100: "ALT_RIGHT", 114: "VOLUME_DOWN", 115: "VOLUME_UP",
    116: "POWER", 127: "MENU", 139: "MENU", 152: "POWER", 158: "BACK", 172: "HOME", 356: "POWER",
}

# What else a device may have, of which a session says nothing.
OTHERS = {names.EV_REL: "its relative axes", names.EV_SW: "its switches"}
X, Y = names.ABS_MT_POSITION_X, names.ABS_MT_POSITION_Y
READ = {names.ABS_MT_SLOT, X, Y, names.ABS_MT_TOOL_TYPE, names.ABS_MT_TRACKING_ID}


def called(device):
    return '%s "%s"' % (device.path, device.name)


def keys(device):
    """The codes of a device that are keys, and no buttons."""
    return sorted(code for code in device.codes.get(names.EV_KEY, ()) if not names.is_button(code))


def pressed_in(events, first):
    """The paths that have events in a recording, each with the scan codes that are pressed. Events without a path are of the first."""
    pressed = {}
    for event in events:
        codes = pressed.setdefault(event.path or first, set())
        if event.kind == names.EV_KEY and event.value == 1:
            codes.add(event.code)
    return pressed


def is_touch(device):
    return device.has(names.EV_ABS, X, Y)


def why_not(device):
    """Why a session cannot have a device; None where it can."""
    if is_touch(device):
        if not device.has(names.EV_ABS, names.ABS_MT_SLOT, names.ABS_MT_TRACKING_ID):
            return "speaks the kernel's multi-touch protocol A, of which the program reads nothing"
        if names.INPUT_PROP_POINTER in (device.properties or ()):
            return "is a touch pad, which moves a mouse"
        if any(axis not in device.axes or device.axes[axis][1] >= device.axes[axis][2] for axis in (X, Y)):
            return "tells no range of its positions"
        return None
    if device.has(names.EV_REL, 0, 1):
        return "is a mouse: only the command hover reads it, by --mouse %s" % device.path
    if device.has(names.EV_ABS, names.ABS_X, names.ABS_Y) and device.has(names.EV_KEY, names.BTN_TOUCH):
        return "is a single touch device, of which the program reads nothing"
    return None if keys(device) else "has neither a touch screen nor keys"


def chosen(devices, said):
    """The devices that a session has: first touch screens, then keys with a name, then others, at most eight."""
    fit = []
    for device in devices:
        reason = why_not(device)
        if reason:
            said("%s %s; it is left out" % (called(device), reason))
        else:
            fit.append(device)
    ranks = sorted(fit, key=lambda d: (not is_touch(d), not any(code in LAYOUT for code in keys(d))))
    for device in ranks[MOST:]:
        said("%s is left out: a session has at most %d devices" % (called(device), MOST))
    return [device for device in fit if device in ranks[:MOST]]


def touch_table(device, display, said):
    slots = device.axes.get(names.ABS_MT_SLOT, (0, 0, 9))[2] + 1
    if not 1 <= slots <= MOST_SLOTS:
        said("%s has %d slots; a session has at most %d" % (called(device), slots, MOST_SLOTS))
        slots = MOST_SLOTS if slots > 1 else 1
    lines = [comment(device.name), 'kind = "touch"', "path = %s" % text(device.path)]
    lines += ["display = %d" % display] if display else []
    lines += ["slots = %d" % slots]
    lines += ["%s = %s" % (name, numbers(device.axes[axis][1:3])) for name, axis in (("x", X), ("y", Y))]
    unread = sorted(code for code in device.codes[names.EV_ABS] if code > names.ABS_MT_SLOT and code not in READ)
    if unread:
        told = ", ".join(names.code_name(names.EV_ABS, code) for code in unread)
        said("%s: of %s nothing is read" % (called(device), told))
    if keys(device):
        said("%s: its keys are left out, since a device of a session is a screen or has keys" % called(device))
    return table("device", *lines)


def keys_table(device, pressed, said):
    """A device of keys. Its layout has the keys with a name, and those without one that are pressed, as what they are."""
    listed = sorted({code for code in keys(device) if code in LAYOUT} | pressed)
    lines = [comment(device.name), 'kind = "keys"', "path = %s" % text(device.path)]
    if listed:
        lines += ['layout = """', *("key %d %s" % (code, LAYOUT.get(code, "UNKNOWN")) for code in listed), '"""']
    unknown = [names.code_name(names.EV_KEY, code) for code in keys(device) if code not in LAYOUT]
    if unknown:
        said("%s: these keys have no Android name here and get key code 0: %s" % (called(device), " ".join(unknown)))
    others = [word for kind, word in OTHERS.items() if device.codes.get(kind)]
    if others:
        said("%s: of %s nothing is read" % (called(device), " and ".join(others)))
    return table("device", *lines)


def lies_across(device, extent):
    """Whether the axes of a screen have the extent of its display the other way round."""
    across = tuple(device.axes[axis][2] - device.axes[axis][1] + 1 for axis in (Y, X))
    return extent[0] != extent[1] and across == extent


def device_tables(devices, displays, places, pressed, said):
    """The tables of devices, each on the display of Android at its path in `displays`, else on the first one. `pressed` has the
    scan codes that a recording presses, by path."""
    lines = []
    for device in devices:
        display = displays.get(device.path, min(places.place))
        if not is_touch(device):
            lines += keys_table(device, pressed.get(device.path, set()), said)
        elif display not in places.place:
            said("%s is left out, since its display %d is" % (called(device), display))
        else:
            if lies_across(device, places.extents[display][:2]):
                said("%s has its axes across the display; a session cannot turn a device" % called(device))
            lines += touch_table(device, places.place[display], said)
    return lines
