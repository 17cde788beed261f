"""What `adb shell dumpsys input` tells of displays, windows, the focus and devices, from Android 9 on."""
import re
from typing import NamedTuple

from plain_ends import Refused

VIEWPORT = re.compile(
    r"displayId=(?P<display>\d+).*?orientation=(?P<turn>\w+), logicalFrame=\[(?P<logical>[^\]]*)\], "
    r"physicalFrame=\[(?P<physical>[^\]]*)\], deviceSize=\[(?P<device>[^\]]*)\]"
)
WINDOW = re.compile(r"\s*\d+: name=(?P<name>.*?), (?P<rest>(?:id|displayId)=.*)")
PAIR = re.compile(r", (?=[A-Za-z][\w.]*=)")
RECTANGLE = re.compile(r"\[(-?\d+), ?(-?\d+)\]\[(-?\d+), ?(-?\d+)\]|Rect\((-?\d+), ?(-?\d+), ?(-?\d+), ?(-?\d+)\)")
TRANSFORM = re.compile(r"\s*transform \((?P<turn>[^)]*)\) \((?P<kinds>[^)]*)\)\s*")
ROW = re.compile(r"\s*(-?\d+\.\d+)\s+(-?\d+\.\d+)\s+(-?\d+\.\d+)\s*")
FOCUS = re.compile(r"\s*displayId=(\d+), name=('.*'|.*?)(?:, .*| result=.*)?\s*")
MONITORS = re.compile(r"\s*(Global|Gesture) monitors (?:in|on) display (\d+):\s*")
MONITOR = re.compile(r"\s*\d+: '(.*)',?\s*")
DISPLAY = re.compile(r"\s*Display: (\d+)\s*")
HUB_DEVICE = re.compile(r"\s*(-?\d+): (.*)")
HUB_PATH = re.compile(r"\s*Path: (/\S+)\s*")
REPEAT = re.compile(r"\s*KeyRepeat(?P<which>Timeout|Delay): (?P<ms>\d{1,6})(?:\.(?P<us>\d{1,3})\d*)?ms\s*")
READER_DEVICE = re.compile(r"\s*(?:Device (-?\d+): .*|EventHub Devices: \[([-\d ]*)\]\s*)")

# The bits of Android's window flags and input features before Android 13 that say who gets a touch or a key.
FLAGS = {
    0x8: "NOT_FOCUSABLE", 0x10: "NOT_TOUCHABLE", 0x20: "NOT_TOUCH_MODAL", 0x40000: "WATCH_OUTSIDE_TOUCH",
    0x800000: "SPLIT_TOUCH", 0x20000000: "SLIPPERY",
}
FEATURES = {0x2: "NO_INPUT_CHANNEL", 0x8: "DROP_INPUT", 0x10: "DROP_INPUT_IF_OBSCURED"}
TURNS = {"0": 0, "1": 90, "2": 180, "3": 270, "90": 90, "180": 180, "270": 270}


class Viewport(NamedTuple):
    """A display as it is turned: its extent, how far it is turned, and whether its pixels are those of the screen."""

    width: int
    height: int
    rotation: int
    whole: bool

    def natural(self):
        """The extent of the display as it is built."""
        return (self.height, self.width) if self.rotation in (90, 270) else (self.width, self.height)


class Window:
    """A window as a line of the dump tells it."""

    def __init__(self, name, values):
        self.name = name.strip("'")
        self.id = values.get("id", "")
        self.display = int(values["displayId"])
        self.values = values
        self.names = names_of(values)
        self.frame = rectangles(values["frame"])[0]
        self.region = rectangles(values["touchableRegion"])
        self.transform, self.rows = None, []
        self.is_new = "inputConfig" in values

    def visible(self):
        return "NOT_VISIBLE" not in self.names and self.values.get("visible") != "false"

    def limit_ms(self):
        told = re.match(r"(\d+)(?:\.\d+)?ms", self.values.get("dispatchingTimeout", ""))
        return int(told[1]) if told else 5000


class Dump:
    """What one dump tells. Displays have Android's numbers. `sizes` are extents of displays as they are turned. `repeat_us` has the
    microseconds from a key's down to its first repeat at "Timeout", and from each repeat to the next at "Delay"."""

    def __init__(self):
        self.viewports, self.sizes, self.windows, self.monitors = {}, {}, [], []
        self.focus, self.focused_display, self.device_displays = {}, None, {}
        self.repeat_us = {}


def rectangles(text):
    return [tuple(int(n) for n in found if n) for found in RECTANGLE.findall(text)]


def bits(text, table):
    """The names of a value that is a number in hexadecimal digits, or names with bars between them."""
    if re.fullmatch(r"0x[0-9a-fA-F]+|\d+", text):
        return {name for bit, name in table.items() if int(text, 0) & bit}
    return {word for word in re.split(r"[\s|,]+", text) if word and word != "<none>"}


def names_of(values):
    """The flags of a window by the names that Android has for them since Android 13."""
    trusted = {"TRUSTED_OVERLAY"} if values.get("trustedOverlay") == "true" else set()
    if "inputConfig" in values:
        return bits(values["inputConfig"], {}) | trusted
    flags = bits(values.get("flags", "0"), FLAGS)
    found = flags & {"NOT_FOCUSABLE", "NOT_TOUCHABLE", "WATCH_OUTSIDE_TOUCH", "SLIPPERY", "NOT_TOUCH_MODAL"}
    found |= bits(values.get("inputFeatures", "0"), FEATURES) - {"DISABLE_TOUCH_PAD_GESTURES", "NONE"}
    if "SPLIT_TOUCH" not in flags:
        found.add("PREVENT_SPLITTING")
    if "false" in (values.get("canReceiveKeys"), values.get("focusable")):
        found.add("NOT_FOCUSABLE")
    if values.get("paused") == "true":
        found.add("PAUSE_DISPATCHING")
    return found | trusted


def viewport_of(found):
    """The display of a line of a viewport, with Android's number, or None where the display has no pixels."""
    parts = (found["logical"], found["physical"], found["device"])
    logical, physical, device = ([int(n) for n in re.findall(r"-?\d+", part)] for part in parts)
    rotation = TURNS.get(re.sub(r"^(ROTATION_|Rotation|ROT_)", "", found["turn"]))
    if len(logical) != 4 or len(device) != 2 or rotation is None:
        return None
    width, height = logical[2] - logical[0], logical[3] - logical[1]
    if width <= 0 or height <= 0:
        return None
    whole = physical == [0, 0, *device] and logical[:2] == [0, 0] and [width, height] == device
    return Viewport(width, height, rotation, whole)


class Reader:
    """Reads a dump line by line."""

    def __init__(self):
        self.dump = Dump()
        self.part, self.display, self.owner = "", None, None
        self.hub, self.paths, self.devices = None, {}, []

    def line(self, line):
        window, viewport = WINDOW.fullmatch(line), VIEWPORT.search(line)
        if window:
            self.window(window)
        elif viewport:
            self.viewport(viewport)
        elif not (self.repeat(line) or self.matrix(line) or self.monitor(line) or self.focused(line)):
            self.device(line)
            self.extent(line)

    def window(self, found):
        values = dict(pair.partition("=")[::2] for pair in PAIR.split(found["rest"]))
        whole = re.fullmatch(r"\d+", values.get("displayId", "")) and RECTANGLE.fullmatch(values.get("frame", ""))
        if not whole or "touchableRegion" not in values:
            raise Refused("a window that cannot be read, or was cut: %.60s" % found.string.strip())
        self.owner = Window(found["name"], values)
        self.dump.windows.append(self.owner)
        if values.get("hasFocus") == "true":
            self.dump.focus[self.owner.display] = self.owner.name

    def viewport(self, found):
        told = viewport_of(found)
        display = int(found["display"])
        if told and "isActive=[0]" not in found.string:
            self.dump.viewports.setdefault(display, told)
            for device in self.devices:
                self.dump.device_displays[device] = display

    def repeat(self, line):
        """A delay of held keys."""
        found = REPEAT.fullmatch(line)
        if found:
            self.dump.repeat_us[found["which"]] = int(found["ms"]) * 1000 + int((found["us"] or "").ljust(3, "0"))
        return bool(found)

    def matrix(self, line):
        """The transform of the window above, and its rows."""
        found, row = TRANSFORM.fullmatch(line), ROW.fullmatch(line)
        if isinstance(self.owner, Window) and found:
            self.owner.transform = (found["turn"], found["kinds"])
        elif isinstance(self.owner, Window) and row:
            self.owner.rows.append(tuple(float(n) for n in row.groups()))
        return bool(found or row)

    def monitor(self, line):
        """Monitors: those of gestures became spies with Android 13."""
        head, entry = MONITORS.fullmatch(line), MONITOR.fullmatch(line)
        if head:
            self.part = (head[1], int(head[2]))
        elif entry and isinstance(self.part, tuple):
            self.dump.monitors.append((*self.part, entry[1]))
        return bool(head or (entry and isinstance(self.part, tuple)))

    def focused(self, line):
        """The focused window of each display."""
        word = line.strip()
        entry = FOCUS.fullmatch(line)
        if re.fullmatch(r"FocusedDisplayId: \d+", word):
            self.dump.focused_display = int(word.partition(":")[2])
        elif word.startswith("FocusedWindow: name="):
            self.dump.focus[0] = word.partition("name=")[2].strip("'")
        elif re.match(r"[A-Z]\w+:", word):
            self.part, self.owner = word.partition(":")[0], None
            return self.part == "FocusedWindows"
        elif entry and self.part == "FocusedWindows":
            self.dump.focus[int(entry[1])] = entry[2].strip("'")
        else:
            return False
        return True

    def device(self, line):
        """Which path has which display: by the devices of the event hub, and the viewports of the reader's devices."""
        hub, path, device = HUB_DEVICE.fullmatch(line), HUB_PATH.fullmatch(line), READER_DEVICE.fullmatch(line)
        if hub:
            self.hub = hub[1]
        elif path and self.hub:
            self.paths[self.hub] = path[1]
        elif device:
            self.devices = [self.paths[n] for n in (device[1] or device[2]).split() if n in self.paths]
        elif re.match(r"\S", line) or re.match(r"  (Configuration|Viewports):", line):
            self.devices = []

    def extent(self, line):
        size = re.match(r"\s*logicalSize=(\d+)x(\d+)", line)
        if size and self.display is not None:
            self.dump.sizes[self.display] = (int(size[1]), int(size[2]))


def dump_of(lines):
    reader = Reader()
    for number, line in enumerate(lines, 1):
        display = DISPLAY.fullmatch(line)
        if display:
            reader.display, reader.part, reader.owner = int(display[1]), "Display", None
            continue
        try:
            reader.line(line)
        except Refused as error:
            raise Refused("line %d is %s" % (number, error)) from error
    return reader.dump
