"""Sessions and recordings from a number. A case is valid, nearly valid (a valid one with a few damages), or bytes."""
import random
from typing import NamedTuple, Optional

from .damage import damaged, some_bytes

PATHS = ("/dev/input/event2", "/dev/input/event5", "/dev/input/event7", "/dev/input/event9")
FLAGS = ("NOT_TOUCHABLE", "SPY", "PREVENT_SPLITTING", "SLIPPERY", "WATCH_OUTSIDE_TOUCH", "NOT_FOCUSABLE", "TRUSTED_OVERLAY")
LAYOUT = "key 30 A\nkey 42 SHIFT_LEFT\nkey 115 VOLUME_UP\nkey 158 BACK\n"
SCANS = (30, 42, 115, 158, 999)


# The flags that a window of nobody may have.
WALL_FLAGS = ("NOT_TOUCHABLE", "NOT_FOCUSABLE", "TRUSTED_OVERLAY")


class Window(NamedTuple):
    """A window of a step. A wall, which is of nobody, has no name."""

    name: str
    display: int
    frame: tuple
    flags: tuple = ()
    region: Optional[list] = None
    owner: int = 0
    opacity: int = 100
    occlusion: str = "block"


def sides(display):
    """The width and the height of a display, as it is turned."""
    width, height, turned = display
    return (height, width) if turned in (90, 270) else (width, height)


def owned(rng, window, owners=(0, 0, 0, 1, 2)):
    """The window as one of some owner, of some opacity and some occlusion."""
    opacity = rng.choice((0, 20, 50, 60, 80, 81, 100, rng.randint(0, 100)))
    return window._replace(owner=rng.choice(owners), opacity=opacity, occlusion=rng.choice(("block", "opacity", "opacity", "allow", "allow")))


def with_channels(windows):
    """Those of some windows that are no walls."""
    return [window for window in windows if window.name]


def walled(rng, windows, displays):
    """The windows, in about a quarter of the calls with one to three walls among them."""
    windows = list(windows)
    for _ in range(rng.choice((0, 0, 0, 1, 1, 3)) if rng.random() < 0.5 else 0):
        number = rng.randrange(len(displays))
        width, height = sides(displays[number])
        frame = rng.choice(((0, 0, width // 2, height), (0, 0, width, height // 3), some_frame(rng, width, height)))
        flags = [flag for flag in WALL_FLAGS if rng.random() < 0.2]
        wall = Window("", number, frame, flags, rng.choice((None, None, [frame], [])))
        windows.insert(rng.randint(0, len(windows)), owned(rng, wall) if rng.random() < 0.7 else wall)
    return windows


def some_frame(rng, width, height):
    """A part of a display, and perhaps of what is beyond its edges."""
    (left, right), (top, bottom) = (sorted((rng.randint(-10, side), rng.randint(0, side + 10))) for side in (width, height))
    return left, top, right, bottom


class Case:
    """What a number makes."""

    def __init__(self, number):
        self.number = number
        self.random = random.Random(number)
        self.kind = self.random.choices(("valid", "nearly valid", "bytes"), (7, 2, 1))[0]
        # A plain session says nothing but displays, touch devices and the first windows.
        self.plain = self.random.random() < 0.35
        # Windows that lie apart and have no flags.
        self.apart = self.random.random() < 0.25
        self.make_session()
        self.make_repeats()
        self.make_recording()
        self.session = self.session_text(self.steps).encode()
        self.recording = "".join(self.lines).encode()
        # Whether the session is the one that was made, and whether the recording is.
        self.known = self.whole = True
        if self.kind == "nearly valid":
            if self.random.random() < 0.5:
                self.session, self.known = damaged(self.random, self.session), False
            if self.random.random() < 0.7:
                self.recording, self.whole = damaged(self.random, self.recording), False
        elif self.kind == "bytes":
            if self.random.random() < 0.5:
                self.session, self.known = some_bytes(self.random), False
            self.recording, self.whole = some_bytes(self.random), False

    def drawn(self, law):
        """What a law draws from. It is the same at each run of the case, whatever the laws before it drew."""
        return random.Random("%d %s" % (self.number, law))

    def make_session(self):
        rng = self.random
        sides = [(rng.choice((1, 100, 1080, 1080, 16384)), rng.choice((3, 100, 2400, 2400, 16384))) for _ in range(3)]
        count = 1 if self.plain else rng.randint(1, 3)
        self.displays = [side + (rng.choice((0, 0, 90, 180, 270)),) for side in sides[:count]]
        self.make_devices()
        self.channels = []
        for k in range(rng.randint(1, 6)):
            default = self.plain or rng.random() < 0.5
            limit = 5000 if default else rng.choice((1, 20, 500, 600000))
            delay = 0 if default else rng.choice((0, 1, 7000, 2000000))
            self.channels.append(("c%d" % (k + 1), limit, delay, default or rng.random() < 0.7))
        self.current = self.some_windows()
        self.steps = [(0, 1, "windows", self.current)]
        if not self.plain and rng.random() < 0.8:
            self.steps.append((0, 1, "focus", self.some_focus()))
        times = sorted(rng.choice((0, rng.randint(0, 3000000))) for _ in range(rng.choice((0, 1, 3, 6))))
        for at in () if self.plain else times:
            self.steps.append((at, rng.randint(1, 8)) + self.some_act())
        rng.shuffle(self.steps)
        self.end = 0 if self.plain else rng.choice((0, 0, 3000000))
        windows = [window for step in self.steps if step[2] == "windows" for window in step[3]]
        self.spies = any("SPY" in window[3] for window in windows)

    def make_repeats(self):
        """When held keys are repeated: the two delays, and whether any key is. More than half of the sessions say nothing of it."""
        rng = self.drawn("repeats")
        self.repeat_us, self.repeats = (500000, 50000), True
        self.says_delays = not self.plain and rng.random() < 0.4
        if self.says_delays:
            self.repeat_us = rng.choice((1000, 8000, 60000, 660000, 600000000)), rng.choice((20000, 40000, 60000, 700000, 600000000))
        if not self.plain and rng.random() < 0.2:
            self.repeats = False

    def make_devices(self):
        rng = self.random
        self.devices = []
        for path in PATHS[: rng.choice((1, 1, 2, 3, 4))]:
            kind = "touch" if self.plain or rng.random() < 0.6 else "keys"
            low = rng.choice((0, 0, 0, -5, -(2**31)))
            high = rng.choice((low, low + 9, low + 1079, low + 1079, 2**31 - 1))
            display = rng.randrange(len(self.displays))
            self.devices.append((kind, path, rng.choice((10, 10, 16, 1, 2)), low, high, display))

    def some_windows(self):
        """Some windows, front to back. Those of about half of the calls trust each other."""
        rng = self.random
        names = [c[0] for c in self.channels]
        rng.shuffle(names)
        names = names[: rng.randint(1, len(names))]
        windows = []
        for k, name in enumerate(names):
            display = rng.randrange(len(self.displays))
            width, height = sides(self.displays[display])
            if self.apart:
                frame = (width * k // len(names), 0, width * (k + 1) // len(names), height)
                windows.append(Window(name, display, frame))
                continue
            frame = rng.choice(((0, 0, width, height), some_frame(rng, width, height)))
            flags = [f for f in FLAGS if rng.random() < 0.15]
            if k == 0 and len(names) > 1 and rng.random() < 0.4:
                flags = [rng.choice(("SPY", "WATCH_OUTSIDE_TOUCH"))]
            halves = [(0, 0, width // 2, height), (width // 3, 0, width, height // 2)]
            windows.append(Window(name, display, frame, flags, rng.choice((None, None, None, [frame], [], halves))))
        windows = [owned(rng, window) for window in windows] if rng.random() < 0.5 else windows
        return windows if self.plain or self.apart else walled(rng, windows, self.displays)

    def some_focus(self):
        """A window that is there and its display, a channel and any display, or nobody."""
        rng = self.random
        if rng.random() < 0.7:
            return rng.choice(with_channels(self.current))[:2]
        return rng.choice((None, rng.choice(self.channels)[0])), rng.randrange(len(self.displays))

    def some_act(self):
        rng = self.random
        act = rng.choice(("windows", "windows", "focus", "focus", "pilfer", "pilfer", "remove"))
        if act == "windows":
            self.current = self.some_windows()
            return act, self.current
        if act == "focus":
            return act, self.some_focus()
        name = rng.choice(self.channels)[0]
        if act == "remove":
            return act, name
        spies = [window[0] for window in self.current if "SPY" in window[3]]
        return act, (rng.choice(spies or [name]), rng.randint(1, len(self.devices)))

    def session_text(self, steps):
        width, height, turned = self.displays[0]
        text = "[display]\nwidth = %d\nheight = %d\nrotation = %d\n" % (width, height, turned)
        text = ("repeat = false\n" if not self.repeats else "") + text
        text = ("repeat_us = [%d, %d]\n" % self.repeat_us if self.says_delays else "") + text
        text = ("end_us = %d\n" % self.end if self.end else "") + text
        for display in self.displays[1:]:
            text += "\n[[extra_display]]\nwidth = %d\nheight = %d\nrotation = %d\n" % display
        for kind, path, slots, low, high, display in self.devices:
            text += '\n[[device]]\nkind = "%s"\npath = "%s"\n' % (kind, path)
            if kind == "keys":
                text += 'layout = """%s"""\n' % LAYOUT
            else:
                text += "slots = %d\nx = [%d, %d]\ny = [%d, %d]\n" % (slots, low, high, low, high)
                text += "display = %d\n" % display if display else ""
        for name, limit, delay, finishes in self.channels:
            text += '\n[[channel]]\nname = "%s"\n' % name
            if (limit, delay, finishes) != (5000, 0, True):
                text += "limit_ms = %d\nfinish_after_us = %d\nfinishes = %s\n" % (limit, delay, str(finishes).lower())
        for at, lane, act, what in steps:
            text += '\n[[step]]\nat_us = %d\nlane = %d\ndo = "%s"\n' % (at, lane, act) + act_text(act, what)
        return text

    def make_recording(self):
        """Packets and keys of the devices in rising moment. Nearly all recordings end with nothing down."""
        rng = self.random
        self.lines = []
        closes = rng.random() < 0.8
        senders = [Touch(rng, d) if d[0] == "touch" else Keys(rng, d) for d in self.devices]
        us = rng.choice((0, 1000, 1000000))
        for _ in range(rng.choice((0, 5, 20, 60, 60, 200))):
            us += rng.choice((0, 1, 1000, 8000, 8000, 60000, 700000))
            self.lines += rng.choice(senders).send(us)
            if rng.random() < 0.02:
                others = ("add device 1: /dev/input/event2\n", "\n", '  name:     "touch"\n')
                self.lines.append(rng.choice(others + (line(us, "/dev/other", 3, 53, 9),)))
        for sender in senders if closes else ():
            us += 8000
            self.lines += sender.close(us)
        if rng.random() < 0.1:
            self.lines = [l[:-1] + "\r\n" for l in self.lines]


class Touch:
    """A touch device that speaks the kernel's protocol B."""

    def __init__(self, rng, device):
        self.rng = rng
        _, self.path, self.slots, self.low, self.high, _ = device
        self.held = {}
        self.next = rng.choice((0, 1, 2**31 - 2000))
        self.slot = 0

    def at_slot(self, us, slot):
        if slot == self.slot and self.rng.random() < 0.7:
            return []
        self.slot = slot
        return [line(us, self.path, 3, 47, slot)]

    def place(self, us):
        rng = self.rng
        kinds = [(rng.randint(self.low, self.high), self.low, self.high, rng.randint(-100, 2500)) for _ in range(2)]
        raw = [rng.choice(kind) for kind in kinds]
        return [line(us, self.path, 3, 53 + k, raw[k]) for k in range(2) if rng.random() < 0.9]

    def change(self, us, slot):
        rng = self.rng
        lines = self.at_slot(us, slot)
        if slot not in self.held:
            self.held[slot] = self.next
            self.next += 1
            palm = [line(us, self.path, 3, 55, rng.choice((0, 2)))] if rng.random() < 0.05 else []
            return lines + [line(us, self.path, 3, 57, self.held[slot])] + self.place(us) + palm
        if rng.random() < 0.3:
            del self.held[slot]
            return lines + [line(us, self.path, 3, 57, -1)]
        if rng.random() < 0.03:
            return lines + [line(us, self.path, 3, 55, 2)]
        return lines + self.place(us)

    def send(self, us):
        rng = self.rng
        if rng.random() < 0.02:
            self.held = {}
            self.slot = 0
            return [line(us, self.path, 0, 3, 0), line(us, self.path, 0, 0, 0)]
        lines = []
        for slot in rng.sample(range(self.slots), min(self.slots, rng.choice((1, 1, 2, 3)))):
            lines += self.change(us, slot)
        return lines + [line(us, self.path, 0, 0, 0)]

    def close(self, us):
        lines = []
        for slot in sorted(self.held):
            lines += [line(us, self.path, 3, 47, slot), line(us, self.path, 3, 57, -1)]
        return lines + [line(us, self.path, 0, 0, 0)]


class Keys:
    """A device with keys."""

    def __init__(self, rng, device):
        self.rng = rng
        self.path = device[1]
        self.down = set()

    def send(self, us):
        scan = self.rng.choice(SCANS)
        value = self.rng.choice((0, 1, 1, 2))
        if self.down and self.rng.random() < 0.3:
            scan, value = self.rng.choice(sorted(self.down)), 0
        (self.down.add if value == 1 else self.down.discard if value == 0 else int)(scan)
        return [line(us, self.path, 1, scan, value), line(us, self.path, 0, 0, 0)]

    def close(self, us):
        return [line(us, self.path, 1, scan, 0) for scan in sorted(self.down)] + [line(us, self.path, 0, 0, 0)]


def act_text(act, what):
    if act == "windows":
        text = "windows = ["
        for window in what:
            whose = 'channel = "%s"' % window.name if window.name else "wall = true"
            text += "\n    { %s, display = %d, frame = %s" % (whose, window.display, list(window.frame))
            text += ", flags = [%s]" % ", ".join('"%s"' % f for f in window.flags) if window.flags else ""
            text += ", region = %s" % [list(r) for r in window.region] if window.region is not None else ""
            if window[5:] != Window("", 0, ())[5:]:
                text += ', owner = %d, opacity = %d, occlusion = "%s"' % window[5:]
            text += " },"
        return text + "\n]\n"
    if act == "focus":
        return ('channel = "%s"\n' % what[0] if what[0] else "") + "display = %d\n" % what[1]
    if act == "pilfer":
        return 'channel = "%s"\ndevice = %d\n' % what
    return 'channel = "%s"\n' % what


def line(us, path, kind, code, value):
    """An event as `getevent -t` prints it."""
    return "[%8d.%06d] %s: %04x %04x %08x\n" % (us // 10**6, us % 10**6, path, kind, code, value % 2**32)
