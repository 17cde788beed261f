"""A recording: what the program refuses in it, which devices it is of, and what it is where it is no text of `getevent -t`."""
import re

from . import known
from .contacts import PART, Contacts, Keys

EVENT = re.compile(
    rb"[ \t]*\[[ \t]*([0-9]{1,12})\.([0-9]{6})[ \t]*\][ \t]+(?:(/[^ \t]*):[ \t]+)?"
    rb"([0-9a-fA-F]{4})[ \t]+([0-9a-fA-F]{4})[ \t]+([0-9a-fA-F]{8})[ \t]*"
)
FIELDS = re.compile(rb"[0-9a-fA-F]{4}[ \t]+[0-9a-fA-F]{4}[ \t]+[0-9a-fA-F]{8}[ \t]*")
LABELS = re.compile(rb"(?:EV|ABS|SYN|KEY|BTN|MSC|REL|SW)_[A-Z]")
ADDED = re.compile(rb"add device [0-9]+: (/[^ \t\r]+)")
RANGE = re.compile(rb"(002f|0035|0036|ABS_MT_SLOT|ABS_MT_POSITION_[XY])[ \t]*: value -?[0-9]+, min (-?[0-9]{1,11}), max (-?[0-9]{1,11})")
AXES = {b"002f": "slots", b"0035": "x", b"0036": "y"}
AXES.update({b"ABS_MT_SLOT": "slots", b"ABS_MT_POSITION_X": "x", b"ABS_MT_POSITION_Y": "y"})

SYN, KEY, ABS = 0, 1, 3
SYN_MT_REPORT = 2
ABS_X, ABS_Y, MT_SLOT, MT_X, MT_Y, MT_TRACKING_ID = 0, 1, 0x2F, 0x35, 0x36, 0x39

# Other kinds of files, by a line of theirs.
KINDS = [
    ("evemu", re.compile(rb"# EVEMU|E: [0-9]+\.[0-9]{6} [0-9a-f]{4} [0-9a-f]{4} -?[0-9]+")),
    ("libinput record", re.compile(rb"# libinput record|libinput:|[ \t]+- \[ *[0-9]+, *[0-9]+, *[0-9]+, *[0-9]+, *-?[0-9]+ *\]")),
    ("evtest", re.compile(rb"Event: time [0-9]+\.[0-9]+, ")),
]


class Source:
    """What a recording has of one device."""

    def __init__(self, path, told=None):
        self.path = path
        # What the session tells of its axes, where it has the device.
        self.told = told or {}
        self.contacts, self.keys, self.limits = Contacts(self.jump_limits), Keys(), None
        self.events = 0
        self.first = None
        self.last = None
        # The least and the greatest value of each absolute axis that changed.
        self.values = {}
        self.counts = {}
        self.presses = {}
        self.ranges = {}

    def take(self, moment, kind, code, value):
        self.events += 1
        self.first = moment if self.first is None else self.first
        self.last = moment
        self.counts[kind, code] = self.counts.get((kind, code), 0) + 1
        self.contacts.take(moment, kind, code, value)
        self.keys.take(kind, code, value)
        if kind == ABS:
            low, high = self.values.get(code, (value, value))
            self.values[code] = (min(low, value), max(high, value))
        elif kind == KEY and value == 1:
            self.presses[code] = self.presses.get(code, 0) + 1

    def has(self, kind, *codes):
        return any((kind, code) in self.counts for code in codes)

    def is_touch(self):
        return self.has(ABS, MT_X, MT_Y, MT_TRACKING_ID)

    def jump_limits(self):
        """What on each axis is further than a finger goes from one packet to the next, by the header, else by the session."""
        if self.limits is None:
            ranges = [self.ranges.get(key) or self.told.get(key) for key in ("x", "y")]
            self.limits = [(found[1] - found[0]) // PART if found else None for found in ranges]
        return self.limits


class Recording:
    def __init__(self, told=None):
        self.sources, self.told = {}, told or {}
        self.size = 0
        self.lines = 0
        self.kind = None

    def source(self, path):
        if path not in self.sources:
            self.sources[path] = Source(path, self.told.get(path))
        return self.sources[path]

    def known_sources(self):
        """Those that sent events."""
        return [source for source in self.sources.values() if source.events]


def kind_of(data):
    """What other kind of file this is by its first bytes, or None."""
    if data[:2] == b"\x1f\x8b":
        return "gzip"
    if data[:2] in (b"\xff\xfe", b"\xfe\xff") or b"[\0" in data[:200] or b"\0[" in data[:200]:
        return "UTF-16"
    return None


def refusal_of(line):
    """Why the program refuses a line that is no event, as its word and what lint says, or None."""
    text = (line[:-1] if line.endswith(b"\r") else line).lstrip(b" \t")
    if text.startswith(b"["):
        if LABELS.search(text):
            return "BadLine", "it has labels, as getevent -l writes; tools/import writes the numbers in their place"
        return "BadLine", "it is not of the form [ SECONDS.FRACTION ] PATH: TYPE CODE VALUE; was the recording cut here?"
    if text.startswith(b"/") or FIELDS.fullmatch(text):
        return "NoMoment", "it has no moment; record with getevent -t"
    return None


def other_line(recording, line, added):
    """What a line that is no event says of devices and of the kind of the file; the device that it adds, or the last one."""
    found = ADDED.match(line)
    if found:
        return recording.source(found[1].decode("utf-8", "replace"))
    for name, low, high in RANGE.findall(line):
        if added:
            added.ranges[AXES[name]] = (int(low), int(high))
    if recording.kind is None:
        recording.kind = next((kind for kind, form in KINDS if form.match(line)), None)
    return added


def read(findings, data, first_path, told=None):
    """The recording that these bytes are; says what the program refuses in it. Lines without a path are of the first device. `told`
    has what the session tells of each path."""
    recording = Recording(told)
    recording.size = len(data)
    recording.kind = kind_of(data)
    if len(data) > known.LONGEST_RECORDING:
        message = "%d bytes, and at most %d are read" % (len(data), known.LONGEST_RECORDING)
        findings.error(None, "", message, "too long: recording")
    lines = data.split(b"\n")
    if lines[-1] == b"":
        lines.pop()
    recording.lines = len(lines)
    added, refused = None, 0
    for number, line in enumerate(lines, 1):
        text = line[:-1] if line.endswith(b"\r") else line
        found = EVENT.fullmatch(text) if len(line) <= known.LONGEST_LINE else None
        if found:
            seconds, fraction, path, kind, code, value = found.groups()
            value = int(value, 16)
            source = recording.source(path.decode("utf-8", "replace") if path else first_path)
            moment = int(seconds) * 1000000 + int(fraction)
            source.take(moment, int(kind, 16), int(code, 16), value - (1 << 32) if value >= 1 << 31 else value)
            continue
        added = other_line(recording, text, added)
        if len(line) > known.LONGEST_LINE:
            why = ("TooLong", "%d bytes, and a line has at most %d" % (len(line), known.LONGEST_LINE))
        else:
            why = refusal_of(line)
        if why:
            refused += 1
            if refused <= 10:
                findings.error((number, 1), "", why[1], "recording: %s %d" % (why[0], number))
    if refused > 10:
        findings.error(None, "", "%d lines more are refused" % (refused - 10), None)
    return recording
