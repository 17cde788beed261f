"""What a recording says, line by line: which line is refused, and what is down on each device behind the last one."""
import re

BLANKS = rb"[ \t]*"
EVENT = re.compile(
    rb"\[[ \t]*([0-9]{1,12})\.([0-9]{6})[ \t]*\][ \t]+(?:(/[^ \t]*):[ \t]+)?"
    rb"([0-9a-fA-F]{4})[ \t]+([0-9a-fA-F]{4})[ \t]+([0-9a-fA-F]{8})[ \t]*"
)
BARE = re.compile(rb"[0-9a-fA-F]{4}[ \t]+[0-9a-fA-F]{4}[ \t]+[0-9a-fA-F]{8}[ \t]*")
SYN, KEY, ABS = 0, 1, 3
REPORT, DROPPED = 0, 3
SLOT, TOOL, TRACKING = 0x2F, 0x37, 0x39


def read(text):
    """The events of a recording, each as (moment, path or None, kind, code, value), and the line that refuses it, or
    ""."""
    events = []
    lines = text.split(b"\n")
    if lines[-1] == b"":
        lines.pop()
    for number, line in enumerate(lines, 1):
        if len(line) > 4096:
            return events, "recording: TooLong %d\n" % number
        line = line.removesuffix(b"\r").lstrip(b" \t")
        if line.startswith(b"["):
            match = EVENT.fullmatch(line)
            if not match:
                return events, "recording: BadLine %d\n" % number
            seconds, micros, path = int(match.group(1)), int(match.group(2)), match.group(3)
            kind, code, value = (int(match.group(k), 16) for k in (4, 5, 6))
            value -= 2**32 if value >= 2**31 else 0
            events.append((seconds * 10**6 + micros, path and path.decode("utf-8", "replace"), kind, code, value))
        elif line.startswith(b"/") or BARE.fullmatch(line):
            return events, "recording: NoMoment %d\n" % number
    return events, ""


class Down:
    """What is down on one device: fingers, as a set of tracking ids, and keys, as a set of scan codes."""

    def __init__(self, device):
        self.kind, self.slots = device[0], device[2]
        self.passing = False
        self.reset()

    def reset(self):
        self.slot, self.tracking, self.tools = 0, {}, {}
        self.palms, self.fingers, self.keys = set(), set(), set()

    def take(self, kind, code, value):
        if self.passing:
            self.passing = (kind, code) != (SYN, REPORT)
        elif (kind, code) == (SYN, DROPPED):
            self.reset()
            self.passing = True
        elif self.kind == "keys":
            if kind == KEY and value in (0, 1):
                (self.keys.add if value else self.keys.discard)(code)
        elif (kind, code) == (SYN, REPORT):
            self.report()
        elif kind == ABS and code == SLOT:
            self.slot = value
        elif kind == ABS and code in (TOOL, TRACKING) and 0 <= self.slot < self.slots:
            (self.tools if code == TOOL else self.tracking)[self.slot] = value

    def report(self):
        """The end of a packet. A finger that was a palm stays one."""
        used = {}
        for slot in sorted(self.tracking):
            if self.tracking[slot] >= 0:
                used.setdefault(self.tracking[slot], slot)
        self.palms = {t for t, slot in used.items() if t in self.palms or self.tools.get(slot) == 2}
        self.fingers = set(used) - self.palms


def down_after(devices, events):
    """For each device what is down behind these events. An event without a path is one of the first device."""
    states = {device[1]: Down(device) for device in devices}
    first = devices[0][1] if devices else None
    for _, path, kind, code, value in events:
        state = states.get(path or first)
        if state:
            state.take(kind, code, value)
    return [states[device[1]] for device in devices]
