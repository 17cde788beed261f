"""The devices that `getevent -p`, `-lp`, `-i` and `-v` describe: read from their lines, and written so."""
import re

import evdev_names as names

ADD = re.compile(r"\s*add device \d+: (/[!-~]+)\s*")
NAME = re.compile(r"\s+name:\s+\"(.*)\"\s*")
TYPE = re.compile(r"\s+(?:[A-Z?]+)\s*\(([0-9a-fA-F]{4})\):(.*)")
MORE = re.compile(r"\s{8,}(\S.*)")
AXIS = re.compile(
    r"\s*(\w+)\*?\s*:?\s*value (-?\d+), min (-?\d+), max (-?\d+)"
    r"(?:,? fuzz (-?\d+))?(?:,? flat (-?\d+))?(?:,? resolution (-?\d+))?.*"
)
CODE = re.compile(r"([0-9a-fA-F]{4}|[A-Z][A-Z0-9_]*)\*?")
SHORT = {
    0x01: "KEY", 0x02: "REL", 0x03: "ABS", 0x04: "MSC", 0x05: "SW ",
    0x11: "LED", 0x12: "SND", 0x14: "REP", 0x15: "FF ", 0x17: "FFS",
}


class Device:
    """A device: its codes by type, the value, least, greatest, fuzz, flat and resolution of each axis, and its
    properties, which are None where nothing says them."""

    def __init__(self, path, name=""):
        self.path, self.name = path, name
        self.codes, self.axes, self.properties = {}, {}, None

    def has(self, kind, *codes):
        return all(code in self.codes.get(kind, ()) for code in codes)

    def add(self, kind, code):
        self.codes.setdefault(kind, set()).add(code)

    def described(self):
        return bool(self.codes)


def numbers_of(table, word):
    """The numbers of a code that is written as four hexadecimal digits or as a label."""
    return [int(word, 16)] if re.fullmatch(r"[0-9a-fA-F]{4}", word) else names.numbers_in(table, word)


class Reader:
    """Reads descriptions line by line."""

    def __init__(self):
        self.devices = {}
        self.device, self.part, self.kind = None, "", None

    def line(self, line):
        added, named, typed = ADD.fullmatch(line), NAME.fullmatch(line), TYPE.fullmatch(line)
        if added:
            self.device, self.part = Device(added[1]), ""
            self.devices.setdefault(added[1], []).append(self.device)
        elif self.device is None or not line.startswith((" ", "\t")):
            self.device = None
        elif named:
            self.device.name = named[1]
        elif line.strip() in ("events:", "input props:"):
            self.part, self.kind = line.strip(), None
            if self.part == "input props:":
                self.device.properties = set()
        elif self.part == "events:":
            more = MORE.fullmatch(line)
            if typed:
                self.kind = int(typed[1], 16)
            if typed or more and self.kind is not None:
                self.codes(typed[2] if typed else more[1])
        elif self.part == "input props:":
            self.device.properties.update(numbers_of("properties", line.strip()))

    def codes(self, text):
        table = names.OF_TYPE.get(self.kind)
        axis = AXIS.fullmatch(text)
        words = [axis[1]] if axis else CODE.findall(text)
        for word in words:
            for code in numbers_of(table, word):
                self.device.add(self.kind, code)
                if axis:
                    self.device.axes[code] = tuple(int(number or 0) for number in axis.groups()[1:])


def devices_of(lines):
    """The devices that lines describe, each with its last description, and the paths that have several which differ."""
    reader = Reader()
    for line in lines:
        reader.line(line)
    last, differ = [], []
    for path, found in reader.devices.items():
        told = [device for device in found if device.described()] or found
        last.append(told[-1])
        if any(device.axes.keys() != told[-1].axes.keys() or ranges(device) != ranges(told[-1]) for device in told):
            differ.append(path)
    return last, differ


def ranges(device):
    return {code: axis[1:3] for code, axis in device.axes.items()}


def codes_text(kind, codes):
    """The codes of a type as `getevent -p` writes them, eight to a line."""
    words = ["%04x " % code for code in sorted(codes)]
    rows = [" ".join(words[k : k + 8]) for k in range(0, len(words), 8)]
    front = "    %s (%04x): " % (SHORT.get(kind, "???"), kind)
    return [front + rows[0]] + [" " * len(front) + row for row in rows[1:]]


def axes_text(device):
    front = "    ABS (0003): "
    for code in sorted(device.codes[names.EV_ABS]):
        value = device.axes.get(code)
        told = " : value %d, min %d, max %d, fuzz %d, flat %d, resolution %d" % value if value else ""
        yield front + "%04x " % code + told
        front = " " * len(front)


def description(number, device):
    """A device as `getevent -p` describes it."""
    lines = ["add device %d: %s" % (number, device.path), "  name:     \"%s\"" % device.name, "  events:"]
    for kind in sorted(device.codes):
        if kind == names.EV_ABS:
            lines.extend(axes_text(device))
        elif kind != names.EV_SYN and device.codes[kind]:
            lines.extend(codes_text(kind, device.codes[kind]))
    if device.properties is not None:
        lines.append("  input props:")
        told = [names.name_in("properties", number) or "%04x" % number for number in sorted(device.properties)]
        lines.extend("    " + name for name in told or ["<none>"])
    return lines
