"""The kinds of text in which recordings of the kernel's events are kept, each read into events and lines to keep."""
import collections
import heapq
import re

import evdev_names as names
from getevent_devices import Device, description
from plain_ends import Refused
from recording_text import Event, NO_MOMENT, begins_as_event, event_of, signed

LABELLED = re.compile(r"[ \t]*\[ *(\d{1,12})\.(\d{6}) *\] +(?:(/\S*): +)?(\S+) +(\S+) +(\S+) *")
OLD = re.compile(r"(\d{1,12})-(\d{1,6}): (?:(/\S*): )?([0-9a-fA-F]{4}) ([0-9a-fA-F]{4}) ([0-9a-fA-F]{8}) *")
RATE = re.compile(r" rate -?\d+ *$")
EVEMU = re.compile(r"E: *(\d{1,12})\.(\d{6}) +([0-9a-fA-F]{1,4}) +([0-9a-fA-F]{1,4}) +(-?\d+)\s*(?:#.*)?")
EVEMU_AXIS = re.compile(r"A: *([0-9a-fA-F]+) +(-?\d+) +(-?\d+) +(-?\d+) +(-?\d+)(?: +(-?\d+))?.*")
EVEMU_BITS = re.compile(r"([BP]): *((?:[0-9a-fA-F]{2} ?)+).*")
YAML = re.compile(r"\s*- *\[ *(\d+) *, *(\d+) *, *(\d+) *, *(\d+) *, *(-?\d+) *\]\s*(?:#.*)?")
YAML_LIST = re.compile(r"\s*(\d+): *\[([-\d, ]*)\].*")
YAML_KNOWN = re.compile(r"\s*(#.*|- evdev:|events:.*)?\s*")
EVTEST = re.compile(
    r"Event: time (\d{1,12})\.(\d{6}), "
    r"(?:type (\d+) \(.*?\), code (\d+) \(.*?\), value (-?[0-9a-fA-F]+)|[-+<>]+ (.+?) [-+<>]+)\s*"
)
EVTEST_TYPE = re.compile(r"  Event type (\d+) \(.*")
EVTEST_CODE = re.compile(r"    Event code (\d+) \(.*")
EVTEST_AXIS = re.compile(r"      (Value|Min|Max|Fuzz|Flat|Resolution) +(-?\d+)\s*")
EVTEST_PROPERTY = re.compile(r"  Property type (\d+) \(.*")
AXIS_PARTS = ["Value", "Min", "Max", "Fuzz", "Flat", "Resolution"]


class Recording:
    """What a file gives: events and lines that are kept, in order, and what is said of it."""

    def __init__(self, items, said=()):
        self.items, self.said = items, list(said)

    def events(self):
        return [item for item in self.items if isinstance(item, Event)]


def shown(line):
    """The front part of a line, for a message."""
    return line if len(line) <= 60 else line[:57] + "..."


def moment(seconds, fraction):
    return int(seconds) * 1000000 + int(fraction)


def value_of(value, number):
    """A value that fits 32 bits, signed or not."""
    if not -(1 << 31) <= value < 1 << 32:
        raise Refused("line %d: the value %d has more than 32 bits" % (number, value))
    return signed(value & 0xFFFFFFFF)


def cut_line(text, number, line, said):
    """A line that is none of its kind: the last one may be cut, any other is refused."""
    if number <= len(text.lines):
        raise Refused("line %d begins as an event and is none: %s" % (number, shown(line)))
    said.append("the last line was cut and is left out: %s" % shown(line))


def one_number(table, word, digits, width=names.WIDTH):
    """The number of a word of `getevent -l`: a label, or so many hexadecimal digits."""
    if re.fullmatch("[0-9a-fA-F]{%d}" % digits, word):
        return int(word, 16)
    numbers = names.numbers_in(table, word, width)
    return numbers[0] if len(numbers) == 1 else None


def labelled(line, missing):
    """The event of a line of `getevent -lt`; None where it has another form, or where a label has no one number."""
    found = LABELLED.fullmatch(line)
    if not found:
        return None
    seconds, fraction, path, *words = found.groups()
    kind = one_number("types", words[0], 4, names.TYPE_WIDTH)
    code = one_number(names.OF_TYPE.get(kind), words[1], 4)
    is_tool = (kind, code) == (names.EV_ABS, names.ABS_MT_TOOL_TYPE)
    value = one_number("tools" if is_tool else "key_values" if kind == names.EV_KEY else None, words[2], 8)
    for word, number in zip(words, (kind, code, value)):
        if number is None and re.fullmatch(r"[A-Z][A-Z0-9_]*", word):
            missing[word] += 1
            return "missing"
    if None in (kind, code, value):
        return None
    return Event(moment(seconds, fraction), path, kind, code, signed(value))


def old_event(line):
    """The event of a line of Android before 4.0, as `12-567890: /dev/input/event2: 0003 0039 00000001`."""
    found = OLD.fullmatch(line)
    if not found:
        return None
    seconds, fraction, path, kind, code, value = found.groups()
    return Event(moment(seconds, fraction), path, int(kind, 16), int(code, 16), signed(int(value, 16)))


def getevent(text, path):
    """What `getevent -t` or `getevent -lt` printed. Lines of other forms are kept."""
    items, said, missing = [], [], collections.Counter()
    for number, line in enumerate(text.all_lines(), 1):
        plain = RATE.sub("", line)
        event = event_of(plain) or labelled(plain, missing) or old_event(plain)
        if isinstance(event, Event):
            items.append(event if event.path or not path else event._replace(path=path))
        elif event is None and (begins_as_event(line) or re.match(r"\d+-\d+: ", line)):
            cut_line(text, number, line, said)
        elif event is None and NO_MOMENT.fullmatch(line):
            raise Refused("line %d is an event without a moment: record with getevent -t" % number)
        elif event is None:
            items.append(line)
    for word, count in missing.items():
        said.append("lines with %s, which stands for no one number, and are left out: %d" % (word, count))
    return Recording(items, said)


def bits_of(rows):
    """The numbers of the bits that are set in bytes, the least bit first."""
    return {8 * k + bit for k, byte in enumerate(rows) for bit in range(8) if byte >> bit & 1}


def evemu_device(lines, path):
    """The device that the lines N, P, B and A of an evemu recording describe."""
    device, bits = Device(path), collections.defaultdict(list)
    for line in lines:
        axis, more = EVEMU_AXIS.fullmatch(line), EVEMU_BITS.fullmatch(line)
        if line.startswith("N:"):
            device.name = line[2:].strip()
        elif axis:
            low, high, fuzz, flat, resolution = (int(number or 0) for number in axis.groups()[1:])
            device.axes[int(axis[1], 16)] = (0, low, high, fuzz, flat, resolution)
            device.add(names.EV_ABS, int(axis[1], 16))
        elif more:
            numbers = [int(word, 16) for word in more[2].split()]
            bits[numbers[0] if more[1] == "B" else "P"].extend(numbers[1:] if more[1] == "B" else numbers)
    device.properties = bits_of(bits.pop("P")) if "P" in bits else None
    for kind, rows in bits.items():
        if kind != names.EV_SYN and bits_of(rows):
            device.codes.setdefault(kind, set()).update(bits_of(rows))
    return device


def evemu(text, path):
    """What `evemu-record` wrote: values are decimal."""
    events, said, lost = [], [], 0
    path = path or unnamed("an evemu recording", said)
    for number, line in enumerate(text.all_lines(), 1):
        found = EVEMU.fullmatch(line)
        if found:
            seconds, fraction, kind, code, value = found.groups()
            value = value_of(int(value), number)
            events.append(Event(moment(seconds, fraction), path, int(kind, 16), int(code, 16), value))
        elif line.startswith("E:"):
            cut_line(text, number, line, said)
        elif line.strip() and not re.match(r"[NIPBALS]:|#", line):
            lost += 1
    return described([evemu_device(text.lines, path)], events, said, lost)


def evtest_event(found, path, number):
    """The event of a line of evtest, which prints scan codes and raw values in hexadecimal, all others in decimal."""
    seconds, fraction, kind, code, value, sync = found.groups()
    if sync:
        code = names.NUMBERS["syn"].get(sync, 0 if sync in ("EV_SYN", "Report Sync") else None)
        if code is None:
            raise Refused("line %d: no event of EV_SYN is called %s" % (number, sync))
        return Event(moment(seconds, fraction), path, names.EV_SYN, code, 0)
    kind, code = int(kind), int(code)
    raw = kind == names.EV_MSC and code in (names.MSC_RAW, names.MSC_SCAN)
    if not raw and not re.fullmatch(r"-?\d+", value):
        raise Refused("line %d: the value %s is no decimal number" % (number, value))
    return Event(moment(seconds, fraction), path, kind, code, value_of(int(value, 16 if raw else 10), number))


class EvtestHead:
    """The device that the lines of evtest before its events describe."""

    def __init__(self, path):
        self.device, self.kind, self.code = Device(path), None, None

    def line(self, line):
        kind, code, axis = EVTEST_TYPE.fullmatch(line), EVTEST_CODE.fullmatch(line), EVTEST_AXIS.fullmatch(line)
        prop = EVTEST_PROPERTY.fullmatch(line)
        if kind:
            self.kind = int(kind[1])
        elif code and self.kind is not None:
            self.code = int(code[1])
            self.device.add(self.kind, self.code)
        elif axis and self.kind == names.EV_ABS and self.code is not None:
            parts = list(self.device.axes.get(self.code, (0,) * 6))
            parts[AXIS_PARTS.index(axis[1])] = int(axis[2])
            self.device.axes[self.code] = tuple(parts)
        elif prop or line.startswith("Properties:"):
            self.device.properties = (self.device.properties or set()) | ({int(prop[1])} if prop else set())
        elif line.startswith("Input device name: "):
            self.device.name = line.partition(": ")[2].strip().strip('"')


def evtest(text, path):
    """What `evtest` printed."""
    events, said, lost = [], [], 0
    path = path or unnamed("what evtest prints", said)
    head = EvtestHead(path)
    for number, line in enumerate(text.all_lines(), 1):
        found = EVTEST.fullmatch(line)
        if found:
            events.append(evtest_event(found, path, number))
        elif line.startswith("Event:"):
            cut_line(text, number, line, said)
        elif not events:
            head.line(line)
        elif line.strip():
            lost += 1
    return described([head.device], events, said, lost)


class YamlDevice:
    """A device of a `libinput record` file, and its events."""

    def __init__(self, path):
        self.device, self.events, self.part, self.lost = Device(path), [], "", 0

    def line(self, line):
        word, numbers = line.strip(), YAML_LIST.fullmatch(line)
        if re.fullmatch(r"([a-z]\w*):( \[[-\d, ]*\])?", word):
            self.part = word.partition(":")[0]
        if word.startswith("name: "):
            self.device.name = word[6:].strip("\"'")
        elif word.startswith("properties: ["):
            self.device.properties = {int(number) for number in re.findall(r"\d+", word)}
        elif numbers and self.part in ("codes", "absinfo"):
            kind, told = int(numbers[1]), [int(number) for number in re.findall(r"-?\d+", numbers[2])]
            if self.part == "codes":
                self.device.codes.setdefault(kind, set()).update(told)
            elif len(told) >= 2:
                self.device.axes[kind] = (0, *(told + [0, 0, 0])[:5])
        elif self.part in ("events", "libinput") and not YAML_KNOWN.fullmatch(line):
            self.lost += word != "libinput:"


def libinput(text, path):
    """What `libinput record` wrote: the kernel's events of each device, merged by their moments."""
    devices, said = [], []
    for number, line in enumerate(text.all_lines(), 1):
        node, found = re.fullmatch(r"\s*- node: *(/\S+)\s*", line), YAML.fullmatch(line)
        if node:
            devices.append(YamlDevice(node[1]))
        elif found and devices:
            seconds, micros, kind, code, value = (int(word) for word in found.groups())
            event = Event(seconds * 1000000 + micros, devices[-1].device.path, kind, code, value_of(value, number))
            devices[-1].events.append(event)
        elif re.match(r"\s*- *\[", line) or found:
            cut_line(text, number, line, said)
        elif devices:
            devices[-1].line(line)
    events = heapq.merge(*(device.events for device in devices), key=lambda event: event.moment)
    lost = sum(device.lost for device in devices)
    return described([device.device for device in devices], list(events), said, lost)


def unnamed(kind, said):
    said.append("%s names no device; /dev/input/event0 is taken, and --path takes another" % kind)
    return "/dev/input/event0"


def described(devices, events, said, lost):
    """Events behind the descriptions of their devices, where there are any."""
    if lost:
        said.append("lines that are no events of the kernel, and are left out: %d" % lost)
    lines = [line for k, device in enumerate(devices, 1) if device.described() for line in description(k, device)]
    return Recording(lines + events, said)
