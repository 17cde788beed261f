"""The streams that a log gives: a section for each window, as docs/STREAMS.md has them; and what a stream cannot say."""
import math
import re

MOST_WINDOWS, MOST_DEVICES, MOST_POINTERS, GREATEST_ID = 64, 8, 16, 31
LEAST_32, GREATEST_32 = -(2**31), 2**31 - 1
LATEST_US = 10**18
REFUSED = "; it is written so, and verify refuses it"


class Notes:
    """What is written to standard error: each text once, with the first line of the log that it is about and how many there are."""

    def __init__(self):
        self.found = {}

    def add(self, number, text):
        first, count = self.found.get(text, (number, 0))
        self.found[text] = (first, count + 1)

    def lines(self):
        for text, (first, count) in self.found.items():
            yield "line %d%s: %s" % (first, " and %d more" % (count - 1) if count > 1 else "", text)


class Section:
    """What one window was sent."""

    def __init__(self, number, name):
        self.number = number
        self.name = name
        self.lines = []

    def add(self, moment, body):
        self.lines.append("%d %d %s" % (len(self.lines) + 1, moment, body))

    def text(self):
        count = len(self.lines)
        end = "end %d sent %d received %d finished %d" % (self.number, count, count, count)
        return "\n".join(["channel %d %s" % (self.number, self.name)] + self.lines + [end]) + "\n"


class Streams:
    def __init__(self, notes):
        self.notes = notes
        self.sections = {}
        self.devices = {}

    def name_of(self, window):
        """A name of a channel for a window: other characters become _, and no two have one name."""
        plain = re.sub("[^!-~]", "_", window)[:64] or "_"
        taken = {section.name for section in self.sections.values()}
        name, k = plain, 2
        while name in taken:
            name, k = "%s~%d" % (plain[:60], k), k + 1
        return name

    def section(self, number, window):
        """The section of a window, or None where there are too many."""
        if window not in self.sections:
            if len(self.sections) == MOST_WINDOWS:
                self.notes.add(number, "left out: a stream file has at most %d windows" % MOST_WINDOWS)
                return None
            name = self.name_of(window)
            if name != window:
                self.notes.add(number, "the window %r is written as %s" % (window, name))
            self.sections[window] = Section(len(self.sections) + 1, name)
        return self.sections[window]

    def device(self, number, device):
        """The number of a device, from 1 in the order in which they come, or None where there are too many."""
        if device not in self.devices:
            if len(self.devices) == MOST_DEVICES:
                self.notes.add(number, "left out: a stream has at most %d devices" % MOST_DEVICES)
                return None
            self.devices[device] = len(self.devices) + 1
        return self.devices[device]

    def place(self, number, value):
        """A position in whole pixels, the nearest one; in the middle the greater one."""
        if not math.isfinite(value):
            self.notes.add(number, "a position is no number: 0 is written")
            return 0
        near = math.floor(value + 0.5)
        if not LEAST_32 <= near <= GREATEST_32:
            self.notes.add(number, "a position does not fit into 32 bits: the nearest one is written")
        return max(LEAST_32, min(GREATEST_32, near))

    def moment(self, number, us):
        if us > LATEST_US:
            self.notes.add(number, "a moment is later than 10^18 microseconds%s" % REFUSED)
        return us

    def motion(self, number, window, moment, device, action, pointers, index=None, flags=""):
        """A motion whose pointers are in the log's order, each an id, x and y. The index is a place among them, and the flags are the words of a line."""
        device = self.device(number, device)
        section = self.section(number, window) if device else None
        if section is None:
            return
        order = sorted(range(len(pointers)), key=lambda k: pointers[k][0])
        ids = [pointer[0] for pointer in pointers]
        if len(set(ids)) < len(ids):
            self.notes.add(number, "a finger is listed twice%s" % REFUSED)
        if any(not 0 <= one <= GREATEST_ID for one in ids):
            self.notes.add(number, "a finger has an id that is not from 0 to %d%s" % (GREATEST_ID, REFUSED))
        if not 1 <= len(pointers) <= MOST_POINTERS:
            self.notes.add(number, "%d fingers are listed, and a stream lists 1 to %d%s" % (len(pointers), MOST_POINTERS, REFUSED))
        if index is not None:
            if index >= len(pointers):
                self.notes.add(number, "the index is no place among the fingers%s" % REFUSED)
            else:
                index = order.index(index)
            action = "%s:%d" % (action, index)
        words = ["motion %d %s%s" % (device, action, flags)]
        for k in order:
            finger, x, y = pointers[k]
            words.append("%d@%d,%d" % (finger, self.place(number, x), self.place(number, y)))
        section.add(self.moment(number, moment), " ".join(words))

    def key(self, number, window, moment, device, key, action):
        """A key message; the key is its scan code, key code and meta state, and the action the word and the repeat number."""
        device = self.device(number, device)
        section = self.section(number, window) if device else None
        if section is not None:
            section.add(self.moment(number, moment), "key %d %d %d %d %s" % ((device,) + key + (action,)))

    def text(self):
        return "".join(section.text() for section in self.sections.values())
