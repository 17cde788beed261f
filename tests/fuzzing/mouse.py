"""Laws of `hover`: a mouse over the windows of display 0."""
import re

from .delivery import NEVER
from .laws import need
from .make import line
from .replayed import removals

PATH = "/dev/mouse"
MESSAGE = re.compile(r"(\d+) HOVER_(ENTER|MOVE|EXIT) (-?\d+),(-?\d+)")


def recording(rng):
    """Packets of a mouse: each as its moment and its sums, or None where it does not move; and the text."""
    lines, packets = [], []
    at, sums, moves = 0, [0, 0], False
    for _ in range(rng.randint(0, 60)):
        at += rng.choice((0, 1, 8000, 300000))
        kind, code = rng.choice(((2, 0), (2, 1), (2, 8), (0, 0), (0, 0), (1, 272)))
        value = 0 if kind == 0 else rng.choice((1, -1, 300, -300, 2**31 - 1, -(2**31)))
        lines.append(line(at, PATH, kind, code, value))
        if kind == 2 and code < 2:
            sums[code] += value
            moves = True
        elif kind == 0:
            packets.append((at, sums if moves else None))
            sums, moves = [0, 0], False
    return packets, "".join(lines).encode()


def path_of(case, packets):
    """Where the mouse is: (moment, place before it, place after it) of each packet that moves it, and the place at
    first."""
    width, height, turned = case.displays[0]
    width, height = (height, width) if turned in (90, 270) else (width, height)
    place = start = (width // 2, height // 2)
    path = []
    for moment, sums in packets:
        if sums:
            after = tuple(min(max(place[k] + sums[k], 0), (width, height)[k] - 1) for k in (0, 1))
            path.append((moment, place, after))
            place = after
    return start, path


def seen(start, path, moment):
    """The places of the mouse at a moment: that before it, and that after each packet of it."""
    before = [after for at, _, after in path if at < moment]
    return ([before[-1]] if before else [start]) + [after for at, _, after in path if at == moment]


def frames_of(case, name, moment):
    """The windows of a channel that some step up to a moment set: their corners and, on display 0, their rectangles."""
    for at, _, act, what in case.steps:
        for window in what if act == "windows" and at <= moment else ():
            if window.name == name:
                yield window.frame[:2], rects_of(window) if window.display == 0 else []


def rects_of(window):
    """The rectangles in which a window can be touched."""
    return [window.frame] if window.region is None else window.region


def inside(rects, place):
    return any(left <= place[0] < right and top <= place[1] < bottom for left, top, right, bottom in rects)


def sensible(case, name, action, moment, told, places):
    """The place that is sent is one of the mouse, less the corner of the window; it lies in the window but at an
    exit."""
    for corner, rects in frames_of(case, name, moment):
        place = tuple(told[k] + corner[k] for k in (0, 1))
        if place in places and (action == "EXIT" or inside(rects, place)):
            return True
    return False


def windows_at(case, moment):
    """The windows at a moment, front to back."""
    windows = ()
    for at, _, act, what in sorted(case.steps, key=lambda step: step[0]):
        if act == "windows" and at <= moment:
            windows = what
    return windows


def candidates(case, removed, moment, place, on=0):
    """The channels whose windows may be under the mouse: those that can be touched there, by the windows of that
    moment. A wall has the empty name."""
    for window in windows_at(case, moment):
        gone = removed.get(window.name, NEVER) <= moment
        if window.display == on and not gone and "SPY" not in window.flags and "NOT_TOUCHABLE" not in window.flags:
            if inside(rects_of(window), place):
                yield window.name


class Stays:
    """What is sent of the mouse: when it is over which window, and each arrival at a place."""

    def __init__(self):
        self.spans = []
        self.arrivals = []

    def channel(self, name, messages, last):
        """The messages of a channel in turns: it is entered, moved over, and left; nothing comes after its removal."""
        entered, before = None, 0
        for moment, action, _ in messages:
            need((action == "ENTER") == (entered is None), "%s is sent %s at %s" % (name, action, moment))
            need(before <= moment <= last, "%s is sent something at %s" % (name, moment))
            before = moment
            if action == "EXIT":
                self.spans.append((entered, moment, name))
                entered = None
            else:
                self.arrivals.append((moment, name))
                entered = moment if action == "ENTER" else entered
        if entered is not None:
            self.spans.append((entered, last, name))

    def fit(self, case, path, removed):
        """One window is entered at a time, and each packet that moves the mouse is sent where it comes to."""
        self.spans.sort()
        for one, other in zip(self.spans, self.spans[1:]):
            need(one[1] <= other[0], "two windows are entered at a time: %s, %s" % (one, other))
        for moment in {at for at, _, _ in path}:
            told = [name for at, name in self.arrivals if at == moment]
            places = [after for at, _, after in path if at == moment]
            stays = [first < moment < last for first, last, _ in self.spans]
            need(not any(stays) or len(told) == len(places), "at %d %d moves are sent as %s" % (moment, len(places), told))
            if len(places) > 1:
                continue
            there = list(candidates(case, removed, moment, places[0]))
            need(set(told) <= set(there), "at %d the mouse is not over %s" % (moment, told))
            need(len(there) != 1 or there == [""] or there[0] in told, "at %d the mouse is over %s, told are %s" % (moment, there, told))


def hovered(program, case, _):
    """Each window is entered, then moved over, then left, where the mouse is; nothing comes after a removal; one
    window is entered at a time, and it is one that is there."""
    packets, text = recording(case.drawn("hovered"))
    words = program.files(case.session, case.recording)
    words[3] = program.file("mouse.txt", text)
    lines = program.text(["hover"] + words + ["--mouse", PATH]).decode("ascii").split("\n")
    need(lines.pop() == "", "the last line has no newline")
    start, path = path_of(case, packets)
    removed = removals(case.steps)
    stays = Stays()
    for number, (name, _, _, _) in enumerate(case.channels, 1):
        need(lines and lines.pop(0) == "channel %d %s" % (number, name), "no section of channel %d" % number)
        messages = []
        while lines and not lines[0].startswith("end "):
            match = MESSAGE.fullmatch(lines[0])
            need(match, "no message: %s" % lines[0])
            moment, action, told = int(match.group(1)), match.group(2), (int(match.group(3)), int(match.group(4)))
            there = sensible(case, name, action, moment, told, seen(start, path, moment))
            need(there, "channel %d: the mouse is not there: %s" % (number, lines[0]))
            messages.append((moment, action, told))
            lines.pop(0)
        need(lines and lines.pop(0) == "end %d %d" % (number, len(messages)), "channel %d has no end" % number)
        stays.channel(name, messages, removed.get(name, NEVER))
    need(not lines, "a line stands behind the last section: %s" % lines[:1])
    stays.fit(case, path, removed)
