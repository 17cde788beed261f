"""What WAYLAND_DEBUG=1 prints of wl_touch. A finger belongs to the surface on which it went down, and the moves up to the next frame are one."""
import re

from .fingers import Fingers

CALL = re.compile(
    r"\[ *[0-9]+\.[0-9]{3}\] +(?:\{[^}]*\} *)?(discarded )?(?:-> *)?(wl_touch[@#][0-9]+)\.(\w+)\((.*)\)\s*$"
)
BEGUN = re.compile(r"\[ *[0-9]+\.[0-9]{3}\] +(?:\{[^}]*\} *)?(?:discarded )?(?:-> *)?wl_touch[@#]")
COLOR = re.compile("\x1b\\[[0-9;]*m")
NUMBER = r"-?[0-9]+(?:\.[0-9]+)?"
ARGUMENTS = {
    "down": re.compile(r"[0-9]+, ([0-9]{1,10}), (\S+), (-?[0-9]+), (%s), (%s)" % (NUMBER, NUMBER)),
    "up": re.compile(r"[0-9]+, ([0-9]{1,10}), (-?[0-9]+)"),
    "motion": re.compile(r"([0-9]{1,10}), (-?[0-9]+), (%s), (%s)" % (NUMBER, NUMBER)),
    "frame": re.compile(""),
    "cancel": re.compile(""),
}


class Reader:
    name = "Wayland"

    def __init__(self, streams):
        self.streams = streams
        self.notes = streams.notes
        self.fingers = Fingers(streams)
        # The surface of each finger, by wl_touch and id, also of one that has gone up; and the last surface and moment of a wl_touch.
        self.surfaces = {}
        self.last = {}
        self.moments = {}

    def take(self, line_number, line):
        line = COLOR.sub("", line)
        found = CALL.search(line)
        if not found:
            if BEGUN.search(line):
                self.notes.add(line_number, "left out: the call of wl_touch is cut")
                return True
            return False
        discarded, touch, call, text = found.groups()
        if call == "release":
            return True
        if discarded or call not in ARGUMENTS:
            what = "a call that was discarded" if discarded else "no line of a stream says wl_touch.%s" % call
            self.notes.add(line_number, "left out: " + what)
            return True
        arguments = ARGUMENTS[call].fullmatch(text)
        if not arguments:
            self.notes.add(line_number, "left out: wl_touch.%s has other arguments" % call)
            return True
        getattr(self, call)(line_number, touch, *arguments.groups())
        return True

    def moment(self, touch, text):
        self.moments[touch] = int(text) * 1000
        return self.moments[touch]

    def surface_of(self, touch, finger):
        """The surface of a finger; for one that never was down, the last one of the wl_touch."""
        return self.surfaces.get((touch, finger)) or self.last.get(touch, touch)

    def down(self, line_number, touch, time, surface, finger, x, y):
        before = self.surfaces.get((touch, finger))
        if before not in (None, surface) and finger in self.fingers.gesture(before, touch).down:
            what = "finger %s goes down on %s and did not go up on %s, which is told no end of it: no stream shows that by itself"
            self.notes.add(line_number, what % (finger, surface, before))
        self.surfaces[touch, finger] = self.last[touch] = surface
        self.fingers.go_down(line_number, surface, self.moment(touch, time), touch, finger, float(x), float(y))

    def motion(self, line_number, touch, time, finger, x, y):
        surface = self.surface_of(touch, finger)
        self.fingers.move(line_number, surface, self.moment(touch, time), touch, finger, float(x), float(y))

    def up(self, line_number, touch, time, finger):
        self.fingers.go_up(line_number, self.surface_of(touch, finger), self.moment(touch, time), touch, finger)

    def frame(self, line_number, touch):
        self.fingers.frame(touch)

    def cancel(self, line_number, touch):
        windows = [window for window, owner in self.fingers.gestures if owner == touch]
        moment = self.moments.get(touch, 0)
        if not any([self.fingers.cancel(line_number, window, moment, touch) for window in windows]):
            self.notes.add(line_number, "left out: %s.cancel, and no finger is down that a window could be told of" % touch)

    def end(self, line_number):
        self.fingers.frame()
