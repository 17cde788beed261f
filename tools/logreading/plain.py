"""Lines that a program of one's own writes of each finger, as docs/LOGGING.md has hooks for:

    finger WINDOW MICROSECONDS DEVICE down|motion|up|cancel FINGER X Y
    finger WINDOW MICROSECONDS DEVICE cancel

The names are words without blanks. Moves of one moment are one, and a cancel without a finger is of all that are down."""
import re

from .fingers import Fingers

NUMBER = r"-?[0-9]+(?:\.[0-9]+)?"
LINE = re.compile(
    r"(?:^|\s)finger (\S+) ([0-9]{1,20}) (\S+) (?:(down|motion|up|cancel) (\S+) (%s) (%s)|cancel)\s*$" % (NUMBER, NUMBER)
)
BEGUN = re.compile(r"(?:^|\s)finger \S+ [0-9]+ ")


class Reader:
    name = "finger lines"

    def __init__(self, streams):
        self.notes = streams.notes
        self.fingers = Fingers(streams)

    def take(self, line_number, line):
        found = LINE.search(line)
        if not found:
            if BEGUN.search(line):
                self.notes.add(line_number, "left out: the line of a finger is cut, or has other words")
                return True
            return False
        window, us, device, what, finger, x, y = found.groups()
        moment, device = int(us), ("finger", device)
        if what is None:
            if not self.fingers.cancel(line_number, window, moment, device):
                self.notes.add(line_number, "left out: a cancel, and no finger is down that the window could be told of")
            return True
        place = float(x), float(y)
        if what == "down":
            self.fingers.go_down(line_number, window, moment, device, finger, *place)
        elif what == "motion":
            self.fingers.move(line_number, window, moment, device, finger, *place, join=False)
        else:
            self.fingers.go_up(line_number, window, moment, device, finger, *place, canceled=what == "cancel")
        return True

    def end(self, line_number):
        self.fingers.frame()
