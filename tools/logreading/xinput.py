"""What `xinput test-xi2` prints of touches: a block of lines for each event, the first of them `EVENT type 18 (TouchBegin)`."""
import re

from .fingers import Fingers

EVENT = re.compile(r"EVENT type ([0-9]+) \((\w+)\)")
FIELD = re.compile(r" +(\w+): ?(.*)")
PLACE = re.compile(r"(-?[0-9]+(?:\.[0-9]+)?)/(-?[0-9]+(?:\.[0-9]+)?)")
TOUCHES = {"18": "begin", "19": "update", "20": "end"}


class Reader:
    name = "X"

    def __init__(self, streams):
        self.notes = streams.notes
        self.fingers = Fingers(streams)
        self.kind = None
        self.block = {}
        self.at = 0
        self.moment = 0

    def take(self, line_number, line):
        found = EVENT.match(line)
        if found:
            self.close()
            self.at, self.block = line_number, {}
            self.kind = TOUCHES.get(found[1])
            if self.kind is None:
                self.notes.add(line_number, "left out: no line of a stream says %s" % found[2])
                self.kind = "other"
            return True
        if self.kind is None:
            return False
        field = FIELD.match(line)
        if field:
            self.block.setdefault(field[1], field[2].strip())
            return True
        if not line.strip():
            self.close()
        return False

    def close(self):
        """The block is over."""
        kind, block = self.kind, self.block
        self.kind = None
        if kind in (None, "other"):
            return
        device = re.search(r"\(([0-9]+)\)", block.get("device", "")) or re.match("([0-9]+)", block.get("device", ""))
        finger = re.fullmatch("[0-9]+", block.get("detail", ""))
        place = PLACE.fullmatch(block.get("event", ""))
        window = re.search(r"\bevent (0x[0-9a-f]+)\b", block.get("windows", ""))
        if not (device and finger and place and window):
            self.notes.add(self.at, "left out: the block of the event is cut, or has other lines")
            return
        if re.fullmatch("[0-9]{1,20}", block.get("time", "")):
            self.moment = int(block["time"]) * 1000
        else:
            self.notes.add(self.at, "the event has no time: the moment of the one before is written, at first 0")
        self.touch(kind, window[1], ("X", device[1]), finger[0], float(place[1]), float(place[2]))

    def touch(self, kind, window, device, finger, x, y):
        if kind == "begin":
            self.fingers.go_down(self.at, window, self.moment, device, finger, x, y)
        elif kind == "end":
            self.fingers.go_up(self.at, window, self.moment, device, finger, x, y)
        else:
            self.fingers.move(self.at, window, self.moment, device, finger, x, y)
            self.fingers.flush(window, device)

    def end(self, line_number):
        self.close()
