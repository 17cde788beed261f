"""Gestures from events of single fingers, as Wayland and X have them. A finger that goes down first gives DOWN, a further one POINTER_DOWN, the
last one that goes up UP; the moves of a frame are one MOVE. Nothing is made good: a finger that goes up and was not down gives a line all the
same, which `verify` refuses."""
from .streams import GREATEST_ID


class Gesture:
    """The fingers of a device that are down on a window, by their names in the log: id, x and y. `moved` is the moment of moves that are
    not written yet, and the number of the line of the last one; `movers` are the fingers that they are of."""

    def __init__(self):
        self.down = {}
        self.moved = None
        self.movers = set()

    def free_id(self):
        """The least id that no finger has, or None."""
        used = {finger[0] for finger in self.down.values()}
        return next((one for one in range(GREATEST_ID + 1) if one not in used), None)

    def listed(self):
        """The fingers by rising id, and their places in that order by their names."""
        names = sorted(self.down, key=lambda name: self.down[name][0])
        return [tuple(self.down[name]) for name in names], {name: k for k, name in enumerate(names)}


class Fingers:
    def __init__(self, streams):
        self.streams = streams
        self.gestures = {}

    def gesture(self, window, device):
        return self.gestures.setdefault((window, device), Gesture())

    def write(self, number, window, moment, device, action, gesture, finger=None, canceled=False):
        pointers, places = gesture.listed()
        index = places[finger] if finger is not None else None
        self.streams.motion(number, window, moment, device, action, pointers, index, " canceled" if canceled else "")

    def flush(self, window, device):
        """Writes the moves that wait."""
        gesture = self.gesture(window, device)
        if gesture.moved:
            moment, number = gesture.moved
            gesture.moved = None
            gesture.movers.clear()
            self.write(number, window, moment, device, "MOVE", gesture)

    def frame(self, device=None):
        """A frame of a device, or of all, ends."""
        for window, owner in list(self.gestures):
            if device is None or owner == device:
                self.flush(window, owner)

    def put(self, number, gesture, finger, x, y):
        """A finger at a place, with an id of its own where it was not down; False where no id is left."""
        if finger in gesture.down:
            gesture.down[finger][1:] = [x, y]
            return True
        one = gesture.free_id()
        if one is None:
            self.streams.notes.add(number, "left out: more than %d fingers are down" % (GREATEST_ID + 1))
            return False
        gesture.down[finger] = [one, x, y]
        return True

    def go_down(self, number, window, moment, device, finger, x, y):
        self.flush(window, device)
        gesture = self.gesture(window, device)
        if finger in gesture.down:
            self.streams.notes.add(number, "a finger goes down that is down; it is written so, and verify refuses it")
        if self.put(number, gesture, finger, x, y):
            first = len(gesture.down) == 1
            self.write(number, window, moment, device, "DOWN" if first else "POINTER_DOWN", gesture, None if first else finger)

    def stranger(self, number, gesture, finger, what, x, y):
        """Whether a finger is not down. It is listed as if it were, so that the line breaks the rule."""
        if finger in gesture.down:
            return False
        self.streams.notes.add(number, "a finger %s that is not down; it is written so, and verify refuses it" % what)
        self.put(number, gesture, finger, x or 0, y or 0)
        return True

    def move(self, number, window, moment, device, finger, x, y, join=True):
        """A finger moves. Where no frames join moves, one of another moment is a MOVE of its own, and so is a second one of the finger."""
        gesture = self.gesture(window, device)
        apart = gesture.moved and not join and (gesture.moved[0] != moment or finger in gesture.movers)
        if finger not in gesture.down or apart:
            self.flush(window, device)
        strange = self.stranger(number, gesture, finger, "moves", x, y)
        if finger in gesture.down:
            gesture.down[finger][1:] = [x, y]
            gesture.moved = (moment, number)
            gesture.movers.add(finger)
        if strange:
            self.flush(window, device)
            gesture.down.pop(finger, None)

    def go_up(self, number, window, moment, device, finger, x=None, y=None, canceled=False):
        """A finger goes up, at a new place if one is given. One that is cancelled is POINTER_UP canceled, and the last one CANCEL."""
        self.flush(window, device)
        gesture = self.gesture(window, device)
        self.stranger(number, gesture, finger, "goes up", x, y)
        if finger not in gesture.down:
            return
        if x is not None:
            gesture.down[finger][1:] = [x, y]
        if len(gesture.down) > 1:
            self.write(number, window, moment, device, "POINTER_UP", gesture, finger, canceled)
        else:
            self.write(number, window, moment, device, "CANCEL" if canceled else "UP", gesture)
        del gesture.down[finger]

    def cancel(self, number, window, moment, device):
        """All fingers of a device on a window are cancelled; False where none is down."""
        self.flush(window, device)
        gesture = self.gesture(window, device)
        if not gesture.down:
            return False
        self.write(number, window, moment, device, "CANCEL", gesture)
        gesture.down.clear()
        return True
