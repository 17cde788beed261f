"""What has to hold of a text of streams, said of the text alone."""
import re

# The line that each status has on standard error.
LINES = {
    0: r"",
    1: r"(order: (BadLine|NoStep) \d+|stream: (BadLine|NotWellFormed|TooLate|NotAssignable) \d+|stream: NoChannel"
    r"|stream: Broken \d+ [A-Z][A-Za-z]+|stream: StillDown \d+( \d:\d+(,\d+)*)*( key \d:\d+)*|stream: Nothing"
    r"|(want|got): BadLine \d+|compare: (Missing|Added|NoSection|NewSection) \d+"
    r"|compare: Differs \d+ \d+ (kind|device|action|index|flags|pointers|place -?\d+,-?\d+|scan|code|meta|direction|repeat|focus|time -?\d+))\n",
    2: r"words: (NoCommand|(UnknownCommand|UnknownOption|Twice|NoValue|Missing) [!-~]{1,64}|BadValue [!-~]{1,64} [!-~]{1,64})\n",
    3: r"(session: (NotToml|(Missing|Wrong|UnknownName) \S+|OutOfRange \S+ -?\d+|BadLayout \d \d+)"
    r"|recording: (BadLine|NoMoment|TooLong) \d+)\n",
    4: r"(session|recording|order|stream|want|got): ReadFailed\n",
    5: r"write failed\n",
    6: r"no memory\n",
    7: r"too long: (session|recording|order|stream|steps|run)\n",
}
MOTION = re.compile(r"(\d+) (\d+) motion (\d) ([A-Z_]+)(?::(\d+))?( canceled)?(?: obscured)?(?: partly)? (\d+@.+)")
MARKS = re.compile(r" (obscured|partly)\b")
KEY = re.compile(r"(\d+) (\d+) key (\d) (\d+) (\d+) (\d+) (DOWN (\d+)|UP( canceled)? 0)")
FOCUS = re.compile(r"(\d+) (\d+) focus ([01])")
END = re.compile(r"end (\d+) sent (\d+) received (\d+) finished (\d+)")


class Broken(Exception):
    """A law that does not hold, in words."""


def need(holds, words):
    if not holds:
        raise Broken(words)


def ending(run, statuses):
    """A run ends with one of these statuses, has its line on standard error, and writes only with status 0."""
    status, out, err = run
    need(status in LINES, "it ended with status %d: %r" % (status, err[-300:]))
    line = err.decode("utf-8", "replace")
    need(re.fullmatch(LINES[status], line), "status %d came with the line %r" % (status, err[-300:]))
    need(status in statuses, "it ended with status %d and %r, which cannot be" % (status, err))
    need(status == 0 or not out, "status %d wrote %r" % (status, out[:100]))


def ends_so(run, status, line):
    """A run ends with this status and this line."""
    ending(run, {status})
    need(run[2] == line.encode(), "it said %r and not %r" % (run[2], line))


def sections(out):
    """The text of streams by channel: a list of (id, name, messages, counts), and its `anr` lines. Messages are
    numbered from 1, and the counts of a channel do not rise from sent to finished."""
    channels = []
    namings = []
    lines = out.decode("ascii").split("\n")
    need(lines.pop() == "", "the last line has no newline")
    messages = None
    for text in lines:
        if text.startswith("channel "):
            need(messages is None and not namings, "a section stands in another: %s" % text)
            _, number, name = text.split(" ")
            messages = []
        elif text.startswith("anr "):
            need(messages is None, "an ANR stands in a section: %s" % text)
            namings.append(text)
        elif text.startswith("end "):
            match = END.fullmatch(text)
            need(match and messages is not None and match.group(1) == number, "no end of %s: %s" % (number, text))
            sent, received, finished = (int(match.group(k)) for k in (2, 3, 4))
            need(sent == len(messages) and finished <= received <= sent, "the counts are no counts: %s" % text)
            channels.append((int(number), name, messages, (sent, received, finished)))
            messages = None
        else:
            need(messages is not None, "a message stands in no section: %s" % text)
            messages.append(text)
            need(text.split(" ")[0] == str(len(messages)), "message %d is %s" % (len(messages), text))
    need(messages is None, "the last section has no end")
    return channels, namings


def marks_of(text):
    """The marks of a motion."""
    return set(MARKS.findall(text))


def moments(messages):
    return [int(text.split(" ")[1]) for text in messages]


class Owner:
    """What the owner of a window knows after each message: which fingers are down on each device and with which marks, which keys, each with
    its next repeat and the moment of its last message, and whether the window is focused."""

    def __init__(self):
        self.down = {}
        self.marks = {}
        self.keys = {}
        self.focused = False
        self.moment = 0

    def told(self, text):
        """One message more, which has to be one that may come there."""
        moment = int(text.split(" ")[1])
        need(self.moment <= moment, "the moments fall: %s" % text)
        self.moment = moment
        motion, key, focus = MOTION.fullmatch(text), KEY.fullmatch(text), FOCUS.fullmatch(text)
        need(motion or key or focus, "no message: %s" % text)
        if motion:
            self.motion(text, *motion.group(3, 4, 5, 6, 7))
            self.marked(text, *motion.group(3, 4))
        elif key:
            self.key(text, key)
        else:
            need((focus.group(3) == "1") != self.focused, "the focus does not take turns: %s" % text)
            need(not self.keys, "the focus changes while a key is down: %s" % text)
            self.focused = not self.focused

    def motion(self, text, device, action, index, canceled, listed):
        ids = [int(at.split("@")[0]) for at in listed.split(" ")]
        need(all(a < b for a, b in zip(ids, ids[1:])) and len(ids) <= 16, "the ids do not rise: %s" % text)
        before = self.down.get(device, [])
        need((index is not None) == action.startswith("POINTER_"), "an index that is none: %s" % text)
        need(index is None or int(index) < len(ids), "an index beyond the list: %s" % text)
        need(not canceled or action == "POINTER_UP", "canceled, and no end: %s" % text)
        rest = [n for k, n in enumerate(ids) if index is not None and k != int(index)]
        wanted, after = {
            "DOWN": ([], ids),
            "POINTER_DOWN": (rest, ids),
            "MOVE": (ids, ids),
            "POINTER_UP": (ids, rest),
            "UP": (ids, []),
            "CANCEL": (ids, []),
            "OUTSIDE": (before, before),
        }.get(action, (None, None))
        need(before == wanted, "with %s down there comes %s" % (before, text))
        need(len(ids) == 1 or action not in ("DOWN", "UP", "OUTSIDE"), "more than one finger: %s" % text)
        need(len(ids) > 1 or not action.startswith("POINTER_"), "one finger alone: %s" % text)
        self.down[device] = after

    def marked(self, text, device, action):
        """The marks of a device begin with its first finger, grow with a further one at most, and stay else."""
        marks, before = marks_of(text), self.marks.get(device, set())
        if action == "OUTSIDE":
            need(not marks, "a touch outside has a mark: %s" % text)
            return
        if action == "POINTER_DOWN":
            need(before <= marks, "a mark of %s is gone: %s" % (before, text))
        elif action != "DOWN":
            need(before == marks, "the marks were %s: %s" % (before, text))
        self.marks[device] = marks

    def key(self, text, match):
        name = match.group(3), match.group(4)
        need(self.focused, "a key of a window without the focus: %s" % text)
        if match.group(8) is None:
            need(self.keys.pop(name, None) is not None, "up, and it was not down: %s" % text)
            return
        need(int(match.group(8)) == self.keys.get(name, (0, 0))[0], "another repeat is next: %s" % text)
        self.keys[name] = (int(match.group(8)) + 1, self.moment)


def owner_of(messages):
    """What the owner knows after these messages, each of which may come."""
    owner = Owner()
    for text in messages:
        owner.told(text)
    return owner


def first_ones(short, long, words):
    """Of two texts of streams, the messages of each channel of the one are the first ones of the other."""
    for (number, _, some, _), (_, _, more, _) in zip(short[0], long[0]):
        need(some == more[: len(some)], "%s, channel %d is sent something else" % (words, number))
    need(short[1] == long[1][: len(short[1])], "%s, other channels are reported" % words)


def until(told, moment):
    """Of a text of streams, what was sent and reported up to a moment, that one too."""
    channels = [[m for m, t in zip(c[2], moments(c[2])) if t <= moment] for c in told[0]]
    return channels, [text for text in told[1] if int(text.split(" ")[1]) <= moment]


def motions(messages, device):
    """What the motions of a device say, without moves that move nothing and without what is no part of a gesture."""
    said = []
    last = None
    for text in messages:
        match = MOTION.fullmatch(text)
        if not match or int(match.group(3)) != device or match.group(4) == "OUTSIDE":
            continue
        if match.group(4) == "MOVE" and match.group(7) == last:
            continue
        last = match.group(7)
        said.append((match.group(2), match.group(4), match.group(5), last))
    return said
