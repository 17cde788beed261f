"""What clients of the compositor are to print, from the streams that `inputflinger replay` says of the session of its journal.

This is docs/COMPOSITOR.md in another language: what wl_touch and wl_keyboard say of a message, and in which order messages of several windows come."""
import re
import tomllib

POINTER_IDS = 32
BEGINS, ENDS = ("DOWN", "POINTER_DOWN"), ("UP", "POINTER_UP", "CANCEL")


class Message:
    """A line of a stream."""

    def __init__(self, channel, line):
        seq, moment, kind, *words = line.split(" ")
        self.channel, self.seq, self.moment, self.kind, self.step = channel, int(seq), int(moment), kind, 0
        if kind == "motion":
            self.device, (self.action, _, index) = int(words[0]), words[1].partition(":")
            self.index, self.is_canceled = int(index or 0), "canceled" in words or self.action == "CANCEL"
            places = [re.fullmatch(r"(\d+)@(-?\d+),(-?\d+)", word) for word in words[2:]]
            self.pointers = [tuple(int(number) for number in place.groups()) for place in places if place]
            self.rank = 2 if self.action in BEGINS else 0 if self.action in ENDS else 1
        elif kind == "key":
            self.scan, self.is_down = int(words[1]), words[4] == "DOWN"
            self.rank = 3 + self.is_down
        else:
            self.focus = words[0] == "1"
            self.rank = 5 + self.focus


def streams_of(text):
    """The messages of each channel that it received, by its number. One that finishes none receives 64."""
    streams, channel = {}, None
    for line in text.splitlines():
        if line.startswith("channel "):
            channel = int(line.split(" ")[1])
            streams[channel] = []
        elif line.startswith("end "):
            del streams[channel][int(line.split(" ")[5]):]
        elif line[0].isdigit():
            streams[channel].append(Message(channel, line))
    return streams


def reports_of(replayed):
    """The windows that do not respond: of each report its moment, channel and message."""
    return [tuple(int(word) for word in line.split(" ")[1:]) for line in replayed.splitlines() if line.startswith("anr ")]


def number_steps(streams, spy):
    """Numbers the steps of each packet. The spy is sent a motion by each of them, and so is any other window while it has a finger of the device: from the
    first one if it had one before, and otherwise from the one by which its first finger goes down."""
    begins = {}
    for is_spy in (True, False):
        for channel, stream in streams.items():
            moment = step = None
            for message in stream if (channel == spy) == is_spy else ():
                if message.kind == "motion":
                    step = step + 1 if message.moment == moment else 0
                    if not is_spy and message.action == "DOWN":
                        step = begins[message.moment, message.device, message.pointers[0][0]]
                    elif is_spy and message.action in BEGINS:
                        begins[message.moment, message.device, message.pointers[message.index][0]] = step
                    message.step, moment = step, message.moment


def in_order(streams, session, reports):
    """All messages as the service sends them, step by step: each stream in its own order; of those that may come next the earliest, by moment, step, what
    it says, and channel of the service. What is handed in at one moment is a step of the session, or a packet; before it each report is a step."""
    channels = session["channel"]
    number_steps(streams, next(channel for channel, table in enumerate(channels, 1) if table["name"] == "spy"))
    reported, steps = {report[:2] for report in reports}, {step["at_us"] for step in session["step"]}

    def place(message):
        channel = channels[message.channel - 1]["live"]
        if (message.moment, message.channel) in reported:
            return message.moment, 0, channel, message.rank, channel
        return message.moment, 1, 0 if message.moment in steps else message.step, message.rank, channel

    heads = {channel: iter(stream) for channel, stream in streams.items()}
    firsts = {channel: next(head, None) for channel, head in heads.items()}
    while True:
        ready = [message for message in firsts.values() if message is not None]
        if not ready:
            return
        first = min(ready, key=place)
        yield first
        firsts[first.channel] = next(heads[first.channel], None)


class Peer:
    """What a client of Wayland is sent, and the fingers that it knows of: by touch id the surface and the place."""

    def __init__(self, unit):
        self.unit, self.printed, self.fingers, self.has_frame, self.focus = unit, [], {}, False, None

    def place(self, x, y):
        return "%.8g,%.8g" % (x / self.unit, y / self.unit)

    def touch(self, surface, message, is_gone):
        """A surface that is gone has no cancel: its fingers go up."""
        ms = message.moment // 1000 % 2**32
        of_all = message.action in ("MOVE", "CANCEL")
        for i, (number, x, y) in enumerate(message.pointers):
            finger = message.device * POINTER_IDS + number
            if not of_all and i != message.index:
                continue
            if message.action in BEGINS:
                self.printed.append("down %d %d %s %s" % (ms, finger, surface, self.place(x, y)))
                self.fingers[finger] = (surface, x, y)
                self.has_frame = True
            elif finger in self.fingers and self.fingers[finger][0] == surface:
                if message.is_canceled and not is_gone:
                    self.printed.append("cancel")
                    self.fingers = {}
                elif message.action != "MOVE":
                    self.printed.append("up %d %d" % (ms, finger))
                    del self.fingers[finger]
                    self.has_frame = True
                elif self.fingers[finger][1:] != (x, y):
                    self.printed.append("motion %d %d %s" % (ms, finger, self.place(x, y)))
                    self.fingers[finger] = (surface, x, y)
                    self.has_frame = True

    def key(self, message):
        self.printed.append("key %d %d %d" % (message.moment // 1000 % 2**32, message.scan, message.is_down))

    def focused(self, surface, message):
        self.printed.append("%s %s%s" % ("enter" if message.focus else "leave", surface, " 0" if message.focus else ""))

    def end_frame(self):
        if self.has_frame:
            self.printed.append("frame")
        self.has_frame = False


def surfaces_of(session, printed):
    """Of each channel the client and the name of its surface, or nothing for the compositor's own."""
    seen, found = {}, {}
    for name, lines in printed.items():
        for line in lines:
            if line.startswith("surface "):
                _, surface, number = line.split(" ")
                seen.setdefault((name, int(number)), []).append(surface)
    for channel, table in enumerate(session.get("channel", []), 1):
        parts = re.sub(r"~\d+$", "", table["name"]).split("/")
        if len(parts) == 2:
            found[channel] = tuple(parts)
        elif len(parts) == 3:
            found[channel] = (parts[0], seen[parts[0], int(parts[2])].pop(0))
    return found


def wanted(session_text, replayed, printed, lasts):
    """What each client is to print of touches, keys and the focus; `lasts` has the last moment before it ended."""
    session = tomllib.loads(session_text)
    unit = int(re.search(r"# Each pixel is (\d+) units", session_text).group(1))
    surfaces = surfaces_of(session, printed)
    numbers = {table["name"]: channel for channel, table in enumerate(session["channel"], 1)}
    removed = {numbers[step["channel"]]: step["at_us"] for step in session["step"] if step["do"] == "remove"}
    peers, moment = {name: Peer(unit) for name in printed}, None
    for message in in_order(streams_of(replayed), session, reports_of(replayed)):
        if message.moment != moment:
            for peer in peers.values():
                peer.end_frame()
        moment = message.moment
        if message.channel not in surfaces:
            continue
        name, surface = surfaces[message.channel]
        if moment > lasts[name]:
            continue
        # In the step in which a surface goes, nobody can name it any more.
        is_gone = moment >= removed.get(message.channel, moment + 1)
        if message.kind == "motion":
            peers[name].touch(surface, message, is_gone)
        elif message.kind == "key":
            peers[name].key(message)
        elif not is_gone:
            peers[name].focused(surface, message)
    for peer in peers.values():
        peer.end_frame()
    return {name: peer.printed for name, peer in peers.items()}


def late(session_text, replayed):
    """What the compositor is to print of windows that do not respond: at one moment by their channels of the service."""
    channels = tomllib.loads(session_text)["channel"]
    reports = sorted(reports_of(replayed), key=lambda report: (report[0], channels[report[1] - 1]["live"]))
    return ["late %d %s: message %d is not finished" % (moment, re.sub(r"~\d+$", "", channels[channel - 1]["name"]), seq) for moment, channel, seq in reports]


def of_input(lines):
    """What a client printed of touches, keys and the focus. A surface without a name, `-`, is destroyed: wlroots lets it lose the focus."""
    words = ("down", "up", "motion", "frame", "cancel", "key", "enter", "leave")
    return [line for line in lines if line.split(" ")[0] in words and line != "leave -"]
