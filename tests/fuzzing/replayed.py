"""What has to hold of the text of a run by moment, given the session and the recording."""
from .delivery import NEVER, Bounds, counted
from .laws import FOCUS, KEY, MOTION, Owner, need, sections
from .recording import KEY as KEY_EVENT
from .recording import DROPPED, REPORT, SYN, down_after


def removals(steps):
    """The moment at which each removed channel is removed first."""
    removed = {}
    for at, _, act, what in sorted(steps, key=lambda step: step[0]):
        if act == "remove":
            removed.setdefault(what, at)
    return removed


def named_so(case, told):
    """The channels are those of the session, in its order."""
    wanted = [(number, channel[0]) for number, channel in enumerate(case.channels, 1)]
    need([c[:2] for c in told[0]] == wanted, "the channels are not those of the session")


def delay_after(case, repeat):
    """How long after a down with this repeat number the next repeat is sent."""
    return case.repeat_us[0 if repeat == 0 else 1]


class Sources:
    """The moments at which a message of each kind may be sent."""

    def __init__(self, case, steps, events):
        first = case.devices[0][1] if case.devices else None
        self.packets, self.ends, self.keys = {}, {}, {}
        for moment, path, kind, code, value in events:
            path = path or first
            if kind == SYN and code in (REPORT, DROPPED):
                self.ends.setdefault(path, set()).add(moment)
            if (kind, code) == (SYN, REPORT):
                self.packets.setdefault(path, set()).add(moment)
            if kind == KEY_EVENT:
                self.keys.setdefault((path, code, value), set()).add(moment)
        self.paths = [device[1] for device in case.devices]
        self.case = case
        self.steps = {step[0] for step in steps if step[2] != "remove"}
        self.focus = {step[0] for step in steps if step[2] in ("windows", "focus")}

    def may_say(self, text, owner, clocks):
        """A message comes at the moment of the packet, the key or the step that it is about, or of a naming."""
        motion, key = MOTION.fullmatch(text), KEY.fullmatch(text)
        at = int(text.split(" ")[1])
        if motion:
            path = self.paths[int(motion.group(3)) - 1]
            if motion.group(4) == "CANCEL" or motion.group(6):
                return at in self.steps or at in clocks or at in self.ends.get(path, ())
            return at in self.packets.get(path, ())
        if not key:
            return at in self.focus
        path, scan = self.paths[int(key.group(3)) - 1], int(key.group(4))
        if key.group(8) is None:
            if key.group(9):
                return at in self.focus or at in clocks or at in self.ends.get(path, ())
            return at in self.keys.get((path, scan, 0), ())
        if key.group(8) == "0":
            return at in self.keys.get((path, scan, 1), ())
        before = owner.keys.get(key.group(3, 4), (0, 0))[1]
        return self.case.repeats and at == before + delay_after(self.case, int(key.group(8)) - 1)


def held_by(number, messages, names, sources, removed):
    """Goes through the messages of a channel: each may come, at such a moment; nothing comes after a removal; a
    channel that is reported is sent cancels, holds nothing then, and is sent nothing but the focus until it is able
    again."""
    owner = Owner()
    waiting = list(names)
    unable = None
    clocks = {clock for clock, _, _ in names}
    for text in messages:
        at = int(text.split(" ")[1])
        if unable and unable[2] <= at:
            unable = None
        while waiting and waiting[0][0] < at:
            unable = waiting.pop(0)
            empty(number, owner, unable)
            unable = unable if at < unable[2] else None
        need(not unable or FOCUS.fullmatch(text), "channel %d is unresponsive, and told %s" % (number, text))
        late = waiting and waiting[0][0] == at
        need(not late or FOCUS.fullmatch(text) or "CANCEL" in text or " canceled " in text, "named, told %s" % text)
        need(at <= removed, "channel %d is removed at %s, and told %s" % (number, removed, text))
        there = sources is None or sources.may_say(text, owner, clocks)
        need(there, "nothing is there to tell at that moment: %s" % text)
        owner.told(text)
    for name in waiting:
        empty(number, owner, name)
    return owner


def empty(number, owner, name):
    nothing = not any(owner.down.values()) and not owner.keys
    need(nothing, "channel %d is named at %d and holds something" % (number, name[0]))


def left(case, owners, removed, down):
    """What is down at the end of a run is so in the windows that may have it, and down on its device, where `down` is
    known."""
    fingers = [set() for _ in case.devices]
    keys = []
    focused = 0
    for name, owner in owners.items():
        if name in removed:
            continue
        focused += owner.focused
        for device, ids in owner.down.items():
            known = fingers[int(device) - 1]
            need(case.spies or not known & set(ids), "two windows without SPY have a finger of device %s" % device)
            known |= set(ids)
        keys += list(owner.keys)
    need(focused <= len(case.displays), "%d windows are focused" % focused)
    need(len(set(keys)) == len(keys), "a key is down in two windows: %s" % keys)
    for number, (ids, state) in enumerate(zip(fingers, down or ()), 1):
        most = len(state.fingers)
        need(len(ids) <= most, "fingers %s of device %d are down, which has %d" % (sorted(ids), number, most))
    for device, scan in keys if down else ():
        need(int(scan) in down[int(device) - 1].keys, "key %s of device %s is down, and was released" % (scan, device))


def judged(case, out, steps, events, rising=True):
    """Holds a printed text to all of this, and returns it in sections. `rising` says that the moments of the lines
    rise."""
    told = sections(out)
    named_so(case, told)
    removed = removals(steps)
    paths = [device[1] for device in case.devices]
    events = [event for event in events if (event[1] or paths[0]) in paths]
    bounds = Bounds(case, steps, told, max((event[0] for event in events), default=0))
    names = counted(case, told, bounds, removed)
    sources = Sources(case, steps, events) if rising else None
    owners = {}
    for (number, name, messages, _), of_it in zip(told[0], names):
        owners[name] = held_by(number, messages, of_it, sources, removed.get(name, NEVER))
    left(case, owners, removed, down_after(case.devices, events))
    return told
