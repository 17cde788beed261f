"""The law of keys: one that goes down is sent to the focused window, and repeated while nothing else happens."""
from collections import Counter

from .laws import FOCUS, KEY, need
from .recording import DROPPED, SYN, Down, read
from .recording import KEY as KEY_EVENT
from .replayed import delay_after, removals
from .replays import last_moment


def focused_at(messages, moment):
    """Whether a channel has the focus at a moment; None where it changes then."""
    has = False
    for text in messages:
        match = FOCUS.fullmatch(text)
        if match and int(match.group(2)) == moment:
            return None
        if match and int(match.group(2)) < moment:
            has = match.group(3) == "1"
    return has


def presses(case, events):
    """The keys that go down: moment, device and scan code."""
    states = {device[1]: (number, Down(device)) for number, device in enumerate(case.devices, 1)}
    first = case.devices[0][1]
    for moment, path, kind, code, value in events:
        if (path or first) in states:
            number, state = states[path or first]
            had = state.keys.copy()
            state.take(kind, code, value)
            for scan in state.keys - had:
                yield moment, number, scan


def keyed(_, case, told):
    events = read(case.recording)[0]
    named = {int(text.split(" ")[2]) for text in told[1]}
    removed = removals(case.steps)
    busy = {step[0] for step in case.steps}
    if len(case.displays) == 1:
        for moment, device, scan in presses(case, events):
            has = [(c[0], focused_at(c[2], moment), c[2]) for c in told[0]]
            if moment in busy or any(focus is None for _, focus, _ in has):
                continue
            for number, _, messages in [one for one in has if one[1]]:
                start = " %d key %d %d " % (moment, device, scan)
                there = any(start in text and text.endswith(" DOWN 0") for text in messages)
                gone = removed.get(case.channels[number - 1][0], moment) < moment
                need(there or gone or number in named, "channel %d has the focus, and is not told%s" % (number, start))
    repeated(case, told, events, busy | {e[0] for e in events if e[2] == KEY_EVENT or e[2:4] == (SYN, DROPPED)})


def repeated(case, told, events, busy):
    """The last key that was sent, as a down, is sent again after its time, if no key, step or ANR comes first, and never where the
    session repeats no key."""
    busy = sorted(busy | {int(text.split(" ")[1]) for text in told[1]})
    keys = sorted((int(text.split(" ")[1]), c[0], text) for c in told[0] for text in c[2] if KEY.fullmatch(text))
    if not case.repeats:
        for _, number, text in keys:
            need(KEY.fullmatch(text).group(8) in (None, "0"), "channel %d is sent a repeat: %s" % (number, text))
        return
    times = Counter(moment for moment, _, _ in keys)
    end = last_moment(case, told)
    for k, (moment, number, text) in enumerate(keys):
        match = KEY.fullmatch(text)
        if match.group(8) is None or times[moment] > 1:
            continue
        due = moment + delay_after(case, int(match.group(8)))
        if due > end or any(moment < at <= due for at in busy) or moment in {step[0] for step in case.steps}:
            continue
        after = keys[k + 1] if k + 1 < len(keys) else (0, 0, "")
        wanted = " %d key %s %s %s %s DOWN %d" % ((due,) + match.group(3, 4, 5, 6) + (int(match.group(8)) + 1,))
        there = after[1] == number and after[2].endswith(wanted)
        need(there, "%s of channel %d is not repeated:%s" % (text, number, wanted))
