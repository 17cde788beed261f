"""The law of a spy: one in front of each display, over all of it, sees all motions and changes nothing for others."""
import re

from .laws import MOTION, need
from .make import Window, sides
from .mouse import candidates, windows_at
from .recording import read
from .replayed import judged, removals
from .trust import blockers, marks


def with_spies(case):
    """The session with a spy for each display, which is trusted, and its steps."""
    spies = []
    for number, display in enumerate(case.displays):
        spies.append(Window("all%d" % number, number, (0, 0) + sides(display), ("SPY", "NOT_FOCUSABLE", "TRUSTED_OVERLAY")))
    steps = [step[:3] + (spies + list(step[3]),) if step[2] == "windows" else step for step in case.steps]
    return [(spy[0], 5000, 0, True) for spy in spies], steps


def pointers_of(listed):
    return [tuple(int(n) for n in re.split("[@,]", pointer)) for pointer in listed.split(" ")]


def places_fit(case, number, name, messages, seen):
    """What a window is sent of a device lies where the spy sees it at that moment, less a corner of the window."""
    for text in messages:
        match = MOTION.fullmatch(text)
        if not match or match.group(4) == "CANCEL" or match.group(6):
            continue
        moment, device = int(match.group(2)), match.group(3)
        corners = {
            window[2][:2]
            for step in case.steps
            for window in (step[3] if step[2] == "windows" and step[0] <= moment else ())
            if window[0] == name
        }
        there = seen.get((moment, device), set())
        told = pointers_of(match.group(7))
        fit = any({(n, x + left, y + top) for n, x, y in told} <= there for left, top in corners)
        need(fit, "channel %d: no finger is there: %s" % (number, text))


def spied(program, case, told):
    """Nobody is sent anything else because of the spies, who are sent each motion of their displays; and a finger that
    goes down first, where one window alone can be touched, goes to that window."""
    if any(step[2] == "pilfer" for step in case.steps):
        return
    channels, more = case.channels, case.spies
    extra, steps = with_spies(case)
    case.channels, case.spies = channels + extra, True
    try:
        out = program.replay(case.session_text(steps).encode(), case.recording)
        program.verify(out)
        both = judged(case, out, steps, read(case.recording)[0])
    finally:
        case.channels, case.spies = channels, more
    need((both[0][: len(channels)], both[1]) == told, "with spies in front other windows are sent something else")
    seen = {}
    for display, (_, _, messages, _) in enumerate(both[0][len(channels) :]):
        for text in messages:
            match = MOTION.fullmatch(text)
            at = pointers_of(match.group(7))
            seen.setdefault((int(match.group(2)), match.group(3)), set()).update(at)
            if match.group(4) == "DOWN":
                first_down(case, told, display, match, at[0])
    for number, name, messages, _ in told[0]:
        places_fit(case, number, name, messages, seen)


def first_down(case, told, display, match, pointer):
    """Where one window alone can be touched, and is not blocked, it is sent the DOWN of the finger, with its mark, and the windows in front of it that
    watch are sent a touch outside; those that were reported once may not be."""
    moment, removed = int(match.group(2)), removals(case.steps)
    there = list(candidates(case, removed, moment, pointer[1:], display))
    if len(there) != 1:
        return
    shown = [window for window in windows_at(case, moment) if window.display == display and removed.get(window.name, moment + 1) > moment]
    marked = "".join(" " + mark for mark in marks(shown, there[0], pointer[1:]))
    wanted = {} if blockers(shown, there[0], pointer[1:]) else {there[0]: "DOWN" + marked}
    for window in shown:
        if window.name == there[0]:
            break
        if "WATCH_OUTSIDE_TOUCH" in window.flags and "SPY" not in window.flags:
            wanted[window.name] = "OUTSIDE"
    named = {int(text.split(" ")[2]) for text in told[1]}
    for number, channel, messages, _ in told[0]:
        if channel in wanted and number not in named:
            start = " %d motion %s %s %d@" % (moment, match.group(3), wanted[channel], pointer[0])
            need(any(start in text for text in messages), "channel %d is not told%s" % (number, start))
