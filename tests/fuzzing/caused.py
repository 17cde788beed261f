"""The laws of `why`: its lines follow from one another, from what the devices did and from the steps of the session, and windows are sent in
the streams of `replay` what the lines say."""
import copy
from collections import Counter

from .causes import Causes
from .delivery import delivered, named
from .laws import FOCUS, KEY, MOTION, ends_so, marks_of, moments, need, sections
from .make import Window, owned, sides, some_frame, walled, with_channels
from .recording import KEY as KEY_EVENT
from .recording import DROPPED, REPORT, SYN, Down, read
from .replayed import removals


def refused_too(program, case):
    """`why` refuses the files of a case as `replay` does, and nothing else."""
    files = program.files(case.session, case.recording)
    replayed, told = program.run(["replay"] + files), program.run(["why"] + files)
    if replayed[0] == 0:
        ends_so(told, 0, "")
    else:
        need(told == replayed, "replay ends with %r, and why with %r" % (replayed, told))


def told_by(text, window):
    """What a message tells its window: nothing of a move, and of a pointer that goes down, or is outside, its place too."""
    motion, key, focus = (form.fullmatch(text) for form in (MOTION, KEY, FOCUS))
    at = int(text.split(" ")[1])
    if focus:
        return [("focus", at, window, int(focus.group(3)))]
    if key:
        what = "key %s" % key.group(8) if key.group(8) else "key lost" if key.group(9) else "key up"
        return [(what, at, window, int(key.group(3)), int(key.group(4)))]
    device, action, last = int(motion.group(3)), motion.group(4), int(motion.group(5) or 0)
    listed = [(int(number), place) for number, place in (item.split("@") for item in motion.group(7).split(" "))]
    if action == "CANCEL":
        return [("lost", at, window, device, number) for number, _ in listed]
    if action in ("UP", "POINTER_UP"):
        return [("lost" if motion.group(6) else "up", at, window, device, listed[last][0])]
    what = "outside" if action == "OUTSIDE" else "down"
    return [] if action == "MOVE" else [(what, at, window, device) + listed[last]]


def moved(device, state, at, event, seen):
    """Adds what a device did with its next event to what was seen, and says whether it did something."""
    passing, before, keys = state.passing, state.fingers, set(state.keys)
    state.take(*event)
    if passing:
        return False
    if event[:2] == (SYN, DROPPED):
        seen["reset", at, device] += 1
        return True
    if event[0] == KEY_EVENT and state.keys != keys:
        seen["key down" if event[2] else "key up", at, device, event[1]] += 1
        return True
    if event[:2] != (SYN, REPORT):
        return False
    seen["down", at, device] += len(state.fingers - before)
    seen["palm", at, device] += len((before - state.fingers) & state.palms)
    seen["up", at, device] += len(before - state.fingers - state.palms)
    return bool(before or state.fingers)


def done_by(case):
    """What the devices did by the recording, as `Causes.seen` has it, and the moment of the last args."""
    states = {device[1]: (number, Down(device)) for number, device in enumerate(case.devices, 1)}
    seen, last = Counter(), 0
    for at, path, kind, code, value in read(case.recording)[0]:
        path = path or case.devices[0][1]
        if path in states and moved(*states[path], at, (kind, code, value), seen):
            last = at
    return +seen, last


def answers(case, told, last):
    """When each window that did not answer in time is responsive again, up to the last moment."""
    found, removed = [], removals(case.steps)
    for (number, name, messages, _), (_, limit, delay, finishes) in zip(told[0], case.channels):
        until = min(last, removed.get(name, last))
        came, done = delivered(moments(messages), delay, finishes)
        found += [(able, number) for _, _, able in named(came, done, limit * 1000, until) if able <= until]
    return sorted(found)


def wide(case, rng):
    """Windows of some owners over halves of the displays or all of one, with flags, often a spy in front; between them overlays over a
    display or a part of it, which cannot be touched."""
    names = [channel[0] for channel in case.channels]
    windows = []
    for k, name in enumerate(rng.sample(names, len(names))):
        display = rng.choice((0, 0, rng.randrange(len(case.displays))))
        width, height = sides(case.displays[display])
        frame = rng.choice(((0, 0, width // 2, height), (width // 2, 0, width, height), (0, 0, width, height)))
        spy = k < 2 and rng.random() < 0.6
        flags = ["SPY" if spy else rng.choice(("PREVENT_SPLITTING", "SLIPPERY", "NOT_FOCUSABLE", "NOT_TOUCHABLE"))]
        flags += ["TRUSTED_OVERLAY"] if rng.random() < 0.1 else []
        if k > 0 and rng.random() < 0.4:
            frame = rng.choice(((0, 0, width, height), some_frame(rng, width, height)))
            windows.insert(rng.randint(0, k), owned(rng, Window(name, display, frame, ["NOT_TOUCHABLE"]), (1, 2, 3)))
        else:
            windows.append(owned(rng, Window(name, display, frame, flags), (0, 0, 1)))
    return walled(rng, windows, case.displays)


def busier(case):
    """The case with other steps: wide windows that change between its events, the focus, and spies that pilfer."""
    rng = case.drawn("caused")
    other = copy.copy(case)
    moments_of = sorted({event[0] for event in read(case.recording)[0]}) or [0]
    windows = wide(case, rng)
    other.steps = [(0, 1, "windows", windows), (0, 1, "focus", with_channels(windows)[-1][:2])]
    for at in sorted(rng.choice(moments_of) + rng.choice((0, 1)) for _ in range(12)):
        act = rng.choice(("windows", "focus", "pilfer", "pilfer", "pilfer"))
        if act == "windows":
            windows = wide(case, rng)
        what = windows if act == "windows" else rng.choice(with_channels(windows))[:2] if act == "focus" else (with_channels(windows)[0][0], rng.randint(1, len(case.devices)))
        other.steps.append((at, 1, act, what))
    return other


def caused(program, case, told):
    """What `why` says of a case that windows are sent is what `replay` prints for them, and what it says of devices what they did; and so
    with other steps."""
    held_to(case, program.text(["why"] + program.files(case.session, case.recording)).decode("ascii"), told)
    if case.devices:
        other = busier(case)
        files = program.files(other.session_text(other.steps).encode(), case.recording)
        held_to(other, program.text(["why"] + files).decode("ascii"), sections(program.text(["replay"] + files)))


def held_to(case, text, told):
    """Holds a text to the streams of the same run, to the recording, and to how long owners take to finish."""
    causes = followed(Causes(case), text, told)
    seen, last = done_by(case)
    missing, more = seen - causes.seen, causes.seen - seen
    need(not missing and not more, "done without a line: %s; not done: %s" % (sorted(missing)[:5], sorted(more)[:5]))
    wanted = answers(case, told, max([case.end, last] + [step[0] for step in case.steps]))
    need(sorted(causes.answering) == wanted, "responsive are %s, and not %s" % (causes.answering, wanted))


def followed(causes, text, told):
    """Goes through all lines of a text, and holds what they say of windows to the streams."""
    lines = text.split("\n")
    need(lines.pop() == "", "the last line has no newline")
    for line in lines:
        causes.line(line)
    causes.settle()
    need(not causes.acts, "%d steps give no line" % len(causes.acts))
    need(causes.namings == told[1], "the timeouts are %s" % causes.namings)
    said = Counter(what for number, _, messages, _ in told[0] for message in messages for what in told_by(message, number))
    missing, more = said - causes.said, causes.said - said
    need(not missing and not more, "told without a cause: %s; caused and not told: %s" % (sorted(missing)[:5], sorted(more)[:5]))
    for number, _, messages, _ in told[0]:
        marked(causes, number, messages)
    return causes


def marked(causes, number, messages):
    """Each motion has the marks that its window was given last with a pointer of the device, of which the lines tell."""
    given = {}
    for text in messages:
        match = MOTION.fullmatch(text)
        if not match or match.group(4) == "OUTSIDE":
            continue
        device = int(match.group(3))
        given[device] = given.get(device, 0) + (match.group(4) in ("DOWN", "POINTER_DOWN"))
        wanted = causes.marks[number, device][given[device] - 1]
        need(marks_of(text) == wanted, "channel %d has the marks %s: %s" % (number, sorted(wanted), text))
