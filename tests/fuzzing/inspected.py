"""The laws of `inspect`: it refuses what `replay` refuses before its run, its counts are those of the lines, and they add up."""
import re

from .laws import ends_so, need
from .races import args_of
from .recording import ABS, DROPPED, KEY, REPORT, SLOT, SYN, TOOL, TRACKING, down_after, read

LINES = re.compile(r"lines (\d+) blank (\d+) other (\d+) unknown (\d+) events (\d+)")
DEVICE = re.compile(
    r"device (\d) (touch|keys) events (\d+) used (\d+) void (\d+) drops (\d+)"
    r"(?: packets (\d+) fingers (\d+) palms (\d+) clamped (\d+) strayed (\d+)| downs (\d+) unnamed (\d+)) args (\d+)"
)
HINT = re.compile(r"hint device (\d) (silent|single touch|protocol A|no fingers|no keys|still down \d+(?:,\d+)*)")
COUNTED = re.compile(r"hint (?:device \d (?:clamped|drops) \d+|clock back \d+|byte order mark)")
LAST = ("hint steps after", "hint no device")
MARK = b"\xef\xbb\xbf"
# What a reader of a touch device looks at of EV_ABS: slots, positions, tool types and tracking ids.
LOOKED_AT = (SLOT, 0x35, 0x36, TOOL, TRACKING)


def refused_alike(program, case):
    """`inspect` refuses the files of a case as `replay` does, and `replay` what `inspect` refuses; but for the run."""
    files = program.files(case.session, case.recording)
    replayed, looked_at = program.run(["replay"] + files), program.run(["inspect"] + files)
    if replayed[0] in (0, 7) and replayed[2] in (b"", b"too long: run\n"):
        ends_so(looked_at, 0, "")
    else:
        need(looked_at == replayed, "replay ends with %r, and inspect with %r" % (replayed, looked_at))


def is_used(kind, event):
    """A reader of such a device looks at the event's kind and code."""
    if event[2] == SYN:
        return event[3] in (REPORT, DROPPED)
    return event[2] == KEY if kind == "keys" else event[2] == ABS and event[3] in LOOKED_AT


def of_device(case, events, number):
    """The events of a device; those without a path are of the first."""
    return [e for e in events if e[1] == case.devices[number - 1][1] or (e[1] is None and number == 1)]


def device_law(case, events, match, hints, messages):
    """The line of a device, and what stands in the streams of it."""
    number, kind = int(match.group(1)), match.group(2)
    own = of_device(case, events, number)
    counts = [int(match.group(k)) for k in (3, 4, 5, 6)]
    need(kind == case.devices[number - 1][0], "device %d is no %s" % (number, kind))
    need(counts[0] == len(own), "device %d has %d events, and not %d" % (number, len(own), counts[0]))
    need(counts[1] == sum(is_used(kind, e) for e in own), "the events that are used of device %d" % number)
    need(counts[2] + counts[3] <= counts[0], "void events and drops of device %d" % number)
    args, hint = int(match.group(14)), hints.get(number, "")
    need(hint or args, "device %d gives no args, and nothing is hinted" % number)
    need((hint == "silent") == (not own), "device %d: %r" % (number, hint))
    if not args:
        told = [m for m in messages if re.match(r"\d+ \d+ (motion|key) %d " % number, m)]
        need(not told, "device %d gives no args, and %r is sent" % (number, told[:1]))
    return args


def still_down(case, events, hints):
    """What is said to be still down is as many pointers, and the very keys, that are down behind the events."""
    for number, state in enumerate(down_after(case.devices, events), 1):
        said = hints.get(number, "")
        ids = [int(n) for n in said.removeprefix("still down ").split(",")] if said.startswith("still down ") else []
        if state.kind == "keys":
            wanted = sorted(state.keys) if said not in ("silent", "no keys") else []
            need(ids == wanted, "device %d: keys %r are down, and not %r" % (number, wanted, ids))
        else:
            wanted = len(state.fingers) if said not in ("silent", "single touch", "protocol A", "no fingers") else 0
            need(len(ids) == wanted, "device %d: %d fingers are down, and not %r" % (number, wanted, ids))


def steps_law(case, events, text):
    """The steps against the moments of the events."""
    moments = [e[0] for e in events]
    first, last = (min(moments), max(moments)) if moments else (None, None)
    at = [step[0] for step in case.steps]
    before = len(at) if first is None else sum(us < first for us in at)
    after = 0 if last is None else sum(us > last for us in at)
    line = "steps %d before %d within %d after %d" % (len(at), before, len(at) - before - after, after)
    need(line in text, "no line %r" % line)
    need(("moments %d %d" % (first, last) in text) if moments else not any(t.startswith("moments") for t in text), "moments")
    need(("hint steps after" in text) == (after > 0), "the hint at late steps")


def counted_law(devices, events, recording, text):
    """The hints at counts that are not 0, at a clock that goes back and at a byte order mark, behind those of the devices."""
    wanted = []
    for match in devices:
        for name, count in (("clamped", match.group(10)), ("drops", match.group(6))):
            if int(count or 0):
                wanted.append("hint device %s %s %s" % (match.group(1), name, count))
    latest = back = 0
    for event in events:
        back += event[0] < latest
        latest = max(latest, event[0])
    wanted += ["hint clock back %d" % back] * (back > 0) + ["hint byte order mark"] * recording.startswith(MARK)
    said = [line for line in text if COUNTED.fullmatch(line)]
    need(said == wanted, "the hints are %r, and not %r" % (said, wanted))
    hints = [line for line in text if line.startswith("hint ")]
    places = [2 if line in LAST else 1 if COUNTED.fullmatch(line) else 0 for line in hints]
    need(places == sorted(places), "the order of %r" % hints)


def marked(program, case, text):
    """A byte order mark in a line of its own in front is one line of another form more, and a hint."""
    recording = MARK + b"\n" + case.recording
    out = program.text(["inspect"] + program.files(case.session, recording)).decode("ascii").split("\n")
    counts = [int(n) for n in LINES.fullmatch(text[0]).groups()]
    first = "lines %d blank %d other %d unknown %d events %d" % (counts[0] + 1, counts[1], counts[2] + 1, *counts[3:])
    before = [line for line in text[1:] if line not in LAST]
    wanted = [first] + before + ["hint byte order mark"] + [line for line in text if line in LAST] + [""]
    need(out == wanted, "with a byte order mark it says %r and not %r" % (out, wanted))


def inspected(program, case, told):
    """What `inspect` says of a case is what its lines say; the args of the devices are those that `check` takes."""
    out = program.text(["inspect"] + program.files(case.session, case.recording))
    text = out.decode("ascii").split("\n")
    need(text.pop() == "", "the last line has no newline")
    counts = [int(n) for n in LINES.fullmatch(text[0]).groups()]
    events = read(case.recording)[0]
    paths = {device[1] for device in case.devices}
    known = [e for e in events if e[1] is None or e[1] in paths]
    whole = case.recording.count(b"\n") + (not case.recording.endswith(b"\n") and case.recording != b"")
    need(counts[0] == whole == sum(counts[1:]), "%d lines, and %r" % (whole, text[0]))
    need(counts[3:] == [len(events) - len(known), len(known)], "%d events, and %r" % (len(known), text[0]))
    hints = {int(m.group(1)): m.group(2) for m in map(HINT.fullmatch, text) if m}
    devices = [m for m in map(DEVICE.fullmatch, text) if m]
    need([int(m.group(1)) for m in devices] == list(range(1, len(case.devices) + 1)), "the lines of the devices")
    messages = [message for channel in told[0] for message in channel[2]]
    args = sum(device_law(case, known, match, hints, messages) for match in devices)
    need(sum(int(m.group(3)) for m in devices) == counts[4], "the events of the devices are not all")
    still_down(case, known, hints)
    steps_law(case, known, text)
    counted_law(devices, known, case.recording, text)
    marked(program, case, text)
    need(not any(line.startswith("key ") for line in text), "a key that nothing reads")
    if args <= 2000:
        args_of(program, case, args)
