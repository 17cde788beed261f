"""A session held against its recording: what the program runs, and likely is not as meant."""
from . import early, gestures
from .findings import seconds, shown
from .recording import ABS, ABS_X, ABS_Y, KEY, MT_SLOT, MT_TRACKING_ID, MT_X, MT_Y, SYN, SYN_MT_REPORT

# A corner is this part of both axes; a greater one for so many fingers, which would hardly all come to lie there.
CORNER = 16
MANY_FINGERS, CORNER_OF_MANY = 10, 3


def other_kinds(findings, recording):
    """Files that are no text of getevent. True where the file has no events."""
    if recording.known_sources():
        return False
    if recording.kind:
        message = "this is a file of %s, of which the program takes no event; tools/import writes it as a recording"
        findings.warning((1, 1), "", message % recording.kind)
    elif recording.size == 0:
        findings.warning((1, 1), "", "it is empty")
    elif not any(finding.level == "error" for finding in findings.all):
        findings.warning((1, 1), "", "none of its %d lines is an event of getevent -t" % recording.lines)
    return True


def protocols(findings, recording, path):
    """Touch screens whose events give nothing. True where that is so."""
    source = recording.sources[path]
    if source.has(SYN, SYN_MT_REPORT):
        message = "%s speaks multi-touch protocol A (SYN_MT_REPORT), and only protocol B is read"
    elif source.has(ABS, MT_TRACKING_ID):
        return False
    elif source.has(ABS, MT_X, MT_Y):
        message = "%s says no ABS_MT_TRACKING_ID, so no finger goes down; did the recording begin with the finger down?"
    elif source.has(ABS, ABS_X, ABS_Y):
        message = "%s is a single-touch device (ABS_X and ABS_Y alone), and only multi-touch protocol B is read: no finger is seen"
    else:
        message = "%s has no event of a touch screen"
    findings.warning((1, 1), "", message % path)
    return True


def paths(findings, told, plan, recording):
    """Devices of the session that the recording has not, and touch screens of the recording that the session has not."""
    of_session = {device.get("path") for device in plan.devices}
    others = [source for source in recording.known_sources() if source.path not in of_session]
    listed = ["%s (%d events)" % (source.path, source.events) for source in others[:8]]
    for device in plan.devices:
        path = device.get("path")
        copied = path is not None and path.endswith(":")
        if path is None or copied or (path in recording.sources and recording.sources[path].events):
            continue
        has = "; of no device of the session it has " + ", ".join(listed) if listed else ""
        message = '"%s" has no event in the recording%s' % (shown(path), has)
        findings.warning(device.node.get("path").at, device.name + ".path", message)
    for source in others:
        if source.is_touch() and None not in of_session and source.path + ":" not in of_session:
            told.warning((1, 1), "", "%s is a touch screen with %d events, and no device of the session" % (source.path, source.events))


def axis(findings, device, source, key, code):
    """An axis whose range is not that of the recording."""
    if key not in device.said or code not in source.values:
        return
    low, high = device.said[key]
    least, greatest = source.values[code]
    at, full = device.node.get(key).at, "%s.%s" % (device.name, key)
    if key in source.ranges and source.ranges[key] != (low, high):
        message = "[%d, %d], and the recording's device says [%d, %d]" % ((low, high) + source.ranges[key])
        findings.warning(at, full, message)
    elif greatest > high or least < low:
        says = ", as its device says" if key in source.ranges else ""
        message = "[%d, %d]%s, and the recording goes from %d to %d: what lies outside is put on the edge"
        findings.warning(at, full, message % (low, high, says, least, greatest))


def corner(findings, device, source):
    """Ranges so wide that all fingers come to lie in a corner."""
    parts = []
    fingers = source.counts.get((ABS, MT_TRACKING_ID), 0) // 2
    of = CORNER_OF_MANY if fingers >= MANY_FINGERS else CORNER
    for key, code in (("x", MT_X), ("y", MT_Y)):
        if key not in device.said or code not in source.values or key in source.ranges:
            return
        low, high = device.said[key]
        least, greatest = source.values[code]
        part = (high - low) // of
        if not (low <= least and greatest < low + part or greatest <= high and least > high - part):
            return
        parts.append("%s goes from %d to %d of [%d, %d]" % (key, least, greatest, low, high))
    message = "all fingers of the recording lie in a corner: %s; is the range that of getevent -p?" % " and ".join(parts)
    findings.warning(device.node.get("x").at, device.name + ".x", message)


def slots(findings, device, source):
    # Of the slots that the device says those above the sixteenth are not used, as long as no event has one.
    greatest = source.values.get(MT_SLOT, (0, 0))[1]
    if "slots" in source.ranges:
        greatest = max(greatest, min(source.ranges["slots"][1], 15))
    have = device.get("slots", 10)
    if "slots" in device.node.value and "slots" not in device.said:
        return
    if greatest >= have:
        at = device.at("slots")
        more = "" if greatest < 16 else "; at most 16 are read"
        message = "%d, and the recording's device has slot %d: its finger is passed over%s" % (have, greatest, more)
        findings.warning(at, device.name + ".slots", message)


def keys(findings, told, device, source):
    """Keys that the layout of a device does not have."""
    if source.is_touch() and not source.has(KEY):
        message = "the recording's device is a touch screen, and has no key"
        findings.warning(device.node.get("kind").at, device.name + ".kind", message)
        return
    layout = device.get("layout", {})
    missing = sorted(code for code in source.presses if code not in layout)
    if missing and ("layout" in device.said or "layout" not in device.node.value):
        codes = ", ".join("%d (0x%x)" % (code, code) for code in missing[:8]) + (".." if len(missing) > 8 else "")
        message = "no line has scan code %s, which the recording presses: its key code is 0" % codes
        findings.warning(device.at("layout"), device.name + ".layout", message)


def devices(findings, told, plan, recording):
    for device in plan.devices:
        source = recording.sources.get(device.get("path"))
        if source is None or not source.events:
            continue
        if device.get("kind") == "keys":
            keys(findings, told, device, source)
        elif device.get("kind") == "touch":
            if source.has(KEY) and not source.has(ABS):
                message = "the recording's device has keys and no position"
                findings.warning(device.node.get("kind").at, device.name + ".kind", message)
            elif not protocols(told, recording, source.path):
                axis(findings, device, source, "x", MT_X)
                axis(findings, device, source, "y", MT_Y)
                corner(findings, device, source)
                slots(findings, device, source)


def moments(findings, plan, recording):
    """Steps behind the last event, and windows that come only after the first one."""
    of_session = {device.get("path") for device in plan.devices}
    sources = [source for source in recording.known_sources() if source.path in of_session] or recording.known_sources()
    if not sources:
        return
    first, last = min(source.first for source in sources), max(source.last for source in sources)
    for step in plan.steps:
        at = step.get("at_us")
        if at is not None and at > last:
            message = "%s, and the last event of the recording is at %s" % (seconds(at), seconds(last))
            findings.warning(step.node.get("at_us").at, step.name + ".at_us", message)
    shown_at = [step for step in plan.steps if step.get("do") == "windows" and step.get("at_us") is not None]
    if shown_at and first < min(step.get("at_us") for step in shown_at) <= last:
        step = min(shown_at, key=lambda step: step.get("at_us"))
        message = "no window is shown before %s, and the first event of the recording is at %s; at_us = 0 shows them from the start"
        findings.warning(step.node.get("at_us").at, step.name + ".at_us", message % (seconds(step.get("at_us")), seconds(first)))
    end = plan.document.get("end_us", 0)
    if 0 < end < last:
        message = "%s, and the last event of the recording is at %s: a run goes on to that" % (seconds(end), seconds(last))
        findings.warning(plan.document.node.get("end_us").at, "end_us", message)


def judge(findings, told, plan, recording):
    """Says what is wrong with the session among `findings`, and with the recording among `told`."""
    if other_kinds(told, recording):
        return
    paths(findings, told, plan, recording)
    devices(findings, told, plan, recording)
    moments(findings, plan, recording)
    early.judge(findings, plan, recording)
    gestures.judge(told, plan, recording)
