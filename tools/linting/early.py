"""Steps of a session that come before the events that they are about, and so change nothing."""
from .covering import in_order
from .findings import seconds, shown


def judge(findings, plan, recording):
    of_session = {device.get("path") for device in plan.devices}
    sources = [source for source in recording.known_sources() if source.path in of_session]
    if not sources:
        return
    first = min(source.first for source in sources)
    before = [step for step in in_order(plan) if step.get("at_us") <= first]
    replaced(findings, before, first)
    removed(findings, before, first)
    pilfered(findings, plan, recording)


def replaced(findings, before, first):
    """Windows in whose place others stand before the first event."""
    shows = [step for step in before if step.get("do") == "windows"]
    for step, later in zip(shows, shows[1:]):
        message = "%s replaces these windows at %s, and the first event of the recording is at %s: no event reaches them"
        at = step.node.get("windows").at
        findings.warning(at, step.name + ".windows", message % (later.name, seconds(later.get("at_us")), seconds(first)))


def removed(findings, before, first):
    """Channels that are closed before the first event."""
    for step in before:
        if step.get("do") == "remove" and step.get("channel") is not None:
            message = '"%s" is removed at %s, and the first event of the recording is at %s: it is sent nothing'
            message %= (shown(step.get("channel")), seconds(step.get("at_us")), seconds(first))
            findings.warning(step.node.get("channel").at, step.name + ".channel", message)


def pilfered(findings, plan, recording):
    """Pilfers before a finger of their device went down."""
    for step in in_order(plan):
        number = step.get("device")
        if step.get("do") != "pilfer" or number is None or plan.devices[number - 1].get("kind") != "touch":
            continue
        source = recording.sources.get(plan.devices[number - 1].get("path"))
        if source is None or not source.is_touch():
            continue
        down = source.contacts.first_down
        if down is not None and step.get("at_us") <= down:
            message = "%s, and the first finger of device %d goes down at %s: there is nothing to pilfer"
            message %= (seconds(step.get("at_us")), number, seconds(down))
            findings.warning(step.node.get("at_us").at, step.name + ".at_us", message)
