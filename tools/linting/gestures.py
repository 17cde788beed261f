"""Gestures of a recording that are not whole, or not those of fingers."""
from plain_ends import counted

from .findings import seconds
from .recording import SYN, SYN_MT_REPORT

FEWEST_JUMPS = 2


def judge(told, plan, recording):
    for device in plan.devices:
        source = recording.sources.get(device.get("path"))
        if source is None or not source.events:
            continue
        if device.get("kind") == "touch" and source.contacts.first_down is not None and not source.has(SYN, SYN_MT_REPORT):
            fingers(told, source)
            jumps(told, source)
        elif device.get("kind") == "keys":
            keys(told, source)


def fingers(told, source):
    contacts = source.contacts
    if contacts.strangers:
        message = "it begins in mid-gesture: %s of %s %s already down, and the program does not see %s"
        one = len(contacts.strangers) == 1
        count = counted(len(contacts.strangers), "finger")
        told.warning((1, 1), "", message % (count, source.path, "is" if one else "are", "it" if one else "them"))
    if contacts.down:
        slots = "slot%s " % ("" if len(contacts.down) == 1 else "s") + ", ".join(map(str, sorted(contacts.down)))
        message = "it ends in mid-gesture: %s of %s %s still down, in %s"
        count = counted(len(contacts.down), "finger")
        told.warning((1, 1), "", message % (count, source.path, "is" if len(contacts.down) == 1 else "are", slots))


def jumps(told, source):
    found = source.contacts.jumps
    if len(found) >= FEWEST_JUMPS:
        moment, before, after = found[0]
        message = "fingers of %s jump in %d packets without ABS_MT_SLOT, first at %s from (%d, %d) to (%d, %d): do several fingers share a slot?"
        told.warning((1, 1), "", message % (source.path, len(found), seconds(moment), *before, *after))


def keys(told, source):
    for codes, words in ((source.keys.strangers, "begins while %s down"), (source.keys.down, "ends while %s down")):
        if codes:
            listed = ", ".join("%d (0x%x)" % (code, code) for code in sorted(codes)[:8]) + (".." if len(codes) > 8 else "")
            which = "key %s of %s is" if len(codes) == 1 else "keys %s of %s are"
            told.warning((1, 1), "", "it " + words % (which % (listed, source.path)))
