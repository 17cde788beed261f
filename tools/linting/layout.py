"""Key layouts, as a device of keys has one in its `layout`."""
import re

from . import known
from .findings import nearest, shown

OTHERS = ("axis", "led", "sensor", "requires_kernel_config")


def lines_of(node):
    """The lines of a text node, each with its number, its place, and its words in front of a comment."""
    at = 0
    for number, line in enumerate(node.value.split("\n"), 1):
        ended = at + len(line) < len(node.value)
        place = node.place_of(at)
        text = line[:-1] if ended and line.endswith("\r") else line
        yield number, place, re.findall(r"[^ \t]+", text.partition("#")[0])
        at += len(line) + 1


def scan_of(word):
    """The scan code that a word writes, or None."""
    if re.fullmatch("0x[0-9A-Fa-f]+", word):
        scan = int(word[2:], 16)
    elif re.fullmatch("[0-9]+", word):
        scan = int(word.lstrip("0")[:9] or "0")
    else:
        return None
    return scan if scan < 65536 else None


def wrong_line(words, found):
    """What is wrong with a line, or None. What it says of a key goes to `found`: the name by the scan code."""
    if not words or words[0] in OTHERS or words[:2] == ["key", "usage"]:
        return None
    if words[0] != "key":
        return "a line begins with key, axis, led, sensor or requires_kernel_config, not with %s%s" % (
            shown(words[0]),
            nearest(words[0], ("key",) + OTHERS),
        )
    if len(words) < 3:
        return "a line is `key SCAN NAME`"
    scan = scan_of(words[1])
    if scan is None:
        return "%s is no scan code from 0 to 65535" % shown(words[1])
    if not re.fullmatch("[A-Z0-9_]+", words[2]):
        return "%s is no name of capital letters, digits and underscores%s" % (
            shown(words[2]),
            nearest(words[2].removeprefix("KEYCODE_"), known.KEY_NAMES),
        )
    if scan in found:
        return "scan code %s stands twice" % words[1]
    found[scan] = words[2]
    return None


def judge(findings, key, device, node):
    """The names of a layout by their scan codes; says what is wrong with its lines."""
    found = {}
    for number, place, words in lines_of(node):
        before = len(found)
        wrong = wrong_line(words, found)
        if wrong:
            findings.error(place, key, "line %d: %s" % (number, wrong), "session: BadLayout %d %d" % (device, number))
        elif len(found) > before and words[2] not in known.KEY_NAMES:
            hint = nearest(words[2].removeprefix("KEYCODE_"), known.KEY_NAMES)
            findings.warning(place, key, "line %d: no key code is known for %s: it gives 0%s" % (number, shown(words[2]), hint))
    return found
