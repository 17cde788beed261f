"""The forms of the lines of `why`, and what their words say."""
import re

from .laws import need

SET = r"((?:\d+,)*\d+|-)"
ONE = r"(\d+|-)"
# A window by its channel; walls have none.
WALL = 0
WINDOW = r"(\d+|wall|-)"
AT = r"(\d) (\d+) (-?\d+),(-?\d+)"
LOST = r"((?:(?:key )?\d:[\d,]+ ?)+(?<! )|-)"
SETS = r" spies %s pilfering %s given %s mute %s outside %s((?: blocked \d+ by (?:[\d,]+(?: wall)?|- wall))*)" % ((SET,) * 5)
# The lines by their first words.
FORMS = {
    "windows": r"windows((?: (?:\d+|wall)@\d(?::-?\d+|,-?\d+)+)*)",
    "down": r"down %s touched %s row (\w+) chosen %s" % (AT, WINDOW, WINDOW) + SETS,
    "slip": r"slip %s from (\d+) to (\d+)" % AT,
    "up": r"(up) (\d) (\d+) from %s" % SET,
    "palm": r"(palm) (\d) (\d+) from %s" % SET,
    "reset": r"reset (\d) from %s" % SET,
    "key": r"key (\d) (\d+) (?:down target %s given %s|up from %s|repeat (\d+) to (\d+))" % (ONE, ONE, ONE),
    "pilfer": r"pilfer (\d+) (\d) (?:%s from %s|(Gone|NotSpy|NothingHeld))" % (SET, SET),
    "timeout": r"timeout (\d+) (\d+) %s" % LOST,
    "responsive": r"responsive (\d+)",
    "removed": r"removed (\d+) (?:(Gone)|%s)" % LOST,
    "request": r"request (\d) %s" % ONE,
    "gone": r"gone (\d+) %s" % LOST,
    "focus": r"focus (\d) %s %s" % (ONE, ONE),
    "target": r"target %s %s" % (ONE, ONE),
}
FORMS = {word: re.compile(form) for word, form in FORMS.items()}
# Lines that belong to the step of the line before them, in this order.
BEHIND = ("gone", "focus", "target")


def one(word):
    return None if word in (None, "-") else WALL if word == "wall" else int(word)


def rising(word):
    """The numbers of a set, which rise."""
    listed = [] if word == "-" else [int(n) for n in word.split(",")]
    need(all(a < b for a, b in zip(listed, listed[1:])), "the set %s does not rise" % word)
    return listed


def lost(words):
    """The pointers and the keys of `<lost>`, each as (device, number): a set of each device with pointers, and then each key."""
    items = re.findall(r"(key )?(\d):([\d,]+)", words)
    pairs = [(bool(key), int(device), n) for key, device, listed in items for n in rising(listed)]
    need(pairs == sorted(set(pairs)), "what is lost does not rise: %s" % words)
    return {pair[1:] for pair in pairs if not pair[0]}, {pair[1:] for pair in pairs if pair[0]}
