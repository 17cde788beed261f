"""What the tests of the page look at: files of this tree, and bars that are counted from texts and on the page."""
import collections
import os
import sys

TOP = os.path.dirname(os.path.dirname(os.path.dirname(os.path.abspath(__file__))))

Counts = collections.namedtuple("Counts", "bars red open")


def equal(what, got, wanted):
    if got != wanted:
        sys.exit("viewer: %s: %r, wanted %r" % (what, got, wanted))


def text_of(*names):
    with open(os.path.join(TOP, *names), encoding="latin-1", newline="") as file:
        return file.read()


def counted(text):
    """The fingers that go down in a text, those of them that are cancelled, and those that are still down at the end of their section."""
    bars = red = 0
    down = set()
    held = 0
    for line in text.split("\n"):
        words = line.split(" ")
        if words[0] == "channel":
            down = set()
        elif words[0] == "end":
            held += len(down)
        elif len(words) > 4 and words[2] == "motion":
            action, _, index = words[4].partition(":")
            canceled = words[5] == "canceled"
            ids = [(words[3], word.split("@")[0]) for word in words[5:] if "@" in word]
            one = ids[int(index or 0)]
            if action in ("DOWN", "POINTER_DOWN"):
                bars += 1
                down.add(one)
            elif action in ("UP", "POINTER_UP"):
                red += canceled
                down.discard(one)
            elif action == "CANCEL":
                red += len(ids)
                down -= set(ids)
    return Counts(bars, red, held)


def shown_counts(page):
    fingers = page.run("viewer.counts()")["finger"]
    return Counts(fingers["bars"], fingers["canceled"], fingers["open"])
