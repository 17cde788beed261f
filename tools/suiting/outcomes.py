"""What came of a case, and how what it printed differs from what was wanted."""
import difflib
import re

# The lines of a difference that are shown, those that stand around one, and the lines in which one is looked for.
SHOWN, AROUND, LOOKED = 40, 2, 2000
ENDS = "wanted and printed differ in the ends of their lines alone"
HUNK = re.compile(r"@@ -(\d+)((?:,\d+)?) \+(\d+)((?:,\d+)?) @@")


class Outcome:
    """What came of a case: `passed`, `failed` or `skipped`, or `error` where it could not be tried; the first difference, the lines
    that show it, and the seconds that it took."""

    __slots__ = ("name", "state", "message", "lines", "seconds", "accepted")

    def __init__(self, name, state, message="", lines=(), seconds=0.0, accepted=False):
        self.name, self.state, self.message, self.lines = name, state, message, list(lines)
        self.seconds, self.accepted = seconds, accepted


def split(text):
    return text.decode("utf-8", "backslashreplace").splitlines()


def first_difference(wanted, found):
    """How many lines two texts have in common in front."""
    for at, (one, other) in enumerate(zip(wanted, found)):
        if one != other:
            return at
    return min(len(wanted), len(found))


def quoted(lines, at):
    if at >= len(lines):
        return "nothing"
    return '"%s"' % (lines[at] if len(lines[at]) <= 100 else lines[at][:97] + "...")


def moved(line, by):
    """A line of a difference, with its numbers as many lines further on."""
    found = HUNK.fullmatch(line)
    if not found or not by:
        return line
    return "@@ -%d%s +%d%s @@" % (int(found[1]) + by, found[2], int(found[3]) + by, found[4])


def difference(wanted, found):
    """The first difference of two texts that differ, as one line, and the lines that show it."""
    wanted, found = split(wanted), split(found)
    at = first_difference(wanted, found)
    if at == len(wanted) == len(found):
        return ENDS, [ENDS]
    message = "line %d: wanted %s, printed %s" % (at + 1, quoted(wanted, at), quoted(found, at))
    begin = max(0, at - AROUND)
    pieces = [lines[begin : begin + LOOKED] for lines in (wanted, found)]
    shown = [moved(line, begin) for line in difflib.unified_diff(*pieces, "wanted", "printed", lineterm="", n=AROUND)]
    left = max(len(wanted), len(found)) - begin - LOOKED
    if len(shown) > SHOWN or left > 0:
        more = max(0, len(shown) - SHOWN)
        shown[SHOWN:] = ["%d lines more%s" % (more, ", and %d that were not looked at" % left if left > 0 else "")]
    return message, shown


def judged(case, came, status, seconds, accept=False):
    """The outcome of a case that printed this text and ended with this status. With `accept` it becomes what is wanted."""
    wanted = case.wanted()
    if wanted is None and not accept:
        return Outcome(case.name, "skipped", "no wanted.txt", (), seconds)
    messages, lines = [], []
    if status != case.status():
        messages.append("status %d, wanted %d" % (status, case.status()))
        lines = list(messages)
    if wanted is None:
        messages.append("no wanted.txt")
    if came != (wanted or b""):
        message, shown = difference(wanted or b"", came)
        messages.append(message)
        lines += shown
    if messages and accept:
        case.accept(came, status)
        return Outcome(case.name, "passed", "; ".join(messages), lines, seconds, True)
    return Outcome(case.name, "failed" if messages else "passed", "; ".join(messages), lines, seconds)
