"""How many messages of a channel are received and finished, and when it is reported, computed from the moments of its
messages."""
from bisect import bisect_right

from .laws import need

WINDOW = 64
NEVER = 10**30


def delivered(times, delay, finishes):
    """When each message is published and received, and when it is finished. Of those that are not finished 64 are
    published: a later one waits for the finish of the 64th before it."""
    came, done = [], []
    for k, moment in enumerate(times):
        at = moment if k < WINDOW else max(moment, done[k - WINDOW])
        came.append(at)
        done.append(at + delay if finishes and at < NEVER else NEVER)
    return came, done


def named(came, done, limit, stop):
    """The ANRs of a channel up to a moment, as (clock, number), and beside each the finish that makes the channel
    able again. It is reported if it is able and its oldest unfinished message is there for the limit; a finish of
    that moment comes first. It is able again at a finish that leaves no message that is there for the limit."""
    names = []
    able = True
    for k, at in enumerate(came):
        if at > stop:
            break
        if able and at + limit < done[k] and at + limit <= stop:
            names.append([at + limit, k + 1, NEVER])
            able = False
        if done[k] > stop:
            break
        if not able and not (k + 1 < len(came) and came[k + 1] + limit <= done[k]):
            able = True
            names[-1][2] = done[k]
    return names


class Bounds:
    """Between which moments a run by moment ends: it ends with its last step, its last args, or where the session says.
    Which of the last lines give args is not known here."""

    def __init__(self, case, steps, told, last_line):
        planned = max([case.end] + [step[0] for step in steps])
        said = [int(c[2][-1].split(" ")[1]) for c in told[0] if c[2]] + [int(text.split(" ")[1]) for text in told[1]]
        self.least = max([planned] + said)
        self.most = max(planned, last_line)
        need(self.least <= self.most, "something is sent at %d, and the run ends at %d" % (self.least, self.most))


def counted(case, told, bounds, removed):
    """The counts and the ANRs of a run by moment. Returns for each channel its ANRs."""
    said = [tuple(int(n) for n in text.split(" ")[1:]) for text in told[1]]
    least, most = [], []
    of_channels = []
    for (number, name, messages, counts), (_, limit, delay, finishes) in zip(told[0], case.channels):
        came, done = delivered([int(m.split(" ")[1]) for m in messages], delay, finishes)
        first, last = (removed[name],) * 2 if name in removed else (bounds.least, bounds.most)
        for what, times, count in (("received", came, counts[1]), ("finished", done, counts[2])):
            low, high = bisect_right(times, first), bisect_right(times, last)
            need(low <= count <= high, "channel %d %s %d, and not %d to %d" % (number, what, count, low, high))
        least += [(at, number, k) for at, k, _ in named(came, done, limit * 1000, first)]
        names = named(came, done, limit * 1000, last)
        most += [(at, number, k) for at, k, _ in names]
        of_channels.append([name for name in names if (name[0], number, name[1]) in said])
    wanted = sorted(most)
    need(said == wanted[: len(said)] and len(said) >= len(least), "named are %s and not %s" % (said[:9], wanted[:9]))
    return of_channels
