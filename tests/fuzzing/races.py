"""Laws of `race` and `check`: what a printed order has to be, and what a shorter order gives."""
import re

from .laws import ends_so, first_ones, moments, need, owner_of, sections
from .recording import down_after, read
from .replayed import left, named_so

CALL = re.compile(r"r|p|k|s ([1-8])|g (\d+)|f (\d+) (\d+)")
LANES = range(1, 9)


class Order:
    """The lines of an order, and what they ask for."""

    def __init__(self, case, calls):
        self.calls = calls
        self.lanes = {lane: [] for lane in LANES}
        for step in sorted(case.steps, key=lambda step: step[0]):
            self.lanes[step[1]].append(step)

    def text(self, count=None):
        calls = self.calls[:count]
        return "".join(call + "\n" for call in ["order %d" % len(calls)] + calls).encode()

    def removals(self):
        """How many calls are made before each removal of a channel, the first one of each."""
        made = {lane: iter(steps) for lane, steps in self.lanes.items()}
        removed = {}
        for place, call in enumerate(self.calls):
            if call.startswith("s "):
                step = next(made[int(call[2:])])
                if step[2] == "remove":
                    removed.setdefault(step[3], place)
        return removed


def fits(case, told, removed, down):
    """What holds of the streams of any order: each message may come where it stands, at the moment of a step or of a
    line of the recording, and what is down at the end may be so."""
    named_so(case, told)
    known = {0} | {step[0] for step in case.steps} | {event[0] for event in read(case.recording)[0]}
    owners = {name: owner_of(messages) for _, name, messages, _ in told[0]}
    for number, _, messages, (sent, received, finished) in told[0]:
        wrong = set(moments(messages)) - known
        need(not wrong, "channel %d is sent something at %s" % (number, sorted(wrong)[:3]))
        need(received <= finished + 64, "channel %d took %d and finished %d" % (number, received, finished))
    left(case, owners, removed, down)


def first_calls(program, case, order, told, count, removed):
    """The first calls of an order give the first messages; what a channel is sent, it is sent before its removal."""
    short = program.check(case, order.text(count))
    first_ones(short, told, "after %d calls" % count)
    for one, other in zip(short[0], told[0]):
        need(all(a <= b for a, b in zip(one[3], other[3])), "after %d calls the counts are higher" % count)
        if removed.get(one[1], count + 1) <= count:
            need(one == other, "channel %d was removed, and is not left alone: %s, %s" % (one[0], one[3], other[3]))
    return short


def args_of(program, case, count):
    """The recording has so many args: an order can ask for all of them, and not for one more."""
    order = Order(case, ["r"] * count)
    program.check(case, order.text())
    order.calls.append("r")
    words = ["check"] + program.files(case.session, case.recording)
    words += ["--order", program.file("order.txt", order.text())]
    ends_so(program.run(words), 1, "order: NoStep %d\n" % (count + 2))


def raced(program, case, _):
    """A race: its order has each args and each step once, what owners are given is finished once where they finish, all
    is settled, and `check` gives its streams, also those of its first calls."""
    words = program.files(case.session, case.recording)
    out = program.race or program.text(["race"] + words)
    program.file("race.txt", out)
    program.verify(out)
    head, rest = out.split(b"\n", 1)
    need(re.fullmatch(rb"order (0|[1-9]\d*)", head), "it begins with %r" % head)
    count = int(head[6:])
    *calls, text = rest.split(b"\n", count)
    order = Order(case, [call.decode("ascii") for call in calls])
    need(len(calls) == count and all(CALL.fullmatch(call) for call in order.calls), "a line of the order is none")
    for lane, steps in order.lanes.items():
        made = order.calls.count("s %d" % lane)
        need(made == len(steps), "lane %d has %d steps, and made %d" % (lane, len(steps), made))
    words += ["--order", program.file("order.txt", out)]
    need(program.text(["check"] + words) == text, "check on the order of race gives other streams")
    told = sections(text)
    removed = order.removals()
    fits(case, told, removed, down_after(case.devices, read(case.recording)[0]))
    settled(case, order, told, removed)
    args_of(program, case, order.calls.count("r"))
    rng = case.drawn("raced")
    for place in [rng.randint(0, count)] + sorted(removed.values())[:3]:
        first_calls(program, case, order, told, place, removed)


def settled(case, order, told, removed):
    """Owners received what they were sent, and finished it if they finish."""
    taken, finished = {}, {}
    for call in order.calls:
        match = CALL.fullmatch(call)
        if match.group(2):
            taken[match.group(2)] = taken.get(match.group(2), 0) + 1
        elif match.group(3):
            finished.setdefault(match.group(3), []).append(int(match.group(4)))
    numbers = {str(number) for number in range(1, len(case.channels) + 1)}
    need(set(taken) | set(finished) <= numbers, "the order speaks of other channels")
    for (number, name, _, counts), (_, _, _, finishes) in zip(told[0], case.channels):
        said = finished.get(str(number), [])
        need(finishes or not said, "messages of channel %d are finished" % number)
        need(len(set(said)) == len(said), "a message of channel %d is finished twice" % number)
        given = set(range(1, counts[1] + 1))
        need(set(said) <= given, "a message of channel %d is finished that it was not given" % number)
        need(counts[1] <= taken.get(str(number), 0), "channel %d took more than it asked for" % number)
        if name in removed:
            need(counts[2] <= len(said), "channel %d finished more than it said" % number)
            continue
        all_of_them = counts[0] if finishes else min(counts[0], 64)
        wanted = (counts[0], all_of_them, all_of_them if finishes else 0)
        need(counts == wanted and len(said) == counts[2], "channel %d is not settled: %s" % (number, counts))


def in_turn(program, case, told):
    """Where steps come first and nobody is late, the same is sent as by `replay` where all steps are made, and then
    each args is handed in and dispatched."""
    if not case.plain:
        return
    calls = ["s 1"] * len(case.steps) + ["r", "p"] * len(case.lines)
    words = ["check"] + program.files(case.session, case.recording)
    run = program.run(words + ["--order", program.file("order.txt", Order(case, calls).text())])
    if run[0] == 1:
        line = int(run[2].split(b" ")[-1])
        ends_so(run, 1, "order: NoStep %d\n" % line)
        calls = calls[: line - 2]
    short = program.check(case, Order(case, calls).text())
    for one, other in zip(short[0], told[0]):
        need(one[2] == other[2], "in turn channel %d is sent %s, and not %s" % (one[0], one[2][-2:], other[2][-2:]))


def made(case, rng):
    """An order from a number: it asks for steps that there are, for args that there may be, and for anything else."""
    order = Order(case, [])
    waiting = {lane: len(steps) for lane, steps in order.lanes.items()}
    for _ in range(rng.choice((5, 40, 150))):
        lanes = [lane for lane in LANES if waiting[lane]]
        kind = rng.choice("rrrppppkgggffssss")
        channel = rng.randint(0, len(case.channels) + 1)
        if kind == "s" and lanes:
            lane = rng.choice(lanes)
            waiting[lane] -= 1
            order.calls.append("s %d" % lane)
        elif kind == "g":
            order.calls.append("g %d" % channel)
        elif kind == "f":
            order.calls.append("f %d %d" % (channel, rng.choice((0, 1, 1, 2, 3, 4, 2**64 - 1))))
        elif kind != "s":
            order.calls.append(kind)
    return order


def with_args(program, case, order):
    """Leaves out the args that the recording does not have, for which the order is refused first."""
    words = ["check"] + program.files(case.session, case.recording)
    run = program.run(words + ["--order", program.file("order.txt", order.text())])
    if run[0] == 0:
        return
    line = int(run[2].split(b" ")[-1])
    ends_so(run, 1, "order: NoStep %d\n" % line)
    need(order.calls[line - 2] == "r", "line %d asks for %s, which there is" % (line, order.calls[line - 2]))
    args_of(program, case, order.calls[: line - 2].count("r"))
    order.calls = order.calls[: line - 2] + [call for call in order.calls[line - 2 :] if call != "r"]


def ordered(program, case, _):
    """An order that is made here, and its first calls."""
    rng = case.drawn("ordered")
    order = made(case, rng)
    with_args(program, case, order)
    told = program.check(case, order.text())
    removed = order.removals()
    fits(case, told, removed, None)
    for number, _, _, (_, received, finished) in told[0]:
        asked = order.calls.count("g %d" % number)
        ended = len({call for call in order.calls if call.startswith("f %d " % number)})
        few = received <= asked and finished <= ended
        need(few, "channel %d took %d of %d and finished %d of %d" % (number, received, asked, finished, ended))
    for place in [rng.randint(0, len(order.calls))] + sorted(removed.values())[:2]:
        first_calls(program, case, order, told, place, removed)
