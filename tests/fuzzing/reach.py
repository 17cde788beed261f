"""Laws of what reads streams again: `batch` and `emit`. What each of them has to say is computed from the stream."""
import re

from .judging import lines_of, written
from .laws import MOTION, ends_so, marks_of, moments, need

MOST = 10**18


def parted(before, after, frame):
    """Whether two moves of a device that follow one another come in two batches: a frame begins between them, or they
    list other fingers."""
    ids = [re.findall(r"(\d+)@", text) for text in (before[2], after[2])]
    return ids[0] != ids[1] or before[1] // frame != after[1] // frame


def items_of(messages, frame):
    """The items of a section. A batch is given out where the first message behind it begins another frame, then where
    its device says something else, and at the end; one of 256 moves at once."""
    items = []
    open_ones = {}
    times = moments(messages)

    def give(device):
        batch = open_ones.pop(device)
        items.append("batch %d-%d %s %d" % (batch[0][0], batch[-1][0], device, len(batch)))

    for number, (text, moment) in enumerate(zip(messages, times), 1):
        for device in sorted(d for d, batch in open_ones.items() if batch[-1][1] // frame < moment // frame):
            give(device)
        match = MOTION.fullmatch(text)
        device = match and match.group(3)
        this = (number, moment, text)
        moves = match and match.group(4) == "MOVE" and not marks_of(text)
        if device in open_ones and not (moves and not parted(open_ones[device][-1], this, frame)):
            give(device)
        if not moves:
            items.append("one %d" % number)
            continue
        open_ones.setdefault(device, []).append(this)
        if len(open_ones[device]) == 256:
            give(device)
    for device in sorted(open_ones):
        give(device)
    return items


def batched(program, case, told):
    """The messages of the streams, as an application takes them."""
    frame = case.drawn("batched").choice((1, 100, 16667, 10**9))
    words = ["--stream", program.file("stream.txt", written(told)), "--frame", str(frame)]
    wanted = []
    for number, _, messages, _ in told[0]:
        items = items_of(messages, frame)
        wanted += ["channel %d" % number] + items + ["items %d" % len(items)]
    said = program.text(["batch"] + words).decode("ascii").split("\n")
    for k, (one, other) in enumerate(zip(said, wanted + [""]), 1):
        need(one == other, "line %d of the batches is %s, and not %s" % (k, one, other))
    need(len(said) == len(wanted) + 1, "the batches have %d lines, and not %d" % (len(said), len(wanted) + 1))


def packets_of(lines, device):
    """What is down after each motion of a device that takes part in its gestures: (line, moment, ids with their
    places)."""
    packets = []
    for line, text in lines:
        match = MOTION.fullmatch(text)
        if not match or int(match.group(3)) != device or match.group(4) == "OUTSIDE":
            continue
        at = [tuple(map(int, re.split("[@,]", pointer))) for pointer in match.group(7).split(" ")]
        if match.group(4) == "POINTER_UP":
            del at[int(match.group(5))]
        elif match.group(4) in ("UP", "CANCEL"):
            at = []
        packets.append((line, int(match.group(2)), {pointer: (x, y) for pointer, x, y in at}))
    return packets


def refusal(lines, device):
    """How a stream is refused that is to be written as a recording, or "". Ids that come have to be the least that
    are free; no event is at the last moment of all."""
    if lines is None:
        return "stream: NoChannel\n"
    before = set()
    for line, moment, wanted in packets_of(lines, device):
        if moment == MOST:
            return "stream: TooLate %d\n" % line
        new = set(wanted) - before
        if new != set(sorted(set(range(32)) - before)[: len(new)]):
            return "stream: NotAssignable %d\n" % line
        before = set(wanted)
    return ""


def gesture(last, now):
    """The motions between two packets, as text behind the device: ups, a move where a kept finger moved, downs."""

    def said(action, ids, pointer, places):
        listed = " ".join("%d@%d,%d" % ((n,) + places[n]) for n in ids)
        single = len(ids) == 1
        return "%s %s" % (action if single else "POINTER_%s:%d" % (action, ids.index(pointer)), listed)

    moved = "MOVE " + " ".join("%d@%d,%d" % ((n,) + now[n]) for n in sorted(now) if n in last)
    if set(last) == set(now):
        return [moved] if now else []
    gone, kept, new = (sorted(ids) for ids in (set(last) - set(now), set(last) & set(now), set(now) - set(last)))
    texts = [said("UP", sorted(gone[k:] + kept), n, {**last, **now}) for k, n in enumerate(gone)]
    texts += [moved] if any(last[n] != now[n] for n in kept) else []
    return texts + [said("DOWN", sorted(kept + new[: k + 1]), n, now) for k, n in enumerate(new)]


def back(lines, device):
    """The text of one window over a display of 16384 pixels that is sent a stream again: each motion is a packet."""
    messages = []
    last = {}
    for _, moment, wanted in packets_of(lines, device):
        now = {n: tuple(min(max(c, 0), 16383) for c in at) for n, at in wanted.items()}
        for text in gesture(last, now):
            messages.append("%d %d motion 1 %s" % (len(messages) + 1, moment, text))
        last = now
    return written(([(1, "all", messages, (len(messages),) * 3)], []))


AGAIN = (
    '[display]\nwidth = 16384\nheight = 16384\n[[device]]\nkind = "touch"\npath = "/dev/input/event0"\nslots = 16\n'
    'x = [0, 16383]\ny = [0, 16383]\n[[channel]]\nname = "all"\n[[step]]\nat_us = 0\ndo = "windows"\n'
    'windows = [ { channel = "all", frame = [0, 0, 16384, 16384] } ]\n'
)


def other_ids(told, rng):
    """The same streams with other ids, which rise as the ones before do."""
    most = max([int(n) for c in told[0] for m in c[2] for n in re.findall(r"\b(\d+)@", m)], default=0)
    ids = sorted(rng.sample(range(32), 32 - min(rng.choice((0, 1, 2, 31)), 31 - most)))
    change = lambda m: re.sub(r"\b(\d+)@", lambda match: "%d@" % ids[int(match.group(1))], m)
    return [(c[0], c[1], [change(m) for m in c[2]], c[3]) for c in told[0]], told[1]


def later(told):
    """The same streams with all moments so much later that the last one is the last moment of all."""
    last = max([max(moments(c[2])) for c in told[0] if c[2]], default=0)
    change = lambda m: "%s %d %s" % (m.split(" ")[0], int(m.split(" ")[1]) + MOST - last, m.split(" ", 2)[2])
    return [(c[0], c[1], [change(m) for m in c[2]], c[3]) for c in told[0]], told[1]


def emitted(program, case, told):
    """A gesture of a stream as events, which one window over a display of its own is then told; and which are
    refused."""
    rng = case.drawn("emitted")
    texts = [told]
    texts += [other_ids(told, rng)] if rng.random() < 0.5 else []
    texts += [later(told)] if rng.random() < 0.5 else []
    for changed in texts:
        program.verify(written(changed))
        pairs = [(c[0], d) for c in changed[0] for d in range(1, len(case.devices) + 1)]
        pairs = [(n, d) for n, d in pairs if packets_of(lines_of(changed, n), d)]
        pairs = rng.sample(pairs, min(len(pairs), 6)) + [(rng.randint(1, 64), rng.randint(1, 8))]
        for number, device in pairs:
            lines = lines_of(changed, number)
            stream = program.file("stream.txt", written(changed))
            run = program.run(["emit", "--stream", stream, "--channel", str(number), "--device", str(device)])
            line = refusal(lines, device)
            ends_so(run, 1 if line else 0, line)
            if not line:
                out = program.replay(AGAIN.encode(), run[1])
                need(out == back(lines, device), "what was emitted for channel %d is sent as %r" % (number, out[:300]))
