"""Laws of what judges streams: `verify`, `judge` and `compare`. What each of them has to say is computed from the
streams."""
import re

from .damage import damaged
from .laws import KEY, MARKS, MOTION, ending, ends_so, marks_of, need, owner_of
from .make import SCANS, line
from .recording import down_after, read
from .replays import again

# Why a motion may not come a second time at once.
TWICE = {
    "DOWN": "AlreadyDown",
    "POINTER_DOWN": "AlreadyDown",
    "POINTER_UP": "OtherPointers",
    "UP": "NothingDown",
    "CANCEL": "NothingDown",
}


def lines_of(told, number):
    """The messages of the first section of a channel with their lines in the file, or None where there is no such
    section."""
    line_before = 1
    for channel, _, messages, _ in told[0]:
        if channel == number:
            return [(line_before + k, text) for k, text in enumerate(messages, 1)]
        line_before += len(messages) + 2
    return None


def written(told):
    """A text of streams, from its sections."""
    text = ""
    for number, name, messages, counts in told[0]:
        text += "channel %d %s\n" % (number, name) + "".join(m + "\n" for m in messages)
        text += "end %d sent %d received %d finished %d\n" % ((number,) + counts)
    return (text + "".join(naming + "\n" for naming in told[1])).encode()


def numbered(messages):
    return ["%d %s" % (k, text.split(" ", 1)[1]) for k, text in enumerate(messages, 1)]


def with_messages(told, k, messages):
    """The same streams with other messages in the section at a place."""
    number, name, _, counts = told[0][k]
    section = (number, name, numbered(messages), (len(messages),) + counts[1:])
    return told[0][:k] + [section] + told[0][k + 1 :], told[1]


def why_twice(text):
    """Why a message may not come a second time at once."""
    motion, key = MOTION.fullmatch(text), KEY.fullmatch(text)
    if motion:
        return TWICE[motion.group(4)]
    if key:
        return "KeyNotDown" if key.group(8) is None else "RepeatOutOfTurn"
    return "FocusTwice"


def judges(program, case, told):
    """A message twice, of those that cannot come twice, is the first that is not well-formed, and so is a touch outside with a mark; a line
    with a blank behind it is no line. Of the streams as they are it reports which section leaves something down."""
    ends_so_judged(program, told)
    rng = case.drawn("judges")
    outside_with_marks(program, told, rng)
    twice = r"\d+ \d+ (motion \d (DOWN|POINTER_DOWN:\d+|POINTER_UP:\d+|UP|CANCEL)\b|key|focus).*"
    places = [(k, j) for k, c in enumerate(told[0]) for j, m in enumerate(c[2]) if re.fullmatch(twice, m)]
    if not places:
        return
    k, j = rng.choice(places)
    number, _, messages, _ = told[0][k]
    bad = lines_of(told, number)[j][0] + 1
    text = written(with_messages(told, k, messages[: j + 1] + messages[j:]))
    program.refuses(text, "stream: NotWellFormed %d\n" % bad)
    ends_so(program.judge(text), 1, "stream: Broken %d %s\n" % (bad, why_twice(messages[j])))
    lines = text.split(b"\n")
    at = rng.randrange(len(lines) - 1)
    lines[at] += b" "
    refusal = "stream: BadLine %d\n" % (at + 1)
    program.refuses(b"\n".join(lines), refusal)
    ends_so(program.judge(b"\n".join(lines)), 1, refusal)
    as_verified(program, damaged(rng, written(told)))


def outside_with_marks(program, told, rng):
    """A touch outside may not have a mark."""
    places = [(k, j) for k, c in enumerate(told[0]) for j, m in enumerate(c[2]) if " OUTSIDE " in m]
    if not places:
        return
    k, j = rng.choice(places)
    number, _, messages, _ = told[0][k]
    text = written(with_messages(told, k, messages[:j] + [other_marks(messages[j], rng)] + messages[j + 1 :]))
    bad = lines_of(told, number)[j][0]
    program.refuses(text, "stream: NotWellFormed %d\n" % bad)
    ends_so(program.judge(text), 1, "stream: Broken %d Flags\n" % bad)


def as_verified(program, text):
    """`judge` refuses each text that `verify` refuses, in the same line."""
    verified = program.run(["verify", "--stream", program.file("stream.txt", text)])
    run = program.judge(text)
    ending(verified, {0, 1})
    ending(run, {verified[0], 1})
    line_of = verified[2].replace(b"NotWellFormed", b"Broken").removesuffix(b"\n")
    need(run[2].startswith(line_of), "verify says %r, and judge %r" % (verified[2], run[2]))


def still_down(messages):
    """What these messages leave down, as text."""
    owner = owner_of(messages)
    fingers = [" %s:%s" % (device, ",".join(map(str, ids))) for device, ids in sorted(owner.down.items()) if ids]
    keys = sorted((int(device), int(scan)) for device, scan in owner.keys)
    return "".join(fingers) + "".join(" key %d:%d" % key for key in keys)


def ends_so_judged(program, told):
    """`judge` of well-formed streams: the first section that leaves something down, or nothing, or each section."""
    end = 0
    text = refusal = ""
    for number, _, messages, _ in told[0]:
        end += len(messages) + 2
        down = still_down(messages)
        if down and not refusal:
            refusal = "stream: StillDown %d%s\n" % (end, down)
        text += "channel %d whole %d\n" % (number, len(messages))
    count = sum(len(c[2]) for c in told[0])
    refusal = refusal or ("" if count else "stream: Nothing\n")
    run = program.judge(written(told))
    ends_so(run, 1 if refusal else 0, refusal)
    wanted = "" if refusal else text + "judged %d %d\n" % (len(told[0]), count)
    need(run[1] == wanted.encode(), "judge says %r and not %r" % (run[1], wanted))


def let_go(case):
    """Lines behind the recording, by which all fingers and keys of all devices go up."""
    us = max((event[0] for event in read(case.recording)[0]), default=0) + 8000
    lines = ""
    for kind, path, slots, _, _, _ in case.devices:
        if kind == "keys":
            lines += "".join(line(us, path, 1, scan, 0) for scan in SCANS)
        else:
            lines += "".join(line(us, path, 3, 47, slot) + line(us, path, 3, 57, -1) for slot in range(slots))
        lines += line(us, path, 0, 0, 0)
    return lines.encode()


def all_up(program, case, told):
    """Without removals, and where all goes up on the devices at the end, all streams are whole, or there is nothing."""
    recording = case.recording + let_go(case)
    down = down_after(case.devices, read(recording)[0])
    need(not any(state.fingers or state.keys for state in down), "something stays down on a device")
    steps = [step for step in case.steps if step[2] != "remove"]
    run = program.judge(written(again(program, case, steps, recording)))
    ends_so(run, 0 if run[0] == 0 else 1, "" if run[0] == 0 else "stream: Nothing\n")


def points(told):
    """The places of all messages that are no move: the section, the message, and the line."""
    for k, (number, _, messages, _) in enumerate(told[0]):
        for j, (at, text) in enumerate(lines_of(told, number)):
            match = MOTION.fullmatch(text)
            if not match or match.group(4) != "MOVE":
                yield k, j, at


def compared(program, case, told):
    """A text is the same as itself, as one without its moves, and as one with a point that is off by no more than is
    allowed, and `compare` says how far that is; a point that is off by one more, has another id, or is not there, is reported
    with its line. With each move a point, moves are missing in a text without them; a channel of it is the same as its
    own section alone."""
    rng = case.drawn("compared")
    places = list(points(told))
    text = written(told)

    def same(us, pixels):
        return "same %d %d us %d pixels %d\n" % (len(told[0]), len(places), us, pixels)

    bare = [(c[0], c[1], [m for m in c[2] if " MOVE " not in m]) for c in told[0]]
    bare = [(number, name, numbered(messages), (len(messages), 0, 0)) for number, name, messages in bare]
    for other in (text, written((bare, []))):
        both_ways(program, text, other, (0, 0), same(0, 0), same(0, 0))
    each_move(program, told, text, written((bare, [])))
    of_a_channel(program, told, text, places, rng)
    gone = rng.randrange(len(told[0]))
    line_of = 1 + sum(len(c[2]) + 2 for c in told[0][:gone])
    less = written((told[0][:gone] + told[0][gone + 1 :], told[1]))
    both_ways(program, text, less, (0, 0), "compare: NoSection %d\n" % line_of, "compare: NewSection %d\n" % line_of)
    if not places:
        return
    k, j, at = rng.choice(places)
    messages = told[0][k][2]
    differs = "compare: Differs %d %d %%s\n" % (at, at)

    def changed(message):
        return written(with_messages(told, k, messages[:j] + [message] + messages[j + 1 :]))

    off = rng.choice((1, 7, 1000, 10**9))
    seq, moment, rest = messages[j].split(" ", 2)
    late = changed("%s %d %s" % (seq, int(moment) + off, rest))
    both_ways(program, text, late, (off, 0), same(off, 0), same(off, 0))
    both_ways(program, text, late, (off - 1, 16384), differs % ("time %d" % off), differs % ("time %d" % -off))
    if MOTION.fullmatch(messages[j]):
        moved_or_another(program, text, changed, messages[j], differs, same, rng)
    last = max(place[1] for place in places if place[0] == k)
    short = written(with_messages(told, k, messages[:last] + messages[last + 1 :]))
    at += last - j
    both_ways(program, text, short, (10**9, 16384), "compare: Missing %d\n" % at, "compare: Added %d\n" % at)


def moved_or_another(program, text, changed, message, differs, same, rng):
    """A finger of a point is some pixels away, or is another one."""
    head, *listed = re.split(r" (?=\d+@)", message)
    at = rng.randrange(len(listed))
    number, *place = (int(n) for n in re.split("[@,]", listed[at]))
    off = rng.choice((1, 3, 16384))
    away = [0, 0]
    away[rng.randrange(2)] = rng.choice((off, -off))
    place = [a + b for a, b in zip(place, away)]
    there = changed(" ".join([head] + listed[:at] + ["%d@%d,%d" % (number, *place)] + listed[at + 1 :]))
    both_ways(program, text, there, (0, off), same(0, off), same(0, off))
    said = [differs % ("place %d,%d" % (sign * away[0], sign * away[1])) for sign in (1, -1)]
    both_ways(program, text, there, (10**9, off - 1), *said)
    most = int(listed[-1].split("@")[0])
    if most < 31:
        another = " ".join([head] + listed[:-1] + ["%d@%s" % (most + 1, listed[-1].split("@")[1])])
        both_ways(program, text, changed(another), (10**9, 16384), differs % "pointers", differs % "pointers")
    both_ways(program, text, changed(other_marks(message, rng)), (10**9, 16384), differs % "flags", differs % "flags")


def other_marks(message, rng):
    """A motion with other marks."""
    head, listed = re.split(r" (?=\d+@)", MARKS.sub("", message), maxsplit=1)
    marks = rng.choice([m for m in ("", " obscured", " partly", " obscured partly") if set(m.split()) != marks_of(message)])
    return "%s%s %s" % (head, marks, listed)


def each_move(program, told, text, bare):
    """Where each move is a point, a text is the same as itself, and another than one without its moves if it has any."""
    each = ("--moves", "each")
    count = sum(len(c[2]) for c in told[0])
    both_ways(program, text, text, (0, 0), *2 * ["same %d %d us 0 pixels 0\n" % (len(told[0]), count)], each)
    run = program.compare(text, bare, 10**9, 16384, *each)
    ends_so(run, 1 if any(" MOVE " in m for c in told[0] for m in c[2]) else 0, run[2].decode())


def of_a_channel(program, told, text, places, rng):
    """The section of a channel is the same as itself alone under another number, and another section is not looked at."""
    k = rng.randrange(len(told[0]))
    number, name, messages, counts = told[0][k]
    other = rng.choice([n for n in range(1, 65) if n != number])
    alone = written(([(other, name, messages, counts)], []))
    count = sum(place[0] == k for place in places)
    same = "same 1 %d us 0 pixels 0\n" % count
    named = rng.choice(([], ["--got-channel", str(other)]))
    run = program.compare(text, alone, 0, 0, "--want-channel", str(number), *named)
    ends_so(run, 0, "")
    need(run[1] == same.encode(), "compare says %r and not %r" % (run[1], same))
    ends_so(program.compare(alone, text, 0, 0, "--want-channel", str(number), "--got-channel", str(number)), 1,
            "compare: NewSection %d\n" % (1 + sum(len(c[2]) + 2 for c in told[0][:k])))


def both_ways(program, one, other, within, wanted, turned, options=()):
    """What `compare` says of two texts, and of the same the other way round."""
    for want, got, said in ((one, other, wanted), (other, one, turned)):
        run = program.compare(want, got, *within, *options)
        if said.startswith("same "):
            ends_so(run, 0, "")
            need(run[1] == said.encode(), "compare says %r and not %r" % (run[1], said))
        else:
            ends_so(run, 1, said)
