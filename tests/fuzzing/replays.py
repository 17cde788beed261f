"""Laws of `replay`: of one run, and of two runs of which one has less than the other."""
import re

from .laws import MARKS, MOTION, ends_so, first_ones, marks_of, moments, need, owner_of, sections, until
from .make import Window, sides
from .recording import read
from .replayed import judged


def may_be_too_long(case):
    """Whether a run of a damaged case can have more than 4,000,000 calls, which takes a key that is repeated for
    days, or for minutes if the damage makes its delays as short as they may be."""
    numbers = [int(n) for n in re.findall(rb"\d{9,30}", case.session)]
    seconds = [int(n) for n in re.findall(rb"\[[ \t]*(\d{3,12})\.", case.recording)]
    least = 200 if b"repeat" in case.session else 10**4
    return b"keys" in case.session and (any(n >= least * 10**6 for n in numbers) or any(n >= least for n in seconds))


def whole(program, case):
    """The run of the case: its text in sections, or None where there is none. A session that is not damaged is
    accepted, and then the first line that is against the form of a recording decides."""
    run = program.run(["replay"] + program.files(case.session, case.recording))
    if not case.known and run[2].startswith(b"session: "):
        ends_so(run, 3, run[2].decode("utf-8", "replace"))
        return None
    events, refused = read(case.recording)
    if refused:
        ends_so(run, 3, refused)
        return None
    if run[0] == 7 and may_be_too_long(case):
        ends_so(run, 7, "too long: run\n")
        return None
    ends_so(run, 0, "")
    need(program.replay(case.session, case.recording) == run[1], "the second run gives other bytes")
    program.verify(run[1])
    if not case.known:
        told = sections(run[1])
        for channel in told[0]:
            owner_of(channel[2])
        return told
    return judged(case, run[1], case.steps, events, case.whole)


def again(program, case, steps, recording):
    """The run of another plan or another recording, held to all that holds of one run."""
    out = program.replay(case.session_text(steps).encode(), recording)
    program.verify(out)
    return judged(case, out, steps, read(recording)[0])


def last_moment(case, told):
    """A moment up to which a run goes at least: that of its last step, of its end, and of what it says."""
    said = [max(moments(c[2])) for c in told[0] if c[2]] + [int(text.split(" ")[1]) for text in told[1]]
    return max([case.end] + [step[0] for step in case.steps] + said)


def cut(program, case, told):
    """The recording up to some line. What is sent before the first line that is cut off, and before the end of the
    shorter run, is the same; where nothing but args makes messages, all that is sent is the beginning of the longer
    run."""
    rng = case.drawn("cut")
    kept = rng.randint(0, len(case.lines))
    short = again(program, case, case.steps, "".join(case.lines[:kept]).encode())
    behind = [int(line[1:9]) * 10**6 + int(line[10:16]) for line in case.lines[kept:] if line.startswith("[")]
    if not behind:
        need(short == told, "without lines that have no event something else is sent")
    elif case.plain:
        first_ones(short, told, "cut at line %d" % kept)
        alike(short, told, min(behind) - 1)
    else:
        alike(short, told, min(min(behind) - 1, last_moment(case, short)))


def alike(one, other, moment):
    """Up to a moment two runs send the same."""
    for what, a, b in zip(("told", "named"), until(one, moment), until(other, moment)):
        need(a == b, "up to %d other things are %s: %s and %s" % (moment, what, a, b))


def early(program, case, told):
    """The steps up to one of them. What is sent before the first step that is left out is the same, as the end stays;
    so what a channel is sent before its removal does not know of the removal."""
    steps = sorted(case.steps, key=lambda step: step[0])
    removals = [k for k, step in enumerate(steps) if step[2] == "remove"]
    rng = case.drawn("early")
    kept = rng.choice(removals) if removals and rng.random() < 0.7 else rng.randint(0, len(steps) - 1)
    end = case.end
    case.end = max([end] + [step[0] for step in steps])
    try:
        short = again(program, case, steps[:kept], case.recording)
    finally:
        case.end = end
    alike(short, told, steps[kept][0] - 1)


def with_windows(steps, change):
    """The steps with other windows."""
    return [step[:3] + ([change(window) for window in step[3]] if step[2] == "windows" else step[3],) for step in steps]


def trusting(program, case, told):
    """Windows of one owner are sent the same whatever their opacity and their occlusion are."""
    steps = with_windows(case.steps, lambda window: window._replace(owner=4294967295))
    plain = with_windows(case.steps, lambda window: window._replace(owner=0, opacity=100, occlusion="block"))
    one, other = (program.replay(case.session_text(some).encode(), case.recording) for some in (steps, plain))
    need(one == other, "windows of one owner are sent something else with other opacities")
    need(not MARKS.search(one.decode("ascii")), "a window is sent marks, and no other has another owner")


def covered(program, case, told):
    """Under windows of another owner over each display, which touches go through, the same is sent with one mark: each pointer is given where
    a window is obscured, and so nowhere where it is not."""
    covers = [Window("over%d" % k, k, (0, 0) + sides(display), ("NOT_TOUCHABLE", "NOT_FOCUSABLE"), None, 4294967295, 100, "allow")
              for k, display in enumerate(case.displays)]
    steps = [step[:3] + (covers + list(step[3]),) if step[2] == "windows" else step for step in case.steps]
    channels = case.channels
    case.channels = channels + [(cover.name, 5000, 0, True) for cover in covers]
    try:
        both = again(program, case, steps, case.recording)
    finally:
        case.channels = channels
    bare = lambda of: [(number, name, [MARKS.sub("", text) for text in messages], counts) for number, name, messages, counts in of]
    need((bare(both[0][: len(channels)]), both[1]) == (bare(told[0]), told[1]), "under windows of another owner something else is sent")
    for number, _, messages, _ in both[0]:
        for text in messages:
            match = MOTION.fullmatch(text)
            wanted = {"obscured"} if match and match.group(4) != "OUTSIDE" else set()
            need(marks_of(text) == wanted, "channel %d is covered, and told %s" % (number, text))


def shuffled(program, case, told):
    """The windows of each step the other way round, where they lie apart and have no flags."""
    if case.apart:
        steps = [step[:3] + (step[3][::-1] if step[2] == "windows" else step[3],) for step in case.steps]
        other = again(program, case, steps, case.recording)
        need(other == told, "windows that lie apart are sent something else in another order")
