"""The channels and steps of a session, from what dumpsys tells."""
import collections
import re

import rectangles
import session_trust
from session_text import channel_name, comment, numbers, table

MOST_WINDOWS, MOST_RECTANGLES, LAST_LIMIT = 64, 64, 600000
# A window that has no input channel, so that touches on it are dropped, is a wall.
WALL = "NO_INPUT_CHANNEL"
WALL_FLAGS = ("NOT_TOUCHABLE", "NOT_FOCUSABLE", "TRUSTED_OVERLAY")
FLAGS = ("NOT_TOUCHABLE", "SPY", "PREVENT_SPLITTING", "SLIPPERY", "WATCH_OUTSIDE_TOUCH", "NOT_FOCUSABLE", "TRUSTED_OVERLAY")

# What Android says of a window that changes what windows are sent, and that a session cannot say.
UNSAID = {
    "PAUSE_DISPATCHING": "paused: it would be told nothing until it goes on",
    "DROP_INPUT": "its input is dropped",
    "DROP_INPUT_IF_OBSCURED": "its input is dropped where another window lies over it",
    "DUPLICATE_TOUCH_TO_WALLPAPER": "touches on it are told to the wallpaper too",
    "INTERCEPTS_STYLUS": "it takes pens alone",
    "GLOBAL_STYLUS_BLOCKS_TOUCH": "pens block fingers",
    "CLONE": "it is a clone of another window",
}
SCALED = "scaled or turned, so that its places are other ones"
# What says nothing about who is sent what.
PASSED_OVER = {
    "DISABLE_USER_ACTIVITY", "IS_WALLPAPER", "NOT_VISIBLE", "NOT_TOUCH_MODAL", "NONE", "DEFAULT", "SENSITIVE_FOR_PRIVACY",
    "SENSITIVE_FOR_TRACING", WALL,
}


class Shown:
    """A window of a session: who it is through all dumps, and what the step says of it."""

    def __init__(self, who, name, display, frame, region, flags, limit_ms=5000, trust=session_trust.Trust(), wall=False):
        self.who, self.name, self.display, self.frame = who, name, display, frame
        self.region, self.flags, self.limit_ms, self.trust = region, flags, limit_ms, trust
        self.wall, self.focused, self.why = wall, False, None

    def can_be_told(self):
        touched = self.region and "NOT_TOUCHABLE" not in self.flags
        return bool(touched or self.focused or "WATCH_OUTSIDE_TOUCH" in self.flags)

    def line(self, channel):
        parts = ["wall = true" if self.wall else 'channel = "%s"' % channel] + (["display = %d" % self.display] if self.display else [])
        parts.append("frame = %s" % numbers(self.frame))
        if list(self.region) != [self.frame]:
            parts.append("region = [%s]" % ", ".join(numbers(rectangle) for rectangle in self.region))
        if self.flags:
            parts.append("flags = [%s]" % ", ".join('"%s"' % flag for flag in self.flags))
        parts += self.trust.parts()
        return "    { %s },%s" % (", ".join(parts), "  # " + self.why if self.why else "")


class Causes:
    """What a session cannot say, each cause once with the windows that have it."""

    def __init__(self):
        self.windows = collections.OrderedDict()

    def add(self, cause, name):
        names = self.windows.setdefault(cause, [])
        if name not in names:
            names.append(name)

    def tell(self, said):
        for cause, names in self.windows.items():
            said("%s: %s" % (cause, ", ".join(names)))


def shifted(window):
    """Whether places in a window are counted from elsewhere than the corner of its frame, or in other pixels."""
    if window.transform is None or window.frame[0] == window.frame[2]:
        return None
    turn, kinds = window.transform
    if turn.strip() != "ROT_0" or "SCALE" in kinds or "ROTATE" in kinds:
        return SCALED
    moved = tuple(-row[2] for row in window.rows[:2]) or (0, 0)
    if moved != tuple(map(float, window.frame[:2])):
        return "its places are not counted from the corner of its frame"
    return None


def is_one(text):
    return re.fullmatch(r"1(\.0*)?", text) is not None


def unsaid(window):
    """What a session cannot say of a window of a dump."""
    for name in sorted(window.names):
        if name in UNSAID:
            yield UNSAID[name]
        elif name not in FLAGS and name not in PASSED_OVER:
            yield "the flag %s is not known" % name
    values = window.values
    yield from session_trust.unknown(values)
    if values.get("portalToDisplayId", "-1") != "-1":
        yield "a portal to another display"
    scales = [values.get(key, "1") for key in ("globalScale", "scale")]
    scales += values.get("windowScale", "(1,1)").strip("()").split(",")
    if not all(map(is_one, scales)):
        yield SCALED
    if shifted(window):
        yield shifted(window)
    if len(window.region) > MOST_RECTANGLES:
        yield "a region of more than %d rectangles, of which the first ones are taken" % MOST_RECTANGLES
    if not 1 <= window.limit_ms() <= LAST_LIMIT:
        yield "a timeout that is not 1 to %d ms" % LAST_LIMIT


def in_order(rectangle):
    left, top, right, bottom = rectangle
    return (left, top, max(left, right), max(top, bottom))


def is_modal(window):
    """Before Android 13 a window without both of these flags was given each touch on its display that reached it."""
    return not window.is_new and not window.names & {"NOT_FOCUSABLE", "NOT_TOUCH_MODAL"}


def shown_window(window, count, displays, causes):
    for cause in unsaid(window):
        causes.add(cause, window.name)
    region = [in_order(rectangle) for rectangle in window.region[:MOST_RECTANGLES]]
    if is_modal(window):
        region = [displays.whole(window.display)]
    wall = WALL in window.names
    flags = [flag for flag in (WALL_FLAGS if wall else FLAGS) if flag in window.names]
    who = (window.name, window.id, count)
    limit_ms = min(max(window.limit_ms(), 1), LAST_LIMIT)
    place, trust = displays.place[window.display], session_trust.trust_of(window.values)
    return Shown(who, window.name, place, in_order(window.frame), region, flags, limit_ms, trust, wall)


def shown_windows(dump, displays, causes):
    """The windows that a dump shows, front to back. Monitors of gestures, before Android 13, are spies before all that obscure nothing."""
    shown, counts = [], collections.Counter()
    spy = ["SPY", "NOT_FOCUSABLE"]
    if any(session_trust.tells(window.values) for window in dump.windows):
        spy.append("TRUSTED_OVERLAY")
    for kind, display, name in dump.monitors:
        if kind == "Global":
            causes.add("a global monitor, which sees all that is touched", name)
        elif display in displays.place:
            whole = displays.whole(display)
            shown.append(Shown((name, "monitor", 0), name, displays.place[display], whole, [whole], list(spy)))
    for window in dump.windows:
        if window.visible() and window.display in displays.place:
            counts[window.name, window.id] += 1
            shown.append(shown_window(window, counts[window.name, window.id], displays, causes))
    for display, name in dump.focus.items():
        fit = [w for w in shown if w.name == name and w.display == displays.place.get(display) and not w.wall]
        fit = [w for w in fit if "NOT_FOCUSABLE" not in w.flags] or fit
        if fit:
            fit[0].focused = True
        else:
            causes.add("it has the focus of display %d and is no window that is shown and has a channel" % display, name)
    return shown


def mark_unreachable(shown, displays):
    """Marks windows that no finger can reach as not touchable: those off their display, and those wholly behind others. Nothing is
    routed or obscured in another way, and the session shows that this is meant."""
    covers = collections.defaultdict(list)
    sizes = {place: displays.whole(display)[2:] for display, place in displays.place.items()}
    for window in shown:
        if "NOT_TOUCHABLE" not in window.flags:
            size, over = sizes[window.display], covers[window.display]
            if not rectangles.left_over(window.region, [], size):
                window.why = "has no pixel on its display that can be touched"
            elif not rectangles.left_over(window.region, over, size):
                window.why = "lies behind windows that can be touched"
            elif "SPY" not in window.flags:
                over.extend(window.region)
        if window.why and window.trust.opacity == 0:
            window.region = []  # With NOT_TOUCHABLE it would obscure nothing any more.
        elif window.why:
            window.flags = [flag for flag in FLAGS if flag in window.flags or flag == "NOT_TOUCHABLE"]


def kept(steps, said):
    """At most 64 windows, those first that can be sent anything or can be touched, then front to back."""
    able = collections.OrderedDict()
    for shown in steps:
        for window in shown:
            able[window.who] = able.get(window.who, False) or window.can_be_told()
    order = sorted(able, key=lambda who: not able[who])
    for who in order[MOST_WINDOWS:]:
        said("%s is left out: there are more than %d windows" % (who[0], MOST_WINDOWS))
    keep = set(order[:MOST_WINDOWS])
    return [[window for window in shown if window.who in keep] for shown in steps]


def channels_of(steps):
    """For each window its channel, by name, and the tables of the channels."""
    names, taken, lines = {}, set(), []
    for shown in steps:
        for window in shown:
            if window.who not in names and not window.wall:
                name = names[window.who] = channel_name(window.name, taken)
                more = [comment(window.name)] if name != window.name else []
                more += ['name = "%s"' % name]
                more += ["limit_ms = %d" % window.limit_ms] if window.limit_ms != 5000 else []
                lines += table("channel", *more)
    return names, lines


class Focus:
    """Who has the focus of each display, and which display was asked for last."""

    def __init__(self):
        self.of, self.last = {}, None

    def steps(self, at, now, last):
        """The steps that ask for the focus where it changed, on the display that has the keys at the end."""
        if last is None:
            last = self.last if self.last is not None else max(now, default=0)
        changed = [display for display in sorted({*now, *self.of}) if now.get(display) != self.of.get(display)]
        if changed and last in {*now, *self.of} or last != self.last and self.of:
            changed = [display for display in changed if display != last] + [last]
        self.of, lines = now, []
        for display in changed:
            self.last = display
            more = ["display = %d" % display] if display else []
            more += ['channel = "%s"' % now[display]] if display in now else []
            lines += table("step", "at_us = %d" % at, 'do = "focus"', *more)
        return lines


def step_tables(moments, dumps, displays, has_keys, said):
    """The tables of channels and steps: for each dump its windows, and the focus where it changed."""
    causes = Causes()
    steps = [shown_windows(dump, displays, causes) for dump in dumps]
    causes.tell(said)
    for shown in steps:
        mark_unreachable(shown, displays)
    steps = kept(steps, said)
    names, lines = channels_of(steps)
    focus = Focus()
    for at, shown, dump in zip(moments, steps, dumps):
        rows = ["windows = [", *(window.line(names.get(window.who)) for window in shown), "]"]
        lines += table("step", "at_us = %d" % at, 'do = "windows"', *rows)
        now = {window.display: names[window.who] for window in shown if window.focused}
        lines += focus.steps(at, now, displays.place.get(dump.focused_display))
    if has_keys and focus.last is None:
        said("no dump has a focused window; in the session keys go to nobody")
        lines += table("step", "at_us = %d" % moments[0], 'do = "focus"')
    return lines
