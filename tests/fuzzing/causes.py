"""The lines of `why`, gone through one by one: who holds what by them, and what windows must be sent."""
from collections import Counter

from .cause_lines import BEHIND, FORMS, WALL, lost, one, rising
from .laws import need
from .trust import blockers, marks


class Causes:
    """Goes through the lines and keeps who holds what. `said` is what windows must be sent by them, `seen` what the devices did, and
    `answering` when windows were responsive again."""

    def __init__(self, case):
        self.numbers = {channel[0]: number for number, channel in enumerate(case.channels, 1)}
        self.displays = [device[5] for device in case.devices]
        self.acts = sorted(case.steps, key=lambda step: step[0])
        self.said, self.seen, self.namings, self.answering = Counter(), Counter(), [], []
        # By window: its pointers and its keys as (device, number), and by device since which line it holds some.
        self.holds, self.keys, self.since = ({n: {} for n in self.numbers.values()} for _ in range(3))
        # By window and device the marks after each pointer that it is given.
        self.marks = {}
        self.pilferers, self.mute, self.removed = set(), set(), set()
        self.shown, self.windows, self.focus, self.asked, self.key_target, self.focused = [], {}, {}, 0, None, set()
        # The pointers and keys that are down; the moment, the number of the line, and where in its step it stands.
        self.down, self.at, self.count, self.rank = set(), 0, 0, (0, 0)

    def line(self, text):
        moment, _, words = text.partition(" ")
        word = words.split(" ")[0]
        match = FORMS[word].fullmatch(words) if word in FORMS else None
        need(match and moment.isdigit() and int(moment) >= self.at, "no line: %s" % text)
        need(word not in BEHIND or int(moment) == self.at, "of another moment than its step: %s" % text)
        if word not in BEHIND:
            self.settle()
        rank = (BEHIND.index(word) + 1, int(match.group(1)) if word != "target" else 0) if word in BEHIND else (0, 0)
        need(rank == (0, 0) or self.rank < rank, "out of its turn: %s" % text)
        self.at, self.count, self.rank = int(moment), self.count + 1, rank
        getattr(self, "on_" + word)(*match.groups())

    def settle(self):
        """A step is over: what holds after each one, and what windows are sent of the focus."""
        need(self.key_target == self.focus.get(self.asked), "at %d keys go to %s" % (self.at, self.key_target))
        focused = {window for window in self.focus.values() if window}
        for window in (focused ^ self.focused) - self.removed:
            self.say("focus", window, int(window in focused))
        self.focused = focused
        for window, pointers in self.holds.items():
            shown = window in self.windows and window not in self.removed | self.mute
            for device, number in pointers:
                there = shown and self.windows[window][0] == self.displays[device - 1]
                need(there, "at %d window %d holds pointer %d of device %d" % (self.at, window, number, device))
            need(not self.keys[window] or window == self.key_target, "at %d window %d holds keys" % (self.at, window))

    def say(self, what, window, *more):
        self.said[(what, self.at, window) + more] += 1

    def act(self, name):
        """The next step of the session is of this kind and moment."""
        need(self.acts and self.acts[0][2] == name and self.acts[0][0] == self.at, "no step %s at %d" % (name, self.at))
        return self.acts.pop(0)[3]

    def see(self, what, device, *more):
        """A device did this: of a pointer or a key, that goes down where it is not, and else goes up where it is down."""
        if more:
            pair = (int(device),) + more
            need((pair in self.down) != what.endswith("down"), "at %d there is no %s of %s" % (self.at, what, pair))
            (self.down.add if what.endswith("down") else self.down.remove)(pair)
        self.seen[(what, self.at, int(device)) + (more if what.startswith("key") else ())] += 1

    def place(self, window, x, y):
        return "%d,%d" % (int(x) - self.windows[window][1][0], int(y) - self.windows[window][1][1])

    def has(self, window, device):
        return any(d == device for d, _ in self.holds[window])

    def holders(self, pointer):
        return [window for window in self.holds if pointer in self.holds[window]]

    def give(self, window, device, number, x, y):
        name, there = self.on_display(device, window)
        after = self.marks.setdefault((window, device), [])
        after.append(marks(there, name, (int(x), int(y))) | (after[-1] if self.has(window, device) else set()))
        if not self.has(window, device):
            self.since[window][device] = self.count
        need((device, number) not in self.holds[window], "window %d is given what it holds" % window)
        self.holds[window][device, number] = True
        self.say("down", window, device, number, self.place(window, x, y))

    def take(self, what, window, device, number):
        need(self.holds[window].pop((device, number), False), "window %d loses what it does not hold" % window)
        if not self.has(window, device):
            self.pilferers.discard((window, device))
        self.say(what, window, device, number)

    def drop(self, window, words, told=True):
        """The window loses these, and all where it is not `gone`."""
        pointers, keys = lost(words)
        before = Counter(self.said)
        for pointer in pointers:
            self.take("lost", window, *pointer)
        for key in keys:
            need(self.keys[window].pop(key, False), "window %d loses a key that it does not hold" % window)
            self.say("key lost", window, *key)
        if not told:
            self.said = before

    def holds_nothing(self, window):
        need(not self.holds[window] and not self.keys[window], "at %d window %d holds something" % (self.at, window))

    def on_windows(self, listed):
        what = self.act("windows")
        called = lambda window: str(self.numbers[window.name]) if window.name else "wall"
        wanted = "".join(" %s@%d:%d,%d,%d,%d" % ((called(window), window.display) + window.frame) for window in what)
        need(listed == wanted, "windows are%s, and not%s" % (listed, wanted))
        self.shown = what
        self.windows = {self.numbers[window.name]: window[1:4] + (k,) for k, window in enumerate(what) if window.name}

    def flagged(self, windows, flag):
        return [window for window in windows if flag in self.windows[window][2]]

    def choice(self, device, touched):
        """The window that is chosen, and the row, by the table of docs/WHY.md."""
        holders = [window for window in self.windows if self.has(window, device)]
        holders = [window for window in holders if window not in self.flagged(holders, "SPY")]
        whole = self.flagged(holders, "PREVENT_SPLITTING")
        first = min(whole or holders, key=lambda window: (self.since[window][device], self.windows[window][3]), default=None)
        if not holders or whole:
            return (first, "unsplit") if whole else (touched, "first")
        if touched is None:
            return first, "nothing"
        alone = touched != WALL and self.flagged([touched], "PREVENT_SPLITTING") and not self.has(touched, device)
        return (first, "whole") if alone else (touched, "split")

    def on_display(self, device, window):
        """The name of a window, and the windows on the display of a device, front to back."""
        display = self.displays[device - 1]
        there = [w for w in self.shown if w.display == display and self.numbers.get(w.name) not in self.removed]
        return next(name for name, number in self.numbers.items() if number == window), there

    def blocked_by(self, device, window, x, y):
        """The windows that block a window where a pointer of a device is, as a set of those that have channels; nothing where none does."""
        name, there = self.on_display(device, window)
        names = blockers(there, name, (int(x), int(y)))
        return names and (",".join(map(str, sorted(self.numbers[name] for name in names if name))) or "-")

    def on_down(self, device, number, x, y, touched, row, chosen, *sets):
        device, number = int(device), int(number)
        *sets, listed = sets
        self.see("down", device, number)
        spies, pilfering, given, mute, outside = (set(rising(word)) for word in sets)
        need(spies <= set(self.flagged(self.windows, "SPY")), "at %d are no spies: %s" % (self.at, spies))
        wanted = self.choice(device, one(touched))
        need((one(chosen), row) == wanted, "at %d %s is chosen by %s, and not %s by %s" % (self.at, chosen, row, *wanted))
        candidates = spies | {one(chosen)} - {None, WALL}
        need(pilfering == {w for w in candidates if (w, device) in self.pilferers}, "at %d are pilfering %s" % (self.at, pilfering))
        targets = pilfering or candidates
        blocked = {w: by for w, by in ((w, self.blocked_by(device, w, x, y)) for w in sorted(targets - self.mute)) if by}
        wanted = "".join(" blocked %d by %s" % (w, by) for w, by in blocked.items())
        need(listed == wanted, "at %d are%s, and not%s" % (self.at, listed, wanted))
        rest = targets - mute - set(blocked)
        need(mute == targets & self.mute and given == rest, "at %d targets %s: %s, %s" % (self.at, targets, given, mute))
        need(not self.holders((device, number)), "at %d a pointer goes down that is held" % self.at)
        for window in sorted(given):
            self.give(window, device, number, x, y)
        need(not outside & given, "at %d a window is given a pointer outside of it" % self.at)
        for window in outside:
            self.say("outside", window, device, number, self.place(window, x, y))

    def on_slip(self, device, number, x, y, start, end):
        device, number, start, end = int(device), int(number), int(start), int(end)
        need(self.flagged([start], "SLIPPERY"), "a pointer slips from window %d" % start)
        need(not self.blocked_by(device, end, x, y), "a pointer slips to window %d, which is blocked" % end)
        self.take("lost", start, device, number)
        self.give(end, device, number, x, y)

    def on_up(self, word, device, number, start):
        self.see(word, device, int(number))
        held = self.holders((int(device), int(number)))
        need(rising(start) == held, "pointer %s of device %s is held by %s, and goes up from %s" % (number, device, held, start))
        for window in held:
            self.take("up" if word == "up" else "lost", window, int(device), int(number))

    on_palm = on_up

    def on_reset(self, device, start):
        self.see("reset", device)
        self.down = {pair for pair in self.down if pair[0] != int(device)}
        held = [w for w in self.holds if any(d == int(device) for d, _ in [*self.holds[w], *self.keys[w]])]
        need(rising(start) == held, "device %s is held by %s, and reset from %s" % (device, held, start))
        for window in held:
            for pointer in [p for p in self.holds[window] if p[0] == int(device)]:
                self.take("lost", window, *pointer)
            for key in [k for k in self.keys[window] if k[0] == int(device)]:
                del self.keys[window][key]
                self.say("key lost", window, *key)

    def on_key(self, device, scan, target, given, start, repeat, to):
        key = int(device), int(scan)
        if not repeat:
            self.see("key down" if target else "key up", *key)
        held = [window for window in self.keys if key in self.keys[window]]
        if target:
            wanted = None if self.key_target in self.mute else self.key_target
            need(not held and (one(target), one(given)) == (self.key_target, wanted), "key %s goes to %s, %s" % (key, target, given))
            window, what = one(given), "key 0"
        else:
            need(held == [n for n in (one(start or to),) if n], "key %s is held by %s" % (key, held))
            window, what = one(start or to), "key up" if start else "key %s" % repeat
        if window:
            self.keys[window][key] = True
            self.say(what, window, *key)
        if start and window:
            del self.keys[window][key]

    def on_pilfer(self, window, device, numbers, start, refusal):
        name, number = self.act("pilfer")
        window, device = int(window), int(device)
        need((window, device) == (self.numbers[name], number), "window %d pilfers device %d" % (window, device))
        held = sorted(n for d, n in self.holds[window] if d == device)
        spy = window in self.flagged(self.windows, "SPY")
        wanted = "Gone" if window in self.removed else "NotSpy" if not spy else None if held else "NothingHeld"
        need(refusal == wanted, "a pilfer of window %d is answered %s" % (window, refusal))
        if refusal:
            return
        need(rising(numbers) == held, "window %d pilfers %s, and holds %s" % (window, numbers, held))
        self.pilferers.add((window, device))
        losers = [w for w in self.holds if w != window and any((device, n) in self.holds[w] for n in held)]
        need(rising(start) == losers, "window %d pilfers from %s" % (window, start))
        for loser in losers:
            for number in held:
                if (device, number) in self.holds[loser]:
                    self.take("lost", loser, device, number)

    def on_timeout(self, window, seq, words):
        self.namings.append("anr %d %s %s" % (self.at, window, seq))
        need(int(window) not in self.mute | self.removed, "window %s is reported again" % window)
        self.drop(int(window), words)
        self.holds_nothing(int(window))
        self.mute.add(int(window))

    def on_responsive(self, window):
        need(int(window) in self.mute - self.removed, "window %s answers again" % window)
        self.mute.remove(int(window))
        self.answering.append((self.at, int(window)))

    def on_removed(self, window, gone, words):
        need(int(window) == self.numbers[self.act("remove")], "window %s is removed" % window)
        need(bool(gone) == (int(window) in self.removed), "window %s is removed: %s" % (window, gone))
        if not gone:
            self.drop(int(window), words, told=False)
            self.holds_nothing(int(window))
            self.removed.add(int(window))

    def on_request(self, display, window):
        name, number = self.act("focus")
        need((one(window), int(display)) == (self.numbers.get(name), number), "the focus of %s for %s" % (display, window))
        self.asked = int(display)

    def on_gone(self, window, words):
        need(words != "-", "window %s is gone with nothing" % window)
        self.drop(int(window), words)

    def on_focus(self, display, before, after):
        need(one(before) == self.focus.get(int(display)) and before != after, "the focus of %s goes from %s" % (display, before))
        self.focus[int(display)] = one(after)

    def on_target(self, before, after):
        need(one(before) == self.key_target and before != after, "keys go from %s to %s" % (before, after))
        self.key_target = one(after)
