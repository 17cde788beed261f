"""The contacts of a touch screen, packet by packet, and what in them does not fit together."""

SYN, ABS = 0, 3
SYN_REPORT, SYN_DROPPED = 0, 3
MT_SLOT, MT_X, MT_Y, MT_TRACKING_ID = 0x2F, 0x35, 0x36, 0x39

# A finger that goes through more than this part of an axis from one packet to the next, so many microseconds later at most, jumps:
# the fastest swipes go through a tenth.
PART, SOON = 4, 50000


class Contacts:
    """What is down, by slot. `limits` gives the least jump on each axis, or None where nothing tells its range."""

    def __init__(self, limits):
        self.limits = limits
        self.slot, self.down, self.places = 0, set(), {}
        # Of the packet that is not at its end: positions by slot, slots whose contact ended, and whether it chose a slot.
        self.moved, self.ended, self.chose = {}, set(), False
        self.dropping, self.dropped = False, False
        # When a first finger went down; slots that moved or ended and never began; jumps as (moment, before, after).
        self.first_down, self.strangers, self.jumps = None, set(), []

    def take(self, moment, kind, code, value):
        if kind == SYN:
            self.sync(moment, code)
        elif kind != ABS or self.dropping:
            return
        elif code == MT_SLOT:
            self.slot, self.chose = value, True
        elif code == MT_TRACKING_ID:
            self.track(moment, value)
        elif code in (MT_X, MT_Y):
            self.moved.setdefault(self.slot, {})[code] = value

    def track(self, moment, value):
        self.places.pop(self.slot, None)
        if value >= 0:
            self.first_down = moment if self.first_down is None else self.first_down
            self.down.add(self.slot)
        elif self.slot in self.down:
            self.down.discard(self.slot)
            self.ended.add(self.slot)
        else:
            self.stranger(self.slot)

    def stranger(self, slot):
        """A slot that has no contact. Behind lost events that says nothing."""
        if not self.dropped:
            self.strangers.add(slot)

    def sync(self, moment, code):
        if code == SYN_DROPPED:
            self.dropping = self.dropped = True
            self.down.clear()
            self.places.clear()
        elif code == SYN_REPORT:
            if not self.dropping:
                self.packet(moment)
            self.dropping = False
        else:
            return
        self.moved, self.ended, self.chose = {}, set(), False

    def packet(self, moment):
        for slot, axes in self.moved.items():
            if slot not in self.down:
                if slot not in self.ended:
                    self.stranger(slot)
                continue
            before = self.places.get(slot)
            after = [axes.get(code, before[k] if before else None) for k, code in enumerate((MT_X, MT_Y))]
            if before and not self.chose and moment - before[2] <= SOON:
                self.compare(moment, before, after)
            self.places[slot] = (*after, moment)

    def compare(self, moment, before, after):
        for limit, one, other in zip(self.limits(), before, after):
            if None not in (limit, one, other) and abs(one - other) > limit:
                self.jumps.append((moment, before[:2], tuple(after)))
                return


class Keys:
    """The keys of a device that are down, and those that go up or repeat and never went down."""

    def __init__(self):
        self.down, self.strangers, self.dropped = set(), set(), False

    def take(self, kind, code, value):
        if kind == SYN and code == SYN_DROPPED:
            self.dropped = True
            self.down.clear()
        elif kind == 1 and value == 1:
            self.down.add(code)
        elif kind == 1 and code in self.down:
            self.down -= {code} if value == 0 else set()
        elif kind == 1 and not self.dropped:
            self.strangers.add(code)
