"""Random worlds from a number: fingers that wander while windows hide, show, rise, move and change their regions, keys, popups, a device that is unplugged,
and at last a client that is killed under its fingers."""
import random

WIDTH, HEIGHT = 1280, 720
CLIENTS = {"a": ("a1", "a2"), "b": ("b1", "b2"), "c": ("c1",)}
FINGERS, KEYS = 8, (30, 31, 42, 56)


class Random:
    """A world's commands, one after the other."""

    def __init__(self, number):
        self.random = random.Random(number)
        self.now, self.down, self.keys, self.hidden, self.menu, self.menus = 1000000, {}, set(), set(), None, 0
        self.titles = {title: name for name, titles in CLIENTS.items() for title in titles}

    def place(self):
        """A point in eighths of pixels."""
        return "%g %g" % (self.random.randrange(WIDTH * 8) / 8, self.random.randrange(HEIGHT * 8) / 8)

    def box(self):
        return "%d %d" % (self.random.randrange(-100, WIDTH - 500), self.random.randrange(-100, HEIGHT - 300))

    def begin(self):
        yield "clock %d" % self.now
        yield "plug 1 touch"
        yield "plug 2 keys"
        for title, name in self.titles.items():
            yield "%s toplevel %s %d %d" % (name, title, self.random.randrange(300, 800), self.random.randrange(250, 500))
            yield "place %s %s" % (title, self.box())
            if self.random.random() < 0.5:
                yield "%s sub %s_sub %s %d %d 80 60" % (name, title, title, self.random.randrange(-20, 150), self.random.randrange(-20, 150))

    def fingers(self):
        """A packet."""
        for number in range(FINGERS):
            chance = self.random.random()
            if number not in self.down:
                if chance < 0.2:
                    self.down[number] = [self.random.randrange(WIDTH * 8), self.random.randrange(HEIGHT * 8)]
                    yield "down 1 %d %g %g" % (number, self.down[number][0] / 8, self.down[number][1] / 8)
            elif chance < 0.05:
                del self.down[number]
                yield "up 1 %d" % number
            elif chance < 0.06:
                del self.down[number]
                yield "cancel 1 %d" % number
            elif chance < 0.7:
                x, y = self.down[number]
                self.down[number] = [min(max(x + self.random.randrange(-90, 91), 0), WIDTH * 8 - 1),
                                     min(max(y + self.random.randrange(-90, 91), 0), HEIGHT * 8 - 1)]
                yield "motion 1 %d %g %g" % (number, self.down[number][0] / 8, self.down[number][1] / 8)
        yield "frame 1"

    def lift(self):
        """All fingers go up."""
        for number in sorted(self.down):
            yield "up 1 %d" % number
        self.down = {}
        yield "frame 1"

    def swipe(self):
        """Three fingers go down the display: a gesture of the compositor."""
        yield from self.lift()
        left = self.random.randrange(100, 900)
        for verb, y in (("down", 100), ("motion", 150), ("motion", 250), ("motion", 300)):
            self.now += 8000
            yield "clock %d" % self.now
            for number in range(3):
                yield "%s 1 %d %d %d" % (verb, number, left + 90 * number, y)
            yield "frame 1"
        self.down = {number: [(left + 90 * number) * 8, 300 * 8] for number in range(3)}

    def key(self):
        code = self.random.choice(KEYS)
        yield "key 2 %d %d" % (code, code not in self.keys)
        self.keys ^= {code}

    def visibility(self, title):
        if title in self.hidden:
            self.hidden.remove(title)
            yield "%s show %s" % (self.titles[title], title)
            yield "place %s %s" % (title, self.box())
        elif not (self.menu and self.menu[0] == title):
            self.hidden.add(title)
            yield "%s hide %s" % (self.titles[title], title)

    def popup(self, title):
        if self.menu:
            yield "%s destroy %s" % (self.titles[self.menu[0]], self.menu[1])
            self.menu = None
        elif title not in self.hidden:
            self.menus += 1
            self.menu = (title, "menu%d" % self.menus)
            grab = " grab" if self.random.random() < 0.7 else ""
            yield "%s popup %s %s %d %d 120 160%s" % (self.titles[title], self.menu[1], title, self.random.randrange(150), self.random.randrange(100), grab)

    def region(self, title):
        boxes = [self.random.randrange(400) for _ in range(4 * self.random.randrange(4))] or [0, 0, 1000, 1000]
        yield "%s region %s %s" % (self.titles[title], title, " ".join("%d" % number for number in boxes))

    def plug(self):
        device, kind = self.random.choice(((1, "touch"), (2, "keys")))
        yield "unplug %d" % device
        yield "plug %d %s" % (device, kind)
        if device == 1:
            self.down = {}
        else:
            self.keys = set()

    def wait(self):
        """More than the time after which a window is reported, in pieces."""
        for _ in range(4):
            self.now += 2000000
            yield "clock %d" % self.now

    def step(self):
        chance, title = self.random.random(), self.random.choice(sorted(self.titles))
        self.now += self.random.choice((0, 1, 1000, 8000, 8000, 8000, 16000))
        yield "clock %d" % self.now
        if chance < 0.04:
            yield from self.lift()
        elif chance < 0.7:
            yield from self.fingers()
        elif chance < 0.78:
            yield from self.key()
        elif chance < 0.84:
            yield "place %s %s" % (title, self.box()) if title not in self.hidden else "clock %d" % self.now
        elif chance < 0.88:
            yield "raise %s" % title if title not in self.hidden else "clock %d" % self.now
        elif chance < 0.92:
            yield from self.visibility(title)
        elif chance < 0.94:
            yield from self.popup(title)
        elif chance < 0.97:
            yield from self.region(title)
        elif chance < 0.98:
            yield from self.swipe()
        elif chance < 0.983:
            yield from self.plug()
        elif chance < 0.987:
            yield from self.wait()

    def commands(self, steps):
        yield from self.begin()
        for _ in range(steps):
            yield from self.step()
        yield from self.fingers()
        yield "kill c"
        del self.titles["c1"]
        if self.menu and self.menu[0] == "c1":
            self.menu = None
        for _ in range(steps // 10):
            yield from self.step()
