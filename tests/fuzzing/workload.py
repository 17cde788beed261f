"""The law of `work`: it is the sum of a session and a recording that are made here too, from the same number."""
from .laws import need, sections
from .make import line

PATH = "/dev/input/event0"
WINDOWS = (
    ("spy", (0, 0, 1080, 1200), ', flags = ["SPY"]'),
    ("nw", (0, 0, 540, 1200), ""),
    ("ne", (540, 0, 1080, 1200), ""),
    ("sw", (0, 1200, 540, 2400), ""),
    ("se", (540, 1200, 1080, 2400), ""),
)


def session():
    text = "[display]\nwidth = 1080\nheight = 2400\n"
    text += '[[device]]\nkind = "touch"\npath = "%s"\nslots = 16\nx = [0, 1079]\ny = [0, 2399]\n' % PATH
    text += "".join('[[channel]]\nname = "%s"\n' % name for name in ("nw", "ne", "sw", "se", "spy"))
    windows = ['{ channel = "%s", frame = %s%s }' % (name, list(frame), flags) for name, frame, flags in WINDOWS]
    return text + '[[step]]\nat_us = 0\ndo = "windows"\nwindows = [ %s ]\n' % ", ".join(windows)


def recording(seed, packets):
    """Ten fingers, one of which goes down, moves or goes up in each packet."""
    state = seed % 2147483646 + 1
    fingers = [False] * 10
    contacts = 0
    lines = []

    def drawn(most):
        nonlocal state
        state = state * 48271 % 2147483647
        return state % most

    for packet in range(packets):
        slot = drawn(10)
        events = [(3, 0x2F, slot)]
        if fingers[slot] and drawn(4) == 0:
            fingers[slot] = False
            events.append((3, 0x39, -1))
        else:
            if not fingers[slot]:
                events.append((3, 0x39, contacts))
                contacts += 1
                fingers[slot] = True
            events += [(3, 0x35, drawn(1080)), (3, 0x36, drawn(2400))]
        lines += [line(packet * 8000, PATH, *event) for event in events + [(0, 0, 0)]]
    return "".join(lines).encode()


def worked(program, case, _):
    """The ends and namings are those of `replay`, each packet gives one args, and a second run gives the same bytes."""
    rng = case.drawn("worked")
    seed, packets = rng.choice((0, 1, 2147483645, 2147483646, 2**32 - 1, rng.randrange(2**32))), rng.randint(1, 300)
    words = ["work", "--seed", str(seed), "--packets", str(packets)]
    said = program.text(words)
    need(program.text(words) == said, "the second work gives other bytes")
    told = sections(program.replay(session().encode(), recording(seed, packets)))
    wanted = "work %d %d\nargs %d\n" % (seed, packets, packets)
    for number, _, messages, counts in told[0]:
        need(counts == (len(messages),) * 3, "replay of a workload leaves channel %d at %s" % (number, counts))
        wanted += "end %d sent %d received %d finished %d\n" % ((number,) + counts)
    wanted += "".join(naming + "\n" for naming in told[1])
    need(said == wanted.encode(), "work says %r and not %r" % (said, wanted))
