"""What calls raise."""
import enum
from typing import Optional

from inputflinger import native
from inputflinger.messages import Fault


class Status(enum.IntEnum):
    """What a call of the library answers, as ``enum inputflinger_status``."""

    OK = 0
    FREE = 1
    TAKEN = 2
    NO_MEMORY = 3
    OUT_OF_RANGE = 4
    BROKEN = 5
    NO_ROOM = 6
    NULL = 7
    NOT_OPEN = 8
    FULL = 9
    NOTHING = 10
    UNKNOWN_SEQ = 11
    NOT_SPY = 12
    NOTHING_HELD = 13
    NO_DEVICE = 14
    INCONSISTENT = 15
    WAITS = 16
    TOO_MANY = 17
    TWICE = 18
    BAD_SLOTS = 19
    BAD_LAYOUT = 20
    NO_THREADS = 21
    NOT_SHOWN = 22
    FINGER_DOWN = 23
    NO_FINGER = 24
    TOO_MANY_FINGERS = 25


class InputflingerError(Exception):
    """A call was refused. ``status`` says why, and the text is that of the library."""

    def __init__(self, status: int, what: Optional[str] = None) -> None:
        super().__init__(native.status_text(status) + (": " + what if what else ""))
        self.status = Status(status)


class Broken(InputflingerError):
    """A judge does not allow a message where it came. ``fault`` says why."""

    def __init__(self, fault: Fault) -> None:
        super().__init__(Status.BROKEN, "message %d, %s" % (fault.place + 1, fault.reason.name))
        self.fault = fault


class BadLayout(InputflingerError):
    """A text is no key layout. ``line`` is its first line that is refused, from 1 on; 0 if it is no UTF-8."""

    def __init__(self, line: int) -> None:
        super().__init__(Status.BAD_LAYOUT, "line %d" % line)
        self.line = line


class WindowError(InputflingerError):
    """The client of a window is not open, and ``named`` is the window's index; or it has two, and ``named`` is its channel."""

    def __init__(self, status: int, named: int) -> None:
        super().__init__(status, ("window %d" if status == Status.NOT_OPEN else "channel %d") % named)
        self.named = named


class RunError(Exception):
    """The program ended with a status other than 0; ``line`` is what it printed to standard error."""

    def __init__(self, status: int, line: str) -> None:
        super().__init__("status %d: %s" % (status, line.rstrip("\n")))
        self.status = status
        self.line = line


def done(status: int) -> None:
    """Raises what a status other than OK means."""
    if status != Status.OK:
        raise InputflingerError(status)


def found(status: int) -> bool:
    """Whether there is something; raises what a status other than OK and NOTHING means."""
    if status == Status.NOTHING:
        return False
    done(status)
    return True
