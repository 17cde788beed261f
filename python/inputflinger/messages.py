"""The messages that windows are sent, and why one may be refused."""
import dataclasses
import enum
from typing import Sequence, Union

from inputflinger import native

MOTION, KEY, FOCUS, RESET = range(4)

FLAG_CANCELED = 0x20
"""The flag of a POINTER_UP, or of a key's up, that must not be acted on."""
FLAG_OBSCURED = 0x1
"""The mark of a motion whose gesture has a finger that a window of another owner covers."""
FLAG_PARTLY_OBSCURED = 0x2
"""The mark of a motion of a window that a window of another owner covers in another place."""


class Action(enum.IntEnum):
    """The actions of motions, with the numbers of MotionEvent's getActionMasked."""

    DOWN = 0
    UP = 1
    MOVE = 2
    CANCEL = 3
    OUTSIDE = 4
    POINTER_DOWN = 5
    POINTER_UP = 6


class Reason(enum.IntEnum):
    """Why a message is not allowed, as ``enum inputflinger_reason`` says."""

    NONE = 0
    FLAGS = 1
    ALREADY_DOWN = 2
    ONE_POINTER = 3
    NOTHING_DOWN = 4
    OTHER_POINTERS = 5
    LAST_POINTER = 6
    MORE_POINTERS = 7
    REPEAT_OF_NOTHING = 8
    REPEAT_OUT_OF_TURN = 9
    KEY_NOT_DOWN = 10
    REPEAT_ON_UP = 11
    FOCUS_TWICE = 12


@dataclasses.dataclass(frozen=True)
class Pointer:
    """A pointer of a motion: its id, 0 to 31, and where it is, in pixels from the window's own corner."""

    id: int
    x: int
    y: int


@dataclasses.dataclass(frozen=True)
class Motion:
    """A motion of a device, 1 to 8. It lists all pointers that are down, at most 16, with rising ids; ``index`` is the place of the one that goes down or
    up, for POINTER_DOWN and POINTER_UP. ``user_data`` is what the client was opened with that gets the message; it is ignored in one that is handed in."""

    device: int
    action: Action
    pointers: Sequence[Pointer]
    index: int = 0
    flags: int = 0
    seq: int = 0
    time_us: int = 0
    user_data: int = 0


@dataclasses.dataclass(frozen=True)
class Key:
    """A key of a device, 1 to 8: the kernel's scan code, Android's key code, and KeyEvent's meta state."""

    device: int
    scan: int
    down: bool
    code: int = 0
    meta: int = 0
    repeat: int = 0
    flags: int = 0
    seq: int = 0
    time_us: int = 0
    user_data: int = 0


@dataclasses.dataclass(frozen=True)
class Focus:
    """The window gets the focus, or loses it."""

    focus: bool
    seq: int = 0
    time_us: int = 0
    user_data: int = 0


Message = Union[Motion, Key, Focus]


@dataclasses.dataclass(frozen=True)
class Fault:
    """A message that was refused, and what the window knew: how many messages were accepted before; the pointer ids that are down on a motion's device, as
    bits; for a key whether it is down, and the repeat number that its next down has to have."""

    place: int
    reason: Reason
    held: int
    key_down: bool
    next_repeat: int
    focus: bool


def _number(value: int, bits: int, signed: bool = False) -> int:
    """A number that has room; ctypes would cut off the rest."""
    least, past = (-(1 << bits - 1), 1 << bits - 1) if signed else (0, 1 << bits)
    if not least <= int(value) < past:
        raise OverflowError("%d does not fit into %d bits" % (value, bits))
    return int(value)


def u8(value: int) -> int:
    return _number(value, 8)


def u16(value: int) -> int:
    return _number(value, 16)


def u32(value: int) -> int:
    return _number(value, 32)


def u64(value: int) -> int:
    return _number(value, 64)


def i32(value: int) -> int:
    return _number(value, 32, signed=True)


def plain(message: Message) -> native.Message:
    """A message as the library takes it."""
    told = native.Message(seq=u64(message.seq), moment_us=u64(message.time_us))
    if isinstance(message, Motion):
        told.kind, told.device, told.action = MOTION, u8(message.device), u8(message.action)
        told.index, told.flags, told.count = u8(message.index), u32(message.flags), len(message.pointers)
        if told.count != len(message.pointers) or told.count > len(told.pointers):
            raise OverflowError("a motion has at most %d pointers" % len(told.pointers))
        for place, pointer in enumerate(message.pointers):
            told.pointers[place] = native.Pointer(i32(pointer.x), i32(pointer.y), u32(pointer.id))
    elif isinstance(message, Key):
        told.kind, told.device, told.scan, told.code = KEY, u8(message.device), u16(message.scan), u16(message.code)
        told.meta, told.repeat, told.flags, told.down = u32(message.meta), u32(message.repeat), u32(message.flags), bool(message.down)
    else:
        told.kind, told.focus = FOCUS, bool(message.focus)
    return told


def message_of(told: native.Message) -> Message:
    """A message that the library wrote."""
    if told.kind == MOTION:
        pointers = tuple(Pointer(p.id, p.x, p.y) for p in told.pointers[: told.count])
        return Motion(told.device, Action(told.action), pointers, told.index, told.flags, told.seq, told.moment_us, told.user_data)
    if told.kind == KEY:
        down = bool(told.down)
        return Key(told.device, told.scan, down, told.code, told.meta, told.repeat, told.flags, told.seq, told.moment_us, told.user_data)
    return Focus(bool(told.focus), told.seq, told.moment_us, told.user_data)


def fault_of(told: native.Fault) -> Fault:
    """A fault that the library wrote."""
    return Fault(told.place, Reason(told.reason), told.held, bool(told.key_down), told.next_repeat, bool(told.focus))
