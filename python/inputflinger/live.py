"""The live service."""
import ctypes
import dataclasses
import enum
from ctypes import byref
from types import TracebackType
from typing import FrozenSet, List, Optional, Sequence, Tuple, Type

from inputflinger import native
from inputflinger.errors import BadLayout, Status, WindowError, done, found
from inputflinger.messages import RESET, Message, i32, message_of, plain, u8, u16, u32, u64


@dataclasses.dataclass(frozen=True)
class Client:
    """A client of a service: a channel, 1 to 64, and a generation that no other client of the service has."""

    channel: int
    generation: int

    def plain(self) -> native.Client:
        return native.Client(u64(self.generation), u32(self.channel))


@dataclasses.dataclass(frozen=True)
class Handed:
    """A message that was received, with its client."""

    client: Client
    message: Message
    last: bool
    """Whether no other message of the same step is left to receive now."""


@dataclasses.dataclass(frozen=True)
class Rect:
    """The display pixels with left <= x < right and top <= y < bottom."""

    left: int
    top: int
    right: int
    bottom: int

    def plain(self) -> native.Rect:
        return native.Rect(i32(self.left), i32(self.top), i32(self.right), i32(self.bottom))


class WindowFlag(enum.IntFlag):
    """What a window asks for."""

    NOT_TOUCHABLE = 1
    NOT_FOCUSABLE = 2
    WATCH_OUTSIDE_TOUCH = 4
    SLIPPERY = 8
    SPY = 16
    PREVENT_SPLITTING = 32
    TRUSTED_OVERLAY = 64


class Occlusion(enum.IntEnum):
    """Whether a touch may go through a window to a window of another owner behind it."""

    BLOCK = 0
    """It may not: the window behind is given no pointer there."""
    OPACITY = 1
    """It may if the windows of the owner with this occlusion together hide at most 80 per cent there."""
    ALLOW = 2
    """It may."""


@dataclasses.dataclass(frozen=True)
class Window:
    """A window of a client; of no client, a wall, which takes touches that nobody is given. Its frame's left and top edges are the origin of what the client is sent. It can be touched in ``touchable``, which is the whole
    frame if it is None. Windows of one ``owner`` trust each other; ``opacity``, 0 to 100 per cent, is how much it hides of what is behind it, and ``occlusion``
    whether a touch may go through it to a window of another owner."""

    client: Optional[Client]
    frame: Rect
    flags: int = 0
    touchable: Optional[Sequence[Rect]] = None
    display: int = 0
    owner: int = 0
    opacity: int = 100
    occlusion: Occlusion = Occlusion.BLOCK

    def rects(self) -> Sequence[Rect]:
        return [self.frame] if self.touchable is None else self.touchable

    def plain(self) -> native.Window:
        trust = (native.UNUSED, u32(self.owner), u8(self.opacity), u8(self.occlusion))
        client = native.Client() if self.client is None else self.client.plain()
        return native.Window(client, self.frame.plain(), u32(self.flags), len(self.rects()), u8(self.display), *trust)


@dataclasses.dataclass(frozen=True)
class Panel:
    """How raw positions become display pixels: the ranges of the two axes, the display's natural size, and by how many quarters it is turned."""

    x: Tuple[int, int]
    y: Tuple[int, int]
    width: int
    height: int
    rotation: int = 0

    def plain(self) -> native.Panel:
        x, y = native.Axis(i32(self.x[0]), i32(self.x[1])), native.Axis(i32(self.y[0]), i32(self.y[1]))
        return native.Panel(x, y, u16(self.width), u16(self.height), u8(self.rotation))


@dataclasses.dataclass(frozen=True)
class Repeats:
    """When a key that a client's window holds is repeated: ``first_us`` after it went down, and then ``next_us`` after each repeat. Each is 1,000 to
    600,000,000 microseconds. The defaults are those of Android."""

    first_us: int = 500000
    next_us: int = 50000

    def plain(self) -> native.Repeats:
        return native.Repeats(u64(self.first_us), u64(self.next_us))


def _members(mask: int, first: int) -> FrozenSet[int]:
    """The places of the bits of a mask, the lowest of which has this number."""
    return frozenset(first + place for place in range(mask.bit_length()) if mask >> place & 1)


class Live:
    """Sends touches and keys to the windows of clients that come and go. ``limit_us`` is how long a client may leave a message unfinished;
    ``repeats`` says when held keys are repeated, and with None they are not.

    >>> from inputflinger import Action, Motion, Pointer
    >>> with Live() as live:
    ...     panel = live.add_touch(Panel((0, 1079), (0, 2399), 1080, 2400))
    ...     client = live.open()
    ...     live.windows(0, [Window(client, Rect(40, 0, 1080, 2400))])
    ...     live.args(1000, Motion(panel, Action.DOWN, [Pointer(0, 540, 1200)]))
    ...     message = live.next(client)
    ...     message.seq, message.action.name, message.pointers
    (1, 'DOWN', (Pointer(id=0, x=500, y=1200),))

    Times are microseconds of a clock of your own. Each refusal is an :class:`InputflingerError` with the status that include/inputflinger.h
    documents at the call. One thread uses a service at a time.
    """

    def __init__(self, limit_us: int = 5000000, displays: Optional[Sequence[int]] = None, repeats: Optional[Repeats] = Repeats()) -> None:
        self._handle = native.Handle()
        of_device = native.Displays((ctypes.c_uint8 * 8)(*map(u8, displays or [0] * 8)))
        told = native.Repeats() if repeats is None else repeats.plain()
        done(native.call("live_new_sized", byref(self._handle), u64(limit_us), byref(told), ctypes.sizeof(told), byref(of_device)))

    def add_touch(self, panel: Panel, display: int = 0, slots: int = 10) -> int:
        """Plugs in a touch panel. The answer is its device number."""
        told, device = panel.plain(), ctypes.c_uint8()
        done(native.call("live_add_touch_sized", byref(self._handle), u8(display), u8(slots), byref(told), ctypes.sizeof(told), byref(device)))
        return device.value

    def add_keys(self, layout: str, display: int = 0) -> int:
        """Plugs in a device with keys, whose layout is a text in the form of Android's .kl files. The answer is its device number."""
        text, device, line = layout.encode(), ctypes.c_uint8(), ctypes.c_uint64()
        status = native.call("live_add_keys", byref(self._handle), u8(display), text, len(text), byref(device), byref(line))
        if status == Status.BAD_LAYOUT:
            raise BadLayout(line.value)
        done(status)
        return device.value

    def remove_device(self, now_us: int, device: int) -> None:
        """Unplugs a device. What is down on it is cancelled."""
        done(native.call("live_remove_device", byref(self._handle), u64(now_us), u8(device)))

    def event(self, now_us: int, device: int, type: int, code: int, value: int) -> None:
        """Hands in an event of a device, with the type, code and value of the kernel's struct input_event."""
        done(native.call("live_event", byref(self._handle), u64(now_us), u8(device), u16(type), u16(code), i32(value)))

    def touch_down(self, now_us: int, device: int, id: int, x: int, y: int) -> None:
        """A finger goes down on a panel, at a position in the units of the panel. Its touch id is any 32-bit number that no other finger on the panel has.

        The next ``touch_frame`` dispatches what the fingers did. A 17th finger is refused with the status TOO_MANY_FINGERS. A panel that is driven so is to get
        no ``event`` and no ``args`` besides."""
        done(native.call("live_touch_down", byref(self._handle), u64(now_us), u8(device), i32(id), i32(x), i32(y)))

    def touch_motion(self, now_us: int, device: int, id: int, x: int, y: int) -> None:
        """A finger that is down on a panel moves."""
        done(native.call("live_touch_motion", byref(self._handle), u64(now_us), u8(device), i32(id), i32(x), i32(y)))

    def touch_up(self, now_us: int, device: int, id: int) -> None:
        """A finger that is down on a panel goes up. If it went down since the last frame, it gives nothing."""
        done(native.call("live_touch_up", byref(self._handle), u64(now_us), u8(device), i32(id)))

    def touch_cancel(self, now_us: int, device: int, id: int) -> None:
        """A finger that is down on a panel is cancelled, as a palm. The frame ends with it."""
        done(native.call("live_touch_cancel", byref(self._handle), u64(now_us), u8(device), i32(id)))

    def touch_frame(self, now_us: int, device: int) -> None:
        """Dispatches what the fingers of a panel did since the last frame."""
        done(native.call("live_touch_frame", byref(self._handle), u64(now_us), u8(device)))

    def args(self, now_us: int, message: Message) -> None:
        """Hands in a motion or a key of a device, in display pixels."""
        told = plain(message)
        done(native.call("live_args_sized", byref(self._handle), u64(now_us), byref(told), ctypes.sizeof(told)))

    def reset(self, now_us: int, device: int) -> None:
        """Hands in that a device lost events: everything down on it is cancelled."""
        told = native.Message(kind=RESET, device=u8(device))
        done(native.call("live_args_sized", byref(self._handle), u64(now_us), byref(told), ctypes.sizeof(told)))

    def open(self, user_data: int = 0, finishes: bool = False) -> Client:
        """Opens a client on the first free channel. Each of its messages has the user data. If it finishes by itself, each message counts as finished as
        soon as it is received."""
        client, options = native.Client(), native.Options(u64(user_data), bool(finishes))
        done(native.call("live_open_with_sized", byref(self._handle), byref(options), ctypes.sizeof(options), byref(client)))
        return Client(client.channel, client.generation)

    def user_data(self, client: Client) -> int:
        """The user data that an open client was opened with."""
        user_data = ctypes.c_uint64()
        done(native.call("live_user_data", byref(self._handle), byref(client.plain()), byref(user_data)))
        return user_data.value

    def close(self, now_us: int, client: Client) -> None:
        """Closes a client. Its window is no longer shown, and what it holds is cancelled."""
        done(native.call("live_close", byref(self._handle), u64(now_us), byref(client.plain())))

    def is_open(self, client: Client) -> bool:
        """Whether a client is open."""
        answer = ctypes.c_bool()
        done(native.call("live_is_open", byref(self._handle), byref(client.plain()), byref(answer)))
        return answer.value

    def client_at(self, channel: int) -> Optional[Client]:
        """The client that is open on a channel."""
        return self._client("live_client_at", u32(channel))

    def windows(self, now_us: int, windows: Sequence[Window]) -> None:
        """Shows windows, front to back, in place of all windows before."""
        rects = [rect.plain() for window in windows for rect in window.rects()]
        rows, areas = (native.Window * len(windows))(*(w.plain() for w in windows)), (native.Rect * len(rects))(*rects)
        named, size = ctypes.c_uint64(), ctypes.sizeof(native.Window)
        status = native.call("live_windows_sized", byref(self._handle), u64(now_us), rows, size, len(rows), areas, len(rects), byref(named))
        if status in (Status.NOT_OPEN, Status.TWICE):
            raise WindowError(status, named.value)
        done(status)

    def window(self, now_us: int, window: Window) -> None:
        """Replaces the window of a client. It stays where it is, front to back, and all other windows stay as they are.

        ``Status.NOT_SHOWN`` if the client has no window now, and ``Status.NOT_OPEN`` for a wall, which has no client."""
        rects, row = [rect.plain() for rect in window.rects()], window.plain()
        areas = (native.Rect * len(rects))(*rects)
        done(native.call("live_window_sized", byref(self._handle), u64(now_us), byref(row), ctypes.sizeof(row), areas, len(rects)))

    def focus(self, now_us: int, client: Optional[Client], display: int = 0) -> None:
        """Requests the focus of a display for a client, or for none."""
        told = byref(client.plain()) if client is not None else None
        done(native.call("live_focus", byref(self._handle), u64(now_us), u8(display), told))

    def pilfer(self, now_us: int, client: Client, device: int) -> None:
        """Lets a client's spy pilfer: it takes the pointers of a device that it holds from all other windows."""
        done(native.call("live_pilfer", byref(self._handle), u64(now_us), byref(client.plain()), u8(device)))

    def waiting(self) -> FrozenSet[int]:
        """The channels that have a message for their client."""
        mask = ctypes.c_uint64()
        done(native.call("live_waiting", byref(self._handle), byref(mask)))
        return _members(mask.value, 1)

    def next(self, client: Client) -> Optional[Message]:
        """Receives the next message of a client; None if there is none, or the client is not open."""
        message = native.Message()
        status = native.call("live_next_sized", byref(self._handle), byref(client.plain()), byref(message), ctypes.sizeof(message))
        return message_of(message) if found(status) else None

    def next_any(self) -> Optional[Handed]:
        """Receives the next message of any client, in the order in which the service sent them; None if there is none.

        Each client gets the messages that ``next`` would give it, in the same order."""
        client, message, last = native.Client(), native.Message(), ctypes.c_bool()
        size = ctypes.sizeof(message)
        status = native.call("live_next_any_sized", byref(self._handle), byref(client), byref(message), size, byref(last))
        if not found(status):
            return None
        return Handed(Client(client.channel, client.generation), message_of(message), last.value)

    def finish(self, now_us: int, client: Client, seq: int) -> None:
        """Says that a client is done with a message that it received."""
        done(native.call("live_finish", byref(self._handle), u64(now_us), byref(client.plain()), u64(seq)))

    def finish_through(self, now_us: int, client: Client, seq: int) -> None:
        """Says that a client is done with every message up to one that it received."""
        done(native.call("live_finish_through", byref(self._handle), u64(now_us), byref(client.plain()), u64(seq)))

    def due(self) -> Optional[int]:
        """The first time at which something is due. While input waits for memory, or a client is to be choked, released or reported, it is the clock."""
        time = ctypes.c_uint64()
        return time.value if found(native.call("live_due", byref(self._handle), byref(time))) else None

    def set_most(self, most: int) -> None:
        """Sets how many messages a client may leave unreceived, 10,000 at first. A client that has more is choked by the next call that may send
        something: the next ``advance`` reports its channel, a wall takes the place of its window, and it loses the focus. It has both back once it has
        finished all of its messages."""
        done(native.call("live_set_most", byref(self._handle), u64(most)))

    def is_choked(self, client: Client) -> bool:
        """Whether a client is open and choked."""
        answer = ctypes.c_bool()
        done(native.call("live_is_choked", byref(self._handle), byref(client.plain()), byref(answer)))
        return answer.value

    def reserve(self, events: int) -> None:
        """Makes room for the next events of devices, so that none of them is ``Status.WAITS``, if nothing waits now and no other call comes between."""
        done(native.call("live_reserve", byref(self._handle), u16(events)))

    def advance(self, now_us: int) -> FrozenSet[int]:
        """Runs everything that is due up to now. The answer is the channels that were reported as unresponsive."""
        mask = ctypes.c_uint64()
        done(native.call("live_advance", byref(self._handle), u64(now_us), byref(mask)))
        return _members(mask.value, 1)

    def clock(self) -> int:
        """The latest time that was handed in."""
        time = ctypes.c_uint64()
        done(native.call("live_clock", byref(self._handle), byref(time)))
        return time.value

    def focused(self, display: int = 0) -> Optional[Client]:
        """The client that has the focus of a display."""
        return self._client("live_focused", u8(display))

    def key_target(self) -> Optional[Client]:
        """The client that keys go to."""
        return self._client("live_key_target")

    def window_at(self, x: int, y: int, display: int = 0) -> Optional[Client]:
        """The client whose window a touch at a pixel of a display goes to; None if there is no window, or a wall."""
        return self._client("live_window_at", u8(display), i32(x), i32(y))

    def is_responsive(self, client: Client) -> bool:
        """Whether a client is open and responds."""
        answer = ctypes.c_bool()
        done(native.call("live_is_responsive", byref(self._handle), byref(client.plain()), byref(answer)))
        return answer.value

    def holds(self, client: Client, device: int) -> FrozenSet[int]:
        """The ids of the pointers of a device that a client holds."""
        ids = ctypes.c_uint32()
        done(native.call("live_holds", byref(self._handle), byref(client.plain()), u8(device), byref(ids)))
        return _members(ids.value, 0)

    def keys_down(self, device: int) -> Sequence[int]:
        """The scan codes of the keys that are down on a device, rising. A window that gets the focus while a key is down is sent nothing for that key."""
        scan = ctypes.c_uint16()
        keys: List[int] = []
        while found(native.call("live_first_key", byref(self._handle), u8(device), keys[-1] + 1 if keys else 0, byref(scan))):
            keys.append(scan.value)
        return keys

    def free(self) -> None:
        """Frees the service; each later call raises an error with the status FREE."""
        native.call("live_free", byref(self._handle))

    def _client(self, name: str, *arguments: int) -> Optional[Client]:
        client = native.Client()
        if not found(native.call(name, byref(self._handle), *arguments, byref(client))):
            return None
        return Client(client.channel, client.generation)

    def __enter__(self) -> "Live":
        return self

    def __exit__(self, kind: Optional[Type[BaseException]], error: Optional[BaseException], trace: Optional[TracebackType]) -> None:
        self.free()

    def __del__(self) -> None:
        if hasattr(self, "_handle"):
            self.free()
