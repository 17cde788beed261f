"""The judge of a stream."""
import ctypes
import dataclasses
from ctypes import byref
from types import TracebackType
from typing import List, Optional, Tuple, Type

from inputflinger import native
from inputflinger.errors import Broken, Status, done
from inputflinger.messages import Message, fault_of, plain


@dataclasses.dataclass(frozen=True)
class State:
    """The pointer ids that are down on each device as bits, those of device 1 first, and whether the window has the focus."""

    ids: Tuple[int, ...]
    focus: bool


@dataclasses.dataclass(frozen=True)
class HeldKey:
    """A key that is down: its device, and the kernel's scan code."""

    device: int
    scan: int


class Judge:
    """Accepts the messages that one window is sent, one by one, or reports why one is not allowed.

    It frees its memory at the end of a ``with``, by :meth:`free`, or when it is collected. One thread uses it at a time.
    """

    def __init__(self) -> None:
        self._handle = native.Handle()
        done(native.call("judge_new", byref(self._handle)))

    def step(self, message: Message) -> None:
        """Accepts the next message. Raises :class:`Broken` if it is not allowed; the judge is then unchanged."""
        told, fault = plain(message), native.Fault()
        status = native.call("judge_step_sized", byref(self._handle), byref(told), ctypes.sizeof(told), byref(fault), ctypes.sizeof(fault))
        if status == Status.BROKEN:
            raise Broken(fault_of(fault))
        done(status)

    def state(self) -> State:
        """What is down, and the focus, as the accepted messages leave them."""
        state = native.State()
        done(native.call("judge_state_sized", byref(self._handle), byref(state), ctypes.sizeof(state)))
        return State(tuple(state.ids), bool(state.focus))

    def keys_down(self) -> List[HeldKey]:
        """The keys that are down, by rising device and scan code."""
        count = ctypes.c_size_t()
        status = native.call("judge_keys", byref(self._handle), None, 0, byref(count))
        if status != Status.NO_ROOM:
            done(status)
        keys = (native.Key * count.value)()
        done(native.call("judge_keys", byref(self._handle), keys, len(keys), byref(count)))
        return [HeldKey(key.device, key.scan) for key in keys]

    def is_whole(self) -> bool:
        """Whether the stream may end here: no pointer and no key is down.

        >>> from inputflinger import Key
        >>> with Judge() as judge:
        ...     judge.step(Key(device=1, scan=30, down=True))
        ...     judge.is_whole()
        False
        """
        return not any(self.state().ids) and not self.keys_down()

    def free(self) -> None:
        """Frees the judge; each later call raises an error with the status FREE."""
        native.call("judge_free", byref(self._handle))

    def __enter__(self) -> "Judge":
        return self

    def __exit__(self, kind: Optional[Type[BaseException]], error: Optional[BaseException], trace: Optional[TracebackType]) -> None:
        self.free()

    def __del__(self) -> None:
        if hasattr(self, "_handle"):
            self.free()
