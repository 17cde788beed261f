"""The calls and structs of include/inputflinger.h."""
import ctypes
import os
from ctypes import POINTER, c_bool, c_char_p, c_int, c_int32, c_size_t, c_uint8, c_uint16, c_uint32, c_uint64, c_void_p
from typing import Any

NAME = "libinputflinger.so.1"


class Handle(ctypes.Structure):
    """``struct inputflinger_judge`` and ``struct inputflinger_live``."""

    _fields_ = [("at", c_void_p), ("is_open", c_bool)]


class Pointer(ctypes.Structure):
    _fields_ = [("x", c_int32), ("y", c_int32), ("id", c_uint32)]


class Message(ctypes.Structure):
    _fields_ = [
        ("seq", c_uint64),
        ("moment_us", c_uint64),
        ("kind", c_uint32),
        ("flags", c_uint32),
        ("meta", c_uint32),
        ("repeat", c_uint32),
        ("scan", c_uint16),
        ("code", c_uint16),
        ("device", c_uint8),
        ("action", c_uint8),
        ("index", c_uint8),
        ("count", c_uint8),
        ("down", c_uint8),
        ("focus", c_uint8),
        ("pointers", Pointer * 16),
        ("user_data", c_uint64),
    ]


class Fault(ctypes.Structure):
    _fields_ = [
        ("place", c_uint64),
        ("next_repeat", c_uint64),
        ("held", c_uint32),
        ("reason", c_uint32),
        ("key_down", c_uint8),
        ("focus", c_uint8),
    ]


class State(ctypes.Structure):
    _fields_ = [("ids", c_uint32 * 8), ("focus", c_uint8)]


class Key(ctypes.Structure):
    _fields_ = [("device", c_uint16), ("scan", c_uint16)]


class Client(ctypes.Structure):
    _fields_ = [("generation", c_uint64), ("channel", c_uint32)]


class Options(ctypes.Structure):
    _fields_ = [("user_data", c_uint64), ("finishes", c_uint8)]


class Rect(ctypes.Structure):
    _fields_ = [("left", c_int32), ("top", c_int32), ("right", c_int32), ("bottom", c_int32)]


class Window(ctypes.Structure):
    _fields_ = [
        ("client", Client),
        ("frame", Rect),
        ("flags", c_uint32),
        ("rects", c_uint32),
        ("display", c_uint8),
        ("unused", c_uint8 * 7),
        ("owner", c_uint32),
        ("opacity", c_uint8),
        ("occlusion", c_uint8),
    ]


UNUSED = (c_uint8 * 7)()


class Axis(ctypes.Structure):
    _fields_ = [("min", c_int32), ("max", c_int32)]


class Panel(ctypes.Structure):
    _fields_ = [("x", Axis), ("y", Axis), ("width", c_uint16), ("height", c_uint16), ("rotation", c_uint8)]


class Displays(ctypes.Structure):
    _fields_ = [("of_device", c_uint8 * 8)]


class Repeats(ctypes.Structure):
    _fields_ = [("first_us", c_uint64), ("next_us", c_uint64)]


class File(ctypes.Structure):
    _fields_ = [("bytes", c_char_p), ("len", c_size_t)]


class Ran(ctypes.Structure):
    _fields_ = [("out_len", c_size_t), ("err_len", c_size_t), ("status", c_uint32)]


_HANDLE, _CLIENT = POINTER(Handle), POINTER(Client)
_U8, _U32, _U64, _SIZE = POINTER(c_uint8), POINTER(c_uint32), POINTER(c_uint64), POINTER(c_size_t)

# The arguments of each call; each answers a status.
CALLS = {
    "judge_new": [_HANDLE],
    "judge_step_sized": [_HANDLE, POINTER(Message), c_size_t, POINTER(Fault), c_size_t],
    "judge_state_sized": [_HANDLE, POINTER(State), c_size_t],
    "judge_keys": [_HANDLE, POINTER(Key), c_size_t, _SIZE],
    "judge_free": [_HANDLE],
    "live_new_sized": [_HANDLE, c_uint64, POINTER(Repeats), c_size_t, POINTER(Displays)],
    "live_free": [_HANDLE],
    "live_add_touch_sized": [_HANDLE, c_uint8, c_uint8, POINTER(Panel), c_size_t, _U8],
    "live_add_keys": [_HANDLE, c_uint8, c_char_p, c_size_t, _U8, _U64],
    "live_remove_device": [_HANDLE, c_uint64, c_uint8],
    "live_event": [_HANDLE, c_uint64, c_uint8, c_uint16, c_uint16, c_int32],
    "live_touch_down": [_HANDLE, c_uint64, c_uint8, c_int32, c_int32, c_int32],
    "live_touch_motion": [_HANDLE, c_uint64, c_uint8, c_int32, c_int32, c_int32],
    "live_touch_up": [_HANDLE, c_uint64, c_uint8, c_int32],
    "live_touch_cancel": [_HANDLE, c_uint64, c_uint8, c_int32],
    "live_touch_frame": [_HANDLE, c_uint64, c_uint8],
    "live_args_sized": [_HANDLE, c_uint64, POINTER(Message), c_size_t],
    "live_open": [_HANDLE, _CLIENT],
    "live_open_with_sized": [_HANDLE, POINTER(Options), c_size_t, _CLIENT],
    "live_user_data": [_HANDLE, _CLIENT, _U64],
    "live_close": [_HANDLE, c_uint64, _CLIENT],
    "live_is_open": [_HANDLE, _CLIENT, POINTER(c_bool)],
    "live_client_at": [_HANDLE, c_uint32, _CLIENT],
    "live_windows_sized": [_HANDLE, c_uint64, POINTER(Window), c_size_t, c_size_t, POINTER(Rect), c_size_t, _U64],
    "live_window_sized": [_HANDLE, c_uint64, POINTER(Window), c_size_t, POINTER(Rect), c_size_t],
    "live_focus": [_HANDLE, c_uint64, c_uint8, _CLIENT],
    "live_pilfer": [_HANDLE, c_uint64, _CLIENT, c_uint8],
    "live_waiting": [_HANDLE, _U64],
    "live_next_sized": [_HANDLE, _CLIENT, POINTER(Message), c_size_t],
    "live_next_any_sized": [_HANDLE, _CLIENT, POINTER(Message), c_size_t, POINTER(c_bool)],
    "live_finish": [_HANDLE, c_uint64, _CLIENT, c_uint64],
    "live_finish_through": [_HANDLE, c_uint64, _CLIENT, c_uint64],
    "live_due": [_HANDLE, _U64],
    "live_set_most": [_HANDLE, c_uint64],
    "live_is_choked": [_HANDLE, _CLIENT, POINTER(c_bool)],
    "live_reserve": [_HANDLE, c_uint16],
    "live_advance": [_HANDLE, c_uint64, _U64],
    "live_clock": [_HANDLE, _U64],
    "live_focused": [_HANDLE, c_uint8, _CLIENT],
    "live_key_target": [_HANDLE, _CLIENT],
    "live_window_at": [_HANDLE, c_uint8, c_int32, c_int32, _CLIENT],
    "live_is_responsive": [_HANDLE, _CLIENT, POINTER(c_bool)],
    "live_holds": [_HANDLE, _CLIENT, c_uint8, _U32],
    "live_first_key": [_HANDLE, c_uint8, c_uint32, POINTER(c_uint16)],
    "run": [c_char_p, c_size_t, POINTER(File), c_size_t, c_void_p, c_size_t, c_void_p, c_size_t, POINTER(Ran)],
}


def _load() -> ctypes.CDLL:
    """The library that INPUTFLINGER_LIBRARY names, or that of the wheel, of `make -C lib`, or of the system."""
    here = os.path.dirname(os.path.abspath(__file__))
    named = os.environ.get("INPUTFLINGER_LIBRARY")
    places = [named] if named else [os.path.join(here, NAME), os.path.join(here, "../../lib/out", NAME)]
    found = next((place for place in places if os.path.exists(place)), named or NAME)
    library = ctypes.CDLL(found)
    for name, arguments in CALLS.items():
        call = getattr(library, "inputflinger_" + name)
        call.argtypes, call.restype = arguments, c_int
    library.inputflinger_status_text.argtypes, library.inputflinger_status_text.restype = [c_int], c_char_p
    library.inputflinger_version.argtypes, library.inputflinger_version.restype = [], c_char_p
    return library


_LIBRARY = _load()


def call(name: str, *arguments: Any) -> int:
    """Makes a call of the library, whose name is given without its prefix. The answer is its status."""
    status: int = getattr(_LIBRARY, "inputflinger_" + name)(*arguments)
    return status


def status_text(status: int) -> str:
    """What a status means.

    >>> status_text(3)
    'out of memory'
    """
    text: bytes = _LIBRARY.inputflinger_status_text(status)
    return text.decode("ascii")


def version() -> str:
    """The release of the library."""
    text: bytes = _LIBRARY.inputflinger_version()
    return text.decode("ascii")
