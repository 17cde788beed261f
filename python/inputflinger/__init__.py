"""Android's input service for programs in Python, over ``libinputflinger.so.1``.

A :class:`Judge` is shown the messages of one stream, one by one, and reports the first at which the stream is no longer well-formed:

>>> from inputflinger import Action, Broken, Judge, Motion, Pointer
>>> down = Motion(device=1, action=Action.DOWN, pointers=[Pointer(id=0, x=540, y=1200)])
>>> with Judge() as judge:
...     judge.step(down)
...     try:
...         judge.step(down)
...     except Broken as broken:
...         print(broken.fault.place, bin(broken.fault.held), broken.fault.reason.name)
...     judge.state().ids[0]
1 0b1 ALREADY_DOWN
1

:func:`run` runs the program over files in memory, and a :class:`Live` sends touches and keys to the windows of clients. What the library does is written
in Rattle and proved; this package declares its calls and is tested.
"""
from inputflinger.errors import BadLayout, Broken, InputflingerError, RunError, Status, WindowError
from inputflinger.judge import HeldKey, Judge, State
from inputflinger.live import Client, Handed, Live, Occlusion, Panel, Rect, Repeats, Window, WindowFlag
from inputflinger.messages import FLAG_CANCELED, FLAG_OBSCURED, FLAG_PARTLY_OBSCURED, Action, Fault, Focus, Key, Message, Motion, Pointer, Reason
from inputflinger.native import version
from inputflinger.program import Ran, run

__all__ = [
    "FLAG_CANCELED",
    "FLAG_OBSCURED",
    "FLAG_PARTLY_OBSCURED",
    "Action",
    "BadLayout",
    "Broken",
    "Client",
    "Fault",
    "Focus",
    "Handed",
    "HeldKey",
    "InputflingerError",
    "Judge",
    "Key",
    "Live",
    "Message",
    "Motion",
    "Occlusion",
    "Panel",
    "Pointer",
    "Ran",
    "Reason",
    "Rect",
    "Repeats",
    "RunError",
    "State",
    "Status",
    "Window",
    "WindowError",
    "WindowFlag",
    "run",
    "version",
]
