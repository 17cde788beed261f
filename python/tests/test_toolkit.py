"""A toy toolkit, tested by the fixture: what its window is sent has to be a well-formed stream, whatever the toolkit does with fingers."""
from typing import Callable, Dict

import pytest

from inputflinger import Action, Broken, Judge, Motion, Pointer, Reason


class Toolkit:
    """Makes motions of the fingers of one touch screen, and sends them to its window."""

    def __init__(self, send: Callable[[Motion], None]) -> None:
        self.send = send
        self.fingers: Dict[int, Pointer] = {}

    def motion(self, action: Action, id: int = -1) -> None:
        pointers = [self.fingers[known] for known in sorted(self.fingers)]
        self.send(Motion(1, action, pointers, index=sorted(self.fingers).index(id) if id >= 0 else 0))

    def touch(self, id: int, x: int, y: int) -> None:
        self.fingers[id] = Pointer(id, x, y)
        self.motion(*((Action.DOWN,) if len(self.fingers) == 1 else (Action.POINTER_DOWN, id)))

    def release(self, id: int) -> None:
        self.motion(*((Action.UP,) if len(self.fingers) == 1 else (Action.POINTER_UP, id)))
        del self.fingers[id]

    def cancel(self) -> None:
        self.motion(Action.CANCEL)
        self.fingers.clear()


def test_fingers_in_any_order(inputflinger_judge: Judge) -> None:
    toolkit = Toolkit(inputflinger_judge.step)
    toolkit.touch(4, 10, 20)
    toolkit.touch(1, 30, 40)
    toolkit.release(4)
    toolkit.touch(0, 50, 60)
    toolkit.cancel()
    toolkit.touch(0, 50, 60)
    toolkit.release(0)


def test_a_toolkit_that_forgets_its_cancel(inputflinger_judge: Judge) -> None:
    toolkit = Toolkit(inputflinger_judge.step)
    toolkit.touch(0, 10, 20)
    toolkit.fingers.clear()
    with pytest.raises(Broken) as broken:
        toolkit.touch(0, 10, 20)
    assert broken.value.fault.reason == Reason.ALREADY_DOWN
    toolkit.cancel()


def test_the_fixture_fails_a_test_that_leaves_a_finger_down(pytester: pytest.Pytester) -> None:
    pytester.makeconftest('pytest_plugins = ["inputflinger.pytest_plugin"]')
    pytester.makepyfile(
        """
        from inputflinger import Action, Motion, Pointer

        def test_a_tap_without_an_end(inputflinger_judge):
            inputflinger_judge.step(Motion(1, Action.DOWN, [Pointer(0, 10, 20)]))
        """
    )
    pytester.runpytest("-p", "no:cacheprovider").assert_outcomes(passed=1, errors=1)
