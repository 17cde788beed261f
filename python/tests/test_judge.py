import pytest

from inputflinger import FLAG_CANCELED, Action, Broken, Fault, Focus, HeldKey, InputflingerError, Judge, Key, Motion, Pointer, Reason, State, Status

ONE = [Pointer(0, 10, 20)]
TWO = [Pointer(0, 10, 20), Pointer(5, 30, 40)]


def test_a_gesture_of_two_fingers() -> None:
    with Judge() as judge:
        judge.step(Motion(1, Action.DOWN, ONE))
        judge.step(Motion(1, Action.POINTER_DOWN, TWO, index=1))
        assert judge.state() == State((0b100001, 0, 0, 0, 0, 0, 0, 0), False)
        judge.step(Motion(1, Action.POINTER_UP, TWO, index=1, flags=FLAG_CANCELED))
        judge.step(Motion(1, Action.UP, ONE))
        assert judge.is_whole()


def test_a_second_down_is_refused_and_changes_nothing() -> None:
    with Judge() as judge:
        judge.step(Motion(3, Action.DOWN, ONE))
        with pytest.raises(Broken) as refused:
            judge.step(Motion(3, Action.DOWN, ONE))
        assert refused.value.status == Status.BROKEN
        assert refused.value.fault == Fault(1, Reason.ALREADY_DOWN, 1, False, 0, False)
        judge.step(Motion(3, Action.UP, ONE))


def test_keys_and_the_focus() -> None:
    with Judge() as judge:
        judge.step(Focus(True))
        judge.step(Key(2, 48, True))
        judge.step(Key(2, 30, True))
        judge.step(Key(2, 30, True, repeat=1))
        assert judge.keys_down() == [HeldKey(2, 30), HeldKey(2, 48)]
        with pytest.raises(Broken) as refused:
            judge.step(Key(2, 30, True, repeat=3))
        assert refused.value.fault == Fault(4, Reason.REPEAT_OUT_OF_TURN, 0, True, 2, True)
        assert judge.state().focus and not judge.is_whole()


def test_a_number_out_of_its_range() -> None:
    with Judge() as judge:
        with pytest.raises(InputflingerError) as refused:
            judge.step(Motion(9, Action.DOWN, ONE))
        assert refused.value.status == Status.OUT_OF_RANGE
        assert str(refused.value) == "a number is out of its range"
        for message in (Motion(256 + 1, Action.DOWN, ONE), Motion(1, Action.DOWN, [Pointer(0, 1 << 31, 0)]), Motion(1, Action.MOVE, ONE * 17)):
            with pytest.raises(OverflowError):
                judge.step(message)


def test_a_freed_judge() -> None:
    judge = Judge()
    judge.free()
    judge.free()
    with pytest.raises(InputflingerError) as refused:
        judge.state()
    assert refused.value.status == Status.FREE
