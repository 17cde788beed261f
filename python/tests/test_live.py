from typing import Optional

import pytest

from inputflinger import FLAG_OBSCURED, Action, BadLayout, Client, Focus, Handed, InputflingerError, Judge, Key, Live, Motion, Occlusion, Panel, Pointer, Rect, Repeats, Status, Window, WindowError, WindowFlag

PANEL = Panel((0, 1079), (0, 2399), 1080, 2400)
WHOLE = Rect(0, 0, 1080, 2400)
EV_SYN, EV_KEY, EV_ABS = 0, 1, 3
SLOT, POSITION_X, POSITION_Y, TRACKING_ID = 0x2F, 0x35, 0x36, 0x39


def refused(call, *arguments, **named) -> Status:
    with pytest.raises(InputflingerError) as error:
        call(*arguments, **named)
    return error.value.status


def test_a_finger_of_a_panel_reaches_the_window_below_it() -> None:
    with Live() as live, Judge() as judge:
        panel = live.add_touch(PANEL)
        left, right = live.open(), live.open()
        live.windows(0, [Window(left, Rect(0, 0, 540, 2400)), Window(right, Rect(540, 0, 1080, 2400))])
        live.reserve(5)
        for kind, code, value in ((EV_ABS, SLOT, 0), (EV_ABS, TRACKING_ID, 45), (EV_ABS, POSITION_X, 600), (EV_ABS, POSITION_Y, 200), (EV_SYN, 0, 0)):
            live.event(1000, panel, kind, code, value)
        assert live.waiting() == {2} and live.holds(right, panel) == {0} and live.holds(left, panel) == frozenset()
        message = live.next(right)
        assert message == Motion(1, Action.DOWN, (Pointer(0, 60, 200),), seq=1, time_us=1000)
        judge.step(message)
        live.remove_device(2000, panel)
        message = live.next(right)
        assert message.action == Action.CANCEL
        judge.step(message)
        assert judge.is_whole() and live.next(right) is None
        live.finish(3000, right, 1)
        assert refused(live.finish, 3000, right, 1) == Status.UNKNOWN_SEQ
        assert refused(live.finish_through, 4000, right, 3) == Status.UNKNOWN_SEQ
        assert live.clock() == 3000
        live.finish_through(4000, right, 2)
        assert refused(live.finish, 4000, right, 2) == Status.UNKNOWN_SEQ
        assert live.clock() == 4000 and live.due() is None


def test_fingers_come_one_by_one() -> None:
    with Live() as live:
        panel, client = live.add_touch(PANEL, slots=16), live.open()
        live.windows(0, [Window(client, WHOLE)])
        live.touch_down(1000, panel, 2147483647, 540, 1200)
        live.touch_down(1000, panel, -3, 90, 200)
        live.touch_motion(1000, panel, -3, 100, 200)
        assert live.next(client) is None
        live.touch_frame(1000, panel)
        live.touch_up(2000, panel, 2147483647)
        live.touch_frame(2000, panel)
        live.touch_cancel(3000, panel, -3)
        first, second = Pointer(0, 540, 1200), Pointer(1, 100, 200)
        wanted = [(Action.DOWN, (first,)), (Action.POINTER_DOWN, (first, second)), (Action.POINTER_UP, (first, second)), (Action.CANCEL, (second,))]
        for action, pointers in wanted:
            message = live.next(client)
            assert (message.action, message.pointers) == (action, pointers)
        assert live.next(client) is None


def test_a_seventeenth_finger_is_refused() -> None:
    with Live() as live:
        panel = live.add_touch(PANEL, slots=16)
        for finger in range(16):
            live.touch_down(1000, panel, 100 * finger, 10 * finger, 0)
        assert refused(live.touch_down, 2000, panel, 1, 0, 0) == Status.TOO_MANY_FINGERS
        assert refused(live.touch_down, 2000, panel, 300, 0, 0) == Status.FINGER_DOWN
        assert refused(live.touch_motion, 2000, panel, 1, 0, 0) == Status.NO_FINGER
        assert refused(live.touch_up, 2000, panel, 1) == refused(live.touch_cancel, 2000, panel, 1) == Status.NO_FINGER
        assert refused(live.touch_frame, 2000, 2) == Status.NO_DEVICE and refused(live.touch_frame, 2000, 9) == Status.OUT_OF_RANGE
        assert live.clock() == 2000
        live.touch_up(2000, panel, 300)
        live.touch_down(2000, panel, 1, 0, 0)
        with pytest.raises(OverflowError):
            live.touch_up(2000, panel, 2147483648)


def test_messages_are_handed_out_in_the_order_of_the_steps() -> None:
    with Live(limit_us=1000000) as live:
        left, right = live.open(), live.open()
        live.windows(0, [Window(left, Rect(0, 0, 540, 2400)), Window(right, Rect(540, 0, 1080, 2400))])
        assert live.next_any() is None
        live.focus(0, right)
        live.focus(0, left)
        assert live.next_any() == Handed(right, Focus(True, 1, 0), True)
        assert live.next_any() == Handed(right, Focus(False, 2, 0), False)
        assert live.next_any() == Handed(left, Focus(True, 1, 0), True)
        assert live.next_any() is None and live.next(left) is None


def test_a_key_is_repeated_and_a_client_is_late() -> None:
    with Live(limit_us=1000000) as live:
        keys = live.add_keys("key 30 A\n")
        client = live.open()
        live.windows(0, [Window(client, WHOLE)])
        assert live.key_target() is None and live.due() is None
        live.focus(0, client)
        assert live.focused() == client and live.key_target() == client
        live.event(1000, keys, EV_KEY, 30, 1)
        assert live.next(client) == Focus(True, 1, 0)
        live.finish(1000, client, 1)
        assert live.next(client) == Key(1, 30, True, code=29, seq=2, time_us=1000)
        assert live.due() == 501000
        assert live.advance(501000) == frozenset()
        assert live.next(client) == Key(1, 30, True, code=29, repeat=1, seq=3, time_us=501000)
        assert live.is_responsive(client)
        assert live.advance(1001000) == {1} and not live.is_responsive(client)


def due_of_a_held_key(repeats: Optional[Repeats]) -> Optional[int]:
    with Live(repeats=repeats) as live:
        keys = live.add_keys("key 30 A\n")
        client = live.open(finishes=True)
        live.windows(0, [Window(client, WHOLE)])
        live.focus(0, client)
        live.event(1000000, keys, EV_KEY, 30, 1)
        while live.next(client) is not None:
            pass
        return live.due()


def test_when_a_held_key_is_repeated() -> None:
    assert due_of_a_held_key(Repeats()) == 1500000
    assert due_of_a_held_key(Repeats(300000, 40000)) == 1300000
    assert due_of_a_held_key(None) is None
    assert refused(Live, repeats=Repeats(999, 50000)) == Status.OUT_OF_RANGE
    assert refused(Live, repeats=Repeats(500000, 600000001)) == Status.OUT_OF_RANGE
    assert refused(Live, repeats=Repeats(500000, 0)) == Status.OUT_OF_RANGE


def test_keys_that_are_down() -> None:
    with Live() as live:
        keys = live.add_keys("key 30 A\n")
        assert live.keys_down(keys) == [] and live.keys_down(8) == []
        for scan in (42, 30, 65535, 0):
            live.event(1000, keys, EV_KEY, scan, 1)
        assert live.keys_down(keys) == [0, 30, 42, 65535]
        live.event(2000, keys, EV_KEY, 30, 0)
        assert live.keys_down(keys) == [0, 42, 65535]
        live.remove_device(3000, keys)
        assert live.keys_down(keys) == [] and refused(live.keys_down, 9) == Status.OUT_OF_RANGE


def test_clients_come_and_go() -> None:
    with Live() as live:
        first = live.open()
        assert first == Client(1, 1) and live.client_at(1) == first and live.is_open(first)
        live.close(0, first)
        assert not live.is_open(first) and live.client_at(1) is None
        assert live.open() == Client(1, 2)
        assert refused(live.close, 0, first) == Status.NOT_OPEN
        with pytest.raises(WindowError) as error:
            live.windows(0, [Window(live.client_at(1), WHOLE), Window(first, WHOLE)])
        assert error.value.status == Status.NOT_OPEN and error.value.named == 1


def test_a_window_of_another_owner_blocks_or_marks_a_touch() -> None:
    with Live() as live:
        panel = live.add_touch(PANEL)
        upper, lower = live.open(), live.open()
        for now, occlusion, wanted in ((1000, Occlusion.BLOCK, None), (2000, Occlusion.ALLOW, FLAG_OBSCURED)):
            live.windows(now, [Window(upper, WHOLE, WindowFlag.NOT_TOUCHABLE, owner=1, occlusion=occlusion), Window(lower, WHOLE)])
            for action in (Action.DOWN, Action.UP):
                live.args(now, Motion(panel, action, [Pointer(0, 540, 1200)]))
                message = live.next(lower)
                assert (None if message is None else message.flags) == wanted
        assert refused(live.windows, 3000, [Window(lower, WHOLE, opacity=101)]) == Status.OUT_OF_RANGE


def test_a_wall_takes_touches_that_nobody_is_given() -> None:
    with Live() as live:
        panel, client = live.add_touch(PANEL), live.open()
        for now, windows, wanted in ((1000, [Window(None, WHOLE), Window(None, WHOLE), Window(client, WHOLE)], None), (2000, [Window(client, WHOLE)], Action.DOWN)):
            live.windows(now, windows)
            live.args(now, Motion(panel, Action.DOWN, [Pointer(0, 540, 1200)]))
            message = live.next(client)
            assert (None if message is None else message.action) == wanted
            live.args(now, Motion(panel, Action.UP, [Pointer(0, 540, 1200)]))


def test_a_window_is_replaced_where_it_is() -> None:
    with Live() as live:
        panel = live.add_touch(PANEL)
        front, back = live.open(), live.open()
        moved = Window(front, Rect(0, 1200, 1080, 2400))
        assert refused(live.window, 0, moved) == Status.NOT_SHOWN
        live.windows(0, [Window(front, WHOLE), Window(back, WHOLE)])
        live.window(1000, moved)
        for y, wanted in ((600, (None, 600)), (1800, (600, None))):
            for action in (Action.DOWN, Action.UP):
                live.args(2000, Motion(panel, action, [Pointer(0, 540, y)]))
                messages = [live.next(client) for client in (front, back)]
                assert tuple(None if message is None else message.pointers[0].y for message in messages) == wanted
        assert refused(live.window, 9000, Window(front, WHOLE, opacity=101)) == Status.OUT_OF_RANGE
        assert refused(live.window, 9000, Window(None, WHOLE)) == Status.NOT_OPEN
        assert live.clock() == 2000
        live.close(3000, front)
        assert refused(live.window, 9000, moved) == Status.NOT_OPEN


def test_a_client_that_does_not_receive_is_choked_until_it_has_finished_everything() -> None:
    with Live() as live:
        panel = live.add_touch(PANEL)
        client, behind = live.open(), live.open()
        live.windows(0, [Window(client, WHOLE), Window(behind, WHOLE)])
        live.focus(0, client)
        live.set_most(2)
        for action in (Action.DOWN, Action.UP):
            live.args(1000, Motion(panel, action, [Pointer(0, 540, 1200)]))
        assert live.due() == 1000 and not live.is_choked(client)
        assert live.advance(2000) == {1} and live.is_choked(client)
        assert live.focused() is None and live.advance(3000) == frozenset()
        live.args(3000, Motion(panel, Action.DOWN, [Pointer(0, 540, 1200)]))
        assert live.holds(client, panel) == live.holds(behind, panel) == frozenset()
        live.args(3000, Motion(panel, Action.UP, [Pointer(0, 540, 1200)]))
        last = 0
        while (message := live.next(client)) is not None:
            last = message.seq
        assert last == 4 and message is None and live.is_choked(client)
        live.finish_through(4000, client, last)
        assert live.due() == 4000 and live.advance(5000) == frozenset()
        assert not live.is_choked(client) and live.next(client) == Focus(True, 5, 5000)
        live.close(6000, client)
        assert not live.is_choked(client)


def test_a_spy_pilfers() -> None:
    with Live() as live:
        panel = live.add_touch(PANEL)
        spy, behind = live.open(), live.open()
        live.windows(0, [Window(spy, WHOLE, WindowFlag.SPY), Window(behind, WHOLE)])
        assert refused(live.pilfer, 0, spy, panel) == Status.NOTHING_HELD
        live.args(1000, Motion(panel, Action.DOWN, [Pointer(0, 10, 20)]))
        live.pilfer(2000, spy, panel)
        assert [live.next(behind).action, live.next(behind).action] == [Action.DOWN, Action.CANCEL]
        assert refused(live.pilfer, 2000, behind, panel) == Status.NOT_SPY


def test_refusals() -> None:
    assert refused(Live, 999) == Status.OUT_OF_RANGE
    with Live() as live:
        assert refused(live.add_touch, PANEL, 4) == Status.OUT_OF_RANGE
        assert refused(live.add_touch, PANEL, 0, 17) == Status.BAD_SLOTS
        assert refused(live.event, 0, 1, 0, 0, 0) == Status.NO_DEVICE
        with pytest.raises(BadLayout) as error:
            live.add_keys("key 30 A\nkey 30 B\n")
        assert error.value.line == 2
        with pytest.raises(OverflowError):
            live.advance(-1)


def test_a_client_that_finishes_by_itself_and_its_user_data() -> None:
    with Live() as live:
        panel = live.add_touch(PANEL)
        own, other = live.open(user_data=11, finishes=True), live.open()
        assert live.user_data(own) == 11 and live.user_data(other) == 0 and live.window_at(540, 1200) is None
        live.windows(0, [Window(own, WHOLE), Window(other, WHOLE)])
        assert live.window_at(540, 1200) == own and live.window_at(1080, 1200) is None and live.window_at(540, 1200, 1) is None
        assert refused(live.window_at, 0, 0, 4) == Status.OUT_OF_RANGE
        live.args(1000, Motion(panel, Action.DOWN, [Pointer(0, 540, 1200)]))
        assert live.due() == 5001000
        assert live.next(own) == Motion(1, Action.DOWN, (Pointer(0, 540, 1200),), seq=1, time_us=1000, user_data=11)
        assert live.due() is None and refused(live.finish, 1000, own, 1) == Status.UNKNOWN_SEQ
        live.close(2000, own)
        assert refused(live.user_data, own) == Status.NOT_OPEN and live.window_at(540, 1200) == other
