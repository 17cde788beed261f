//! The answers of a live service.

use inputflinger::{
    window_flags, Action, Body, Key, Live, LiveError, Message, Motion, Occlusion, Options, Panel,
    Pointer, Rect, Repeats, Window, FLAG_OBSCURED,
};

const PANEL: Panel = Panel {
    x: (0, 1079),
    y: (0, 2399),
    width: 1080,
    height: 2400,
    rotation: 0,
};

const SCREEN: Rect = Rect {
    left: 0,
    top: 0,
    right: 1080,
    bottom: 2400,
};

fn window(client: inputflinger::Client, flags: u32) -> Window<'static> {
    Window {
        client,
        display: 0,
        frame: SCREEN,
        region: &[SCREEN],
        flags,
        owner: 0,
        opacity: 100,
        occlusion: Occlusion::Block,
    }
}

/// The window of another owner, with an occlusion.
fn over(client: inputflinger::Client, occlusion: Occlusion) -> Window<'static> {
    Window {
        owner: 1,
        occlusion,
        ..window(client, window_flags::NOT_TOUCHABLE)
    }
}

#[test]
fn a_window_of_another_owner_blocks_or_marks_a_touch() -> Result<(), LiveError> {
    let mut live = Live::new(5_000_000, Repeats::ANDROID, [0; 8])?;
    let device = live.add_touch(0, 10, &PANEL)?;
    let (upper, lower) = (live.open()?, live.open()?);
    let finger = [Pointer { id: 0, x: 540, y: 1200 }];
    for (now, occlusion, wanted) in [
        (1_000, Occlusion::Block, None),
        (2_000, Occlusion::Allow, Some(FLAG_OBSCURED)),
    ] {
        live.windows(now, &[over(upper, occlusion), window(lower, 0)])?;
        for action in [Action::Down, Action::Up] {
            live.args(now, &Message::motion(0, Motion::new(device, action, &finger)))?;
            let flags = match live.next(lower)?.map(|told| told.body) {
                Some(Body::Motion { flags, .. }) => Some(flags),
                _ => None,
            };
            assert_eq!(flags, wanted);
        }
    }
    let opaque = Window {
        opacity: 101,
        ..window(lower, 0)
    };
    assert_eq!(live.windows(3_000, &[opaque]), Err(LiveError::OutOfRange));
    Ok(())
}

#[test]
fn a_wall_takes_touches_that_nobody_is_given() -> Result<(), LiveError> {
    let mut live = Live::new(5_000_000, Repeats::ANDROID, [0; 8])?;
    let device = live.add_touch(0, 10, &PANEL)?;
    let client = live.open()?;
    let wall = window(inputflinger::Client::NOBODY, 0);
    let finger = [Pointer { id: 0, x: 540, y: 1200 }];
    live.windows(1_000, &[wall, wall, window(client, 0)])?;
    for action in [Action::Down, Action::Up] {
        live.args(1_000, &Message::motion(0, Motion::new(device, action, &finger)))?;
    }
    assert_eq!(live.next(client)?, None);
    live.windows(2_000, &[window(client, 0)])?;
    live.args(2_000, &Message::motion(0, Motion::new(device, Action::Down, &finger)))?;
    assert!(live.next(client)?.is_some());
    assert!(!live.is_open(inputflinger::Client::NOBODY));
    Ok(())
}

#[test]
fn clients_come_and_go() -> Result<(), LiveError> {
    let mut live = Live::new(5_000_000, Repeats::ANDROID, [0; 8])?;
    let first = live.open()?;
    assert_eq!((first.channel(), first.generation()), (1, 1));
    live.close(0, first)?;
    assert_eq!(live.close(0, first), Err(LiveError::NotOpen));
    let second = live.open()?;
    assert_eq!((second.channel(), second.generation()), (1, 2));
    assert!(live.is_open(second) && !live.is_open(first));
    assert_eq!(live.client_at(1), Some(second));
    assert_eq!(live.client_at(2), None);
    assert_eq!(
        live.windows(0, &[window(second, 0), window(first, 0)]),
        Err(LiveError::WindowNotOpen { place: 1 })
    );
    assert_eq!(
        live.windows(0, &[window(second, 0), window(second, 0)]),
        Err(LiveError::Twice { channel: 1 })
    );
    assert_eq!(live.next(first), Ok(None));
    assert_eq!(live.finish(0, first, 1), Err(LiveError::NotOpen));
    Ok(())
}

#[test]
fn a_window_moves_where_it_is() -> Result<(), LiveError> {
    let mut live = Live::new(5_000_000, Repeats::ANDROID, [0; 8])?;
    let device = live.add_touch(0, 10, &PANEL)?;
    let (front, back) = (live.open()?, live.open()?);
    live.windows(0, &[window(front, 0), window(back, 0)])?;
    let lower = Rect {
        top: 1200,
        ..SCREEN
    };
    let moved = Window {
        frame: lower,
        region: &[lower],
        ..window(front, 0)
    };
    live.window(1_000, &moved)?;
    for (y, wanted) in [(600, (None, Some(600))), (1800, (Some(600), None))] {
        let finger = [Pointer { id: 0, x: 540, y }];
        for action in [Action::Down, Action::Up] {
            live.args(2_000, &Message::motion(0, Motion::new(device, action, &finger)))?;
            let mut received = |client| -> Result<Option<i32>, LiveError> {
                Ok(match live.next(client)?.map(|told| told.body) {
                    Some(Body::Motion { pointers, .. }) => Some(pointers[0].y),
                    _ => None,
                })
            };
            assert_eq!((received(front)?, received(back)?), wanted);
        }
    }
    live.windows(3_000, &[window(back, 0)])?;
    assert_eq!(live.window(3_000, &moved), Err(LiveError::NotShown));
    let opaque = Window { opacity: 101, ..moved };
    assert_eq!(live.window(3_000, &opaque), Err(LiveError::OutOfRange));
    live.close(3_000, front)?;
    assert_eq!(live.window(3_000, &moved), Err(LiveError::NotOpen));
    Ok(())
}

#[test]
fn a_client_that_does_not_receive_is_choked_until_it_has_finished_everything() -> Result<(), LiveError> {
    let mut live = Live::new(5_000_000, Repeats::ANDROID, [0; 8])?;
    let device = live.add_touch(0, 10, &PANEL)?;
    let (client, behind) = (live.open()?, live.open()?);
    live.windows(0, &[window(client, 0), window(behind, 0)])?;
    live.focus(0, 0, Some(client))?;
    live.set_most(2);
    let finger = [Pointer { id: 0, x: 540, y: 1200 }];
    let touch = |action| Message::motion(0, Motion::new(device, action, &finger));
    live.args(1_000, &touch(Action::Down))?;
    live.args(1_000, &touch(Action::Up))?;
    assert!(!live.is_choked(client));
    assert_eq!(live.due(), Some(1_000));
    assert_eq!(live.advance(2_000)?, 0b1);
    assert!(live.is_choked(client));
    assert_eq!(live.focused(0)?, None);
    assert_eq!(live.advance(3_000)?, 0);
    live.args(3_000, &touch(Action::Down))?;
    assert_eq!((live.holds(client, device)?, live.holds(behind, device)?), (0, 0));
    live.args(3_000, &touch(Action::Up))?;
    let mut last = 0;
    while let Some(message) = live.next(client)? {
        last = message.seq;
    }
    assert_eq!(last, 4);
    live.finish_through(4_000, client, last)?;
    assert!(live.is_choked(client));
    assert_eq!(live.due(), Some(4_000));
    assert_eq!(live.advance(5_000)?, 0);
    assert!(!live.is_choked(client));
    assert_eq!(live.focused(0)?, Some(client));
    Ok(())
}

#[test]
fn a_finger_that_a_spy_pilfers() -> Result<(), LiveError> {
    let mut live = Live::new(5_000_000, Repeats::ANDROID, [0; 8])?;
    let device = live.add_touch(0, 10, &PANEL)?;
    let (spy, behind) = (live.open()?, live.open()?);
    live.windows(0, &[window(spy, window_flags::SPY), window(behind, 0)])?;
    assert_eq!(live.pilfer(0, behind, device), Err(LiveError::NotSpy));
    assert_eq!(live.pilfer(0, spy, device), Err(LiveError::NothingHeld));
    live.reserve(4)?;
    for (code, value) in [(57, 45), (53, 100), (54, 200)] {
        live.event(1000, device, 3, code, value)?;
    }
    live.event(1000, device, 0, 0, 0)?;
    assert_eq!(live.waiting(), 0b11);
    assert_eq!(live.holds(behind, device)?, 0b1);
    live.pilfer(2000, spy, device)?;
    assert_eq!(live.holds(behind, device)?, 0);
    let told: Vec<_> = std::iter::from_fn(|| live.next(behind).unwrap()).collect();
    assert_eq!(told.len(), 2);
    match &told[1].body {
        Body::Motion {
            action, pointers, ..
        } => {
            let finger = Pointer {
                id: 0,
                x: 100,
                y: 200,
            };
            assert_eq!((*action, &pointers[..]), (Action::Cancel, &[finger][..]));
        }
        other => panic!("{other:?}"),
    }
    let up = Message::motion(
        0,
        Motion::new(device, Action::Up, &[Pointer { id: 5, x: 0, y: 0 }]),
    );
    assert_eq!(live.args(3000, &up), Err(LiveError::Inconsistent));
    live.reset(3000, device)?;
    assert_eq!(live.clock(), 3000);
    Ok(())
}

/// The actions of all messages that a client has, with their pointers.
fn motions(
    live: &mut Live,
    client: inputflinger::Client,
) -> Result<Vec<(Action, Vec<Pointer>)>, LiveError> {
    let mut told = Vec::new();
    while let Some(received) = live.next(client)? {
        match received.body {
            Body::Motion {
                action, pointers, ..
            } => told.push((action, pointers)),
            other => panic!("{other:?}"),
        }
    }
    Ok(told)
}

#[test]
fn fingers_come_one_by_one() -> Result<(), LiveError> {
    let mut live = Live::new(5_000_000, Repeats::ANDROID, [0; 8])?;
    let device = live.add_touch(0, 16, &PANEL)?;
    let client = live.open()?;
    live.windows(0, &[window(client, 0)])?;
    let (first, second) = (
        Pointer { id: 0, x: 540, y: 1200 },
        Pointer { id: 1, x: 100, y: 200 },
    );
    live.touch_down(1000, device, i32::MAX, 540, 1200)?;
    live.touch_down(1000, device, -3, 90, 200)?;
    live.touch_motion(1000, device, -3, 100, 200)?;
    assert_eq!(live.next(client)?, None);
    live.touch_frame(1000, device)?;
    live.touch_up(2000, device, i32::MAX)?;
    live.touch_frame(2000, device)?;
    live.touch_cancel(3000, device, -3)?;
    assert_eq!(
        motions(&mut live, client)?,
        [
            (Action::Down, vec![first]),
            (Action::PointerDown, vec![first, second]),
            (Action::PointerUp, vec![first, second]),
            (Action::Cancel, vec![second]),
        ]
    );
    Ok(())
}

#[test]
fn a_seventeenth_finger_is_refused() -> Result<(), LiveError> {
    let mut live = Live::new(5_000_000, Repeats::ANDROID, [0; 8])?;
    let device = live.add_touch(0, 16, &PANEL)?;
    for id in 0..16 {
        live.touch_down(1000, device, 100 * id, 10 * id, 0)?;
    }
    assert_eq!(live.touch_down(2000, device, 1, 0, 0), Err(LiveError::TooManyFingers));
    assert_eq!(live.touch_down(2000, device, 300, 0, 0), Err(LiveError::FingerDown));
    assert_eq!(live.touch_motion(2000, device, 1, 0, 0), Err(LiveError::NoFinger));
    assert_eq!(live.touch_up(2000, device, 1), Err(LiveError::NoFinger));
    assert_eq!(live.touch_cancel(2000, device, 1), Err(LiveError::NoFinger));
    assert_eq!(live.touch_frame(2000, 2), Err(LiveError::NoDevice));
    assert_eq!(live.touch_frame(2000, 9), Err(LiveError::OutOfRange));
    assert_eq!(live.clock(), 2000);
    live.touch_up(2000, device, 300)?;
    live.touch_down(2000, device, 1, 0, 0)
}

#[test]
fn messages_come_in_the_order_of_the_steps() -> Result<(), LiveError> {
    let mut live = Live::new(1_000_000, Repeats::ANDROID, [0; 8])?;
    let (left, right) = (live.open()?, live.open()?);
    live.windows(0, &[window(left, 0), window(right, 0)])?;
    assert_eq!(live.next_any()?, None);
    live.focus(0, 0, Some(right))?;
    live.focus(0, 0, Some(left))?;
    let mut told = Vec::new();
    while let Some(handed) = live.next_any()? {
        told.push((
            handed.client,
            handed.received.seq,
            handed.received.body,
            handed.last,
        ));
    }
    assert_eq!(
        told,
        [
            (right, 1, Body::Focus(true), true),
            (right, 2, Body::Focus(false), false),
            (left, 1, Body::Focus(true), true),
        ]
    );
    Ok(())
}

#[test]
fn a_key_that_is_late() -> Result<(), LiveError> {
    let mut live = Live::new(1_000_000, Repeats::ANDROID, [0; 8])?;
    let device = live.add_touch(0, 10, &PANEL)?;
    let client = live.open()?;
    live.windows(0, &[window(client, 0)])?;
    live.focus(0, 0, Some(client))?;
    assert_eq!(live.focused(0)?, Some(client));
    assert_eq!(live.key_target(), Some(client));
    assert_eq!(live.focused(4), Err(LiveError::OutOfRange));
    let key = Key {
        device,
        scan: 30,
        code: 29,
        down: true,
        ..Key::default()
    };
    live.args(0, &Message::key(0, key))?;
    let focus = live.next(client)?.unwrap();
    assert_eq!(focus.body, Body::Focus(true));
    live.finish(0, client, focus.seq)?;
    assert_eq!(
        live.finish(0, client, focus.seq),
        Err(LiveError::UnknownSeq)
    );
    assert_eq!(
        live.finish_through(0, client, focus.seq + 1),
        Err(LiveError::UnknownSeq)
    );
    live.finish_through(0, client, focus.seq)?;
    assert_eq!(live.next(client)?.unwrap().body, Body::Key(key));
    assert_eq!(live.due(), Some(500_000));
    assert_eq!(live.advance(1_000_000)?, 0b1);
    assert!(!live.is_responsive(client));
    live.finish_through(1_000_000, client, focus.seq + 1)?;
    assert_eq!(live.advance(u64::MAX), Err(LiveError::OutOfRange));
    Ok(())
}

/// When a key that goes down at a second is due to be repeated, if nothing is left to finish.
fn due_of_a_held_key(repeats: Repeats) -> Result<Option<u64>, LiveError> {
    let mut live = Live::new(5_000_000, repeats, [0; 8])?;
    let keyboard = live.add_keys(0, "")?;
    let options = Options {
        user_data: 0,
        finishes: true,
    };
    let client = live.open_with(options)?;
    live.windows(0, &[window(client, 0)])?;
    live.focus(0, 0, Some(client))?;
    live.event(1_000_000, keyboard, 1, 30, 1)?;
    while live.next(client)?.is_some() {}
    Ok(live.due())
}

#[test]
fn a_held_key_is_repeated_as_is_said_at_the_start() -> Result<(), LiveError> {
    assert_eq!(due_of_a_held_key(Repeats::ANDROID)?, Some(1_500_000));
    assert_eq!(due_of_a_held_key(Repeats::NONE)?, None);
    let delays = |first_us, next_us| Repeats { first_us, next_us };
    assert_eq!(due_of_a_held_key(delays(300_000, 40_000))?, Some(1_300_000));
    for bad in [delays(999, 50_000), delays(500_000, 0), delays(0, 50_000), delays(1000, 600_000_001)] {
        assert_eq!(Live::new(5_000_000, bad, [0; 8]).err(), Some(LiveError::OutOfRange));
    }
    Ok(())
}

#[test]
fn keys_are_down_until_they_go_up_or_their_device_goes() -> Result<(), LiveError> {
    let mut live = Live::new(5_000_000, Repeats::NONE, [0; 8])?;
    let keyboard = live.add_keys(0, "")?;
    assert_eq!(live.first_key(keyboard, 0)?, None);
    for scan in [42, 30, 65535] {
        live.event(1000, keyboard, 1, scan, 1)?;
    }
    assert_eq!(live.first_key(keyboard, 0)?, Some(30));
    assert_eq!(live.first_key(keyboard, 31)?, Some(42));
    assert_eq!(live.first_key(keyboard, 43)?, Some(65535));
    assert_eq!(live.first_key(keyboard, 65536)?, None);
    live.event(2000, keyboard, 1, 30, 0)?;
    assert_eq!(live.first_key(keyboard, 0)?, Some(42));
    live.remove_device(3000, keyboard)?;
    assert_eq!(live.first_key(keyboard, 0)?, None);
    assert_eq!(live.first_key(9, 0), Err(LiveError::OutOfRange));
    Ok(())
}

#[test]
fn a_client_with_options_finishes_by_itself() -> Result<(), LiveError> {
    let mut live = Live::new(5_000_000, Repeats::ANDROID, [0; 8])?;
    let device = live.add_touch(0, 10, &PANEL)?;
    let options = Options {
        user_data: 11,
        finishes: true,
    };
    let (own, other) = (live.open_with(options)?, live.open()?);
    assert_eq!((live.user_data(own), live.user_data(other)), (Some(11), Some(0)));
    assert_eq!(live.window_at(0, 540, 1200)?, None);
    live.windows(0, &[window(own, 0), window(other, 0)])?;
    assert_eq!(live.window_at(0, 540, 1200)?, Some(own));
    assert_eq!(live.window_at(1, 540, 1200)?, None);
    assert_eq!(live.window_at(4, 540, 1200), Err(LiveError::OutOfRange));
    let finger = [Pointer {
        id: 0,
        x: 540,
        y: 1200,
    }];
    live.args(1000, &Message::motion(0, Motion::new(device, Action::Down, &finger)))?;
    assert_eq!(live.due(), Some(5_001_000));
    assert_eq!(live.next(own)?.map(|told| told.user_data), Some(11));
    assert_eq!(live.due(), None);
    assert_eq!(live.finish(1000, own, 1), Err(LiveError::UnknownSeq));
    live.close(2000, own)?;
    assert_eq!(live.user_data(own), None);
    assert_eq!(live.window_at(0, 540, 1200)?, Some(other));
    Ok(())
}
