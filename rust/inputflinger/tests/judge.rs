//! Each answer of a judge.

use inputflinger::{
    Action, HeldKey, Judge, Key, Message, Motion, Pointer, Reason, StepError, FLAG_CANCELED,
};

fn pointers(ids: &[u8]) -> Vec<Pointer> {
    ids.iter()
        .map(|&id| Pointer {
            id,
            x: i32::from(id),
            y: -1,
        })
        .collect()
}

fn reason(judge: &mut Judge, message: Message) -> Option<Reason> {
    let before = judge.state();
    match judge.step(&message) {
        Err(StepError::Broken(fault)) => {
            assert_eq!(judge.state(), before);
            fault.reason
        }
        other => panic!("{other:?}"),
    }
}

#[test]
fn a_gesture_of_two_fingers() -> Result<(), Box<dyn std::error::Error>> {
    let mut judge = Judge::new()?;
    let (one, two) = (pointers(&[0]), pointers(&[0, 31]));
    let second = |action| {
        Message::motion(
            2,
            Motion {
                index: 1,
                ..Motion::new(8, action, &two)
            },
        )
    };
    judge.step(&Message::motion(1, Motion::new(8, Action::Down, &one)).with_seq(1))?;
    judge.step(&second(Action::PointerDown))?;
    assert_eq!(judge.state().ids, [0, 0, 0, 0, 0, 0, 0, 1 | 1 << 31]);
    let up = Message::motion(3, Motion::new(8, Action::Up, &two));
    assert_eq!(reason(&mut judge, up), Some(Reason::MorePointers));
    judge.step(&Message::motion(
        3,
        Motion {
            index: 1,
            flags: FLAG_CANCELED,
            ..Motion::new(8, Action::PointerUp, &two)
        },
    ))?;
    judge.step(&Message::motion(4, Motion::new(8, Action::Up, &one)))?;
    assert_eq!(judge.state().ids, [0; 8]);
    Ok(())
}

#[test]
fn a_key_that_is_held() -> Result<(), Box<dyn std::error::Error>> {
    let mut judge = Judge::new()?;
    let key = |down, repeat| {
        Message::key(
            1,
            Key {
                device: 1,
                scan: 115,
                code: 24,
                down,
                repeat,
                ..Key::default()
            },
        )
    };
    assert_eq!(reason(&mut judge, key(false, 0)), Some(Reason::KeyNotDown));
    judge.step(&key(true, 0))?;
    match judge.step(&key(true, 2)) {
        Err(StepError::Broken(fault)) => {
            assert_eq!(
                (fault.place, fault.next_repeat, fault.reason),
                (1, Some(1), Some(Reason::RepeatOutOfTurn))
            );
        }
        other => panic!("{other:?}"),
    }
    judge.step(&key(true, 1))?;
    assert_eq!(
        judge.keys_down()?,
        [HeldKey {
            device: 1,
            scan: 115
        }]
    );
    judge.step(&key(false, 0))?;
    assert_eq!(judge.keys_down()?, []);
    Ok(())
}

#[test]
fn the_focus_comes_before_it_goes() -> Result<(), Box<dyn std::error::Error>> {
    let mut judge = Judge::new()?;
    assert_eq!(
        reason(&mut judge, Message::focus(1, false)),
        Some(Reason::FocusTwice)
    );
    judge.step(&Message::focus(1, true))?;
    assert!(judge.state().focus);
    Ok(())
}

#[test]
fn numbers_out_of_their_ranges() {
    let mut judge = Judge::new().unwrap();
    let (one, unsorted, many) = (
        pointers(&[0]),
        pointers(&[1, 0]),
        pointers(&(0..17).collect::<Vec<u8>>()),
    );
    for message in [
        Message::motion(1, Motion::new(0, Action::Down, &one)),
        Message::motion(1, Motion::new(9, Action::Down, &one)),
        Message::motion(1, Motion::new(1, Action::Down, &unsorted)),
        Message::motion(1, Motion::new(1, Action::Down, &many)),
        Message::focus(1_000_000_000_000_000_001, true),
    ] {
        let error = judge.step(&message).unwrap_err();
        assert_eq!(error, StepError::OutOfRange);
        assert_eq!(
            error.to_string(),
            "a number of the message is out of its range"
        );
    }
}
