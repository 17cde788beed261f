//! Messages.

use crate::sys;

/// The flag of a `PointerUp`, and of a key that goes up, that must not be acted on.
pub const FLAG_CANCELED: u32 = 0x20;

/// The mark of a motion whose gesture has a finger that a window of another owner covers.
pub const FLAG_OBSCURED: u32 = 0x1;

/// The mark of a motion of a window that a window of another owner covers in another place.
pub const FLAG_PARTLY_OBSCURED: u32 = 0x2;

/// What a motion says, with MotionEvent's names and numbers.
#[derive(Clone, Copy, Debug, PartialEq, Eq)]
pub enum Action {
    /// The first pointer goes down.
    Down = 0,
    /// The last pointer goes up.
    Up = 1,
    /// The pointers are at these positions now.
    Move = 2,
    /// The gesture ends, and must not be acted on.
    Cancel = 3,
    /// A pointer went down outside the window.
    Outside = 4,
    /// A further pointer goes down.
    PointerDown = 5,
    /// One of several pointers goes up.
    PointerUp = 6,
}

impl Action {
    /// The action of a number of a message that the archive gave.
    pub(crate) fn of(number: u8) -> Action {
        match number {
            0 => Action::Down,
            1 => Action::Up,
            2 => Action::Move,
            3 => Action::Cancel,
            4 => Action::Outside,
            5 => Action::PointerDown,
            _ => Action::PointerUp,
        }
    }
}

/// A pointer of a motion: its id, 0 to 31, and where it is, in pixels from the window's own corner.
#[derive(Clone, Copy, Debug, PartialEq, Eq)]
pub struct Pointer {
    /// Its id, 0 to 31.
    pub id: u8,
    /// To the right.
    pub x: i32,
    /// Down.
    pub y: i32,
}

/// A motion of the pointers of one device.
#[derive(Clone, Copy, Debug, PartialEq, Eq)]
pub struct Motion<'a> {
    /// 1 to 8.
    pub device: u8,
    /// What it says.
    pub action: Action,
    /// For `PointerDown` and `PointerUp` the index in `pointers` of the one that goes down or up, and otherwise 0.
    pub index: u8,
    /// 0 or [`FLAG_CANCELED`], and the marks [`FLAG_OBSCURED`] and [`FLAG_PARTLY_OBSCURED`].
    pub flags: u32,
    /// All pointers that are down, including the one that goes down or up, with rising ids.
    pub pointers: &'a [Pointer],
}

impl<'a> Motion<'a> {
    /// A motion with index 0 and no flag.
    pub fn new(device: u8, action: Action, pointers: &'a [Pointer]) -> Self {
        Motion {
            device,
            action,
            index: 0,
            flags: 0,
            pointers,
        }
    }
}

/// A key that goes down or up.
#[derive(Clone, Copy, Debug, Default, PartialEq, Eq)]
pub struct Key {
    /// 1 to 8.
    pub device: u8,
    /// The kernel's scan code.
    pub scan: u16,
    /// Android's key code.
    pub code: u16,
    /// As KeyEvent's `getMetaState`.
    pub meta: u32,
    /// Whether it goes down.
    pub down: bool,
    /// 0, or [`FLAG_CANCELED`] for a key's up that must not be acted on.
    pub flags: u32,
    /// How often a key that stays down was repeated before; 0 for one that goes up.
    pub repeat: u32,
}

/// A message of a window.
#[derive(Clone, Copy)]
pub struct Message {
    pub(crate) plain: sys::Message,
    /// Whether a motion had more pointers than a message has places for.
    pub(crate) is_too_long: bool,
}

impl Message {
    /// A motion, sent at a time in microseconds.
    pub fn motion(moment_us: u64, motion: Motion) -> Message {
        let mut pointers = [sys::Pointer::default(); 16];
        for (place, pointer) in pointers.iter_mut().zip(motion.pointers) {
            *place = sys::Pointer {
                x: pointer.x,
                y: pointer.y,
                id: u32::from(pointer.id),
            };
        }
        Message {
            plain: sys::Message {
                moment_us,
                kind: 0,
                device: motion.device,
                action: motion.action as u8,
                index: motion.index,
                flags: motion.flags,
                count: motion.pointers.len().min(pointers.len()) as u8,
                pointers,
                ..sys::Message::default()
            },
            is_too_long: motion.pointers.len() > pointers.len(),
        }
    }

    /// A key, sent at a time in microseconds.
    pub fn key(moment_us: u64, key: Key) -> Message {
        Message {
            plain: sys::Message {
                moment_us,
                kind: 1,
                device: key.device,
                scan: key.scan,
                code: key.code,
                meta: key.meta,
                down: u8::from(key.down),
                flags: key.flags,
                repeat: key.repeat,
                ..sys::Message::default()
            },
            is_too_long: false,
        }
    }

    /// A change of the focus, sent at a time in microseconds: the window has it from then on, or not.
    pub fn focus(moment_us: u64, has: bool) -> Message {
        Message {
            plain: sys::Message {
                moment_us,
                kind: 2,
                focus: u8::from(has),
                ..sys::Message::default()
            },
            is_too_long: false,
        }
    }

    /// The same message with this number on its channel.
    pub fn with_seq(mut self, seq: u64) -> Message {
        self.plain.seq = seq;
        self
    }
}
