//! The judge.

use crate::message::Message;
use crate::sys;
use std::error::Error;
use std::fmt;
use std::mem::size_of;
use std::ptr;

/// Why a message is not allowed: the first reason for its kind that holds.
#[derive(Clone, Copy, Debug, PartialEq, Eq)]
pub enum Reason {
    /// A motion other than `PointerUp` is canceled, or an `Outside` has a mark.
    Flags,
    /// A `Down` while pointers are down, or a `PointerDown` of a pointer that is already down.
    AlreadyDown,
    /// A `Down` or an `Outside` that does not list exactly one pointer.
    OnePointer,
    /// A motion goes on or ends while no pointer is down.
    NothingDown,
    /// The listed pointers are not those that are down, apart from the one that goes down.
    OtherPointers,
    /// A `PointerUp` while only one pointer is down.
    LastPointer,
    /// An `Up` while several pointers are down.
    MorePointers,
    /// A repeat of a key that is not down.
    RepeatOfNothing,
    /// A key that is down goes down with a repeat number other than the next.
    RepeatOutOfTurn,
    /// A key that is not down goes up.
    KeyNotDown,
    /// A key goes up with a repeat number other than 0.
    RepeatOnUp,
    /// A window gets the focus that it has, or loses a focus that it does not have.
    FocusTwice,
}

impl Reason {
    fn of(number: u32) -> Option<Reason> {
        const REASONS: [Reason; 12] = [
            Reason::Flags,
            Reason::AlreadyDown,
            Reason::OnePointer,
            Reason::NothingDown,
            Reason::OtherPointers,
            Reason::LastPointer,
            Reason::MorePointers,
            Reason::RepeatOfNothing,
            Reason::RepeatOutOfTurn,
            Reason::KeyNotDown,
            Reason::RepeatOnUp,
            Reason::FocusTwice,
        ];
        REASONS.get((number as usize).checked_sub(1)?).copied()
    }
}

/// A message that was not allowed, and what the window knew at that point.
#[derive(Clone, Copy, Debug, PartialEq, Eq)]
pub struct Fault {
    /// How many messages were accepted before.
    pub place: u64,
    /// The repeat number that the next down of the message's key must have; None if the key is up, or if the message
    /// is about no key.
    pub next_repeat: Option<u64>,
    /// The pointer ids that are down on the device of the motion, as bits; 0 if the message is no motion.
    pub held: u32,
    /// Whether the window has the focus.
    pub focus: bool,
    /// Why. None only if no line of a stream file can say the message, for example because of other flags.
    pub reason: Option<Reason>,
}

impl Fault {
    fn of(fault: &sys::Fault) -> Fault {
        Fault {
            place: fault.place,
            next_repeat: (fault.key_down == 1).then_some(fault.next_repeat),
            held: fault.held,
            focus: fault.focus == 1,
            reason: Reason::of(fault.reason),
        }
    }
}

/// Why a message was not accepted. The judge is unchanged.
#[derive(Clone, Copy, Debug, PartialEq, Eq)]
pub enum StepError {
    /// A number of the message is out of its range.
    OutOfRange,
    /// The stream with this message is not well-formed.
    Broken(Fault),
    /// Out of memory. Only for a key message.
    NoMemory,
}

impl fmt::Display for StepError {
    fn fmt(&self, f: &mut fmt::Formatter<'_>) -> fmt::Result {
        match self {
            StepError::OutOfRange => write!(f, "a number of the message is out of its range"),
            StepError::Broken(fault) => match fault.reason {
                Some(reason) => write!(f, "message {} may not come: {:?}", fault.place + 1, reason),
                None => write!(f, "message {} may not come", fault.place + 1),
            },
            StepError::NoMemory => NoMemory.fmt(f),
        }
    }
}

impl Error for StepError {}

/// Out of memory.
#[derive(Clone, Copy, Debug, PartialEq, Eq)]
pub struct NoMemory;

impl fmt::Display for NoMemory {
    fn fmt(&self, f: &mut fmt::Formatter<'_>) -> fmt::Result {
        write!(f, "memory was wanting")
    }
}

impl Error for NoMemory {}

/// What a window knows from the messages that were accepted.
#[derive(Clone, Copy, Debug, PartialEq, Eq)]
pub struct State {
    /// The pointer ids that are down on each device, as bits; those of device 1 first.
    pub ids: [u32; 8],
    /// Whether the window has the focus.
    pub focus: bool,
}

/// A key that is down.
#[derive(Clone, Copy, Debug, PartialEq, Eq)]
pub struct HeldKey {
    /// 1 to 8.
    pub device: u16,
    /// The kernel's scan code.
    pub scan: u16,
}

/// The judge of the messages that one window is sent. It stays on its thread:
///
/// ```compile_fail
/// let judge = inputflinger::Judge::new().unwrap();
/// std::thread::spawn(move || drop(judge));
/// ```
pub struct Judge {
    handle: sys::Judge,
}

impl Judge {
    /// A judge for a stream without messages.
    pub fn new() -> Result<Judge, NoMemory> {
        let mut judge = Judge {
            handle: sys::Judge {
                at: ptr::null_mut(),
                is_open: false,
            },
        };
        // SAFETY: the handle is free, and nobody else's.
        match unsafe { sys::inputflinger_judge_new(&mut judge.handle) } {
            sys::OK => Ok(judge),
            _ => Err(NoMemory),
        }
    }

    /// Accepts the next message of the stream, or reports why it is not allowed.
    ///
    /// # Errors
    ///
    /// Each leaves the judge as it was: the next message is judged as if this one had not come.
    pub fn step(&mut self, message: &Message) -> Result<(), StepError> {
        if message.is_too_long {
            return Err(StepError::OutOfRange);
        }
        let mut fault = sys::Fault::default();
        // SAFETY: all three are of the declared types, and nobody else's during the call.
        let status = unsafe {
            sys::inputflinger_judge_step_sized(
                &mut self.handle,
                &message.plain,
                size_of::<sys::Message>(),
                &mut fault,
                size_of::<sys::Fault>(),
            )
        };
        match status {
            sys::OK => Ok(()),
            sys::OUT_OF_RANGE => Err(StepError::OutOfRange),
            sys::BROKEN => Err(StepError::Broken(Fault::of(&fault))),
            sys::NO_MEMORY => Err(StepError::NoMemory),
            status => unreachable!("a judge is open: status {status}"),
        }
    }

    /// Which pointers are down on each device, and whether the window has the focus.
    pub fn state(&self) -> State {
        let mut state = sys::State::default();
        // SAFETY: both are of the declared types, and nobody else's during the call.
        let size = size_of::<sys::State>();
        let status = unsafe { sys::inputflinger_judge_state_sized(&self.handle, &mut state, size) };
        debug_assert_eq!(status, sys::OK);
        State {
            ids: state.ids,
            focus: state.focus == 1,
        }
    }
}

impl Judge {
    /// The keys that are down, in rising order of their devices and scan codes.
    ///
    /// # Errors
    ///
    /// Out of memory. The judge is unchanged.
    pub fn keys_down(&self) -> Result<Vec<HeldKey>, NoMemory> {
        let mut places = Vec::new();
        loop {
            let mut count = 0;
            // SAFETY: the pointer and the length are those of one vector, and all is nobody else's during the call.
            let status = unsafe {
                sys::inputflinger_judge_keys(
                    &self.handle,
                    places.as_mut_ptr(),
                    places.len(),
                    &mut count,
                )
            };
            match status {
                sys::OK => {
                    let held = |key: &sys::Key| HeldKey {
                        device: key.device,
                        scan: key.scan,
                    };
                    return Ok(places.iter().take(count).map(held).collect());
                }
                sys::NO_ROOM => places.resize(count, sys::Key::default()),
                _ => return Err(NoMemory),
            }
        }
    }
}

impl Drop for Judge {
    fn drop(&mut self) {
        // SAFETY: the handle is nobody else's. A free one is answered by a status.
        unsafe { sys::inputflinger_judge_free(&mut self.handle) };
    }
}
