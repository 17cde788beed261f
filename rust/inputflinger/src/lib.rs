//! Android's input service for programs in Rust, over `libinputflinger.a`: a [`Live`] sends touches and keys to the windows
//! of clients, a [`Judge`] says whether what one window is sent makes sense, and [`run`] runs the program over recordings
//! in memory.
//!
//! What the archive does is written in Rattle and proved; this crate declares its calls and gives them Rust's types. Show a
//! [`Judge`] the messages of one stream, one by one, and it reports the first at which the stream is no longer
//! well-formed:
//!
//! ```
//! use inputflinger::{Action, Judge, Message, Motion, Pointer, Reason, StepError};
//!
//! let down = Message::motion(1, Motion::new(1, Action::Down, &[Pointer { id: 0, x: 540, y: 1200 }]));
//! let mut judge = Judge::new()?;
//! judge.step(&down)?;
//! match judge.step(&down) {
//!     Err(StepError::Broken(fault)) => {
//!         assert_eq!((fault.place, fault.held, fault.reason), (1, 0b1, Some(Reason::AlreadyDown)));
//!     }
//!     other => panic!("{other:?}"),
//! }
//! assert_eq!(judge.state().ids[0], 0b1);
//! # Ok::<(), Box<dyn std::error::Error>>(())
//! ```
#![warn(missing_docs)]

mod judge;
mod live;
mod message;
mod program;
mod sys;

pub use judge::{Fault, HeldKey, Judge, NoMemory, Reason, State, StepError};
pub use live::{
    window_flags, Body, Client, Handed, Live, LiveError, Occlusion, Options, Panel, Received, Rect,
    Repeats, Window,
};
pub use message::{
    Action, Key, Message, Motion, Pointer, FLAG_CANCELED, FLAG_OBSCURED, FLAG_PARTLY_OBSCURED,
};
pub use program::{run, Ran, RunError};
