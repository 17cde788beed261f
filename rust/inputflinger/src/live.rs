//! The live service.

use crate::judge::NoMemory;
use crate::message::{Action, Key, Message, Pointer};
use crate::sys;
use std::error::Error;
use std::fmt;
use std::mem::size_of;
use std::ptr;

/// A client of a [`Live`]: a channel, 1 to 64, and a generation that no other client has. Once it is closed, it is stale
/// for good.
#[derive(Clone, Copy, Debug, PartialEq, Eq, Hash)]
pub struct Client {
    plain: sys::Client,
}

impl Client {
    /// No client: a window of it is a wall, which is touched as others are, and nobody is given what it takes. It is never
    /// open.
    pub const NOBODY: Client = Client { plain: sys::Client { generation: 0, channel: 0 } };

    /// The number of its channel: bit `channel - 1` of a mask stands for it.
    pub fn channel(&self) -> u32 {
        self.plain.channel
    }

    /// How many clients were opened up to this one, on any channel.
    pub fn generation(&self) -> u64 {
        self.plain.generation
    }
}

/// What a client is opened with.
#[derive(Clone, Copy, Debug, Default, PartialEq, Eq)]
pub struct Options {
    /// Any number of yours. Each message of the client has it.
    pub user_data: u64,
    /// Whether each message counts as finished as soon as the client received it.
    pub finishes: bool,
}

/// A rectangle of display pixels: the points with `left <= x < right` and `top <= y < bottom`.
#[derive(Clone, Copy, Debug, Default, PartialEq, Eq)]
pub struct Rect {
    /// The least x.
    pub left: i32,
    /// The least y.
    pub top: i32,
    /// The x past the last one.
    pub right: i32,
    /// The y past the last one.
    pub bottom: i32,
}

impl Rect {
    fn plain(&self) -> sys::Rect {
        sys::Rect {
            left: self.left,
            top: self.top,
            right: self.right,
            bottom: self.bottom,
        }
    }
}

/// What windows ask for, as bits of [`Window::flags`].
pub mod window_flags {
    /// Touches go through it to what is behind.
    pub const NOT_TOUCHABLE: u32 = 1;
    /// It never has the focus.
    pub const NOT_FOCUSABLE: u32 = 2;
    /// It is sent an `Outside` for a touch that goes to a window behind it.
    pub const WATCH_OUTSIDE_TOUCH: u32 = 4;
    /// A finger that moves out of it may continue in the window that it enters.
    pub const SLIPPERY: u32 = 8;
    /// It sees the touches of what is behind it, and may pilfer them.
    pub const SPY: u32 = 16;
    /// The fingers of a gesture are not split between it and others.
    pub const PREVENT_SPLITTING: u32 = 32;
    /// It is the system's own, and neither blocks nor marks a touch.
    pub const TRUSTED_OVERLAY: u32 = 64;
}

/// Whether a touch may go through a window to a window of another owner behind it.
#[derive(Clone, Copy, Debug, Default, PartialEq, Eq)]
pub enum Occlusion {
    /// It may not: the window behind is given no pointer there.
    #[default]
    Block = 0,
    /// It may if the windows of the owner with this occlusion together hide at most 80 per cent there.
    Opacity = 1,
    /// It may.
    Allow = 2,
}

/// A window of a client, which has one at most, or of [`Client::NOBODY`], a wall.
///
/// Show a wall for a client that could not be opened, or touches fall through to the window behind. It is no spy, does not
/// watch, does not prevent splitting, and has no focus.
#[derive(Clone, Copy, Debug)]
pub struct Window<'a> {
    /// Whose it is.
    pub client: Client,
    /// 0 to 3. All pixels are those of this display.
    pub display: u8,
    /// Where it is: its left and top edges are the origin of what the client is sent.
    pub frame: Rect,
    /// Where it can be touched: at most 64 rectangles.
    pub region: &'a [Rect],
    /// Of [`window_flags`].
    pub flags: u32,
    /// Whose it is, as a number of your choice. Windows of one owner trust each other.
    pub owner: u32,
    /// How much it hides of what is behind it, 0 to 100 per cent.
    pub opacity: u8,
    /// Whether a touch may go through it to a window of another owner.
    pub occlusion: Occlusion,
}

impl Window<'_> {
    fn plain(&self) -> Result<sys::Window, LiveError> {
        Ok(sys::Window {
            client: self.client.plain,
            frame: self.frame.plain(),
            flags: self.flags,
            rects: u32::try_from(self.region.len()).map_err(|_| LiveError::OutOfRange)?,
            display: self.display,
            unused: [0; 7],
            owner: self.owner,
            opacity: self.opacity,
            occlusion: self.occlusion as u8,
        })
    }
}

/// How the raw positions of a touch panel become display pixels.
#[derive(Clone, Copy, Debug, PartialEq, Eq)]
pub struct Panel {
    /// The least and the greatest raw x.
    pub x: (i32, i32),
    /// The least and the greatest raw y.
    pub y: (i32, i32),
    /// The width of the display in its natural position, 1 to 16,384 pixels.
    pub width: u16,
    /// Its height.
    pub height: u16,
    /// How far it is turned, in quarters: 0 to 3.
    pub rotation: u8,
}

/// What a client is sent.
#[derive(Clone, Debug, PartialEq, Eq)]
pub struct Received {
    /// It counts from 1 for the client.
    pub seq: u64,
    /// When it was sent, in microseconds.
    pub moment_us: u64,
    /// What it says.
    pub body: Body,
    /// The user data that the client was opened with.
    pub user_data: u64,
}

/// What [`Live::next_any`] receives: a message, and whose it is.
#[derive(Clone, Debug, PartialEq, Eq)]
pub struct Handed {
    /// Whose message it is.
    pub client: Client,
    /// The message.
    pub received: Received,
    /// Whether no other message of the same step is left to receive now.
    pub last: bool,
}

/// What a message says.
#[derive(Clone, Debug, PartialEq, Eq)]
pub enum Body {
    /// A motion of the pointers of one device.
    Motion {
        /// 1 to 8.
        device: u8,
        /// What it says.
        action: Action,
        /// For `PointerDown` and `PointerUp` the index in `pointers` of the one that goes down or up, otherwise 0.
        index: u8,
        /// 0 or [`FLAG_CANCELED`](crate::FLAG_CANCELED), and the marks [`FLAG_OBSCURED`](crate::FLAG_OBSCURED) and
        /// [`FLAG_PARTLY_OBSCURED`](crate::FLAG_PARTLY_OBSCURED).
        flags: u32,
        /// All that are down, including the one that goes down or up.
        pointers: Vec<Pointer>,
    },
    /// A key that goes down or up.
    Key(Key),
    /// Whether the window has the focus now.
    Focus(bool),
}

impl Received {
    fn of(m: &sys::Message) -> Received {
        let body = match m.kind {
            0 => Body::Motion {
                device: m.device,
                action: Action::of(m.action),
                index: m.index,
                flags: m.flags,
                pointers: m.pointers[..usize::from(m.count)]
                    .iter()
                    .map(|p| Pointer {
                        id: p.id as u8,
                        x: p.x,
                        y: p.y,
                    })
                    .collect(),
            },
            1 => Body::Key(Key {
                device: m.device,
                scan: m.scan,
                code: m.code,
                meta: m.meta,
                down: m.down == 1,
                flags: m.flags,
                repeat: m.repeat,
            }),
            _ => Body::Focus(m.focus == 1),
        };
        Received {
            seq: m.seq,
            moment_us: m.moment_us,
            body,
            user_data: m.user_data,
        }
    }
}

/// Why a call was refused.
#[derive(Clone, Copy, Debug, PartialEq, Eq)]
pub enum LiveError {
    /// Out of memory. Nothing changed, unless the call says otherwise, except that clients may be choked or released.
    NoMemory,
    /// A number is out of its range. Nothing changed.
    OutOfRange,
    /// The client is not open, or no longer. Nothing changed.
    NotOpen,
    /// 64 clients are open. Nothing changed.
    Full,
    /// The client did not receive the message, or finished it already. The clock advanced.
    UnknownSeq,
    /// The client has no spy among the shown windows. The clock advanced.
    NotSpy,
    /// The spy holds no pointer of the device. The clock advanced.
    NothingHeld,
    /// The device is not plugged in. Nothing changed.
    NoDevice,
    /// What was handed in does not fit what its device did before, and was not taken; the rest was dispatched.
    Inconsistent,
    /// Out of memory after it was taken: a later call dispatches it.
    Waits,
    /// There are more than 64 windows, or all device numbers of the display are taken. Nothing changed.
    TooMany,
    /// A panel has 1 to 16 slots. Nothing changed.
    BadSlots,
    /// A finger with this touch id is down on the panel. Nothing changed.
    FingerDown,
    /// No finger with this touch id is down on the panel. Nothing changed.
    NoFinger,
    /// As many fingers as the panel has slots are down on it. Nothing changed.
    TooManyFingers,
    /// The text is not a key layout. Nothing changed.
    BadLayout {
        /// Its first refused line, from 1 on.
        line: u64,
    },
    /// The client of the window at this index, from 0, is not open. Nothing changed.
    WindowNotOpen {
        /// The first such index.
        place: usize,
    },
    /// The client on this channel has two windows. Nothing changed.
    Twice {
        /// Its channel.
        channel: u32,
    },
    /// The client has no window now. Nothing changed.
    NotShown,
}

impl fmt::Display for LiveError {
    fn fmt(&self, f: &mut fmt::Formatter<'_>) -> fmt::Result {
        match self {
            LiveError::NoMemory => NoMemory.fmt(f),
            LiveError::OutOfRange => write!(f, "a number is out of its range"),
            LiveError::NotOpen => write!(f, "the client is not open"),
            LiveError::Full => write!(f, "64 clients are open"),
            LiveError::UnknownSeq => write!(f, "the client has no such message to finish"),
            LiveError::NotSpy => write!(f, "the client has no spy among the windows"),
            LiveError::NothingHeld => write!(f, "the spy holds no pointer of the device"),
            LiveError::NoDevice => write!(f, "the device is not plugged in"),
            LiveError::Inconsistent => write!(f, "what the device gave does not fit"),
            LiveError::Waits => write!(f, "memory was wanting: what the device gave waits"),
            LiveError::TooMany => write!(f, "too many windows, or no device number is free"),
            LiveError::BadSlots => write!(f, "a panel has 1 to 16 slots"),
            LiveError::FingerDown => write!(f, "a finger with this touch id is down"),
            LiveError::NoFinger => write!(f, "no finger with this touch id is down"),
            LiveError::TooManyFingers => write!(f, "every slot of the panel has a finger"),
            LiveError::BadLayout { line } => write!(f, "line {line} of the key layout is refused"),
            LiveError::WindowNotOpen { place } => {
                write!(f, "the client of window {place} is not open")
            }
            LiveError::Twice { channel } => write!(f, "channel {channel} has two windows"),
            LiveError::NotShown => write!(f, "the client has no window"),
        }
    }
}

impl Error for LiveError {}

/// What a status says that is no answer of a call that looks for something.
fn done(status: i32) -> Result<(), LiveError> {
    Err(match status {
        sys::OK => return Ok(()),
        sys::NO_MEMORY => LiveError::NoMemory,
        sys::OUT_OF_RANGE => LiveError::OutOfRange,
        sys::NOT_OPEN => LiveError::NotOpen,
        sys::FULL => LiveError::Full,
        sys::UNKNOWN_SEQ => LiveError::UnknownSeq,
        sys::NOT_SPY => LiveError::NotSpy,
        sys::NOTHING_HELD => LiveError::NothingHeld,
        sys::NO_DEVICE => LiveError::NoDevice,
        sys::INCONSISTENT => LiveError::Inconsistent,
        sys::WAITS => LiveError::Waits,
        sys::TOO_MANY => LiveError::TooMany,
        sys::BAD_SLOTS => LiveError::BadSlots,
        sys::NOT_SHOWN => LiveError::NotShown,
        sys::FINGER_DOWN => LiveError::FingerDown,
        sys::NO_FINGER => LiveError::NoFinger,
        sys::TOO_MANY_FINGERS => LiveError::TooManyFingers,
        status => unreachable!("the service is open: status {status}"),
    })
}

/// The same where nothing may be found.
fn found<T>(status: i32, told: T) -> Result<Option<T>, LiveError> {
    if status == sys::NOTHING {
        return Ok(None);
    }
    done(status).map(|()| Some(told))
}

/// When a key that a client's window holds is repeated, in microseconds. Each delay is 1,000 to 600,000,000; or both are
/// 0, and no key is repeated.
#[derive(Clone, Copy, Debug, PartialEq, Eq)]
pub struct Repeats {
    /// How long after its down it is repeated for the first time.
    pub first_us: u64,
    /// How long after each repeat it is repeated again.
    pub next_us: u64,
}

impl Repeats {
    /// The defaults of Android: half a second, and then a twentieth of a second.
    pub const ANDROID: Repeats = Repeats {
        first_us: 500_000,
        next_us: 50_000,
    };

    /// No key is repeated, as for clients that repeat keys by themselves.
    pub const NONE: Repeats = Repeats {
        first_us: 0,
        next_us: 0,
    };
}

/// The dispatcher for a program that runs as long as its screen: clients and devices come and go, events are handed in,
/// and each client receives its messages. It stays on its thread. Times are microseconds, at most 10^18.
///
/// ```
/// use inputflinger::{Action, Body, Live, Message, Motion, Occlusion, Panel, Pointer, Rect};
/// use inputflinger::{Repeats, Window};
///
/// let mut live = Live::new(5_000_000, Repeats::ANDROID, [0; 8])?;
/// let panel = Panel { x: (0, 1079), y: (0, 2399), width: 1080, height: 2400, rotation: 0 };
/// let device = live.add_touch(0, 10, &panel)?;
/// let client = live.open()?;
/// let frame = Rect { left: 0, top: 100, right: 1080, bottom: 2400 };
/// let occlusion = Occlusion::Block;
/// let window = Window { client, display: 0, frame, region: &[frame], flags: 0, owner: 0, opacity: 100, occlusion };
/// live.windows(0, &[window])?;
/// let down = Motion::new(device, Action::Down, &[Pointer { id: 0, x: 540, y: 1200 }]);
/// live.args(1000, &Message::motion(0, down))?;
/// let told = live.next(client)?.unwrap();
/// match told.body {
///     Body::Motion { action, pointers, .. } => {
///         assert_eq!((action, pointers[0].y), (Action::Down, 1100));
///     }
///     other => panic!("{other:?}"),
/// }
/// live.finish(1000, client, told.seq)?;
/// assert_eq!(live.due(), None);
/// # Ok::<(), Box<dyn std::error::Error>>(())
/// ```
///
/// ```compile_fail
/// let live = inputflinger::Live::new(5_000_000, inputflinger::Repeats::ANDROID, [0; 8]).unwrap();
/// std::thread::spawn(move || drop(live));
/// ```
pub struct Live {
    handle: sys::Live,
}

impl Live {
    /// A service without clients and devices. A client that leaves a message unfinished for `limit_us`, 1,000 to
    /// 600,000,000, is reported unresponsive. `repeats` says when keys that the window of a client holds are repeated.
    /// `displays` has the display of each device number, 0 to 3, from device 1 on.
    ///
    /// # Errors
    ///
    /// `OutOfRange` and `NoMemory`.
    pub fn new(limit_us: u64, repeats: Repeats, displays: [u8; 8]) -> Result<Live, LiveError> {
        let mut live = Live {
            handle: sys::Live {
                at: ptr::null_mut(),
                is_open: false,
            },
        };
        let displays = sys::Displays {
            of_device: displays,
        };
        let repeats = sys::Repeats {
            first_us: repeats.first_us,
            next_us: repeats.next_us,
        };
        // SAFETY: the handle is free, and all are nobody else's.
        done(unsafe {
            let (live, size) = (&mut live.handle, size_of::<sys::Repeats>());
            sys::inputflinger_live_new_sized(live, limit_us, &repeats, size, &displays)
        })?;
        Ok(live)
    }

    /// Plugs in a touch panel on a display, with 1 to 16 slots. Returns its number.
    ///
    /// # Errors
    ///
    /// `OutOfRange`, `BadSlots`, and `TooMany` if all numbers of the display are taken.
    pub fn add_touch(&mut self, display: u8, slots: u8, panel: &Panel) -> Result<u8, LiveError> {
        let panel = sys::Panel {
            x: sys::Axis {
                min: panel.x.0,
                max: panel.x.1,
            },
            y: sys::Axis {
                min: panel.y.0,
                max: panel.y.1,
            },
            width: panel.width,
            height: panel.height,
            rotation: panel.rotation,
        };
        let mut device = 0;
        // SAFETY: all are of the declared types, and nobody else's during the call. So it is below.
        done(unsafe {
            let (live, size) = (&mut self.handle, size_of::<sys::Panel>());
            sys::inputflinger_live_add_touch_sized(live, display, slots, &panel, size, &mut device)
        })?;
        Ok(device)
    }

    /// Plugs in a device with keys on a display. `layout` is a text in the form of Android's `.kl` files; a scan code
    /// without a line has the key code 0. Returns its number.
    ///
    /// ```
    /// use inputflinger::{Live, LiveError, Repeats};
    ///
    /// let mut live = Live::new(5_000_000, Repeats::ANDROID, [0; 8])?;
    /// let keyboard = live.add_keys(0, "key 30 A\nkey 48 B\n")?;
    /// assert_eq!(live.add_keys(0, "key 30 a\n"), Err(LiveError::BadLayout { line: 1 }));
    /// live.event(1000, keyboard, 1, 30, 1)?;
    /// # Ok::<(), LiveError>(())
    /// ```
    ///
    /// # Errors
    ///
    /// `OutOfRange`, `BadLayout`, `NoMemory`, and `TooMany` if all numbers of the display are taken.
    pub fn add_keys(&mut self, display: u8, layout: &str) -> Result<u8, LiveError> {
        let (mut device, mut line) = (0, 0);
        let (text, len) = (layout.as_ptr().cast(), layout.len());
        // SAFETY: as above.
        let status = unsafe {
            let live = &mut self.handle;
            sys::inputflinger_live_add_keys(live, display, text, len, &mut device, &mut line)
        };
        if status == sys::BAD_LAYOUT {
            return Err(LiveError::BadLayout { line });
        }
        done(status).map(|()| device)
    }

    /// Unplugs a device. What is down on it is cancelled, and its number is free.
    ///
    /// # Errors
    ///
    /// `NoDevice`, `OutOfRange`, and those of [`event`](Live::event).
    pub fn remove_device(&mut self, now_us: u64, device: u8) -> Result<(), LiveError> {
        // SAFETY: as above.
        done(unsafe { sys::inputflinger_live_remove_device(&mut self.handle, now_us, device) })
    }

    /// Hands in an event of a device, with the type, code and value of the kernel's `struct input_event`.
    ///
    /// # Errors
    ///
    /// `NoDevice` and `OutOfRange`; `Inconsistent` if what it gave does not fit what [`args`](Live::args) handed
    /// in before; `NoMemory` if it was not taken, and `Waits` if it was.
    pub fn event(
        &mut self,
        now_us: u64,
        device: u8,
        kind: u16,
        code: u16,
        value: i32,
    ) -> Result<(), LiveError> {
        // SAFETY: as above.
        done(unsafe {
            sys::inputflinger_live_event(&mut self.handle, now_us, device, kind, code, value)
        })
    }

    /// A finger goes down on a panel, at a position in the units of the panel. Its touch id may be any number that no
    /// other finger on the panel has. The next [`touch_frame`](Live::touch_frame) dispatches what the fingers did.
    ///
    /// libinput and wlroots report fingers so: one by one, and then a frame. A panel that is driven so is to get no
    /// [`event`](Live::event) and no [`args`](Live::args) besides.
    ///
    /// ```
    /// use inputflinger::{Live, LiveError, Panel, Repeats};
    ///
    /// let mut live = Live::new(5_000_000, Repeats::ANDROID, [0; 8])?;
    /// let panel = Panel { x: (0, 1079), y: (0, 2399), width: 1080, height: 2400, rotation: 0 };
    /// let device = live.add_touch(0, 16, &panel)?;
    /// live.touch_down(1000, device, 7, 540, 1200)?;
    /// assert_eq!(live.touch_down(1000, device, 7, 100, 200), Err(LiveError::FingerDown));
    /// live.touch_frame(1000, device)?;
    /// live.touch_up(2000, device, 7)?;
    /// live.touch_frame(2000, device)?;
    /// # Ok::<(), LiveError>(())
    /// ```
    ///
    /// # Errors
    ///
    /// `FingerDown`; `TooManyFingers` if no slot of the panel is free: for a 17th finger, or one more than the slots it
    /// was plugged in with; and those of [`event`](Live::event). After `NoMemory` the fingers are as before, and the call
    /// can be made again.
    pub fn touch_down(
        &mut self,
        now_us: u64,
        device: u8,
        id: i32,
        x: i32,
        y: i32,
    ) -> Result<(), LiveError> {
        // SAFETY: as above.
        done(unsafe {
            sys::inputflinger_live_touch_down(&mut self.handle, now_us, device, id, x, y)
        })
    }

    /// A finger that is down on a panel moves to a position in the units of the panel.
    ///
    /// # Errors
    ///
    /// `NoFinger`, and those of [`event`](Live::event).
    pub fn touch_motion(
        &mut self,
        now_us: u64,
        device: u8,
        id: i32,
        x: i32,
        y: i32,
    ) -> Result<(), LiveError> {
        // SAFETY: as above.
        done(unsafe {
            sys::inputflinger_live_touch_motion(&mut self.handle, now_us, device, id, x, y)
        })
    }

    /// A finger that is down on a panel goes up. If it went down since the last frame, it gives nothing.
    ///
    /// # Errors
    ///
    /// `NoFinger`, and those of [`event`](Live::event).
    pub fn touch_up(&mut self, now_us: u64, device: u8, id: i32) -> Result<(), LiveError> {
        // SAFETY: as above.
        done(unsafe { sys::inputflinger_live_touch_up(&mut self.handle, now_us, device, id) })
    }

    /// A finger that is down on a panel is cancelled, as a palm. The frame ends with it: what other fingers did since the
    /// last one is dispatched too.
    ///
    /// # Errors
    ///
    /// `NoFinger`, and those of [`event`](Live::event).
    pub fn touch_cancel(&mut self, now_us: u64, device: u8, id: i32) -> Result<(), LiveError> {
        // SAFETY: as above.
        done(unsafe { sys::inputflinger_live_touch_cancel(&mut self.handle, now_us, device, id) })
    }

    /// Dispatches what the fingers of a panel did since the last frame.
    ///
    /// # Errors
    ///
    /// Those of [`event`](Live::event).
    pub fn touch_frame(&mut self, now_us: u64, device: u8) -> Result<(), LiveError> {
        // SAFETY: as above.
        done(unsafe { sys::inputflinger_live_touch_frame(&mut self.handle, now_us, device) })
    }

    /// Hands in a ready-made motion or key of a device, in display pixels.
    ///
    /// # Errors
    ///
    /// Those of [`event`](Live::event); `OutOfRange` also for a message of the focus.
    pub fn args(&mut self, now_us: u64, message: &Message) -> Result<(), LiveError> {
        if message.is_too_long {
            return Err(LiveError::OutOfRange);
        }
        self.hand_in(now_us, &message.plain)
    }

    /// Hands in that a device lost events: everything that is down on it is cancelled.
    ///
    /// # Errors
    ///
    /// Those of [`event`](Live::event).
    pub fn reset(&mut self, now_us: u64, device: u8) -> Result<(), LiveError> {
        let message = sys::Message {
            kind: 3,
            device,
            ..sys::Message::default()
        };
        self.hand_in(now_us, &message)
    }

    fn hand_in(&mut self, now_us: u64, message: &sys::Message) -> Result<(), LiveError> {
        let size = size_of::<sys::Message>();
        // SAFETY: as above.
        done(unsafe { sys::inputflinger_live_args_sized(&mut self.handle, now_us, message, size) })
    }

    /// Opens a client on the first free channel.
    ///
    /// # Errors
    ///
    /// `Full` and `NoMemory`.
    pub fn open(&mut self) -> Result<Client, LiveError> {
        let mut plain = sys::Client::default();
        // SAFETY: as above.
        done(unsafe { sys::inputflinger_live_open(&mut self.handle, &mut plain) })?;
        Ok(Client { plain })
    }

    /// Opens a client with options on the first free channel.
    ///
    /// ```
    /// use inputflinger::{Live, Options, Repeats};
    ///
    /// let mut live = Live::new(5_000_000, Repeats::ANDROID, [0; 8])?;
    /// let client = live.open_with(Options { user_data: 7, finishes: true })?;
    /// assert_eq!(live.user_data(client), Some(7));
    /// # Ok::<(), inputflinger::LiveError>(())
    /// ```
    ///
    /// # Errors
    ///
    /// `Full` and `NoMemory`.
    pub fn open_with(&mut self, options: Options) -> Result<Client, LiveError> {
        let told = sys::Options {
            user_data: options.user_data,
            finishes: u8::from(options.finishes),
        };
        let mut plain = sys::Client::default();
        // SAFETY: as above.
        done(unsafe {
            let (live, size) = (&mut self.handle, size_of::<sys::Options>());
            sys::inputflinger_live_open_with_sized(live, &told, size, &mut plain)
        })?;
        Ok(Client { plain })
    }

    /// The user data that a client was opened with; `None` if it is not open.
    pub fn user_data(&self, client: Client) -> Option<u64> {
        let mut user_data = 0;
        // SAFETY: as above.
        let status = unsafe {
            sys::inputflinger_live_user_data(&self.handle, &client.plain, &mut user_data)
        };
        (status == sys::OK).then_some(user_data)
    }

    /// Closes a client: its window is no longer shown, what it holds is cancelled, and what it did not receive is gone.
    ///
    /// # Errors
    ///
    /// `NotOpen` and `OutOfRange`; `NoMemory`: it is still open then, but may have lost its window, its
    /// focus requests and messages.
    pub fn close(&mut self, now_us: u64, client: Client) -> Result<(), LiveError> {
        // SAFETY: as above.
        done(unsafe { sys::inputflinger_live_close(&mut self.handle, now_us, &client.plain) })
    }

    /// Whether a client is open.
    pub fn is_open(&self, client: Client) -> bool {
        let mut is_open = false;
        // SAFETY: as above.
        unsafe { sys::inputflinger_live_is_open(&self.handle, &client.plain, &mut is_open) };
        is_open
    }

    /// The client that is open on a channel.
    pub fn client_at(&self, channel: u32) -> Option<Client> {
        let mut plain = sys::Client::default();
        // SAFETY: as above.
        let status = unsafe { sys::inputflinger_live_client_at(&self.handle, channel, &mut plain) };
        (status == sys::OK).then_some(Client { plain })
    }

    /// Shows windows, front to back, in place of all windows before.
    ///
    /// # Errors
    ///
    /// `WindowNotOpen`, `TooMany`, `Twice`, `OutOfRange` and `NoMemory`.
    pub fn windows(&mut self, now_us: u64, windows: &[Window<'_>]) -> Result<(), LiveError> {
        let rects: Vec<sys::Rect> = windows
            .iter()
            .flat_map(|window| window.region.iter().map(Rect::plain))
            .collect();
        let mut rows = Vec::with_capacity(windows.len());
        for window in windows {
            rows.push(window.plain()?);
        }
        let mut named = 0;
        // SAFETY: each pointer and length are those of one vector; as above.
        let status = unsafe {
            sys::inputflinger_live_windows_sized(
                &mut self.handle,
                now_us,
                rows.as_ptr(),
                size_of::<sys::Window>(),
                rows.len(),
                rects.as_ptr(),
                rects.len(),
                &mut named,
            )
        };
        match status {
            sys::NOT_OPEN => Err(LiveError::WindowNotOpen {
                place: named as usize,
            }),
            sys::TWICE => Err(LiveError::Twice {
                channel: named as u32,
            }),
            status => done(status),
        }
    }

    /// Replaces the window of a client, which stays where it is, front to back. All other windows stay as they are.
    ///
    /// # Errors
    ///
    /// `NotOpen`, `NotShown`, `OutOfRange` and `NoMemory`.
    pub fn window(&mut self, now_us: u64, window: &Window<'_>) -> Result<(), LiveError> {
        let rects: Vec<sys::Rect> = window.region.iter().map(Rect::plain).collect();
        let row = window.plain()?;
        // SAFETY: the pointer and the length are those of one vector; as above.
        done(unsafe {
            sys::inputflinger_live_window_sized(
                &mut self.handle,
                now_us,
                &row,
                size_of::<sys::Window>(),
                rects.as_ptr(),
                rects.len(),
            )
        })
    }

    /// Requests the focus of a display for a client, or for none.
    ///
    /// # Errors
    ///
    /// `NotOpen`, `OutOfRange` and `NoMemory`.
    pub fn focus(
        &mut self,
        now_us: u64,
        display: u8,
        client: Option<Client>,
    ) -> Result<(), LiveError> {
        let plain = client.map_or_else(sys::Client::default, |client| client.plain);
        // SAFETY: as above.
        done(unsafe { sys::inputflinger_live_focus(&mut self.handle, now_us, display, &plain) })
    }

    /// Lets a client's spy pilfer: it takes the pointers of a device that it holds from all other windows.
    ///
    /// # Errors
    ///
    /// `NotOpen`, `NotSpy`, `NothingHeld`, `OutOfRange` and `NoMemory`.
    pub fn pilfer(&mut self, now_us: u64, client: Client, device: u8) -> Result<(), LiveError> {
        // SAFETY: as above.
        done(unsafe {
            sys::inputflinger_live_pilfer(&mut self.handle, now_us, &client.plain, device)
        })
    }

    /// The channels that have a message for their client: bit `channel - 1` stands for a channel.
    pub fn waiting(&self) -> u64 {
        let mut mask = 0;
        // SAFETY: as above.
        unsafe { sys::inputflinger_live_waiting(&self.handle, &mut mask) };
        mask
    }

    /// Receives the next message of a client; None if there is none, or if the client is not open.
    ///
    /// # Errors
    ///
    /// `NoMemory`, only if the calls can no longer be counted in 64 bits.
    pub fn next(&mut self, client: Client) -> Result<Option<Received>, LiveError> {
        let mut message = sys::Message::default();
        // SAFETY: as above.
        let status = unsafe {
            let (live, size) = (&mut self.handle, size_of::<sys::Message>());
            sys::inputflinger_live_next_sized(live, &client.plain, &mut message, size)
        };
        Ok(found(status, message)?.map(|message| Received::of(&message)))
    }

    /// Receives the next message of any client, in the order in which the service sent them; None if no client has one.
    /// Each client gets the messages that [`next`](Live::next) would give it, in the same order. The messages of an
    /// earlier step come first; of one step, motions come before keys and keys before the focus, of each what ends comes
    /// first, then what goes on, then what begins, and then the lesser channel comes first.
    ///
    /// # Errors
    ///
    /// `NoMemory`, only if the calls can no longer be counted in 64 bits.
    pub fn next_any(&mut self) -> Result<Option<Handed>, LiveError> {
        let (mut plain, mut message) = (sys::Client::default(), sys::Message::default());
        let mut last = false;
        // SAFETY: as above.
        let status = unsafe {
            let (live, size) = (&mut self.handle, size_of::<sys::Message>());
            sys::inputflinger_live_next_any_sized(live, &mut plain, &mut message, size, &mut last)
        };
        Ok(found(status, message)?.map(|message| Handed {
            client: Client { plain },
            received: Received::of(&message),
            last,
        }))
    }

    /// A client finishes the message with this number, which it received.
    ///
    /// # Errors
    ///
    /// `NotOpen`, `UnknownSeq` and `OutOfRange`; `NoMemory` only if the calls can no longer be counted in 64 bits.
    pub fn finish(&mut self, now_us: u64, client: Client, seq: u64) -> Result<(), LiveError> {
        // SAFETY: as above.
        done(unsafe { sys::inputflinger_live_finish(&mut self.handle, now_us, &client.plain, seq) })
    }

    /// Says that a client is done with every message up to this number, which it got; 0 stands for none.
    ///
    /// # Errors
    ///
    /// `NotOpen` and `OutOfRange`; `UnknownSeq` if the client did not get the message, and then nothing changed;
    /// `NoMemory` only where the calls cannot be counted in 64 bits.
    pub fn finish_through(&mut self, now_us: u64, client: Client, seq: u64) -> Result<(), LiveError> {
        let (live, plain) = (&mut self.handle, &client.plain);
        // SAFETY: as above.
        done(unsafe { sys::inputflinger_live_finish_through(live, now_us, plain, seq) })
    }

    /// The first time at which something is due: a message that is late, or the repeat of a held key. While input waits
    /// for memory, or a client is to be choked, released or reported, it is the clock.
    pub fn due(&self) -> Option<u64> {
        let mut moment_us = 0;
        // SAFETY: as above.
        let status = unsafe { sys::inputflinger_live_due(&self.handle, &mut moment_us) };
        (status == sys::OK).then_some(moment_us)
    }

    /// Sets how many messages a client may leave unreceived, 10,000 at first. A client that has more is choked by the
    /// next call that may send something: the mask of the next `advance` has its channel, its window is a wall, and it
    /// has no focus. Once it has finished all of its messages, it gets both back.
    pub fn set_most(&mut self, most: u64) {
        // SAFETY: as above.
        let _ = unsafe { sys::inputflinger_live_set_most(&mut self.handle, most) };
    }

    /// Whether a client is open and choked.
    pub fn is_choked(&self, client: Client) -> bool {
        let mut is_choked = false;
        // SAFETY: as above.
        unsafe { sys::inputflinger_live_is_choked(&self.handle, &client.plain, &mut is_choked) };
        is_choked
    }

    /// Makes room for this many next events, whichever devices they belong to. None of them is `Waits`, if nothing waits
    /// now, no other call comes between, and no client is choked or released meanwhile.
    ///
    /// # Errors
    ///
    /// `NoMemory`.
    pub fn reserve(&mut self, events: u16) -> Result<(), LiveError> {
        // SAFETY: as above.
        done(unsafe { sys::inputflinger_live_reserve(&mut self.handle, events) })
    }

    /// Runs everything that is due up to now. Returns the mask of the channels that were reported unresponsive.
    ///
    /// # Errors
    ///
    /// `OutOfRange`; `NoMemory`: a part may be done, and the next call also reports the channels that this one found.
    pub fn advance(&mut self, now_us: u64) -> Result<u64, LiveError> {
        let mut mask = 0;
        // SAFETY: as above.
        done(unsafe { sys::inputflinger_live_advance(&mut self.handle, now_us, &mut mask) })?;
        Ok(mask)
    }

    /// The latest time that was handed in.
    pub fn clock(&self) -> u64 {
        let mut moment_us = 0;
        // SAFETY: as above.
        unsafe { sys::inputflinger_live_clock(&self.handle, &mut moment_us) };
        moment_us
    }

    /// The client that has the focus of a display.
    ///
    /// # Errors
    ///
    /// `OutOfRange` if there is no such display.
    pub fn focused(&self, display: u8) -> Result<Option<Client>, LiveError> {
        let mut plain = sys::Client::default();
        // SAFETY: as above.
        let status = unsafe { sys::inputflinger_live_focused(&self.handle, display, &mut plain) };
        found(status, ()).map(|told| told.map(|()| Client { plain }))
    }

    /// The client that keys go to.
    pub fn key_target(&self) -> Option<Client> {
        let mut plain = sys::Client::default();
        // SAFETY: as above.
        let status = unsafe { sys::inputflinger_live_key_target(&self.handle, &mut plain) };
        (status == sys::OK).then_some(Client { plain })
    }

    /// The client whose window a touch at a pixel of a display goes to: that of the first window from the front which is
    /// no spy, is touchable and has the pixel in its region. `None` if there is no such window, or if it is a wall.
    ///
    /// # Errors
    ///
    /// `OutOfRange` if there is no such display.
    pub fn window_at(&self, display: u8, x: i32, y: i32) -> Result<Option<Client>, LiveError> {
        let mut plain = sys::Client::default();
        // SAFETY: as above.
        let status = unsafe {
            sys::inputflinger_live_window_at(&self.handle, display, x, y, &mut plain)
        };
        found(status, ()).map(|told| told.map(|()| Client { plain }))
    }

    /// Whether a client is open and responds.
    pub fn is_responsive(&self, client: Client) -> bool {
        let mut told = false;
        // SAFETY: as above.
        unsafe { sys::inputflinger_live_is_responsive(&self.handle, &client.plain, &mut told) };
        told
    }

    /// The ids of the pointers of a device that a client holds, as bits; 0 if the client is not open.
    ///
    /// # Errors
    ///
    /// `OutOfRange` if there is no such device number.
    pub fn holds(&self, client: Client, device: u8) -> Result<u32, LiveError> {
        let mut ids = 0;
        // SAFETY: as above.
        done(unsafe {
            sys::inputflinger_live_holds(&self.handle, &client.plain, device, &mut ids)
        })?;
        Ok(ids)
    }

    /// The first key that is down on a device: the least scan code of those that are down and at least `from`. A window
    /// that gets the focus while a key is down is sent nothing for that key. If a client must know of such keys, send it
    /// a list of them yourself, as a Wayland compositor does with `wl_keyboard.enter`.
    ///
    /// ```
    /// use inputflinger::{Live, LiveError, Repeats};
    ///
    /// let mut live = Live::new(5_000_000, Repeats::NONE, [0; 8])?;
    /// let keyboard = live.add_keys(0, "key 30 A\nkey 42 SHIFT_LEFT\n")?;
    /// live.event(1000, keyboard, 1, 42, 1)?;
    /// live.event(2000, keyboard, 1, 30, 1)?;
    /// assert_eq!(live.first_key(keyboard, 0)?, Some(30));
    /// assert_eq!(live.first_key(keyboard, 31)?, Some(42));
    /// assert_eq!(live.first_key(keyboard, 43)?, None);
    /// # Ok::<(), LiveError>(())
    /// ```
    ///
    /// # Errors
    ///
    /// `OutOfRange` if there is no such device number.
    pub fn first_key(&self, device: u8, from: u32) -> Result<Option<u16>, LiveError> {
        let mut scan = 0;
        // SAFETY: as above.
        let status = unsafe {
            sys::inputflinger_live_first_key(&self.handle, device, from, &mut scan)
        };
        found(status, scan)
    }
}

impl Drop for Live {
    fn drop(&mut self) {
        // SAFETY: the handle is nobody else's. A free one is answered by a status.
        unsafe { sys::inputflinger_live_free(&mut self.handle) };
    }
}
