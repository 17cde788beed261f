//! The calls and structs of include/inputflinger.h. A test compares their sizes with those that the archive states.

use std::ffi::{c_char, c_void};

/// `struct inputflinger_judge`
#[repr(C)]
pub struct Judge {
    pub at: *mut c_void,
    pub is_open: bool,
}

/// `struct inputflinger_pointer`
#[repr(C)]
#[derive(Clone, Copy, Default)]
pub struct Pointer {
    pub x: i32,
    pub y: i32,
    pub id: u32,
}

/// `struct inputflinger_message`
#[repr(C)]
#[derive(Clone, Copy, Default)]
pub struct Message {
    pub seq: u64,
    pub moment_us: u64,
    pub kind: u32,
    pub flags: u32,
    pub meta: u32,
    pub repeat: u32,
    pub scan: u16,
    pub code: u16,
    pub device: u8,
    pub action: u8,
    pub index: u8,
    pub count: u8,
    pub down: u8,
    pub focus: u8,
    pub pointers: [Pointer; 16],
    pub user_data: u64,
}

/// `struct inputflinger_fault`
#[repr(C)]
#[derive(Clone, Copy, Default)]
pub struct Fault {
    pub place: u64,
    pub next_repeat: u64,
    pub held: u32,
    pub reason: u32,
    pub key_down: u8,
    pub focus: u8,
}

/// `struct inputflinger_state`
#[repr(C)]
#[derive(Clone, Copy, Default)]
pub struct State {
    pub ids: [u32; 8],
    pub focus: u8,
}

/// `struct inputflinger_key`
#[repr(C)]
#[derive(Clone, Copy, Default)]
pub struct Key {
    pub device: u16,
    pub scan: u16,
}

/// `struct inputflinger_live`
#[repr(C)]
pub struct Live {
    pub at: *mut c_void,
    pub is_open: bool,
}

/// `struct inputflinger_client`
#[repr(C)]
#[derive(Clone, Copy, Debug, Default, PartialEq, Eq, Hash)]
pub struct Client {
    pub generation: u64,
    pub channel: u32,
}

/// `struct inputflinger_options`
#[repr(C)]
#[derive(Clone, Copy, Default)]
pub struct Options {
    pub user_data: u64,
    pub finishes: u8,
}

/// `struct inputflinger_rect`
#[repr(C)]
#[derive(Clone, Copy, Default)]
pub struct Rect {
    pub left: i32,
    pub top: i32,
    pub right: i32,
    pub bottom: i32,
}

/// `struct inputflinger_window`
#[repr(C)]
#[derive(Clone, Copy, Default)]
pub struct Window {
    pub client: Client,
    pub frame: Rect,
    pub flags: u32,
    pub rects: u32,
    pub display: u8,
    pub unused: [u8; 7],
    pub owner: u32,
    pub opacity: u8,
    pub occlusion: u8,
}

/// `struct inputflinger_axis`
#[repr(C)]
#[derive(Clone, Copy, Default)]
pub struct Axis {
    pub min: i32,
    pub max: i32,
}

/// `struct inputflinger_panel`
#[repr(C)]
#[derive(Clone, Copy, Default)]
pub struct Panel {
    pub x: Axis,
    pub y: Axis,
    pub width: u16,
    pub height: u16,
    pub rotation: u8,
}

/// `struct inputflinger_displays`
#[repr(C)]
#[derive(Clone, Copy, Default)]
pub struct Displays {
    pub of_device: [u8; 8],
}

/// `struct inputflinger_repeats`
#[repr(C)]
#[derive(Clone, Copy)]
pub struct Repeats {
    pub first_us: u64,
    pub next_us: u64,
}

/// `struct inputflinger_file`
#[repr(C)]
pub struct File {
    pub bytes: *const c_void,
    pub len: usize,
}

/// `struct inputflinger_ran`
#[repr(C)]
#[derive(Default)]
pub struct Ran {
    pub out_len: usize,
    pub err_len: usize,
    pub status: u32,
}

pub const OK: i32 = 0;
pub const NO_MEMORY: i32 = 3;
pub const OUT_OF_RANGE: i32 = 4;
pub const BROKEN: i32 = 5;
pub const NO_ROOM: i32 = 6;
pub const NOT_OPEN: i32 = 8;
pub const FULL: i32 = 9;
pub const NOTHING: i32 = 10;
pub const UNKNOWN_SEQ: i32 = 11;
pub const NOT_SPY: i32 = 12;
pub const NOTHING_HELD: i32 = 13;
pub const NO_DEVICE: i32 = 14;
pub const INCONSISTENT: i32 = 15;
pub const WAITS: i32 = 16;
pub const TOO_MANY: i32 = 17;
pub const TWICE: i32 = 18;
pub const BAD_SLOTS: i32 = 19;
pub const BAD_LAYOUT: i32 = 20;
pub const NO_THREADS: i32 = 21;
pub const NOT_SHOWN: i32 = 22;
pub const FINGER_DOWN: i32 = 23;
pub const NO_FINGER: i32 = 24;
pub const TOO_MANY_FINGERS: i32 = 25;

extern "C" {
    pub fn inputflinger_run(
        words: *const c_char,
        words_len: usize,
        files: *const File,
        files_len: usize,
        out: *mut c_char,
        out_room: usize,
        err: *mut c_char,
        err_room: usize,
        ran: *mut Ran,
    ) -> i32;
    pub fn inputflinger_judge_new(judge: *mut Judge) -> i32;
    pub fn inputflinger_judge_step_sized(
        judge: *mut Judge,
        message: *const Message,
        message_size: usize,
        fault: *mut Fault,
        fault_size: usize,
    ) -> i32;
    pub fn inputflinger_judge_state_sized(
        judge: *const Judge,
        state: *mut State,
        state_size: usize,
    ) -> i32;
    pub fn inputflinger_judge_keys(
        judge: *const Judge,
        keys: *mut Key,
        room: usize,
        count: *mut usize,
    ) -> i32;
    pub fn inputflinger_judge_free(judge: *mut Judge) -> i32;
    pub fn inputflinger_live_new_sized(
        live: *mut Live,
        limit_us: u64,
        repeats: *const Repeats,
        repeats_size: usize,
        displays: *const Displays,
    ) -> i32;
    pub fn inputflinger_live_free(live: *mut Live) -> i32;
    pub fn inputflinger_live_add_touch_sized(
        live: *mut Live,
        display: u8,
        slots: u8,
        panel: *const Panel,
        panel_size: usize,
        device: *mut u8,
    ) -> i32;
    pub fn inputflinger_live_add_keys(
        live: *mut Live,
        display: u8,
        text: *const c_char,
        len: usize,
        device: *mut u8,
        line: *mut u64,
    ) -> i32;
    pub fn inputflinger_live_remove_device(live: *mut Live, now_us: u64, device: u8) -> i32;
    pub fn inputflinger_live_event(
        live: *mut Live,
        now_us: u64,
        device: u8,
        kind: u16,
        code: u16,
        value: i32,
    ) -> i32;
    pub fn inputflinger_live_touch_down(
        live: *mut Live,
        now_us: u64,
        device: u8,
        id: i32,
        x: i32,
        y: i32,
    ) -> i32;
    pub fn inputflinger_live_touch_motion(
        live: *mut Live,
        now_us: u64,
        device: u8,
        id: i32,
        x: i32,
        y: i32,
    ) -> i32;
    pub fn inputflinger_live_touch_up(live: *mut Live, now_us: u64, device: u8, id: i32) -> i32;
    pub fn inputflinger_live_touch_cancel(live: *mut Live, now_us: u64, device: u8, id: i32)
        -> i32;
    pub fn inputflinger_live_touch_frame(live: *mut Live, now_us: u64, device: u8) -> i32;
    pub fn inputflinger_live_args_sized(
        live: *mut Live,
        now_us: u64,
        message: *const Message,
        message_size: usize,
    ) -> i32;
    pub fn inputflinger_live_open(live: *mut Live, client: *mut Client) -> i32;
    pub fn inputflinger_live_open_with_sized(
        live: *mut Live,
        options: *const Options,
        options_size: usize,
        client: *mut Client,
    ) -> i32;
    pub fn inputflinger_live_user_data(
        live: *const Live,
        client: *const Client,
        user_data: *mut u64,
    ) -> i32;
    pub fn inputflinger_live_close(live: *mut Live, now_us: u64, client: *const Client) -> i32;
    pub fn inputflinger_live_is_open(
        live: *const Live,
        client: *const Client,
        is_open: *mut bool,
    ) -> i32;
    pub fn inputflinger_live_client_at(live: *const Live, channel: u32, client: *mut Client)
        -> i32;
    pub fn inputflinger_live_windows_sized(
        live: *mut Live,
        now_us: u64,
        windows: *const Window,
        window_size: usize,
        windows_len: usize,
        rects: *const Rect,
        rects_len: usize,
        named: *mut u64,
    ) -> i32;
    pub fn inputflinger_live_window_sized(
        live: *mut Live,
        now_us: u64,
        window: *const Window,
        window_size: usize,
        rects: *const Rect,
        rects_len: usize,
    ) -> i32;
    pub fn inputflinger_live_focus(
        live: *mut Live,
        now_us: u64,
        display: u8,
        client: *const Client,
    ) -> i32;
    pub fn inputflinger_live_pilfer(
        live: *mut Live,
        now_us: u64,
        client: *const Client,
        device: u8,
    ) -> i32;
    pub fn inputflinger_live_waiting(live: *const Live, mask: *mut u64) -> i32;
    pub fn inputflinger_live_next_sized(
        live: *mut Live,
        client: *const Client,
        message: *mut Message,
        message_size: usize,
    ) -> i32;
    pub fn inputflinger_live_next_any_sized(
        live: *mut Live,
        client: *mut Client,
        message: *mut Message,
        message_size: usize,
        last: *mut bool,
    ) -> i32;
    pub fn inputflinger_live_finish(
        live: *mut Live,
        now_us: u64,
        client: *const Client,
        seq: u64,
    ) -> i32;
    pub fn inputflinger_live_finish_through(
        live: *mut Live,
        now_us: u64,
        client: *const Client,
        seq: u64,
    ) -> i32;
    pub fn inputflinger_live_due(live: *const Live, moment_us: *mut u64) -> i32;
    pub fn inputflinger_live_set_most(live: *mut Live, most: u64) -> i32;
    pub fn inputflinger_live_is_choked(
        live: *const Live,
        client: *const Client,
        is_choked: *mut bool,
    ) -> i32;
    pub fn inputflinger_live_reserve(live: *mut Live, events: u16) -> i32;
    pub fn inputflinger_live_advance(live: *mut Live, now_us: u64, mask: *mut u64) -> i32;
    pub fn inputflinger_live_clock(live: *const Live, moment_us: *mut u64) -> i32;
    pub fn inputflinger_live_focused(live: *const Live, display: u8, client: *mut Client) -> i32;
    pub fn inputflinger_live_key_target(live: *const Live, client: *mut Client) -> i32;
    pub fn inputflinger_live_window_at(
        live: *const Live,
        display: u8,
        x: i32,
        y: i32,
        client: *mut Client,
    ) -> i32;
    pub fn inputflinger_live_is_responsive(
        live: *const Live,
        client: *const Client,
        is_responsive: *mut bool,
    ) -> i32;
    pub fn inputflinger_live_holds(
        live: *const Live,
        client: *const Client,
        device: u8,
        ids: *mut u32,
    ) -> i32;
    pub fn inputflinger_live_first_key(
        live: *const Live,
        device: u8,
        from: u32,
        scan: *mut u16,
    ) -> i32;
    #[cfg(test)]
    pub fn inputflinger_proved_size(number: u32) -> usize;
}

#[cfg(test)]
mod tests {
    use super::*;
    use std::mem::size_of;

    #[test]
    fn structs_are_as_large_as_the_archive_says() {
        let sizes = [
            size_of::<Judge>(),
            size_of::<Pointer>(),
            size_of::<Message>(),
            size_of::<Fault>(),
            size_of::<State>(),
            size_of::<Key>(),
            size_of::<Live>(),
            size_of::<Client>(),
            size_of::<Rect>(),
            size_of::<Window>(),
            size_of::<Axis>(),
            size_of::<Panel>(),
            size_of::<Displays>(),
            size_of::<Ran>(),
            size_of::<Options>(),
            size_of::<Repeats>(),
        ];
        for (number, size) in sizes.iter().enumerate() {
            // SAFETY: the call takes a number and answers one.
            let told = unsafe { inputflinger_proved_size(number as u32) };
            assert_eq!(told, *size, "struct {number}");
        }
    }
}
