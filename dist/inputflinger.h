/*
 * inputflinger.h - the proved input service for programs in C and C++.
 *
 * What is here
 *
 * A live service sends touches and keys to the windows of a compositor's clients, by the rules of Android's dispatcher.
 * Devices and clients come and go, events are handed in, and each client receives its messages (inputflinger_live_).
 * A judge tells a toolkit whether the touches and keys that a window is sent make sense (inputflinger_judge_). A test
 * tool runs the program inputflinger over recordings in memory (inputflinger_run). All of this is written in Rattle and
 * proved; docs/LIBRARY.md says which of the sentences below rest on a proof, and which on tests.
 *
 * A touch's life
 *
 * A device is a touch screen or a keyboard, with a number from 1 to 8. A finger on a screen is a pointer, with an id from
 * 0 to 31. DOWN reports the first finger that goes down on a device, and POINTER_DOWN each further one. MOVE reports
 * where all of them are now. POINTER_UP reports that one of several goes up, and UP that the last one does. A gesture is
 * everything from a DOWN to its UP. CANCEL ends a gesture that must not be acted on, and a POINTER_UP with the flag
 * CANCELED takes back one finger alone. Each motion lists all fingers that are down, including the one that goes down or
 * up, with rising ids. OUTSIDE reports that a finger went down outside the window; it is not part of a gesture.
 *
 * A key goes down with repeat number 0, may go down again with 1, 2, .. while it is held, and goes up with repeat number
 * 0. A window gets the focus before it loses it.
 *
 * A stream of messages that follows these rules is well-formed. Show a judge the messages of one stream, one by one, and
 * it reports the first at which the stream is no longer well-formed:
 *
 *     message                                                   answer of inputflinger_judge_step
 *     1  1000  motion, device 1, DOWN, pointer 0 at (540,1200)  INPUTFLINGER_OK
 *     2  2000  motion, device 1, DOWN, pointer 0 at (540,1200)  INPUTFLINGER_BROKEN: place 1, held 0x1,
 *                                                               reason INPUTFLINGER_REASON_ALREADY_DOWN
 *     2  2000  motion, device 1, UP, pointer 0 at (540,1200)    INPUTFLINGER_OK: what was refused changed nothing
 *
 * Ownership
 *
 * A handle is a struct of the caller: on the stack, in another struct, anywhere. A handle whose bytes are all 0 is free:
 *
 *     struct inputflinger_judge judge = {0};
 *
 *     struct inputflinger_live live = {0};
 *
 * `_new` puts something into a free handle, and `_free` destroys it and makes the handle free again. A handle that is not
 * free owns memory from malloc. You may move it with memcpy if you then use only the new place. Never use two copies of a
 * handle; the library cannot detect it. A call on a free handle answers INPUTFLINGER_FREE and does nothing.
 *
 * All other memory is the caller's. No call keeps a pointer that it was given. A NULL pointer is answered by
 * INPUTFLINGER_NULL unless the call's text allows it. Any other pointer must lead to a struct of the declared type, and
 * the structs of one call must not overlap.
 *
 * Threads
 *
 * A handle belongs to one thread at a time, even during calls that take it as const. Different handles share nothing. The
 * library starts no threads, and keeps nothing between calls except what handles own.
 *
 * Statuses
 *
 * Each call answers a status. A call that answers anything but INPUTFLINGER_OK changed nothing, neither the handle nor
 * what pointers lead to, unless its own text says so. INPUTFLINGER_NO_MEMORY means out of memory; you may make the same
 * call again later. Any call answers INPUTFLINGER_FREE on a free handle and INPUTFLINGER_NULL on a NULL pointer that is
 * not allowed, so the lists below leave these two out.
 *
 * If several refusals hold, INPUTFLINGER_NULL comes first, then INPUTFLINGER_FREE, and then the first in the call's
 * list. INPUTFLINGER_NO_MEMORY has no fixed rank: the call answers it where it first needs memory that is not there.
 *
 * Structs that grow
 *
 * A later release may add members at the end of a message, a fault, a state, a panel, a window, options and repeats. A
 * program that was compiled before still runs, since each call that takes one of them also takes its size: those calls are
 * inline here, and hand the size that this header gives the struct to the function of the library whose name ends in
 * _sized. A binding of another language calls that function with the size of its own struct. A member that your struct
 * does not have counts as 0, which always means what the release before did. Members that your struct has and the library
 * does not have must be 0, or the answer is INPUTFLINGER_OUT_OF_RANGE; the library writes them as 0. A size below that of
 * the first release is INPUTFLINGER_OUT_OF_RANGE. No other struct ever changes.
 *
 * Units
 *
 * Positions count units of a display. You choose the unit, one for all of a display: a pixel, half of one, or 1/256 as in
 * Wayland's fixed-point numbers. The rules compare positions and subtract the corner of a window, so they hold for any
 * unit. The text below says pixel for a unit.
 *
 * Frames, rectangles and positions are int32_t numbers; a difference that does not fit becomes the nearest number that
 * does. With units of 1/256 pixel that is some 8 million pixels to each side. A panel turns its raw positions into whole
 * units of a display that is at most 16,384 units wide and high: with units of 1/8 pixel 2,048 pixels, and with 1/256
 * pixel 64. What inputflinger_live_args hands in has no such bound.
 *
 * Times are microseconds of a clock of your own, at most 10^18. Each call that takes the current time also accepts a time
 * before that of an earlier call: the latest time that was handed in counts. The time of a call that is refused and
 * changes nothing does not count.
 */
#ifndef INPUTFLINGER_H
#define INPUTFLINGER_H

#include <stdbool.h>
#include <stddef.h>
#include <stdint.h>

#ifdef __cplusplus
extern "C" {
#endif

/* The release of this header. inputflinger_version returns that of the library that a program runs with. */
#define INPUTFLINGER_VERSION_MAJOR 1
#define INPUTFLINGER_VERSION_MINOR 0
#define INPUTFLINGER_VERSION_MICRO 0

/* The release of the library, as "1.0.0"; "1.0.0+next" if it has changes that no release has. */
const char *inputflinger_version(void);

/* The answer of a call. */
enum inputflinger_status {
	/* The call was made. */
	INPUTFLINGER_OK = 0,
	/* The handle is free. */
	INPUTFLINGER_FREE = 1,
	/* The handle is not free. */
	INPUTFLINGER_TAKEN = 2,
	/* Out of memory. */
	INPUTFLINGER_NO_MEMORY = 3,
	/* A number is out of its range. */
	INPUTFLINGER_OUT_OF_RANGE = 4,
	/* The message is not allowed where it came. */
	INPUTFLINGER_BROKEN = 5,
	/* There is too little room for the answer. */
	INPUTFLINGER_NO_ROOM = 6,
	/* A pointer is NULL and must not be. */
	INPUTFLINGER_NULL = 7,
	/* The client is not open, or no longer. */
	INPUTFLINGER_NOT_OPEN = 8,
	/* 64 clients are open. */
	INPUTFLINGER_FULL = 9,
	/* There is none: no message, no time, no client. */
	INPUTFLINGER_NOTHING = 10,
	/* The client did not receive the message, or finished it already. */
	INPUTFLINGER_UNKNOWN_SEQ = 11,
	/* The client has no spy among the shown windows. */
	INPUTFLINGER_NOT_SPY = 12,
	/* The spy holds no pointer of the device. */
	INPUTFLINGER_NOTHING_HELD = 13,
	/* The device is not plugged in. */
	INPUTFLINGER_NO_DEVICE = 14,
	/* The input does not fit what its device did before, and was not taken. */
	INPUTFLINGER_INCONSISTENT = 15,
	/* Out of memory after the input was taken: it waits, and a later call dispatches it. */
	INPUTFLINGER_WAITS = 16,
	/* There are more than 64 windows, or all device numbers of the display are taken. */
	INPUTFLINGER_TOO_MANY = 17,
	/* A client has two windows. */
	INPUTFLINGER_TWICE = 18,
	/* The number of slots is not 1 to 16. */
	INPUTFLINGER_BAD_SLOTS = 19,
	/* The text is not a key layout. */
	INPUTFLINGER_BAD_LAYOUT = 20,
	/* The words are those of race, which starts threads. */
	INPUTFLINGER_NO_THREADS = 21,
	/* The client has no window. */
	INPUTFLINGER_NOT_SHOWN = 22,
	/* A finger with this touch id is down on the panel. */
	INPUTFLINGER_FINGER_DOWN = 23,
	/* No finger with this touch id is down on the panel. */
	INPUTFLINGER_NO_FINGER = 24,
	/* As many fingers as the panel has slots, at most 16, are down on it. */
	INPUTFLINGER_TOO_MANY_FINGERS = 25
};

/* What a status means, in one English line without a full stop; "unknown status" for any other number. Never NULL. */
const char *inputflinger_status_text(int status);

struct inputflinger_client;
struct inputflinger_displays;
struct inputflinger_fault;
struct inputflinger_judge;
struct inputflinger_live;
struct inputflinger_message;
struct inputflinger_options;
struct inputflinger_panel;
struct inputflinger_rect;
struct inputflinger_repeats;
struct inputflinger_state;
struct inputflinger_window;

/*
 * The calls that take a struct that may grow, with its size. The inline calls below, which document them, hand in sizeof.
 */
int inputflinger_judge_step_sized(struct inputflinger_judge *judge, const struct inputflinger_message *message,
				  size_t message_size, struct inputflinger_fault *fault, size_t fault_size);
int inputflinger_judge_state_sized(const struct inputflinger_judge *judge, struct inputflinger_state *state,
				   size_t state_size);
int inputflinger_live_new_sized(struct inputflinger_live *live, uint64_t limit_us,
				const struct inputflinger_repeats *repeats, size_t repeats_size,
				const struct inputflinger_displays *displays);
int inputflinger_live_add_touch_sized(struct inputflinger_live *live, uint8_t display, uint8_t slots,
				      const struct inputflinger_panel *panel, size_t panel_size, uint8_t *device);
int inputflinger_live_args_sized(struct inputflinger_live *live, uint64_t now_us,
				 const struct inputflinger_message *message, size_t message_size);
int inputflinger_live_open_with_sized(struct inputflinger_live *live, const struct inputflinger_options *options,
				      size_t options_size, struct inputflinger_client *client);
int inputflinger_live_windows_sized(struct inputflinger_live *live, uint64_t now_us,
				    const struct inputflinger_window *windows, size_t window_size, size_t windows_len,
				    const struct inputflinger_rect *rects, size_t rects_len, uint64_t *named);
int inputflinger_live_window_sized(struct inputflinger_live *live, uint64_t now_us,
				   const struct inputflinger_window *window, size_t window_size,
				   const struct inputflinger_rect *rects, size_t rects_len);
int inputflinger_live_next_sized(struct inputflinger_live *live, const struct inputflinger_client *client,
				 struct inputflinger_message *message, size_t message_size);
int inputflinger_live_next_any_sized(struct inputflinger_live *live, struct inputflinger_client *client,
				     struct inputflinger_message *message, size_t message_size, bool *last);

/* The kinds of messages. */
enum inputflinger_kind {
	INPUTFLINGER_MOTION = 0,
	INPUTFLINGER_KEY = 1,
	INPUTFLINGER_FOCUS = 2,
	/* For inputflinger_live_args alone: the device lost events, and everything down on it is cancelled. */
	INPUTFLINGER_RESET = 3
};

/* The actions of motions, with the numbers of MotionEvent's getActionMasked. */
enum inputflinger_action {
	INPUTFLINGER_DOWN = 0,
	INPUTFLINGER_UP = 1,
	INPUTFLINGER_MOVE = 2,
	INPUTFLINGER_CANCEL = 3,
	INPUTFLINGER_OUTSIDE = 4,
	INPUTFLINGER_POINTER_DOWN = 5,
	INPUTFLINGER_POINTER_UP = 6
};

/* The flag of a POINTER_UP or of a key's up that must not be acted on. */
#define INPUTFLINGER_FLAG_CANCELED 0x20u

/*
 * The marks of any motion but OUTSIDE: a window of another owner lay over the window where a finger of the gesture went
 * down, or lay over it elsewhere.
 */
#define INPUTFLINGER_FLAG_OBSCURED 0x1u
#define INPUTFLINGER_FLAG_PARTLY_OBSCURED 0x2u

/* The most pointers of a motion, and how many devices there are. */
#define INPUTFLINGER_MAX_POINTERS 16
#define INPUTFLINGER_MAX_DEVICES 8

/* A pointer of a motion: where it is, in pixels from the window's own corner, and its id, 0 to 31. */
struct inputflinger_pointer {
	int32_t x;
	int32_t y;
	uint32_t id;
};

/*
 * A message. Its kind says which of its numbers are read; the others may be anything.
 *
 *     all       seq, moment_us (at most 10^18), kind
 *     motion    device (1 to 8), action (one of enum inputflinger_action), flags, index (for POINTER_DOWN and
 *               POINTER_UP the index in pointers of the one that goes down or up, otherwise 0), count (at most 16), and
 *               that many pointers, with rising ids
 *     key       device (1 to 8), scan (the kernel's scan code), code (Android's key code), meta (KeyEvent's
 *               getMetaState), flags, repeat, down (1 or 0)
 *     focus     focus (1 if the window gets the focus, 0 if it loses it)
 *
 * In a message that a client receives, moment_us is the clock at which the service sent it, not the time of the event that
 * caused it. The two differ if the event was handed in later than it happened, or waited for memory.
 */
struct inputflinger_message {
	uint64_t seq;
	uint64_t moment_us;
	uint32_t kind;
	uint32_t flags;
	uint32_t meta;
	uint32_t repeat;
	uint16_t scan;
	uint16_t code;
	uint8_t device;
	uint8_t action;
	uint8_t index;
	uint8_t count;
	uint8_t down;
	uint8_t focus;
	struct inputflinger_pointer pointers[INPUTFLINGER_MAX_POINTERS];
	/* What the client that gets the message was opened with; ignored in a message that is handed in. */
	uint64_t user_data;
};

/* Why a message is not allowed: the first reason for its kind that holds. */
enum inputflinger_reason {
	/* None of those below: no line of a stream file can spell such a message, for example a key with other flags. */
	INPUTFLINGER_REASON_NONE = 0,
	/* A motion other than POINTER_UP has a flag that is no mark, such as CANCELED, or an OUTSIDE has a mark. */
	INPUTFLINGER_REASON_FLAGS = 1,
	/* A DOWN while pointers are down, or a POINTER_DOWN of a pointer that is already down. */
	INPUTFLINGER_REASON_ALREADY_DOWN = 2,
	/* A DOWN or an OUTSIDE that does not list exactly one pointer. */
	INPUTFLINGER_REASON_ONE_POINTER = 3,
	/*
	 * A motion goes on or ends while no pointer is down. A MOVE that lists no pointers is accepted then; no line of a
	 * stream file can spell it.
	 */
	INPUTFLINGER_REASON_NOTHING_DOWN = 4,
	/* The listed pointers are not those that are down, apart from the one that goes down. */
	INPUTFLINGER_REASON_OTHER_POINTERS = 5,
	/* A POINTER_UP while only one pointer is down. */
	INPUTFLINGER_REASON_LAST_POINTER = 6,
	/* An UP while several pointers are down. */
	INPUTFLINGER_REASON_MORE_POINTERS = 7,
	/* A repeat of a key that is not down. */
	INPUTFLINGER_REASON_REPEAT_OF_NOTHING = 8,
	/* A key that is down goes down with a repeat number other than the next. */
	INPUTFLINGER_REASON_REPEAT_OUT_OF_TURN = 9,
	/* A key that is not down goes up. */
	INPUTFLINGER_REASON_KEY_NOT_DOWN = 10,
	/* A key goes up with a repeat number other than 0. */
	INPUTFLINGER_REASON_REPEAT_ON_UP = 11,
	/* A window gets the focus that it has, or loses a focus that it does not have. */
	INPUTFLINGER_REASON_FOCUS_TWICE = 12
};

/* A message that was not allowed, and what the window knew at that point. */
struct inputflinger_fault {
	/* How many messages were accepted before. The count saturates at UINT64_MAX. */
	uint64_t place;
	/*
	 * For a key message: the repeat number that the next down of the key must have, which may be 2^32; 0 if the key is
	 * up. 0 for a message of another kind.
	 */
	uint64_t next_repeat;
	/* For a motion: the pointer ids that are down on its device, as bits. 0 for a message of another kind. */
	uint32_t held;
	/* One of enum inputflinger_reason. */
	uint32_t reason;
	/* 1 if the key of a key message is down, otherwise 0. */
	uint8_t key_down;
	/* 1 if the window has the focus, otherwise 0. */
	uint8_t focus;
};

/* What a window knows from the accepted messages. */
struct inputflinger_state {
	/* The pointer ids that are down on each device, as bits; device 1 first. */
	uint32_t ids[INPUTFLINGER_MAX_DEVICES];
	/* 1 if the window has the focus, otherwise 0. */
	uint8_t focus;
};

/* A key that is down: its device, 1 to 8, and the kernel's scan code. */
struct inputflinger_key {
	uint16_t device;
	uint16_t scan;
};

/*
 * The handle of a judge. Its members belong to the library; a program only sets all bytes to 0, once.
 *
 *     struct inputflinger_judge judge = {0};
 *     struct inputflinger_message message = {0};
 *     struct inputflinger_fault fault;
 *
 *     if (inputflinger_judge_new(&judge) != INPUTFLINGER_OK)
 *             return -1;
 *     while (next_message(&message))
 *             if (inputflinger_judge_step(&judge, &message, &fault) == INPUTFLINGER_BROKEN)
 *                     printf("message %" PRIu64 ": reason %" PRIu32 "\n", fault.place, fault.reason);
 *     inputflinger_judge_free(&judge);
 */
struct inputflinger_judge {
	void *at;
	bool is_open;
};

/*
 * Makes a judge for a stream without messages.
 *
 *     INPUTFLINGER_OK         the handle has a judge
 *     INPUTFLINGER_TAKEN      the handle is not free
 *     INPUTFLINGER_NO_MEMORY  the handle is still free
 *     INPUTFLINGER_NULL       judge is NULL
 */
int inputflinger_judge_new(struct inputflinger_judge *judge);

/*
 * Accepts the next message of the stream, or reports why it is not allowed. fault may be NULL.
 *
 *     INPUTFLINGER_OK            the message was accepted
 *     INPUTFLINGER_FREE          the handle is free
 *     INPUTFLINGER_OUT_OF_RANGE  a number that is read is out of its range: the judge is unchanged
 *     INPUTFLINGER_BROKEN        the stream with this message is not well-formed, and fault says why: the judge is
 *                                unchanged, and goes on with the next message as if this one had not come
 *     INPUTFLINGER_NO_MEMORY     only for a key message: the judge is unchanged
 *     INPUTFLINGER_NULL          judge or message is NULL
 */
static inline int inputflinger_judge_step(struct inputflinger_judge *judge, const struct inputflinger_message *message,
					  struct inputflinger_fault *fault)
{
	return inputflinger_judge_step_sized(judge, message, sizeof *message, fault, sizeof *fault);
}

/*
 * Reports which pointers are down on each device, and whether the window has the focus. At the end of a whole stream
 * nothing is down; the next call reports keys.
 *
 *     INPUTFLINGER_OK    state is written
 *     INPUTFLINGER_FREE  the handle is free
 *     INPUTFLINGER_NULL  judge or state is NULL
 */
static inline int inputflinger_judge_state(const struct inputflinger_judge *judge, struct inputflinger_state *state)
{
	return inputflinger_judge_state_sized(judge, state, sizeof *state);
}

/*
 * Reports the keys that are down, by rising device and scan code. They are written to the front of keys, which has room
 * for room of them, and count says how many there are. keys may be NULL if room is 0, to ask for the count alone.
 *
 *     INPUTFLINGER_OK         count is written, and that many keys
 *     INPUTFLINGER_FREE       the handle is free
 *     INPUTFLINGER_NO_MEMORY  nothing is written
 *     INPUTFLINGER_NO_ROOM    there are more keys than room: count is written, and no key
 *     INPUTFLINGER_NULL       judge or count is NULL, or keys is NULL and room is not 0
 */
int inputflinger_judge_keys(const struct inputflinger_judge *judge, struct inputflinger_key *keys, size_t room, size_t *count);

/*
 * Frees a judge. The handle is then free.
 *
 *     INPUTFLINGER_OK    the judge is freed
 *     INPUTFLINGER_FREE  the handle was free before
 *     INPUTFLINGER_NULL  judge is NULL
 */
int inputflinger_judge_free(struct inputflinger_judge *judge);

/*
 * A client of a live service: a channel, 1 to 64, and a generation, which no other client of the service has. A closed
 * client is stale for good: no call mistakes it for a later one on its channel. A client whose channel is 0 is none.
 */
struct inputflinger_client {
	uint64_t generation;
	uint32_t channel;
};

/* A rectangle of display pixels: the points with left <= x < right and top <= y < bottom. */
struct inputflinger_rect {
	int32_t left;
	int32_t top;
	int32_t right;
	int32_t bottom;
};

/* The bits of a window's flags. Other bits are ignored. */
#define INPUTFLINGER_NOT_TOUCHABLE 1u		/* touches pass through it to what is behind */
#define INPUTFLINGER_NOT_FOCUSABLE 2u		/* it never has the focus */
#define INPUTFLINGER_WATCH_OUTSIDE_TOUCH 4u	/* it is sent OUTSIDE for a touch that goes to a window behind it */
#define INPUTFLINGER_SLIPPERY 8u		/* a finger that moves out of it may continue in the window it enters */
#define INPUTFLINGER_SPY 16u			/* it sees the touches of what is behind it, and may pilfer them */
#define INPUTFLINGER_PREVENT_SPLITTING 32u	/* the fingers of a gesture are not split between it and others */
#define INPUTFLINGER_TRUSTED_OVERLAY 64u	/* it is the system's own, and neither blocks nor marks a touch */

/* Whether a touch may go through a window to a window of another owner behind it. */
enum inputflinger_occlusion {
	/* It may not: the window behind is given no pointer there. */
	INPUTFLINGER_BLOCK = 0,
	/* It may if the windows of the owner with this occlusion together hide at most 80 per cent there. */
	INPUTFLINGER_OPACITY = 1,
	/* It may. */
	INPUTFLINGER_ALLOW = 2
};

/*
 * A window of a client, or of nobody. A client has one window at most; any number may be of nobody.
 *
 *     client     the client that is sent its touches and keys; a zeroed client, whose channel is 0, makes the window a
 *                wall: it takes touches as others do, and nobody is given them. Show one for a client that could not be
 *                opened, or touches fall through to the window behind. A wall is no spy, does not watch, does not
 *                prevent splitting, and has no focus
 *     frame      where it is; its left and top edges are the origin of the positions that the client is sent, in pixels
 *     flags      the bits above
 *     rects      the number of rectangles in which it can be touched, at most 64; they are passed beside the windows
 *     display    0 to 3; all its pixels are those of this display
 *     unused     ignored; up to here the struct is that of the first release
 *     owner      whose it is, as a number of your choice: windows of one owner trust each other
 *     opacity    how much it hides of what is behind it, 0 to 100 per cent; 0 is invisible
 *     occlusion  whether a touch may go through it to a window of another owner: an inputflinger_occlusion
 *
 * Where its frame is, a window lies over all windows behind it. A window of another owner behind it is either blocked
 * there, and then given no pointer, or has its motions marked as obscured. A window of opacity 0 that is not touchable does
 * neither to those behind it. If all windows have one owner, as zeroed structs have, opacity and occlusion have no effect.
 */
struct inputflinger_window {
	struct inputflinger_client client;
	struct inputflinger_rect frame;
	uint32_t flags;
	uint32_t rects;
	uint8_t display;
	uint8_t unused[7];
	uint32_t owner;
	uint8_t opacity;
	uint8_t occlusion;
};

/* The range of a panel's raw positions on one axis, both ends included, as EVIOCGABS gives it. */
struct inputflinger_axis {
	int32_t min;
	int32_t max;
};

/*
 * How a panel's raw positions become display pixels: its axes, with min <= max; the width and height of its display in
 * the natural orientation, each 1 to 16,384 pixels; and how far the display is rotated, in quarter turns, 0 to 3.
 */
struct inputflinger_panel {
	struct inputflinger_axis x;
	struct inputflinger_axis y;
	uint16_t width;
	uint16_t height;
	uint8_t rotation;
};

/* The display of each device number, 0 to 3; device 1 first. */
struct inputflinger_displays {
	uint8_t of_device[INPUTFLINGER_MAX_DEVICES];
};

/*
 * When a key that a client's window holds is repeated: first_us after it went down, and then next_us after each repeat, in
 * microseconds. Each is 1,000 to 600,000,000; or both are 0, and no key is repeated. That is for clients that repeat keys by
 * themselves, as those of Wayland do.
 */
struct inputflinger_repeats {
	uint64_t first_us;
	uint64_t next_us;
};

/*
 * The handle of a live service. Its members belong to the library; a program only sets all bytes to 0, once.
 *
 * The loop of a compositor waits for its devices, for its clients, and for the time that inputflinger_live_due reports:
 *
 *     a device has an event                advance to its time; then event
 *     a client says that it is done        finish
 *     the clock reaches the time of due    advance to now: the clients of the mask do not respond
 *     at the end                           next_any until it answers INPUTFLINGER_NOTHING
 *
 * A finger goes down in a client's window, and the client is closed under it:
 *
 *     call                                            answer
 *     inputflinger_live_add_touch(0, 10 slots, ..)    INPUTFLINGER_OK, device 1
 *     inputflinger_live_open                          INPUTFLINGER_OK, channel 1, generation 1
 *     inputflinger_live_windows [its window]          INPUTFLINGER_OK
 *     inputflinger_live_args DOWN 0 at (540,1200)     INPUTFLINGER_OK
 *     inputflinger_live_next                          INPUTFLINGER_OK: seq 1, DOWN, pointer 0 at (540,1200)
 *     inputflinger_live_close                         INPUTFLINGER_OK: it no longer receives the CANCEL
 *     inputflinger_live_open                          INPUTFLINGER_OK, channel 1, generation 2
 *     inputflinger_live_next, second client           INPUTFLINGER_NOTHING: the finger was never sent to it
 *     inputflinger_live_finish 1, first client        INPUTFLINGER_NOT_OPEN
 */
struct inputflinger_live {
	void *at;
	bool is_open;
};

/*
 * Makes a service without clients and devices. A client that leaves a message unfinished for limit_us, 1,000 to
 * 600,000,000 microseconds, is reported as unresponsive. If repeats is NULL, held keys are repeated as on Android, with
 * {500000, 50000}. If displays is NULL, each device is on display 0. None of this changes later.
 *
 * A key goes down at 1,000,000 in a client's window and stays down. The limit is 5,000,000, and the client finishes nothing:
 *
 *     repeats              due                             what advance to that time does
 *     NULL                 1,500,000, 1,550,000, ..        the client has repeat 1, then repeat 2, ..
 *     {300000, 40000}      1,300,000, 1,340,000, ..        the same, sooner
 *     {0, 0}               6,000,000                       no repeat: the client is reported
 *
 * The handle is checked first, and then all numbers. So a handle that is not free is reported even if a number is out of
 * its range.
 *
 *     INPUTFLINGER_OK            the handle has a service
 *     INPUTFLINGER_TAKEN         the handle is not free
 *     INPUTFLINGER_OUT_OF_RANGE  limit_us, a delay of repeats, one delay of 0 beside another number, or a display
 *     INPUTFLINGER_NO_MEMORY     the handle is still free
 */
static inline int inputflinger_live_new(struct inputflinger_live *live, uint64_t limit_us,
					const struct inputflinger_repeats *repeats,
					const struct inputflinger_displays *displays)
{
	return inputflinger_live_new_sized(live, limit_us, repeats, sizeof *repeats, displays);
}

/* Frees a service and everything that it has. The handle is then free. */
int inputflinger_live_free(struct inputflinger_live *live);

/*
 * Devices. Each gets the least free number of its display. Hand in what it does under that number.
 *
 *     add_touch(display 0, 10 slots, panel)           INPUTFLINGER_OK, device 1
 *     event 1: EV_ABS ABS_MT_SLOT 0, ABS_MT_TRACKING_ID 45, ABS_MT_POSITION_X 100, ABS_MT_POSITION_Y 200
 *                                                     INPUTFLINGER_OK each: the packet is not complete yet
 *     event 1: EV_SYN SYN_REPORT 0                    INPUTFLINGER_OK: the window there has a DOWN
 *     event 1: EV_SYN SYN_DROPPED 0                   INPUTFLINGER_OK: it has a CANCEL
 *     event 1: .., EV_SYN SYN_REPORT 0                INPUTFLINGER_OK: the rest of that packet is skipped
 *     event 1: all slots that have a finger, as the kernel has them now (libevdev_get_slot_value after its sync, which
 *     itself reports only what changed), and a SYN_REPORT
 *                                                     INPUTFLINGER_OK: the window has a DOWN of what is still there
 *     remove_device 1                                 INPUTFLINGER_OK: what is down is cancelled, and 1 is free
 */

/*
 * Plugs in a touch panel of a display, 0 to 3, with 1 to 16 slots, and writes its number to device. Hand in fingers that
 * are already on it as events, as after a SYN_DROPPED.
 *
 *     INPUTFLINGER_OK            device is written
 *     INPUTFLINGER_OUT_OF_RANGE  display, or a number of panel
 *     INPUTFLINGER_BAD_SLOTS     slots is not 1 to 16
 *     INPUTFLINGER_TOO_MANY      every number of the display has a device
 */
static inline int inputflinger_live_add_touch(struct inputflinger_live *live, uint8_t display, uint8_t slots,
					      const struct inputflinger_panel *panel, uint8_t *device)
{
	return inputflinger_live_add_touch_sized(live, display, slots, panel, sizeof *panel, device);
}

/*
 * Plugs in a device with keys on a display, 0 to 3, and writes its number to device. Its layout is a text of len bytes in
 * the form of Android's .kl files: a line `key 30 A` gives the kernel's scan code 30 the key code of A, and a scan code
 * without a line has key code 0. text may be NULL if len is 0: then every key code is 0. line may be NULL.
 *
 *     add_keys(display 0, "key 30 A\n")               INPUTFLINGER_OK, device 1
 *     event 1: EV_KEY 30 1                            INPUTFLINGER_OK: the window with the focus has a key, code 29
 *     add_keys(display 0, "key 30 A\nkey 30 B\n")     INPUTFLINGER_BAD_LAYOUT, line 2: an earlier line has 30
 *
 *     INPUTFLINGER_OK            device is written
 *     INPUTFLINGER_OUT_OF_RANGE  display
 *     INPUTFLINGER_BAD_LAYOUT    the text is not a layout: line is the number of its first refused line, from 1, or 0 if
 *                                the text is not UTF-8
 *     INPUTFLINGER_TOO_MANY      every number of the display has a device
 *     INPUTFLINGER_NO_MEMORY     for the layout
 */
int inputflinger_live_add_keys(struct inputflinger_live *live, uint8_t display, const char *text, size_t len,
			       uint8_t *device, uint64_t *line);

/*
 * Unplugs a device, 1 to 8. What is down on it is cancelled, and its number is free. This is delivered as by
 * inputflinger_live_event, so the call may also answer INPUTFLINGER_INCONSISTENT, INPUTFLINGER_WAITS and
 * INPUTFLINGER_NO_MEMORY.
 *
 *     INPUTFLINGER_OUT_OF_RANGE  now_us or device
 *     INPUTFLINGER_NO_DEVICE     the device is not plugged in
 */
int inputflinger_live_remove_device(struct inputflinger_live *live, uint64_t now_us, uint8_t device);

/*
 * Hands in an event of a device, with the type, code and value of the kernel's struct input_event. What it gives is
 * dispatched at once. A panel's packet gives its motions at the SYN_REPORT, and a key is given by its own event.
 *
 *     INPUTFLINGER_OK            it was taken and dispatched
 *     INPUTFLINGER_OUT_OF_RANGE  now_us or device
 *     INPUTFLINGER_NO_DEVICE     the device is not plugged in
 *     INPUTFLINGER_INCONSISTENT  a part of what it gives, or of input that waited for memory, does not fit what
 *                                inputflinger_live_args handed in for its device before: that part was not taken, the
 *                                rest was dispatched, and the clock advanced
 *     INPUTFLINGER_NO_MEMORY     it was not taken: nothing changed
 *     INPUTFLINGER_WAITS         out of memory after it was taken: it is dispatched, in its order, by the next call that
 *                                has the memory and hands something in or advances; not if room was reserved for it
 */
int inputflinger_live_event(struct inputflinger_live *live, uint64_t now_us, uint8_t device, uint16_t type,
			    uint16_t code, int32_t value);

/*
 * Single fingers of a panel, as libinput and wlroots report them. Each finger has a touch id, which may be any number that
 * no other finger on the panel has, and a position in the units of the panel; a frame follows. Each call hands the panel's
 * reader the events that a panel with slots would send, so a frame gives the motions of these events. Hand in no other
 * events and no args for such a panel. A finger that goes down and up within one frame gives nothing. A finger that is
 * refused leaves all fingers as they are, and only the clock advances.
 *
 *     touch_down 7 at (540,1200)           INPUTFLINGER_OK
 *     touch_down -3 at (100,200)           INPUTFLINGER_OK
 *     touch_frame                          INPUTFLINGER_OK: a DOWN of pointer 0 and a POINTER_DOWN of pointer 1
 *     touch_up 7                           INPUTFLINGER_OK
 *     touch_frame                          INPUTFLINGER_OK: a POINTER_UP of pointer 0
 *     touch_cancel -3                      INPUTFLINGER_OK: a CANCEL, as of a palm; a cancel ends the frame too
 *
 *     INPUTFLINGER_OK                      it was taken, and what a frame or a cancel gives is dispatched
 *     INPUTFLINGER_OUT_OF_RANGE            now_us or device
 *     INPUTFLINGER_NO_DEVICE               the device is not plugged in
 *     INPUTFLINGER_FINGER_DOWN             touch_down: a finger with this id is down on the panel
 *     INPUTFLINGER_TOO_MANY_FINGERS        touch_down: no slot of the panel is free, for a 17th finger or for one more than
 *                                          the slots that it was plugged in with; a device with keys has none. Leave
 *                                          the finger out: its other calls answer INPUTFLINGER_NO_FINGER
 *     INPUTFLINGER_NO_FINGER               touch_motion, touch_up, touch_cancel: no finger with this id is down on the
 *                                          panel
 *     INPUTFLINGER_INCONSISTENT,
 *     INPUTFLINGER_WAITS                   as for inputflinger_live_event
 *     INPUTFLINGER_NO_MEMORY               nothing was given, and the fingers are as before: make the call again
 */
int inputflinger_live_touch_down(struct inputflinger_live *live, uint64_t now_us, uint8_t device, int32_t id, int32_t x,
				 int32_t y);
int inputflinger_live_touch_motion(struct inputflinger_live *live, uint64_t now_us, uint8_t device, int32_t id, int32_t x,
				   int32_t y);
int inputflinger_live_touch_up(struct inputflinger_live *live, uint64_t now_us, uint8_t device, int32_t id);
int inputflinger_live_touch_cancel(struct inputflinger_live *live, uint64_t now_us, uint8_t device, int32_t id);
int inputflinger_live_touch_frame(struct inputflinger_live *live, uint64_t now_us, uint8_t device);

/*
 * Makes room for this many next events, whichever devices they belong to. None of them answers INPUTFLINGER_WAITS, if
 * nothing waits now, only events come between, and no client is choked or released meanwhile. A call of a finger or a
 * frame counts as an event here. An event may give 33 motions, and each motion may send a client 131 messages. The call
 * makes room for these in every channel that was used: about 10 MB an event with 10 channels, which the next reserve uses
 * again. An event may still answer INPUTFLINGER_NO_MEMORY: then it was not taken.
 *
 *     INPUTFLINGER_OK         there is room
 *     INPUTFLINGER_NO_MEMORY  nothing changed
 */
int inputflinger_live_reserve(struct inputflinger_live *live, uint16_t events);

/*
 * Hands in ready-made input of a device: the motion or key of a message, in display pixels, or a reset
 * (INPUTFLINGER_RESET, of which only device is read). seq, moment_us and a key's flags and repeat are ignored. The
 * statuses are those of inputflinger_live_event; INPUTFLINGER_OUT_OF_RANGE is also answered for a number of the message,
 * and for a focus message, which no device can hand in.
 */
static inline int inputflinger_live_args(struct inputflinger_live *live, uint64_t now_us,
					 const struct inputflinger_message *message)
{
	return inputflinger_live_args_sized(live, now_us, message, sizeof *message);
}

/*
 * Clients. Up to 64 are open at a time; any number may come and go.
 *
 *     open                                            INPUTFLINGER_OK, channel 1, generation 1
 *     open                                            INPUTFLINGER_OK, channel 2, generation 2
 *     close, of the first                             INPUTFLINGER_OK
 *     close, of the first                             INPUTFLINGER_NOT_OPEN
 *     open                                            INPUTFLINGER_OK, channel 1, generation 3
 */

/*
 * Opens a client on the first channel that is free, as inputflinger_live_open_with does with options whose bytes are all 0.
 *
 *     INPUTFLINGER_OK         client is written
 *     INPUTFLINGER_FULL       64 clients are open
 *     INPUTFLINGER_NO_MEMORY  no client was opened
 */
int inputflinger_live_open(struct inputflinger_live *live, struct inputflinger_client *client);

/* What a client is opened with. Options whose bytes are all 0 are those of inputflinger_live_open. */
struct inputflinger_options {
	/* Any number of yours, such as the address of your record of the client. Each message of the client has it. */
	uint64_t user_data;
	/*
	 * 1 if the client finishes by itself: each message is finished, at the clock, as soon as inputflinger_live_next or
	 * inputflinger_live_next_any receives it. Otherwise 0.
	 */
	uint8_t finishes;
};

/*
 * Opens a client with options on the first channel that is free.
 *
 *     open_with {user_data 7, finishes 1}             INPUTFLINGER_OK, channel 1, generation 1
 *     next, after a DOWN was sent to it               INPUTFLINGER_OK: seq 1, DOWN, user_data 7
 *     finish 1                                        INPUTFLINGER_UNKNOWN_SEQ: it is finished already
 *
 *     INPUTFLINGER_OK            client is written
 *     INPUTFLINGER_OUT_OF_RANGE  finishes is neither 0 nor 1
 *     INPUTFLINGER_FULL          64 clients are open
 *     INPUTFLINGER_NO_MEMORY     no client was opened
 */
static inline int inputflinger_live_open_with(struct inputflinger_live *live, const struct inputflinger_options *options,
					      struct inputflinger_client *client)
{
	return inputflinger_live_open_with_sized(live, options, sizeof *options, client);
}

/*
 * Reports the user data that a client was opened with.
 *
 *     INPUTFLINGER_OK        user_data is written
 *     INPUTFLINGER_NOT_OPEN  the client is not open
 */
int inputflinger_live_user_data(const struct inputflinger_live *live, const struct inputflinger_client *client,
				uint64_t *user_data);

/*
 * Closes a client. Its window is no longer shown, what it holds is cancelled, its focus requests are withdrawn, and
 * messages that it did not receive are gone. Keys stay on the display to which they went, and a key that another client
 * holds stays down.
 *
 *     INPUTFLINGER_OK            the client is stale from now on
 *     INPUTFLINGER_OUT_OF_RANGE  now_us
 *     INPUTFLINGER_NOT_OPEN      the client is not open
 *     INPUTFLINGER_NO_MEMORY     the client is still open, but may have lost its window, its focus requests and messages
 */
int inputflinger_live_close(struct inputflinger_live *live, uint64_t now_us, const struct inputflinger_client *client);

/* Reports whether a client is open. */
int inputflinger_live_is_open(const struct inputflinger_live *live, const struct inputflinger_client *client, bool *is_open);

/*
 * Reports the client that is open on a channel.
 *
 *     INPUTFLINGER_OK       client is written
 *     INPUTFLINGER_NOTHING  no client is open on the channel, or there is no such channel
 */
int inputflinger_live_client_at(const struct inputflinger_live *live, uint32_t channel, struct inputflinger_client *client);

/*
 * Windows and the focus.
 *
 *     windows [a's window with 1 rectangle, b's with 2], [3 rectangles]
 *                                                     INPUTFLINGER_OK: a is in front of b
 *     window [a's window, moved, with 1 rectangle]    INPUTFLINGER_OK: a is still in front of b
 *     windows [b's window]                            INPUTFLINGER_OK: a has none now; what it held is cancelled
 *     window [a's window]                             INPUTFLINGER_NOT_SHOWN: nothing changed
 *     windows [b's window, that of a closed client]   INPUTFLINGER_NOT_OPEN, named 1: nothing changed
 *     focus(0, b)                                     INPUTFLINGER_OK: keys go to b
 *     focus(0, NULL)                                  INPUTFLINGER_OK: keys go nowhere
 *     windows [a's window, of owner 1, b's, of owner 2]
 *                                                     INPUTFLINGER_OK: a's window blocks b's where its frame is
 *     a finger goes down there; a's is NOT_TOUCHABLE  nobody is given it
 *     windows [a window of no client, b's behind it]  INPUTFLINGER_OK: the first one is a wall
 *     a finger goes down where both are               nobody is given it
 */

/*
 * Shows windows, front to back, in place of all windows before. rects has the rectangles of the first window, then those
 * of the second one, and so on; rectangles left over are ignored. windows may be NULL if windows_len is 0, rects if
 * rects_len is 0, and named always.
 *
 *     INPUTFLINGER_OK            the windows are shown
 *     INPUTFLINGER_OUT_OF_RANGE  now_us; a display, an opacity or an occlusion; there are too few rectangles; a window has
 *                                more than 64, or one whose left edge is right of its right edge, or whose top edge is
 *                                below its bottom edge
 *     INPUTFLINGER_NOT_OPEN      the client of a window is not open; named is the index of the first such window, from 0
 *     INPUTFLINGER_TOO_MANY      more than 64 windows
 *     INPUTFLINGER_TWICE         a client has two windows; named is its channel
 *     INPUTFLINGER_NO_MEMORY     the windows that were asked for before stay
 */
static inline int inputflinger_live_windows(struct inputflinger_live *live, uint64_t now_us,
					    const struct inputflinger_window *windows, size_t windows_len,
					    const struct inputflinger_rect *rects, size_t rects_len, uint64_t *named)
{
	return inputflinger_live_windows_sized(live, now_us, windows, sizeof *windows, windows_len, rects, rects_len,
					       named);
}

/*
 * Replaces the window of a client by this one, for example when it moves. Its place in the order and all other windows
 * stay. rects has the rectangles of the window; rectangles left over are ignored. rects may be NULL if rects_len is 0.
 *
 *     INPUTFLINGER_OK            the window is shown
 *     INPUTFLINGER_OUT_OF_RANGE  now_us; the display, the opacity or the occlusion; there are too few rectangles; the
 *                                window has more than 64, or one whose edges are in the wrong order
 *     INPUTFLINGER_NOT_OPEN      the client of the window is not open, or the window is a wall, which has none
 *     INPUTFLINGER_NOT_SHOWN     the client has no window, nor a wall in its place: nothing changed
 *     INPUTFLINGER_NO_MEMORY     the windows that were asked for before stay
 */
static inline int inputflinger_live_window(struct inputflinger_live *live, uint64_t now_us,
					   const struct inputflinger_window *window,
					   const struct inputflinger_rect *rects, size_t rects_len)
{
	return inputflinger_live_window_sized(live, now_us, window, sizeof *window, rects, rects_len);
}

/*
 * Requests the focus of a display, 0 to 3, for a client, or for none if client is NULL or its channel is 0. Keys go to
 * the display of the last of these calls.
 *
 *     INPUTFLINGER_OK            the focus is requested
 *     INPUTFLINGER_OUT_OF_RANGE  now_us or display
 *     INPUTFLINGER_NOT_OPEN      the client is not open
 *     INPUTFLINGER_NO_MEMORY     the request was not made
 */
int inputflinger_live_focus(struct inputflinger_live *live, uint64_t now_us, uint8_t display,
			    const struct inputflinger_client *client);

/*
 * Lets a client's spy pilfer: it takes the pointers of a device, 1 to 8, that it holds from all other windows.
 *
 *     INPUTFLINGER_OK            the others are sent cancels
 *     INPUTFLINGER_OUT_OF_RANGE  now_us or device
 *     INPUTFLINGER_NOT_OPEN      the client is not open
 *     INPUTFLINGER_NOT_SPY       the client has no spy among the shown windows; the clock advanced
 *     INPUTFLINGER_NOTHING_HELD  the spy holds no pointer of the device; the clock advanced
 *     INPUTFLINGER_NO_MEMORY     nothing changed
 */
int inputflinger_live_pilfer(struct inputflinger_live *live, uint64_t now_us, const struct inputflinger_client *client,
			     uint8_t device);

/*
 * What clients receive.
 *
 *     waiting                                         INPUTFLINGER_OK, mask 0x1: channel 1 has a message
 *     next                                            INPUTFLINGER_OK: seq 1, DOWN
 *     next                                            INPUTFLINGER_NOTHING
 *     finish 1                                        INPUTFLINGER_OK
 *     finish 1                                        INPUTFLINGER_UNKNOWN_SEQ: it is already finished
 *     due                                             INPUTFLINGER_NOTHING: nothing is unfinished
 */

/* Reports the channels that have a message for their client: bit channel - 1 stands for a channel. */
int inputflinger_live_waiting(const struct inputflinger_live *live, uint64_t *mask);

/*
 * Receives the next message of a client; the service releases it. Its seq counts from 1 for the client; its positions are
 * pixels from the corner of the client's window.
 *
 *     INPUTFLINGER_OK         message is written; numbers that its kind does not have are 0
 *     INPUTFLINGER_NOTHING    there is none, or the client is not open
 *     INPUTFLINGER_NO_MEMORY  only if the calls can no longer be counted in 64 bits
 */
static inline int inputflinger_live_next(struct inputflinger_live *live, const struct inputflinger_client *client,
					 struct inputflinger_message *message)
{
	return inputflinger_live_next_sized(live, client, message, sizeof *message);
}

/*
 * Receives the next message of any client, in the order in which the service sent them; the service releases it. Each
 * client gets the messages that inputflinger_live_next would give it, in the same order. Between clients, the messages of
 * an earlier step come first. A step is one change of the windows or the focus, or one motion or key that a device gave; an
 * event can give several. Of one step, motions come before keys and keys before the focus; of each, what ends comes
 * first, then what goes on, then what begins; and then the lesser channel comes first. A message that had to wait,
 * because its client had 64 unfinished ones, counts as sent by the finish that made room for it.
 *
 *     the focus moves from channel 2, which holds a key, to channel 1
 *     next_any                                        INPUTFLINGER_OK: channel 2, the key goes up, cancelled
 *     next_any                                        INPUTFLINGER_OK: channel 2, it loses the focus
 *     next_any                                        INPUTFLINGER_OK: channel 1, it gets the focus, last
 *     next_any                                        INPUTFLINGER_NOTHING
 *
 *     INPUTFLINGER_OK         client, message and last are written: *last is true if no other message of the same step
 *                             is left to receive, as at the end of a frame of wl_touch; numbers that the kind of the
 *                             message does not have are 0
 *     INPUTFLINGER_NOTHING    no client has a message; none of the three is written
 *     INPUTFLINGER_NO_MEMORY  only if the calls can no longer be counted in 64 bits; nothing changed
 */
static inline int inputflinger_live_next_any(struct inputflinger_live *live, struct inputflinger_client *client,
					     struct inputflinger_message *message, bool *last)
{
	return inputflinger_live_next_any_sized(live, client, message, sizeof *message, last);
}

/*
 * Reports that a client is done with the message of this seq, which it received.
 *
 *     INPUTFLINGER_OK            it is finished
 *     INPUTFLINGER_OUT_OF_RANGE  now_us
 *     INPUTFLINGER_NOT_OPEN      the client is not open
 *     INPUTFLINGER_UNKNOWN_SEQ   the client did not receive it, or finished it already; the clock advanced
 *     INPUTFLINGER_NO_MEMORY     only if the calls can no longer be counted in 64 bits
 */
int inputflinger_live_finish(struct inputflinger_live *live, uint64_t now_us, const struct inputflinger_client *client,
			     uint64_t seq);

/*
 * Reports that a client is done with every message up to this seq, which it received. The messages that it did not finish
 * yet are finished one by one, as by inputflinger_live_finish; seq 0 stands for none. A compositor whose clients answer a
 * ping keeps the seq of the last message that it sent before the ping, and hands it in at the pong.
 *
 *     next, next, next                                INPUTFLINGER_OK each: seq 1, 2 and 3
 *     finish 2                                        INPUTFLINGER_OK
 *     finish_through 3                                INPUTFLINGER_OK: 1 and 3 are finished now too
 *     finish_through 4                                INPUTFLINGER_UNKNOWN_SEQ: the client has not received 4
 *
 *     INPUTFLINGER_OK            they are finished
 *     INPUTFLINGER_OUT_OF_RANGE  now_us
 *     INPUTFLINGER_NOT_OPEN      the client is not open
 *     INPUTFLINGER_UNKNOWN_SEQ   the client did not receive the message of this seq; nothing changed, not even the clock
 *     INPUTFLINGER_NO_MEMORY     only if the calls can no longer be counted in 64 bits; the first of them may be finished
 */
int inputflinger_live_finish_through(struct inputflinger_live *live, uint64_t now_us,
				     const struct inputflinger_client *client, uint64_t seq);

/*
 * A client that does not receive. Before each call that may send something, the service counts the messages that each
 * client has not received. A client that has more than the limit, 10,000 unless set_most changes it, is choked: the next
 * advance reports it, a wall takes the place of its window (that of a spy lets touches through), and its focus is
 * requested for nobody. It is sent the usual messages for what it loses, and then nothing more. Once it has finished
 * everything that it was sent, it is released: its window and its focus are again as windows, window and focus last asked
 * for them.
 *
 *     set_most 2                                      INPUTFLINGER_OK
 *     focus(0, a), args DOWN, args MOVE, args MOVE    INPUTFLINGER_OK each: a has 4 messages, and receives none
 *     due                                             INPUTFLINGER_OK, the clock: a is to be choked
 *     advance                                         INPUTFLINGER_OK, mask 0x1: a is choked; it has a CANCEL and loses
 *                                                     the focus
 *     next until INPUTFLINGER_NOTHING, and finish_through the last
 *                                                     INPUTFLINGER_OK: a is to be released
 *     advance                                         INPUTFLINGER_OK, mask 0: a has its window and the focus again
 *
 * A call that may send something does this first. If it then runs out of memory, or refuses a finger, a pilfer or input
 * that does not fit, it may already have advanced the clock and choked or released clients, even where its text says that
 * nothing changed.
 */

/*
 * Sets how many messages a client may leave unreceived.
 *
 *     INPUTFLINGER_OK  the limit holds from the next call that may send something
 */
int inputflinger_live_set_most(struct inputflinger_live *live, uint64_t most);

/* Reports whether a client is open and choked. */
int inputflinger_live_is_choked(const struct inputflinger_live *live, const struct inputflinger_client *client,
				bool *is_choked);

/*
 * Time.
 *
 *     event 1: a key goes down at 1,000,000           INPUTFLINGER_OK; the client receives it and does not finish it
 *     due                                             INPUTFLINGER_OK, 1,500,000: the key is repeated, with the repeats
 *                                                     of Android
 *     advance 1,500,000                               INPUTFLINGER_OK, mask 0: the client has the repeat
 *     advance 6,000,000                               INPUTFLINGER_OK, mask 0x1: with a limit of 5,000,000 it is reported,
 *                                                     and is given no pointer and no key until it finishes what is late
 */

/*
 * Reports the first time at which something is due: a client that leaves a message unfinished for the limit, or, if keys
 * are repeated, the repeat of a held key. The time may be later than 10^18. It is the clock while input waits for memory,
 * while a client is to be choked or released, and while a choked client is not reported yet.
 *
 *     INPUTFLINGER_OK       moment_us is written
 *     INPUTFLINGER_NOTHING  nothing is due
 */
int inputflinger_live_due(const struct inputflinger_live *live, uint64_t *moment_us);

/*
 * Dispatches the input that still waits for memory, and then runs everything that is due up to now, each at its time.
 * Clients are choked and released before each thing that is due. mask has the channels of the open clients that this call
 * reported as unresponsive, of those that earlier calls reported before they ran out of memory, and of those that were
 * choked since the last mask.
 *
 *     INPUTFLINGER_OK            mask is written
 *     INPUTFLINGER_OUT_OF_RANGE  now_us
 *     INPUTFLINGER_NO_MEMORY     a part may be done; the next call also reports the channels that this one found
 *                                unresponsive
 */
int inputflinger_live_advance(struct inputflinger_live *live, uint64_t now_us, uint64_t *mask);

/* Reports the latest time that was handed in. */
int inputflinger_live_clock(const struct inputflinger_live *live, uint64_t *moment_us);

/*
 * Reports the client that has the focus of a display, 0 to 3.
 *
 *     INPUTFLINGER_OK            client is written
 *     INPUTFLINGER_NOTHING       none has it
 *     INPUTFLINGER_OUT_OF_RANGE  display
 */
int inputflinger_live_focused(const struct inputflinger_live *live, uint8_t display, struct inputflinger_client *client);

/* Reports the client that keys go to: INPUTFLINGER_OK, or INPUTFLINGER_NOTHING if there is none. */
int inputflinger_live_key_target(const struct inputflinger_live *live, struct inputflinger_client *client);

/*
 * Reports the client whose window a touch at a pixel of a display, 0 to 3, goes to: that of the first window from the front
 * which is no spy, is touchable and has the pixel in its region. The first finger of a gesture is given to it, if it
 * responds and no window of another owner blocks its window there; spies in front of it are given the finger too.
 *
 *     INPUTFLINGER_OK            client is written
 *     INPUTFLINGER_NOTHING       there is no such window, or it is a wall
 *     INPUTFLINGER_OUT_OF_RANGE  display
 */
int inputflinger_live_window_at(const struct inputflinger_live *live, uint8_t display, int32_t x, int32_t y,
				struct inputflinger_client *client);

/* Reports whether a client is open and responds: it was not reported, or none of its messages is late any more. */
int inputflinger_live_is_responsive(const struct inputflinger_live *live, const struct inputflinger_client *client,
				    bool *is_responsive);

/*
 * Reports the ids of a device's pointers, 1 to 8, that a client holds, as bits; 0 if the client is not open.
 *
 *     INPUTFLINGER_OK            ids is written
 *     INPUTFLINGER_OUT_OF_RANGE  device
 */
int inputflinger_live_holds(const struct inputflinger_live *live, const struct inputflinger_client *client, uint8_t device,
			    uint32_t *ids);

/*
 * Reports the first key that is down on a device, 1 to 8, from a scan code on: the least scan code of those that are down
 * and at least from. So a loop reports all of them in rising order:
 *
 *     first_key(device 1, from 0)                     INPUTFLINGER_OK, scan 30: the key is down
 *     first_key(device 1, from 31)                    INPUTFLINGER_OK, scan 42
 *     first_key(device 1, from 43)                    INPUTFLINGER_NOTHING
 *
 * A key is down from the input that puts it down to the one that lifts it, and no longer than until its device is removed
 * or reset; it does not matter whether a client was sent it. A window that gets the focus while a key is down is sent
 * nothing for that key, neither a DOWN then nor an UP when the key goes up. If a client must know of such keys, send it a
 * list of them yourself, as a Wayland compositor does with wl_keyboard.enter.
 *
 *     INPUTFLINGER_OK            scan is written
 *     INPUTFLINGER_NOTHING       no key from there on is down, or there is no such device
 *     INPUTFLINGER_OUT_OF_RANGE  device
 */
int inputflinger_live_first_key(const struct inputflinger_live *live, uint8_t device, uint32_t from, uint16_t *scan);

/* A file that a run reads: its bytes, which may be NULL if there are none. */
struct inputflinger_file {
	const void *bytes;
	size_t len;
};

/* The result of a run. */
struct inputflinger_ran {
	/* The length of what the program prints to its standard output, in bytes. */
	size_t out_len;
	/* The length of the line that it prints to its standard error. */
	size_t err_len;
	/* Its status, 0 to 7; docs/STATUSES.md says what each means. */
	uint32_t status;
};

/*
 * Runs the program inputflinger over files in memory: any of its commands except race, which starts threads. words has
 * the arguments, a word on each line; they name the files 1, 2 and 3:
 *
 *     const char words[] = "replay\n--session\n1\n--events\n2\n";
 *     struct inputflinger_file files[2] = {{session, session_len}, {recording, recording_len}};
 *     struct inputflinger_ran ran;
 *     int status = inputflinger_run(words, sizeof words - 1, files, 2, out, sizeof out, err, sizeof err, &ran);
 *
 *     input                                 status                    ran.status, and the output
 *     a recording of a tap                  INPUTFLINGER_OK           0: the streams text is in out, err_len is 0
 *     a recording whose line 3 is bad       INPUTFLINGER_OK           3: "recording: BadLine 3\n" is in err, out_len is 0
 *     --events 3, of two files              INPUTFLINGER_OK           4: "recording: ReadFailed\n"
 *     --event 2                             INPUTFLINGER_OK           2: "words: UnknownOption --event\n"
 *     replay --help                         INPUTFLINGER_OK           0: the help of replay is in out
 *     a text longer than out                INPUTFLINGER_NO_ROOM      0: out_len is how much room it needs
 *
 * A word that is not UTF-8 counts as the empty word, and an empty text has no words: ran.status is 2. Leave 64 KiB of the
 * thread's stack for a run; no run was seen to take more (docs/LIBRARY.md).
 *
 * The text goes to out and the line to err, each as far as there is room, without a NUL behind it; the rest of the buffer
 * stays as it was. out may be NULL if out_room is 0, and so may err: a run without room reports how much is needed. While
 * it runs, the program allocates memory of its own for what it reads and for everything that it prints. If it runs out of
 * memory, ran.status is 6, or 5 if there is none for the text that it prints. If there is none for the line either, err_len
 * is 0.
 *
 *     INPUTFLINGER_OK            the program ended, and out and err have all that it printed
 *     INPUTFLINGER_NO_ROOM       it ended, and a text is longer than its room: ran is written, and the front of the text
 *     INPUTFLINGER_OUT_OF_RANGE  files_len is more than 3; then no file is looked at
 *     INPUTFLINGER_NO_THREADS    the words are those of race: nothing ran
 *     INPUTFLINGER_NO_MEMORY     for the words: nothing ran
 *     INPUTFLINGER_NULL          ran is NULL, or a pointer is NULL whose length is not 0
 */
int inputflinger_run(const char *words, size_t words_len, const struct inputflinger_file *files, size_t files_len, char *out,
		     size_t out_room, char *err, size_t err_room, struct inputflinger_ran *ran);

#ifdef __cplusplus
}
#endif

#endif
