"""What MotionEvent.toString() and KeyEvent.toString() of Android print, in any format of logcat."""
import re

EVENT = re.compile(r"\b(MotionEvent|KeyEvent) ?\{ ?(.*)")
WINDOW = re.compile(r"\bwindow=([^\s,;]+)")
DATE = r"(?:(?:[0-9]{4}-)?[0-9]{2}-[0-9]{2} +[0-9:.]+(?: [+-][0-9]{4})?|[0-9]+\.[0-9]{3,}) +"
# The formats of logcat: threadtime, time and brief, process, thread, tag.
HEADS = [
    re.compile(r" *%s(?:\S+ +)?(?P<pid>[0-9]+) +[0-9]+ [VDIWEFAS] (?P<tag>.*?) *: " % DATE),
    re.compile(r" *(?:%s)?[VDIWEFAS]/(?P<tag>.*?) *\( *(?:\S+:)?(?P<pid>[0-9]+)\): " % DATE),
    re.compile(r"[VDIWEFAS]\( *(?P<pid>[0-9]+)\) (?=.*\((?P<tag>[^()]*)\)$)"),
    re.compile(r"[VDIWEFAS]\( *(?P<pid>[0-9]+): *[0-9]+\) (?P<tag>)"),
    re.compile(r"[VDIWEFAS]/(?P<tag>[^:]*?) *: (?P<pid>)"),
]
# The format long: a line of its own in front of the message.
LONG = re.compile(r"\[ %s(?P<pid>[0-9]+): *[0-9]+ [VDIWEFAS]/(?P<tag>.*?) *\]$" % DATE)
DROPPED = re.compile(r"\bchatty *(?:\([^)]*\))?: .*?((?:identical|expire) [0-9]+ lines?)")

ACTIONS = ["DOWN", "UP", "MOVE", "CANCEL", "OUTSIDE", "POINTER_DOWN", "POINTER_UP"]
CANCELED, OBSCURED, PARTLY = 0x20, 0x1, 0x2
POINTER_SOURCE = 0x2

# The key codes from 0 on, by name.
CODES = (
    "UNKNOWN SOFT_LEFT SOFT_RIGHT HOME BACK CALL ENDCALL 0 1 2 3 4 5 6 7 8 9 STAR POUND DPAD_UP DPAD_DOWN DPAD_LEFT DPAD_RIGHT DPAD_CENTER "
    "VOLUME_UP VOLUME_DOWN POWER CAMERA CLEAR A B C D E F G H I J K L M N O P Q R S T U V W X Y Z COMMA PERIOD ALT_LEFT ALT_RIGHT SHIFT_LEFT "
    "SHIFT_RIGHT TAB SPACE SYM EXPLORER ENVELOPE ENTER DEL GRAVE MINUS EQUALS LEFT_BRACKET RIGHT_BRACKET BACKSLASH SEMICOLON APOSTROPHE SLASH "
    "AT NUM HEADSETHOOK FOCUS PLUS MENU NOTIFICATION SEARCH MEDIA_PLAY_PAUSE MEDIA_STOP MEDIA_NEXT MEDIA_PREVIOUS MEDIA_REWIND "
    "MEDIA_FAST_FORWARD MUTE PAGE_UP PAGE_DOWN PICTSYMBOLS SWITCH_CHARSET BUTTON_A BUTTON_B BUTTON_C BUTTON_X BUTTON_Y BUTTON_Z BUTTON_L1 "
    "BUTTON_R1 BUTTON_L2 BUTTON_R2 BUTTON_THUMBL BUTTON_THUMBR BUTTON_START BUTTON_SELECT BUTTON_MODE ESCAPE FORWARD_DEL CTRL_LEFT CTRL_RIGHT "
    "CAPS_LOCK SCROLL_LOCK META_LEFT META_RIGHT FUNCTION SYSRQ BREAK MOVE_HOME MOVE_END INSERT FORWARD MEDIA_PLAY MEDIA_PAUSE MEDIA_CLOSE "
    "MEDIA_EJECT MEDIA_RECORD F1 F2 F3 F4 F5 F6 F7 F8 F9 F10 F11 F12 NUM_LOCK NUMPAD_0 NUMPAD_1 NUMPAD_2 NUMPAD_3 NUMPAD_4 NUMPAD_5 NUMPAD_6 "
    "NUMPAD_7 NUMPAD_8 NUMPAD_9 NUMPAD_DIVIDE NUMPAD_MULTIPLY NUMPAD_SUBTRACT NUMPAD_ADD NUMPAD_DOT NUMPAD_COMMA NUMPAD_ENTER NUMPAD_EQUALS "
    "NUMPAD_LEFT_PAREN NUMPAD_RIGHT_PAREN VOLUME_MUTE"
).split()
METAS = {
    "META_SHIFT_ON": 0x1,
    "META_ALT_ON": 0x2,
    "META_SYM_ON": 0x4,
    "META_FUNCTION_ON": 0x8,
    "META_ALT_LEFT_ON": 0x10,
    "META_ALT_RIGHT_ON": 0x20,
    "META_SHIFT_LEFT_ON": 0x40,
    "META_SHIFT_RIGHT_ON": 0x80,
    "META_CAP_LOCKED": 0x100,
    "META_ALT_LOCKED": 0x200,
    "META_SYM_LOCKED": 0x400,
    "META_CTRL_ON": 0x1000,
    "META_CTRL_LEFT_ON": 0x2000,
    "META_CTRL_RIGHT_ON": 0x4000,
    "META_META_ON": 0x10000,
    "META_META_LEFT_ON": 0x20000,
    "META_META_RIGHT_ON": 0x40000,
    "META_CAPS_LOCK_ON": 0x100000,
    "META_NUM_LOCK_ON": 0x200000,
    "META_SCROLL_LOCK_ON": 0x400000,
}


def words_of(action, flags):
    """What a line says of a motion's flags. A touch outside has no marks in a stream."""
    said = " canceled" if flags & CANCELED and action in ("UP", "POINTER_UP") else ""
    if action != "OUTSIDE":
        said += (" obscured" if flags & OBSCURED else "") + (" partly" if flags & PARTLY else "")
    return said


class Cut(Exception):
    """A part of an event is not there or malformed: which."""


def number(fields, key, default=None):
    """The integer at a key, in decimal digits or as 0x and hexadecimal ones."""
    text = fields.get(key)
    if text is None and default is not None:
        return default
    if text is None or not re.fullmatch("-?(?:0x[0-9A-Fa-f]{1,16}|[0-9]{1,20})", text):
        raise Cut(key)
    return int(text, 0) if "0x" in text else int(text)


def real(fields, key):
    # What DEBUG_CONCISE_TOSTRING leaves out is 0.
    try:
        return float(fields.get(key, "0").replace("Infinity", "inf"))
    except ValueError:
        raise Cut(key) from None


class Reader:
    """Reads the lines of a log that have an event. Windows are identified by `window=NAME`, or by a regular expression of the caller's, or else by the
    tag and the process."""

    name = "Android"

    def __init__(self, streams, window=None):
        self.streams = streams
        self.notes = streams.notes
        self.window = window
        self.head = None

    def take(self, line_number, line):
        """Whether the line is one of ours."""
        long = LONG.match(line)
        if long:
            self.head = long
            return False
        dropped = DROPPED.search(line)
        if dropped:
            self.notes.add(line_number, "logcat dropped lines here (%s)" % dropped[1])
            return False
        found = EVENT.search(line)
        if not found:
            return False
        try:
            self.event(line_number, line, found)
        except Cut as cut:
            self.notes.add(line_number, "left out: the %s is cut, or has no %s" % (found[1], cut))
        return True

    def event(self, line_number, line, found):
        body, closed, _ = found[2].partition("}")
        if not closed:
            raise Cut("} at its end")
        fields = dict(part.partition("=")[::2] for part in re.split(", *", body.strip()))
        window = self.window_of(line, found)
        if window is None:
            self.notes.add(line_number, "left out: --window fits nowhere in the line")
        elif found[1] == "KeyEvent":
            self.key(line_number, window, fields)
        else:
            self.motion(line_number, window, fields)

    def window_of(self, line, found):
        if self.window:
            named = self.window.search(line)
            return named and (named[1] if self.window.groups else named[0])
        named = WINDOW.search(line, 0, found.start()) or WINDOW.search(line, found.end())
        if named:
            return named[1]
        head = next((head for head in (form.match(line) for form in HEADS) if head), None) or self.head
        if not head:
            return "log"
        return "/".join(part for part in (head["tag"], head["pid"]) if part) or "log"

    def motion(self, line_number, window, fields):
        action, index = self.action(fields.get("action", ""))
        if action not in ACTIONS:
            self.notes.add(line_number, "left out: no line of a stream says ACTION_%s" % action)
            return
        source = number(fields, "source", POINTER_SOURCE)
        if not source & POINTER_SOURCE:
            self.notes.add(line_number, "left out: the source %s has no places on a display" % fields["source"])
            return
        if number(fields, "historySize", 0):
            self.notes.add(line_number, "its history is left out: only the last place of each finger is logged")
        count = number(fields, "pointerCount", 1)
        if count > 64:
            raise Cut("pointerCount that fits")
        places = [number(fields, "id[%d]" % k, k) for k in range(count)]
        if "id[%d]" % count in fields or ("id[0]" in fields and "id[%d]" % (count - 1) not in fields):
            raise Cut("pointerCount that fits")
        pointers = [(one, real(fields, "x[%d]" % k), real(fields, "y[%d]" % k)) for k, one in enumerate(places)]
        moment, device = number(fields, "eventTime") * 1000, ("Android", fields.get("deviceId", "0"))
        self.streams.motion(line_number, window, moment, device, action, pointers, index, words_of(action, number(fields, "flags", 0)))

    def action(self, text):
        """The action without ACTION_, and the index that stands behind it."""
        found = re.fullmatch(r"ACTION_([A-Z_]+)(?:\(([0-9]{1,9})\))?", text)
        if not found or (found[1] in ("POINTER_DOWN", "POINTER_UP")) != (found[2] is not None):
            raise Cut("action")
        return found[1], found[2] and int(found[2])

    def code(self, line_number, text):
        if text.removeprefix("KEYCODE_") in CODES:
            return CODES.index(text.removeprefix("KEYCODE_"))
        if re.fullmatch("[0-9]{1,5}", text):
            return int(text)
        if not text.startswith("KEYCODE_"):
            raise Cut("keyCode")
        self.notes.add(line_number, "the number of %s is not known here: 0 is written" % text)
        return 0

    def meta(self, line_number, text):
        if re.fullmatch("0x[0-9A-Fa-f]{1,8}|[0-9]{1,10}", text):
            return int(text, 16 if text.startswith("0x") else 10)
        bits = 0
        for word in text.split("|"):
            if word not in METAS:
                self.notes.add(line_number, "the bit of %s is not known here: it is left out" % (word or "an empty meta state"))
            bits |= METAS.get(word, 0)
        return bits

    def key(self, line_number, window, fields):
        action = fields.get("action", "")
        if action not in ("ACTION_DOWN", "ACTION_UP"):
            self.notes.add(line_number, "left out: no line of a stream says %s of a key" % (action or "nothing"))
            return
        if "keyCode" not in fields:
            raise Cut("keyCode")
        scan = number(fields, "scanCode", 0)
        key = (scan, self.code(line_number, fields["keyCode"]), self.meta(line_number, fields.get("metaState", "0")))
        canceled = action == "ACTION_UP" and number(fields, "flags", 0) & CANCELED
        said = "%s%s %d" % (action.removeprefix("ACTION_"), " canceled" if canceled else "", number(fields, "repeatCount", 0))
        device = ("Android", fields.get("deviceId", "0"))
        self.streams.key(line_number, window, number(fields, "eventTime") * 1000, device, key, said)

    def end(self, line_number):
        """The log is over."""
