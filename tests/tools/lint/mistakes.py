"""Mistakes in a session and in a recording, made by hand: each a name, a text of the right file, what stands in its place, the findings that
lint is to have of it (line, column, level, key, and words of the message), and the line with which the program refuses it, or None where it runs."""

SESSION = """[display]
width = 1080
height = 2400

[[device]]
kind = "touch"
path = "/dev/input/event2"
slots = 10
x = [0, 1079]
y = [0, 2399]

[[device]]
kind = "keys"
path = "/dev/input/event0"
layout = \"\"\"
key 115 VOLUME_UP
key 114 VOLUME_DOWN
\"\"\"

[[channel]]
name = "main"
limit_ms = 5000

[[channel]]
name = "spy"

[[step]]
at_us = 0
do = "windows"
windows = [
    { channel = "spy", frame = [0, 0, 1080, 2400], flags = ["SPY"] },
    { channel = "main", frame = [0, 0, 1080, 2400] },
]

[[step]]
at_us = 0
do = "focus"
channel = "main"

[[step]]
at_us = 1500000
do = "pilfer"
channel = "spy"
device = 1
"""

RECORDING = """[       1.000000] /dev/input/event2: 0003 002f 00000000
[       1.000000] /dev/input/event2: 0003 0039 00000001
[       1.000000] /dev/input/event2: 0003 0035 00000064
[       1.000000] /dev/input/event2: 0003 0036 000000c8
[       1.000000] /dev/input/event2: 0000 0000 00000000
[       1.200000] /dev/input/event2: 0003 0035 000003e8
[       1.200000] /dev/input/event2: 0003 0036 000007d0
[       1.200000] /dev/input/event2: 0000 0000 00000000
[       1.600000] /dev/input/event0: 0001 0073 00000001
[       1.700000] /dev/input/event0: 0001 0073 00000000
[       2.000000] /dev/input/event2: 0003 0039 ffffffff
[       2.000000] /dev/input/event2: 0000 0000 00000000
"""

MAIN = '{ channel = "main", frame = [0, 0, 1080, 2400] }'
SPY = '{ channel = "spy", frame = [0, 0, 1080, 2400], flags = ["SPY"] }'
WALL = '{ wall = true, frame = [0, 0, 540, 2400] }'
BOTH = SPY + ",\n    " + MAIN

# name, old, new, findings, refusal
IN_SESSION = [
    # What the program refuses.
    ("no TOML", "width = 1080", "width 1080", [(2, 7, "error", "", "a = is wanted")], "session: NotToml"),
    ("a text without quotes", 'kind = "touch"', "kind = touch", [(6, 8, "error", "", "a text stands in quotes")], "session: NotToml"),
    ("a key twice", "height = 2400", "height = 2400\nwidth = 5", [(4, 1, "error", "", "twice, first in line 2")], "session: NotToml"),
    ("an open bracket", "y = [0, 2399]", "y = [0, 2399", [(12, 1, "error", "", "a comma or a ]")], "session: NotToml"),
    ("a key misspelt", "width = ", "widht = ", [(1, 1, "error", "display.width", "not there"), (2, 1, "warning", "display.widht", '"width"')],
     "session: Missing display.width"),
    ("no display", "[display]", "[screen]",
     [(1, 1, "error", "display", "not there"), (1, 1, "warning", "screen", "nothing reads")], "session: Missing display"),
    ("a display in double brackets", "[display]", "[[display]]", [(1, 1, "error", "display", "a table is wanted")], "session: Wrong display"),
    ("no width", "width = 1080", "width = 0", [(2, 9, "error", "display.width", "1 to 16384")], "session: OutOfRange display.width 0"),
    ("a width in a text", "width = 1080", 'width = "1080"', [(2, 9, "error", "display.width", "a text 1080")], "session: Wrong display.width"),
    ("a width with a point", "width = 1080", "width = 1080.0", [(2, 9, "error", "display.width", "with a point")],
     "session: Wrong display.width"),
    ("a skew rotation", "height = 2400", "height = 2400\nrotation = 45", [(4, 12, "error", "display.rotation", "0, 90, 180 or 270")],
     "session: Wrong display.rotation"),
    ("a device in single brackets", "[[device]]\nkind = \"keys\"", "[device]\nkind = \"keys\"", [(12, 2, "error", "", "stands already")],
     "session: NotToml"),
    ("another kind", '"touch"', '"touchscreen"',
     [(6, 8, "error", "device[1].kind", 'did you mean "touch"')], "session: Wrong device[1].kind"),
    ("no path", 'path = "/dev/input/event2"\n', "", [(5, 1, "error", "device[1].path", "not there")], "session: Missing device[1].path"),
    ("a path without a slash", '"/dev/input/event2"', '"event2"',
     [(7, 8, "error", "device[1].path", "begin with /")], "session: Wrong device[1].path"),
    ("a path twice", "/dev/input/event0", "/dev/input/event2", [(14, 8, "error", "device[2].path", "device[1] has")],
     "session: Wrong device[2].path"),
    ("too many slots", "slots = 10", "slots = 17", [(8, 9, "error", "device[1].slots", "1 to 16")], "session: OutOfRange device[1].slots 17"),
    ("a turned range", "x = [0, 1079]", "x = [1079, 0]", [(9, 5, "error", "device[1].x", "above")], "session: Wrong device[1].x"),
    ("a range of one number", "x = [0, 1079]", "x = [1079]", [(9, 5, "error", "device[1].x", "two integers")], "session: Wrong device[1].x"),
    ("a range of 33 bits", "[0, 2399]", "[0, 2147483648]", [(10, 9, "error", "device[1].y", "32 bits")],
     "session: OutOfRange device[1].y 2147483648"),
    ("a display that is not there", "slots = 10", "display = 1", [(8, 11, "error", "device[1].display", "0 to 0")],
     "session: OutOfRange device[1].display 1"),
    ("a scan code in letters", "key 114", "key KEY_114", [(17, 1, "error", "device[2].layout", "no scan code")], "session: BadLayout 2 2"),
    ("a key name in small letters", "VOLUME_DOWN", "volume_down",
     [(17, 1, "error", "device[2].layout", '"VOLUME_DOWN"')], "session: BadLayout 2 2"),
    ("a scan code twice", "key 114", "key 0x73", [(17, 1, "error", "device[2].layout", "twice")], "session: BadLayout 2 2"),
    ("another word in a layout", "key 114 VOLUME_DOWN", "button 1 LEFT",
     [(17, 1, "error", "device[2].layout", "begins with key")], "session: BadLayout 2 2"),
    ("a name with a blank", 'name = "spy"', 'name = "the spy"',
     [(25, 12, "error", "channel[2].name", "from ! to ~"), (31, 17, "error", "step[1].windows[1].channel", "no channel"),
      (43, 11, "error", "step[3].channel", "no channel")], "session: Wrong channel[2].name"),
    ("a name twice", 'name = "spy"', 'name = "main"',
     [(25, 8, "error", "channel[2].name", "already"), (31, 17, "error", "step[1].windows[1].channel", "no channel"),
      (43, 11, "error", "step[3].channel", "no channel")], "session: Wrong channel[2].name"),
    ("no limit", "limit_ms = 5000", "limit_ms = 0", [(22, 12, "error", "channel[1].limit_ms", "1 to 600000")],
     "session: OutOfRange channel[1].limit_ms 0"),
    ("finishes in a text", "limit_ms = 5000", 'finishes = "false"',
     [(22, 12, "error", "channel[1].finishes", "true or false")], "session: Wrong channel[1].finishes"),
    ("no moment of a step", 'at_us = 0\ndo = "focus"', 'do = "focus"', [(35, 1, "error", "step[2].at_us", "not there")],
     "session: Missing step[2].at_us"),
    ("a moment in the past", "at_us = 1500000", "at_us = -1", [(41, 9, "error", "step[3].at_us", "-1 is out")],
     "session: OutOfRange step[3].at_us -1"),
    ("a lane too far", "at_us = 1500000", "at_us = 1500000\nlane = 9", [(42, 8, "error", "step[3].lane", "1 to 8")],
     "session: OutOfRange step[3].lane 9"),
    ("another deed", 'do = "pilfer"', 'do = "pilfers"', [(42, 6, "error", "step[3].do", '"pilfer"')], "session: Wrong step[3].do"),
    ("a channel misspelt", 'channel = "main", frame', 'channel = "mian", frame',
     [(21, 8, "warning", "channel[1]", "no step shows"), (32, 17, "error", "step[1].windows[2].channel", 'did you mean "main"')],
     "session: UnknownName step[1].windows[2].channel"),
    ("two windows of a channel", MAIN, MAIN + ",\n    " + MAIN, [(33, 17, "error", "step[1].windows[3].channel", "already")],
     "session: Wrong step[1].windows[3].channel"),
    ("a window of nobody that says nothing of it", SPY, WALL.replace("true", "false") + ",\n    " + SPY,
     [(31, 5, "error", "step[1].windows[1].channel", "not there")], "session: Missing step[1].windows[1].channel"),
    ("a wall with a channel", SPY, WALL.replace("wall", 'channel = "spy", wall') + ",\n    " + SPY,
     [(31, 17, "error", "step[1].windows[1].channel", "a wall is of nobody")], "session: Wrong step[1].windows[1].channel"),
    ("a wall by number", SPY, WALL.replace("true", "1") + ",\n    " + SPY,
     [(31, 5, "error", "step[1].windows[1].channel", "not there"), (31, 14, "error", "step[1].windows[1].wall", "true or false")],
     "session: Wrong step[1].windows[1].wall"),
    ("a wall that spies and slips", SPY, WALL.replace(" }", ', flags = ["NOT_FOCUSABLE", "SPY", "SLIPPERY"] }') + ",\n    " + SPY,
     [(31, column, "error", "step[1].windows[1].flags", "a wall is sent nothing, so it cannot have S") for column in (73, 80)],
     "session: Wrong step[1].windows[1].flags"),
    ("a frame as an extent", MAIN, '{ channel = "main", frame = [540, 0, 500, 2400] }',
     [(32, 33, "error", "step[1].windows[2].frame", "are the last two an extent")], "session: Wrong step[1].windows[2].frame"),
    ("a frame of three", MAIN, '{ channel = "main", frame = [0, 0, 1080] }',
     [(32, 33, "error", "step[1].windows[2].frame", "four integers")], "session: Wrong step[1].windows[2].frame"),
    ("a frame under another name", MAIN, '{ channel = "main", frames = [0, 0, 1080, 2400] }',
     [(32, 5, "error", "step[1].windows[2].frame", "not there"), (32, 25, "warning", "step[1].windows[2].frames", '"frame"')],
     "session: Missing step[1].windows[2].frame"),
    ("a region of numbers", MAIN, '{ channel = "main", frame = [0, 0, 9, 9], region = [0, 0, 9, 9] }',
     [(32, 57, "error", "step[1].windows[2].region", "an integer 0")] * 1
     + [(32, column, "error", "step[1].windows[2].region", "an integer") for column in (60, 63, 66)],
     "session: Wrong step[1].windows[2].region"),
    ("a flag in small letters", '["SPY"]', '["spy"]',
     [(31, 61, "error", "step[1].windows[1].flags", 'did you mean "SPY"')], "session: UnknownName step[1].windows[1].flags"),
    ("a flag that is no array", '["SPY"]', '"SPY"', [(31, 60, "error", "step[1].windows[1].flags", "an array of texts")],
     "session: Wrong step[1].windows[1].flags"),
    ("a device that is not there", "device = 1", "device = 3", [(44, 10, "error", "step[3].device", "has 2 devices")],
     "session: OutOfRange step[3].device 3"),
    ("windows in double brackets of their own", "[[step]]\nat_us = 0\ndo = \"focus\"", "[[step.windows]]\nat_us = 0\ndo = \"focus\"",
     [(35, 8, "error", "", "first in line 30")], "session: NotToml"),
    # What the program runs.
    ("a key that nothing reads", "slots = 10", "slot = 5", [(8, 1, "warning", "device[1].slot", '"slots"')], None),
    ("a key of another kind of device", "slots = 10", "slots = 10\nlayout = \"key 1 A\"",
     [(9, 1, "warning", "device[1].layout", "of a device of kind touch")], None),
    ("a key of another kind of step", 'do = "focus"', 'do = "focus"\ndevice = 1',
     [(38, 1, "warning", "step[2].device", "of a step that does focus")], None),
    ("a key of no table", "[display]", "finish = true\n[display]", [(1, 1, "warning", "finish", "nothing reads")], None),
    ("flag in place of flags", 'flags = ["SPY"]', 'flag = ["SPY"]',
     [(31, 52, "warning", "step[1].windows[1].flag", '"flags"'), (32, 33, "warning", "step[1].windows[2].frame", "behind step[1].windows[1], so"),
      (43, 11, "warning", "step[3].channel", "no window with SPY")], None),
    ("a copied colon", "/dev/input/event2", "/dev/input/event2:",
     [(7, 8, "warning", "device[1].path", "colon")], None),
    ("another path", "/dev/input/event2", "/dev/input/event3",
     [(7, 8, "warning", "device[1].path", "/dev/input/event2 (10 events)"), ("recording", 1, 1, "warning", "", "no device of the session")], None),
    ("a range too great", "x = [0, 1079]\ny = [0, 2399]", "x = [0, 32767]\ny = [0, 65535]", [(9, 5, "warning", "device[1].x", "in a corner")], None),
    ("a range too small", "x = [0, 1079]", "x = [0, 539]", [(9, 5, "warning", "device[1].x", "from 100 to 1000")], None),
    ("no region", MAIN, '{ channel = "main", frame = [0, 0, 9, 9], region = [] }',
     [(32, 56, "warning", "step[1].windows[2].region", "no pixel")], None),
    ("no region and no opacity", MAIN, '{ channel = "main", frame = [0, 0, 9, 9], region = [], opacity = 0 }', [], None),
    ("a frame of one line", MAIN, '{ channel = "main", frame = [0, 0, 1080, 0] }',
     [(32, 33, "warning", "step[1].windows[2].frame", "no pixel")], None),
    ("a frame beside the display", MAIN, '{ channel = "main", frame = [1080, 0, 2160, 2400] }',
     [(32, 33, "warning", "step[1].windows[2].frame", "outside of its display")], None),
    ("a region beside the frame", MAIN, '{ channel = "main", frame = [540, 0, 1080, 2400], region = [[0, 0, 540, 2400]] }',
     [(32, 64, "warning", "step[1].windows[2].region", "outside of the frame")], None),
    ("a channel that finishes nothing", "limit_ms = 5000", "finishes = false",
     [(22, 12, "warning", "channel[1].finishes", "anr line 5000 ms")], None),
    ("a channel that finishes too late", "limit_ms = 5000", "finish_after_us = 5000001",
     [(22, 19, "warning", "channel[1].finish_after_us", "later than")], None),
    ("a channel without a window", 'name = "spy"', 'name = "spy"\n[[channel]]\nname = "other"',
     [(27, 8, "warning", "channel[3]", "no step shows")], None),
    ("a step behind the recording", "at_us = 1500000", "at_us = 2500000",
     [(41, 9, "warning", "step[3].at_us", "last event of the recording is at 2.000000 s")], None),
    ("windows that come late", 'at_us = 0\ndo = "windows"', 'at_us = 1100000\ndo = "windows"',
     [(28, 9, "warning", "step[1].at_us", "first event of the recording is at 1.000000 s")], None),
    ("an end before the last event", "[display]", "end_us = 1500000\n[display]", [(1, 10, "warning", "end_us", "goes on")], None),
    ("one delay of repeats", "[display]", "repeat_us = [660000]\n[display]", [(1, 13, "error", "repeat_us", "two integers")], "session: Wrong repeat_us"),
    ("delays of repeats in a text", "[display]", 'repeat_us = "660000 40000"\n[display]',
     [(1, 13, "error", "repeat_us", "[first, next] is wanted, and this is a text")], "session: Wrong repeat_us"),
    ("delays of repeats in milliseconds", "[display]", "repeat_us = [660, 40]\n[display]",
     [(1, 14, "error", "repeat_us", "660 is out of its range, which is 1000 to 600000000")], "session: OutOfRange repeat_us 660"),
    ("a second delay too long", "[display]", "repeat_us = [660000, 600000001]\n[display]",
     [(1, 22, "error", "repeat_us", "600000001 is out of its range")], "session: OutOfRange repeat_us 600000001"),
    ("repeats by number", "[display]", "repeat = 0\n[display]",
     [(1, 10, "error", "repeat", "true or false is wanted, and this is an integer 0")], "session: Wrong repeat"),
    ("delays of no repeats", "[display]", "repeat = false\nrepeat_us = [660000, 40000]\n[display]",
     [(2, 13, "warning", "repeat_us", "no key is repeated")], None),
    ("pilfer by no spy", 'channel = "spy"\ndevice', 'channel = "main"\ndevice',
     [(43, 11, "warning", "step[3].channel", "no window with SPY")], None),
    ("pilfer of keys", "device = 1", "device = 2", [(44, 10, "warning", "step[3].device", "no fingers")], None),
    ("a focus that cannot be", MAIN, '{ channel = "main", frame = [0, 0, 1080, 2400], flags = ["NOT_FOCUSABLE"] }',
     [(38, 11, "warning", "step[2].channel", "NOT_FOCUSABLE")], None),
    ("no focus", 'do = "focus"', 'do = "remove"',
     [(12, 1, "warning", "device[2]", "nobody is told of keys"),
      (38, 11, "warning", "step[2].channel", "removed at 0.000000 s, and the first event of the recording is at 1.000000 s")], None),
    # Too wide for its windows and its screen: the axes are read as 1080 by 2400, and so are the windows.
    ("a display that is larger than all", "width = 1080\nheight = 2400", "width = 1440\nheight = 3200",
     [(2, 9, "warning", "display.width", "1440, but its windows end at 1080 and its touch screens have 1080 positions"),
      (3, 10, "warning", "display.height", "3200, but its windows end at 2400 and its touch screens have 2400 positions")], None),
    ("a turned display that is larger than all", "width = 1080\nheight = 2400",
     "width = 1080\nheight = 2500\nrotation = 90",
     [(3, 10, "warning", "display.height", "2500, but its windows end at 1080 and its touch screens have 2400 positions")], None),
    ("a window behind another", BOTH, MAIN + ",\n    " + SPY,
     [(32, 32, "warning", "step[1].windows[2].frame", "behind step[1].windows[1], so the window cannot be touched; windows are listed front to back")], None),
    ("a window behind two rectangles", BOTH,
     MAIN.replace(" }", ", region = [[0, 0, 540, 2400], [540, 0, 1080, 2400]] }") + ",\n    " + SPY,
     [(32, 32, "warning", "step[1].windows[2].frame", "behind step[1].windows[1], so")], None),
    ("walls", BOTH, WALL + ",\n    " + WALL.replace("0, 0, 540", "540, 0, 800") + ",\n    " + BOTH, [], None),
    ("a window behind walls", BOTH, WALL + ",\n    " + WALL.replace("0, 0, 540", "540, 0, 1080") + ",\n    " + BOTH,
     [(33, 32, "warning", "step[1].windows[3].frame", "wholly behind step[1].windows[1] and step[1].windows[2]"),
      (34, 33, "warning", "step[1].windows[4].frame", "wholly behind step[1].windows[1] and step[1].windows[2]")], None),
    ("a wall and the focus of nobody", MAIN + ',\n]\n\n[[step]]\nat_us = 0\ndo = "focus"\nchannel = "main"\n',
     MAIN + ",\n    " + WALL.replace(" }", ', flags = ["NOT_TOUCHABLE"] }') + ',\n]\n\n[[step]]\nat_us = 0\ndo = "focus"\n', [], None),
    ("a wall behind another", BOTH, WALL + ",\n    " + WALL + ",\n    " + BOTH,
     [(32, 28, "warning", "step[1].windows[2].frame", "wholly behind step[1].windows[1]")], None),
    ("a window of which a line is free", BOTH, MAIN.replace("2400]", "2399]") + ",\n    " + SPY, [], None),
    ("a window behind one that is not touchable", BOTH, MAIN.replace(" }", ', flags = ["NOT_TOUCHABLE"] }') + ",\n    " + SPY, [], None),
    ("windows that are replaced before the first event", "[[step]]\nat_us = 0\ndo = \"focus\"",
     "[[step]]\nat_us = 1000000\ndo = \"windows\"\nwindows = [ " + BOTH.replace("\n    ", " ") + " ]\n[[step]]\nat_us = 0\ndo = \"focus\"",
     [(30, 11, "warning", "step[1].windows", "step[2] replaces these windows at 1.000000 s, and the first event of the recording is at 1.000000 s")], None),
    ("windows that are replaced behind the first event", "[[step]]\nat_us = 0\ndo = \"focus\"",
     "[[step]]\nat_us = 1000001\ndo = \"windows\"\nwindows = [ " + BOTH.replace("\n    ", " ") + " ]\n[[step]]\nat_us = 0\ndo = \"focus\"", [], None),
    ("a pilfer before any touch", "at_us = 1500000", "at_us = 1000000",
     [(41, 9, "warning", "step[3].at_us", "1.000000 s, and the first finger of device 1 goes down at 1.000000 s")], None),
    ("a pilfer behind the first touch", "at_us = 1500000", "at_us = 1000001", [], None),
    ("a channel that is removed behind the first event", 'do = "pilfer"\nchannel = "spy"\ndevice = 1', 'do = "remove"\nchannel = "spy"', [], None),
    ("a channel that is removed at the first event", 'at_us = 1500000\ndo = "pilfer"\nchannel = "spy"\ndevice = 1',
     'at_us = 1000000\ndo = "remove"\nchannel = "spy"',
     [(43, 11, "warning", "step[3].channel", '"spy" is removed at 1.000000 s, and the first event of the recording is at 1.000000 s')], None),
    ("a name without a key code", "VOLUME_DOWN", "VOLUME_MUTE",
     [(17, 1, "warning", "device[2].layout", "it gives 0")], None),
    ("a key without a line", "key 115 VOLUME_UP\n", "", [(15, 10, "warning", "device[2].layout", "115 (0x73)")], None),
]

KEY = "[       1.500001] /dev/input/event0: 0001 0073 00000001\n[       1.600000] /dev/input/event0: 0001 0073 00000000\n"


def packet(moment, *events):
    """A packet of the touch screen at a moment: events of its absolute axes, and the end."""
    front = "[%8d.%06d] /dev/input/event2: " % divmod(moment, 1000000)
    return "".join("%s0003 %s %08x\n" % (front, code, value & 0xFFFFFFFF) for code, value in events) + front + "0000 0000 00000000\n"


# name, the recording, findings (all of the recording where they do not begin with "session"), refusal
IN_RECORDING = [
    ("a cut line", RECORDING[:-10],
     [(12, 1, "error", "", "cut here")], "recording: BadLine 12"),
    ("labels", "[       1.000000] /dev/input/event2: EV_ABS       ABS_MT_POSITION_X    00000064\n",
     [(1, 1, "error", "", "tools/import")], "recording: BadLine 1"),
    ("no moments", "add device 1: /dev/input/event2\n/dev/input/event2: 0003 0035 00000064\n",
     [(2, 1, "error", "", "getevent -t")], "recording: NoMoment 2"),
    ("a line too long", "x" * 4097 + "\n", [(1, 1, "error", "", "4097 bytes")], "recording: TooLong 1"),
    ("nothing", "", [(1, 1, "warning", "", "empty")], None),
    ("other text", "hello\nworld\n", [(1, 1, "warning", "", "none of its 2 lines")], None),
    ("gzip", b"\x1f\x8b\x08\x00\x00\x00\x00\x00\x00\x03", [(1, 1, "warning", "", "file of gzip")], None),
    ("UTF-16", b"\xff\xfe" + RECORDING.encode("utf-16-le"), [(1, 1, "warning", "", "file of UTF-16")], None),
    ("evemu", "# EVEMU 1.3\nN: touch\nE: 0.000001 0003 0039 0001\t# EV_ABS / ABS_MT_TRACKING_ID 1\n",
     [(1, 1, "warning", "", "file of evemu")], None),
    ("libinput record", "# libinput record\nlibinput:\n  version: \"1.23.0\"\n", [(1, 1, "warning", "", "file of libinput record")], None),
    ("evtest", "Input driver version is 1.0.1\nEvent: time 1.000000, type 3 (EV_ABS), code 53 (ABS_MT_POSITION_X), value 100\n",
     [(1, 1, "warning", "", "file of evtest")], None),
    ("single touch", "[       1.000000] /dev/input/event2: 0003 0000 00000064\n[       2.000000] /dev/input/event0: 0001 0073 00000001\n"
     "[       2.100000] /dev/input/event0: 0001 0073 00000000\n",
     [(1, 1, "warning", "", "single-touch")], None),
    ("protocol A", "[       1.000000] /dev/input/event2: 0003 0035 00000064\n[       1.000000] /dev/input/event2: 0000 0002 00000000\n"
     "[       2.000000] /dev/input/event0: 0001 0073 00000001\n[       2.100000] /dev/input/event0: 0001 0073 00000000\n",
     [(1, 1, "warning", "", "protocol A")], None),
    ("no finger goes down", RECORDING.replace("0039", "003a"), [(1, 1, "warning", "", "begin with the finger down")], None),
    ("the ranges of the device", "add device 1: /dev/input/event2\n  name:     \"touch\"\n  events:\n"
     "    ABS (0003): 002f  : value 0, min 0, max 15, fuzz 0, flat 0, resolution 0\n"
     "                0035  : value 0, min 0, max 1439, fuzz 0, flat 0, resolution 0\n"
     "                0036  : value 0, min 0, max 2399, fuzz 0, flat 0, resolution 0\n" + RECORDING,
     [("session", 8, 9, "warning", "device[1].slots", "slot 15"), ("session", 9, 5, "warning", "device[1].x", "[0, 1439]")], None),
    ("positions outside of the axis that the device says", "add device 1: /dev/input/event2\n  name:     \"touch\"\n  events:\n"
     "    ABS (0003): 002f  : value 0, min 0, max 9, fuzz 0, flat 0, resolution 0\n"
     "                0035  : value 0, min 0, max 1079, fuzz 0, flat 0, resolution 0\n"
     "                0036  : value 0, min 0, max 2399, fuzz 0, flat 0, resolution 0\n" + RECORDING.replace("000003e8", "000007d0"),
     [("session", 9, 5, "warning", "device[1].x", "[0, 1079], as its device says, and the recording goes from 100 to 2000")], None),
    ("more slots than the device of the session, and none used", "add device 1: /dev/input/event2\n  name:     \"touch\"\n  events:\n"
     "    ABS (0003): 002f  : value 0, min 0, max 9, fuzz 0, flat 0, resolution 0\n" + RECORDING, [], None),
    ("fingers that jump without slots", "".join(
        packet(1000000 + 8000 * k, *([("0039", 1)] if k == 0 else []), ("0035", 100 + 800 * (k % 2)), ("0036", 200 + 2000 * (k % 2)))
        for k in range(4)) + packet(1100000, ("0039", -1)) + KEY,
     [(1, 1, "warning", "", "fingers of /dev/input/event2 jump in 3 packets without ABS_MT_SLOT, first at 1.008000 s "
       "from (100, 200) to (900, 2200)")], None),
    ("a swipe as fast as can be", "".join(
        packet(1000000 + 8000 * k, *([("0039", 1)] if k == 0 else []), ("0035", 100 + 100 * k), ("0036", 200 + 240 * k))
        for k in range(9)) + packet(1100000, ("0039", -1)) + KEY, [], None),
    ("fingers that have their slots", "".join(
        packet(1000000 + 8000 * k, ("002f", k % 2), *([("0039", k + 1)] if k < 2 else []), ("0035", 100 + 800 * (k % 2)), ("0036", 200 + 2000 * (k % 2)))
        for k in range(6)) + packet(1100000, ("002f", 0), ("0039", -1), ("002f", 1), ("0039", -1)) + KEY, [], None),
    ("a recording that begins in mid-gesture", packet(900000, ("0035", 100)) + packet(910000, ("0039", -1)) + RECORDING,
     [(1, 1, "warning", "", "begins in mid-gesture: 1 finger of /dev/input/event2 is already down")], None),
    ("a recording that begins with two fingers down", packet(900000, ("0035", 100), ("002f", 3), ("0036", 100))
     + packet(910000, ("0039", -1), ("002f", 0), ("0039", -1)) + RECORDING,
     [(1, 1, "warning", "", "begins in mid-gesture: 2 fingers of /dev/input/event2 are already down")], None),
    ("a recording that ends in mid-gesture", RECORDING.replace("ffffffff", "00000002"),
     [(1, 1, "warning", "", "ends in mid-gesture: 1 finger of /dev/input/event2 is still down, in slot 0")], None),
    ("a finger that is lost is no end", RECORDING.replace("0039 ffffffff", "003a 00000000").replace(
        "[       2.000000] /dev/input/event2: 0000 0000", "[       2.000000] /dev/input/event2: 0000 0003"), [], None),
    ("a recording that begins while a key is down", KEY[KEY.index("\n") + 1:] + RECORDING,
     [(1, 1, "warning", "", "begins while key 115 (0x73) of /dev/input/event0 is down")], None),
    ("a recording that ends while a key is down", RECORDING + KEY[: KEY.index("\n") + 1],
     [(1, 1, "warning", "", "ends while key 115 (0x73) of /dev/input/event0 is down")], None),
]
