"""Logs made by hand after the public formats. Each case has a name, the words behind the file, the log, the streams that it is to give, the lines
of standard error (without `logs: `), and what `verify` says of the streams."""


def motion_event(action, pointers, ms, flags="0x0", device=3, extra=""):
    """MotionEvent.toString() as Android 12 prints it; pointers are id, x and y."""
    listed = "".join(
        "id[%d]=%d, x[%d]=%s, y[%d]=%s, toolType[%d]=TOOL_TYPE_FINGER, " % (k, one, k, x, k, y, k) for k, (one, x, y) in enumerate(pointers)
    )
    return (
        "MotionEvent { action=ACTION_%s, actionButton=0, %sbuttonState=0, classification=NONE, metaState=0, flags=%s, edgeFlags=0x0, "
        "pointerCount=%d, historySize=0, eventTime=%d, downTime=12345100, deviceId=%d, source=0x1002, displayId=0, eventId=0x2a%s }"
        % (action, listed, flags, len(pointers), ms, device, extra)
    )


def threadtime(text, tag="Touches", pid=4242):
    return "11-28 08:25:01.123  %d  %d I %s : %s\n" % (pid, pid, tag, text)


A, B = (0, "540.0", "1200.0"), (1, "100.5", "200.49")
TWO_FINGERS = [
    motion_event("DOWN", [A], 12345100),
    motion_event("POINTER_DOWN(1)", [A, B], 12345110),
    motion_event("MOVE", [A, B], 12345120),
    motion_event("POINTER_UP(0)", [A, B], 12345130, "0x20"),
    motion_event("UP", [B], 12345140),
]
TWO_FINGERS_TOLD = """1 12345100000 motion 1 DOWN 0@540,1200
2 12345110000 motion 1 POINTER_DOWN:1 0@540,1200 1@101,200
3 12345120000 motion 1 MOVE 0@540,1200 1@101,200
4 12345130000 motion 1 POINTER_UP:0 canceled 0@540,1200 1@101,200
5 12345140000 motion 1 UP 1@101,200
"""

KEYS = (
    "KeyEvent { action=ACTION_DOWN, keyCode=KEYCODE_VOLUME_UP, scanCode=115, metaState=0, flags=0x8, repeatCount=0, eventTime=1000, downTime=1000, "
    "deviceId=5, source=0x101, displayId=-1 }",
    "KeyEvent { action=ACTION_DOWN, keyCode=KEYCODE_VOLUME_UP, scanCode=115, metaState=0, flags=0x8, repeatCount=1, eventTime=1500, downTime=1000, "
    "deviceId=5, source=0x101, displayId=-1 }",
    "KeyEvent { action=ACTION_UP, keyCode=KEYCODE_VOLUME_UP, scanCode=115, metaState=META_SHIFT_ON|META_SHIFT_LEFT_ON, flags=0x28, repeatCount=0, "
    "eventTime=1600, downTime=1000, deviceId=5, source=0x101, displayId=-1 }",
)

WAYLAND = """[1000.100] wl_display@1.get_registry(new id wl_registry@2)
[1000.200]  -> wl_seat@5.get_touch(new id wl_touch@12)
[1234.000] wl_touch@12.down(45, 1234, wl_surface@20, 7, 100.500000, 200.250000)
[1234.001] wl_touch@12.frame()
[1250.000] wl_touch@12.down(46, 1250, wl_surface@20, 9, 300.000000, 400.000000)
[1250.001] wl_touch@12.frame()
[1260.000] wl_touch@12.motion(1260, 7, 101.000000, 201.000000)
[1260.001] wl_touch@12.motion(1260, 9, 301.000000, 401.000000)
[1260.002] wl_touch@12.frame()
[1270.000] wl_touch@12.up(47, 1270, 7)
[1270.001] wl_touch@12.frame()
[1280.000] wl_touch@12.up(48, 1280, 9)
[1280.001] wl_touch@12.frame()
"""
WAYLAND_TOLD = """channel 1 wl_surface@20
1 1234000 motion 1 DOWN 0@101,200
2 1250000 motion 1 POINTER_DOWN:1 0@101,200 1@300,400
3 1260000 motion 1 MOVE 0@101,201 1@301,401
4 1270000 motion 1 POINTER_UP:0 0@101,201 1@301,401
5 1280000 motion 1 UP 1@301,401
end 1 sent 5 received 5 finished 5
"""


def xi2(kind, name, detail, x, y, time="    time: 4287612\n", window="0x2200001"):
    return (
        "EVENT type %d (%s)\n    device: 2 (12)\n%s    detail: %d\n    flags: \n    root: %s/%s\n    event: %s/%s\n    buttons:\n"
        "    modifiers: locked 0 latched 0 base 0 effective: 0\n    group: locked 0 latched 0 base 0 effective: 0\n    valuators:\n"
        "        0: 1000.00\n        1: 2000.00\n    windows: root 0x18a event %s child 0x0\n\n" % (kind, name, time, detail, x, y, x, y, window)
    )


def section(name, lines, number=1):
    count = lines.count("\n")
    return "channel %d %s\n%send %d sent %d received %d finished %d\n" % (number, name, lines, number, count, count, count)


CASES = [
    ("logcat -v threadtime", [], "--------- beginning of main\n" + "".join(map(threadtime, TWO_FINGERS)),
     section("Touches/4242", TWO_FINGERS_TOLD), [], "well formed 1 5"),
    ("logcat -v time", [], "".join("11-28 08:25:01.123 I/Touches( 4242): %s\r\n" % text for text in TWO_FINGERS),
     section("Touches/4242", TWO_FINGERS_TOLD), [], "well formed 1 5"),
    ("logcat -v brief", [], "".join("I/Touches ( 4242): %s\n" % text for text in TWO_FINGERS),
     section("Touches/4242", TWO_FINGERS_TOLD), [], "well formed 1 5"),
    ("logcat -v tag", [], "".join("I/Touches : %s\n" % text for text in TWO_FINGERS), section("Touches", TWO_FINGERS_TOLD), [], "well formed 1 5"),
    ("logcat -v process", [], "".join("I( 4242) %s  (Touches)\n" % text for text in TWO_FINGERS),
     section("Touches/4242", TWO_FINGERS_TOLD), [], "well formed 1 5"),
    ("logcat -v long", [], "".join("[ 11-28 08:25:01.123  4242: 4242 I/Touches  ]\n%s\n\n" % text for text in TWO_FINGERS),
     section("Touches/4242", TWO_FINGERS_TOLD), [], "well formed 1 5"),
    ("logcat -v threadtime,uid,year", [], "".join("2026-11-28 08:25:01.123 u0_a1  4242  4243 I Touches: %s\n" % text for text in TWO_FINGERS),
     section("Touches/4242", TWO_FINGERS_TOLD), [], "well formed 1 5"),
    ("logcat -v raw", [], "".join("%s\n" % text for text in TWO_FINGERS), section("log", TWO_FINGERS_TOLD), [], "well formed 1 5"),
    ("windows by their word", [], threadtime("window=left " + TWO_FINGERS[0]) + threadtime("window=right, " + motion_event("DOWN", [B], 12345105)),
     section("left", "1 12345100000 motion 1 DOWN 0@540,1200\n") + section("right", "1 12345105000 motion 1 DOWN 1@101,200\n", 2), [],
     "well formed 2 2"),
    ("windows by a regular expression", ["--window", r"onTouch\((\w+)\)"],
     threadtime("onTouch(main) " + TWO_FINGERS[0]) + threadtime("other " + TWO_FINGERS[0]),
     section("main", "1 12345100000 motion 1 DOWN 0@540,1200\n"), ["line 2: left out: --window fits nowhere in the line"], "well formed 1 1"),
    ("lines of one tag", ["--only", "Views"], threadtime(TWO_FINGERS[0], "Views") + threadtime(TWO_FINGERS[0], "Activity"),
     section("Views/4242", "1 12345100000 motion 1 DOWN 0@540,1200\n"), [], "well formed 1 1"),
    ("two devices", [], threadtime(motion_event("DOWN", [A], 1, device=7)) + threadtime(motion_event("DOWN", [A], 2, device=3)),
     section("Touches/4242", "1 1000 motion 1 DOWN 0@540,1200\n2 2000 motion 2 DOWN 0@540,1200\n"), [], "well formed 1 2"),
    ("pointers out of order", [],
     threadtime(motion_event("DOWN", [B], 1)) + threadtime(motion_event("POINTER_DOWN(1)", [B, A], 2)),
     section("Touches/4242", "1 1000 motion 1 DOWN 1@101,200\n2 2000 motion 1 POINTER_DOWN:0 0@540,1200 1@101,200\n"), [], "well formed 1 2"),
    ("an event of few words", [], "MotionEvent { action=ACTION_DOWN, x[0]=-0.5, y[0]=-0.6, eventTime=7 }\n",
     section("log", "1 7000 motion 1 DOWN 0@0,-1\n"), [], "well formed 1 1"),
    ("an event of Android 4", [],
     "D/T( 1): MotionEvent { action=ACTION_DOWN, id[0]=0, x[0]=1.0, y[0]=2.0, toolType[0]=TOOL_TYPE_FINGER, buttonState=0, metaState=0, flags=0x0, "
     "edgeFlags=0x0, pointerCount=1, historySize=0, eventTime=7, downTime=7, deviceId=0, source=0x1002 }\n",
     section("T/1", "1 7000 motion 1 DOWN 0@1,2\n"), [], "well formed 1 1"),
    ("down twice", [], threadtime(TWO_FINGERS[0]) + threadtime(TWO_FINGERS[0]),
     section("Touches/4242", "1 12345100000 motion 1 DOWN 0@540,1200\n2 12345100000 motion 1 DOWN 0@540,1200\n"), [], "stream: NotWellFormed 3"),
    ("an up that is cancelled", [], threadtime(TWO_FINGERS[0]) + threadtime(motion_event("UP", [A], 12345200, "0x20")),
     section("Touches/4242", "1 12345100000 motion 1 DOWN 0@540,1200\n2 12345200000 motion 1 UP canceled 0@540,1200\n"), [],
     "stream: NotWellFormed 3"),
    ("a cancel", [], threadtime(TWO_FINGERS[0]) + threadtime(motion_event("CANCEL", [A], 12345200, "0x20")),
     section("Touches/4242", "1 12345100000 motion 1 DOWN 0@540,1200\n2 12345200000 motion 1 CANCEL 0@540,1200\n"), [], "well formed 1 2"),
    ("marks", [], threadtime(motion_event("DOWN", [A], 12345100, "0x1")) + threadtime(motion_event("POINTER_DOWN(1)", [A, B], 12345110, "0x3"))
     + threadtime(motion_event("OUTSIDE", [A], 12345110, "0x1")) + threadtime(motion_event("POINTER_UP(0)", [A, B], 12345120, "0x23"))
     + threadtime(motion_event("UP", [B], 12345130, "0x2")),
     section("Touches/4242", "1 12345100000 motion 1 DOWN obscured 0@540,1200\n2 12345110000 motion 1 POINTER_DOWN:1 obscured partly 0@540,1200 1@101,200\n"
             "3 12345110000 motion 1 OUTSIDE 0@540,1200\n4 12345120000 motion 1 POINTER_UP:0 canceled obscured partly 0@540,1200 1@101,200\n"
             "5 12345130000 motion 1 UP partly 1@101,200\n"), [], "well formed 1 5"),
    ("an index that is no place", [], threadtime(TWO_FINGERS[0]) + threadtime(motion_event("POINTER_DOWN(2)", [A, B], 12345200)),
     section("Touches/4242", "1 12345100000 motion 1 DOWN 0@540,1200\n2 12345200000 motion 1 POINTER_DOWN:2 0@540,1200 1@101,200\n"),
     ["line 2: the index is no place among the fingers; it is written so, and verify refuses it"], "stream: BadLine 3"),
    ("a finger twice in an event", [], threadtime(TWO_FINGERS[0]) + threadtime(motion_event("POINTER_DOWN(1)", [A, A], 12345200)),
     section("Touches/4242", "1 12345100000 motion 1 DOWN 0@540,1200\n2 12345200000 motion 1 POINTER_DOWN:1 0@540,1200 0@540,1200\n"),
     ["line 2: a finger is listed twice; it is written so, and verify refuses it"], "stream: BadLine 3"),
    ("a log that breaks off", [], threadtime(TWO_FINGERS[0]) + threadtime(TWO_FINGERS[1])[:150],
     section("Touches/4242", "1 12345100000 motion 1 DOWN 0@540,1200\n"), ["line 2: left out: the MotionEvent is cut, or has no } at its end"],
     "well formed 1 1"),
    ("what a stream cannot say", [],
     threadtime(TWO_FINGERS[0]) + 2 * threadtime(motion_event("HOVER_MOVE", [A], 1))
     + threadtime(motion_event("MOVE", [A], 12345110).replace("historySize=0", "historySize=3"))
     + threadtime(motion_event("MOVE", [A], 12345120).replace("0x1002", "0x1000010"))
     + "11-28 08:25:01.123  4242  4242 I chatty  : uid=10001(app) expire 7 lines\n",
     section("Touches/4242", "1 12345100000 motion 1 DOWN 0@540,1200\n2 12345110000 motion 1 MOVE 0@540,1200\n"),
     ["line 2 and 1 more: left out: no line of a stream says ACTION_HOVER_MOVE",
      "line 4: its history is left out: only the last place of each finger is logged",
      "line 5: left out: the source 0x1000010 has no places on a display", "line 6: logcat dropped lines here (expire 7 lines)"],
     "well formed 1 2"),
    ("keys", [], "".join(map(threadtime, KEYS)),
     section("Touches/4242", "1 1000000 key 1 115 24 0 DOWN 0\n2 1500000 key 1 115 24 0 DOWN 1\n3 1600000 key 1 115 24 65 UP canceled 0\n"), [],
     "well formed 1 3"),
    ("a key that is not known", [], threadtime(KEYS[0].replace("VOLUME_UP", "STEM_PRIMARY")),
     section("Touches/4242", "1 1000000 key 1 115 0 0 DOWN 0\n"), ["line 1: the number of KEYCODE_STEM_PRIMARY is not known here: 0 is written"],
     "well formed 1 1"),
    ("Wayland", [], WAYLAND, WAYLAND_TOLD, [], "well formed 1 5"),
    ("Wayland with queues", [],
     "\n".join(line.replace("] wl_touch@", "] {Default Queue} wl_touch#") for line in WAYLAND.replace("surface@", "surface#").split("\n")),
     WAYLAND_TOLD.replace("@20", "#20"), [], "well formed 1 5"),
    ("Wayland of a compositor", [], WAYLAND.replace("] wl_touch", "]  -> wl_touch"), WAYLAND_TOLD, [], "well formed 1 5"),
    ("fingers on two surfaces, cancelled", [],
     "[1.000] wl_touch@3.down(1, 10, wl_surface@5, 0, 1.0, 2.0)\n[1.001] wl_touch@3.down(2, 10, wl_surface@6, 1, 3.0, 4.0)\n"
     "[1.002] wl_touch@3.frame()\n[2.000] wl_touch@3.motion(20, 1, 5.0, 6.0)\n[2.001] wl_touch@3.cancel()\n",
     section("wl_surface@5", "1 10000 motion 1 DOWN 0@1,2\n2 20000 motion 1 CANCEL 0@1,2\n")
     + section("wl_surface@6", "1 10000 motion 1 DOWN 0@3,4\n2 20000 motion 1 MOVE 0@5,6\n3 20000 motion 1 CANCEL 0@5,6\n", 2), [],
     "well formed 2 5"),
    ("an up of an unknown finger", [], "[1.000] wl_touch@3.down(1, 10, wl_surface@5, 0, 1.0, 2.0)\n[2.000] wl_touch@3.up(2, 20, 4)\n",
     section("wl_surface@5", "1 10000 motion 1 DOWN 0@1,2\n2 20000 motion 1 POINTER_UP:1 0@1,2 1@0,0\n"),
     ["line 2: a finger goes up that is not down; it is written so, and verify refuses it"], "stream: NotWellFormed 3"),
    ("an up behind an up", [], WAYLAND + "[1290.000] wl_touch@12.up(49, 1290, 9)\n",
     WAYLAND_TOLD.replace("end 1 sent 5 received 5 finished 5", "6 1290000 motion 1 UP 0@0,0\nend 1 sent 6 received 6 finished 6"),
     ["line 14: a finger goes up that is not down; it is written so, and verify refuses it"], "stream: NotWellFormed 7"),
    ("a move of an unknown finger", [], "[1.000] wl_touch@3.motion(10, 0, 1.0, 2.0)\n[1.001] wl_touch@3.frame()\n",
     section("wl_touch@3", "1 10000 motion 1 MOVE 0@1,2\n"), ["line 1: a finger moves that is not down; it is written so, and verify refuses it"],
     "stream: NotWellFormed 2"),
    ("a finger down twice", [], 2 * "[1.000] wl_touch@3.down(1, 10, wl_surface@5, 0, 1.0, 2.0)\n",
     section("wl_surface@5", 2 * "X 10000 motion 1 DOWN 0@1,2\n").replace("X", "1", 1).replace("X", "2", 1),
     ["line 2: a finger goes down that is down; it is written so, and verify refuses it"], "stream: NotWellFormed 3"),
    ("the second of two fingers down twice", [],
     "[1.000] wl_touch@3.down(1, 10, wl_surface@5, 0, 1.0, 2.0)\n" + 2 * "[1.000] wl_touch@3.down(1, 10, wl_surface@5, 1, 3.0, 4.0)\n",
     section("wl_surface@5", "1 10000 motion 1 DOWN 0@1,2\n2 10000 motion 1 POINTER_DOWN:1 0@1,2 1@3,4\n3 10000 motion 1 POINTER_DOWN:1 0@1,2 1@3,4\n"),
     ["line 3: a finger goes down that is down; it is written so, and verify refuses it"], "stream: NotWellFormed 4"),
    ("a finger on two surfaces at once", [],
     "[1.000] wl_touch@3.down(1, 10, wl_surface@5, 0, 1.0, 2.0)\n[2.000] wl_touch@3.down(2, 20, wl_surface@6, 0, 1.0, 2.0)\n",
     section("wl_surface@5", "1 10000 motion 1 DOWN 0@1,2\n") + section("wl_surface@6", "1 20000 motion 1 DOWN 0@1,2\n", 2),
     ["line 2: finger 0 goes down on wl_surface@6 and did not go up on wl_surface@5, which is told no end of it: no stream shows that by itself"],
     "well formed 2 2"),
    ("moves that no frame ends, a cancel of nothing, a cut call", [],
     "[1.000] wl_touch@3.cancel()\n[1.000] wl_touch@3.down(1, 10, wl_surface@5, 0, 1.0, 2.0)\n[2.000] wl_touch@3.motion(20, 0, 5.0, 6.0)\n"
     "[2.000] wl_touch@3.shape(0, 3.0, 2.0)\n[2.000] discarded wl_touch@3.motion(20, 0, 9.0, 9.0)\n[3.000] wl_touch@3.up(3, 3",
     section("wl_surface@5", "1 10000 motion 1 DOWN 0@1,2\n2 20000 motion 1 MOVE 0@5,6\n"),
     ["line 1: left out: wl_touch@3.cancel, and no finger is down that a window could be told of",
      "line 4: left out: no line of a stream says wl_touch.shape", "line 5: left out: a call that was discarded",
      "line 6: left out: the call of wl_touch is cut"], "well formed 1 2"),
    ("xinput", [],
     xi2(18, "TouchBegin", 33, "540.00", "1200.50") + xi2(18, "TouchBegin", 34, "10.00", "20.00") + xi2(19, "TouchUpdate", 33, "541.00", "1201.00")
     + xi2(20, "TouchEnd", 33, "541.00", "1201.00") + xi2(20, "TouchEnd", 34, "11.00", "20.00"),
     section("0x2200001", "1 4287612000 motion 1 DOWN 0@540,1201\n2 4287612000 motion 1 POINTER_DOWN:1 0@540,1201 1@10,20\n"
     "3 4287612000 motion 1 MOVE 0@541,1201 1@10,20\n4 4287612000 motion 1 POINTER_UP:0 0@541,1201 1@10,20\n5 4287612000 motion 1 UP 1@11,20\n"),
     [], "well formed 1 5"),
    ("xinput without times, and cut", [],
     xi2(6, "Motion", 0, "1.00", "1.00") + xi2(18, "TouchBegin", 33, "540.00", "1200.50", "") + xi2(20, "TouchEnd", 33, "1.00", "1.00", "")[:60],
     section("0x2200001", "1 0 motion 1 DOWN 0@540,1201\n"),
     ["line 1: left out: no line of a stream says Motion",
      "line 16: the event has no time: the moment of the one before is written, at first 0",
      "line 30: left out: the block of the event is cut, or has other lines"], "well formed 1 1"),
    ("finger lines", [],
     "finger main 1000 sdl1 down 77 1.5 2\nfinger main 2000 sdl1 down 78 3 4\nfinger main 3000 sdl1 motion 77 5 6\nfinger main 3000 sdl1 motion 78 7 8\n"
     "finger main 4000 sdl1 motion 77 6 6\nfinger main 5000 sdl1 cancel 77 6 6\nfinger main 6000 sdl1 cancel\nfinger main 7000 sdl1 mo",
     section("main", "1 1000 motion 1 DOWN 0@2,2\n2 2000 motion 1 POINTER_DOWN:1 0@2,2 1@3,4\n3 3000 motion 1 MOVE 0@5,6 1@7,8\n"
     "4 4000 motion 1 MOVE 0@6,6 1@7,8\n5 5000 motion 1 POINTER_UP:0 canceled 0@6,6 1@7,8\n6 6000 motion 1 CANCEL 1@7,8\n"),
     ["line 8: left out: the line of a finger is cut, or has other words"], "well formed 1 6"),
    ("moves of one finger at one moment", [], "finger main 1 d down 0 1 1\nfinger main 2 d motion 0 2 2\nfinger main 2 d motion 0 3 3\n",
     section("main", "1 1 motion 1 DOWN 0@1,1\n2 2 motion 1 MOVE 0@2,2\n3 2 motion 1 MOVE 0@3,3\n"), [], "well formed 1 3"),
    ("more devices than a stream has", [], "".join("finger main 1 d%d down 0 1 1\n" % k for k in range(9)),
     section("main", "".join("%d 1 motion %d DOWN 0@1,1\n" % (k, k) for k in range(1, 9))), ["line 9: left out: a stream has at most 8 devices"],
     "well formed 1 8"),
    ("names of windows", [], "finger é 1 d down 0 1 1\nfinger _ 1 d down 0 1 1\n",
     section("_", "1 1 motion 1 DOWN 0@1,1\n") + section("_~2", "1 1 motion 1 DOWN 0@1,1\n", 2),
     ["line 1: the window 'é' is written as _", "line 2: the window '_' is written as _~2"], "well formed 2 2"),
    ("17 fingers", [], "".join("finger main 1 d down %d 1 1\n" % k for k in range(17)), None,
     ["line 17: 17 fingers are listed, and a stream lists 1 to 16; it is written so, and verify refuses it"], "stream: BadLine 18"),
]
