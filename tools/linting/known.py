"""The names that a session may have, after docs/SESSION.md."""

DOCUMENT = ("display", "extra_display", "end_us", "repeat_us", "repeat", "device", "channel", "step")
DISPLAY = ("width", "height", "rotation")
DEVICE = {"touch": ("kind", "path", "display", "slots", "x", "y"), "keys": ("kind", "path", "layout")}
CHANNEL = ("name", "limit_ms", "finish_after_us", "finishes")
STEP = {
    "windows": ("at_us", "lane", "do", "windows"),
    "focus": ("at_us", "lane", "do", "display", "channel"),
    "pilfer": ("at_us", "lane", "do", "channel", "device"),
    "remove": ("at_us", "lane", "do", "channel"),
}
WINDOW = ("wall", "channel", "display", "frame", "region", "flags", "owner", "opacity", "occlusion")
FLAGS = ("NOT_TOUCHABLE", "SPY", "PREVENT_SPLITTING", "SLIPPERY", "WATCH_OUTSIDE_TOUCH", "NOT_FOCUSABLE", "TRUSTED_OVERLAY")
# Flags that ask for messages, so a wall cannot have them.
MESSAGE_FLAGS = ("SPY", "PREVENT_SPLITTING", "SLIPPERY", "WATCH_OUTSIDE_TOUCH")
OCCLUSIONS = ("block", "opacity", "allow")
ROTATIONS = (0, 90, 180, 270)

# The key names that have a key code.
KEY_NAMES = frozenset(
    ["UNKNOWN", "HOME", "BACK", "VOLUME_UP", "VOLUME_DOWN", "POWER", "ALT_LEFT", "ALT_RIGHT", "SHIFT_LEFT", "SHIFT_RIGHT"]
    + ["TAB", "SPACE", "ENTER", "DEL", "MENU", "ESCAPE", "CTRL_LEFT", "CTRL_RIGHT"]
    + list("0123456789ABCDEFGHIJKLMNOPQRSTUVWXYZ")
)

LEAST_32, GREATEST_32 = -(2**31), 2**31 - 1
LATEST_US = 10**18
LONGEST_FINISH_US = 10**15
SHORTEST_DELAY_US, LONGEST_DELAY_US = 1000, 600000000
MOST_STEPS = 100000
LONGEST_SESSION = 4 << 20
LONGEST_RECORDING = 32 << 20
LONGEST_LINE = 4096
