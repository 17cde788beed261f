"""Whom a window may mislead, in the keys of a session, from what dumpsys tells of it since Android 12."""
import re
from decimal import Decimal
from typing import NamedTuple

OCCLUSIONS = {"BLOCK_UNTRUSTED": "block", "USE_OPACITY": "opacity", "ALLOW": "allow"}
# Every window has one of these since Android 12. A window without them gets no owner: Android blocked no touch before.
SINCE_12 = ("alpha", "touchOcclusionMode", "trustedOverlay", "inputConfig")


class Trust(NamedTuple):
    """Whose window it is, its opacity in per cent, and whether a touch may go through it to a window of another owner."""

    owner: int = 0
    opacity: int = 100
    occlusion: str = "block"

    def parts(self):
        """The keys whose values are not the defaults."""
        parts = ["owner = %d" % self.owner] if self.owner else []
        parts += ["opacity = %d" % self.opacity] if self.opacity != 100 else []
        return parts + (['occlusion = "%s"' % self.occlusion] if self.occlusion != "block" else [])


def owner_of(text):
    """A user id of 32 bits. Android 12 and 13 print it with a sign: -1 is the id of nobody, 4294967295 with Android 14."""
    owner = int(text) if re.fullmatch(r"-?\d{1,10}", text) else None
    return None if owner is None or not -(2**31) <= owner < 2**32 else owner % 2**32


def opacity_of(text):
    """An alpha of 0 to 1 to the nearest per cent, halves up, as its decimals say it."""
    if not re.fullmatch(r"-?\d+(\.\d*)?([eE][+-]?\d{1,2})?", text):
        return None
    return min(max(int(Decimal(text) * 100 + Decimal("0.5")), 0), 100)


KEYS = {"ownerUid": ("owner", owner_of), "alpha": ("opacity", opacity_of), "touchOcclusionMode": ("occlusion", OCCLUSIONS.get)}


def tells(values):
    """Whether a window is of a version that says whom it may mislead."""
    return any(key in values for key in SINCE_12)


def read(values):
    """The keys of a window that say whom it may mislead, each with what it says: a text up to a comma, and its value or None."""
    texts = {key: values[key].partition(",")[0].strip() for key in KEYS if key in values and tells(values)}
    return {key: (text, KEYS[key][1](text)) for key, text in texts.items()}


def trust_of(values):
    """What a session says of a window; a key that is absent or not known has its default."""
    return Trust(**{KEYS[key][0]: value for key, (_, value) in read(values).items() if value is not None})


def unknown(values):
    """The values of these keys that are not known."""
    return ["the %s %s is not known" % (key, text) for key, (text, value) in read(values).items() if value is None]
