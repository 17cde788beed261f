"""The bytes of a recording as lines, in whichever way they were kept, and the lines that `getevent -t` prints."""
import re
import sys
import zlib
from typing import NamedTuple

from plain_ends import Refused

EVENT = re.compile(
    r"[ \t]*\[[ \t]*(\d{1,12})\.(\d{6})[ \t]*\][ \t]+(?:(/\S*):[ \t]+)?"
    r"([0-9a-fA-F]{4})[ \t]+([0-9a-fA-F]{4})[ \t]+([0-9a-fA-F]{8})[ \t]*"
)
# A line that the program refuses for want of a moment.
NO_MOMENT = re.compile(r"[ \t]*(/.*|[0-9a-fA-F]{4}[ \t]+[0-9a-fA-F]{4}[ \t]+[0-9a-fA-F]{8}[ \t]*)")


class Event(NamedTuple):
    """An event of the kernel: its moment in microseconds, the device's path or None, and what it says."""

    moment: int
    path: str
    kind: int
    code: int
    value: int

    def line(self):
        path = self.path + ": " if self.path else ""
        numbers = (self.kind, self.code, self.value & 0xFFFFFFFF)
        return "[%8d.%06d] %s" % (*divmod(self.moment, 1000000), path) + "%04x %04x %08x" % numbers


def signed(value):
    """A number of 32 bits as two's complement."""
    return value - (1 << 32) if value >> 31 else value


def event_of(line):
    """The event of a line of `getevent -t`, or None where it has another form."""
    found = EVENT.fullmatch(line)
    if not found:
        return None
    seconds, fraction, path, kind, code, value = found.groups()
    moment = int(seconds) * 1000000 + int(fraction)
    return Event(moment, path, int(kind, 16), int(code, 16), signed(int(value, 16)))


def begins_as_event(line):
    return line.lstrip(" \t").startswith("[")


def bytes_of(name):
    """The bytes of a file, or of standard input for `-`."""
    if name == "-":
        try:
            return sys.stdin.buffer.read()
        except OSError as error:
            error.filename = "standard input"
            raise
    with open(name, "rb") as file:
        return file.read()


def unpacked(data):
    """What is packed with gzip, and whether it was cut."""
    texts, cut = [], False
    while data.startswith(b"\x1f\x8b"):
        unpack = zlib.decompressobj(31)
        try:
            texts.append(unpack.decompress(data) + unpack.flush())
        except zlib.error as error:
            raise Refused("begins as a gzip file and is none: %s" % error) from error
        cut = cut or not unpack.eof
        data = unpack.unused_data
    return b"".join(texts), cut


def is_plain(byte):
    return 32 <= byte < 127 or byte in b"\t\r\n"


def wide(data):
    """The name of the UTF-16 that bytes are in, or None. PowerShell writes it with a mark in front."""
    if data.startswith(b"\xff\xfe"):
        return "utf-16-le"
    if data.startswith(b"\xfe\xff"):
        return "utf-16-be"
    pairs = [(data[k], data[k + 1]) for k in range(0, min(len(data), 400) - 1, 2)]
    if pairs and all(high == 0 and is_plain(low) for low, high in pairs):
        return "utf-16-le"
    if pairs and all(high == 0 and is_plain(low) for high, low in pairs):
        return "utf-16-be"
    return None


class Text(NamedTuple):
    """A file as text: its lines without their ends, what stands behind the last end, how it was kept, what was lost."""

    lines: list
    rest: str
    kept: list
    said: list

    def all_lines(self):
        return self.lines + ([self.rest] if self.rest else [])


def text_of(data):
    """The text of bytes that may be packed with gzip and in UTF-16. Bytes that are no UTF-8 stay what they are."""
    kept, said = [], []
    if data.startswith(b"\x1f\x8b"):
        data, cut = unpacked(data)
        kept.append("gzip")
        if cut:
            said.append("the gzip file is cut; what stands before the cut is taken")
    name = wide(data)
    if name:
        kept.append("UTF-16")
        text = data[: len(data) & ~1].decode(name, "replace").lstrip("\ufeff")
    else:
        text = data.decode("utf-8", "surrogateescape").removeprefix("\ufeff")
    lines = [line.rstrip("\r") for line in text.split("\n")]
    return Text(lines[:-1], lines[-1], kept, said)
