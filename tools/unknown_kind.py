"""What a file that is no recording looks like, for the one line that refuses it."""
import re
import struct

MAGIC = [
    (b"\x89PNG", "a PNG image"), (b"\xff\xd8\xff", "a JPEG image"), (b"GIF8", "a GIF image"), (b"RIFF", "a RIFF file"),
    (b"PK\x03\x04", "a zip archive; unpack it first"), (b"\xfd7zXZ\x00", "packed with xz; unpack it first"),
    (b"BZh", "packed with bzip2; unpack it first"), (b"\x28\xb5\x2f\xfd", "packed with zstd; unpack it first"),
    (b"7z\xbc\xaf", "a 7z archive; unpack it first"), (b"%PDF", "a PDF document"), (b"\x7fELF", "an ELF program"),
    (b"SQLite format 3", "an SQLite database"),
]

# Those in front are reported first: what getevent prints without -t may have a list of devices before it.
TEXTS = [
    (r"^\s*(/\S*:\s+)?[0-9a-fA-F]{4} +[0-9a-fA-F]{4} +[0-9a-fA-F]{8}", "what getevent prints without -t: no moments; record with getevent -t"),
    (r"^\s*(/\S*:\s+)?EV_[A-Z]+\s+\S+\s+\S+", "what getevent -l prints without -t: no moments; record with getevent -t"),
    (r"^\s*add device \d+: /", "what getevent -p prints, for tools/session; it has no events"),
    (r"^\s*sendevent /", "a script of sendevent, which has no moments"),
    (r"Input Dispatcher State|Event Hub State|DUMP OF SERVICE input", "what dumpsys input prints: for tools/session"),
    (r"^[- ]event\d+\s+[A-Z_]+\s+\+", "what libinput debug-events prints, which is no event of the kernel"),
    (r"^\s*\[\[?(display|device|channel|step)\]?\]", "a session; its recording is another file"),
    (r"\Achannel \d+ \S+$", "streams, as replay prints them"),
    (r"MotionEvent \{ ?action=", "a log of MotionEvent, which has no events of the kernel"),
    (r"wl_touch@\d+\.", "a log of WAYLAND_DEBUG, which has no events of the kernel"),
    (r"^EVENT type \d+ \(", "what xinput test-xi2 prints, which has no events of the kernel"),
    (r"^\[ *\d+\.\d+\] [A-Za-z]", "a log of the kernel, as dmesg prints it"),
    (r"^<\?xml|^<!DOCTYPE|^<html", "XML or HTML"),
    (r"\A\s*[\[{]\s*[\"{\[]", "JSON"),
]


def is_events(data, form):
    """Whether bytes are events as `cat /dev/input/event2` gives them: seconds, microseconds, type, code, value."""
    size = struct.calcsize(form)
    if len(data) < size:
        return False
    rows = [struct.unpack_from(form, data, at) for at in range(0, min(len(data) // size, 64) * size, size)]
    fits = all(micros < 1000000 and kind < 0x20 and code < 0x300 for _, micros, kind, code, _ in rows)
    return fits and any(kind == 0 and code == 0 for _, _, kind, code, _ in rows)


def looks_like(data, text):
    """What bytes look like that are of no known kind."""
    if not data:
        return "the file is empty"
    for magic, name in MAGIC:
        if data.startswith(magic):
            return "no recording: it looks like %s" % name
    for form, bits in (("<QQHHi", 64), ("<IIHHi", 32)):
        if is_events(data, form):
            return "no recording: it looks like struct input_event of %d bits in binary; record with getevent -t" % bits
    if b"\x00" in data and "UTF-16" not in text.kept and "gzip" not in text.kept:
        return "no recording: it is binary, of no kind that is known here"
    whole = "\n".join(text.all_lines()[:10000])
    for form, name in TEXTS:
        if re.search(form, whole, re.M):
            return "no recording: it looks like %s" % name
    return "no recording: a text, and not of getevent -t, getevent -lt, evemu, libinput record or evtest"
