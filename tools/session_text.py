"""Pieces of a session file."""
import json
import re


def comment(text):
    """A text as a comment: one line, of what may stand in TOML."""
    return "# " + "".join(c if c.isprintable() else "?" for c in text)


def text(value):
    """A text of plain ASCII as a value."""
    return json.dumps(value)


def table(name, *lines):
    return ["", "[[%s]]" % name, *lines]


def numbers(values):
    return "[%s]" % ", ".join(str(value) for value in values)


def channel_name(name, taken):
    """A name of 1 to 64 bytes from ! to ~ that no other channel has, as near to this one as can be."""
    plain = re.sub(r"[^!-~]+", "_", name)[:64] or "window"
    plain = plain.replace('"', "'").replace("\\", "/")
    found, count = plain, 1
    while found in taken:
        count += 1
        end = "~%d" % count
        found = plain[: 64 - len(end)] + end
    taken.add(found)
    return found
