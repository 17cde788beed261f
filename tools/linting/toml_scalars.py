"""The booleans, numbers, dates and times of TOML."""
import datetime
import re

DIGITS = r"[0-9](?:_?[0-9])*"
INTEGER = re.compile(r"[+-]?(?:0|[1-9](?:_?[0-9])*)")
RADIX = re.compile(r"0x[0-9A-Fa-f](?:_?[0-9A-Fa-f])*|0o[0-7](?:_?[0-7])*|0b[01](?:_?[01])*")
FLOAT = re.compile(r"[+-]?(?:0|[1-9](?:_?[0-9])*)(?:\.%s)?(?:[eE][+-]?%s)?" % (DIGITS, DIGITS))
NOT_FINITE = re.compile(r"[+-]?(?:inf|nan)")
DATE = re.compile(r"([0-9]{4})-([0-9]{2})-([0-9]{2})")
TIME = re.compile(r"([0-9]{2}):([0-9]{2})(?::([0-9]{2})(?:\.[0-9]+)?)?")
OFFSET = re.compile(r"[Zz]|[+-]([0-9]{2}):([0-9]{2})")


def is_date(text):
    found = DATE.fullmatch(text)
    if not found:
        return False
    try:
        # The year 0 is one of TOML, and not of datetime: it has the days of the year 2000.
        year = int(found[1])
        datetime.date(year or 2000, int(found[2]), int(found[3]))
    except ValueError:
        return False
    return True


def is_time(text):
    found = TIME.fullmatch(text)
    return bool(found) and int(found[1]) < 24 and int(found[2]) < 60 and int(found[3] or 0) <= 60


def is_moment(word):
    parts = re.split("[Tt ]", word, maxsplit=1)
    if len(parts) == 1:
        return is_date(word) or is_time(word)
    offset = re.search(r"(?:[Zz]|[+-][0-9]{2}:[0-9]{2})$", parts[1])
    time = parts[1]
    if offset:
        found = OFFSET.fullmatch(offset.group())
        if found[1] and (int(found[1]) > 23 or int(found[2]) > 59):
            return False
        time = time[: offset.start()]
    return is_date(parts[0]) and is_time(time)


def scalar_of(word):
    """The kind and the value that a word writes; None and why not, where it writes none."""
    if word in ("true", "false"):
        return "truth", word == "true"
    if re.match(r"[0-9]+[-:]", word):
        return ("moment", word) if is_moment(word) else (None, "%s is no date and no time" % word)
    if INTEGER.fullmatch(word) or RADIX.fullmatch(word):
        if RADIX.fullmatch(word):
            number = int(word.replace("_", ""), 0)
        else:
            # Python reads no more than some thousand decimal digits.
            number = int(word.replace("_", "")) if len(word) < 1000 else 2**63
        if not -(2**63) <= number < 2**63:
            return None, "%s does not fit into 64 bits" % word[:40]
        return "integer", number
    if NOT_FINITE.fullmatch(word):
        return "float", float(word)
    if FLOAT.fullmatch(word):
        number = float(word.replace("_", ""))
        if number in (float("inf"), float("-inf")):
            return None, "%s is too great for a float" % word[:40]
        return "float", number
    return None, "%s is no value; a text stands in quotes" % word[:40]
