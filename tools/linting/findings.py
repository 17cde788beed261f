"""What lint has to say: each finding with its place."""
import difflib


class Finding:
    """A fault: the file and the place, the level (`error` where the program refuses, else `warning`), the key, what is wrong, and
    for an error the line with which the program refuses, if it is the first."""

    def __init__(self, file, at, level, key, message, refusal=None):
        self.file = file
        self.at = at
        self.level = level
        self.key = key
        self.message = message
        self.refusal = refusal

    def __str__(self):
        place = "%s:%d:%d" % ((self.file,) + self.at) if self.at else self.file
        return "%s: %s: %s%s" % (place, self.level, self.key + ": " if self.key else "", self.message)


class Findings:
    """The findings about one file, in the order in which the program would come to them."""

    def __init__(self, file):
        self.file = file
        self.all = []

    def error(self, at, key, message, refusal):
        self.all.append(Finding(self.file, at, "error", key, message, refusal))

    def warning(self, at, key, message):
        self.all.append(Finding(self.file, at, "warning", key, message))

    def refusal(self):
        """The line with which the program refuses the file, or None."""
        return next((finding.refusal for finding in self.all if finding.level == "error"), None)

    def by_place(self):
        return sorted(self.all, key=lambda finding: finding.at or (0, 0))


def seconds(moment):
    return "%d.%06d s" % divmod(moment, 1000000)


def shown(value, most=40):
    """A value as a message shows it."""
    text = value if isinstance(value, str) else repr(value)
    text = text.encode("unicode_escape").decode("ascii")
    return text if len(text) <= most else text[:most] + ".."


def nearest(word, known):
    """A hint at the known name that is most like a word, or nothing."""
    if len(word) > 100:
        return ""
    lower = {name.lower(): name for name in sorted(known)}
    found = difflib.get_close_matches(word.lower(), lower, 1, 0.6)
    return '; did you mean "%s"?' % lower[found[0]] if found else ""


def one_of(words):
    """Words as a list in a sentence."""
    words = list(words)
    return words[0] if len(words) == 1 else ", ".join(words[:-1]) + " or " + words[-1]
