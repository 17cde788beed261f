"""Where a reader of TOML stands in its text, and the blanks, keys and texts there. The rest is in toml_places."""
import bisect
import re

BARE = re.compile(r"[A-Za-z0-9_-]+")
CONTROL = re.compile(r"[\x00-\x08\x0b-\x1f\x7f]")
COMMENT = r"#[^\x00-\x08\x0a-\x1f\x7f]*(?=\r?\n|\Z)"
SPACES = re.compile(r"[ \t]*")
BLANK = re.compile(r"(?:[ \t\n]+|\r\n|%s)*" % COMMENT)
LINE_END = re.compile(r"[ \t]*(?:%s)?(?:\r?\n|\Z)" % COMMENT)
PLAIN = {quote: re.compile(r"[^\x00-\x08\x0a-\x1f\x7f%s]+" % plain) for quote, plain in (('"', r'"\\'), ("'", "'"))}
ESCAPES = {"b": "\b", "t": "\t", "n": "\n", "f": "\f", "r": "\r", "e": "\x1b", '"': '"', "\\": "\\"}
HEX_ESCAPES = {"x": 2, "u": 4, "U": 8}


class BadToml(Exception):
    """The text is no TOML: why, and where."""

    def __init__(self, message, line, column):
        super().__init__(message)
        self.message = message
        self.line = line
        self.column = column


class Node:
    """A value: its kind (table, array, text, integer, float, truth or moment), what it is, and where it begins.

    The value of a table is a dict of entries, each a pair of the key's place and a node; that of an array a list of nodes."""

    def __init__(self, kind, value, at, origin="value"):
        self.kind = kind
        self.value = value
        self.at = at
        # What made a table: `implicit` (a header that passed through it), `dotted`, `header`, or `value`, which is closed.
        # An array of tables that a header may add to is `header` too.
        self.origin = origin
        # Of a text: where each of its characters stands, and what makes a place of that.
        self.offsets = []
        self.place = None

    def place_of(self, k):
        """Where the k-th character of a text stands, or the text begins."""
        return self.place(self.offsets[k]) if k < len(self.offsets) else self.at

    def get(self, key):
        """The node at a key of a table, or None."""
        entry = self.value.get(key)
        return entry[1] if entry else None

    def key_at(self, key):
        """Where a key of a table stands, or where the table begins."""
        entry = self.value.get(key)
        return entry[0] if entry else self.at


class Texts:
    """Reads blanks, keys and texts, and moves on."""

    def __init__(self, text):
        self.text = text
        self.at = 1 if text.startswith("\ufeff") else 0
        self.starts = [0] + [m.end() for m in re.finditer("\n", text)]
        self.root = Node("table", {}, (1, 1), "header")
        self.header = []

    def place(self, at):
        line = bisect.bisect_right(self.starts, at)
        return line, at - self.starts[line - 1] + 1 - (1 if line == 1 and self.text.startswith("\ufeff") else 0)

    def fail(self, message, at=None):
        raise BadToml(message, *self.place(self.at if at is None else at))

    def here(self, text):
        return self.text.startswith(text, self.at)

    def take(self, text, message):
        if not self.here(text):
            self.fail(message)
        self.at += len(text)

    # Blanks, comments and newlines.

    def spaces(self):
        self.at = SPACES.match(self.text, self.at).end()

    def newline(self):
        """Whether a newline was taken; a carriage return stands in front of one alone."""
        if self.here("\r\n"):
            self.at += 2
        elif self.here("\n"):
            self.at += 1
        else:
            return False
        return True

    def blank(self):
        self.at = BLANK.match(self.text, self.at).end()
        if self.here("#"):
            self.fail("a control character in a comment", CONTROL.search(self.text, self.at).start())

    def end_of_line(self):
        found = LINE_END.match(self.text, self.at)
        if not found:
            self.spaces()
            if self.here("#"):
                self.fail("a control character in a comment", CONTROL.search(self.text, self.at).start())
            self.fail("nothing but a comment may follow on this line")
        self.at = found.end()

    # Keys.

    def simple_key(self):
        if self.here('"""') or self.here("'''"):
            self.fail("a key cannot be a text of several lines")
        if self.here('"') or self.here("'"):
            return self.quoted().value
        found = BARE.match(self.text, self.at)
        if not found:
            self.fail("a key is wanted here")
        self.at = found.end()
        return found.group()

    def dotted_key(self):
        """The parts of a key, each with its place."""
        parts = []
        while True:
            self.spaces()
            at = self.place(self.at)
            parts.append((self.simple_key(), at))
            self.spaces()
            if not self.here("."):
                return parts
            self.at += 1

    # Texts.

    def escape(self, multi, chars, offsets):
        start = self.at
        self.at += 1
        if multi:
            end = self.at
            self.spaces()
            if self.newline():
                while self.at < len(self.text) and (self.text[self.at] in " \t" or self.here("\n") or self.here("\r\n")):
                    self.at += 1
                return
            self.at = end
        letter = self.text[self.at : self.at + 1]
        self.at += 1
        if letter in HEX_ESCAPES:
            digits = self.text[self.at : self.at + HEX_ESCAPES[letter]]
            if not re.fullmatch("[0-9A-Fa-f]{%d}" % HEX_ESCAPES[letter], digits):
                self.fail("an escape wants %d hexadecimal digits" % HEX_ESCAPES[letter], start)
            code = int(digits, 16)
            if code > 0x10FFFF or 0xD800 <= code <= 0xDFFF:
                self.fail("an escape of no character", start)
            self.at += len(digits)
            chars.append(chr(code))
        elif letter and letter in ESCAPES:
            chars.append(ESCAPES[letter])
        else:
            self.fail("no such escape", start)
        offsets.append(start)

    def part(self, quote, multi, chars, offsets):
        """Plain characters of a text, or an escape, a newline or a quote."""
        plain = PLAIN[quote].match(self.text, self.at)
        start, char = self.at, self.text[self.at]
        if plain:
            chars.append(plain.group())
            offsets.extend(range(start, plain.end()))
            self.at = plain.end()
        elif quote == '"' and char == "\\":
            self.escape(multi, chars, offsets)
        elif self.newline():
            chars.append("\n")
            offsets.append(start)
        elif CONTROL.match(char):
            self.fail("a control character in a text")
        else:
            chars.append(char)
            offsets.append(start)
            self.at += 1

    def quoted(self):
        start = self.at
        quote = self.text[start]
        multi = self.here(quote * 3)
        close = quote * 3 if multi else quote
        self.at += len(close)
        chars, offsets = [], []
        if multi:
            self.newline()
        while not self.here(close):
            if self.at >= len(self.text):
                self.fail("the text that begins here has no end", start)
            if not multi and (self.here("\n") or self.here("\r\n")):
                self.fail("the text that begins here has no end on its line", start)
            self.part(quote, multi, chars, offsets)
        self.at += len(close)
        # One or two quotes may stand in front of the three that close.
        for _ in range(2):
            if multi and self.here(quote):
                chars.append(quote)
                offsets.append(self.at - len(close))
                self.at += 1
        node = Node("text", "".join(chars), self.place(start))
        node.offsets, node.place = offsets, self.place
        return node
