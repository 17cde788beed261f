"""How values of a session are read at their keys: what is not there, of another kind, out of its range or malformed."""
from .findings import nearest, one_of, shown

KINDS = {
    "table": "a table",
    "array": "an array",
    "text": "a text",
    "integer": "an integer",
    "float": "a number with a point",
    "truth": "a truth value",
    "moment": "a date or a time",
}


class Entry:
    """An entry of the plan: its table, the key in front of its keys, and what was read of it."""

    def __init__(self, node, name):
        self.node = node
        self.name = name
        self.said = {}

    def at(self, key):
        """Where the value of a key begins; where the table does, if the key is not there."""
        node = self.node.get(key)
        return node.at if node else self.node.at

    def get(self, key, default=None):
        value = self.said.get(key)
        return default if value is None else value


class Plan:
    """What a session says, as far as it can be read."""

    def __init__(self, document):
        self.document = Entry(document, "")
        self.displays = []
        self.devices = []
        self.channels = []
        self.steps = []


class Reading:
    """Reads values, and says what is wrong with them."""

    def __init__(self, findings, document):
        self.findings = findings
        self.plan = Plan(document)
        # All names of channels, those that are refused too: a step that has one is not wrong for it.
        self.names = set()

    # How values are read: each gives what it read, or None, and says what is wrong.

    def key_of(self, entry, key):
        return "%s.%s" % (entry.name, key) if entry.name else key

    def wrong(self, entry, key, message, at=None):
        full = self.key_of(entry, key)
        self.findings.error(at or entry.at(key), full, message, "session: Wrong " + full)

    def unknown(self, entry, key, message, at=None):
        full = self.key_of(entry, key)
        self.findings.error(at or entry.at(key), full, message, "session: UnknownName " + full)

    def out_of_range(self, entry, key, value, message, at=None):
        full = self.key_of(entry, key)
        self.findings.error(at or entry.at(key), full, message, "session: OutOfRange %s %d" % (full, value))

    def node_at(self, entry, key):
        """The node of a key that has to be there."""
        node = entry.node.get(key)
        if node is None:
            full = self.key_of(entry, key)
            self.findings.error(entry.node.at, full, "it is not there", "session: Missing " + full)
        return node

    def has_kind(self, entry, key, node, kind, wanted):
        if node.kind == kind:
            return True
        value = " " + shown(node.value) if node.kind in ("text", "integer", "float") else ""
        self.wrong(entry, key, "%s is wanted, and this is %s%s" % (wanted, KINDS[node.kind], value), node.at)
        return False

    def number(self, entry, key, low, high, required=False, why=""):
        node = self.node_at(entry, key) if required else entry.node.get(key)
        if node is None or not self.has_kind(entry, key, node, "integer", "an integer from %d to %d" % (low, high)):
            return
        if low <= node.value <= high:
            entry.said[key] = node.value
        else:
            wanted = "%d to %d" % (low, high) if low <= high else "none at all"
            message = "%d is out of its range, which is %s%s" % (node.value, wanted, why)
            self.out_of_range(entry, key, node.value, message, node.at)

    def text(self, entry, key, required=True):
        node = self.node_at(entry, key) if required else entry.node.get(key)
        if node is not None and self.has_kind(entry, key, node, "text", "a text"):
            entry.said[key] = node.value
            return node
        return None

    def word(self, entry, key, words):
        node = self.text(entry, key)
        if node is not None and node.value not in words:
            entry.said.pop(key)
            self.wrong(entry, key, '"%s" is not %s%s' % (shown(node.value), one_of(words), nearest(node.value, words)), node.at)

    def tables(self, entry, key, most=None, required=False):
        """The tables of an array, as entries."""
        node = self.node_at(entry, key) if required else entry.node.get(key)
        if node is None:
            return []
        if node.kind == "table":
            double = "; its header stands in double brackets, [[%s]]" % key if not entry.name else ""
            self.wrong(entry, key, "an array of tables is wanted, and this is a table%s" % double, node.at)
            return []
        if not self.has_kind(entry, key, node, "array", "an array of tables"):
            return []
        bad = [inner for inner in node.value if inner.kind != "table"]
        if bad:
            self.wrong(entry, key, "each entry has to be a table, and one is %s" % KINDS[bad[0].kind], bad[0].at)
        if most is not None and len(node.value) > most:
            over = node.value[most].at
            self.out_of_range(entry, key, len(node.value), "%d entries, and at most %d may be there" % (len(node.value), most), over)
        full = self.key_of(entry, key)
        return [Entry(inner, "%s[%d]" % (full, k)) for k, inner in enumerate(node.value, 1) if inner.kind == "table"]
