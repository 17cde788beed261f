"""A reader of TOML 1.1 that keeps the line and the column of each key and value. tomllib keeps neither, and reads TOML 1.0.

`read(bytes)` gives the document as a Node of kind `table`, or raises BadToml with a place. Lines and columns count from 1, and
columns count characters."""
import re

from .toml_scalars import scalar_of
from .toml_texts import BadToml, Node, Texts

# Arrays and inline tables stand in one another at most so deep.
DEEPEST = 80

WORD = re.compile(r"[A-Za-z0-9_.:+-]+(?: (?=[0-9])[A-Za-z0-9_.:+-]+)?")
LONE_WORD = re.compile(r"[A-Za-z0-9_.:+-]+")


class Reader(Texts):
    # Values.

    def value(self, depth):
        if self.here('"') or self.here("'"):
            return self.quoted()
        if self.here("["):
            return self.array(depth)
        if self.here("{"):
            return self.inline_table(depth)
        return self.scalar()

    def array(self, depth):
        node = Node("array", [], self.place(self.at))
        if depth == 0:
            self.fail("arrays and tables stand more than %d deep" % DEEPEST)
        self.at += 1
        while True:
            self.blank()
            if self.here("]"):
                break
            if self.at >= len(self.text):
                raise BadToml("the array that begins here has no end", *node.at)
            node.value.append(self.value(depth - 1))
            self.blank()
            if not self.here("]"):
                self.take(",", "a comma or a ] is wanted here")
        self.at += 1
        return node

    def inline_table(self, depth):
        node = Node("table", {}, self.place(self.at), "header")
        if depth == 0:
            self.fail("arrays and tables stand more than %d deep" % DEEPEST)
        self.at += 1
        while True:
            self.blank()
            if self.here("}"):
                break
            if self.at >= len(self.text):
                raise BadToml("the table that begins here has no end", *node.at)
            self.pair(node, depth - 1)
            self.blank()
            if not self.here("}"):
                self.take(",", "a comma or a } is wanted here")
        self.at += 1
        node.origin = "value"
        return node

    def scalar(self):
        start = self.at
        found = LONE_WORD.match(self.text, start)
        if not found:
            self.fail("a value is wanted here")
        if re.match("[0-9]{4}-", found.group()):
            found = WORD.match(self.text, start)
        self.at = found.end()
        kind, value = scalar_of(found.group())
        if kind is None:
            self.fail(value, start)
        return Node(kind, value, self.place(start))

    # What defines tables.

    def pair(self, table, depth):
        parts = self.dotted_key()
        self.take("=", "a = is wanted behind the key")
        self.spaces()
        value = self.value(depth)
        for name, at in parts[:-1]:
            if name not in table.value:
                table.value[name] = (at, Node("table", {}, at, "dotted"))
            table = table.get(name)
            if table.kind != "table" or table.origin in ("header", "value"):
                raise BadToml("%s has its value already" % name, *at)
            table.origin = "dotted"
        name, at = parts[-1]
        if name in table.value:
            raise BadToml("%s stands twice, first in line %d" % (name, table.key_at(name)[0]), *at)
        table.value[name] = (at, value)

    def table_of_header(self, path):
        """The table at a path of headers: the last entry, where an array of tables is on the way."""
        table = self.root
        for name, at in path:
            if name not in table.value:
                table.value[name] = (at, Node("table", {}, at, "implicit"))
            table = table.get(name)
            if table.origin == "value":
                raise BadToml("%s has its value already" % name, *at)
            if table.kind == "array":
                table = table.value[-1]
        return table

    def take_header(self):
        start = self.place(self.at)
        many = self.here("[[")
        self.at += 2 if many else 1
        path = self.dotted_key()
        self.take("]]" if many else "]", "a %s is wanted here" % ("]]" if many else "]"))
        table = self.table_of_header(path[:-1])
        name, at = path[-1]
        found = table.get(name)
        entry = Node("table", {}, start, "header")
        if found is None:
            table.value[name] = (start, Node("array", [entry], start, "header") if many else entry)
        elif many and found.kind == "array" and found.origin == "header":
            found.value.append(entry)
        elif not many and found.kind == "table" and found.origin == "implicit":
            found.origin, found.at = "header", start
        else:
            raise BadToml("%s stands already, first in line %d" % (name, table.key_at(name)[0]), *at)
        self.header = path

    def document(self):
        while True:
            self.blank()
            if self.at >= len(self.text):
                return self.root
            if self.here("["):
                self.take_header()
            else:
                self.pair(self.table_of_header(self.header), DEEPEST)
            self.end_of_line()


def read(data):
    """The document that these bytes write."""
    try:
        text = data.decode("utf-8")
    except UnicodeDecodeError as error:
        before = data[: error.start].decode("utf-8")
        line = before.count("\n") + 1
        raise BadToml("not UTF-8", line, len(before) - (before.rfind("\n") + 1) + 1) from None
    return Reader(text).document()
