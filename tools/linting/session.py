"""What the program refuses in a session: the rules of docs/SESSION.md, in the order of its table."""
from . import known, layout
from .findings import nearest, shown
from .reading import KINDS, Entry, Reading


class Judge(Reading):
    """Judges the parts of a session, one after the other."""

    def judge(self):
        document = self.plan.document
        self.display_zero(document)
        for extra in self.tables(document, "extra_display", 3):
            self.display(extra)
        self.number(document, "end_us", 0, known.LATEST_US)
        self.delays(document)
        node = document.node.get("repeat")
        if node is not None and self.has_kind(document, "repeat", node, "truth", "true or false"):
            document.said["repeat"] = node.value
        for k, device in enumerate(self.tables(document, "device", 8), 1):
            self.device(device, k)
        for channel in self.tables(document, "channel", 64):
            self.channel(channel)
        for step in self.tables(document, "step"):
            self.step(step)
        steps = document.node.get("step")
        if steps is not None and steps.kind == "array" and len(steps.value) > known.MOST_STEPS:
            message = "%d steps, and at most %d are run" % (len(steps.value), known.MOST_STEPS)
            self.findings.error(steps.value[known.MOST_STEPS].at, "step", message, "too long: steps")
        return self.plan

    def delays(self, document):
        """When a held key is repeated."""
        node = document.node.get("repeat_us")
        if node is None or not self.has_kind(document, "repeat_us", node, "array", "[first, next]"):
            return
        if [inner.kind for inner in node.value] != ["integer", "integer"]:
            self.wrong(document, "repeat_us", "two integers are wanted, [first, next]", node.at)
            return
        for inner in node.value:
            if not known.SHORTEST_DELAY_US <= inner.value <= known.LONGEST_DELAY_US:
                message = "%d is out of its range, which is %d to %d" % (inner.value, known.SHORTEST_DELAY_US, known.LONGEST_DELAY_US)
                self.out_of_range(document, "repeat_us", inner.value, message, inner.at)
                return
        document.said["repeat_us"] = tuple(inner.value for inner in node.value)

    def display_zero(self, document):
        node = self.node_at(document, "display")
        if node is not None and self.has_kind(document, "display", node, "table", "a table"):
            self.display(Entry(node, "display"))
        else:
            self.plan.displays.append(Entry(document.node, "display"))

    def display(self, entry):
        self.plan.displays.append(entry)
        self.number(entry, "width", 1, 16384, True)
        self.number(entry, "height", 1, 16384, True)
        node = entry.node.get("rotation")
        if node is not None and self.has_kind(entry, "rotation", node, "integer", "0, 90, 180 or 270"):
            if node.value in known.ROTATIONS:
                entry.said["rotation"] = node.value
            else:
                self.wrong(entry, "rotation", "%d is not 0, 90, 180 or 270" % node.value, node.at)

    def display_number(self, entry):
        count = len(self.plan.displays)
        self.number(entry, "display", 0, count - 1, why=", as the session has %d display%s" % (count, "s" * (count > 1)))

    def device(self, entry, k):
        self.word(entry, "kind", ("touch", "keys"))
        self.path(entry)
        self.plan.devices.append(entry)
        if entry.get("kind") == "touch":
            self.display_number(entry)
            self.number(entry, "slots", 1, 16)
            self.axis(entry, "x")
            self.axis(entry, "y")
        elif entry.get("kind") == "keys":
            node = self.text(entry, "layout", required=False)
            if node is not None:
                entry.said["layout"] = layout.judge(self.findings, entry.name + ".layout", k, node)

    def path(self, entry):
        node = self.text(entry, "path")
        if node is None:
            return
        path = entry.said.pop("path")
        same = [other.name for other in self.plan.devices if other.get("path") == path]
        if not path.startswith("/"):
            self.wrong(entry, "path", '"%s" does not begin with /' % shown(path), node.at)
        elif " " in path or "\t" in path:
            self.wrong(entry, "path", '"%s" has a space or a tab' % shown(path), node.at)
        elif same:
            self.wrong(entry, "path", "%s has this path already" % same[0], node.at)
        else:
            entry.said["path"] = path

    def axis(self, entry, key):
        node = self.node_at(entry, key)
        if node is None or not self.has_kind(entry, key, node, "array", "[least, greatest]"):
            return
        if [inner.kind for inner in node.value] != ["integer", "integer"]:
            self.wrong(entry, key, "two integers are wanted, [least, greatest]", node.at)
            return
        low, high = (inner.value for inner in node.value)
        if low > high:
            self.wrong(entry, key, "the least, %d, is above the greatest, %d" % (low, high), node.at)
        elif self.are_coordinates(entry, key, node):
            entry.said[key] = (low, high)

    def are_coordinates(self, entry, key, node):
        for inner in node.value:
            if not known.LEAST_32 <= inner.value <= known.GREATEST_32:
                self.out_of_range(entry, key, inner.value, "%d does not fit into 32 bits" % inner.value, inner.at)
                return False
        return True

    def channel(self, entry):
        node = self.text(entry, "name")
        if node is not None:
            self.channel_name(entry, node)
        self.plan.channels.append(entry)
        self.number(entry, "limit_ms", 1, 600000)
        self.number(entry, "finish_after_us", 0, known.LONGEST_FINISH_US)
        node = entry.node.get("finishes")
        if node is not None and self.has_kind(entry, "finishes", node, "truth", "true or false"):
            entry.said["finishes"] = node.value

    def channel_name(self, entry, node):
        name = entry.said.pop("name")
        self.names.add(name)
        same = [other.name for other in self.plan.channels if other.get("name") == name]
        bad = next((k for k, char in enumerate(name) if not "!" <= char <= "~"), None)
        if not name:
            self.wrong(entry, "name", "it is empty", node.at)
        elif bad is not None:
            message = '"%s" has a character that is not from ! to ~, as a space is not' % shown(name)
            self.wrong(entry, "name", message, node.place_of(bad))
        elif len(name) > 64:
            self.wrong(entry, "name", "%d bytes, and at most 64 may be there" % len(name), node.at)
        elif same:
            self.wrong(entry, "name", "%s has this name already" % same[0], node.at)
        else:
            entry.said["name"] = name

    def channel_named(self, entry, required=True):
        node = self.text(entry, "channel", required)
        if node is not None and node.value not in self.names:
            entry.said.pop("channel")
            message = 'no channel is named "%s"%s' % (shown(node.value), nearest(node.value, self.names))
            self.unknown(entry, "channel", message, node.at)

    def step(self, entry):
        self.plan.steps.append(entry)
        self.number(entry, "at_us", 0, known.LATEST_US, True)
        self.number(entry, "lane", 1, 8)
        self.word(entry, "do", tuple(known.STEP))
        do = entry.get("do")
        if do == "windows":
            entry.said["windows"] = []
            for window in self.tables(entry, "windows", 64, True):
                self.window(entry, window)
        elif do == "focus":
            self.display_number(entry)
            self.channel_named(entry, False)
        elif do in ("pilfer", "remove"):
            self.channel_named(entry)
        if do == "pilfer":
            count = len(self.plan.devices)
            self.number(entry, "device", 1, count, True, ", as the session has %d device%s" % (count, "s" * (count != 1)))

    def window(self, step, entry):
        self.wall(entry)
        if not entry.get("wall"):
            self.channel_named(entry)
        for other in step.said["windows"]:
            if entry.get("channel") and other.get("channel") == entry.get("channel"):
                self.wrong(entry, "channel", "%s is of this channel already" % other.name, entry.node.get("channel").at)
        step.said["windows"].append(entry)
        self.display_number(entry)
        node = self.node_at(entry, "frame")
        if node is not None:
            entry.said["frame"] = self.rectangle(entry, "frame", node)
        self.region(entry)
        self.flags(entry)
        self.number(entry, "owner", 0, 2**32 - 1)
        self.number(entry, "opacity", 0, 100)
        self.occlusion(entry)

    def wall(self, entry):
        """Whether a window is of nobody."""
        node, channel = entry.node.get("wall"), entry.node.get("channel")
        if node is not None and self.has_kind(entry, "wall", node, "truth", "true or false"):
            entry.said["wall"] = node.value
        if entry.get("wall") and channel is not None:
            self.wrong(entry, "channel", "a wall is of nobody, so it has no channel", channel.at)

    def rectangle_form(self, entry, key, node):
        """Whether a node is four integers in order."""
        if not self.has_kind(entry, key, node, "array", "[left, top, right, bottom]"):
            return False
        if [inner.kind for inner in node.value] != ["integer"] * 4:
            self.wrong(entry, key, "four integers are wanted, [left, top, right, bottom]", node.at)
            return False
        left, top, right, bottom = (inner.value for inner in node.value)
        if left > right:
            self.wrong(entry, key, "left, %d, is right of right, %d%s" % (left, right, self.extents_hint(node)), node.at)
        elif top > bottom:
            self.wrong(entry, key, "top, %d, is below bottom, %d%s" % (top, bottom, self.extents_hint(node)), node.at)
        return left <= right and top <= bottom

    def extents_hint(self, node):
        left, top, right, bottom = (inner.value for inner in node.value)
        return "; are the last two an extent? right and bottom are places" if right > 0 and bottom > 0 and left >= 0 and top >= 0 else ""

    def rectangle(self, entry, key, node):
        if self.rectangle_form(entry, key, node) and self.are_coordinates(entry, key, node):
            return tuple(inner.value for inner in node.value)
        return None

    def region(self, entry):
        node = entry.node.get("region")
        if node is None or not self.has_kind(entry, "region", node, "array", "an array of rectangles"):
            return
        formed = [inner for inner in node.value if self.rectangle_form(entry, "region", inner)]
        if len(node.value) > 64:
            message = "%d rectangles, and at most 64 may be there" % len(node.value)
            self.out_of_range(entry, "region", len(node.value), message, node.value[64].at)
        rectangles = [tuple(i.value for i in inner.value) for inner in formed if self.are_coordinates(entry, "region", inner)]
        if len(rectangles) == len(node.value):
            entry.said["region"] = rectangles

    def flags(self, entry):
        node = entry.node.get("flags")
        if node is None or not self.has_kind(entry, "flags", node, "array", "an array of texts"):
            return
        for inner in node.value:
            self.has_kind(entry, "flags", inner, "text", "a text")
        wrong = [inner for inner in node.value if inner.kind == "text" and inner.value not in known.FLAGS]
        for inner in wrong:
            hint = nearest(inner.value, known.FLAGS) or "; the flags are " + ", ".join(known.FLAGS)
            self.unknown(entry, "flags", '"%s" is no flag%s' % (shown(inner.value), hint), inner.at)
        if not wrong and all(inner.kind == "text" for inner in node.value):
            entry.said["flags"] = {inner.value for inner in node.value}
        for inner in node.value if entry.get("wall") else ():
            if inner.kind == "text" and inner.value in known.MESSAGE_FLAGS:
                self.wrong(entry, "flags", "a wall is sent nothing, so it cannot have %s" % inner.value, inner.at)

    def occlusion(self, entry):
        node = entry.node.get("occlusion")
        if node is None or not self.has_kind(entry, "occlusion", node, "text", "a text"):
            return
        if node.value in known.OCCLUSIONS:
            entry.said["occlusion"] = node.value
        else:
            self.wrong(entry, "occlusion", '"%s" is none of %s' % (shown(node.value), ", ".join(known.OCCLUSIONS)), node.at)
