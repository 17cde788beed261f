"""Reports of a suite: TAP, JUnit XML as GitLab, Jenkins and the readers of pytest's reports take it, and reports that are joined."""
import html
import os
import re
import shutil
import sys
import tempfile
import time
import xml.etree.ElementTree as ElementTree

from .cases import Failed
from .outcomes import Outcome

# What XML 1.0 cannot hold.
NOT_XML = re.compile("[^\t\n\r\x20-\ud7ff\ue000-\ufffd\U00010000-\U0010ffff]")
TAGS = {"failed": "failure", "error": "error", "skipped": "skipped"}
STATES = {tag: state for state, tag in TAGS.items()}


def printable(text):
    return "".join(char if char.isprintable() else repr(char)[1:-1] for char in text)


def tap_lines(number, outcome):
    # In TAP a # begins a directive.
    name = printable(outcome.name).replace("#", "\\#")
    if outcome.state == "skipped":
        return ["ok %d - %s # SKIP %s" % (number, name, outcome.message)]
    word = "ok" if outcome.state == "passed" else "not ok"
    told = ["# accepted: %s" % outcome.message] if outcome.accepted else []
    return ["%s %d - %s" % (word, number, name)] + told + ["# " + line for line in outcome.lines]


class Counts:
    """How many cases came to what, and how long their runs took together."""

    def __init__(self):
        self.total = self.failed = self.error = self.skipped = self.passed = self.accepted = 0
        self.seconds = 0.0

    def add(self, outcome):
        self.total += 1
        setattr(self, outcome.state, getattr(self, outcome.state) + 1)
        self.accepted += outcome.accepted
        self.seconds += outcome.seconds

    def status(self):
        return 2 if self.error else 1 if self.failed else 0

    def line(self):
        parts = ["%d passed" % self.passed, "%d failed" % self.failed, "%d skipped" % self.skipped]
        parts[1:1] = ["of which %d accepted" % self.accepted] if self.accepted else []
        parts += ["%d not run" % self.error] if self.error else []
        return "%d case%s: %s" % (self.total, "s" * (self.total != 1), ", ".join(parts))


def quote(text):
    """A text as an attribute, in one line."""
    return '"%s"' % html.escape(NOT_XML.sub("?", text)).replace("\n", " ")


class Junit:
    """Writes a report. Cases go to a file of their own first, since what counts them stands in front."""

    def __init__(self, name, properties=()):
        self.name, self.properties, self.counts = name, list(properties), Counts()
        self.stamp = time.strftime("%Y-%m-%dT%H:%M:%S", time.gmtime())
        self.cases = tempfile.TemporaryFile("w+", encoding="utf-8", errors="replace")

    def add(self, outcome):
        self.counts.add(outcome)
        folder = os.path.dirname(outcome.name).replace("/", ".")
        head = '    <testcase classname=%s name=%s time="%.3f"' % (
            quote(self.name + ("." + folder if folder else "")), quote(outcome.name), outcome.seconds)
        tag = TAGS.get(outcome.state)
        if not tag:
            self.cases.write(head + " />\n")
            return
        text = html.escape(NOT_XML.sub("?", "\n".join(outcome.lines)), quote=False)
        inner = "<%s message=%s>%s</%s>" % (tag, quote(outcome.message), text, tag) if text else "<%s message=%s />" % (tag, quote(outcome.message))
        self.cases.write("%s>\n      %s\n    </testcase>\n" % (head, inner))

    def head(self):
        counts = self.counts
        numbers = (counts.total, counts.failed, counts.error, counts.skipped, counts.seconds, self.stamp)
        yield '<?xml version="1.0" encoding="UTF-8"?>\n<testsuites>\n  <testsuite name=%s' % quote(self.name)
        yield ' tests="%d" failures="%d" errors="%d" skipped="%d" time="%.3f" timestamp="%s">\n' % numbers
        if self.properties:
            rows = ["      <property name=%s value=%s />\n" % (quote(name), quote(value)) for name, value in self.properties]
            yield "    <properties>\n%s    </properties>\n" % "".join(rows)

    def write(self, path):
        """Writes the whole report to a file, or to standard output for `-`."""
        if path == "-":
            self.write_to(sys.stdout)
            return
        try:
            with open(path, "w", encoding="utf-8") as file:
                self.write_to(file)
        except OSError as error:
            raise Failed("%s: %s" % (path, error.strerror)) from None

    def write_to(self, file):
        file.writelines(self.head())
        self.cases.seek(0)
        shutil.copyfileobj(self.cases, file)
        file.write("  </testsuite>\n</testsuites>\n")


class Read:
    """A report as it was read: the name of its suite, its properties, and its outcomes."""

    def __init__(self):
        self.name, self.properties, self.outcomes = "", {}, []


def outcome_of(part):
    """The outcome that an element `testcase` tells."""
    name, seconds = part.get("name") or "", part.get("time") or "0"
    seconds = float(seconds) if re.fullmatch(r"[0-9]+(\.[0-9]+)?", seconds) else 0.0
    for inner in part:
        if inner.tag in STATES:
            lines = (inner.text or "").strip("\n").split("\n") if inner.text and inner.text.strip() else []
            return Outcome(name, STATES[inner.tag], inner.get("message") or "", lines, seconds)
    return Outcome(name, "passed", "", (), seconds)


def read(path):
    """The report of a file, or of standard input for `-`."""
    found = Read()
    try:
        with open(0 if path == "-" else path, "rb", closefd=path != "-") as file:
            for event, part in ElementTree.iterparse(file, ("start", "end")):
                if event == "start" and part.tag == "testsuite":
                    found.name = found.name or part.get("name") or ""
                elif event == "end" and part.tag == "property":
                    found.properties[part.get("name")] = part.get("value") or ""
                elif event == "end" and part.tag == "testcase":
                    found.outcomes.append(outcome_of(part))
                    part.clear()
    except OSError as error:
        raise Failed("%s: %s" % (path, error.strerror)) from None
    except ElementTree.ParseError as error:
        raise Failed("%s: no JUnit report: %s" % (path, error)) from None
    if not found.name:
        raise Failed("%s: no JUnit report: it has no testsuite" % path)
    return found


def failed_names(path):
    """The names of the cases that a report has as failed, or as not tried."""
    return {outcome.name for outcome in read(path).outcomes if outcome.state in ("failed", "error")}


def shards_of(reports):
    """Says what is missing or twice among reports of shards. Those that name no shard are whole ones."""
    told = {}
    for path, report in reports:
        shard = report.properties.get("shard")
        if shard is None:
            continue
        if shard in told:
            raise Failed("shard %s is in %s and in %s" % (shard, told[shard], path))
        told[shard] = path
    totals = {shard.partition("/")[2] for shard in told}
    if len(totals) > 1:
        raise Failed("the shards are of %s" % " and of ".join(sorted(totals)))
    for total in totals:
        missing = [k for k in range(1, int(total) + 1) if "%d/%s" % (k, total) not in told]
        if missing:
            raise Failed("of %s shards there is no report of %s" % (total, ", ".join(map(str, missing))))


def joined(paths):
    """The suite's name and the outcomes of several reports, by the names of the cases."""
    reports = [(path, read(path)) for path in paths]
    shards_of(reports)
    found = {}
    for path, report in reports:
        for outcome in report.outcomes:
            if outcome.name in found:
                raise Failed("%s is in %s and in %s" % (outcome.name, found[outcome.name][0], path))
            found[outcome.name] = (path, outcome)
    return reports[0][1].name, [found[name][1] for name in sorted(found)]
