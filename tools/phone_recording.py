"""Records what getevent prints on a phone, line by line as it comes, until it is told to end."""
import contextlib
import os
import re
import signal
import subprocess
import sys
import tempfile
import time

import evdev_names as names
from adb import reason
from plain_ends import Refused, counted, say
from recording_text import NO_MOMENT, begins_as_event, event_of

GETEVENT = ["getevent", "-t", "-v39"]
# How long adb has for its end after Ctrl-C, and then again after an interrupt of its own.
PATIENCE = 2.0
# How often the line that says how far it is changes, in seconds.
OFTEN = 0.2
# What adb, or the phone's shell, says where the phone cannot give adb a terminal by -tt.
TOO_OLD = re.compile(r"PTY args|unknown option|usage: adb shell|-tt: not found")


class Lines:
    """Writes what comes as whole lines that end in LF, and counts what it writes. `tool` says on a terminal how far it is."""

    def __init__(self, file, tool):
        self.file, self.tool, self.rest, self.interrupted = file, tool, b"", False
        self.count, self.events, self.fingers, self.paths, self.bad, self.denied = 0, 0, 0, set(), [], []
        self.front, self.told, self.terminal = "", 0.0, sys.stderr.isatty()

    def take(self, data):
        *lines, self.rest = (self.rest + data).split(b"\n")
        for line in lines:
            self.line(line)
        self.file.flush()
        if self.terminal and time.monotonic() - self.told > OFTEN:
            self.progress()

    def progress(self):
        self.told = time.monotonic()
        sys.stderr.write("\r\033[K%s: %s, %s" % (self.tool, counted(self.events, "event"), counted(self.fingers, "finger")))
        sys.stderr.flush()

    def line(self, line):
        line = line.rstrip(b"\r")
        if self.interrupted:
            # The terminal of the phone shows the key that ended getevent.
            line = line.replace(b"^C", b"")
            if not line:
                return
        self.count += 1
        text = line.decode("utf-8", "surrogateescape")
        event = event_of(text)
        if event:
            self.events += 1
            self.paths.add(event.path)
            self.fingers += (event.kind, event.code) == (names.EV_ABS, names.ABS_MT_TRACKING_ID) and event.value >= 0
        elif begins_as_event(text) or NO_MOMENT.fullmatch(text):
            self.bad.append(self.count)
        elif "Permission denied" in text:
            self.denied.append(text)
        self.front = self.front or text
        self.file.write(line + b"\n")

    def close(self):
        """The last line is kept where it is a whole event. What was cut is given back."""
        if self.terminal:
            self.progress()
            sys.stderr.write("\n")
        rest = self.rest.replace(b"^C", b"") if self.interrupted else self.rest
        text = rest.rstrip(b"\r").decode("utf-8", "surrogateescape")
        if event_of(text):
            self.line(rest)
            return ""
        return text


class Ending:
    """Ends adb at Ctrl-C: by the key on the phone's terminal, then by an interrupt, then at once."""

    SIGNALS = (signal.SIGINT, signal.SIGTERM, signal.SIGHUP, signal.SIGALRM)

    def __init__(self, process, lines):
        self.process, self.lines, self.ways = process, lines, [self.key, self.interrupt, self.kill]
        self.begun = False

    def __enter__(self):
        self.before = [signal.signal(number, self.next) for number in self.SIGNALS]
        return self

    def __exit__(self, *_):
        signal.setitimer(signal.ITIMER_REAL, 0)
        for number, handler in zip(self.SIGNALS, self.before):
            signal.signal(number, handler)

    def key(self):
        self.begun = self.lines.interrupted = True
        try:
            os.write(self.process.stdin.fileno(), b"\x03")
        except OSError:
            self.interrupt()

    def interrupt(self):
        os.killpg(self.process.pid, signal.SIGINT)

    def kill(self):
        os.killpg(self.process.pid, signal.SIGKILL)

    def next(self, *_):
        if self.ways:
            with contextlib.suppress(ProcessLookupError):
                self.ways.pop(0)()
            signal.setitimer(signal.ITIMER_REAL, PATIENCE)


def run(command, lines):
    """Runs adb to its end. Its status, what it said on standard error, and whether it was ended here."""
    with tempfile.TemporaryFile() as errors:
        process = subprocess.Popen(
            command, stdin=subprocess.PIPE, stdout=subprocess.PIPE, stderr=errors, start_new_session=True
        )
        with Ending(process, lines) as ending:
            while data := os.read(process.stdout.fileno(), 65536):
                lines.take(data)
            status = process.wait()
        errors.seek(0)
        return status, reason(errors.read().decode("utf-8", "replace")), ending.begun


def record(command, lines):
    """Records with a terminal on the phone, or without one where adb or the phone is too old for that."""
    status, said, begun = run(command + ["shell", "-tt", *GETEVENT], lines)
    if not begun and not lines.events and TOO_OLD.search(said + lines.front):
        say(lines.tool, "the phone gives no terminal to adb; what it has not sent at Ctrl-C may be lost")
        status, said, begun = run(command + ["shell", *GETEVENT], lines)
    return status, said, begun


def tell(lines, cut, name):
    if cut:
        say(lines.tool, "the last line was cut and is left out: %s" % cut)
    for number in lines.bad:
        say(lines.tool, "%s: line %d begins as an event and is none; the program refuses it" % (name, number))
    for line in lines.denied:
        say(lines.tool, line.strip())
    counts = [counted(lines.events, "event"), counted(len(lines.paths), "device"), counted(lines.fingers, "finger")]
    say(lines.tool, "%s has %s of %s, with %s" % (name, *counts))


def recorded(command, file, name, tool):
    """Records to a file that is open, until Ctrl-C. What came until then stands in the file where it breaks off. Gives the lines."""
    lines = Lines(file, tool)
    status, said, begun = record(command, lines)
    cut = lines.close()
    file.flush()
    if not begun and not lines.events:
        raise Refused("adb ended with status %d: %s" % (status, said or cut or "it said nothing"))
    tell(lines, cut, name)
    if not begun:
        raise Refused("the recording broke off: adb ended with status %d: %s" % (status, said or "it said nothing"))
    if not lines.events:
        raise Refused("no event came: was the screen touched, and may the shell read /dev/input?")
    return lines
