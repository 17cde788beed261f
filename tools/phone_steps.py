"""The steps of tools/phone after the recording. Each leaves a file in the folder."""
import os
import re
import subprocess
import sys
import webbrowser

import answering
from dumpsys_input import dump_of
from plain_ends import Refused
from recording_text import bytes_of, event_of, text_of

TOOLS = os.path.dirname(os.path.abspath(__file__))
PAGE = os.path.join(answering.TOP, "viewer/make")
# What a phone says of itself, by the name of the property.
NAMES = [("model", "ro.product.model"), ("android", "ro.build.version.release"), ("build", "ro.build.fingerprint")]
COMMANDS = [("inspect", "inspect.txt"), ("replay", "streams.txt"), ("why", "causes.txt")]
# The fingers and keys that are printed on the terminal.
SHOWN = 20


class Folder:
    """A folder with the files of one recording."""

    def __init__(self, path):
        self.path = path

    def name(self, name):
        return os.path.join(self.path, name)

    def has(self, name):
        return os.path.exists(self.name(name))

    def write(self, name, data):
        with open(self.name(name), "wb") as file:
            file.write(data)

    def files(self):
        return ["--session", self.name("session.toml"), "--events", self.name("recording.txt")]

    def lines(self, name):
        return text_of(bytes_of(self.name(name))).all_lines()

    def make(self, name, words):
        """Writes what a program prints, which has to end with status 0, to a file; gives what it said on standard error."""
        done = subprocess.run(words, stdin=subprocess.DEVNULL, capture_output=True, check=False)
        said = done.stderr.decode("utf-8", "replace")
        if done.returncode != 0:
            last = (said.strip().splitlines() or ["it said nothing"])[-1]
            raise Refused("%s: status %d: %s" % (os.path.basename(words[0]) + " " + words[1], done.returncode, last))
        self.write(name, done.stdout)
        return said


def has_event(path):
    with open(path, encoding="utf-8", errors="surrogateescape") as file:
        return any(event_of(line.rstrip("\n")) for line in file)


def program(given, said):
    """The program, asked for once."""
    if given:
        return os.path.abspath(given)
    try:
        return answering.program_or_quick_run(said)
    except answering.NoProgram as error:
        raise Refused("%s; --program names one" % error) from None


def session(folder, said):
    """The session, from the recording and the dump. An existing one is kept."""
    if folder.has("session.toml"):
        said("%s exists and is kept" % folder.name("session.toml"))
        return
    words = [sys.executable, os.path.join(TOOLS, "session"), "--getevent", folder.name("recording.txt")]
    words += ["--dumpsys", folder.name("dump.txt")] if folder.has("dump.txt") else []
    notes = folder.make("session.toml", words)
    folder.write("session.txt", notes.encode())
    if notes:
        said("%d notes on what a session cannot say are in %s" % (notes.count("\n"), folder.name("session.txt")))
    if folder.has("dump.txt") and folder.has("dump_end.txt"):
        first, last = (shown(dump_of(folder.lines(name))) for name in ("dump.txt", "dump_end.txt"))
        if first != last:
            said("windows or displays changed during the recording; the session has those of %s" % folder.name("dump.txt"))


def shown(dump):
    """What of a dump decides who is touched."""
    windows = [(w.name, w.display, w.frame, w.region, w.names) for w in dump.windows if w.visible()]
    return windows, dump.viewports, dump.focus


def lint(folder, program, said):
    """What lint has to say, in its file and on standard error."""
    words = [sys.executable, os.path.join(TOOLS, "lint"), *folder.files()[1:], "--program", program]
    done = subprocess.run(words, stdin=subprocess.DEVNULL, capture_output=True, check=False)
    if done.returncode not in (0, 1):
        raise Refused(done.stderr.decode("utf-8", "replace").strip())
    folder.write("lint.txt", done.stdout)
    for line in (done.stdout + done.stderr).decode("utf-8", "replace").splitlines():
        said(line)
    if not done.stdout + done.stderr:
        said("lint finds nothing")


def down(line, names):
    """What a line of the causes says of a finger or a key that goes down, or None."""
    finger = re.match(r"(\d+) down (\d+) (\d+) (\S+) .* row (\w+) chosen \S+ spies (\S+) .* given (\S+) mute", line)
    key = re.match(r"(\d+) key (\d+) (\d+) down target \S+ given (\S+)", line)
    if not (finger or key):
        return None
    moment = "%d.%06d s" % divmod(int((finger or key)[1]), 1000000)
    if key:
        return "%s: key %s goes to %s" % (moment, key[3], names.get(key[4], "nobody"))
    spies, given = ([channel for channel in text.split(",") if channel != "-"] for text in (finger[6], finger[7]))
    own = ", ".join(names.get(channel, channel) for channel in given if channel not in spies) or "nobody"
    watch = ", ".join(names.get(channel, channel) for channel in given if channel in spies)
    row = "%s: finger %s at %s goes to %s (row %s)" % (moment, finger[3], finger[4], own, finger[5])
    return row + (", and is seen by %s" % watch if watch else "")


def why(folder, said):
    """Which window was given each finger and key, by the causes, in the order in which they went down."""
    names = dict(re.findall(r"^channel (\d+) (\S+)$", "\n".join(folder.lines("streams.txt")), re.M))
    rows = [row for row in (down(line, names) for line in folder.lines("causes.txt")) if row]
    for row in rows[:SHOWN]:
        said(row)
    if len(rows) > SHOWN:
        said("%d more are in %s" % (len(rows) - SHOWN, folder.name("causes.txt")))


def show(page, closed, said):
    """Opens the page where there is a browser with a window."""
    windowed = sys.platform == "darwin" or any(name in os.environ for name in ("BROWSER", "DISPLAY", "WAYLAND_DISPLAY"))
    opened = windowed and not closed and webbrowser.open("file://" + os.path.abspath(page))
    said("the page is %s%s" % (page, "" if opened or closed else "; no browser was found to open it"))
