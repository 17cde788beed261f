"""What only a run tells: `inspect`'s hints, and the fingers that `why` tells nobody is given."""
import re
import subprocess

from plain_ends import counted

from .findings import seconds

# Hints that lint has lines of its own for, where it says anything of the device.
OWN = re.compile(r"device (\d+) (?:silent|single touch|protocol A|no fingers|no keys|clamped|still down)\b.*")
DOWN = re.compile(r"^(\d+) down (\d+) (\d+) (-?\d+,-?\d+) .* given - mute (\S+) outside \S+$", re.M)
SECONDS = 600


class NoRun(Exception):
    """Why there was no run, as one line."""


def run(program, command, session, events):
    words = [program, command, "--session", session, "--events", events]
    try:
        done = subprocess.run(words, stdin=subprocess.DEVNULL, capture_output=True, timeout=SECONDS, check=False)
    except OSError as error:
        raise NoRun("%s: %s" % (program, error.strerror)) from None
    except subprocess.TimeoutExpired:
        raise NoRun("%s: no answer in %d seconds" % (command, SECONDS)) from None
    if done.returncode != 0:
        lines = done.stderr.decode("utf-8", "replace").strip().splitlines() or ["it said nothing"]
        raise NoRun("%s: status %d: %s" % (command, done.returncode, lines[-1]))
    return done.stdout.decode("utf-8", "replace")


def hints(findings, told, plan, text):
    """The hints of `inspect`, but those about a device of which something is said already."""
    for line in text.splitlines():
        if not line.startswith("hint "):
            continue
        own = OWN.fullmatch(line[5:])
        if own:
            number = int(own[1])
            name, path = "device[%d]" % number, plan.devices[number - 1].get("path")
            said = [finding for finding in findings.all + told.all if finding.key.startswith(name) or str(path) in finding.message]
            if said:
                continue
        told.warning((1, 1), "", "inspect prints: %s" % line)


def nobody(told, text):
    """The fingers that go down and are given to no window."""
    found = DOWN.findall(text)
    if not found:
        return
    downs = len(re.findall(r"^\d+ down ", text, re.M))
    moment, device, number, place, mute = found[0]
    why = "no window is under it" if mute == "-" else "its windows are unresponsive"
    message = "%d of %s given to nobody, the first at %s: finger %s of device %s at %s, because %s"
    counts = (len(found), counted(downs, "finger") + (" is" if len(found) == 1 else " are"))
    told.warning((1, 1), "", message % (*counts, seconds(int(moment)), number, device, "(%s)" % place.replace(",", ", "), why))


def judge(findings, told, plan, program, session, events):
    """Runs both files, which the program takes, and says what that tells. `session` and `events` are paths."""
    hints(findings, told, plan, run(program, "inspect", session, events))
    nobody(told, run(program, "why", session, events))
