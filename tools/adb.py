"""adb: where it is, which phone it is to talk to, and what the phone says."""
import os
import re
import shutil
import subprocess

from plain_ends import Refused

NO_ADB = (
    "adb is not on the PATH; it comes with Android's platform tools (Debian: apt-get install adb). "
    "The phone needs USB debugging, in its developer options"
)
# What to do about a phone that adb lists and cannot use.
STATES = {
    "unauthorized": "allow USB debugging on its screen",
    "offline": "pull its cable and plug it in again",
    "no permissions": "this user may not open it (udev rules; Debian: apt-get install android-sdk-platform-tools-common)",
    "recovery": "it is in recovery; boot it",
    "bootloader": "it is in its bootloader; boot it",
}
SECONDS = 60


def path():
    found = shutil.which("adb")
    if found is None:
        raise Refused(NO_ADB)
    return found


def reason(text):
    """What adb said on standard error, without that it started its server."""
    return "; ".join(line.strip() for line in text.splitlines() if line.strip() and not line.startswith("* "))


def run(words):
    """What adb prints for these words, as bytes. It has to end with status 0."""
    try:
        done = subprocess.run(words, stdin=subprocess.DEVNULL, capture_output=True, timeout=SECONDS, check=False)
    except subprocess.TimeoutExpired:
        raise Refused("adb does not answer: %s" % " ".join(words[1:])) from None
    if done.returncode != 0:
        said = reason(done.stderr.decode("utf-8", "replace")) or "it said nothing"
        raise Refused("%s: adb ended with status %d: %s" % (" ".join(words[1:]), done.returncode, said))
    return done.stdout


def phones(adb):
    """The phones that adb lists, each with its state."""
    rows = re.findall(r"^(\S+)[ \t]+(\S.*?)\r?$", run([adb, "devices"]).decode("utf-8", "replace"), re.M)
    return [(serial, state) for serial, state in rows if serial != "List" and not serial.startswith("*")]


def which(serials):
    return "several phones are connected; choose one with --serial: %s" % ", ".join(serials)


def command(serial=None):
    """The words that adb is called with for one phone: that of the serial number, else the only one."""
    adb = path()
    serial = serial or os.environ.get("ANDROID_SERIAL")
    listed = phones(adb)
    ready = [other for other, state in listed if state == "device"]
    if serial:
        if serial not in ready:
            raise Refused("phone %s is not connected%s" % (serial, "; connected: %s" % ", ".join(ready) if ready else ""))
        return [adb, "-s", serial]
    if len(ready) > 1:
        raise Refused(which(ready))
    if ready:
        return [adb, "-s", ready[0]]
    for other, state in listed:
        for word, what in STATES.items():
            if state.startswith(word):
                raise Refused("%s is %s: %s" % (other, word, what))
    raise Refused("adb sees no phone: is it plugged in, and is USB debugging on, in its developer options?")
